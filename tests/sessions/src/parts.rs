//! What one thread does in a session beside the others.

use crate::asked::{ask, look_at};
use crate::meeting::{all_come, meet};
use std::alloc::{AllocError, Global};
use std::sync::Wait;
use std::sync::atomic::AtomicU64;
use std::thread;
use std::thread::Threads;
use tpl_graph::Graph;
use tpl_items::QueuePass;
use tpl_model::{Answer, Event, SiteId, Status, TaskId, TokenId};
use tpl_runtime::{Asked, Ended, Item, Looked, Seat, Session, Watcher};

/// How often a watcher looks.
const LOOKS: usize = 1_000;

/// How long the one who halts lets the workers come to wait, once a box is called.
const PAUSE: usize = 1_000;

/// The first task.
pub const FIRST: TaskId = TaskId(0);

/// Whose flag a box waits for that is to be let go from outside: no box that is called has this site.
const OUTSIDE: SiteId = SiteId(1);

/// What one thread does.
#[derive(Drop)]
pub enum Role {
    /// It works, and ends in this way.
    Works(Ended),
    Requests(TokenId),
    Watches(Watcher),
    Looks,
    Halts,
}

/// What one thread does it with, and whether it went as it must.
#[derive(Drop)]
pub struct Part<W> {
    pub seat: Seat,
    pub pass: QueuePass<Vec<W>>,
    pub role: Role,
    pub well: bool,
}

/// Looks once more: at what was seen before, and perhaps more, which is kept.
fn looks_again(watcher: &mut Watcher, before: &mut Vec<Event>) -> Result<bool, AllocError> {
    let count = watcher.look() as usize;
    let list = watcher.list();
    let begins = list.len() == count && list.starts_with(before.as_slice());
    before.clear();
    before.extend_from_slice(list)?;
    Ok(begins)
}

/// Looks a thousand times.
fn watches(alloc: Global, watcher: &mut Watcher) -> Result<bool, AllocError> {
    let mut before: Vec<Event> = Vec::new(alloc);
    for _ in 0..LOOKS {
        if !looks_again(watcher, &mut before)? {
            return Ok(false);
        }
        thread::yield_now();
    }
    Ok(true)
}

/// Works until it ends, and says whether it ends as expected.
fn works<'g, R: Wait, K: Drop, W: Item<K>>(
    rt: &R,
    session: &Session<'g, K, W>,
    seat: Seat,
    pass: QueuePass<Vec<W>>,
    how: Ended,
) -> (Seat, QueuePass<Vec<W>>, bool) {
    let (seat, pass, ended) = session.work(rt, seat, pass);
    (seat, pass, ended == how)
}

/// Halts the session once the first box is called and the other workers had time to wait, and lets the box go.
pub fn halts<'g, R: Wait, K: Drop, W: Item<K>>(
    rt: &R,
    session: &Session<'g, K, W>,
    flags: &[AtomicU64],
) -> bool {
    let called = all_come(flags, 1);
    for _ in 0..PAUSE {
        thread::yield_now();
    }
    session.halt(rt);
    called && meet(flags, OUTSIDE, true) == Answer::Done
}

/// Whether it is reported to a seat outside that the first task runs.
fn sees_it_run<'g, R: Wait, K: Drop, W: Item<K>>(
    rt: &R,
    graph: &Graph,
    session: &Session<'g, K, W>,
    seat: &mut Seat,
) -> bool {
    let running = Looked::At {
        status: Status::Running,
        place: 1,
    };
    look_at(rt, graph, session, seat, FIRST) == Some(running)
}

/// Looks at the first task once its box is called, and lets the box go.
fn looks_beside<'g, R: Wait, K: Drop, W: Item<K>>(
    rt: &R,
    graph: &Graph,
    session: &Session<'g, K, W>,
    flags: &[AtomicU64],
    seat: &mut Seat,
) -> bool {
    let called = all_come(flags, 1);
    let seen = sees_it_run(rt, graph, session, seat);
    called && seen && meet(flags, OUTSIDE, true) == Answer::Done
}

/// Does the part of one thread.
fn play<'g, R: Wait, K: Drop, W: Item<K>>(
    rt: &R,
    alloc: Global,
    graph: &Graph,
    session: &Session<'g, K, W>,
    flags: &[AtomicU64],
    part: Part<W>,
) -> Part<W> {
    let Part {
        mut seat,
        mut pass,
        mut role,
        ..
    } = part;
    let well = match &mut role {
        Role::Works(how) => {
            let (back, own, well) = works(rt, session, seat, pass, *how);
            seat = back;
            pass = own;
            well
        }
        Role::Requests(token) => {
            let asked = ask(rt, graph, session, &mut seat, &mut pass, *token);
            matches!(asked, Some(Asked::Place(_)))
        }
        Role::Watches(watcher) => watches(alloc, watcher).unwrap_or(false),
        Role::Looks => looks_beside(rt, graph, session, flags, &mut seat),
        Role::Halts => halts(rt, session, flags),
    };
    Part {
        seat,
        pass,
        role,
        well,
    }
}

/// Does the parts in a thread each.
pub fn side_by_side<'g, R: Threads + Wait + Sync, K: Drop + Send, W: Item<K> + Send>(
    rt: &R,
    alloc: Global,
    graph: &Graph,
    session: &Session<'g, K, W>,
    flags: &[AtomicU64],
    parts: Vec<Part<W>>,
) -> Result<Vec<Part<W>>, AllocError> {
    thread::map_vec(
        rt,
        parts,
        &|part: Part<W>| -> Part<W> { play(rt, alloc, graph, session, flags, part) },
    )
}
