//! What is done in a session step by step, and what is to come of each step.

use crate::asked::{ask, look_at};
use std::alloc::Global;
use std::sync::Wait;
use tpl_graph::Graph;
use tpl_items::QueuePass;
use tpl_model::{Actor, Event, TaskId, TokenId};
use tpl_runtime::{Asked, Ended, Item, Looked, Seat, SeatFault, Session, Sight, Watcher};

/// What is done, and what is to come of it. Seats and watchers have numbers, in the order in which they were made.
#[derive(Clone, Copy)]
pub enum Step {
    /// An actor gets a seat.
    Seat(Actor),
    /// An actor gets none.
    NoSeat(Actor, SeatFault),
    /// A seat requests a token.
    Request(usize, TokenId, Asked),
    /// A seat looks at a task.
    Look(usize, TaskId, Looked),
    /// A seat works until it ends so.
    Work(usize, Ended),
    /// The session is halted.
    Halt,
    /// There is a new watcher.
    Watch,
    /// This was last reported to a seat.
    Last(usize, (u32, Sight)),
    /// A seat did this many events.
    Did(usize, usize),
    /// A watcher looks, and sees this many events.
    See(usize, u32),
    /// A watcher has seen this event at this place, counted from 0.
    Saw(usize, usize, Event),
}

/// The seats and watchers that were made, each until it is handed in.
#[derive(Drop)]
pub struct Hands {
    pub seats: Vec<Option<Seat>>,
    pub watchers: Vec<Option<Watcher>>,
}

/// Whether an actor gets a seat, which is kept.
fn is_seated<R: Wait, K: Drop, W: Item<K>>(
    rt: &R,
    alloc: Global,
    session: &Session<'_, K, W>,
    seats: &mut Vec<Option<Seat>>,
    actor: Actor,
) -> bool {
    match session.seat(rt, alloc, actor) {
        Ok(seat) => seats.push(Some(seat)).is_ok(),
        Err(_) => false,
    }
}

/// Why an actor gets no seat.
fn refused_seat<R: Wait, K: Drop, W: Item<K>>(
    rt: &R,
    alloc: Global,
    session: &Session<'_, K, W>,
    actor: Actor,
) -> Option<SeatFault> {
    session.seat(rt, alloc, actor).err()
}

/// What a seat is answered that requests a token.
fn asked<R: Wait, K: Drop, W: Item<K>>(
    rt: &R,
    graph: &Graph,
    session: &Session<'_, K, W>,
    pass: &mut QueuePass<Vec<W>>,
    seats: &mut [Option<Seat>],
    seat: usize,
    token: TokenId,
) -> Option<Asked> {
    match seats.get_mut(seat) {
        Some(Some(seat)) => ask(rt, graph, session, seat, pass, token),
        _ => None,
    }
}

/// What a seat is answered that looks at a task.
fn looked<R: Wait, K: Drop, W: Item<K>>(
    rt: &R,
    graph: &Graph,
    session: &Session<'_, K, W>,
    seats: &mut [Option<Seat>],
    seat: usize,
    task: TaskId,
) -> Option<Looked> {
    match seats.get_mut(seat) {
        Some(Some(seat)) => look_at(rt, graph, session, seat, task),
        _ => None,
    }
}

/// How a seat ends that works. It is kept again.
fn worked<R: Wait, K: Drop, W: Item<K>>(
    rt: &R,
    session: &Session<'_, K, W>,
    pass: QueuePass<Vec<W>>,
    seats: &mut [Option<Seat>],
    number: usize,
) -> (QueuePass<Vec<W>>, Option<Ended>) {
    let Some(place) = seats.get_mut(number) else {
        return (pass, None);
    };
    let Some(seat) = place.take() else {
        return (pass, None);
    };
    let (seat, pass, ended) = session.work(rt, seat, pass);
    *place = Some(seat);
    (pass, Some(ended))
}

/// Whether there is a new watcher, which is kept.
fn is_watched<K: Drop, W: Item<K>>(
    alloc: Global,
    session: &Session<'_, K, W>,
    watchers: &mut Vec<Option<Watcher>>,
) -> bool {
    match session.watch(alloc) {
        Ok(watcher) => watchers.push(Some(watcher)).is_ok(),
        Err(_) => false,
    }
}

/// Whether a seat has this.
fn is_seats(seats: &[Option<Seat>], step: Step) -> bool {
    match step {
        Step::Last(number, last) => match seats.get(number) {
            Some(Some(seat)) => seat.last() == Some(last),
            _ => false,
        },
        Step::Did(number, count) => match seats.get(number) {
            Some(Some(seat)) => seat.mine().len() == count,
            _ => false,
        },
        _ => false,
    }
}

/// Whether a watcher sees this.
fn is_seen(watchers: &mut [Option<Watcher>], step: Step) -> bool {
    match step {
        Step::See(number, count) => match watchers.get_mut(number) {
            Some(Some(watcher)) => watcher.look() == count,
            _ => false,
        },
        Step::Saw(number, place, event) => match watchers.get(number) {
            Some(Some(watcher)) => watcher.list().get(place).copied() == Some(event),
            _ => false,
        },
        _ => false,
    }
}

/// Whether a step goes as it must in which nobody works.
fn goes<R: Wait, K: Drop, W: Item<K>>(
    rt: &R,
    alloc: Global,
    graph: &Graph,
    session: &Session<'_, K, W>,
    pass: &mut QueuePass<Vec<W>>,
    hands: &mut Hands,
    step: Step,
) -> bool {
    let Hands { seats, watchers } = hands;
    match step {
        Step::Seat(actor) => is_seated(rt, alloc, session, seats, actor),
        Step::NoSeat(actor, why) => refused_seat(rt, alloc, session, actor) == Some(why),
        Step::Request(seat, token, how) => {
            asked(rt, graph, session, pass, seats, seat, token) == Some(how)
        }
        Step::Look(seat, task, how) => looked(rt, graph, session, seats, seat, task) == Some(how),
        Step::Halt => {
            session.halt(rt);
            true
        }
        Step::Watch => is_watched(alloc, session, watchers),
        Step::Last(..) | Step::Did(..) => is_seats(seats, step),
        _ => is_seen(watchers, step),
    }
}

/// Takes these steps, and says whether each goes as it must.
pub fn take_all<R: Wait, K: Drop, W: Item<K>>(
    rt: &R,
    alloc: Global,
    graph: &Graph,
    session: &Session<'_, K, W>,
    pass: QueuePass<Vec<W>>,
    hands: &mut Hands,
    steps: &[Step],
) -> (QueuePass<Vec<W>>, bool) {
    let mut pass = pass;
    let mut all = true;
    for step in steps {
        let well = match *step {
            Step::Work(seat, how) => {
                let (back, ended) = worked(rt, session, pass, &mut hands.seats, seat);
                pass = back;
                ended == Some(how)
            }
            step => goes(rt, alloc, graph, session, &mut pass, hands, step),
        };
        all = all && well;
    }
    (pass, all)
}
