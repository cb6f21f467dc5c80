//! Who is in threads in a session, their seats and their parts of the pass, and what they come back with.

use crate::closed::Back;
use crate::parts::{Part, Role};
use std::alloc::{AllocError, Global};
use std::sync::Wait;
use tpl_items::QueuePass;
use tpl_model::{Actor, TokenId, Worker};
use tpl_runtime::{Ended, Item, Session};

/// Who is in threads beside the workers.
#[derive(Clone, Copy)]
pub enum Beside {
    /// Nobody. Each box waits for all others.
    Nobody,
    /// Two seats outside request a token each.
    Requests,
    /// A watcher looks again and again.
    Watcher,
    /// A seat outside looks at the first task while its box is called, and then lets the box go.
    Look,
    /// Someone halts the session while the first box is called, and then lets the box go.
    Halt,
    /// The same, where the workers are those of the session's own `run`.
    HaltRun,
}

/// The first two seats outside.
const OUTSIDE: Actor = Actor::Outside(1);

const OTHER: Actor = Actor::Outside(2);

/// Those in threads, and what they do.
type Cast = Vec<(Actor, Role)>;

/// This many workers, and how they end.
fn workers(alloc: Global, count: u16, how: Ended) -> Result<Cast, AllocError> {
    let mut cast = Vec::new(alloc);
    for number in 0..count {
        cast.push((Actor::Worker(Worker(number + 1)), Role::Works(how)))?;
    }
    Ok(cast)
}

/// Those beside the workers.
fn others<'g, K: Drop, W: Item<K>>(
    alloc: Global,
    session: &Session<'g, K, W>,
    beside: Beside,
) -> Result<Cast, AllocError> {
    let cast = match beside {
        Beside::Nobody => Vec::new(alloc),
        Beside::Requests => {
            let first = Role::Requests(TokenId(0));
            let second = Role::Requests(TokenId(1));
            vec![in alloc; (OUTSIDE, first), (OTHER, second)]?
        }
        Beside::Watcher => {
            let watcher = session.watch(alloc)?;
            vec![in alloc; (OUTSIDE, Role::Watches(watcher))]?
        }
        Beside::Look => vec![in alloc; (OUTSIDE, Role::Looks)]?,
        Beside::Halt | Beside::HaltRun => vec![in alloc; (OUTSIDE, Role::Halts)]?,
    };
    Ok(cast)
}

/// This many workers and those beside them.
pub fn cast<'g, K: Drop, W: Item<K>>(
    alloc: Global,
    session: &Session<'g, K, W>,
    count: u16,
    beside: Beside,
) -> Result<Vec<(Actor, Role)>, AllocError> {
    let how = match beside {
        Beside::Halt => Ended::Halted,
        _ => Ended::Complete,
    };
    let mut cast = workers(alloc, count, how)?;
    let mut others = others(alloc, session, beside)?;
    cast.append(&mut others)?;
    Ok(cast)
}

/// Seats one, and gives it a part of the pass. None where it finds no seat.
fn seat_one<'g, R: Wait, K: Drop, W: Item<K>>(
    rt: &R,
    alloc: Global,
    session: &Session<'g, K, W>,
    whole: QueuePass<Vec<W>>,
    actor: Actor,
    role: Role,
) -> Option<(QueuePass<Vec<W>>, Part<W>)> {
    let Ok(seat) = session.seat(rt, alloc, actor) else {
        return None;
    };
    let (rest, pass) = session.split(whole);
    let part = Part {
        seat,
        pass,
        role,
        well: false,
    };
    Some((rest, part))
}

/// Seats all, and gives each a part of the pass. None where one finds no seat.
pub fn seated<'g, R: Wait, K: Drop, W: Item<K>>(
    rt: &R,
    alloc: Global,
    session: &Session<'g, K, W>,
    pass: QueuePass<Vec<W>>,
    cast: Vec<(Actor, Role)>,
) -> Option<(QueuePass<Vec<W>>, Vec<Part<W>>)> {
    let mut whole = pass;
    let mut parts = Vec::new(alloc);
    for (actor, role) in cast {
        let (rest, part) = seat_one(rt, alloc, session, whole, actor, role)?;
        whole = rest;
        if parts.push(part).is_err() {
            return None;
        }
    }
    Some((whole, parts))
}

/// Takes back what one thread comes back with.
fn take_back<'g, K: Drop, W: Item<K>>(
    session: &Session<'g, K, W>,
    back: Back<W>,
    part: Part<W>,
) -> Back<W> {
    let Back {
        mut seats,
        pass,
        mut watchers,
        well,
    } = back;
    let Part {
        seat,
        pass: own,
        role,
        well: went,
    } = part;
    let pass = session.join(pass, own);
    let mut well = well && went && seats.push(seat).is_ok();
    if let Role::Watches(watcher) = role {
        well = well && watchers.push(watcher).is_ok();
    }
    Back {
        seats,
        pass,
        watchers,
        well,
    }
}

/// Puts together what the threads come back with.
pub fn gathered<'g, K: Drop, W: Item<K>>(
    alloc: Global,
    session: &Session<'g, K, W>,
    pass: QueuePass<Vec<W>>,
    parts: Vec<Part<W>>,
) -> Back<W> {
    let mut back = Back {
        seats: Vec::new(alloc),
        pass,
        watchers: Vec::new(alloc),
        well: true,
    };
    for part in parts {
        back = take_back(session, back, part);
    }
    back
}
