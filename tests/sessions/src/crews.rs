//! Sessions that are run by workers, from the first seat to the report.

use crate::closed::{Back, closes_well};
use std::alloc::{AllocError, Global};
use std::sync::Wait;
use std::thread::Threads;
use tpl_graph::Graph;
use tpl_items::QueuePass;
use tpl_model::{Actor, Final, Status, TaskId};
use tpl_runtime::{Ended, Item, Looked, Report, Seat, Session, Sight, Watcher};

/// The outside seat that looks at the tasks.
pub const LOOKER: Actor = Actor::Outside(1);

/// How a task stands that ran to its end.
pub const RAN: Status = Status::Completed(Final::RanToCompletion);

/// How many events a run has, where there is but one number.
pub type Length = Option<usize>;

/// A worker's work ended in this way, and it was reported to its seat that the run is complete where it ended so.
fn ended_as(seat: &Seat, ended: Ended, how: Ended) -> bool {
    let told = matches!(seat.last(), Some((_, Sight::Complete)));
    ended == how && told == (how == Ended::Complete)
}

/// The seats, with those of the workers that have come back, and whether each ended as expected.
pub fn with_workers(
    seats: Vec<Seat>,
    done: Vec<(Seat, Ended)>,
    how: Ended,
) -> Result<(Vec<Seat>, bool), AllocError> {
    let mut seats = seats;
    let mut all = true;
    for (seat, ended) in done {
        all = all && ended_as(&seat, ended, how);
        seats.push(seat)?;
    }
    Ok((seats, all))
}

/// What is reported to a seat of each task.
pub fn looks<'g, R: Wait, K: Drop, W: Item<K>>(
    rt: &R,
    alloc: Global,
    graph: &Graph,
    session: &Session<'g, K, W>,
    seat: &mut Seat,
) -> Result<Vec<Status>, AllocError> {
    let mut list = Vec::with_capacity(alloc, graph.len())?;
    for number in 0..graph.len() {
        match session.status(rt, seat, TaskId(number as u16)) {
            Looked::At { status, place: _ } => list.push(status)?,
            Looked::Stray => return Ok(list),
        }
    }
    Ok(list)
}

/// What workers come back with, whose work is to end so. None where there is no memory for it.
pub fn back_of<W: Drop>(
    alloc: Global,
    done: Vec<(Seat, Ended)>,
    pass: QueuePass<Vec<W>>,
    how: Ended,
) -> Option<Back<W>> {
    let Ok((seats, well)) = with_workers(Vec::new(alloc), done, how) else {
        return None;
    };
    Some(Back {
        seats,
        pass,
        watchers: Vec::new(alloc),
        well,
    })
}

/// Lets this many workers run. None where they don't.
fn runs<'g, R: Threads + Wait + Sync, K: Drop + Send, W: Item<K> + Send>(
    rt: &R,
    alloc: Global,
    session: &Session<'g, K, W>,
    pass: QueuePass<Vec<W>>,
    workers: u16,
) -> Option<Back<W>> {
    let Ok((done, pass)) = session.run(rt, alloc, pass, workers) else {
        return None;
    };
    back_of(alloc, done, pass, Ended::Complete)
}

/// Lets workers run, and a watcher look, which is handed in with them. A second one saw as much; None where it didn't.
fn runs_watched<'g, R: Threads + Wait + Sync, K: Drop + Send, W: Item<K> + Send>(
    rt: &R,
    alloc: Global,
    session: &Session<'g, K, W>,
    pass: QueuePass<Vec<W>>,
    watcher: &mut Watcher,
    workers: u16,
) -> Option<Back<W>> {
    let Ok(other) = session.watch(alloc) else {
        return None;
    };
    let mut other = other;
    let mut back = runs(rt, alloc, session, pass, workers)?;
    back.well = back.well && watcher.look() == other.look() && back.watchers.push(other).is_ok();
    Some(back)
}

/// Lets workers run. What is then reported of each task to a seat outside is what the report says, watchers saw the
/// whole run, and the plain machine answers the same. None where it isn't so.
pub fn run_by<'g, R: Threads + Wait + Sync, K: Drop + Send, W: Item<K> + Send>(
    rt: &R,
    alloc: Global,
    graph: &Graph,
    session: Session<'g, K, W>,
    pass: QueuePass<Vec<W>>,
    workers: u16,
) -> Option<Report<K, W>> {
    let (Ok(watcher), Ok(seat)) = (session.watch(alloc), session.seat(rt, alloc, LOOKER)) else {
        return None;
    };
    let mut watcher = watcher;
    let back = runs_watched(rt, alloc, &session, pass, &mut watcher, workers)?;
    let report = closes_well(rt, alloc, graph, session, back, seat)?;
    if watcher.list() == report.journal.as_slice() {
        Some(report)
    } else {
        None
    }
}

/// The run is complete, each task ran to its end, each item was called, and there are this many events.
pub fn all_ran<K, W>(graph: &Graph, report: &Report<K, W>, events: Length) -> bool {
    let counted = match events {
        Some(events) => report.journal.len() == events,
        None => true,
    };
    counted
        && report.complete
        && report.statuses.iter().all(|status| *status == RAN)
        && report.unseen.is_empty()
        && report.receipts.len() == graph.site_count()
        && report.items.is_empty()
}
