//! How a session is closed, and what it leaves.

use crate::steps::Hands;
use std::alloc::{AllocError, Global};
use std::sync::Wait;
use tpl_items::{QueuePass, Receipt};
use tpl_model::{Event, Status};
use tpl_runtime::{CloseFault, CloseWhy, Item, Report, Seat, Session, Watcher};

/// Which of the two sessions of a scene.
#[derive(Clone, Copy)]
pub enum Which {
    First,
    Other,
}

/// How a session is closed.
#[derive(Clone, Copy, PartialEq, Eq)]
pub enum How {
    /// Well, and its run is complete.
    Complete,
    /// Well, before its run is complete.
    Halfway,
    /// Not well, for this reason.
    Refused(CloseWhy),
}

/// How one of the two sessions of a scene is closed, and what it leaves then.
#[derive(Clone, Copy)]
pub struct Closing {
    pub which: Which,
    /// The numbers of the seats with which it is closed, and that of the watcher, if there is one.
    pub seats: [Option<usize>; 3],
    pub watcher: Option<usize>,
    pub how: How,
    /// How many events its journal has, and the number of a watcher that has seen just these, if one has.
    pub events: usize,
    pub seen_by: Option<usize>,
    /// Of how many of its sites, the first ones, the boxes were called: they leave receipts, and the others items.
    pub called: usize,
    /// How its first task stands, where it is closed well and that is asked.
    pub first: Option<Status>,
}

/// Closes a session, with its watchers if there are some.
pub fn shut<R: Wait, K: Drop, W: Item<K>>(
    rt: &R,
    alloc: Global,
    session: Session<'_, K, W>,
    seats: Vec<Seat>,
    pass: QueuePass<Vec<W>>,
    watchers: Vec<Watcher>,
) -> Result<Report<K, W>, CloseFault<K, W>> {
    if watchers.is_empty() {
        session.close(rt, alloc, seats, pass)
    } else {
        session.close_watched(rt, alloc, seats, pass, watchers)
    }
}

/// The one with this number, which is handed in.
fn handed<T: Drop>(held: &mut [Option<T>], number: Option<usize>) -> Option<T> {
    held.get_mut(number?)?.take()
}

/// The seats with these numbers, which are handed in.
fn handed_in(
    alloc: Global,
    held: &mut [Option<Seat>],
    numbers: [Option<usize>; 3],
) -> Result<Vec<Seat>, AllocError> {
    let mut seats = Vec::with_capacity(alloc, numbers.len())?;
    for number in numbers.iter() {
        if let Some(seat) = handed(held, *number) {
            seats.push(seat)?;
        }
    }
    Ok(seats)
}

/// The watcher with this number, which is handed in, if there is one.
fn watcher_in(
    alloc: Global,
    held: &mut [Option<Watcher>],
    number: Option<usize>,
) -> Result<Vec<Watcher>, AllocError> {
    let mut watchers = Vec::with_capacity(alloc, 1)?;
    if let Some(watcher) = handed(held, number) {
        watchers.push(watcher)?;
    }
    Ok(watchers)
}

/// The journal has as many events as it must, and is what the watcher saw.
fn is_journal(journal: &[Event], watchers: &[Option<Watcher>], closing: Closing) -> bool {
    let seen = match closing.seen_by {
        None => true,
        Some(number) => match watchers.get(number) {
            Some(Some(watcher)) => watcher.list() == journal,
            _ => false,
        },
    };
    seen && journal.len() == closing.events
}

/// Of so many sites, the first ones have receipts, and the others items.
fn are_parted<K, W: Item<K>>(
    receipts: &[Receipt<K>],
    items: &[W],
    called: usize,
    sites: usize,
) -> bool {
    receipts.len() == called
        && receipts.len().saturating_add(items.len()) == sites
        && receipts
            .iter()
            .all(|receipt| (receipt.site().0 as usize) < called)
        && items.iter().all(|item| item.site().0 as usize >= called)
}

/// What a session leaves that is closed, and how its first task stands where it is closed well.
#[derive(Drop)]
struct Left<K, W> {
    how: How,
    first: Option<Status>,
    journal: Vec<Event>,
    receipts: Vec<Receipt<K>>,
    items: Vec<W>,
}

/// What is left of a session that is closed so.
fn left_of<K: Drop, W: Drop>(closed: Result<Report<K, W>, CloseFault<K, W>>) -> Left<K, W> {
    match closed {
        Ok(report) => {
            let Report {
                journal,
                statuses,
                receipts,
                items,
                complete,
                ..
            } = report;
            let how = if complete {
                How::Complete
            } else {
                How::Halfway
            };
            let first = statuses.first().copied();
            Left {
                how,
                first,
                journal,
                receipts,
                items,
            }
        }
        Err(fault) => {
            let CloseFault {
                why,
                journal,
                receipts,
                items,
            } = fault;
            Left {
                how: How::Refused(why),
                first: None,
                journal,
                receipts,
                items,
            }
        }
    }
}

/// A session of so many sites left this.
fn is_left<K, W: Item<K>>(
    left: &Left<K, W>,
    watchers: &[Option<Watcher>],
    closing: Closing,
    sites: usize,
) -> bool {
    let receipts = left.receipts.as_slice();
    left.how == closing.how
        && is_journal(left.journal.as_slice(), watchers, closing)
        && are_parted(receipts, left.items.as_slice(), closing.called, sites)
        && (closing.first.is_none() || left.first == closing.first)
}

/// Closes a session of so many sites as a scene says, and answers whether it leaves what it must.
pub fn closes<R: Wait, K: Drop, W: Item<K>>(
    rt: &R,
    alloc: Global,
    session: Session<'_, K, W>,
    pass: QueuePass<Vec<W>>,
    hands: &mut Hands,
    closing: Closing,
    sites: usize,
) -> bool {
    let Hands { seats, watchers } = hands;
    let (Ok(own), Ok(watched)) = (
        handed_in(alloc, seats, closing.seats),
        watcher_in(alloc, watchers, closing.watcher),
    ) else {
        return false;
    };
    let left = left_of(shut(rt, alloc, session, own, pass, watched));
    is_left(&left, watchers, closing, sites)
}
