//! Sessions that are closed once their threads have come back.

use crate::crews::looks;
use crate::retold::is_retold;
use crate::shut::shut;
use std::alloc::Global;
use std::sync::Wait;
use tpl_graph::Graph;
use tpl_items::QueuePass;
use tpl_model::Status;
use tpl_runtime::{Item, Report, Seat, Session, Watcher};

/// What threads come back with, and whether each went as it must.
#[derive(Drop)]
pub struct Back<W> {
    pub seats: Vec<Seat>,
    pub pass: QueuePass<Vec<W>>,
    pub watchers: Vec<Watcher>,
    pub well: bool,
}

/// What threads came back with, and one more seat.
fn with_seat<W: Drop>(back: Back<W>, seat: Seat) -> Back<W> {
    let mut back = back;
    let has_room = back.seats.push(seat).is_ok();
    back.well = back.well && has_room;
    back
}

/// A report says of each task what was reported to a seat outside, and the plain machine answers the same.
fn is_told<K, W>(alloc: Global, graph: &Graph, report: &Report<K, W>, looked: &[Status]) -> bool {
    looked == report.statuses.as_slice() && is_retold(alloc, graph, report).unwrap_or(false)
}

/// What a session leaves whose threads have come back. What is reported of each task to a seat outside is what the
/// report says later, and the plain machine answers the same. None where it isn't so.
pub fn closes_well<R: Wait, K: Drop, W: Item<K>>(
    rt: &R,
    alloc: Global,
    graph: &Graph,
    session: Session<'_, K, W>,
    back: Back<W>,
    looker: Seat,
) -> Option<Report<K, W>> {
    let mut looker = looker;
    let Ok(looked) = looks(rt, alloc, graph, &session, &mut looker) else {
        return None;
    };
    let Back {
        seats,
        pass,
        watchers,
        well,
    } = with_seat(back, looker);
    let report = shut(rt, alloc, session, seats, pass, watchers).ok()?;
    if well && is_told(alloc, graph, &report, looked.as_slice()) {
        Some(report)
    } else {
        None
    }
}
