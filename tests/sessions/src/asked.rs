//! What is reported to seats outside a session's threads.

use std::sync::Wait;
use tpl_graph::Graph;
use tpl_items::QueuePass;
use tpl_model::{Final, Status, TaskId, TokenId};
use tpl_runtime::{Asked, Item, Looked, Seat, Session};

pub const CANCELED: Status = Status::Completed(Final::Canceled);

/// Requests a token, if the graph has it.
pub fn ask<'g, R: Wait, K: Drop, W: Item<K>>(
    rt: &R,
    graph: &Graph,
    session: &Session<'g, K, W>,
    seat: &mut Seat,
    pass: &mut QueuePass<Vec<W>>,
    token: TokenId,
) -> Option<Asked> {
    if (token.0 as usize) < graph.token_count() {
        Some(session.request(rt, seat, pass, token))
    } else {
        None
    }
}

/// Looks at a task, if the graph has it.
pub fn look_at<'g, R: Wait, K: Drop, W: Item<K>>(
    rt: &R,
    graph: &Graph,
    session: &Session<'g, K, W>,
    seat: &mut Seat,
    task: TaskId,
) -> Option<Looked> {
    if (task.0 as usize) < graph.len() {
        Some(session.status(rt, seat, task))
    } else {
        None
    }
}
