//! Sessions that are opened for a test.

use std::alloc::Global;
use tpl_graph::Graph;
use tpl_items::{JobQueue, QueuePass};
use tpl_model::Inputs;
use tpl_runtime::{Item, Session};

/// How many places the queue of a graph has: one for each task.
pub fn places(graph: &Graph) -> usize {
    if graph.len() == 0 { 1 } else { graph.len() }
}

/// A session of the graph with these items, whose inputs are all false and whose queue has a place for each task, and its
/// pass. None where it isn't opened.
pub fn opened<'g, K: Drop, W: Item<K>>(
    alloc: Global,
    graph: &'g Graph,
    items: Vec<W>,
) -> Option<(Session<'g, K, W>, QueuePass<Vec<W>>)> {
    opened_with(alloc, graph, items, places(graph))
}

/// A session as [`opened`] gives it, whose queue has this many places.
pub fn opened_with<'g, K: Drop, W: Item<K>>(
    alloc: Global,
    graph: &'g Graph,
    items: Vec<W>,
    places: usize,
) -> Option<(Session<'g, K, W>, QueuePass<Vec<W>>)> {
    let Ok((queue, pass)) = JobQueue::new(alloc, places) else {
        return None;
    };
    let inputs = Inputs::new(graph.input_count());
    match Session::open(alloc, graph, inputs, items, queue, &pass) {
        Ok(session) => Some((session, pass)),
        Err(_) => None,
    }
}
