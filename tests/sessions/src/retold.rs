//! What a session reports, compared with the plain machine.

use std::alloc::{AllocError, Global};
use tpl_graph::Graph;
use tpl_machine::{Core, Machine};
use tpl_model::{Inputs, TaskId};
use tpl_runtime::Report;

/// The machine answers of a task what the report says.
fn agrees_on<C: Core, K, W>(core: &C, report: &Report<K, W>, task: TaskId) -> bool {
    let at = task.0 as usize;
    let carried = match report.carried.get(at) {
        Some(list) => list.as_slice() == core.carried(task),
        None => false,
    };
    let unseen = core.label(task).is_some() && !core.seen(task);
    carried
        && report.statuses.get(at).copied() == Some(core.status(task))
        && report.labels.get(at).copied() == Some(core.label(task))
        && report.unseen.iter().any(|other| other.0 == task.0) == unseen
}

/// The machine answers of all tasks what the report says.
fn agrees<C: Core, K, W>(core: &C, report: &Report<K, W>) -> bool {
    for number in 0..core.graph().len() {
        if !agrees_on(core, report, TaskId(number as u16)) {
            return false;
        }
    }
    core.complete() == report.complete && core.graph().len() == report.statuses.len()
}

/// The plain machine, whose inputs are all false, takes the journal event by event, and answers then what the report
/// says.
pub fn is_retold<K, W>(
    alloc: Global,
    graph: &Graph,
    report: &Report<K, W>,
) -> Result<bool, AllocError> {
    let inputs = Inputs::new(graph.input_count());
    let mut core = Machine::open(alloc, graph, inputs)?;
    for event in report.journal.iter() {
        if core.step(*event).is_err() {
            return Ok(false);
        }
    }
    let sites = report.receipts.len().saturating_add(report.items.len());
    Ok(agrees(&core, report) && sites == graph.site_count())
}
