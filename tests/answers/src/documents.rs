//! What is answered to a document.

use std::alloc::{AllocError, Global};
use tpl_journal::{JournalFault, read_journal};
use tpl_model::{Event, Inputs, RuleSet};
use tpl_reader::{Document, ReadFault};

/// Why there is no document; out of memory is no answer.
pub fn fault_text(alloc: Global, fault: ReadFault) -> Result<String, AllocError> {
    match fault {
        ReadFault::Memory => Err(AllocError),
        fault => format!(in alloc; "{fault}"),
    }
}

/// How many trees its certificate has.
fn trees_of(document: &Document) -> usize {
    document.certificate.trees().len()
}

/// How many there are of each part of a document.
pub fn parts_of(alloc: Global, document: &Document) -> Result<String, AllocError> {
    let graph = &document.graph;
    format!(in alloc;
        "tasks {}, tokens {}, inputs {}, claims {}, trees {}, journal {}, start {}",
        graph.len(),
        graph.token_count(),
        graph.input_count(),
        document.claims.len(),
        trees_of(document),
        document.journal.len(),
        document.start.is_some()
    )
}

/// The inputs of the runs of a document.
pub fn inputs_of(document: &Document) -> Inputs {
    match &document.start {
        Some(start) => start.inputs.copy(),
        None => Inputs::new(0),
    }
}

/// The events of the journal of a document, or why it has none.
pub fn events_of(
    alloc: Global,
    document: &Document,
) -> Result<Result<Vec<Event>, String>, AllocError> {
    match read_journal(alloc, &document.graph, document.journal.as_str()) {
        Ok(events) => Ok(Ok(events)),
        Err(JournalFault::Memory) => Err(AllocError),
        Err(fault) => Ok(Err(format!(in alloc; "{fault}")?)),
    }
}
