//! What is answered to the graph of a document.

use crate::documents::fault_text;
use crate::tell::{tell, tell_counts};
use std::alloc::{AllocError, Global};
use tpl_graph::Graph;
use tpl_reader::read_document;

/// How large the graph is.
pub fn graph_answer(alloc: Global, graph: &Graph) -> Result<String, AllocError> {
    let mut text = String::new(alloc);
    tell_counts(&mut text, graph)?;
    Ok(text)
}

/// What each reader of the graph answers.
pub fn readers_answer(alloc: Global, graph: &Graph) -> Result<String, AllocError> {
    let mut text = String::new(alloc);
    tell(&mut text, graph)?;
    Ok(text)
}

fn same_text(alloc: Global, first: &Graph, second: &Graph) -> Result<String, AllocError> {
    format!(in alloc; "{} {}", first.same(second), second.same(first))
}

/// Whether the graph and that of the document are the same, asked of each of them.
pub fn same_answer(alloc: Global, first: &Graph, document: &str) -> Result<String, AllocError> {
    match read_document(alloc, document.as_bytes()) {
        Err(fault) => fault_text(alloc, fault),
        Ok(read) => same_text(alloc, first, &read.graph),
    }
}
