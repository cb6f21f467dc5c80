//! Which answer a kind of question has.

use crate::bytes::bytes_answer;
use crate::certificates::tree_answer;
use crate::claims::claims_answer;
use crate::documents::{fault_text, parts_of};
use crate::graphs::{graph_answer, readers_answer, same_answer};
use crate::lengths::lengths_answer;
use crate::scripts::script_answer;
use crate::sets::sets_answer;
use crate::words::words_answer;
use std::alloc::{AllocError, Global};
use tpl_model::RuleSet;
use tpl_reader::{Document, read_document};

/// What is answered to a question of this kind.
pub fn answer(
    alloc: Global,
    kind: &str,
    context: &str,
    question: &str,
) -> Result<String, AllocError> {
    match kind {
        "words" => words_answer(alloc, question),
        "sets" => sets_answer(alloc, question),
        "bytes" => bytes_answer(alloc, question),
        "script" | "tree" | "tokens" | "lengths" | "same" => {
            document_answer(alloc, kind, context.as_bytes(), question)
        }
        _ => document_answer(alloc, kind, question.as_bytes(), ""),
    }
}

/// What is answered to a question about the document that the bytes spell, or why they spell none.
pub fn document_answer(
    alloc: Global,
    kind: &str,
    bytes: &[u8],
    question: &str,
) -> Result<String, AllocError> {
    match read_document(alloc, bytes) {
        Err(fault) => fault_text(alloc, fault),
        Ok(document) => answer_about(alloc, kind, &document, question),
    }
}

/// What is answered to a question about a document.
fn answer_about(
    alloc: Global,
    kind: &str,
    document: &Document,
    question: &str,
) -> Result<String, AllocError> {
    match kind {
        "document" => parts_of(alloc, document),
        "graph" => graph_answer(alloc, &document.graph),
        "answers" => readers_answer(alloc, &document.graph),
        "same" => same_answer(alloc, &document.graph, question),
        "script" => script_answer(alloc, &document.graph, question),
        "tree" => tree_answer(alloc, &document.graph, RuleSet::WithoutTokens, question),
        "tokens" => tree_answer(alloc, &document.graph, RuleSet::WithTokens, question),
        "claims" => claims_answer(alloc, document),
        "lengths" => lengths_answer(alloc, document, question),
        _ => String::from_str(alloc, "no kind of question"),
    }
}
