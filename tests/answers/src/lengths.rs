//! Long texts.

use std::alloc::{AllocError, Global};
use tpl_journal::{JournalFault, read_journal};
use tpl_reader::{Document, LONGEST};

/// A line, repeated, and then what follows.
fn repeated(alloc: Global, line: &str, times: usize, last: &str) -> Result<String, AllocError> {
    let mut text = String::new(alloc);
    for _ in 0..times {
        text.push_str(line)?;
        text.push('\n')?;
    }
    text.push_str(last)?;
    Ok(text)
}

/// How many events are read, or why none are.
fn answer_of(alloc: Global, document: &Document, text: &str) -> Result<String, AllocError> {
    match read_journal(alloc, &document.graph, text) {
        Ok(events) => format!(in alloc; "{} events", events.len()),
        Err(JournalFault::Memory) => Err(AllocError),
        Err(fault) => format!(in alloc; "{fault}"),
    }
}

/// The text that is asked for.
fn text_of(alloc: Global, times: &str, line: &str, last: &str) -> Result<String, AllocError> {
    match times.parse::<usize>() {
        Ok(times) => repeated(alloc, line, times, last),
        Err(_) if times == "long" => {
            repeated(alloc, line, LONGEST / line.len().saturating_add(1), last)
        }
        Err(_) => line.repeat(alloc, LONGEST / line.len().max(1)),
    }
}

/// The question says what is made of the line: `N LINE` is the line N times, `N LINE|LAST` with more text behind it;
/// `long LINE` and `one LINE` are the line as often as a long text holds it, with and without line breaks.
pub fn lengths_answer(
    alloc: Global,
    document: &Document,
    question: &str,
) -> Result<String, AllocError> {
    let Some((times, rest)) = question.split_once(' ') else {
        return String::from_str(alloc, "no length");
    };
    let (line, last) = match rest.split_once('|') {
        Some(parts) => parts,
        None => (rest, ""),
    };
    let text = text_of(alloc, times, line, last)?;
    answer_of(alloc, document, text.as_str())
}
