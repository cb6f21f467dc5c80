//! The questions of a file.

use std::alloc::{AllocError, Global};

/// A question, and what is to be answered.
#[derive(Drop)]
pub struct Case<'a> {
    /// The line of the question, counted from 1.
    pub line: usize,
    /// What the question is about.
    pub context: String,
    pub question: &'a str,
    /// The lines of the answer, without the last line break.
    pub answer: String,
}

/// Adds a line to the answer of the last question.
fn add_line(cases: &mut Vec<Case>, line: &str) -> Result<(), AllocError> {
    if let Some(case) = cases.last_mut() {
        if !case.answer.is_empty() {
            case.answer.push('\n')?;
        }
        case.answer.push_str(line)?;
    }
    Ok(())
}

/// The questions of a text, in order.
pub fn cases_of<'a>(alloc: Global, text: &'a str) -> Result<Vec<Case<'a>>, AllocError> {
    let mut cases = Vec::new(alloc);
    let mut context = String::new(alloc);
    for (number, line) in text.lines().enumerate() {
        if let Some(answer) = line.strip_prefix("=> ") {
            add_line(&mut cases, answer)?;
        } else if let Some(about) = line.strip_prefix("@ ") {
            context = String::from_str(alloc, about)?;
        } else if !line.starts_with('#') {
            cases.push(Case {
                line: number.saturating_add(1),
                context: context.clone()?,
                question: line,
                answer: String::new(alloc),
            })?;
        }
    }
    Ok(cases)
}
