//! Documents that are no text, and documents that are too long to be kept.

use crate::answers::document_answer;
use std::alloc::{AllocError, Global};

/// The value of a hexadecimal digit; 0 of anything else.
fn digit(byte: u8) -> u8 {
    match byte {
        b'0'..=b'9' => byte - b'0',
        b'A'..=b'F' => byte - b'A' + 10,
        _ => 0,
    }
}

/// The bytes that the text spells, in which `%` and two digits stand for a byte.
fn spelled(alloc: Global, text: &str) -> Result<Vec<u8>, AllocError> {
    let mut bytes = Vec::new(alloc);
    let mut from = text.as_bytes().iter();
    while let Some(byte) = from.next() {
        if *byte != b'%' {
            bytes.push(*byte)?;
        } else if let (Some(high), Some(low)) = (from.next(), from.next()) {
            bytes.push(digit(*high).wrapping_mul(16).wrapping_add(digit(*low)))?;
        }
    }
    Ok(bytes)
}

/// The text, with enough spaces after it to make it this long.
fn padded(alloc: Global, text: &str, length: usize) -> Result<Vec<u8>, AllocError> {
    let mut bytes = Vec::from_slice(alloc, text.as_bytes())?;
    for _ in text.len()..length {
        bytes.push(b' ')?;
    }
    Ok(bytes)
}

/// A document of this many tasks.
fn tasks(alloc: Global, count: usize) -> Result<String, AllocError> {
    let mut text = String::from_str(alloc, "{\"version\":1,\"tasks\":[")?;
    for number in 0..count {
        let separator = if number == 0 { "" } else { "," };
        write!(
            text,
            "{separator}{{\"name\":\"T{number}\",\"kind\":\"root\",\"body\":[]}}"
        )?;
    }
    text.push_str("]}")?;
    Ok(text)
}

/// The parts of the document that the bytes spell, or why they spell none.
fn parts_of_bytes(alloc: Global, bytes: &[u8]) -> Result<String, AllocError> {
    document_answer(alloc, "document", bytes, "")
}

/// What is answered to the document that is made.
fn made_answer(alloc: Global, kind: &str, count: usize, text: &str) -> Result<String, AllocError> {
    match kind {
        "padded" | "spaces" => parts_of_bytes(alloc, &padded(alloc, text, count)?),
        "tasks" => parts_of_bytes(alloc, tasks(alloc, count)?.as_bytes()),
        _ => String::from_str(alloc, "nothing is made"),
    }
}

/// What is answered to a document of these bytes, to one with this many spaces behind it, or to one of this many tasks.
pub fn bytes_answer(alloc: Global, question: &str) -> Result<String, AllocError> {
    let (kind, rest) = question.split_once(' ').unwrap_or((question, ""));
    if kind == "bytes" {
        return parts_of_bytes(alloc, &spelled(alloc, rest)?);
    }
    let (count, text) = rest.split_once(' ').unwrap_or((rest, ""));
    match count.parse::<usize>() {
        Ok(count) => made_answer(alloc, kind, count, text),
        Err(_) => String::from_str(alloc, "no number"),
    }
}
