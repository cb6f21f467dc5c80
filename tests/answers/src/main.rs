//! Asks the libraries what documents and other texts mean, and compares each answer with the one that was worked out by
//! hand or by an independent reference.
//!
//! The file `files` has the kind of its questions before each file of questions. There a line after `=> ` is a line of
//! the answer to the question above it, one after `@ ` says what the questions below it are about, one after `#` is a
//! title, and each other line is a question.

mod answers;
mod bytes;
mod cases;
mod certificates;
mod claims;
mod documents;
mod graphs;
mod lengths;
mod names;
mod scripts;
mod sets;
mod tell;
mod words;

use crate::answers::answer;
use crate::cases::{Case, cases_of};
use std::{fs, io};

/// How many answers were compared, and how many of them were others.
#[derive(Clone, Copy)]
struct Tally {
    checks: usize,
    failed: usize,
}

/// Compares one answer.
fn check(rt: &HostRuntime, kind: &str, file: &str, case: &Case) -> io::Result<bool> {
    let given = answer(rt.alloc(), kind, case.context.as_str(), case.question)?;
    let line = case.line;
    if given == case.answer {
        println!(rt; "{file}, line {line}: as expected")?;
        return Ok(true);
    }
    println!(rt; "{file}, line {line}: FAILED")?;
    println!(rt; "expected: {}", case.answer)?;
    println!(rt; "answered: {given}")?;
    Ok(false)
}

/// Compares the answers of a file, whose text is given.
fn check_file(
    rt: &HostRuntime,
    kind: &str,
    file: &str,
    text: &str,
    so_far: Tally,
) -> io::Result<Tally> {
    let mut tally = so_far;
    for case in cases_of(rt.alloc(), text)?.iter() {
        tally.checks = tally.checks.saturating_add(1);
        if !check(rt, kind, file, case)? {
            tally.failed = tally.failed.saturating_add(1);
        }
    }
    Ok(tally)
}

fn main(rt: HostRuntime) -> io::Result<()> {
    let files = fs::read_to_string(&rt, "files")?;
    let mut tally = Tally {
        checks: 0,
        failed: 0,
    };
    for line in files.lines() {
        if let Some((kind, file)) = line.split_once(' ') {
            let text = fs::read_to_string(&rt, file)?;
            tally = check_file(&rt, kind, file, text.as_str(), tally)?;
        }
    }
    println!(&rt; "{} checks, {} failed", tally.checks, tally.failed)
}
