//! What is tried on the graph of a file.

use crate::Tally;
use crate::beside::{Company, tried_beside};
use crate::meeting::all_meet;
use crate::memory::plays_graph;
use crate::refusals::{Given, counts, refuses_given};
use crate::scenes::plays_scene;
use crate::scripts::Script;
use crate::sessions::{Trial, tried};
use crate::shut::Closing;
use std::alloc::Global;
use std::fs::Files;
use std::sync::Wait;
use std::thread::Threads;
use std::{fs, io};
use tpl_graph::Graph;
use tpl_reader::read_document;
use tpl_runtime::OpenWhy;

/// What is tried on a graph.
#[derive(Clone, Copy)]
pub enum Attempt {
    /// A trial on a session.
    Session(Trial),
    /// Workers in threads of the test's own, with others beside them.
    Beside(Company),
    /// Boxes that wait for each other, with this many workers.
    Meeting(u16),
    /// A session with items that aren't the graph's, which is refused for this reason.
    Items(&'static [Given], OpenWhy),
    /// A session with counts of workers that can't be.
    Counts,
    /// A scene, and how one of its sessions is closed.
    Scene(Script, Closing),
    /// A session with little memory.
    Little,
}

/// What is tried on the graph of a file, how often, and how that is called.
#[derive(Clone, Copy)]
pub struct Case {
    pub title: &'static str,
    pub file: &'static str,
    pub attempt: Attempt,
    pub rounds: usize,
}

/// Whether a scene over this graph and that of its other file goes as it must.
fn plays<R: Files + Alloc + Wait>(
    rt: &R,
    alloc: Global,
    graph: &Graph,
    script: Script,
    closing: Closing,
) -> io::Result<bool> {
    let file = format!(in alloc; "graphs/{}", script.other)?;
    let text = fs::read_to_string(rt, file.as_str())?;
    match read_document(alloc, text.as_bytes()) {
        Ok(document) => Ok(plays_scene(rt, alloc, graph, &document.graph, script, closing)?),
        Err(_) => Ok(false),
    }
}

/// Whether what is tried on a graph goes as it must.
fn goes<R: Files + Alloc + Print + Threads + Wait + Sync>(
    rt: &R,
    alloc: Global,
    graph: &Graph,
    attempt: Attempt,
) -> io::Result<bool> {
    match attempt {
        Attempt::Session(trial) => Ok(tried(rt, alloc, graph, trial)?),
        Attempt::Beside(company) => Ok(tried_beside(rt, alloc, graph, company)?),
        Attempt::Meeting(workers) => Ok(all_meet(rt, alloc, graph, workers)?),
        Attempt::Items(given, why) => Ok(refuses_given(alloc, graph, given, why)?),
        Attempt::Counts => Ok(counts(rt, alloc, graph)),
        Attempt::Scene(script, closing) => plays(rt, alloc, graph, script, closing),
        Attempt::Little => plays_graph(rt, alloc, graph),
    }
}

/// Whether what is tried so often on the graph of a file goes as it must each time; None where no document is read.
pub fn attempted<R: Files + Alloc + Print + Threads + Wait + Sync>(
    rt: &R,
    alloc: Global,
    name: &str,
    attempt: Attempt,
    rounds: usize,
) -> io::Result<Option<bool>> {
    let file = format!(in alloc; "graphs/{name}")?;
    let text = fs::read_to_string(rt, file.as_str())?;
    let Ok(document) = read_document(alloc, text.as_bytes()) else {
        return Ok(None);
    };
    for _ in 0..rounds {
        if !goes(rt, alloc, &document.graph, attempt)? {
            return Ok(Some(false));
        }
    }
    Ok(Some(true))
}

/// Tries that, and writes whether it goes as it must.
pub fn check_on<R: Files + Alloc + Print + Threads + Wait + Sync>(
    rt: &R,
    alloc: Global,
    title: &str,
    name: &str,
    attempt: Attempt,
) -> io::Result<bool> {
    let holds = attempted(rt, alloc, name, attempt, 1)? == Some(true);
    tell(rt, title, holds)
}

/// Tries each case.
pub fn check_cases<R: Files + Alloc + Print + Threads + Wait + Sync>(
    rt: &R,
    alloc: Global,
    cases: &[Case],
    so_far: Tally,
) -> io::Result<Tally> {
    let mut tally = so_far;
    for case in cases {
        let holds = attempted(rt, alloc, case.file, case.attempt, case.rounds)? == Some(true);
        tally = tally.with(&[tell(rt, case.title, holds)?]);
    }
    Ok(tally)
}

/// Writes whether a check of sessions holds.
pub fn tell<R: Print>(rt: &R, title: &str, holds: bool) -> io::Result<bool> {
    let word = if holds { "holds" } else { "FAILED" };
    println!(rt; "session, {title}: {word}")?;
    Ok(holds)
}
