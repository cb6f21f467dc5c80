//! Random runs, on both machines side by side.

use crate::allowed::{all_events, allowed};
use crate::dice::Dice;
use crate::machines::{Indexed, Opener, Plain, replayed, start_of};
use crate::seen::seen;
use std::alloc::{AllocError, Global};
use std::{fs, io};
use tpl_machine::Core;
use tpl_model::Event;
use tpl_reader::{Document, read_document};

/// The documents whose graphs are run, a line each, as cases/chance.py wrote them.
const FILE: &str = "graphs/by_chance";

/// How many there are.
const COUNT: usize = 120;

/// Each run is the seed's.
const SEED: u64 = 1;

/// No run of such a graph is longer.
const MOST_EVENTS: usize = 1_000;

/// What the readers of a machine answer after a run, and whether the run is its journal.
fn told<O: Opener>(
    alloc: Global,
    opener: &O,
    run: &[Event],
) -> Result<(Vec<String>, bool), AllocError> {
    let core = replayed(opener, run)?;
    let lines = seen(alloc, &core)?;
    Ok((lines, core.events() == run))
}

/// Whether the readers of both machines answer the same after a run, and the run is the journal of both.
fn agree<O: Opener, P: Opener>(
    alloc: Global,
    left: &O,
    right: &P,
    run: &[Event],
) -> Result<bool, AllocError> {
    let (first, kept) = told(alloc, left, run)?;
    let (second, kept_too) = told(alloc, right, run)?;
    Ok(kept && kept_too && first == second)
}

/// Plays a random run to its end, and compares what both machines answer and allow after each event.
fn play<O: Opener, P: Opener>(
    alloc: Global,
    left: &O,
    right: &P,
    events: &[Event],
    dice: &mut Dice,
) -> Result<bool, AllocError> {
    let mut run = Vec::new(alloc);
    for _ in 0..MOST_EVENTS {
        if !agree(alloc, left, right, run.as_slice())? {
            return Ok(false);
        }
        let taken = allowed(alloc, left, run.as_slice(), events)?;
        if taken != allowed(alloc, right, run.as_slice(), events)? {
            return Ok(false);
        }
        match taken.get(dice.roll(taken.len())) {
            None => return Ok(true),
            Some(event) => run.push(*event)?,
        }
    }
    Ok(false)
}

/// Plays a run of a document's graph on both machines.
fn play_graph(alloc: Global, document: &Document, dice: &mut Dice) -> Result<bool, AllocError> {
    let plain = Plain(start_of(alloc, document));
    let indexed = Indexed(start_of(alloc, document));
    let events = all_events(alloc, &document.graph)?;
    play(alloc, &plain, &indexed, events.as_slice(), dice)
}

/// Plays a run of each document, and answers in how many of them the machines go alike.
fn play_all(alloc: Global, documents: &str) -> Result<usize, AllocError> {
    let mut dice = Dice::new(SEED);
    let mut alike: usize = 0;
    for text in documents.lines() {
        if let Ok(document) = read_document(alloc, text.as_bytes()) {
            if play_graph(alloc, &document, &mut dice)? {
                alike = alike.saturating_add(1);
            }
        }
    }
    Ok(alike)
}

/// Plays a run of each document, and answers whether the machines go alike in each.
pub fn check_chance(rt: &HostRuntime) -> io::Result<bool> {
    let documents = fs::read_to_string(rt, FILE)?;
    let alike = play_all(rt.alloc(), documents.as_str())?;
    println!(rt; "runs by chance: {alike} of {COUNT} alike")?;
    Ok(alike == COUNT)
}
