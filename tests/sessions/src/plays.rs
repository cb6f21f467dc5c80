//! Plays: runs of small graphs, with what is to be seen after each event.
//!
//! The first line of a play after its title is the document with its graph and inputs. The lines of events are those of
//! a journal. After each event, and before the first, follow lines with two spaces before them: what the readers answer
//! otherwise than before, and all that is allowed next, and to whom.

use crate::allowed::{all_events, allowed, push_allowed};
use crate::machines::{Indexed, Opener, Plain, replayed, start_of};
use crate::seen::seen;
use std::alloc::{AllocError, Global};
use std::{fs, io};
use tpl_graph::Graph;
use tpl_journal::read_journal;
use tpl_machine::Core;
use tpl_model::Event;
use tpl_reader::{Document, read_document};

/// The place that a run has come to, and what the readers answered there.
#[derive(Drop)]
struct Place {
    events: Vec<Event>,
    seen: Vec<String>,
}

/// Adds the lines that differ from those before.
fn push_changes(text: &mut String, before: &[String], now: &[String]) -> Result<(), AllocError> {
    for (number, line) in now.iter().enumerate() {
        if before.get(number) != Some(line) {
            text.push('\n')?;
            text.push_str(line.as_str())?;
        }
    }
    Ok(())
}

/// Adds what is seen at a place and what is allowed there.
fn push_place<O: Opener>(
    alloc: Global,
    text: &mut String,
    opener: &O,
    place: &mut Place,
) -> Result<(), AllocError> {
    let core = replayed(opener, place.events.as_slice())?;
    if core.events() != place.events.as_slice() {
        text.push_str("\n  refused")?;
    }
    let now = seen(alloc, &core)?;
    push_changes(text, place.seen.as_slice(), now.as_slice())?;
    place.seen = now;
    let events = all_events(alloc, core.graph())?;
    let taken = allowed(alloc, opener, place.events.as_slice(), events.as_slice())?;
    push_allowed(text, core.graph(), taken.as_slice())
}

/// The event of a line, if it is one.
fn event_of(alloc: Global, graph: &Graph, line: &str) -> Result<Option<Event>, AllocError> {
    let line = format!(in alloc; "{line}\n")?;
    match read_journal(alloc, graph, line.as_str()) {
        Ok(events) => Ok(events.first().copied()),
        Err(_) => Ok(None),
    }
}

/// Adds the line of an event and what is seen after it.
fn push_event<O: Opener>(
    alloc: Global,
    text: &mut String,
    opener: &O,
    place: &mut Place,
    line: &str,
    event: Option<Event>,
) -> Result<(), AllocError> {
    text.push('\n')?;
    text.push_str(line)?;
    match event {
        None => text.push_str("\n  no event"),
        Some(event) => {
            place.events.push(event)?;
            push_place(alloc, text, opener, place)
        }
    }
}

/// The play as the machine goes: the events of its lines, and after each what is seen then.
fn played<O: Opener>(
    alloc: Global,
    opener: &O,
    graph: &Graph,
    play: &str,
) -> Result<String, AllocError> {
    let mut text = String::new(alloc);
    let mut place = Place {
        events: Vec::new(alloc),
        seen: Vec::new(alloc),
    };
    push_place(alloc, &mut text, opener, &mut place)?;
    for line in play.lines() {
        if !line.starts_with(' ') {
            let event = event_of(alloc, graph, line)?;
            push_event(alloc, &mut text, opener, &mut place, line, event)?;
        }
    }
    Ok(text)
}

/// What differs in a text from the one that is expected.
fn difference<'t>(told: &'t str, text: &'t str) -> Option<(&'t str, &'t str)> {
    let mut lines = text.lines();
    lines.next();
    for line in told.lines() {
        let found = lines.next().unwrap_or("nothing");
        if found != line {
            return Some((line, found));
        }
    }
    match lines.next() {
        Some(line) => Some(("nothing", line)),
        None => None,
    }
}

/// Compares a play with how a machine goes.
fn compare<O: Opener>(
    rt: &HostRuntime,
    title: &str,
    opener: &O,
    graph: &Graph,
    play: &str,
) -> io::Result<bool> {
    let text = played(rt.alloc(), opener, graph, play)?;
    match difference(play, text.as_str()) {
        None => {
            println!(rt; "{title}: as told")?;
            Ok(true)
        }
        Some((line, found)) => {
            println!(rt; "{title}: FAILED, told is {line}, seen is {found}")?;
            Ok(false)
        }
    }
}

/// Compares a play with how both machines go, and answers which of them goes as the play says.
fn compare_both(
    rt: &HostRuntime,
    file: &str,
    document: &Document,
    play: &str,
) -> io::Result<[bool; 2]> {
    let alloc = rt.alloc();
    let graph = &document.graph;
    let plain = Plain(start_of(alloc, document));
    let title = format!(in alloc; "{file}, plain machine")?;
    let first = compare(rt, title.as_str(), &plain, graph, play)?;
    let indexed = Indexed(start_of(alloc, document));
    let title = format!(in alloc; "{file}, indexed machine")?;
    let second = compare(rt, title.as_str(), &indexed, graph, play)?;
    Ok([first, second])
}

/// Compares the play of a file with how both machines go, and answers which of them goes as the play says.
pub fn check_play(rt: &HostRuntime, file: &str) -> io::Result<[bool; 2]> {
    let text = fs::read_to_string(rt, file)?;
    let (_title, rest) = text.as_str().split_once('\n').unwrap_or(("", ""));
    let (document, play) = rest.split_once('\n').unwrap_or((rest, ""));
    match read_document(rt.alloc(), document.as_bytes()) {
        Ok(document) => compare_both(rt, file, &document, play),
        Err(fault) => {
            println!(rt; "{file}: FAILED, {fault}")?;
            Ok([false; 2])
        }
    }
}
