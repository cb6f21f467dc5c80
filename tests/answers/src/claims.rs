//! What is answered to the claims of a document about its journal.

use crate::documents::{events_of, inputs_of};
use std::alloc::{AllocError, Global};
use tpl_audit::holds;
use tpl_graph::Claim;
use tpl_machine::{Core, Machine};
use tpl_model::Event;
use tpl_reader::Document;

/// What is found of a claim.
#[derive(Clone, Copy)]
enum Found {
    /// It holds before the first event and after each.
    Holds,
    /// It fails after this many events.
    Fails(usize),
    /// This many events are allowed, and the next isn't.
    Stops(usize),
    /// It can't be asked of the graph.
    DoesNotFit,
}

/// The claim can be asked of the graph, and holds now.
fn holds_now<C: Core>(core: &C, claim: &Claim) -> bool {
    claim.fits(core.graph()) && holds(core, claim)
}

/// Plays the events on a machine that has none yet, until the claim fails.
fn found_on<C: Core + Drop>(core: C, events: &[Event], claim: &Claim) -> Found {
    let mut core = core;
    if !claim.fits(core.graph()) {
        return Found::DoesNotFit;
    }
    if !holds_now(&core, claim) {
        return Found::Fails(0);
    }
    for event in events {
        let so_far = core.events().len();
        if core.step(*event).is_err() {
            return Found::Stops(so_far);
        }
        if !holds_now(&core, claim) {
            return Found::Fails(core.events().len());
        }
    }
    Found::Holds
}

fn push_found(text: &mut String, found: Found) -> Result<(), AllocError> {
    match found {
        Found::Holds => text.push_str("holds"),
        Found::Fails(place) => write!(text, "fails at {place}"),
        Found::Stops(place) => write!(text, "stops after {place}"),
        Found::DoesNotFit => text.push_str("can't be asked"),
    }
}

/// What is found of each claim, in order.
fn found_text(alloc: Global, document: &Document, events: &[Event]) -> Result<String, AllocError> {
    let mut text = String::new(alloc);
    for claim in &document.claims {
        if !text.is_empty() {
            text.push_str("; ")?;
        }
        let machine = Machine::open(alloc, &document.graph, inputs_of(document))?;
        push_found(&mut text, found_on(machine, events, claim))?;
    }
    Ok(text)
}

/// For each claim of the document whether it holds throughout its journal, or the place at which it fails.
pub fn claims_answer(alloc: Global, document: &Document) -> Result<String, AllocError> {
    match events_of(alloc, document)? {
        Ok(events) => found_text(alloc, document, events.as_slice()),
        Err(fault) => Ok(fault),
    }
}
