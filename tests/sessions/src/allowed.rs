//! Which events a machine allows next.

use crate::machines::{Opener, replayed};
use crate::names::{push_act, push_actor};
use std::alloc::{AllocError, Global};
use tpl_graph::Graph;
use tpl_machine::Core;
use tpl_model::{Act, Actor, Answer, Event, TaskId, TokenId, Worker};

/// Who tries.
const ACTORS: [Actor; 3] = [
    Actor::Worker(Worker(1)),
    Actor::Worker(Worker(2)),
    Actor::Outside(1),
];

fn push_each(events: &mut Vec<Event>, act: Act) -> Result<(), AllocError> {
    for actor in ACTORS.iter() {
        events.push(Event { actor: *actor, act })?;
    }
    Ok(())
}

fn push_acts(events: &mut Vec<Event>, task: TaskId) -> Result<(), AllocError> {
    let acts = [
        Act::Release(task),
        Act::Begin(task),
        Act::Step(task),
        Act::Worked(task, Answer::Done),
        Act::Worked(task, Answer::Failed),
        Act::Leave(task),
        Act::Close(task),
        Act::Drop(task),
        Act::Settle(task),
    ];
    for act in acts.iter() {
        push_each(events, *act)?;
    }
    Ok(())
}

fn push_requests(events: &mut Vec<Event>, graph: &Graph) -> Result<(), AllocError> {
    for i in 0..graph.token_count() {
        push_each(events, Act::Request(TokenId(i as u8)))?;
    }
    push_each(events, Act::Request(TokenId(graph.token_count() as u8)))
}

/// Each act for each task and token, and for one past the last, by the workers 1 and 2 and by the outside 1.
pub fn all_events(alloc: Global, graph: &Graph) -> Result<Vec<Event>, AllocError> {
    let mut events = Vec::new(alloc);
    for i in 0..graph.len() {
        push_acts(&mut events, TaskId(i as u16))?;
    }
    push_acts(&mut events, TaskId(graph.len() as u16))?;
    push_requests(&mut events, graph)?;
    Ok(events)
}

/// Of these events, those that a machine allows after a run. An event that is refused leaves the machine as it was, and
/// after one that is allowed it is opened anew.
pub fn allowed<O: Opener>(
    alloc: Global,
    opener: &O,
    run: &[Event],
    events: &[Event],
) -> Result<Vec<Event>, AllocError> {
    let mut taken = Vec::new(alloc);
    let mut core = replayed(opener, run)?;
    for event in events {
        if core.step(*event).is_ok() {
            taken.push(*event)?;
            core = replayed(opener, run)?;
        }
    }
    Ok(taken)
}

/// Adds a line for each act that is allowed, with those to whom it is.
pub fn push_allowed(text: &mut String, graph: &Graph, events: &[Event]) -> Result<(), AllocError> {
    let mut last = None;
    for event in events {
        if last != Some(event.act) {
            text.push_str("\n  may ")?;
            push_act(text, graph, event.act)?;
            text.push_str(" by")?;
            last = Some(event.act);
        }
        text.push(' ')?;
        push_actor(text, event.actor)?;
    }
    Ok(())
}
