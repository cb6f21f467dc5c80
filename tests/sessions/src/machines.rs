//! Machines that are opened anew at each place of a run.

use std::alloc::{AllocError, Global};
use tpl_fast::Fast;
use tpl_graph::Graph;
use tpl_machine::{Core, Machine};
use tpl_model::{Event, Inputs};
use tpl_reader::Document;

/// Opens machines, each time with the same graph and inputs.
pub trait Opener {
    type Machine: Core + Drop;

    fn open(&self) -> Result<Self::Machine, AllocError>;
}

/// A graph and its inputs, with which machines are opened.
#[derive(Drop)]
pub struct Start<'g> {
    alloc: Global,
    graph: &'g Graph,
    inputs: Inputs,
}

/// Opens plain machines.
#[derive(Drop)]
pub struct Plain<'g>(pub Start<'g>);

impl<'g> Opener for Plain<'g> {
    type Machine = Machine<'g>;

    fn open(&self) -> Result<Machine<'g>, AllocError> {
        Machine::open(self.0.alloc, self.0.graph, self.0.inputs.copy())
    }
}

/// Opens indexed machines.
#[derive(Drop)]
pub struct Indexed<'g>(pub Start<'g>);

impl<'g> Opener for Indexed<'g> {
    type Machine = Fast<'g>;

    fn open(&self) -> Result<Fast<'g>, AllocError> {
        Fast::open(self.0.alloc, self.0.graph, self.0.inputs.copy())
    }
}

/// The graph of a document, and the inputs with which it starts.
pub fn start_of(alloc: Global, document: &Document) -> Start<'_> {
    let inputs = match &document.start {
        Some(start) => start.inputs.copy(),
        None => Inputs::new(0),
    };
    let graph = &document.graph;
    Start {
        alloc,
        graph,
        inputs,
    }
}

/// A machine after these events. What isn't allowed is left out.
pub fn replayed<O: Opener>(opener: &O, events: &[Event]) -> Result<O::Machine, AllocError> {
    let mut core = opener.open()?;
    for event in events {
        let _ = core.step(*event);
    }
    Ok(core)
}
