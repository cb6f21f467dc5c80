//! What the readers of a graph answer.

use crate::names::{task_name, token_name};
use crate::words::SINGLE;
use std::alloc::AllocError;
use tpl_graph::Graph;
use tpl_model::{InputId, LabelId, Options, SiteId, TaskId, TokenId};

/// How many there are of each sort.
pub fn tell_counts(text: &mut String, graph: &Graph) -> Result<(), AllocError> {
    let tasks = graph.len();
    let tokens = graph.token_count();
    let inputs = graph.input_count();
    let sites = graph.site_count();
    let labels = graph.label_count();
    let bound = graph.bound();
    write!(text, "{tasks} tasks, {tokens} tokens, {inputs} inputs, ")?;
    write!(text, "{sites} sites, {labels} labels, {bound} events")
}

/// Adds the number that is found by a name.
fn tell_found(text: &mut String, number: Option<usize>) -> Result<(), AllocError> {
    match number {
        Some(number) => write!(text, ", found at {number}"),
        None => write!(text, ", not found"),
    }
}

fn tell_tasks_of(
    text: &mut String,
    graph: &Graph,
    word: &str,
    tasks: &[TaskId],
) -> Result<(), AllocError> {
    for task in tasks {
        let name = task_name(graph, *task);
        write!(text, ", {word} {name}")?;
    }
    Ok(())
}

fn tell_task_of(
    text: &mut String,
    graph: &Graph,
    word: &str,
    task: Option<TaskId>,
) -> Result<(), AllocError> {
    if let Some(task) = task {
        let name = task_name(graph, task);
        write!(text, ", {word} {name}")?;
    }
    Ok(())
}

fn tell_tokens_of(text: &mut String, graph: &Graph, tokens: &[TokenId]) -> Result<(), AllocError> {
    for token in tokens {
        let name = token_name(graph, *token);
        write!(text, ", linked to {name}")?;
    }
    Ok(())
}

fn tell_options(text: &mut String, options: Options) -> Result<(), AllocError> {
    for word in SINGLE {
        if let Some(option) = Options::from_word(word) {
            if options.contains(option) {
                write!(text, ", {word}")?;
            }
        }
    }
    Ok(())
}

fn tell_inputs(text: &mut String, graph: &Graph) -> Result<(), AllocError> {
    for number in 0..graph.input_count() {
        let name = graph.input_name(InputId(number as u8));
        write!(text, "\n  input {name}")?;
        tell_found(text, graph.input(name).map(|input| input.0 as usize))?;
    }
    Ok(())
}

fn tell_tokens(text: &mut String, graph: &Graph) -> Result<(), AllocError> {
    for number in 0..graph.token_count() {
        let token = TokenId(number as u8);
        let name = graph.token_name(token);
        write!(text, "\n  token {name}")?;
        tell_tokens_of(text, graph, graph.sources(token))?;
        tell_found(text, graph.token(name).map(|token| token.0 as usize))?;
    }
    Ok(())
}

fn tell_sites(text: &mut String, graph: &Graph) -> Result<(), AllocError> {
    for number in 0..graph.site_count() {
        let site = SiteId(number as u16);
        let name = graph.site_name(site);
        write!(text, "\n  site {name}")?;
        tell_task_of(text, graph, "of", Some(graph.site_owner(site)))?;
        if graph.site_may_fail(site) {
            write!(text, ", may fail")?;
        }
        tell_found(text, graph.site(name).map(|site| site.0 as usize))?;
    }
    Ok(())
}

/// The most labels of a graph that are told. They are its first ones.
const MOST_TOLD: usize = 256;

fn tell_labels(text: &mut String, graph: &Graph) -> Result<(), AllocError> {
    for number in 0..graph.label_count().min(MOST_TOLD) {
        let name = graph.label_name(LabelId(number as u16));
        write!(text, "\n  label {name}")?;
    }
    Ok(())
}

/// Adds what the readers answer of a task.
fn tell_task(text: &mut String, graph: &Graph, task: TaskId) -> Result<(), AllocError> {
    if task.0 as usize >= graph.len() {
        return write!(text, "\n  no task");
    }
    let name = graph.name(task);
    let kind = graph.kind(task);
    let size = graph.body(task).size();
    write!(text, "\n  {kind:?} {name}, {size} statements")?;
    tell_task_of(text, graph, "after", graph.antecedent(task))?;
    tell_tasks_of(text, graph, "of", graph.args(task))?;
    if let Some(token) = graph.own_token(task) {
        let token = token_name(graph, token);
        write!(text, ", token {token}")?;
    }
    tell_options(text, graph.options(task))?;
    tell_task_of(text, graph, "started by", graph.parent_of(task))?;
    tell_tasks_of(text, graph, "attached", graph.attached(task))?;
    tell_found(text, graph.task(name).map(|task| task.0 as usize))
}

fn tell_tasks(text: &mut String, graph: &Graph) -> Result<(), AllocError> {
    for number in 0..graph.len() {
        tell_task(text, graph, TaskId(number as u16))?;
    }
    Ok(())
}

/// What is found under a name that nothing has.
fn tell_strange(text: &mut String, graph: &Graph) -> Result<(), AllocError> {
    let name = "Nobody";
    let tasks = graph.task(name).is_none();
    let tokens = graph.token(name).is_none();
    let inputs = graph.input(name).is_none();
    let sites = graph.site(name).is_none();
    write!(
        text,
        "\n  without {name}: {tasks} {tokens} {inputs} {sites}"
    )
}

/// What each reader answers.
pub fn tell(text: &mut String, graph: &Graph) -> Result<(), AllocError> {
    tell_counts(text, graph)?;
    tell_inputs(text, graph)?;
    tell_tokens(text, graph)?;
    tell_labels(text, graph)?;
    tell_sites(text, graph)?;
    tell_tasks(text, graph)?;
    tell_strange(text, graph)
}
