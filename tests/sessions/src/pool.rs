//! The jobs of a graph of roots and continuations on a bare pool of threads: a list under a lock, and nothing that is
//! written of them.

use crate::speed::Ran;
use std::alloc::{AllocError, Global};
use std::collections::VecDeque;
use std::sync::{Condvar, Mutex, Wait};
use std::thread::Threads;
use std::time::{Clock, Instant};
use std::{io, thread};
use tpl_graph::Graph;
use tpl_items::WorkItem;
use tpl_model::{SiteId, TaskId};

/// The job of a task, if it has one.
type Item = Option<WorkItem<()>>;

/// What the pool's lock guards.
#[derive(Drop)]
struct Line {
    /// The tasks that may be run.
    ready: VecDeque<usize>,
    /// By task, its job, until it is taken.
    items: Vec<Item>,
    /// How many tasks aren't done.
    left: usize,
}

/// What a thread does when it has left the lock.
#[derive(Drop)]
enum Next {
    /// It runs a task.
    Run(usize, Item),
    /// It waits until there is one.
    Wait,
    /// All tasks are done.
    Over,
}

impl Line {
    /// What a thread does next.
    fn next(&mut self) -> Next {
        if self.left == 0 {
            return Next::Over;
        }
        match self.ready.pop_front() {
            Some(task) if task < self.items.len() => Next::Run(task, self.items[task].take()),
            _ => Next::Wait,
        }
    }

    /// Makes the followers of a task ready, which is done.
    fn finish(&mut self, followers: &[usize]) {
        self.left = self.left.saturating_sub(1);
        for follower in followers {
            let _room = self.ready.push_back(*follower);
        }
    }
}

/// The task that one continues.
fn antecedent_of(graph: &Graph, task: usize) -> Option<usize> {
    if task < graph.len() {
        let antecedent = graph.antecedent(TaskId(task as u16))?;
        Some(antecedent.0 as usize)
    } else {
        None
    }
}

/// By task, those that continue it.
fn followers_of(alloc: Global, graph: &Graph) -> Result<Vec<Vec<usize>>, AllocError> {
    let mut followers: Vec<Vec<usize>> = Vec::with_capacity(alloc, graph.len())?;
    for task in 0..graph.len() {
        followers.push(Vec::new(alloc))?;
        if let Some(antecedent) = antecedent_of(graph, task) {
            if let Some(list) = followers.get_mut(antecedent) {
                list.push(task)?;
            }
        }
    }
    Ok(followers)
}

/// The tasks that continue none.
fn ready_first(alloc: Global, graph: &Graph) -> Result<VecDeque<usize>, AllocError> {
    let mut ready = VecDeque::with_capacity(alloc, graph.len())?;
    for task in 0..graph.len() {
        if antecedent_of(graph, task).is_none() {
            ready.push_back(task)?;
        }
    }
    Ok(ready)
}

/// A place for a job of each task.
fn empty_places(alloc: Global, count: usize) -> Result<Vec<Item>, AllocError> {
    let mut places = Vec::with_capacity(alloc, count)?;
    for _ in 0..count {
        places.push(None)?;
    }
    Ok(places)
}

/// By task, its job. The last one counts where a task has several.
fn by_task(
    alloc: Global,
    graph: &Graph,
    items: Vec<WorkItem<()>>,
) -> Result<Vec<Item>, AllocError> {
    let mut places = empty_places(alloc, graph.len())?;
    for item in items {
        let site = item.site();
        if (site.0 as usize) < graph.site_count() {
            let owner = graph.site_owner(site);
            if let Some(place) = places.get_mut(owner.0 as usize) {
                *place = Some(item);
            }
        }
    }
    Ok(places)
}

/// Calls a job, if there is one.
fn call(item: Item) {
    if let Some(item) = item {
        let _receipt = item.call();
    }
}

/// Runs tasks until all are done.
fn work<R: Wait>(rt: &R, followers: &[Vec<usize>], line: &Mutex<Line>, moved: &Condvar) {
    let mut done: Option<usize> = None;
    for _ in rt.forever() {
        let mut held = line.lock(rt);
        if let Some(task) = done
            && let Some(ready) = followers.get(task)
        {
            held.finish(ready.as_slice());
        }
        match held.next() {
            Next::Run(task, item) => {
                drop(held);
                moved.notify_all();
                call(item);
                done = Some(task);
            }
            Next::Wait => {
                let _again = moved.wait(rt, held);
                done = None;
            }
            Next::Over => {
                drop(held);
                moved.notify_all();
                return;
            }
        }
    }
}

/// Runs all tasks by this many threads.
pub fn run_pool<R: Threads + Wait + Sync + Clock>(
    rt: &R,
    alloc: Global,
    graph: &Graph,
    items: Vec<WorkItem<()>>,
    workers: u16,
) -> io::Result<Ran> {
    let followers = followers_of(alloc, graph)?;
    let line = Mutex::new(Line {
        ready: ready_first(alloc, graph)?,
        items: by_task(alloc, graph, items)?,
        left: graph.len(),
    });
    let moved = Condvar::new();
    let (line, moved) = (&line, &moved);
    let followers: &[Vec<usize>] = &followers;
    let mut threads = Vec::new(alloc);
    for number in 0..workers {
        threads.push(number)?;
    }
    let start = Instant::now(rt)?;
    let _done = thread::map_vec(
        rt,
        threads,
        &|_number: u16| work(rt, followers, line, moved),
    )?;
    let time = start.elapsed(rt)?;
    Ok(Ran {
        events: 0,
        complete: true,
        time,
    })
}
