//! Boxes that wait for each other, so that their workers must run at the same time.

use crate::exchange::Stamp;
use crate::graphs::{Attempt, check_on};
use crate::sessions::{Trial, tries};
use std::alloc::{AllocError, Global};
use std::fs::Files;
use std::sync::atomic::{AtomicU64, Ordering};
use std::sync::{Arc, Wait};
use std::thread::Threads;
use std::{io, thread};
use tpl_graph::Graph;
use tpl_items::{Work, WorkItem};
use tpl_model::{Answer, SiteId};

/// How often a box looks for the others before it gives up.
const TURNS: usize = 20_000_000;

/// The graphs whose boxes meet, each with as many workers as boxes.
const MEETINGS: [(&str, u16); 2] = [("two_that_meet", 2), ("eight_that_meet", 8)];

/// Whether this many flags, the first ones, are set.
fn are_set(flags: &[AtomicU64], count: usize) -> bool {
    flags
        .iter()
        .take(count)
        .all(|flag| flag.load(Ordering::SeqCst) == 1)
}

/// Waits until this many flags, the first ones, are set, and says whether they are.
pub fn all_come(flags: &[AtomicU64], count: usize) -> bool {
    for _ in 0..TURNS {
        if are_set(flags, count) {
            return true;
        }
        thread::yield_now();
    }
    false
}

/// Sets the flag of a box, and waits for all others. It fails where they don't come, if it may.
pub fn meet(flags: &[AtomicU64], site: SiteId, may_fail: bool) -> Answer {
    if let Some(flag) = flags.get(site.0 as usize) {
        flag.store(1, Ordering::SeqCst);
    }
    if all_come(flags, flags.len()) || !may_fail {
        Answer::Done
    } else {
        Answer::Failed
    }
}

/// This many flags, none of which is set.
pub fn flags_of(alloc: Global, count: usize) -> Result<Arc<Vec<AtomicU64>, Global>, AllocError> {
    let mut flags = Vec::with_capacity(alloc, count)?;
    for _ in 0..count {
        flags.push(AtomicU64::new(0))?;
    }
    Ok(Arc::new(alloc, flags)?)
}

/// The boxes of a graph meet, with this many workers.
pub fn all_meet<R: Threads + Wait + Sync>(
    rt: &R,
    alloc: Global,
    graph: &Graph,
    workers: u16,
) -> Result<bool, AllocError> {
    let flags = flags_of(alloc, graph.site_count())?;
    let mut items: Vec<WorkItem<Stamp>> = Vec::new(alloc);
    for number in 0..graph.site_count() {
        let site = SiteId(number as u16);
        let own = Arc::try_clone(&flags)?;
        let work: Work = Box::new(alloc, move |site: SiteId| -> Answer {
            meet(own.as_slice(), site, true)
        })?;
        items.push(WorkItem::new(Stamp(0), site, true, work))?;
    }
    let trial = Trial {
        workers,
        events: None,
        is_narrow: false,
    };
    let ran = tries(rt, alloc, graph, items, trial);
    Ok(ran && are_set(flags.as_slice(), flags.len()))
}

/// Lets the boxes of each graph meet, and answers where they do.
pub fn check_meetings<R: Files + Alloc + Print + Threads + Wait + Sync>(
    rt: &R,
    alloc: Global,
) -> io::Result<[bool; 2]> {
    let mut all = [false; 2];
    for (holds, (name, workers)) in all.iter_mut().zip(MEETINGS.iter()) {
        let attempt = Attempt::Meeting(*workers);
        *holds = check_on(rt, alloc, "boxes that wait for each other", name, attempt)?;
    }
    Ok(all)
}
