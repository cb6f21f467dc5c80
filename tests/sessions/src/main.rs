//! Runs: plays on both machines, random runs on both side by side, the queue between threads, and sessions.
//!
//! The file `files` names the plays. Each check is a line, and the last line counts them. With the word `memory`, the
//! sessions of cases/test_session_memory.py alone. With `speed WORKERS MICROSECONDS` nothing is checked: the document on
//! standard input is run by so many workers, each job of it takes so long, and how fast they are is printed.

mod allowed;
mod asked;
mod beside;
mod cast;
mod chance;
mod closed;
mod crews;
mod dice;
mod exchange;
mod graphs;
mod halting;
mod machines;
mod meeting;
mod memory;
mod names;
mod opened;
mod parts;
mod plays;
mod pool;
mod queue;
mod refusals;
mod retold;
mod scenes;
mod scripts;
mod seen;
mod served;
mod sessions;
mod shut;
mod speed;
mod spins;
mod steps;

use crate::chance::check_chance;
use crate::graphs::check_cases;
use crate::meeting::check_meetings;
use crate::memory::play_with_little;
use crate::plays::check_play;
use crate::queue::check_queue;
use crate::refusals::{check_counts, check_items};
use crate::scenes::check_scenes;
use crate::served::{check_fault_lines, check_served};
use crate::speed::{Crew, measure};
use std::{env, fs, io};

/// How many checks there were, and how many of them failed.
#[derive(Clone, Copy)]
struct Tally {
    checks: usize,
    failed: usize,
}

impl Tally {
    /// The counts, with these checks added; those that don't hold have failed.
    fn with(self, checks: &[bool]) -> Tally {
        let mut tally = self;
        for holds in checks {
            tally.checks = tally.checks.saturating_add(1);
            if !*holds {
                tally.failed = tally.failed.saturating_add(1);
            }
        }
        tally
    }
}

/// Each play, on both machines.
fn check_plays(rt: &HostRuntime, so_far: Tally) -> io::Result<Tally> {
    let mut tally = so_far;
    for file in fs::read_to_string(rt, "files")?.lines() {
        tally = tally.with(&check_play(rt, file)?);
    }
    Ok(tally)
}

/// Who runs the tasks that are measured, by the words `WORKERS MICROSECONDS`.
fn crew_of(workers: Option<String>, microseconds: Option<String>) -> Option<Crew> {
    Some(Crew {
        workers: workers?.as_str().parse::<u16>().ok()?,
        microseconds: microseconds?.as_str().parse::<u32>().ok()?,
    })
}

fn main(rt: HostRuntime) -> io::Result<()> {
    let mut words = env::args(&rt)?;
    if let Some(word) = words.nth(1) {
        if word.as_str() == "memory" {
            return play_with_little(&rt, rt.alloc());
        }
        let workers = words.next();
        return match crew_of(workers, words.next()) {
            Some(crew) => measure(&rt, &rt, crew),
            None => println!(&rt; "memory, or speed WORKERS MICROSECONDS"),
        };
    }
    let tally = Tally {
        checks: 0,
        failed: 0,
    };
    let tally = check_plays(&rt, tally)?;
    let tally = tally.with(&[check_chance(&rt)?]);
    let tally = tally.with(&check_queue(&rt, rt.alloc())?);
    let tally = check_cases(&rt, rt.alloc(), &sessions::CASES, tally)?;
    let tally = check_scenes(&rt, rt.alloc(), tally)?;
    let tally = tally.with(&check_items(&rt, rt.alloc())?);
    let tally = tally.with(&[check_counts(&rt, rt.alloc())?]);
    let tally = tally.with(&check_meetings(&rt, rt.alloc())?);
    let tally = check_cases(&rt, rt.alloc(), &beside::CASES, tally)?;
    let tally = tally.with(&check_served(&rt, rt.alloc())?);
    let tally = tally.with(&check_fault_lines(&rt)?);
    println!(&rt; "{} checks, {} failed", tally.checks, tally.failed)
}
