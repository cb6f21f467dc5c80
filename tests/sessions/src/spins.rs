//! Jobs that only take time.

use std::io;
use std::time::{Clock, Instant};
use tpl_model::Answer;

/// How many rounds are timed.
const TIMED: u64 = 20_000_000;

/// What a job begins with.
const SEED: u64 = 0x9E37_79B9_7F4A_7C15;

/// What this many rounds make of a number that isn't 0, by shifts alone: never 0.
fn shifted(rounds: u64) -> u64 {
    let mut number = SEED;
    for _ in 0..rounds {
        number ^= number << 13;
        number ^= number >> 7;
        number ^= number << 17;
    }
    number
}

/// What a job answers that makes this many rounds. It is always `Done`, but the rounds have to be made to know it.
pub fn answer_after(rounds: u64) -> Answer {
    if shifted(rounds) == 0 {
        Answer::Failed
    } else {
        Answer::Done
    }
}

/// How many rounds take a microsecond.
pub fn rounds_a_microsecond<R: Clock>(rt: &R) -> io::Result<u64> {
    let start = Instant::now(rt)?;
    let answer = answer_after(TIMED);
    let time = start.elapsed(rt)?.as_micros();
    if answer == Answer::Failed {
        return Ok(1);
    }
    let time = u64::try_from(time).unwrap_or(u64::MAX);
    Ok((TIMED / time.max(1)).max(1))
}
