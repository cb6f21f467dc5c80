//! A session that is halted while its own `run` is under way.

use crate::closed::Back;
use crate::crews::back_of;
use crate::parts::halts;
use std::alloc::Global;
use std::sync::Wait;
use std::sync::atomic::AtomicU64;
use std::thread;
use std::thread::Threads;
use tpl_items::QueuePass;
use tpl_runtime::{Ended, Item, RunFault, Seat, Session};

/// Lets this many workers run a session, and halts it while the first box is called: each of them ends halted, and nothing
/// is reported to it. None where they don't all run.
pub fn halted_in_run<'g, R: Threads + Wait + Sync, K: Drop + Send, W: Item<K> + Send>(
    rt: &R,
    alloc: Global,
    session: &Session<'g, K, W>,
    pass: QueuePass<Vec<W>>,
    flags: &[AtomicU64],
    workers: u16,
) -> Option<Back<W>> {
    let (halted, ran) = thread::join(
        rt,
        || halts(rt, session, flags),
        || -> Result<(Vec<(Seat, Ended)>, QueuePass<Vec<W>>), RunFault<W>> {
            session.run(rt, alloc, pass, workers)
        },
    );
    let Ok((done, pass)) = ran else {
        return None;
    };
    let mut back = back_of(alloc, done, pass, Ended::Halted)?;
    back.well = back.well && halted;
    Some(back)
}
