//! Sessions whose workers are threads of the test's own, and who is in threads beside them.

use crate::asked::CANCELED;
use crate::cast::{Beside, cast, gathered, seated};
use crate::closed::{Back, closes_well};
use crate::crews::{RAN, all_ran};
use crate::exchange::Stamp;
use crate::graphs::{Attempt, Case};
use crate::halting::halted_in_run;
use crate::meeting::{flags_of, meet};
use crate::opened::opened;
use crate::parts::{FIRST, side_by_side};
use std::alloc::{AllocError, Global};
use std::sync::atomic::AtomicU64;
use std::sync::{Arc, Wait};
use std::thread::Threads;
use tpl_graph::Graph;
use tpl_items::{QueuePass, Receipt, Work, WorkItem};
use tpl_model::{Act, Actor, Answer, Event, SiteId, Status};
use tpl_runtime::{Item, Report, Session};

/// The seat outside that looks at each task in the end. Those beside the workers have the first two.
const LAST: Actor = Actor::Outside(3);

/// The site of the first task's first box.
const FIRST_BOX: SiteId = SiteId(0);

/// How many workers run a graph, and who is beside them.
#[derive(Clone, Copy)]
pub struct Company {
    workers: u16,
    beside: Beside,
}

/// Who runs which graph, how often.
pub const CASES: [Case; 10] = [
    Case {
        title: "two seats that work in threads of their own",
        file: "two_that_meet",
        attempt: Attempt::Beside(Company {
            workers: 2,
            beside: Beside::Nobody,
        }),
        rounds: 1,
    },
    Case {
        title: "eight seats that work in threads of their own",
        file: "eight_that_meet",
        attempt: Attempt::Beside(Company {
            workers: 8,
            beside: Beside::Nobody,
        }),
        rounds: 1,
    },
    Case {
        title: "two seats that request beside four that work, a hundred times",
        file: "seven_with_two_tokens",
        attempt: Attempt::Beside(Company {
            workers: 4,
            beside: Beside::Requests,
        }),
        rounds: 100,
    },
    Case {
        title: "a watcher that looks a thousand times",
        file: "seven",
        attempt: Attempt::Beside(Company {
            workers: 2,
            beside: Beside::Watcher,
        }),
        rounds: 20,
    },
    Case {
        title: "a look at a task while its box is called",
        file: "one_that_waits",
        attempt: Attempt::Beside(Company {
            workers: 2,
            beside: Beside::Look,
        }),
        rounds: 20,
    },
    Case {
        title: "halted between two boxes",
        file: "two_in_turn_that_wait",
        attempt: Attempt::Beside(Company {
            workers: 1,
            beside: Beside::Halt,
        }),
        rounds: 20,
    },
    Case {
        title: "halted while seven of eight wait",
        file: "two_in_turn_that_wait",
        attempt: Attempt::Beside(Company {
            workers: 8,
            beside: Beside::Halt,
        }),
        rounds: 20,
    },
    Case {
        title: "halted while 63 of 64 wait",
        file: "two_in_turn_that_wait",
        attempt: Attempt::Beside(Company {
            workers: 64,
            beside: Beside::Halt,
        }),
        rounds: 5,
    },
    Case {
        title: "halted while the one worker of a run calls a box",
        file: "two_in_turn_that_wait",
        attempt: Attempt::Beside(Company {
            workers: 1,
            beside: Beside::HaltRun,
        }),
        rounds: 20,
    },
    Case {
        title: "halted while seven of the eight workers of a run wait",
        file: "two_in_turn_that_wait",
        attempt: Attempt::Beside(Company {
            workers: 8,
            beside: Beside::HaltRun,
        }),
        rounds: 20,
    },
];

/// The run is complete, and each task ran to its end, but for the two that may be canceled.
fn ran_or_canceled<K, W>(report: &Report<K, W>) -> bool {
    let mut all = report.complete && report.receipts.len() == 3 && report.unseen.is_empty();
    for (at, status) in report.statuses.iter().enumerate() {
        let may_be_canceled = at == 3 || at == 6;
        all = all && (*status == RAN || may_be_canceled && *status == CANCELED);
    }
    all
}

/// The first box was called: the run has its task's beginning and the box's answer, and no more.
fn has_one_answer(journal: &[Event]) -> bool {
    let Some(first) = journal.first() else {
        return false;
    };
    let wanted = [Act::Begin(FIRST), Act::Worked(FIRST, Answer::Done)].map(|act| Event {
        actor: first.actor,
        act,
    });
    journal == wanted.as_slice()
}

/// The one receipt is the first box's.
fn is_first_box<K>(receipts: &[Receipt<K>]) -> bool {
    receipts.len() == 1 && receipts.iter().all(|receipt| receipt.site() == FIRST_BOX)
}

/// The first box was called and the second one wasn't. Nothing happened after the first answer.
fn stands_halted<K, W: Item<K>>(report: &Report<K, W>) -> bool {
    !report.complete
        && report.statuses.as_slice() == [Status::Running].as_slice()
        && has_one_answer(report.journal.as_slice())
        && is_first_box(report.receipts.as_slice())
        && report.items.len() == 1
}

/// The session ends as it must with them beside its workers.
fn ends<K, W: Item<K>>(graph: &Graph, report: &Report<K, W>, beside: Beside) -> bool {
    match beside {
        Beside::Nobody | Beside::Watcher => all_ran(graph, report, None),
        Beside::Requests => ran_or_canceled(report),
        Beside::Look => all_ran(graph, report, Some(3)),
        Beside::Halt | Beside::HaltRun => stands_halted(report),
    }
}

/// Lets all be in threads at once: those of the session's own `run`, or the test's own. None where they don't come back.
fn acts<'g, R: Threads + Wait + Sync, K: Drop + Send, W: Item<K> + Send>(
    rt: &R,
    alloc: Global,
    graph: &Graph,
    session: &Session<'g, K, W>,
    pass: QueuePass<Vec<W>>,
    flags: &[AtomicU64],
    company: Company,
) -> Option<Back<W>> {
    if let Beside::HaltRun = company.beside {
        return halted_in_run(rt, alloc, session, pass, flags, company.workers);
    }
    let Ok(cast) = cast(alloc, session, company.workers, company.beside) else {
        return None;
    };
    let (pass, parts) = seated(rt, alloc, session, pass, cast)?;
    match side_by_side(rt, alloc, graph, session, flags, parts) {
        Ok(parts) => Some(gathered(alloc, session, pass, parts)),
        Err(_) => None,
    }
}

/// Lets all be in threads at once, and says whether they and the session end as they must.
fn together<R: Threads + Wait + Sync, K: Drop + Send, W: Item<K> + Send>(
    rt: &R,
    alloc: Global,
    graph: &Graph,
    session: Session<'_, K, W>,
    pass: QueuePass<Vec<W>>,
    flags: &[AtomicU64],
    company: Company,
) -> bool {
    let Ok(looker) = session.seat(rt, alloc, LAST) else {
        return false;
    };
    let Some(back) = acts(rt, alloc, graph, &session, pass, flags, company) else {
        return false;
    };
    match closes_well(rt, alloc, graph, session, back, looker) {
        Some(report) => ends(graph, &report, company.beside),
        None => false,
    }
}

/// Tries a session with these items.
fn tries<R: Threads + Wait + Sync, K: Drop + Send, W: Item<K> + Send>(
    rt: &R,
    alloc: Global,
    graph: &Graph,
    items: Vec<W>,
    flags: &[AtomicU64],
    company: Company,
) -> bool {
    match opened(alloc, graph, items) {
        Some((session, pass)) => together(rt, alloc, graph, session, pass, flags, company),
        None => false,
    }
}

/// How many boxes wait for each other, one that is called from outside included.
fn flag_count(graph: &Graph, beside: Beside) -> usize {
    match beside {
        Beside::Nobody => graph.site_count(),
        Beside::Requests | Beside::Watcher => 0,
        Beside::Look | Beside::Halt | Beside::HaltRun => 2,
    }
}

/// Makes a box for each work statement, and tries a session with them.
pub fn tried_beside<R: Threads + Wait + Sync>(
    rt: &R,
    alloc: Global,
    graph: &Graph,
    company: Company,
) -> Result<bool, AllocError> {
    let flags = flags_of(alloc, flag_count(graph, company.beside))?;
    let mut items: Vec<WorkItem<Stamp>> = Vec::new(alloc);
    for number in 0..graph.site_count() {
        let site = SiteId(number as u16);
        let may_fail = graph.site_may_fail(site);
        let own = Arc::try_clone(&flags)?;
        let work: Work = Box::new(alloc, move |site: SiteId| -> Answer {
            meet(own.as_slice(), site, may_fail)
        })?;
        items.push(WorkItem::new(Stamp(0), site, may_fail, work))?;
    }
    Ok(tries(rt, alloc, graph, items, flags.as_slice(), company))
}
