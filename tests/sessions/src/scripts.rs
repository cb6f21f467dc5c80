//! What is done in the sessions of each scene. The answers come from the rules of tasks and of sessions, worked out by
//! hand.

use crate::asked::CANCELED;
use crate::crews::{LOOKER, RAN};
use crate::parts::FIRST;
use crate::steps::Step;
use tpl_model::{Act, Actor, Event, TaskId, TokenId, Worker};
use tpl_runtime::{Asked, Ended, Looked, SeatFault, Sight};

/// A scene of two sessions, the other one fresh.
#[derive(Clone, Copy)]
pub enum Scene {
    /// A token is requested, which drops the task after another one.
    Requested,
    /// A link is requested once one of its sources is, which drops the task whose token it is.
    Linked,
    /// The session is halted before anyone works.
    Halted,
    /// The session is halted once its token is requested and its run is complete.
    HaltedLast,
    /// A task is dropped after a worker could take its job.
    Dropped,
    /// One of two jobs is called, and the other one's task dropped.
    HalfCalled,
    /// The other session is over a smaller graph, so that its seat has no room.
    Full,
}

/// The graphs of the two sessions, and what is done: in the first one, then in the other, and then in the first again.
/// Seats and watchers are counted over both.
#[derive(Clone, Copy)]
pub struct Script {
    pub file: &'static str,
    pub other: &'static str,
    pub first: &'static [Step],
    pub beside: &'static [Step],
    pub last: &'static [Step],
}

const FIRST_WORKER: Actor = Actor::Worker(Worker(1));

const SECOND_WORKER: Actor = Actor::Worker(Worker(2));

/// Further seats outside.
const SECOND_SEAT: Actor = Actor::Outside(2);

const THIRD_SEAT: Actor = Actor::Outside(3);

/// The task after another one.
const SECOND: TaskId = TaskId(1);

const TOKEN: TokenId = TokenId(0);

/// The first task was dropped, and the second one begins.
const SECOND_BEGINS: Event = Event {
    actor: FIRST_WORKER,
    act: Act::Begin(SECOND),
};

/// What is requested is reported to a seat and a watcher. An actor that has a seat gets no other, and there is none for a
/// strange one. A seat outside doesn't work.
const REQUESTED: [Step; 14] = [
    Step::Watch,
    Step::Seat(LOOKER),
    Step::Request(0, TOKEN, Asked::Place(1)),
    Step::Request(0, TOKEN, Asked::Already),
    Step::Look(
        0,
        SECOND,
        Looked::At {
            status: CANCELED,
            place: 2,
        },
    ),
    Step::Last(0, (2, Sight::At(SECOND, CANCELED))),
    Step::See(0, 2),
    Step::See(0, 2),
    Step::NoSeat(Actor::Outside(0), SeatFault::BadActor),
    Step::NoSeat(Actor::Outside(9), SeatFault::BadActor),
    Step::NoSeat(Actor::Worker(Worker(0)), SeatFault::BadActor),
    Step::NoSeat(Actor::Worker(Worker(65)), SeatFault::BadActor),
    Step::NoSeat(LOOKER, SeatFault::SeatTaken),
    Step::Work(0, Ended::Stray),
];

/// In a fresh session the seat is stray.
const STRAY: [Step; 2] = [Step::Seat(LOOKER), Step::Look(0, SECOND, Looked::Stray)];

const LINKED: [Step; 3] = [
    Step::Seat(LOOKER),
    Step::Request(0, TOKEN, Asked::Place(1)),
    Step::Request(0, TokenId(2), Asked::Already),
];

/// In a session that is halted nobody works, and nothing is requested; but a worker that requests is stray.
const HALTED: [Step; 6] = [
    Step::Seat(LOOKER),
    Step::Seat(FIRST_WORKER),
    Step::Halt,
    Step::Work(1, Ended::Halted),
    Step::Request(0, TOKEN, Asked::Halted),
    Step::Request(1, TOKEN, Asked::Stray),
];

/// The token is requested, and a worker ends the run.
const ENDED: [Step; 5] = [
    Step::Seat(LOOKER),
    Step::Seat(FIRST_WORKER),
    Step::Seat(SECOND_WORKER),
    Step::Request(0, TOKEN, Asked::Place(1)),
    Step::Work(1, Ended::Complete),
];

/// Three strangers: a worker who ended the run with no token requested, a seat that then requested it, and one to which it
/// was reported later where the first task stands.
const STRANGERS: [Step; 8] = [
    Step::Seat(FIRST_WORKER),
    Step::Seat(SECOND_SEAT),
    Step::Seat(THIRD_SEAT),
    Step::Work(3, Ended::Complete),
    Step::Request(4, TOKEN, Asked::Place(8)),
    Step::Look(
        5,
        FIRST,
        Looked::At {
            status: RAN,
            place: 8,
        },
    ),
    Step::Did(3, 7),
    Step::Did(5, 0),
];

/// The strangers are stray before the session is halted and after it, and its own seats find it halted.
const HALTED_LAST: [Step; 13] = [
    Step::Work(3, Ended::Stray),
    Step::Did(3, 7),
    Step::Request(4, TOKEN, Asked::Stray),
    Step::Request(5, TOKEN, Asked::Stray),
    Step::Look(5, FIRST, Looked::Stray),
    Step::Halt,
    Step::Request(0, TOKEN, Asked::Halted),
    Step::Work(2, Ended::Halted),
    Step::Work(3, Ended::Stray),
    Step::Did(3, 7),
    Step::Request(4, TOKEN, Asked::Stray),
    Step::Request(5, TOKEN, Asked::Stray),
    Step::Look(5, FIRST, Looked::Stray),
];

/// The jobs of both tasks are put by the request of the first token, and the second one's drops the first task: its
/// beginning is refused, and no watcher sees it. The second task begins, takes a step and is left.
const DROPPED: [Step; 8] = [
    Step::Watch,
    Step::Seat(LOOKER),
    Step::Seat(FIRST_WORKER),
    Step::Request(0, TOKEN, Asked::Place(1)),
    Step::Request(0, TokenId(1), Asked::Place(2)),
    Step::Work(1, Ended::Complete),
    Step::See(0, 6),
    Step::Saw(0, 3, SECOND_BEGINS),
];

/// The token of the second task is requested, and the task dropped. The first one begins, answers and is left. The third
/// seat does nothing.
const HALF_CALLED: [Step; 7] = [
    Step::Watch,
    Step::Seat(LOOKER),
    Step::Seat(FIRST_WORKER),
    Step::Seat(SECOND_SEAT),
    Step::Request(0, TOKEN, Asked::Place(1)),
    Step::Work(1, Ended::Complete),
    Step::See(0, 5),
];

/// A fresh session's seats of the same worker and of another actor, and a watcher that saw the other actor's request.
const HALF_OTHER: [Step; 5] = [
    Step::Seat(FIRST_WORKER),
    Step::Watch,
    Step::Seat(THIRD_SEAT),
    Step::Request(4, TOKEN, Asked::Place(1)),
    Step::See(1, 2),
];

const ASKS: [Step; 2] = [Step::Seat(LOOKER), Step::Request(0, TOKEN, Asked::Place(1))];

/// The same actor requests in a session of a smaller graph.
const ASKS_TOO: [Step; 2] = [Step::Seat(LOOKER), Step::Request(1, TOKEN, Asked::Place(1))];

/// What that seat has stands in the first run too, but it has no room for what is reported: it is stray.
const FULL: [Step; 1] = [Step::Look(1, FIRST, Looked::Stray)];

/// What is done in a scene.
pub fn script_of(scene: Scene) -> Script {
    let (file, other, first, beside, last): (_, _, &[Step], &[Step], &[Step]) = match scene {
        Scene::Requested => ("two", "two", &REQUESTED, &STRAY, &[]),
        Scene::Linked => ("linked", "two", &LINKED, &[], &[]),
        Scene::Halted => ("seven_with_stop", "two", &HALTED, &[], &[]),
        Scene::HaltedLast => ("two", "two", &ENDED, &STRANGERS, &HALTED_LAST),
        Scene::Dropped => ("two_with_two_tokens", "two", &DROPPED, &[], &[]),
        Scene::HalfCalled => (
            "one_job_left",
            "one_job_left",
            &HALF_CALLED,
            &HALF_OTHER,
            &[],
        ),
        Scene::Full => ("two", "one_token", &ASKS, &ASKS_TOO, &FULL),
    };
    Script {
        file,
        other,
        first,
        beside,
        last,
    }
}
