//! What is answered to option words and statuses.

use std::alloc::{AllocError, Global};
use tpl_model::{Final, OptionFault, Options, Status};

/// The words of one bit each that a continuation may have (.NET API documentation), in the order of the bits that
/// `union_of` takes.
pub const SINGLE: [&str; 11] = [
    "PreferFairness",
    "LongRunning",
    "AttachedToParent",
    "DenyChildAttach",
    "HideScheduler",
    "LazyCancellation",
    "RunContinuationsAsynchronously",
    "ExecuteSynchronously",
    "NotOnRanToCompletion",
    "NotOnFaulted",
    "NotOnCanceled",
];

const FINALS: [Final; 3] = [Final::RanToCompletion, Final::Canceled, Final::Faulted];

/// The statuses, in the order of a task's life.
const STATUSES: [Status; 8] = [
    Status::Created,
    Status::WaitingForActivation,
    Status::WaitingToRun,
    Status::Running,
    Status::WaitingForChildrenToComplete,
    Status::Completed(Final::RanToCompletion),
    Status::Completed(Final::Canceled),
    Status::Completed(Final::Faulted),
];

/// Adds a word after those before it.
pub fn push_word(text: &mut String, word: &str) -> Result<(), AllocError> {
    if !text.is_empty() {
        text.push(' ')?;
    }
    text.push_str(word)
}

/// The union of these words; none where one is no option word.
fn options_of(words: &str) -> Option<Options> {
    let mut options = Options::empty();
    for word in words.split_whitespace() {
        options = options.union(Options::from_word(word)?);
    }
    Some(options)
}

/// The words of one bit each in the union.
fn single_words(alloc: Global, options: Options) -> Result<String, AllocError> {
    let mut text = String::new(alloc);
    for word in SINGLE {
        if Options::from_word(word).is_some_and(|option| options.contains(option)) {
            push_word(&mut text, word)?;
        }
    }
    Ok(text)
}

/// The ends of its antecedent after which a continuation with these words may run.
fn allowed_ends(alloc: Global, options: Options) -> Result<String, AllocError> {
    let mut text = String::new(alloc);
    for status in FINALS {
        if options.allows(status) {
            push_word(&mut text, status.name())?;
        }
    }
    Ok(text)
}

/// The single words after which is asked, and that are in the union.
fn answered_words(alloc: Global, options: Options) -> Result<String, AllocError> {
    let answers = [
        ("AttachedToParent", options.attached_to_parent()),
        ("DenyChildAttach", options.deny_child_attach()),
        ("LazyCancellation", options.lazy_cancellation()),
        (
            "RunContinuationsAsynchronously",
            options.run_continuations_asynchronously(),
        ),
        ("ExecuteSynchronously", options.execute_synchronously()),
    ];
    let mut text = String::new(alloc);
    for (word, holds) in answers {
        if holds {
            push_word(&mut text, word)?;
        }
    }
    Ok(text)
}

/// What is answered to option words.
fn options_answer(alloc: Global, verb: &str, words: &str) -> Result<String, AllocError> {
    let Some(options) = options_of(words) else {
        return String::from_str(alloc, "no option word");
    };
    match verb {
        "contains" => single_words(alloc, options),
        "allows" => allowed_ends(alloc, options),
        "asks" => answered_words(alloc, options),
        _ => match options.valid() {
            Ok(()) => String::from_str(alloc, "valid"),
            Err(fault) => format!(in alloc; "{fault}"),
        },
    }
}

/// Whether an option word has all bits of the words behind it.
fn has_answer(alloc: Global, words: &str) -> Result<String, AllocError> {
    let (word, others) = words.split_once(' ').unwrap_or((words, ""));
    match (Options::from_word(word), options_of(others)) {
        (Some(options), Some(others)) => format!(in alloc; "{}", options.contains(others)),
        _ => String::from_str(alloc, "no option word"),
    }
}

/// The union of the words whose bits are set.
fn union_of(chosen: u16) -> Options {
    let mut options = Options::empty();
    for i in 0..SINGLE.len() {
        if (chosen >> i) & 1 == 1 {
            options = options.union(Options::from_word(SINGLE[i]).unwrap_or(Options::empty()));
        }
    }
    options
}

/// How many unions there are of each sort.
#[derive(Clone, Copy)]
struct Unions {
    valid: u16,
    excludes_all: u16,
    long_and_sync: u16,
    /// Those that are answered otherwise than their bits say: all of the last three exclude each end, and `LongRunning`
    /// and `ExecuteSynchronously` contradict each other.
    wrong: u16,
}

fn add_union(unions: Unions, chosen: u16) -> Unions {
    let mut unions = unions;
    let never_runs = chosen >= 0x700;
    let contradicts = chosen & 0x82 == 0x82;
    let (count, right) = match union_of(chosen).valid() {
        Ok(()) => (&mut unions.valid, !never_runs && !contradicts),
        Err(OptionFault::ExcludesAll) => (&mut unions.excludes_all, never_runs),
        Err(OptionFault::LongAndSync) => (&mut unions.long_and_sync, contradicts && !never_runs),
    };
    *count = count.saturating_add(1);
    if !right {
        unions.wrong = unions.wrong.saturating_add(1);
    }
    unions
}

/// What is said of each union of the eleven words.
fn unions_answer(alloc: Global) -> Result<String, AllocError> {
    let mut unions = Unions {
        valid: 0,
        excludes_all: 0,
        long_and_sync: 0,
        wrong: 0,
    };
    for chosen in 0..2048u16 {
        unions = add_union(unions, chosen);
    }
    format!(in alloc;
        "{} valid, {} ExcludesAll, {} LongAndSync, {} wrong",
        unions.valid, unions.excludes_all, unions.long_and_sync, unions.wrong
    )
}

fn statuses_answer(alloc: Global) -> Result<String, AllocError> {
    let mut text = String::new(alloc);
    for status in STATUSES {
        let word = format!(in alloc; "{status}")?;
        push_word(&mut text, word.as_str())?;
    }
    Ok(text)
}

/// Whether the text between quotation marks is an option word.
fn is_word(quoted: &str) -> &'static str {
    let text = quoted.strip_prefix('"').unwrap_or(quoted);
    let text = text.strip_suffix('"').unwrap_or(text);
    match Options::from_word(text) {
        Some(_) => "an option word",
        None => "no option word",
    }
}

/// What is answered to words: a verb, and what it is asked about.
pub fn words_answer(alloc: Global, question: &str) -> Result<String, AllocError> {
    let (verb, words) = question.split_once(' ').unwrap_or((question, ""));
    match verb {
        "unions" => unions_answer(alloc),
        "statuses" => statuses_answer(alloc),
        "final" => match Final::from_name(words) {
            Some(status) => format!(in alloc; "{status}"),
            None => String::from_str(alloc, "no final status"),
        },
        "has" => has_answer(alloc, words),
        "word" => String::from_str(alloc, is_word(words)),
        _ => options_answer(alloc, verb, words),
    }
}
