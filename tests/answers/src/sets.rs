//! What is answered to sets of tasks and of ends, and to inputs.

use std::alloc::{AllocError, Global};
use tpl_model::{Final, Finals, InputId, Inputs, MOST_INPUTS, MOST_TASKS, TaskId, TaskSet};

/// The set of the tasks of these numbers; others are left out.
fn tasks_of(words: &str) -> TaskSet {
    let mut tasks = TaskSet::empty();
    for word in words.split_whitespace() {
        if let Ok(number) = word.parse::<u16>() {
            if number < MOST_TASKS {
                tasks.insert(TaskId(number));
            }
        }
    }
    tasks
}

/// Adds the members of a set, in order.
fn push_members(text: &mut String, tasks: &TaskSet) -> Result<(), AllocError> {
    for task in tasks.members() {
        write!(text, " {}", task.0)?;
    }
    Ok(())
}

/// What is answered to two sets of tasks.
fn tasks_answer(alloc: Global, left: &str, right: &str) -> Result<String, AllocError> {
    let mut left = tasks_of(left);
    let right = tasks_of(right);
    let mut text = String::from_str(alloc, "union")?;
    push_members(&mut text, &left.union(&right))?;
    text.push_str(", both")?;
    push_members(&mut text, &left.intersection(&right))?;
    let both = left.intersection(&right);
    write!(text, ", both in left {}", both.is_subset(&left))?;
    write!(text, ", left in both {}", left.is_subset(&both))?;
    write!(text, ", left and its copy {}", left.same(&left.copy()))?;
    write!(text, ", left and right {}", left.same(&right))?;
    match left.pop_first() {
        Some(first) => write!(text, ", first {}", first.0)?,
        None => text.push_str(", empty")?,
    }
    Ok(text)
}

/// Whether a task is in a set.
fn member_answer(alloc: Global, task: &str, tasks: &str) -> Result<String, AllocError> {
    match task.trim().parse::<u16>() {
        Ok(number) => format!(in alloc; "{}", tasks_of(tasks).contains(TaskId(number))),
        Err(_) => String::from_str(alloc, "no number"),
    }
}

/// The ends of these names; others are left out.
fn ends_of(words: &str) -> Finals {
    let mut ends = Finals {
        ran: false,
        canceled: false,
        faulted: false,
    };
    for word in words.split_whitespace() {
        if let Some(status) = Final::from_name(word) {
            ends.insert(status);
        }
    }
    ends
}

fn push_ends(text: &mut String, ends: Finals) -> Result<(), AllocError> {
    for status in [Final::RanToCompletion, Final::Canceled, Final::Faulted] {
        if ends.contains(status) {
            write!(text, " {status}")?;
        }
    }
    Ok(())
}

/// What is answered to two sets of ends.
fn ends_answer(alloc: Global, left: &str, right: &str) -> Result<String, AllocError> {
    let left = ends_of(left);
    let right = ends_of(right);
    let mut text = String::from_str(alloc, "union")?;
    push_ends(&mut text, left.union(right))?;
    write!(text, ", left in right {}", left.is_subset(&right))?;
    write!(text, ", right in left {}", right.is_subset(&left))?;
    Ok(text)
}

/// This many inputs, one of which is true.
fn inputs_of(count: u8, set: u8) -> Inputs {
    let mut inputs = Inputs::new((count as usize).min(MOST_INPUTS));
    if (set as usize) < inputs.len() {
        inputs.set(InputId(set), true);
    }
    inputs
}

/// What is answered to this many inputs, of which the one of that number is true.
fn inputs_answer(alloc: Global, count: &str, set: &str) -> Result<String, AllocError> {
    let (Ok(count), Ok(set)) = (count.trim().parse::<u8>(), set.trim().parse::<u8>()) else {
        return String::from_str(alloc, "no numbers");
    };
    let inputs = inputs_of(count, set);
    let mut text = format!(in alloc; "{} inputs", inputs.len())?;
    for number in 0..=count {
        if inputs.get(InputId(number)) {
            write!(text, ", {number} is true")?;
        }
    }
    write!(text, ", the same as a copy {}", inputs.same(&inputs.copy()))?;
    write!(
        text,
        ", as all false {}",
        inputs.same(&inputs_of(count, count))
    )?;
    write!(
        text,
        ", as none {}, empty {}",
        inputs.same(&Inputs::new(0)),
        inputs.is_empty()
    )?;
    Ok(text)
}

/// What is answered to two lists of words with `|` between them.
pub fn sets_answer(alloc: Global, question: &str) -> Result<String, AllocError> {
    let (verb, words) = question.split_once(' ').unwrap_or((question, ""));
    let (left, right) = words.split_once('|').unwrap_or((words, ""));
    match verb {
        "tasks" => tasks_answer(alloc, left, right),
        "member" => member_answer(alloc, left, right),
        "ends" => ends_answer(alloc, left, right),
        "inputs" => inputs_answer(alloc, left, right),
        _ => String::from_str(alloc, "no set"),
    }
}
