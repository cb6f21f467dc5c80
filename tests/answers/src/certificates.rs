//! What is answered to a certificate tree.

use json::{Scratch, Value};
use std::alloc::{AllocError, Global};
use std::slice;
use tpl_cert::{TreeToFault, tree_from, trees_text};
use tpl_graph::Graph;
use tpl_json::value_from;
use tpl_model::{Finals, RuleSet, TaskId, TaskSet, TokenId};
use tpl_paths::TokenSet;
use tpl_trees::{Node, PlainRow, Row, Tree, is_within_limits};

/// What stands within the brackets of an array.
fn within_brackets(text: &str) -> Option<&str> {
    text.strip_prefix('[')?.strip_suffix(']')
}

/// The text of a tree, where this is what was written of it in an array.
fn written(alloc: Global, text: Result<String, TreeToFault>) -> Result<String, AllocError> {
    match text {
        Ok(text) => {
            String::from_str(alloc, within_brackets(text.as_str()).unwrap_or("no array"))
        }
        Err(TreeToFault::Memory) => Err(AllocError),
        Err(fault) => format!(in alloc; "not written: {fault}"),
    }
}

/// The text that is written of the tree that the value spells by the rules, or why it spells none.
fn tree_text(
    alloc: Global,
    graph: &Graph,
    rules: RuleSet,
    value: &Value<'_>,
) -> Result<String, AllocError> {
    match tree_from(alloc, rules, graph, value) {
        Ok(tree) => written(alloc, trees_text(alloc, graph, rules, slice::from_ref(&tree))),
        Err(fault) => format!(in alloc; "{fault}"),
    }
}

/// The text that is written of the tree that the text spells by the rules, or why it spells none.
fn once(alloc: Global, graph: &Graph, rules: RuleSet, text: &str) -> Result<String, AllocError> {
    let mut scratch = Scratch::new(alloc);
    match value_from(alloc, text.as_bytes(), &mut scratch) {
        Ok(value) => tree_text(alloc, graph, rules, &value),
        Err(_) => String::from_str(alloc, "not JSON"),
    }
}

/// What is written of the tree that the text spells, and what is written of that, if it differs.
fn twice(alloc: Global, graph: &Graph, rules: RuleSet, text: &str) -> Result<String, AllocError> {
    let first = once(alloc, graph, rules, text)?;
    if !first.starts_with('{') && !first.starts_with('"') {
        return Ok(first);
    }
    let second = once(alloc, graph, rules, first.as_str())?;
    if first == second {
        Ok(first)
    } else {
        format!(in alloc; "{first}, and then {second}")
    }
}

/// A row with this chain and no more.
fn row_with(chain: Vec<TaskId>) -> PlainRow {
    let ends = Finals {
        ran: false,
        canceled: true,
        faulted: false,
    };
    PlainRow::new(ends, false, TaskSet::empty(), TaskSet::empty(), chain)
}

/// A tree with a task that a graph of three tasks doesn't have.
fn task_stranger(alloc: Global) -> Result<Tree, AllocError> {
    let chain = vec![in alloc; TaskId(3)]?;
    let row = Row::without_tokens(row_with(chain));
    Ok(Tree::new(Node::Leaf(vec![in alloc; row]?)))
}

/// A tree with a token that a graph of two tokens doesn't have.
fn token_stranger(alloc: Global) -> Result<Tree, AllocError> {
    let mut asks = TokenSet::empty();
    asks.insert(TokenId(2));
    let row = Row::new(row_with(Vec::new(alloc)), TokenSet::empty(), asks);
    Ok(Tree::new(Node::Leaf(vec![in alloc; row]?)))
}

/// What is written of such a tree, and whether it is within the limits.
fn stranger_text(alloc: Global, graph: &Graph, rules: RuleSet) -> Result<String, AllocError> {
    let tree = match rules {
        RuleSet::WithoutTokens => task_stranger(alloc)?,
        RuleSet::WithTokens => token_stranger(alloc)?,
    };
    let within = is_within_limits(&tree);
    let text = trees_text(alloc, graph, rules, slice::from_ref(&tree));
    let text = written(alloc, text)?;
    format!(in alloc; "within the limits: {within}, {text}")
}

/// What is written of a tree over the graph, or why it is refused by the rules; and what is written of that, if it
/// differs.
pub fn tree_answer(
    alloc: Global,
    graph: &Graph,
    rules: RuleSet,
    tree: &str,
) -> Result<String, AllocError> {
    if tree == "stranger" {
        stranger_text(alloc, graph, rules)
    } else {
        twice(alloc, graph, rules, tree)
    }
}
