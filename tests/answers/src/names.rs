//! Names by number.

use tpl_graph::Graph;
use tpl_model::{TaskId, TokenId};

/// The name of a task; nothing where it isn't the graph's.
pub fn task_name(graph: &Graph, task: TaskId) -> &str {
    if (task.0 as usize) < graph.len() {
        graph.name(task)
    } else {
        ""
    }
}

/// The name of a token; nothing where it isn't the graph's.
pub fn token_name(graph: &Graph, token: TokenId) -> &str {
    if (token.0 as usize) < graph.token_count() {
        graph.token_name(token)
    } else {
        ""
    }
}
