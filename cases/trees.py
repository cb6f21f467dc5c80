"""How the trees of certificates are spelled in versions 3 and 4, and the fault of one that can't be read."""
from collections.abc import Iterator, Mapping

from bodies import Form, are_texts, fits, is_bool, is_final, is_text

SPLITS, CHAIN = 6, 16


def are_ends(said: object) -> bool:
    return isinstance(said, list) and all(map(is_final, said))


def are_rows(said: object) -> bool:
    return isinstance(said, list) and all(fits(row, ROW) for row in said)


ROW: Form = {
    "ends": are_ends,
    "runs": is_bool,
    **{f"{word}?": are_texts for word in ("before", "past", "chain", "asked", "asks")},
}
# the branches of each split, by its word
BRANCHES = {
    "split_input": ("yes", "no"),
    "split_end": ("ran", "canceled", "faulted"),
    "split_winner": ("yes", "no"),
    "split_begin": ("yes", "no"),
}


def tree_fault(tree: object, names: Mapping[str, list[str]], bodies: list[str], version: int) -> str | None:
    """Why a tree can't be read, whose names may be these, and those of tasks with a body these; or None."""
    if not is_tree(tree, version):
        return "Shape"
    if not all(name in ({**names, "bodies": bodies}[kind]) for kind, name in named_in(tree)):
        return "Unknown"
    return "Limit" if depth(tree) > SPLITS or longest_chain(tree) > CHAIN else None


def is_tree(said: object, version: int) -> bool:
    if not isinstance(said, dict):
        return said == "least"
    word = next((word for word in BRANCHES if word in said), "rows")
    if word == "rows":
        return fits(said, {"rows": are_rows})

    def is_branch(branch: object) -> bool:
        return is_tree(branch, version)

    form: Form = {
        word: is_text,
        **dict.fromkeys(BRANCHES[word], is_branch),
        **({"task": is_text} if word == "split_winner" else {}),
    }
    return fits(said, form) and (version > 3 or word != "split_begin")


def branches(tree) -> list:
    word = next((word for word in BRANCHES if word in tree), None) if isinstance(tree, dict) else None
    return [tree[branch] for branch in BRANCHES[word]] if word else []


def named_in(tree) -> Iterator[tuple[str, str]]:
    """What a tree names: inputs, tokens, tasks, and tasks that have to have a body."""
    kinds = {"split_input": "inputs", "split_end": "tasks", "split_winner": "tasks", "task": "tasks", "split_begin": "bodies"}
    if isinstance(tree, dict):
        yield from ((kinds[word], tree[word]) for word in kinds if word in tree)
        for row in tree.get("rows", []):
            yield from (("tasks", name) for word in ("before", "past", "chain") for name in row.get(word, []))
            yield from (("tokens", name) for word in ("asked", "asks") for name in row.get(word, []))
    for branch in branches(tree):
        yield from named_in(branch)


def depth(tree) -> int:
    """How many splits stand on a path."""
    return 1 + max(map(depth, branches(tree))) if branches(tree) else 0


def longest_chain(tree) -> int:
    own = [len(row.get("chain", [])) for row in tree.get("rows", [])] if isinstance(tree, dict) else []
    return max([*own, *map(longest_chain, branches(tree))], default=0)
