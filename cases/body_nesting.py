"""Whether the bodies of each worker nest in a run, read from the text of its journal.

A worker goes on only with the innermost body that it has open. It begins a body inside another only where it ended the
antecedent inside that one, as a synchronous continuation runs inside a `Cancel`.
"""

ENDINGS = ("leave", "close", "drop", "settle")
IN_BODIES = ("step", "worked", "leave")


def unnested(document):
    """The first line of the document's journal with which bodies don't nest, or None."""
    after = {task["name"]: task.get("after") for task in document["tasks"]}
    bodies, ended = {}, {}
    for line in document.get("journal", "").splitlines():
        actor, verb, name = line.split(" ")[:3]
        own = bodies.setdefault(actor, [])
        if verb == "begin":
            if own and ended.get(after[name]) != (actor, own[-1]):
                return line
            own.append(name)
        if verb in IN_BODIES and own[-1] != name:
            return line
        if verb == "leave":
            own.pop()
        if verb in ENDINGS:
            ended[name] = (actor, own[-1] if own else None)
    return None
