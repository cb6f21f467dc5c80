"""Async methods that are drawn by chance, each as a document of version 4 and in C#, as methods/Explore.cs plays them."""
import random

TOKEN, INPUT = "stop", "big"
CALLS, WORKS, DEPTH = 3, 2, 3
# behind these nothing is drawn, since the compiler doesn't take each text that no run comes to
LEAVING = ("return", "rethrow", {"throw": "wrong"})


class Method:
    """A method with the calls that it makes. What it waits for may not have been started, so that the document is refused."""

    def __init__(self, seed: int):
        self.chance = random.Random(seed)
        self.calls: list[dict] = []
        self.works = 0
        self.body = self.block(DEPTH, False, False)
        tasks = [{"name": "M", "kind": "root", "async": True, "body": self.body}, *self.calls]
        self.has_token = TOKEN in str(tasks)
        self.document = {"version": 4, "inputs": [INPUT], "tokens": [TOKEN] * self.has_token, "tasks": tasks}

    # ---- the document

    def block(self, depth: int, in_catch: bool, in_finally: bool) -> list:
        found: list = []
        for _ in range(self.chance.choice((2, 2, 3, 4) if depth == DEPTH else (0, 1, 1, 2))):
            found += self.statements(depth, in_catch, in_finally)
            if found[-1] in LEAVING:
                break
        return found

    def statements(self, depth: int, in_catch: bool, in_finally: bool) -> list:
        """One statement, or a call that is awaited at once."""
        chance, drawn = self.chance, self.chance.random()
        if drawn < 0.08 and len(self.calls) + 1 < CALLS:
            names = [self.call(), self.call()]
            return [{"start": names[0]}, {"start": names[1]}, self.waiting(names, depth, in_catch, in_finally)]
        if drawn < 0.3 and len(self.calls) < CALLS:
            name = self.call()
            word = chance.choice(("await", "await", "await", "wait"))
            return [{"start": name}, *([{word: name}] if chance.random() < 0.7 else [])]
        if drawn < 0.45 and self.calls:
            names = [call["name"] for call in self.calls]
            some = chance.sample(names, min(len(names), chance.choice((1, 1, 2))))
            return [self.waiting(some, depth, in_catch, in_finally)]
        if drawn < 0.75 and depth:
            return [self.protected(depth - 1, in_catch, in_finally)]
        if drawn < 0.8 and depth:
            lists = (self.block(depth - 1, in_catch, in_finally) for _ in range(2))
            return [{"if": INPUT, **dict(zip(("then", "else"), lists))}]
        if drawn < 0.9 and self.works < WORKS:
            self.works += 1
            return [{"work": f"w{self.works}", "may_fail": chance.random() < 0.6, "may_cancel": chance.random() < 0.3}]
        leaving = [{"throw": "wrong"}, *(["rethrow"] * 3 if in_catch else []), *([] if in_finally else ["return"])]
        return [chance.choice([{"check": TOKEN}, *leaving])]

    def waiting(self, names: list[str], depth: int, in_catch: bool, in_finally: bool) -> dict:
        drawn = self.chance.random()
        if drawn < 0.6:
            return {"await" if drawn < 0.4 else "wait": names}
        if not depth or self.chance.random() < 0.3:
            return {"await_any": names}
        lists = (self.block(depth - 1, in_catch, in_finally) for _ in range(2))
        return {"await_any": names, "won": names[0], **dict(zip(("then", "else"), lists))}

    def protected(self, depth: int, in_catch: bool, in_finally: bool) -> dict:
        found = {"try": self.block(depth, in_catch, in_finally)}
        parts = self.chance.choice(
            (["catch"], ["catch_canceled"], ["finally"], ["catch_canceled", "catch"], ["catch", "finally"])
        )
        for part in parts:
            is_last = part == "finally"
            found[part] = self.block(depth, not is_last, in_finally or is_last)
        return found

    def call(self) -> str:
        """One more call: of an async method, or a task with a plain body."""
        chance, name = self.chance, f"C{len(self.calls)}"
        answers = {"may_fail": chance.random() < 0.7, "may_cancel": chance.random() < 0.4}
        call: dict = {"name": name, "kind": "child", "body": [{"work": f"j{name}", **answers}]}
        if chance.random() < 0.7:
            call |= {"async": True, "body": [*call["body"], *([{"check": TOKEN}] if chance.random() < 0.3 else [])]}
        self.calls.append(call)
        return name

    # ---- in C#

    def text(self, name: str) -> str:
        """The method on one line."""
        names = ", ".join(call["name"] for call in self.calls)
        variables = f"Task {names}; " if names else ""
        return f"    public async Task {name}() {{ {variables}{self.lines(self.body)} }}"

    def lines(self, body: list) -> str:
        return " ".join(map(self.line, body))

    def line(self, said) -> str:
        match said:
            case "return" | "rethrow":
                return "return;" if said == "return" else "throw;"
            case {"throw": _}:
                return "throw new InvalidOperationException();"
            case {"check": _}:
                return "Check();"
            case {"work": site, "may_fail": may_fail, "may_cancel": may_cancel}:
                return f'Do("{site}", {spelled(may_fail)}, {spelled(may_cancel)});'
            case {"start": name}:
                return self.started(name)
            case {"await": names}:
                return f"await {names if isinstance(names, str) else all_of(names)};"
            case {"wait": names}:
                return f"WaitFor({names if isinstance(names, str) else ', '.join(names)});"
            case {"if": name}:
                return f'if (Input("{name}")) {self.branches(said)}'
            case {"await_any": names, "won": won}:
                return f"if (await Task.WhenAny({', '.join(names)}) == {won}) {self.branches(said)}"
            case {"await_any": names}:
                return f"await Task.WhenAny({', '.join(names)});"
        heads = {"catch_canceled": "catch (OperationCanceledException)", "catch": "catch (Exception)", "finally": "finally"}
        parts = (f"{head} {{ {self.lines(said[part])} }}" for part, head in heads.items() if part in said)
        return f"try {{ {self.lines(said['try'])} }} {' '.join(parts)}"

    def branches(self, said: dict) -> str:
        return f"{{ {self.lines(said['then'])} }} else {{ {self.lines(said['else'])} }}"

    def started(self, name: str) -> str:
        call = next(call for call in self.calls if call["name"] == name)
        job, *checks = call["body"]
        words = [
            f'"{name}"',
            spelled(job["may_fail"]),
            spelled(job["may_cancel"]),
            *([spelled(bool(checks))] if "async" in call else []),
        ]
        return f"{name} = {'Call' if 'async' in call else 'Plain'}({', '.join(words)});"


def spelled(value: bool) -> str:
    return "true" if value else "false"


def all_of(names: list[str]) -> str:
    return names[0] if len(names) == 1 else f"Task.WhenAll({', '.join(names)})"


def class_of(methods: dict[str, Method]) -> str:
    """The text of the class with these methods, by their names; each stands on a line of its own, from the sixth on."""
    head = "using System;\nusing System.Threading.Tasks;\n\npublic sealed class Methods : Played\n{\n"
    return head + "".join(f"{method.text(name)}\n" for name, method in methods.items()) + "}\n"
