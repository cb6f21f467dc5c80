"""Methods in C# that are drawn by chance, for the reader of dotnet/reader: async methods, and wirings of ContinueWith.

Each job is a call of Do or Sync, so that a player (dotnet/reader/tests/corpus/Player.cs) says how it ends. A job whose name
begins with Q answers yes or no.
"""
import random
from collections.abc import Sequence

# of each kind of job, the method that plays it
JOBS = {
    "J": '    Task {0}() {{ return Do("{0}"); }}',
    "S": '    void {0}() {{ Sync("{0}"); }}',
    "Q": '    Task<bool> {0}() {{ return Do("{0}").ContinueWith(t => {{ t.GetAwaiter().GetResult(); return Says("{0}"); }}); }}',
}
HEAD = "using System;\nusing System.Threading.Tasks;\n\npublic class {} : Played\n{{\n{}\n}}\n"
OPTIONS = (
    "OnlyOnRanToCompletion",
    "OnlyOnFaulted",
    "OnlyOnCanceled",
    "NotOnFaulted",
    "NotOnCanceled",
    "NotOnRanToCompletion",
    "ExecuteSynchronously",
)
CATCHES = ("catch (Exception)", "catch (InvalidOperationException)", "catch (Exception e{0}) when (!(e{0} is ArgumentException))")


class Method:
    """A method that is drawn, with the jobs and methods that it calls."""

    def __init__(self, number: int, seed: int, most_jobs: tuple[int, ...]):
        self.number, self.chance = number, random.Random(seed)
        self.most = self.chance.choice(most_jobs)
        self.jobs: list[str] = []
        self.others: list[str] = []
        self.names = 0
        # its text, once it is drawn
        self.text = ""

    def job(self, kind: str) -> str:
        """A new job, by its name."""
        name = f"{kind}{self.number}_{len(self.jobs)}"
        self.jobs.append(name)
        self.others.append(JOBS[kind].format(name))
        return name

    def new_name(self, begin: str) -> str:
        self.names += 1
        return f"{begin}{self.names}"

    def is_full(self) -> bool:
        return len(self.jobs) >= self.most


class AsyncMethod(Method):
    """An async method: awaits, try with catch and finally, conditions, loops, tasks that are awaited later."""

    def __init__(self, number: int, seed: int):
        super().__init__(number, seed, (3, 4, 4, 5))
        body: list[str] = []
        while len(self.jobs) < 2:
            body += self.block(3)
        self.text = f"    public async Task M{number}() {{ {' '.join(body)} }}"

    def block(self, depth: int, in_loop: bool = False, loops: bool = True) -> list[str]:
        lines: list[str] = []
        for _ in range(self.chance.choice((1, 1, 2, 2, 3))):
            if not self.is_full():
                lines += self.statement(depth, in_loop, loops)
        return lines

    def statement(self, depth: int, in_loop: bool, loops: bool) -> list[str]:
        drawn = self.chance.random()
        if drawn < 0.28 or depth <= 0:
            return [f"await {self.job('J')}();"]
        if drawn < 0.38:
            return [f"{self.job('S')}();"]
        if drawn < 0.60:
            return self.protected(depth - 1, in_loop, loops)
        if drawn < 0.72:
            return self.condition(depth - 1, in_loop, loops)
        if drawn < 0.82:
            return self.early(depth - 1)
        if drawn < 0.90:
            return [f"await Task.WhenAll({self.job('J')}(), {self.job('J')}());"]
        return self.loop() if drawn < 0.95 and loops else self.inner(depth - 1)

    def protected(self, depth: int, in_loop: bool, loops: bool) -> list[str]:
        lines = ["try {", *self.block(depth, in_loop, loops), "}"]
        drawn = self.chance.random()
        if drawn < 0.7:
            head = self.chance.choice(CATCHES).format(self.new_name(""))
            again = ["throw;"] if self.chance.random() < 0.3 else []
            lines += [head, "{", *self.block(depth, in_loop, loops), *again, "}"]
        if drawn > 0.45:
            plain = [line for line in self.block(depth, loops=False) if "return;" not in line and "break;" not in line]
            lines += ["finally {", *plain, "}"]
        return lines

    def condition(self, depth: int, in_loop: bool, loops: bool) -> list[str]:
        lines = [f"if (await {self.job('Q')}()) {{", *self.block(depth, in_loop, loops)]
        if self.chance.random() < 0.35:
            lines.append(self.chance.choice(("return;", "throw new TimeoutException();", *(["break;"] if in_loop else []))))
        lines.append("}")
        if self.chance.random() < 0.5:
            lines += ["else {", *self.block(depth, in_loop, loops), "}"]
        return lines

    def early(self, depth: int) -> list[str]:
        task = self.new_name("t")
        lines = [f"var {task} = {self.job('J')}();", *self.block(depth, loops=False)]
        return [*lines, f"await {task};"] if self.chance.random() < 0.8 else lines

    def loop(self) -> list[str]:
        index = self.new_name("i")
        if self.chance.random() < 0.5:
            awaits = [f"await {self.job('J')}();" for _ in range(self.chance.choice((1, 1, 2)))]
            return [f"for (int {index} = 0; {index} < 2; {index}++) {{", *awaits, "}"]
        tries = f"try {{ await {self.job('J')}(); break; }} catch (Exception) when ({index} < {self.chance.choice((1, 2))}) {{ }}"
        return [f"for (int {index} = 0; ; {index}++) {{", tries, "}"]

    def inner(self, depth: int) -> list[str]:
        name = f"Sub{self.number}_{self.new_name('')}"
        body = " ".join(self.block(depth, loops=False))
        self.others.append(f"    async Task {name}() {{ {body} await Task.CompletedTask; }}")
        return [f"await {name}();"]


class Wiring(Method):
    """Tasks by Run, continuations with options, Unwrap, and WhenAll."""

    def __init__(self, number: int, seed: int):
        super().__init__(number, seed, (4,))
        body: list[str] = []
        tasks: list[str] = []
        while not self.is_full():
            task = self.new_name("t")
            body.append(f"Task {task} = {self.made(tasks)};")
            tasks.append(task)
        self.text = f"    public Task M{number}() {{ {' '.join(body)} return Task.WhenAll({', '.join(tasks)}); }}"

    def made(self, tasks: list[str]) -> str:
        drawn = self.chance.random()
        if not tasks or drawn < 0.3:
            return f"Task.Run({self.body('()')[0]})"
        if drawn < 0.8:
            body, is_async = self.body("_")
            option = self.chance.choice(("", "", *OPTIONS))
            given = f", TaskContinuationOptions.{option}" if option else ""
            return f"{self.chance.choice(tasks)}.ContinueWith({body}{given}){'.Unwrap()' if is_async else ''}"
        return f"Task.WhenAll({', '.join(self.chance.sample(tasks, min(len(tasks), 2)))})"

    def body(self, argument: str) -> tuple[str, bool]:
        """A lambda, and whether it gives a task."""
        drawn = self.chance.random()
        if drawn < 0.4:
            return f"{argument} => {self.job('S')}()", False
        if drawn < 0.55:
            return f"{argument} => {self.job('J')}()", True
        if drawn < 0.7:
            return f"async {argument} => {{ await {self.job('J')}(); {self.job('S')}(); }}", True
        if drawn < 0.8:
            return (
                f"async {argument} => {{ try {{ await {self.job('J')}(); }} catch (Exception) {{ {self.job('S')}(); }} }}",
                True,
            )
        if drawn < 0.9:
            return f"{argument} => Task.Run(() => {self.job('S')}())", True
        return f"{argument} => {{ {self.job('S')}(); }}", False


def drawn_class(name: str, methods: Sequence[Method]) -> str:
    """The text of a class with these methods."""
    return HEAD.format(name, "\n".join(line for method in methods for line in (method.text, *method.others)))
