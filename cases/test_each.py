"""With `--each` a command answers the document on each line, in order, and each line of an answer stands behind the number
of its document and the exit status that the document alone has.

A line that can't be read is one bad answer and ends nothing. The bytes are the same for every number of jobs. Where a read
fails, the lines before it are answered; where a write fails, nothing is written after it; where memory is refused, a line
is answered as with ample memory or by `out of memory`. The memory is that of a few lines, however many there are.
"""
import errno
import json
import random
import resource
import subprocess
import time

import pytest

import hostile
from harness import LIMIT, Answer, Case, Program, all_cases
from test_verify import worked_out

YES, NO, UNREADABLE, MEMORY, DEVICE = 0, 1, 3, 4, 5
LINES, SEED = 10_000, 45
JOBS = ("1", "2", "8")
# how many runs are tried for each claim; and the words for one run by one thread
RUNS = "300"
FEW = ("--runs", "1", "--jobs", "1")
LONGEST = 16_777_216
ROOT = '{"version":1,"tasks":[{"name":"A","kind":"root","body":[%s]}]%s}'
ENDS = '[{"final":"A","in":["RanToCompletion"]}]'
ROWS = '[{"rows":[{"ends":["RanToCompletion"],"runs":true}]}]'
# a line, the exit status of the document that it is, and what `check` answers
CHECKED = {
    b"": (UNREADABLE, "unreadable: not JSON"),
    b" \t\r": (UNREADABLE, "unreadable: not JSON"),
    b"{": (UNREADABLE, "unreadable: not JSON"),
    b'\xff\xfe{"version":1,"tasks":[]}': (UNREADABLE, "unreadable: not JSON"),
    b"[]": (UNREADABLE, "unreadable: shape top"),
    b'{"version":1,"tasks":[]}': (YES, "accepted"),
    b'\xef\xbb\xbf{"version":1,"tasks":[]}': (YES, "accepted"),
    b'{"version":1,"tasks":[]}\r': (YES, "accepted"),
    (ROOT % ('"return"', f',"claims":{ENDS},"certificate":{ROWS}')).encode(): (YES, "accepted"),
    (ROOT % ('"return"', f',"claims":{ENDS}')).encode(): (NO, "refused: shape claim 1"),
    (ROOT % ('{"throw":"x"}', f',"claims":{ENDS},"certificate":{ROWS}')).encode(): (
        NO,
        "refused: not closed claim 1 leaf 1 task A rule K2",
    ),
}
# and what `audit` answers
NEVER = ',"claims":[{"never":"A"}],"journal":"%s"'
AUDITED = {
    b'{"version":1,"tasks":[]}': (YES, "run complete"),
    (ROOT % ("", NEVER % "")).encode(): (NO, "run not complete"),
    (ROOT % ("", NEVER % r"w1 begin A\n")).encode(): (NO, "run not complete\nclaim 1 fails at 1"),
    (ROOT % ("", NEVER % r"w1 leave A\n")).encode(): (NO, "not allowed at 1"),
    (ROOT % ("", NEVER % "w1")).encode(): (UNREADABLE, "unreadable: journal line 1"),
    b"nothing": (UNREADABLE, "unreadable: not JSON"),
}
# and what `verify` answers
VERIFIED = {
    b"": (UNREADABLE, "unreadable: not JSON"),
    b"[]": (UNREADABLE, "unreadable: shape top"),
    b'{"version":1,"tasks":[]}': (NO, "claims 0, holds 0, fails 0, empty 0, unknown 0"),
    (ROOT % ('"return"', f',"claims":{ENDS}')).encode(): (
        YES,
        "claim 1 holds: A ends RanToCompletion\nclaims 1, holds 1, fails 0, empty 0, unknown 0",
    ),
    (ROOT % ("", ',"claims":[{"never":"A"}]')).encode(): (
        NO,
        "claim 1 fails: A never begins\n  w1 begin A\n  claim 1 fails here\nclaims 1, holds 0, fails 1, empty 0, unknown 0",
    ),
}
KINDS = {"check": CHECKED, "audit": AUDITED, "verify": VERIFIED}


def behind_heads(number: int, status: int, text: str) -> str:
    """What is written for a document."""
    return "".join(f"{number} {status} {line}\n" for line in text.splitlines())


def wanted(answers) -> Answer:
    """What is written for these answers, and how the program ends."""
    answers = list(answers)
    written = "".join(behind_heads(number, *it) for number, it in enumerate(answers, 1))
    return Answer(YES if all(status == YES for status, _ in answers) else NO, written, "")


def each(program: Program, command: str, *words: str, given: bytes, **more) -> Answer:
    return program(command, "--each", *words, given=given, **more)


@pytest.mark.parametrize("command", KINDS)
def test_many_lines(program, command: str):
    kinds = KINDS[command]
    lines = random.Random(SEED).choices(list(kinds), k=LINES)
    for jobs in JOBS:
        answer = each(program, command, "--jobs", jobs, given=b"\n".join(lines) + b"\n")
        assert answer == wanted(map(kinds.__getitem__, lines)), f"{jobs} jobs"


@pytest.mark.parametrize("command", KINDS)
def test_each_kind_of_line(program, command: str):
    """Alone, as the last line with and without a line break."""
    for line, answer in KINDS[command].items():
        assert each(program, command, given=line + b"\n") == wanted([answer])
        assert each(program, command, given=line) == wanted([answer] if line else [])


@pytest.mark.parametrize("command", KINDS)
def test_no_line(program, command: str):
    assert each(program, command, given=b"") == Answer(YES, "", "")


@pytest.mark.parametrize("command", ("check", "audit"))
def test_cases(program, command: str):
    """The cases of the command, each on a line."""
    cases = [case for case in all_cases() if case.words == (command,) and b"\r" not in case.stdin and case.stdout is not None]
    answer = each(program, command, "--jobs", "2", given=b"".join(on_a_line(case) for case in cases))
    assert answer == wanted((case.exit, case.stdout) for case in cases)


def on_a_line(case: Case) -> bytes:
    """The document of a case with spaces for its line breaks."""
    return case.stdin.replace(b"\n", b" ") + b"\n"


@pytest.mark.parametrize("style", ("text", "json", "junit", "html"))
def test_verdicts(program, style: str):
    """The answer to each document is what `verify` says to it alone."""
    words = ("verify", "--runs", RUNS, "--as", style)
    documents = ["", '{"version":1,"tasks":[]}', *(case.values[0] for case in worked_out())]
    alone = [program(*words, given=document) for document in documents]
    assert {each_answer.exit for each_answer in alone} == {YES, NO, UNREADABLE}
    answer = program(*words, "--each", "--jobs", "2", given="\n".join(documents).encode())
    assert answer == wanted((each_answer.exit, each_answer.stdout) for each_answer in alone)


def test_a_line_that_is_too_long(program):
    short, (status, text) = b'{"version":1,"tasks":[]}', (YES, "accepted")
    padded = short.ljust(LONGEST)
    answers = [(status, text), (UNREADABLE, "unreadable: too long"), (status, text)]
    assert each(program, "check", given=b"\n".join((padded, padded + b" ", short))) == wanted(answers)


def test_memory_is_that_of_the_lines(bare_program):
    """Of 64 lines with 1 MB each no more than a few are kept."""
    text = ('{"version":1,"tasks":[]}'.ljust(1 << 20) + "\n") * 64
    cost = hostile.cost_of(bare_program.path, ("check", "--each", "--jobs", "1"), text, LIMIT)
    assert cost.exit == YES
    assert cost.memory < len(text) // 4


@pytest.mark.parametrize("command", KINDS)
def test_each_refused_allocation(bare_program, library, command: str):
    """Each line is answered as with ample memory or by `out of memory`."""
    kinds, words = KINDS[command], FEW if command == "verify" else ()
    refuse = {"LD_PRELOAD": library("refuse.c")}
    given = b"".join(line + b"\n" for line in kinds)
    whole = each(bare_program, command, *words, given=given, environment=refuse)
    assert whole.stdout == wanted(kinds.values()).stdout
    asked = int(whole.stderr.rpartition("\n")[2])
    for number in range(1, asked + 1):
        alone = {**refuse, "REFUSED": str(number)}
        for refusing in (alone, {**alone, "REFUSE_REST": "1"}):
            answer = each(bare_program, command, *words, given=given, environment=refusing)
            if (answer.stdout, answer.exit) != ("out of memory\n", MEMORY):
                assert answer.exit == NO
                check_lines(answer.stdout, kinds)


def check_lines(written: str, kinds: dict):
    """Each document has its answer, or the one that memory was refused, and nothing else is written."""
    for number, answer in enumerate(kinds.values(), 1):
        texts = (behind_heads(number, *answer), behind_heads(number, MEMORY, "out of memory"))
        found = [text for text in texts if written.startswith(text)]
        assert found, number
        written = written.removeprefix(found[0])
    assert written == ""


class Devices:
    """The program over calls that move one byte, with three documents on lines."""

    LINES = [b'{"version":1,"tasks":[]}', b"[]", b'{"version":1,"tasks":[]}']

    def __init__(self, program: Program, narrow: str):
        self.program, self.narrow = program, narrow
        self.given = b"\n".join(self.LINES) + b"\n"

    def answer(self, **wrong: int) -> tuple[str, int]:
        """What is written and the exit status, where this call goes wrong."""
        environment = {"LD_PRELOAD": self.narrow, **{name: str(it) for name, it in wrong.items()}}
        answer = each(self.program, "check", given=self.given, environment=environment)
        return answer.stdout, answer.exit

    def before(self, count: int) -> str:
        """What is written for the lines that end within this many bytes."""
        return wanted(CHECKED[line] for line in self.LINES[: self.given[:count].count(b"\n")]).stdout


def test_each_read_and_write_that_goes_wrong(bare_program, library):
    devices = Devices(bare_program, library("one_byte_devices.c"))
    text = wanted(CHECKED[line] for line in devices.LINES).stdout
    assert devices.answer() == (text, NO)
    for number in range(len(devices.given) + 1):
        assert devices.answer(READ=number, ERROR=errno.EIO) == (devices.before(number), DEVICE), f"read {number}"
    for number in range(len(text)):
        assert devices.answer(WRITE=number, ERROR=errno.EIO) == (text[:number], DEVICE), f"write {number}"


# how many megabytes of address space a process may have: too few for the stacks of 64 threads
NARROW = (40, 61, 80, 120, 200)
CALLS = 12
# how exactly a stack is measured, in kilobytes, and how often each is tried
STEP, TRIES = 4, 3


@pytest.mark.parametrize("words", [("check",), ("verify", *FEW[:2])], ids=" ".join)
@pytest.mark.parametrize("space", NARROW)
def test_little_address_space(bare_program, space: int, words: tuple[str, ...]):
    """Many jobs are answered by fewer threads, and the program ends by no signal."""
    document = hostile.example("saga")
    lines, (wide, alone) = document * 64, hostile.ended(bare_program.path, words, document)
    for _ in range(CALLS):
        status, written = hostile.ended(
            bare_program.path, (*words, "--each", "--jobs", "64"), lines, (resource.RLIMIT_AS, space << 20)
        )
        assert status in (YES, NO, DEVICE)
        if status == YES:
            assert written.decode() == "".join(behind_heads(number, wide, alone.decode()) for number in range(1, 65))


@pytest.mark.parametrize("space", NARROW)
def test_little_address_space_for_one_document(bare_program, space: int):
    """So are the claims of one document."""
    document = hostile.example("saga")
    words = ("verify", *FEW[:2], "--jobs")
    alone = hostile.ended(bare_program.path, (*words, "1"), document)
    for _ in range(CALLS):
        status, written = hostile.ended(bare_program.path, (*words, "64"), document, (resource.RLIMIT_AS, space << 20))
        assert (status, written) == alone or status in (MEMORY, DEVICE)


def least_stack(program: Program, lines: str) -> int:
    """The least stack, in kilobytes, with which many jobs have a verdict on each of the lines, whichever thread finds it."""
    words, low, high = ("verify", "--each", *FEW[:2], "--jobs", "64"), 100, 4_000
    while high - low > STEP:
        middle = (low + high) // 2
        limit = (resource.RLIMIT_STACK, middle << 10)
        is_enough = all(hostile.ended(program.path, words, lines, limit)[0] in (YES, NO) for _ in range(TRIES))
        low, high = (low, middle) if is_enough else (middle, high)
    return high


def test_the_stack_is_taken_before_threads_take_the_address_space(bare_program):
    """What an empty line needs is taken before the first thread starts, and verdicts by many threads need no more."""
    empty, verdicts = (least_stack(bare_program, lines) for lines in ("\n", hostile.example("saga") * 64))
    assert verdicts <= empty + STEP


@pytest.mark.parametrize("jobs", ("2", "4", "64"))
def test_threads_cost_little(program, jobs: str):
    """Lines that are answered at once don't take longer for several jobs: each would start threads anew."""
    given = b"\n" * 20_000
    alone, beside = (min(seconds(program, count, given) for _ in range(3)) for count in ("1", jobs))
    assert beside < 3 * alone + 0.5


def seconds(program: Program, jobs: str, given: bytes) -> float:
    """How long so many jobs take."""
    begun = time.monotonic()
    assert each(program, "check", "--jobs", jobs, given=given).exit == NO
    return time.monotonic() - begun


def test_answers_come_before_the_end(bare_program):
    """With one job a line is answered before the next one comes."""
    words = [bare_program.path, "check", "--each", "--jobs", "1"]
    with subprocess.Popen(words, stdin=subprocess.PIPE, stdout=subprocess.PIPE) as ran:
        assert ran.stdin and ran.stdout
        for number, (line, answer) in enumerate(CHECKED.items(), 1):
            ran.stdin.write(line + b"\n")
            ran.stdin.flush()
            assert ran.stdout.readline().decode() == behind_heads(number, *answer)
        ran.stdin.close()
        assert ran.wait() == NO


def test_a_certificate_of_each_document(program):
    """What `analyse --whole` writes for documents is a batch that `check` accepts."""
    documents = [ROOT % ('"return"', f',"claims":{ENDS}')] * 3
    lines = [program("analyse", "--whole", given=document).stdout for document in documents]
    assert all(json.loads(line) for line in lines)
    assert each(program, "check", given="".join(lines).encode()) == wanted([(YES, "accepted")] * 3)
