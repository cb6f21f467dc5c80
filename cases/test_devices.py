"""Each command reads and writes one byte a call, and each call goes wrong in turn. one_byte_devices.c is what the program
loads for that.

Where no call goes wrong, the answer is that of the case. A read that fails or is interrupted is the last call: nothing is
written, and the exit status is 5. A document that ends before its last byte is none. A write that fails or takes nothing
is the last call too, with exit status 5; just the bytes of the writes before it are there. A write that is interrupted is
the last call, or is made again. Too many bytes, or bytes without an end, are answered as such.

Where standard input or standard output can't be used, standard error says why.
"""
import errno
import os
import subprocess

import pytest

from harness import Case, Program, case_named

# one or two answers of each command
CHOSEN = {
    "commands": ["the check"],
    "splits": ["a body that depends on an input, in one leaf"],
    "analyse": [
        "one root that returns; the certificate of the document is not used",
        "the first claim has a certificate and the second has none",
    ],
    "runs": [
        "an attached child that throws",
        "a job that is to fail",
        "the document with the run, in which a start and a journal are put",
        "no document where the certificate is refused",
    ],
    "audits": ["a synchronous continuation on another worker", "a WhenAll task of nothing has ended before the first event"],
    "refutes": ["a claim that holds"],
    "draws": ["no tasks"],
    "traces": ["a document without a journal: no event"],
}
# an answer that is longer than what the program keeps together before it writes, and how many bytes that are
LONG = case_named("analyse", "an exclusion over four steps beside three tasks that have nothing to do with it")
KEPT = 8_192
# the error of a call that moves nothing and is none
NOTHING = 0
NO_DOCUMENT = ("unreadable: not JSON\n", 3)
TOO_LONG = ("unreadable: too long\n", 3)
DEVICE = 5
LONGEST = 16_777_216
COMMANDS = ("check", "analyse", "run", "audit")


class Device:
    """The program with a case, over calls that move one byte."""

    def __init__(self, program: Program, narrow: str, case: Case):
        self.program, self.narrow, self.case = program, narrow, case
        self.document, self.text, self.exit = case.stdin, case.stdout or "", case.exit

    @property
    def size(self) -> int:
        """How many bytes are written."""
        return len(self.text.encode())

    def answer(self, **wrong: int) -> tuple[str, int, int, int]:
        """What is written, the exit status, and how many reads and writes there were."""
        environment = {"LD_PRELOAD": self.narrow, **{name: str(it) for name, it in wrong.items()}}
        answer = self.program(*self.case.words, given=self.document, environment=environment)
        reads, writes = answer.stderr.rpartition("\n")[2].split()
        return answer.stdout, answer.exit, int(reads), int(writes)

    def check_whole(self):
        """No call goes wrong."""
        assert self.answer() == (self.text, self.exit, len(self.document) + 1, self.size)

    def check_read(self, number: int):
        """This read goes wrong."""
        for error in (errno.EIO, errno.EINTR):
            assert self.answer(READ=number, ERROR=error) == ("", DEVICE, number + 1, 0), f"read {number} fails with {error}"
        wanted = NO_DOCUMENT if number < len(self.document.rstrip()) else (self.text, self.exit)
        assert self.answer(READ=number, ERROR=NOTHING)[:3] == (*wanted, number + 1), f"the input ends at {number}"

    def check_write(self, number: int):
        """This write goes wrong."""
        written = self.text.encode()[:number].decode(errors="surrogateescape")
        last, again = (written, DEVICE, number + 1), (self.text, self.exit, self.size + 1)
        for error, allowed in ((errno.EIO, [last]), (NOTHING, [last]), (errno.EINTR, [last, again])):
            text, ends, _, writes = self.answer(WRITE=number, ERROR=error)
            assert (text, ends, writes) in allowed, f"write {number} goes wrong with {error}"


def answer_to_spaces(program: Program, command: str, count: int | None) -> tuple[str, int]:
    """What a command answers to this many spaces; with no count, to spaces without an end."""
    with subprocess.Popen([program.path, command], stdin=subprocess.PIPE, stdout=subprocess.PIPE) as ran:
        assert ran.stdin and ran.stdout
        try:
            while count is None or count > 0:
                piece = min(count or KEPT, KEPT)
                ran.stdin.write(b" " * piece)
                count = None if count is None else count - piece
            ran.stdin.close()
        except BrokenPipeError:
            ran.stdin = None
        return ran.stdout.read().decode(), ran.wait()


@pytest.mark.parametrize("case", [case_named(file, name) for file, names in CHOSEN.items() for name in names], ids=str)
def test_each_call_that_goes_wrong(bare_program, library, case: Case):
    device = Device(bare_program, library("one_byte_devices.c"), case)
    device.check_whole()
    for number in range(len(case.stdin) + 1):
        device.check_read(number)
    for number in range(device.size):
        device.check_write(number)


def test_writes_of_a_long_answer(bare_program, library):
    device = Device(bare_program, library("one_byte_devices.c"), LONG)
    assert device.size > KEPT
    device.check_whole()
    for number in (0, KEPT - 1, KEPT, device.size - 1):
        device.check_write(number)


@pytest.mark.parametrize(
    "count, wanted",
    [(LONGEST, NO_DOCUMENT), (LONGEST + 1, TOO_LONG), (None, TOO_LONG)],
    ids=["as-many-as-may-be", "one-more", "without-an-end"],
)
@pytest.mark.parametrize("command", COMMANDS)
def test_spaces(bare_program, command: str, count: int | None, wanted: tuple[str, int]):
    assert answer_to_spaces(bare_program, command, count) == wanted


NO_INPUT = "a document comes there, as in `taskgraph check < document.json`"
# what the C library says of a full disk
FULL = "No space left on device (os error 28)"


@pytest.mark.parametrize(
    "words, said",
    [
        ("check <&-", f"taskgraph: standard input is closed; {NO_INPUT}\n"),
        ("refute </", f"taskgraph: standard input is a folder; {NO_INPUT}\n"),
        ("draw >&-", "taskgraph: standard output is closed; the answer goes there\n"),
        ("--help >&-", "taskgraph: standard output is closed; the answer goes there\n"),
        ("draw >/dev/full", f"taskgraph: the answer can't be written to standard output: {FULL}\n"),
    ],
)
def test_a_device_that_fails_is_named(bare_program, words: str, said: str):
    line = ["sh", "-c", f'exec "$0" {words}', bare_program.path]
    ended = subprocess.run(line, input=b'{"version":1,"tasks":[]}', capture_output=True, check=False)
    assert (ended.stdout, ended.stderr.decode(), ended.returncode) == (b"", said, DEVICE)


def test_a_reader_that_has_read_enough_is_no_matter(bare_program):
    read, write = os.pipe()
    os.close(read)
    line = [bare_program.path, "draw"]
    ended = subprocess.run(line, input=b'{"version":1,"tasks":[]}', stdout=write, stderr=subprocess.PIPE, check=False)
    os.close(write)
    assert (ended.stderr, ended.returncode) == (b"", DEVICE)
