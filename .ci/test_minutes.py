"""Tests of the sums of processor minutes: which part a process works for, and the table."""
import minutes
import pytest

PROCESSES = [
    ("/kit/bin/rattle build --crate-name a src/lib.rt", "/top/crates/a", "other", "proofs"),
    ("/kit/bin/rattle check --crate-name a src/main.rt", "/top/crates/a", "other", "programs"),
    ("/kit/bin/rattle build --crate-name a src/lib.rt --test", "/top/crates/a", "other", "tests of crates"),
    ("/kit/bin/rattle check --crate-name a src/lib.rt", "/tmp/rt-edit-x", "other", "must-fail edits"),
    ("rattle check --crate-name a src/main.rt", "/tmp/wrong-x", "wrong bodies in rounds", "wrong bodies in rounds"),
    ("python3 .ci/wrong", "/top", "other", "wrong bodies in rounds"),
    ("/tmp/rt-run-x/bin/a", "/tmp/rt-run-x/data", "other", "programs"),
    ("/usr/bin/python3 -B -m pytest -q cases/test_run.py --program crates/a/out/a", "/top", "other", "cases"),
    ("python3 -B -m pytest .ci/test_build.py", "/top", "other", "cases"),
    ("python3 -B /top/.ci/compile sessions", "/top", "other", "cases"),
    ("/top/tests/sessions/out/unproved", "/top/tests/sessions/data", "other", "cases"),
    ("/usr/bin/python3 -B ports/try wasm crates/a/out/a", "/top", "other", "other systems"),
    ("/usr/bin/python3 -B -m pytest -q ports/test_ports.py ports/test_proved.py", "/top", "other", "other systems"),
    ("/usr/bin/python3 -B -m pytest -q cases/test_page.py --program crates/a/out/a", "/top", "other", "other systems"),
    ("/usr/bin/python3 -B -m pytest -q cases/test_pages.py --program crates/a/out/a", "/top", "other", "cases"),
    ("/usr/bin/python3 -B -m pytest -q dist/test_archives.py --program crates/a/out/a", "/top", "other", "other systems"),
    ("rattle build --crate-name a src/main.rt", "/top/crates/a", "other systems", "other systems"),
    ("rattle check --crate-name a src/lib.rt", "/tmp/build-x", "cases", "cases"),
    ("crates/a/out/a check", "/top", "cases", "cases"),
]


@pytest.mark.parametrize("words, folder, above, part", PROCESSES)
def test_part(words, folder, above, part):
    assert minutes.part_of(words.split(), folder, above) == part


def test_table():
    minute = 60 * minutes.TICKS
    programs = [("programs", "b", 3 * minute), ("cases", None, minute)]
    told = minutes.table([("proofs", "a", minute), ("must-fail edits", "a", minute), *programs])
    assert "  all                         6.0" in told
    assert told[-1] == "the slowest crates: b 3.0, a 2.0"
