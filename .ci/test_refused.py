"""Tests of the list of wrong bodies that were refused already, with the prover: over a repository with one small crate."""
import os
import re
import subprocess
import sys

from small_repository import called, create, git, root_of

SCRIPTS = (".ci/crates.py", ".ci/edits.py", ".ci/refused.py", ".ci/wrong")
EXACT, WIDE = "ensures { result ≡ 1 }", "ensures { result ≤ 9 }"
SOURCE = f"""//! A number.
#![tactic(auto)]

ghost use Rattle.std.specs.Prelude.{{◌≡◌, ◌≤◌}};

/// One.
pub fn one() -> u64
    {EXACT}
{{
    let answer: u64 = 1;
    answer
}}
"""
EDIT = "file = 'src/lib.rt'\nold = 'let answer: u64 = 1;'\nnew = 'let answer: u64 = 2;'\n"


class Repository:
    """A repository of one crate with some wrong bodies, all the same."""

    def __init__(self, folder, edits):
        self.top = create(folder, {"one": ((), SOURCE)}, SCRIPTS)
        self.list = self.top / ".ci/refused.txt"
        (self.top / "crates/one/wrong.toml").write_text("".join(f"[{edit}]\n{EDIT}" for edit in edits))

    def write(self, source):
        root_of(self.top, "one").write_text(source)

    def tried(self, *words):
        """What the script says of its edits: how many were tried and kept, how many passed and failed, and all of it."""
        out, err, _ = called(self.top, ".ci/wrong", *words)
        counts = re.search(r"wrong: (\d+) tried, (\d+) kept\n(\d+) passed, (\d+) failed\n\Z", out)
        return tuple(map(int, counts.groups())) if counts else None, out + err

    def commit(self):
        for words in (["init", "-q"], ["add", "-A"], ["commit", "-q", "-m", "Begin"]):
            git(self.top, *words)


def printed(top, words):
    """What words of Python print that use the scripts of a repository."""
    env = {**os.environ, "PYTHONPATH": f"{top}/.ci"}
    return subprocess.run([sys.executable, "-B", "-c", words], env=env, capture_output=True, text=True, check=True).stdout


def samples(top, edits):
    """Which of these edits are tried although they are kept."""
    return printed(top, f"import refused; print(*(it for it in {edits!r} if refused.is_in_sample('one', it)))").split()


def test_a_contract_that_lets_an_edit_through(tmp_path):
    # (outside of a commit the sample is the same each time)
    repository = Repository(tmp_path, ["two"])
    assert samples(tmp_path, ["two"]) == []
    counts, said = repository.tried("--list")
    assert counts == (1, 0, 1, 0), said
    counts, said = repository.tried("--kept")
    assert counts == (0, 1, 0, 0), said
    repository.write(SOURCE.replace(EXACT, WIDE))
    counts, said = repository.tried("--kept")
    assert counts == (1, 0, 0, 1), said
    assert "wrong one/two: NOT REFUSED" in said


def test_a_tenth_is_tried(tmp_path):
    edits = [f"two_{number}" for number in range(100)]
    repository = Repository(tmp_path, edits)
    repository.commit()
    chosen = samples(tmp_path, edits)
    assert 1 <= len(chosen) <= 30
    # another commit chooses others
    git(repository.top, "commit", "-q", "--allow-empty", "-m", "Go on")
    assert samples(tmp_path, edits) != chosen


ASK = "import edits, refused; edit = edits.edits_of('one')[0][0]; "


def test_comments_are_not_summed(tmp_path):
    repository = Repository(tmp_path, ["two"])

    def checksum():
        return printed(tmp_path, ASK + "print(refused.checksum('one', edit))")

    before = checksum()
    repository.write(SOURCE.replace("/// One.", "/// The number one."))
    assert checksum() == before
    repository.write(SOURCE.replace("let answer: u64 = 1;", "let answer: u64 = 1 + 0;"))
    assert checksum() != before


def test_a_list_that_does_not_fit(tmp_path):
    repository = Repository(tmp_path, ["two"])
    for line in ("one two 0123\n", "one other 0123\n", ""):
        repository.list.write_text(line)
        assert printed(tmp_path, ASK + "print(refused.kept('one', [edit]))") == "set()\n"


def test_two_lists_that_git_has_put_together(tmp_path):
    repository = Repository(tmp_path, ["two"])
    checksum = printed(tmp_path, ASK + "print(refused.checksum('one', edit))").strip()
    repository.list.write_text(f"one two 0123\none two {checksum}\nother two 4567\n")
    assert printed(tmp_path, ASK + "print(refused.kept('one', [edit]))") == "{'two'}\n"
    printed(tmp_path, ASK + "refused.write('one', [edit])")
    assert repository.list.read_text() == f"one two {checksum}\nother two 4567\n"
