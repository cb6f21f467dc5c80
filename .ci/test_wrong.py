"""Tests of the scripts that try wrong bodies, without the prover: edits read, places found, rounds formed, verdicts read."""
import threading
import time

import pytest
import wrong

import edits
from edits import BadEdit


@pytest.fixture
def beside(monkeypatch):
    """The output of an rt ci that is under way, once a test names its file."""
    found = wrong.Beside()
    monkeypatch.setattr(wrong, "BESIDE", found)
    return found


SOURCE = """//! A pair of numbers.

use crate::other::twice;

const MOST: u8 = 9;

pub struct Pair {
    first: u8,
    second: u8,
}

impl Pair {
    /// The first.
    pub fn first(&self) -> u8
        requires { self.now.first < 9 }
        ensures {
            result ≡ self.now.first
        }
    {
        self.first
    }

    /// Both, one after the other.
    pub fn both<F: Fn(u8) -> u8>(
        &self,
        then: F,
    ) -> u8 {
        let one = self.first();
        twice(one)
    }

    fn none() {}
}

impl<'a, T: Drop> From<Vec<T>> for Pair {
    fn from(list: Vec<T>) -> Pair {
        Pair { first: 1, second: 1 }
    }
}

impl fmt::Display for Pair {
    fn fmt(&self) -> u8 {
        Pair::both(self)
    }
}

#[cycle(parity)]
fn even(n: u8) -> bool {
    n == 0 || odd(n - 1)
}

#[cycle(parity)]
fn odd(n: u8) -> bool {
    n != 0 && even(n - 1)
}

fn alone() -> u8 {
    3
}
"""
OTHER = """pub fn twice(n: u8) -> u8 {
    n + n
}

impl Pair {
    pub fn second(&self) -> u8 {
        self.second
    }
}
"""


def crate():
    return edits.Crate("two", {"src/pair.rt": SOURCE, "src/other.rt": OTHER, "proofs/pair/Pair/first/Answers.antt": "first"})


def edit(name, old, new, file="src/pair.rt"):
    return edits.Edit(name, (edits.Change(file, old, new),))


def lines(*told):
    return edits.lines_of("".join(f"fn two::{line}\n" for line in told))


class TestTables:
    def test_one_change(self):
        good, bad = edits.edits_in("[a]\nfile = 'src/a.rt'\nold = 'x'\nnew = ''\n")
        assert (good, bad) == ([edits.Edit("a", (("src/a.rt", "x", ""),))], {})

    def test_many_changes(self):
        text = "[a]\nchanges = [{file = 'src/a.rt', old = 'x', new = 'y'}, {file = 'specs/B.antt', old = '  z ', new = ''}]\n"
        good, bad = edits.edits_in(text)
        assert (good, bad) == ([edits.Edit("a", (("src/a.rt", "x", "y"), ("specs/B.antt", "  z ", "")))], {})
        told = "file: src/a.rt\nold: x\nnew: y\nfile: specs/B.antt\nold:   z \nnew: \n"
        assert edits.must_fail_text(good[0]) == told

    def test_the_others_stay_good(self):
        text = "[a]\nfile = 'src/a.rt'\nold = 'x'\nnew = 'y'\n[b]\nfile = 'src/a.rt'\nold = 'x'\n"
        good, bad = edits.edits_in(text)
        assert ([edit.name for edit in good], list(bad)) == (["a"], ["b"])

    @pytest.mark.parametrize(
        "table",
        [
            "file = 'src/a.rt'\nold = ''\nnew = 'y'",
            "file = 'src/a.rt'\nold = 'x\\ny'\nnew = 'y'".replace("'x\\ny'", '"x\\ny"'),
            "file = 'src/a.rt'\nold = 'x'\nnew = 1",
            "file = 'src/a.rt'\nold = 'x'\nnew = 'y'\nwhy = 'z'",
            "file = 'out/a.rt'\nold = 'x'\nnew = 'y'",
            "file = 'src/../a.rt'\nold = 'x'\nnew = 'y'",
            "changes = []",
            "changes = 'x'",
            "changes = ['x']",
            "changes = [{file = 'src/a.rt', old = 'x', new = 'y'}]\nfile = 'src/a.rt'",
        ],
    )
    def test_no_change(self, table):
        good, bad = edits.edits_in(f"[a]\n{table}\n")
        assert (good, list(bad)) == ([], ["a"])

    def test_names(self):
        good, bad = edits.edits_in("['a.b']\nfile = 'src/a.rt'\nold = 'x'\nnew = 'y'\n")
        assert (good, list(bad)) == ([], ["a.b"])


class TestApply:
    def test_once(self):
        made = edits.applied(edit("a", "self.first()", "7"), {"src/pair.rt": SOURCE})
        assert "let one = 7;" in made["src/pair.rt"]

    def test_no_place(self):
        with pytest.raises(BadEdit, match="0 times"):
            edits.applied(edit("a", "nowhere", "x"), {"src/pair.rt": SOURCE})

    def test_two_places(self):
        with pytest.raises(BadEdit, match="2 times"):
            edits.applied(edit("a", "n - 1", "n"), {"src/pair.rt": SOURCE})

    def test_no_file(self):
        with pytest.raises(BadEdit):
            edits.applied(edit("a", "x", "y", "src/none.rt"), {"src/pair.rt": SOURCE})

    def test_no_change(self):
        with pytest.raises(BadEdit):
            edits.applied(edit("a", "fn alone", "fn alone"), {"src/pair.rt": SOURCE})


class TestPlaces:
    def test_names(self):
        wanted = "pair::Pair::first pair::Pair::both pair::Pair::none pair::PairFromVec::from pair::PairDisplay::fmt pair::even"
        wanted += " pair::odd pair::alone other::twice pair::Pair::second"
        assert sorted(crate().functions) == sorted(wanted.split())

    def test_owners(self):
        for header, owner in (
            (" Pair {", "Pair"),
            ("<'g, K: Drop> Hall<'g, K> {", "Hall"),
            ("<T: Drop> From<AllocFailed<T>> for Stop<T> {", "StopFromAllocFailed"),
            (" fmt::Display for Final {", "FinalDisplay"),
            ("<K: Fn(u8) -> u8> Item<K> for Work<K> where K: Drop {", "WorkItem"),
            ("<'g> Core for Machine<'g> {", "MachineCore"),
        ):
            assert edits.owner_of(header) == owner

    def test_modules(self):
        for file, path in (("lib", ""), ("main", ""), ("a", "a"), ("a/b", "a::b"), ("a/mod", "a")):
            assert edits.module_of(f"src/{file}.rt") == path

    def test_bodies(self):
        made = crate()
        # a text in two places falls nowhere
        assert made.places(edit("a", "self.first", "1")) is None
        assert made.places(edit("a", "let one = self.first()", "let one = 1")) == {"pair::Pair::both"}
        assert made.places(edit("a", "first: 1, second: 1", "first: 2, second: 1")) == {"pair::PairFromVec::from"}
        assert made.places(edit("a", "n + n", "n", "src/other.rt")) == {"other::twice"}
        assert made.places(edit("a", "self.second", "1", "src/other.rt")) == {"pair::Pair::second"}

    def test_a_head_over_many_lines(self):
        text = "pub fn wide<\n    T: Drop,\n>(\n    it: T,\n) -> T\nwhere\n    T: Sized,\n{\n    it\n}\n"
        (wide,) = edits.functions_of("src/lib.rt", text)
        assert (wide.path, text[wide.at : wide.end]) == ("wide", "{\n    it\n}")

    def test_a_method_of_a_trait_has_no_body(self):
        text = "trait Same {\n    fn same(&self) -> bool\n        ensures { result };\n}\n\n"
        text += "fn all() -> bool {\n    if true {\n    }\n    true\n}\n"
        assert [function.path for function in edits.functions_of("src/lib.rt", text)] == ["all"]

    def test_outside_of_bodies(self):
        for old in ("MOST: u8 = 9", "    first: u8,", "self.now.first < 9", "result ≡", "pub fn both", "use crate::other"):
            assert crate().places(edit("a", old, "x")) is None

    def test_changes_after_one_another(self):
        def places(*changes):
            return crate().places(edits.Edit("a", tuple(edits.Change("src/pair.rt", old, new) for old, new in changes)))

        assert places(("self.first()", "(self).first()"), ("_self.first", "1")) is None
        # the second text is in one place once the first change is applied
        assert places(("n == 0 || odd(n - 1)", "n == 0 || odd(n)"), ("n - 1", "n")) == {"pair::even", "pair::odd"}


PROOF = """use Rattle.two.proofs.pair.Pair.first.Statement as stated
use Rattle.two.proofs.pair.Pair.first_of.Goals
first_spec = 1
"""


def with_proof(*files):
    """The crate with a proof file, and empty files."""
    texts = {"src/pair.rt": SOURCE, "src/other.rt": OTHER, "proofs/pair/Pair/first/Proof.antt": PROOF}
    return edits.Crate("two", {**texts, **dict.fromkeys(files, "")})


class TestTwins:
    def test_who_can_have_one(self):
        made = with_proof()
        for path, can in (
            ("pair::Pair::first", True),
            ("pair::alone", True),
            ("pair::PairDisplay::fmt", False),
            ("pair::even", False),
            ("pair::nowhere", False),
        ):
            assert edits.can_have_twin(made, path) == can

    def test_none_with_lemmas_of_its_own(self):
        for file in ("proofs/pair/Pair/first/Lemmas.antt", "proofs/pair/Pair/first.antt"):
            assert not edits.can_have_twin(with_proof(file), "pair::Pair::first")

    def test_none_where_it_calls_itself(self):
        made = edits.Crate("two", {"src/lib.rt": "fn again(n: u8) -> u8 {\n    again(n)\n}\n"})
        assert not edits.can_have_twin(made, "again")

    def test_it_stands_beside_the_function(self):
        made = with_proof()
        given, path = edits.twin(made, "pair::alone", 2, edit("a", "    3", "    4"))
        assert (given.name, path) == ("a", "pair::alone_twin_2")
        texts = edits.applied(given, made.texts)
        assert "fn alone() -> u8 {\n    3\n}\n\nfn alone_twin_2() -> u8 {\n    4\n}\n" in texts["src/pair.rt"]
        assert path in edits.Crate("two", texts).functions
        # and another beside both
        other, _ = edits.twin(made, "pair::alone", 3, edit("b", "    3", "    5"))
        assert edits.applied(other, texts)["src/pair.rt"].count("fn alone") == 3

    def test_it_has_the_functions_attributes(self):
        text = "struct One;\n#[tactic(\n    auto,\n    using(a)\n)]\n#[inline]\nfn once() {\n    1\n}\n"
        made = edits.Crate("two", {"src/lib.rt": text})
        found = edits.applied(edits.twin(made, "once", 1)[0], made.texts)["src/lib.rt"]
        assert "}\n\n#[tactic(\n    auto,\n    using(a)\n)]\n#[inline]\nfn once_twin_1() {\n" in found
        assert edits.attributes_above("/// It.\nfn f() {}\n", len("/// It.\n")) == ""

    def test_unedited(self):
        made = with_proof()
        texts = edits.applied(edits.twin(made, "pair::alone", 1)[0], made.texts)
        assert "fn alone_twin_1() -> u8 {\n    3\n}\n" in texts["src/pair.rt"]

    def test_its_proof_files_name_it(self):
        made = with_proof()
        texts = edits.applied(edits.twin(made, "pair::Pair::first", 1)[0], made.texts)
        told = texts["proofs/pair/Pair/first_twin_1/Proof.antt"].split("\n")
        assert told[0] == "use Rattle.two.proofs.pair.Pair.first_twin_1.Statement as stated"
        assert told[1:3] == ["use Rattle.two.proofs.pair.Pair.first_of.Goals", "first_twin_1_spec = 1"]
        assert texts["proofs/pair/Pair/first/Proof.antt"] == PROOF

    def test_edits_of_one_function_in_one_round(self):
        trial = wrong.Trial.__new__(wrong.Trial)
        trial.name, trial.crate, trial.twins, trial.unedited = "two", with_proof(), set(), {}
        trial.texts = trial.crate.texts
        given = [edit("a", "    3", "    4"), edit("b", "    3", "    5"), edit("c", "n != 0 &&", "n != 1 &&")]
        made = trial.make_twins(given, set())
        assert trial.places == {"a": {"pair::alone_twin_1"}, "b": {"pair::alone_twin_2"}, "c": {"pair::odd"}}
        assert sorted(trial.unedited) == ["pair::alone_twin_0"]
        assert trial.twins == {f"pair::alone_twin_{number}" for number in range(3)}
        assert len(edits.next_round(trial.crate, made, trial.places)[0]) == 3
        trial.known(trial.texts)
        trial.make_twins(given, {"pair::alone"})
        assert [sorted(place) for place in trial.places.values()] == [["pair::alone"], ["pair::alone"], ["pair::odd"]]


class TestCycles:
    TEXT = """#[cycle(parity)]
fn even(n: u8) -> bool {
    n == 0 || odd(n - 1)
}

#[cycle(parity)]
fn odd(n: u8) -> bool {
    n != 0 && even(n - 2)
}

fn asks(n: u8) -> bool {
    odd(n)
}
"""

    def test_one_proof_is_no_place_for_two_edits(self):
        made = edits.Crate("two", {"src/lib.rt": self.TEXT})
        given = [edit("a", "n == 0", "n == 1", "src/lib.rt"), edit("b", "    odd(n)", "    !odd(n)", "src/lib.rt")]
        places = {fact.name: made.places(fact) for fact in given}
        assert places == {"a": {"even"}, "b": {"asks"}}
        # what asks calls is proved together with what is edited
        assert made.reach("asks") == {"even", "odd"}
        assert len(edits.next_round(made, given, places)[0]) == 1
        assert edits.next_round(made, given[:1], places, unedited=["asks"])[0] == []


class TestFirstRound:
    """The first round, where a prover that is made up answers."""

    GIVEN = [edit("a", "    3", "    4"), edit("b", "    3", "    5"), edit("c", "n != 0 &&", "n != 1 &&")]
    OPEN = "no proof: expected answers in ./proofs/pair/alone/Answers.antt; `search` did not prove `returns`"

    def trial(self, *answers):
        """A trial of these edits, and the functions of each check, which answers so: a line for each function's path."""
        made = wrong.Trial("tpl_model", self.GIVEN)
        made.name, made.crate, made.texts = "two", with_proof(), crate().texts
        left, asked = list(answers), []

        def check(texts, words):
            asked.append({word for word in words if "::" in word})
            told = left.pop(0)
            if told is None:
                return "rattle: error: what is this\n", 1
            known = [f"fn two::{path}: {told.get(path, 'proved')}\n" for path in sorted(asked[-1])]
            return "".join(known) + "only=1 holes=1\n", 1

        made.check = check
        return made, asked

    def test_the_unedited_are_tried_beside_the_edited(self):
        trial, asked = self.trial({"pair::alone_twin_1": self.OPEN, "pair::alone_twin_2": self.OPEN})
        left, why, unknown = trial.begin(self.GIVEN)
        assert (asked, why, unknown) == ([{*(f"pair::alone_twin_{number}" for number in range(3)), "pair::odd"}], None, set())
        assert (trial.said, [edit.name for edit in left]) == ({"a": "refused", "b": "refused"}, ["c"])

    def test_what_is_proved_with_an_edit_is_tried_alone(self):
        trial, _ = self.trial({"pair::alone_twin_1": self.OPEN})
        left, why, _ = trial.begin(self.GIVEN)
        assert (why, trial.passed, [edit.name for edit in left]) == (None, {"b"}, ["b", "c"])

    def test_a_twin_that_is_not_proved_unedited_settles_nothing(self):
        told = {f"pair::alone_twin_{number}": self.OPEN for number in range(3)}
        trial, asked = self.trial(told, {})
        left, why, _ = trial.begin(self.GIVEN)
        assert (why, trial.said, [edit.name for edit in left]) == (None, {}, ["a", "b", "c"])
        assert asked[1] == {"pair::alone", "pair::odd"}

    def test_a_function_that_is_not_proved_unedited_ends_the_trial(self):
        trial, _ = self.trial({"pair::odd": "not proved"})
        assert "pair::odd is not proved unedited" in trial.begin(self.GIVEN)[1]

    def test_beside_rt_ci_a_copy_of_a_proved_function_needs_no_control(self, beside):
        trial, asked = self.trial({"pair::alone_twin_1": self.OPEN, "pair::alone_twin_2": self.OPEN, "pair::odd": self.OPEN})
        beside.file = "log"
        left, why, _ = trial.begin(self.GIVEN)
        assert (asked, why, left) == ([{"pair::alone_twin_1", "pair::alone_twin_2", "pair::odd"}], None, [])
        assert trial.said == dict.fromkeys("abc", "refused")

    def test_beside_rt_ci_a_twin_with_proof_files_needs_one(self, beside):
        given = [edit(word, "        self.first", f"        self.{word}") for word in ("second", "third")] + [self.GIVEN[1]]
        trial, asked = self.trial({"pair::Pair::first_twin_0": "not proved", "pair::alone_twin_1": self.OPEN}, {})
        trial.texts["proofs/pair/Pair/first/Proof.antt"] = PROOF
        beside.file = "log"
        left, why, _ = trial.begin(given)
        assert "pair::Pair::first_twin_0" in asked[0]
        assert "pair::alone_twin_0" not in asked[0]
        # the copy is not proved unedited, so that the function is edited itself
        assert (why, trial.said, asked[1]) == (None, {"b": "refused"}, {"pair::Pair::first"})

    def test_beside_rt_ci_a_function_with_proof_files_and_one_edit_is_edited_itself(self, beside):
        given = [edit("a", "        self.first", "        self.second"), self.GIVEN[1]]
        told = {"pair::Pair::first": self.OPEN, "pair::alone_twin_1": self.OPEN}
        trial, asked = self.trial(told)
        trial.texts["proofs/pair/Pair/first/Proof.antt"] = PROOF
        beside.file = "log"
        left, why, _ = trial.begin(given)
        assert (asked, why, left) == ([set(told)], None, [])
        assert trial.said == {"a": "refused", "b": "refused"}

    def test_where_a_cycle_of_calls_is_cut_bodies_are_kept_whole(self):
        trial, asked = self.trial({"pair::alone": self.OPEN})
        check, cut = trial.check, ["rattle: error[misplaced-cycle-name]: parity\n"]
        trial.check = lambda texts, words: (cut.pop(), 1) if cut else check(texts, words)
        ended, _ = trial.check_functions(trial.texts, {"pair::alone"})
        assert "fn two::pair::alone: no proof" in ended
        assert (asked, trial.crate.has_stubs) == ([{"pair::alone"}], False)

    def test_edits_that_are_not_read_are_left_for_later(self):
        trial, asked = self.trial(None, {})
        left, why, _ = trial.begin(self.GIVEN)
        assert (why, trial.said, len(left)) == (None, {}, 3)
        assert asked[1] == {"pair::alone_twin_0", "pair::odd"}


class TestBeside:
    def test_what_rt_says(self, tmp_path):
        beside = wrong.Beside()
        beside.file = tmp_path / "log"
        told = ["tpl_one proved", "tpl_two is kept: an earlier run proved the same files", "tpl_three not proved"]
        beside.file.write_text("".join(f"rt: {line}\n" for line in told), encoding="utf-8")
        assert (beside.is_over(), beside.wait_for(["tpl_one", "tpl_two"])) == (False, set())
        with open(beside.file, "a", encoding="utf-8") as file:
            file.write(f"2 passed, 1 failed\n{wrong.ENDED}\n")
        assert (beside.is_over(), beside.wait_for(["tpl_one", "tpl_three"])) == (True, {"tpl_three"})

    def test_half_the_lanes(self, beside):
        lanes = wrong.Lanes()
        lanes.at_once = 4
        assert lanes.open() == 4
        beside.file = "/dev/null"
        assert lanes.open() == 2

    def test_the_first_in_order_goes_first(self):
        lanes, order = wrong.Lanes(), []

        def enter(rank):
            lanes.mine.rank = rank
            with lanes:
                order.append(rank)

        with lanes:
            others = [threading.Thread(target=enter, args=[number]) for number in (2, 1)]
            for other in others:
                other.start()
            while len(lanes.waiting) < 2:
                time.sleep(0.01)
        for other in others:
            other.join()
        assert order == [1, 2]

    def test_what_is_not_settled_in_time_is_put_off(self, monkeypatch):
        lanes = wrong.Lanes()
        lanes.until = time.time() - 1
        with pytest.raises(wrong.PutOff):
            lanes.__enter__()
        assert (lanes.busy, lanes.waiting) == (0, [])
        trial = wrong.Trial("tpl_model", [])
        assert trial.ran(["echo", "yes"], ".") == ("yes\n", 0)
        monkeypatch.setattr(wrong.LANES, "until", time.time() + 0.2)
        with pytest.raises(wrong.PutOff):
            trial.ran(["sleep", "60"], ".")

    def test_one_check_where_memory_is_short(self, beside, monkeypatch):
        assert wrong.free_memory() > 0
        monkeypatch.setattr(wrong, "free_memory", lambda: wrong.ROOM - 1)
        lanes = wrong.Lanes()
        lanes.at_once = 4
        beside.file = "/dev/null"
        assert not lanes.is_full()
        with lanes:
            assert lanes.is_full()
            beside.file = None
            assert not lanes.is_full()


class TestRounds:
    def chosen(self, *given):
        made = crate()
        places = {fact.name: made.places(fact) for fact in given}
        chosen, texts = edits.next_round(made, list(given), places)
        return [edit.name for edit in chosen], texts

    def test_one_a_function(self):
        assert self.chosen(edit("a", "    3", "    4"), edit("b", "3\n".strip(), "5"))[0] == ["a"]

    def test_many_functions(self):
        names, texts = self.chosen(edit("a", "    3", "    4"), edit("b", "n + n", "n", "src/other.rt"))
        assert names == ["a", "b"]
        assert "    4" in texts["src/pair.rt"]
        assert "    n\n" in texts["src/other.rt"]

    def test_no_caller_beside_what_it_calls(self):
        assert len(self.chosen(edit("a", "twice(one)", "one"), edit("b", "n + n", "n", "src/other.rt"))[0]) == 1

    def test_one_a_cycle(self):
        assert len(self.chosen(edit("a", "n == 0 ||", "n == 1 ||"), edit("b", "n != 0 &&", "n != 1 &&"))[0]) == 1


class TestVerdicts:
    CALL = "pair::Pair::both: no proof: `search` did not prove `returns`; it calls `two::other::twice`, which is not proved"
    HOLE = "other::twice: depends on a hole in `Rattle.two.proofs.other.twice.Proof.twice_spec`"

    def verdict(self, path, *told, edited=()):
        return edits.verdict(crate(), path, lines(*told), {path, *edited})

    def test_refused(self):
        for told in (
            "not proved",
            "no proof: expected answers in ./proofs/pair/alone/Answers.antt; `search` did not prove `returns`",
            "not proved; it stands on `Rattle.two.proofs.pair.alone.Answers.returns`, which antt refuses",
        ):
            assert self.verdict("pair::alone", f"pair::alone: {told}") == "refused"

    def test_proved(self):
        for told in ("proved", "no holes", "depends on a hole in `Rattle.two.proofs.other.twice.Proof.twice_spec`"):
            assert self.verdict("pair::alone", f"pair::alone: {told}") == "proved"

    def test_unsettled(self):
        for told in (["pair::alone: could not tell"], [], ["other::twice: not proved"]):
            assert self.verdict("pair::alone", *told) == "unsettled"

    def test_another_edited_function_is_named(self):
        assert self.verdict("pair::Pair::both", self.CALL, "other::twice: not proved", edited=["other::twice"]) == "unsettled"
        assert self.verdict("pair::Pair::both", self.CALL, self.HOLE, edited=["other::twice"]) == "unsettled"

    def test_a_hole_is_named(self):
        assert self.verdict("pair::Pair::both", self.CALL, self.HOLE) == "refused"

    def test_a_function_that_fails_is_named(self):
        assert self.verdict("pair::Pair::both", self.CALL, "other::twice: not proved") == "unsettled"
        assert self.verdict("pair::Pair::both", self.CALL) == "unsettled"

    def test_an_impl_is_named(self):
        told = "pair::alone: no proof: `search` did not prove `returns`"
        told += "; it passes the block `two::pair::PairDisplay`, which is not proved"
        hole = "pair::PairDisplay::fmt: depends on a hole in `Rattle.two.proofs.other.twice.Proof.twice_spec`"
        assert self.verdict("pair::alone", told, hole) == "refused"
        assert self.verdict("pair::alone", told, hole, edited=["pair::PairDisplay::fmt"]) == "unsettled"
        assert self.verdict("pair::alone", told) == "unsettled"

    def test_only_the_call_of_another_failed(self):
        told = "pair::Pair::both: no proof: it calls `two::other::twice`, which is not proved"
        assert self.verdict("pair::Pair::both", told, self.HOLE) == "unsettled"
        # unless a note tells of a goal of its own
        made, told = crate(), lines(told, self.HOLE)
        notes = ["note: src/pair.rt:27:5: it is not proved that what the function ensures holds", "note: src/pair.rt:2:1: a note"]
        own = edits.own_lines(made, "pair::Pair::both", SOURCE, "src/pair.rt", notes)
        assert own == notes[:1]
        assert edits.verdict(made, "pair::Pair::both", told, {"pair::Pair::both"}, edits.has_open_goal(own)) == "refused"

    def test_a_cycle_has_one_proof(self):
        told = "pair::even: no proof: expected answers in ./proofs/pair/+parity/Answers.antt; `search` did not prove"
        told += " `even-returns`; in `two::pair::odd`, of this cycle of calls: it calls `two::other::twice`, which is not proved"
        assert self.verdict("pair::even", told, self.HOLE) == "refused"
        told = "pair::even: not proved; it stands on `Rattle.two.proofs.pair.+parity.Answers.even-returns`, which antt refuses"
        assert self.verdict("pair::even", told) == "refused"

    def test_another_proof_is_named(self):
        told = "pair::alone: not proved; it stands on `Rattle.two.proofs.Lemmas.sum`, which antt refuses"
        assert self.verdict("pair::alone", told) == "unsettled"

    def test_a_closure_is_the_functions_own(self):
        told = ["pair::Pair::both: not proved; it calls `two::pair::fn::Pair::both::map`, which is not proved"]
        told.append("pair::fn::Pair::both::map: no proof: `search` did not prove `returns`")
        assert self.verdict("pair::Pair::both", *told) == "refused"


class TestTold:
    def test_unread(self):
        assert edits.unread("src/pair.rt:3:4: error: expected the end", {"src/pair.rt"})
        assert edits.unread("src/pair.rt:3:4: error: `x`: it is not in scope", set())
        assert not edits.unread("proofs/pair/alone/Answers.antt:3:4: error: it does not fit", {"src/pair.rt"})

    def test_told_by_names_alone(self):
        names = "./proofs/pair/alone/Answers.antt:3:4: error: `returns` is not in scope"
        goal = "note: src/pair.rt:3:4: it is not proved that"
        assert edits.told_by_names_alone([names])
        assert not edits.told_by_names_alone([names, goal])
        assert not edits.told_by_names_alone([])

    def test_holes(self):
        texts = wrong.with_holes(crate(), crate().texts, {"pair::Pair::first"})
        assert "proofs/pair/Pair/first/Answers.antt" not in texts
        assert "first_spec = ?" in texts["proofs/pair/Pair/first/Proof.antt"]

    def test_proofs_of_others_stay(self):
        # a function and a module of one name
        sources = {"src/lib.rt": "fn pair() {}\n\nfn same() {}\n", "src/pair.rt": "fn first() {}\n"}
        proofs = {f"proofs/{word}/Answers.antt": "a" for word in ("pair", "pair/first", "pair/+cycle", "same")}
        made = wrong.with_holes(edits.Crate("two", {**sources, **proofs}), {**sources, **proofs}, {"pair"})
        gone = {proof for proof in proofs if proof not in made}
        assert gone == {"proofs/pair/Answers.antt"}

    def test_no_hole_where_a_function_calls_itself(self):
        text = "fn again(n: u8) -> u8 {\n    again(n)\n}\n\nfn once(n: u8) -> u8 {\n    again(n)\n}\n"
        made, of_cycle = edits.Crate("two", {"src/lib.rt": text}), crate()
        made.has_stubs = of_cycle.has_stubs = False
        assert [made.takes_hole(word) for word in ("again", "once", "none")] == [False, True, False]
        assert not of_cycle.takes_hole("pair::even")

    def test_a_hole_for_each_that_has_no_body(self):
        text = "impl Drop for Pair {\n    fn drop(self) {\n        let Pair(_) = self;\n    }\n}\n"
        made = edits.Crate("two", {"src/lib.rt": text})
        assert [crate().takes_hole(f"pair::{word}") for word in ("even", "Pair::first", "nowhere")] == [True, True, False]
        assert not made.takes_hole("PairDrop::drop")

    def test_proofs_of_a_cycle_go_with_all_its_functions(self):
        made, proofs = crate(), {"proofs/pair/+parity/Proof.antt": "both"}
        assert made.cycles() == {"proofs/pair/+parity": {"pair::even", "pair::odd"}}
        text = "impl Walk {\n    #[cycle(walk)]\n    fn on(&self) {\n        self.on()\n    }\n}\n"
        walk = edits.Crate("two", {"src/lib.rt": "struct Walk;\n" + text}).cycles()
        assert walk["proofs/Walk/+walk"] == {"Walk::on"}
        for holes, is_there in (({"pair::even"}, True), ({"pair::even", "pair::odd"}, False)):
            texts = wrong.with_holes(made, {**made.texts, **proofs}, holes)
            assert ("proofs/pair/+parity/Proof.antt" in texts) == is_there

    def test_bodies_that_are_left_out(self):
        text = "/// It.\n#[cycle(a)]\nfn f(\n    n: u8,\n) -> u8 {\n    fn g() {}\n    f(n)\n}\n\nfn g() {\n    f(1);\n}\n"
        made = edits.Crate("two", {"src/lib.rt": text})
        left = wrong.stubbed(made, made.texts, {"f"})["src/lib.rt"]
        assert left == "/// It.\n\nfn f(\n    n: u8,\n) -> u8 { unreachable!()\n\n\n }\n\nfn g() {\n    f(1);\n}\n"
        assert left.count("\n") == text.count("\n")
        assert wrong.stubbed(made, made.texts, set()) == made.texts

    def test_words(self):
        how = wrong.asked(["--jobs", "3", "--kept", "tpl_model"])
        assert (how.jobs, how.names, how.kept, how.list, how.beside) == (3, ["tpl_model"], True, False, None)
        assert "tpl_fast" in wrong.asked([]).names
