"""Tests of the page on what is trusted, and of the definitions that are reached, over made-up crates."""

import pytest
import trusted

import definitions

SHAPES = """-- Shapes.
use Rattle.std.specs.Prelude.{ℕ, Bool}
use Rattle.low.specs.declared.words.Word.{Word}
use Rattle.low.specs.declared.words.Size.TheVariants as sizes

mutual
  -- a shape
  pub data Shape : Type 0 where
    Dot : Shape
    Pair : (left : Shapes) → Shape

  pub data Shapes : Type 0 where
    Empty : Shapes
    ◌⨾◌ : Shape → Shapes → Shapes

infixr 5 ◌⨾◌
-- how many, and not `unused`
abbrev pub count : Shapes → ℕ
count Empty = 0
count (s ⨾ rest) = 1 + count rest

pub record Box : Type 0 where
  pub shape : Shape -- but not unused
  pub word : Word

unfoldable pub unused : ℕ → Bool
unused n = "count"

infixl 10 ◌>>=◌
abbrev pub ◌>>=◌ : Shape → (Shape → Shape) → Shape
o >>= f = f o

abbrev pub chained : Shape → Shape
chained s = do
  x ← s
  x

abbrev pub sized : ℕ → Type 0
sized n = n ≡ sizes.Large

two : (n : ℕ) → ℕ
two n = n
"""

HIGH = """use Rattle.low.specs.Shapes.{count as number, Box}
use Rattle.low.specs.Shapes as shapes
use Rattle.low.specs.Again.{count}

abbrev pub by_another_name : ℕ
by_another_name = number

abbrev pub by_its_module : ℕ
by_its_module = shapes.two 1

abbrev pub taken_over : ℕ
taken_over = count

abbrev pub by_a_field : Box → ℕ
by_a_field b = b.unused
"""

CODE = """ghost use Rattle.high.specs.High.{by_a_field, by_its_module};
ghost use Rattle.low.specs.Shapes.{chained, unused};
use low::{Listen, Size, Word};

impl Pen {
    /// Tells.
    pub fn tell<L: Listen>(&self, listener: L) -> Size
        ensures silent { unused }
        ensures heard { L.heard unused }
    {
        unused
    }


    /// Says `ensures other { chained }`.
    pub fn write(&self, word: &Word) -> Size
        requires { by_its_module }
        ensures first { unused
            word.now }
        ensures second { chained }
    {
        chained
    }
}
"""

WORDS = """ghost use Rattle.low.specs.Shapes.{two, unused};

pub struct Word { text: Size }

impl Model for Word {
    ghost Value = { two };
}

pub trait Listen {
    ghost use Rattle.low.specs.Shapes.{count};

    ghost heard: { count };
}

pub enum Size {
    Word,
    Of(Unit),
}

pub struct Unit {
    // a Word
    ghost held: { unused },
}
"""

FACADE = """-- Passed on.
pub use Rattle.low.specs.Shapes.{◌⨾◌, Box, unused}
pub use Rattle.low.specs.Again.{count as number}
pub use Rattle.low.specs.declared.words.Size.{Size}
"""

THROUGH_FACADE = """ghost use Rattle.low.specs.Prelude.{◌⨾◌, Box, Size, number};
ghost use Rattle.low.specs.Shapes as shapes;

/// Draws.
pub fn draw()
    ensures box { Box }
    ensures one { IsOne number }
    ensures put { s ⨾ rest }
    ensures size { Size }
    ensures by_module { shapes.two 1 }
{}
"""


@pytest.fixture
def repository(tmp_path) -> definitions.Repository:
    """A repository of two crates."""
    files = {
        "low/specs/Lib.antt": "pub mod Shapes\npub mod Again\npub mod Prelude\n",
        "low/specs/Shapes.antt": SHAPES,
        "low/specs/Again.antt": "pub use Rattle.low.specs.Shapes.{count}\n",
        "low/specs/Prelude.antt": FACADE,
        "low/src/words.rt": WORDS,
        "high/specs/Lib.antt": "pub mod High\n",
        "high/specs/High.antt": HIGH,
        "high/src/pen.rt": CODE,
        "high/src/draw.rt": THROUGH_FACADE,
    }
    for name, text in files.items():
        path = tmp_path / "crates" / name
        path.parent.mkdir(parents=True, exist_ok=True)
        path.write_text(text, encoding="utf-8")
    return definitions.Repository(tmp_path)


def titles(reach: definitions.Reach) -> set[str]:
    return {item.title for item in reach.items}


def reach_of(repository: definitions.Repository, crate: str, file: str, name: str) -> definitions.Reach:
    return repository.reach([repository.exported(repository.crates / crate / f"specs/{file}.antt")[name]])


def test_definitions_are_found_with_their_lines(repository):
    items = repository.items(repository.crates / "low/specs/Shapes.antt")
    assert [item.names for item in items] == [
        ("Shape", "Shapes", "Dot", "Pair", "Empty", "◌⨾◌"),
        ("count",),
        ("Box",),
        ("unused",),
        ("◌>>=◌",),
        ("chained",),
        ("sized",),
        ("two",),
    ]
    assert [len(item.lines) for item in items] == [8, 3, 3, 2, 3, 4, 2, 2]


def test_what_a_definition_names_is_reached(repository):
    count, chained, box, unused, sized = (
        reach_of(repository, "low", "Shapes", name) for name in ("count", "chained", "Box", "unused", "sized")
    )
    renamed, module, again, field = (
        reach_of(repository, "high", "High", name) for name in ("by_another_name", "by_its_module", "taken_over", "by_a_field")
    )
    assert titles(count) == {"count", "Shape"} and count.libraries == {"std"}
    assert titles(chained) == {"chained", "◌>>=◌", "Shape"}
    assert titles(unused) == {"unused"}
    assert titles(renamed) == {"by_another_name", "count", "Shape"}
    assert titles(module) == {"by_its_module", "two"}
    assert titles(again) == {"taken_over", "count", "Shape"}
    assert titles(field) == {"by_a_field", "Box", "Shape", "two"}
    assert titles(box) == {"Box", "Shape", "two"} and {each_type.name for each_type in box.types} == {"Word"}
    assert {each_type.name for each_type in sized.types} == {"Size", "Unit"}


def test_the_clauses_of_a_function_are_followed(repository):
    pen = repository.crates / "high/src/pen.rt"
    first, both = (repository.reach(repository.of_function(pen, "write", names)) for names in (("first",), ()))
    assert titles(first) == {"unused", "by_its_module", "two"}
    assert titles(both) == titles(first) | {"chained", "◌>>=◌", "Shape"}
    assert {each_type.name for each_type in first.types} == {"Size", "Unit", "Word"}


@pytest.mark.parametrize(
    "clause, names, types",
    [
        ("box", {"Box", "Shape", "two"}, {"Word"}),
        ("one", {"count", "Shape"}, set()),
        ("put", {"Shape"}, set()),
        ("size", set(), {"Size", "Unit"}),
        ("by_module", {"two"}, set()),
    ],
)
def test_a_facade_is_followed_and_counts_as_imports(repository, clause, names, types):
    reach = repository.reach(repository.of_function(repository.crates / "high/src/draw.rt", "draw", [clause]))
    assert titles(reach) == names and {each_type.name for each_type in reach.types} >= types
    assert all(item.file.name == "Shapes.antt" for item in reach.items)
    assert not definitions.said(repository.crates / "low/specs/Prelude.antt")


def test_a_facade_that_passes_on_what_is_not_there_is_told(repository):
    path = repository.crates / "low/specs/Prelude.antt"
    path.write_text(FACADE.replace("unused", "gone"), encoding="utf-8")
    with pytest.raises(LookupError):
        repository.of_function(repository.crates / "high/src/draw.rt", "draw", ["box"])


def test_a_bound_counts_where_a_clause_names_it(repository):
    pen = repository.crates / "high/src/pen.rt"
    silent, heard = (repository.reach(repository.of_function(pen, "tell", [name])) for name in ("silent", "heard"))
    assert titles(silent) == {"unused"}
    assert titles(heard) == {"unused", "count", "Shape"}


@pytest.mark.parametrize("function, names", [("write", ("third",)), ("read", ())])
def test_a_clause_or_a_function_that_is_not_there_is_told(repository, function, names):
    with pytest.raises(LookupError):
        repository.of_function(repository.crates / "high/src/pen.rt", function, names)


def test_a_name_that_is_not_there_is_told(repository):
    path = repository.crates / "high/specs/High.antt"
    path.write_text("use Rattle.low.specs.Shapes.{gone}\nabbrev pub it : ℕ\nit = gone\n", encoding="utf-8")
    with pytest.raises(LookupError):
        reach_of(repository, "high", "High", "it")


def test_all_lines_of_definitions_are_in_one():
    repository = definitions.Repository(trusted.TOP)
    for path in trusted.TOP.glob("crates/*/specs/*.antt"):
        assert sum(len(item.lines) for item in repository.items(path)) == len(definitions.said(path)), path
        assert all(item.names for item in repository.items(path)), path


@pytest.mark.parametrize("port", trusted.PORTS_ADD, ids=lambda port: port.name)
def test_the_page_of_proofs_has_the_lines_of_each_port(port: trusted.Port):
    text = (trusted.TOP / "docs/PROOFS.md").read_text(encoding="utf-8")
    begins = f"- {port.name}: {trusted.port_lines(port)} lines. "
    assert [line.strip().startswith(begins) for line in text.splitlines()].count(True) == 1


def test_the_page_on_what_is_trusted_is_current():
    page = trusted.page(definitions.Repository(trusted.TOP))
    assert trusted.PAGE.read_text(encoding="utf-8") == page, "docs/TRUSTED.md: .ci/trusted --write makes it anew"
