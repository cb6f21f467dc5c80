"""The definitions that a sentence rests on: from the clauses of a function, or from definitions, name by name.

A definition is one item of a file of specs/: its signature with its clauses, a record, or a type with its cases. It rests
on each name that its text has, as the imports of its file resolve it. Where that is unsure it is counted: a name in a
pattern that is also a definition's counts, all items of one `mutual` count together, and so do all views of a type. A
file that passes names on, as a crate's `Prelude`, is followed to where they are defined: its own lines are imports.
"""
import functools
import pathlib
import re
from collections.abc import Iterable, Iterator, Sequence
from typing import NamedTuple

HEAD = re.compile(r"^(?:(?:abbrev|unfoldable|pub|record|data) )+(?=\S)|^(?=\S+ :(?: |$))")
BLOCK = re.compile(r"^(?:abbrev |unfoldable )?mutual$")
FIXITY = re.compile(r"^infix[lr]? \d+ (\S+)$")
NAMED = re.compile(r"^ *(?:pub )?(?:record |data )?([^\s({:]+)(?= |$)")
CASE = re.compile(r"^ +([^\s({]+) : ")
USE = re.compile(r"(?:ghost )?(?:pub )?use ([\w.?]+?)(?:\.\{([^}]*)\}| as (\w+))?(?:;|$)", re.MULTILINE)
WORD = re.compile(r"[^\s(){}\[\],;\"]+")
TYPE = re.compile(r"\b(?:pub(?:\([a-z]+\))? )?(?:struct|enum|trait) ([A-Z]\w*)")
BOUND = re.compile(r"\b([A-Z]\w*): [A-Z]\w*(?: \+ [A-Z]\w*)*(?=[,>])")
CAPITAL = re.compile(r"(?<![.\w])[A-Z]\w*")


class Item(NamedTuple):
    """A definition: the names it declares, and its lines without comments."""

    file: pathlib.Path
    names: tuple[str, ...]
    lines: tuple[str, ...]

    @property
    def title(self) -> str:
        """The name by which it goes."""
        return self.names[0]


class Sort(NamedTuple):
    """A type of the code, by its crate and name."""

    crate: str
    name: str


# what a name stands for: a definition, a type of the code, or a library
Found = Item | Sort | str


class Reach(NamedTuple):
    """What a sentence rests on: definitions, types of the code, and the libraries that these name."""

    items: frozenset[Item]
    types: frozenset[Sort]
    libraries: frozenset[str]


def words(text: str) -> list[list[str]]:
    """The names in a text, each with the names behind its dots."""
    bare = re.sub(r"\"(?:\\.|[^\"\\])*\"", " ", text)
    return [word.split(".") for word in WORD.findall(bare)]


def without_comment(line: str) -> str:
    return re.sub(r"(^|\s)--(\s.*)?$", "", line).rstrip()


def without_silent_bounds(signature: str, said: str) -> str:
    """A signature without the bounds of those type parameters that no clause names: nothing is said of them."""
    return BOUND.sub(lambda item: item[0] if re.search(rf"\b{item[1]}\b", said) else item[1], signature)


def parts_of(name: str) -> list[str]:
    """The words that stand for a name in a text: of an operator those between its places."""
    return [part for part in name.split("◌") if part]


def listed_in(listed: str) -> Iterator[tuple[str, str]]:
    """The names of an import's list, each with the name by which it goes in the file."""
    for name in filter(None, map(str.strip, listed.split(","))):
        full, _, short = name.partition(" as ")
        yield full.strip(), (short or full).strip()


def said(path: pathlib.Path) -> list[str]:
    """The lines of a file of definitions that say something, without its imports."""
    lines = (without_comment(line) for line in path.read_text(encoding="utf-8").splitlines())
    return [line for line in lines if line and not re.match(r"(pub )?(use|mod) ", line)]


def blocks_of(lines: list[str]) -> list[list[str]]:
    """The lines of each item, in order."""
    blocks: list[list[str]] = []
    within = False
    for line in lines:
        if line[0] != " ":
            within = bool(BLOCK.match(line))
        begins = within or (HEAD.match(line) and not (blocks and goes_on(blocks[-1], line)))
        if FIXITY.match(line) or (line[0] != " " and begins) or not blocks:
            blocks.append([line])
        else:
            blocks[-1].append(line)
    return blocks


def goes_on(block: list[str], line: str) -> bool:
    """Whether a line without a word before its name is a clause of the item."""
    return line.split()[0] in names_of(block)


def names_of(block: list[str]) -> list[str]:
    """The names that an item declares: its own, those of its cases, and of a `mutual` those of all items."""
    inner = [line for line in block if re.match(r"  \S", line)]
    heads = inner if BLOCK.match(block[0]) else block[:1]
    declared = [re.sub(r"^ *(?:(?:abbrev|unfoldable) )?", "", line) for line in heads]
    names = [match.group(1) for line in declared if (match := NAMED.match(line)) and is_head(line)]
    is_data = any(re.match(r" *(?:pub )?data ", line) for line in block)
    return [*names, *(match.group(1) for line in block if is_data and (match := CASE.match(line)))]


def is_head(line: str) -> bool:
    return bool(re.match(r"(?:pub |record |data )", line) or re.match(r"\S+ :(?: |$)", line))


def items_of(path: pathlib.Path) -> list[Item]:
    """The definitions of a file. How an operator binds is a line of its definition."""
    blocks = blocks_of(said(path))
    fixities = {match.group(1): block[0] for block in blocks if (match := FIXITY.match(block[0]))}
    items = []
    for block in blocks:
        if FIXITY.match(block[0]):
            continue
        names = names_of(block)
        binds = [fixities[name] for name in names if name in fixities]
        items.append(Item(path, tuple(names), tuple([*binds, *block])))
    return items


class Repository:
    """The crates of a folder, and what their definitions rest on."""

    def __init__(self, top: pathlib.Path):
        self.crates = top / "crates"
        self.items = functools.cache(lambda path: tuple(items_of(path)))
        self.scope = functools.cache(self._scope)
        self.exported = functools.cache(self._exported)
        self.sources = functools.cache(self._sources)

    def _exported(self, path: pathlib.Path) -> dict[str, Found]:
        """The definitions of a file by their names, also those that it takes over from another."""
        names: dict[str, Found] = {name: item for item in self.items(path) for name in item.names}
        again = re.findall(r"^pub use .*$", path.read_text(encoding="utf-8"), re.MULTILINE)
        for module, listed, _ in USE.findall("\n".join(again)):
            for name, short in listed_in(listed):
                names[short] = self.found(module, name)
        return names

    def file(self, module: str) -> tuple[pathlib.Path, list[str]] | None:
        """The file of definitions that an import names, and the names behind it; None for a library's."""
        parts = module.split(".")
        if parts[0] != "Rattle" or len(parts) < 4 or not (self.crates / parts[1]).is_dir() or parts[2] != "specs":
            return None
        specs = self.crates / parts[1] / "specs"
        for end in range(len(parts), 3, -1):
            path = specs.joinpath(*parts[3:end]).with_suffix(".antt")
            if path.is_file():
                return path, parts[end:]
        lib = (specs / "Lib.antt").read_text(encoding="utf-8")
        again = re.search(rf"^pub use ([\w.]+\.{parts[3]})$", lib, re.MULTILINE)
        if not again:
            raise LookupError(f"{module}: no such file")
        return self.file(".".join([again.group(1), *parts[4:]]))

    def found(self, module: str, name: str) -> Found:
        """What a name of a module stands for: an item, a type of the code, or the name of a library."""
        parts = module.split(".")
        if parts[0] == "Rattle" and "declared" in parts and (self.crates / parts[1]).is_dir():
            return Sort(parts[1], next((part for part in parts[4:] if part[0].isupper()), name))
        found = self.file(module)
        if found is None:
            return parts[1] if parts[0] == "Rattle" else parts[0]
        path, inner = found
        name = inner[0] if inner else name
        if name not in self.exported(path):
            raise LookupError(f"{path}: no definition {name}")
        return self.exported(path)[name]

    def _scope(self, path: pathlib.Path) -> tuple[dict[str, set[Found]], dict[str, str]]:
        """What the words of a file stand for, and its modules by their short names."""
        names: dict[str, set[Found]] = {}
        modules: dict[str, str] = {}
        for module, listed, short in USE.findall(path.read_text(encoding="utf-8")):
            if "." not in module:
                continue
            if short:
                modules[short] = module
            for name, short in listed_in(listed):
                for part in parts_of(short):
                    names.setdefault(part, set()).add(self.found(module, name))
        if path.suffix == ".antt":
            for item in self.items(path):
                for name in item.names:
                    for part in parts_of(name):
                        names.setdefault(part, set()).add(item)
        if ">>=" in names:
            names["←"] = names[">>="]
        return names, modules

    def named(self, path: pathlib.Path, text: str) -> set[Found]:
        """What the names in a text of a file stand for."""
        names, modules = self.scope(path)
        reached = set()
        for first, *rest in words(text):
            reached |= names.get(first, set())
            if first in modules and rest:
                reached.add(self.found(modules[first], rest[0]))
        return reached

    def _sources(self, crate: str) -> dict[pathlib.Path, set[str]]:
        """The files of code of a crate with the types that each makes."""
        files = sorted((self.crates / crate / "src").rglob("*.rt"))
        return {path: set(TYPE.findall(path.read_text(encoding="utf-8"))) for path in files}

    def home(self, path: pathlib.Path, name: str) -> Sort | None:
        """The type of that name that a file of code means: its own crate's, or that of a crate that it imports it from."""
        crate = path.relative_to(self.crates).parts[0]
        text = path.read_text(encoding="utf-8")
        imported = re.findall(rf"^(?:pub )?use (\w+)(?:::\w+)*::(?:{name}\b|\{{[^}}]*\b{name}\b)", text, re.MULTILINE)
        for near in [crate, *imported]:
            near = crate if near == "crate" else near
            if (self.crates / near).is_dir() and (sort := self.owner(near, name)):
                return sort
        return None

    def owner(self, crate: str, name: str) -> Sort | None:
        """The type of that name of a crate, also one that it takes over from a lower one."""
        if any(name in types for types in self.sources(crate).values()):
            return Sort(crate, name)
        for path in self.sources(crate):
            text = path.read_text(encoding="utf-8")
            for lower in re.findall(rf"^pub use (\w+)::(?:[\w:]*\b{name}\b|\{{[^}}]*\b{name}\b)", text, re.MULTILINE):
                if (self.crates / lower).is_dir() and (sort := self.owner(lower, name)):
                    return sort
        return None

    def of_type(self, sort: Sort) -> set[Found]:
        """What the value of a type rests on: its view; of a type without one the types of its fields."""
        reached = set()
        for path, types in self.sources(sort.crate).items():
            if sort.name not in types:
                continue
            text = path.read_text(encoding="utf-8")
            views = re.findall(rf"^impl\b[^{{]* Model for {sort.name}\b.*?^}}", text, re.MULTILINE | re.DOTALL)
            for view in views:
                shown = re.findall(r"ghost (?:Value|view|invariant) = (\{.*?\});$", view, re.MULTILINE | re.DOTALL)
                reached |= self.named(path, " ".join(shown))
            body = re.search(rf"\b(struct|enum|trait) {sort.name}\b(.*?)(?:^}}|^[^{{]*;$)", text, re.MULTILINE | re.DOTALL)
            if body and not views:
                reached |= self.of_fields(path, *body.groups())
        return reached

    def of_fields(self, path: pathlib.Path, kind: str, body: str) -> set[Found]:
        """The types of the fields of a type; of a trait all that it names."""
        bare = re.sub(r"//.*|^ +[A-Z]\w*" if kind == "enum" else r"//.*", "", body, flags=re.MULTILINE)
        if kind == "trait":
            return self.named(path, bare)
        names = CAPITAL.findall(re.sub(r"ghost \w+:.*", "", bare))
        return {home for name in names if (home := self.home(path, name))}

    def of_function(self, path: pathlib.Path, function: str, clauses: Sequence[str] = ()) -> set[Found]:
        """What the contract of a function rests on: what it requires, and all it ensures or the clauses that are named."""
        text = re.sub(r"//.*", "", path.read_text(encoding="utf-8"))
        head = re.search(rf"^( *)pub fn {function}\b(.*?)^\1\{{", text, re.MULTILINE | re.DOTALL)
        if not head:
            raise LookupError(f"{path}: no function {function}")
        signature, *contract = re.split(r"^ *(?=requires|ensures)", head.group(2), flags=re.MULTILINE)
        heads = [(kind, name) for clause in contract for kind, name in re.findall(r"\A(requires|ensures)\s+(\w*)", clause)]
        missing = set(clauses) - {name for _, name in heads}
        if missing:
            raise LookupError(f"{path}: {function} has no clause {missing}")

        def is_kept(kind, name):
            return kind == "requires" or not clauses or name in clauses

        kept = [text for text, head in zip(contract, heads, strict=True) if is_kept(*head)]
        before = text[: head.start()]
        owner = re.findall(r"^impl\b.*?\{$", before, re.MULTILINE | re.DOTALL)[-1:] if head.group(1) else []
        asked = without_silent_bounds(signature, " ".join(kept))
        names = {name for part in [asked, *owner, *kept] for name in CAPITAL.findall(part)}
        return {home for name in names if (home := self.home(path, name))} | self.named(path, " ".join(kept))

    def reach(self, begin: Iterable[Found]) -> Reach:
        """All that is reached from some definitions and types."""
        waiting, met = list(begin), set()
        while waiting:
            it = waiting.pop()
            if it in met:
                continue
            met.add(it)
            if isinstance(it, Item):
                waiting.extend(self.named(it.file, "\n".join(it.lines)))
            elif isinstance(it, Sort):
                waiting.extend(self.of_type(it))
        return Reach(
            frozenset(item for item in met if isinstance(item, Item)),
            frozenset(item for item in met if isinstance(item, Sort)),
            frozenset(item for item in met if isinstance(item, str)),
        )
