"""Wrong bodies: the edits that make them, the functions that they fall into, the rounds in which they are tried together,
and what a check's lines say of each.

An edit is a table of a crate's wrong.toml, by its name: a file, the old text, which stands in that file exactly once, and
the new one; or a list `changes` of several such. What `rt must-fail` reads is a file of lines 'file: src/a.rt' and pairs
'old: TEXT' and 'new: TEXT'.
"""
import functools
import os
import re
import tomllib
from typing import NamedTuple

from crates import TOP


class Function(NamedTuple):
    """Where a function's text lies."""

    # its name below the crate, as a check prints it
    path: str
    owner: str
    name: str
    # where its first line begins, and its body, from the opening brace
    head: int
    at: int
    end: int
    # the functions of a cycle are proved together
    cycle: str


class Change(NamedTuple):
    """A pair of an edit: in `file` the text `old` becomes `new`."""

    file: str
    old: str
    new: str


class Edit(NamedTuple):
    """What is changed, and whole new files, each with its text."""

    name: str
    changes: tuple[Change, ...]
    files: tuple[tuple[str, str], ...] = ()


class BadEdit(Exception):
    """The edit cannot be tried, and why."""


def is_of_crate(file):
    """The path is that of a file which a check of the crate reads."""
    return os.path.normpath(file) == file and file.startswith(("src/", "specs/", "proofs/"))


def change_of(row):
    """The change that a table, or a row of its list, describes."""
    if not isinstance(row, dict) or set(row) != {"file", "old", "new"} or not all(isinstance(item, str) for item in row.values()):
        raise BadEdit("it has no file, old and new, each a text, and nothing else")
    if not is_of_crate(row["file"]):
        raise BadEdit("its file is none below src/, specs/ or proofs/")
    if not row["old"] or "\n" in row["old"] + row["new"]:
        raise BadEdit("its old text is empty, or a text has more than one line")
    return Change(**row)


def edits_in(text):
    """The edits of a wrong.toml, and what is wrong with others, by their names."""
    good, bad = [], {}
    for name, table in tomllib.loads(text).items():
        try:
            if not re.fullmatch(r"[A-Za-z0-9_-]+", name):
                raise BadEdit("an edit's name is of letters, digits, _ and -")
            rows = table["changes"] if isinstance(table, dict) and set(table) == {"changes"} else [table]
            if not isinstance(rows, list) or not rows:
                raise BadEdit("its list of changes is none, or empty")
            good.append(Edit(name, tuple(change_of(row) for row in rows)))
        except BadEdit as why:
            bad[name] = str(why)
    return good, bad


def must_fail_text(edit):
    """The text of the file by which `rt must-fail` tries an edit."""
    return "".join(f"file: {change.file}\nold: {change.old}\nnew: {change.new}\n" for change in edit.changes)


def edits_of(name):
    """A crate's edits, and what is wrong with others, by their names."""
    path, good, bad = f"{TOP}/crates/{name}/wrong.toml", [], {}
    try:
        if os.path.isfile(path):
            with open(path, encoding="utf-8") as file:
                good, bad = edits_in(file.read())
    except (OSError, UnicodeDecodeError, tomllib.TOMLDecodeError) as why:
        bad["wrong.toml"] = str(why)
    return good, {it: f"BAD EDIT: {why}" for it, why in bad.items()}


def has_edits(name):
    """The crate has some."""
    return os.path.isfile(f"{TOP}/crates/{name}/wrong.toml")


def applied(edit, texts):
    """The texts of a crate's files with the edit in them. Each old text must stand in its file exactly once."""
    made = dict(texts)
    for change in edit.changes:
        if change.file not in made:
            raise BadEdit(f"there is no file {change.file}")
        found = made[change.file].count(change.old)
        if found != 1:
            raise BadEdit(f"an 'old:' text is in {change.file} {found} times, and not once")
        made[change.file] = made[change.file].replace(change.old, change.new)
    if made == texts:
        raise BadEdit("it changes nothing")
    made.update(edit.files)
    return made


FN = re.compile(r"( *)(?:pub(?:\([a-z ]+\))? )?(?:(?:const|unsafe) )*fn (\w+)")
IMPL = re.compile(r"( *)(?:unsafe )?impl\b(.*)")
TRAIT = re.compile(r"( *)(?:pub(?:\([a-z ]+\))? )?trait (\w+)")
CYCLE = re.compile(r" *#\[cycle\((\w+)\)\]")


def parted(text):
    """What stands outside of < and > in a text, and each part between commas in its first outermost pair of them."""
    outside, parts, depth, is_first = "", [""], 0, True
    for at, letter in enumerate(text):
        if letter == ">" and text[at - 1 : at] != "-":
            depth -= 1
            is_first = is_first and depth > 0
        elif letter == "<":
            depth += 1
        elif not depth:
            outside += letter
        if depth and is_first and (letter != "<" or depth > 1):
            if letter == "," and depth == 1:
                parts.append("")
            else:
                parts[-1] += letter
    return outside, [part.strip() for part in parts if part.strip()]


def last_word(text):
    return (re.findall(r"\w+", parted(text)[0]) or [""])[-1]


def owner_of(header):
    """What a check calls the methods of an impl whose header goes on so: the type, the trait, and the types that the trait is
    of, as PairFromVec."""
    words = re.split(r" where |\{", header.strip())[0].strip()
    own = []
    if words.startswith("<"):
        own = [last_word(part.partition(":")[0]) for part in parted(words)[1]]
        depth = 0
        for at, letter in enumerate(words):
            depth += (letter == "<") - (letter == ">" and words[at - 1] != "-")
            if not depth:
                words = words[at + 1 :].strip()
                break
    trait, _, type_ = words.rpartition(" for ")
    of = [last_word(part) for part in parted(trait)[1] if not part.startswith(("'", "("))]
    return last_word(type_) + last_word(trait) + "".join(argument for argument in of if argument not in own)


def module_of(file):
    """The path of a source file's module below the crate."""
    path = file[len("src/") : -len(".rt")].replace("/", "::")
    path = "" if path in ("lib", "main") else path
    return path[: -len("::mod")] if path.endswith("::mod") else path


def body_at(lines, first, indent):
    """The line on which the body of the function of line `first` opens, or None."""
    for at in range(first, len(lines)):
        line = lines[at]
        if line and not line.startswith(indent):
            # the trait ends here
            return None
        inner = line[len(indent) :]
        if at > first and inner == "{":
            return at
        is_head = inner and not inner.startswith(" ")
        if is_head and inner.endswith(("{", "}")):
            return at
        if is_head and (inner.endswith(";") or at > first and not inner.startswith((">", ")", "where"))):
            return None
    return None


def functions_of(file, text, types=None):
    """The functions of a source file as rt fmt leaves it: a body ends with the brace that stands under its first line. A
    method of a type itself bears the path of the type's module."""
    lines, module, found = text.split("\n"), module_of(file), []
    starts = [0]
    for line in lines:
        starts.append(starts[-1] + len(line) + 1)
    owner, owner_indent, cycle = "", None, None
    for at, line in enumerate(lines):
        if owner_indent is not None and line == owner_indent + "}":
            owner, owner_indent = "", None
        head = IMPL.match(line) or TRAIT.match(line)
        if head and owner_indent is None and not line.rstrip().endswith("}"):
            # a header may go on over several lines
            whole = " ".join(lines[at : at + 8])[len(head[1]) :]
            is_impl = bool(IMPL.match(line))
            owner = owner_of(re.sub(r"\A(?:unsafe )?impl\b", "", whole)) if is_impl else head[2]
            owner_indent = head[1]
        named = CYCLE.match(line)
        cycle = named[1] if named else cycle
        fn = FN.match(line)
        if not fn:
            continue
        opens = body_at(lines, at, fn[1])
        if opens is not None:
            begin = starts[opens] + lines[opens].index("{")
            closing = opens
            if lines[opens].endswith("{"):
                ends = [number for number in range(opens, len(lines)) if lines[number] == fn[1] + "}"]
                closing = ends[0] if ends else opens
            inside = owner if owner_indent is not None and len(fn[1]) > len(owner_indent) else ""
            home = (types or {}).get(inside, module)
            path = "::".join(item for item in (home, inside, fn[2]) if item)
            key = f"{module}+{cycle}" if cycle else ""
            found.append(Function(path, inside, fn[2], starts[at], begin, starts[closing] + len(lines[closing]), key))
        cycle = None
    return found


def types_of(file, text):
    """The modules of the types that a source file declares, by the types' names."""
    return {match: module_of(file) for match in re.findall(r"(?m)^ *(?:pub(?:\([a-z ]+\))? )?(?:struct|enum) (\w+)", text)}


class Crate:
    """The texts of a crate's files and the functions in them."""

    def __init__(self, name, texts):
        self.name, self.texts = name, texts
        self.functions, self.of_file = {}, {}
        sources = {file: text for file, text in sorted(texts.items()) if file.startswith("src/") and file.endswith(".rt")}
        self.types = {}
        for file, text in sources.items():
            self.types.update(types_of(file, text))
        for file, text in sources.items():
            self.of_file[file] = functions_of(file, text, self.types)
            for function in self.of_file[file]:
                # of two functions of one name a check's line does not tell which it means
                self.functions[function.path] = None if function.path in self.functions else function
        # functions for whose proofs rattle takes no hole
        self.whole = set()
        # a function whose proof is a hole may have no body either: then a hole can stand for each function of a cycle too
        self.has_stubs = True
        self.calls = {}
        for file, functions in self.of_file.items():
            for function in functions:
                self.calls[function.path] = self.called(function, texts[file][function.at : function.end])

    def called(self, function, body):
        """The crate's functions that a body may call, as far as their names tell."""
        owners = {each_function.owner for each_function in self.functions.values() if each_function and each_function.owner}
        found = set()
        for dot, prefix, name in re.findall(r"(\.?)(?:\b(\w+)::)?\b(\w+)\b", body):
            prefix = function.owner if prefix == "Self" else prefix
            for each_function in self.named.get(name, ()):
                if prefix in owners:
                    is_it = each_function.owner == prefix
                else:
                    is_it = bool(each_function.owner) == bool(dot)
                if is_it:
                    found.add(each_function.path)
        return found

    @functools.cached_property
    def named(self):
        """The functions of each name."""
        found = {}
        for function in self.functions.values():
            if function:
                found.setdefault(function.name, []).append(function)
        return found

    def reach(self, path):
        """The functions on whose proofs a function's may rest: those that it calls, all of a cycle that it calls, which have
        one proof, and what is behind one of them that keeps its proof."""
        found, left = set(), [path]
        while left:
            for call in self.calls.get(left.pop(), ()):
                for each in self.together(call) - found:
                    found.add(each)
                    left += [] if self.takes_hole(each) else [each]
        return found

    def together(self, path):
        """The function, and those that are in a cycle of calls with it."""
        function = self.functions.get(path)
        if not function or not function.cycle:
            return {path}
        return {
            each_function.path
            for each_function in self.functions.values()
            if each_function and each_function.cycle == function.cycle
        }

    def takes_hole(self, path):
        """A hole can stand for the function's proof: not where its body destructures a value that is dropped, nor, where
        it keeps its body, where it calls itself or is proved together with others."""
        function = self.functions.get(path)
        if not function or path in self.whole or (function.owner.endswith("Drop") and function.name == "drop"):
            return False
        return self.has_stubs or not function.cycle and path not in self.calls[path]

    def cycles(self):
        """The functions of each cycle of calls, by the folder of its proof files: that of their module, or of their type."""
        found = {}
        for function in self.functions.values():
            if function and function.cycle:
                module, _, name = function.cycle.rpartition("+")
                for home in {module, function.path.rpartition("::")[0]}:
                    folder = "/".join(["proofs", *filter(None, home.split("::")), f"+{name}"])
                    found.setdefault(folder, set()).update(self.together(function.path))
        return found

    def places(self, edit):
        """The functions into whose bodies the edit falls, or None where a part of it falls outside of bodies."""
        found, texts = set(), dict(self.texts)
        for change in edit.changes:
            text = texts.get(change.file, "")
            if text.count(change.old) != 1:
                return None
            at = text.index(change.old)
            functions = functions_of(change.file, text, self.types) if change.file in self.of_file else ()
            holds = [function for function in functions if function.at <= at and at + len(change.old) <= function.end]
            # the innermost
            if not holds or not self.functions.get(holds[-1].path):
                return None
            found.add(holds[-1].path)
            texts[change.file] = text.replace(change.old, change.new)
        return found


# the proof files that a function has in its own folder, where no other is declared beside them
OWN_PROOFS = {"Proof.antt", "Answers.antt", "Invariants.antt"}


def can_have_twin(crate, path):
    """A copy of the function under another name, with its proof files, is a function that nothing else tells apart from
    it: a free one or a method of a type itself, that calls not itself, has none inside, and no file of lemmas of its own."""
    function = crate.functions.get(path)
    if not function or function.cycle or path in crate.whole or path == "main":
        return False
    if function.owner and function.owner not in crate.types:
        return False
    file, text = next((file, crate.texts[file]) for file, found in crate.of_file.items() if function in found)
    inside = [each_function for each_function in crate.of_file[file] if function.head < each_function.head < function.end]
    before = r"\b(?:Self::|self\.)" if function.owner else r"(?<![\w.:])"
    is_again = re.search(rf"{before}{function.name}(?:::<[^()]*>)?\(", text[function.at : function.end])
    folder = "proofs/" + path.replace("::", "/")
    own = {file[len(folder) + 1 :] for file in crate.texts if file.startswith(f"{folder}/")}
    is_plain = own <= OWN_PROOFS and f"{folder}.antt" not in crate.texts
    return is_plain and not inside and not is_again and text.count(text[function.head : function.end]) == 1


def attributes_above(text, head):
    """The attributes of a function whose first line begins at `head`: the lines above it up to a comment, a blank line, or
    what ends another item."""
    above = text[:head].split("\n")[:-1]
    first = len(above)
    while first and above[first - 1].strip() and not re.search(r"^\s*//|[;{}]$", above[first - 1]):
        first -= 1
    return "".join(f"{line}\n" for line in above[first:])


def twin(crate, path, number, edit=None):
    """An edit that adds a copy of a function beside it, changed as the given edit changes the function, and the copy's path."""
    function = crate.functions[path]
    file = next(file for file, found in crate.of_file.items() if function in found)
    name, text = f"{function.name}_twin_{number}", crate.texts[file]
    whole = text[function.head : function.end]
    changed = whole
    if edit:
        after = len(text) - function.end
        edited = applied(edit, crate.texts)[file]
        changed = edited[function.head : len(edited) - after]
    copied = re.sub(rf"\bfn {function.name}\b", f"fn {name}", changed, count=1)
    dotted, folder = path.replace("::", "."), "proofs/" + path.replace("::", "/")
    files = []
    for at, proof in crate.texts.items():
        if at.startswith(f"{folder}/"):
            theorem = rf"\b(Rattle\.{crate.name}\.(?:proofs|specs\.contracts)\.{re.escape(dotted)})\b(?!\.\w+_twin_)"
            proof = re.sub(theorem, rf"\1_twin_{number}", proof)
            proof = re.sub(rf"\b{function.name}_spec\b", f"{name}_spec", proof)
            files.append((f"{folder}_twin_{number}{at[len(folder):]}", proof))
    change = Change(file, whole, f"{whole}\n\n{attributes_above(text, function.head)}{copied}")
    return Edit(edit.name if edit else name, (change,), tuple(files)), f"{path}_twin_{number}"


def next_round(crate, left, places, first=frozenset(), unedited=()):
    """Chooses from the edits that are left those of one round: at most one a function and a cycle, none in a function that
    comes by calls to another one that is edited, as far as names tell; and each applies beside the others. Those in the
    functions `first` are chosen before others, and none in one to which those that are tried `unedited` come. Returns them
    and the crate's texts with all of them."""
    many = {}
    for edit in left:
        for path in places[edit.name]:
            many[path] = many.get(path, 0) + 1
    order = sorted(left, key=lambda edit: (not places[edit.name] <= first, -max(many[path] for path in places[edit.name])))
    chosen, texts, taken, cycles = [], dict(crate.texts), set(), set()
    reached = set().union(*(crate.reach(path) for path in unedited))
    for edit in order:
        own = places[edit.name]
        own_cycles = {crate.functions[path].cycle for path in own} - {""}
        below = set().union(*(crate.reach(path) for path in own)) - own
        if own & taken or own_cycles & cycles or own & reached or below & taken:
            continue
        try:
            texts = applied(edit, texts)
        except BadEdit:
            continue
        chosen.append(edit)
        taken |= own
        cycles |= own_cycles
        reached |= below
    return chosen, texts


def lines_of(said):
    """What a check says of each function, by its whole name."""
    return dict(re.findall(r"(?m)^fn (\S+): (.*)$", said))


def names_in(line):
    """The functions and modules that a function's line names."""
    return [match for match in re.findall(r"`([^`]*)`", line) if "::" in match or match.startswith("Rattle.")]


PASSED = re.compile(r"(proved|no holes|depends on a hole in .*)\Z")
# what a function's line says where a goal of its own failed
OWN_GOAL = re.compile(r"`search` did not prove `|it stands on `")


def is_own(crate, function, name):
    """The name is of the function itself, of a closure in it or of its own proof, which functions of one cycle share."""
    if function.cycle:
        together = [
            each_function for each_function in crate.functions.values() if each_function and each_function.cycle == function.cycle
        ]
    else:
        together = [function]
    for each_function in together:
        module = each_function.path.rpartition("::")[0]
        if each_function.owner:
            module = module.rpartition("::")[0]
        inner = each_function.path[len(module) :].removeprefix("::")
        closures = "::".join(word for word in (crate.name, module, "fn", inner) if word) + "::"
        if name == f"{crate.name}::{each_function.path}" or name.startswith(closures):
            return True
        for path in (f"{crate.name}::{each_function.path}::", closures):
            if name.startswith(f"Rattle.{crate.name}.proofs." + path[len(crate.name) + 2 :].replace("::", ".")):
                return True
    module, _, cycle = function.cycle.rpartition("+")
    home = ".".join(word for word in (f"Rattle.{crate.name}.proofs", module.replace("::", "."), f"+{cycle}") if word)
    return bool(cycle) and name.startswith(f"{home}.")


def is_sound(crate, edited, name, lines):
    """The name is of a function that is not edited and lacks nothing but holes' proofs, or of an impl of such functions."""
    told = {it: line for it, line in lines.items() if it == name or it.startswith(f"{name}::")}

    def is_edited(it):
        return it.removeprefix(f"{crate.name}::") in edited

    return bool(told) and all(PASSED.match(line) and not is_edited(it) for it, line in told.items())


def verdict(crate, path, lines, edited, has_open_goal=False):
    """What a check's lines say of one of the edited functions: 'refused' where its own goal failed and none is named beside
    it but functions that are not edited and lack nothing but holes' proofs, 'proved', or 'unsettled'. A note of the check
    may tell of an open goal that the function's line doesn't name."""
    function = crate.functions[path]
    own = {name: it for name, it in lines.items() if is_own(crate, function, name)}
    failed = [item for item in own.values() if re.match(r"(not proved|no proof)\b", item)]
    for line in failed:
        others = [name for name in names_in(line) if not is_own(crate, function, name)]
        # with no goal named, what failed is the call of another
        if all(is_sound(crate, edited, name, lines) for name in others) and (
            not others or has_open_goal or OWN_GOAL.search(line)
        ):
            return "refused"
    return "proved" if PASSED.match(lines.get(f"{crate.name}::{path}", "")) and not failed else "unsettled"


# a proof file that names what the edit took away, and what cites that proof, as rt must-fail tells it
NAMES = re.compile(r"(\./)?proofs/.*(has no field|is not in scope|has no `|was not admitted)")
NOTE = re.compile(r"(?:note: )?(\S+):\d+:\d+:")
# what an error says where a text can't be read
UNREAD = re.compile(r"is not in scope|has no field|is no name|operand is missing|expected the end|cannot continue")


def unread(line, changed):
    """The line says that a text of src/, of specs/ or of a changed file could not be read, so that no contract was tried."""
    at = re.match(r"(?:\./)?(\S+?):\d+:\d+: error: (?:(`[^`]*`): )?(.*)", line)
    if not at or at[1] not in changed and not at[1].startswith(("src/", "specs/")):
        return False
    return not at[2] or bool(UNREAD.search(re.sub(r"`[^`]*`", "", at[3])))


def told_by_names_alone(lines):
    """All that a check's lines tell is that proof files name what an edit took away: this says little of the contract."""
    told = [line for line in lines if NOTE.match(line)]
    told = [line for line in told if ": error" in line or line.startswith("note: ")] or told
    return bool(told) and all(NAMES.match(line) for line in told)


def line_at(text, at):
    """The number of the line in which a place lies."""
    return text.count("\n", 0, at) + 1


def own_lines(crate, path, text, file, lines):
    """The lines of a check that tell of places in an edited function's body, or in its own proof files."""
    here = [function for function in functions_of(file, text, crate.types) if function.path == path]
    folder = "proofs/" + path.replace("::", "/") + "/"
    found = []
    for line in lines:
        at = re.match(r"(?:note: )?(?:\./)?(\S+?):(\d+):\d+:", line)
        if not at:
            continue
        if at[1].startswith(folder):
            found.append(line)
        elif at[1] == file and any(
            line_at(text, function.head) <= int(at[2]) <= line_at(text, function.end) for function in here
        ):
            found.append(line)
    return found


def has_open_goal(lines):
    """A check's lines tell of a goal that is not proved."""
    return any(re.match(r"note: \S+:\d+:\d+: it is not proved that ", line) for line in lines)
