"""The text of the program's module, which was lowered for x86-64, for wasm32, where pointers have 32 bits.

Each place in memory that holds a pointer keeps its 8 bytes: a pointer is stored as a number of 64 bits, and read as one. So
all sizes and offsets that the toolchain wrote into the module stay right. Only what stands in a register gets narrower.
A form that isn't known here is refused. The module must not be optimised before: where pointers have 64 bits the optimiser
carries numbers in them, and they wouldn't fit.
"""
import re
from collections.abc import Iterator

from rewriting import CALLS, PAUSE, NotRewritten, targeted, with_shims, without_attributes

LAYOUT = "e-m:e-p:32:32-p10:8:8-p20:8:8-i64:64-i128:128-n32:64-S128-ni:1:10:20"

LOAD = re.compile(r"  (%\S+) = load (volatile )?ptr, (ptr .*?)(, align \d+)?(, !.*)?")
STORE = re.compile(r"  store (volatile )?ptr (.+), (ptr (?:%\S+|@\S+|@\"[^\"]*\"))(, align \d+)?")
# a pair that has a pointer
LOAD_OF_PAIR = re.compile(r"  (%\S+) = load (\{[^}]*\bptr\b[^}]*\}), ptr ([^,]+)(, align (\d+))?(, !.*)?")
# whatever reads, writes or measures memory by a type
BY_TYPE = re.compile(
    r"  (?:%\S+ = )?(?:load|store|alloca|getelementptr(?: inbounds| nuw| nusw)*)(?: volatile| atomic)*"
    r" (\{.*?\}|\[.*?\]|<.*?>|\w+)"
)
EXCHANGE = re.compile(r" (cmpxchg( weak)?( volatile)?|atomicrmw( volatile)? \w+) ptr [^,]+, ptr ")
# many pointers in one value; a number of 64 bits that goes as a pointer; memory that a call hands over by its type; and a place
# in a constant that another type than a number's measures
TYPED = r" x ptr\b", r"byval\(", r"sret\(", r"inalloca\(", r"elementtype\("
FORMS = [re.compile(form) for form in (*TYPED, r"inttoptr\b", r"getelementptr[\w ]* \((?!i\d+, )")]
# a type that has a pointer, or parts that have parts
WIDER = re.compile(r"ptr|[{[<].*[{[<]")
POINTER = re.compile(r"\bptr\b")
CONSTANT = re.compile(r"(@.*? (?:constant|global) )<\{ (.*?) \}> <\{ (.*)")
POINTER_VALUE = re.compile(r'\bptr (?:getelementptr \(i8, ptr (?:@"[^"]*"|@[\w.]+), i64 \d+\)|@"[^"]*"|@[\w.]+|null)')
# a text holds no pointer
TEXT = re.compile(r'(c"[^"]*")')
# picks bytes of the first vector by the second; its declaration stands by itself
PICKS = r"<16 x i8> @llvm\.x86\.ssse3\.pshuf\.b\.128\("
PICK = re.compile(rf"(?m)^  (%\S+) = (?:tail )?call {PICKS}<16 x i8> (.+), <16 x i8> (.+)\).*$")
DECLARED_PICK = re.compile(rf"(?m)^declare {PICKS}.*$")
# of a number above 127 x86 gives 0, and of any other it takes the last 4 bits; wasm gives 0 above 15
BITS_OF_PICK = -113
# how much of a line is shown that isn't known
SHOWN = 300


def padded(line: str) -> str:
    """A constant, with each pointer in it padded to 8 bytes."""
    found = CONSTANT.fullmatch(line)
    if not found:
        raise NotRewritten(f"a constant with pointers: {line[:SHOWN]}")
    head, types, values = found.groups()
    parts = TEXT.split(values)
    parts[::2] = [POINTER_VALUE.sub(r"\g<0>, i32 0", part) for part in parts[::2]]
    return f"{head}<{{ {POINTER.sub('ptr, i32', types)} }}> <{{ {''.join(parts)}"


def read_member(name: str, kind: str, at: str, offset: int, align: str) -> Iterator[str]:
    """Reads a member of a pair, which stands so many bytes behind its beginning."""
    place = at
    if offset:
        place = f"{name}.at"
        yield f"  {place} = getelementptr i8, ptr {at}, i64 {offset}"
    if kind == "ptr":
        yield f"  {name}.wide = load i64, ptr {place}, align {align}"
        yield f"  {name} = inttoptr i64 {name}.wide to ptr"
    elif kind == "i64":
        yield f"  {name} = load i64, ptr {place}, align {align}"
    else:
        yield f"  {name} = load {kind}, ptr {place}"


def read_pair(name: str, kind: str, at: str, align: str) -> Iterator[str]:
    """Reads a pair that has a pointer, member by member."""
    first, second = kind.strip("{} ").split(", ")
    yield from read_member(f"{name}.a", first, at, 0, align)
    yield from read_member(f"{name}.b", second, at, 16 if "i128" in kind else 8, align)
    yield f"  {name}.one = insertvalue {kind} poison, {first} {name}.a, 0"
    yield f"  {name} = insertvalue {kind} {name}.one, {second} {name}.b, 1"


def narrowed(line: str, number: int) -> Iterator[str]:
    """The lines that stand for a line about pointers. The number makes a name that no other line makes."""
    if line.startswith("@"):
        yield padded(line) if POINTER.search(TEXT.sub("", line)) else line
    elif found := LOAD.fullmatch(line):
        name, volatile, at, align, _ = found.groups()
        yield f"  {name}.wide = load {volatile or ''}i64, {at}{align or ''}"
        yield f"  {name} = inttoptr i64 {name}.wide to ptr"
    elif found := LOAD_OF_PAIR.fullmatch(line):
        name, kind, at, _, align, _ = found.groups()
        yield from read_pair(name, kind, at, align or "1")
    elif found := STORE.fullmatch(line):
        volatile, what, at, align = found.groups()
        yield f"  %wide.{number} = ptrtoint ptr {what} to i64"
        yield f"  store {volatile or ''}i64 %wide.{number}, {at}{align or ''}"
    else:
        line = line.replace("alloca ptr", "alloca i64").replace(" ptrtoaddr ", " ptrtoint ")
        if (found := BY_TYPE.match(line)) and WIDER.search(found[1]) or EXCHANGE.search(line):
            raise NotRewritten(line[:SHOWN])
        yield line


def with_picks(text: str) -> str:
    """Has the instruction of wasm pick bytes of a vector in place of that of x86, and the same ones."""
    bits = ", ".join([f"i8 {BITS_OF_PICK}"] * 16)
    by = rf"  \1.by = and <16 x i8> \3, <{bits}>\n"
    text = PICK.sub(by + r"  \1 = call <16 x i8> @llvm.wasm.swizzle(<16 x i8> \2, <16 x i8> \1.by)", text)
    return DECLARED_PICK.sub("declare <16 x i8> @llvm.wasm.swizzle(<16 x i8>, <16 x i8>)", text)


def refuse_forms(text: str) -> None:
    """Refuses a module that has one of the forms for which nothing else looks."""
    bare = TEXT.sub("", text)
    for form in FORMS:
        if found := form.search(bare):
            raise NotRewritten(bare[bare.rfind("\n", 0, found.start()) + 1 :][:SHOWN])


def for_wasm32(text: str) -> str:
    refuse_forms(text)
    text = targeted(PAUSE.sub("", text), "wasm32-unknown-wasi", LAYOUT)
    text = without_attributes(text, "target-cpu", "probe-stack", "stack-probe-size", "frame-pointer")
    text = with_picks(text)
    text = with_shims(text, f"main|malloc|free|_exit|abort|{CALLS}")
    lines: list[str] = []
    for number, line in enumerate(text.split("\n")):
        if "ptr" in line:
            lines.extend(narrowed(line, number))
        else:
            lines.append(line)
    return "\n".join(lines)
