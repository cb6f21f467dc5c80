"""What the pages show is so: those of the top folder, docs/, examples/, schema/ and cases/.

Their blocks are run as `pages` tells. Each link to a file has to lead to one, and each link to a heading to that. Each
picture has the texts of what the command below it draws. Each line of docs/OUTPUT.md is also held against the cases of this
folder: each line that they expect is one of the page's, with its exit status.

verdicts/gallery.toml has what was worked out by hand of the bugs of docs/GALLERY.md. Each row of docs/IDIOMS.md leads to a
part of a page in which something is asked. Each command line of README.md is run.
"""
import collections
import pathlib
import re
import tomllib

import pytest

import pages
from harness import HERE, TOP, USAGE, Case, all_cases, slug

# cases that ask for help or the version write lines that docs/OUTPUT.md hasn't
HELP = {"--help", "-h", "help", "--version"}


OF_THE_TOP, OF_BUGS, OF_WORDS = "README.md", "docs/GALLERY.md", "docs/IDIOMS.md"
README, GALLERY, IDIOMS = ((TOP / page).read_text(encoding="utf-8") for page in (OF_THE_TOP, OF_BUGS, OF_WORDS))
# the last part of docs/GALLERY.md, which has no bug of its own
MORE = "More bugs, each with a page"
# the words that .NET developers search for first
SEARCHED = """WaitAsync Channel SemaphoreSlim Parallel.ForEachAsync Interlocked BackgroundService StopAsync IAsyncEnumerable
HttpClient Polly lock Timer TaskCompletionSource ConfigureAwait IAsyncDisposable Task.Yield""".split()
# command lines of README.md: in a text, and those that stand alone, without what is said of them
IN_TEXT = re.compile(r"(?<!`)`((?:tar|cd|cmd|taskgraph-csharp) [^`]+)`")
ALONE = re.compile(r"^    (\S[^#\n]*?) *(?:#.*)?$", re.MULTILINE)


@pytest.fixture(scope="module")
def desk(program, tmp_path_factory):
    return pages.Desk(program, tmp_path_factory.mktemp("pages"))


def on_pages(found):
    """What is found in the text of each page, by the page's name and its own."""
    for file in pages.pages():
        name = file.relative_to(TOP)
        for what, *more in found(file.read_text(encoding="utf-8")):
            yield pytest.param(*more, id=slug(f"{name}: {what[:60]}"))


def shown(text: str):
    """Each command of the console blocks, with what it writes."""
    for block in pages.blocks(text):
        if block.kind == "console":
            for command, answer in pages.commands(block.text):
                yield command.split("\n")[0], command, answer


def said(text: str):
    """Each answer that is said of a json block."""
    for block in pages.blocks(text):
        if block.kind == "json":
            for words, answer, finds in pages.SAYS.findall(block.below):
                yield f"{words} of {block.text}", block.text, words, answer, finds


def links():
    """Each link of a page to a file."""
    for file in pages.pages():
        for link in pages.LINK.findall(file.read_text(encoding="utf-8")):
            yield pytest.param(file.parent, link, id=slug(f"{file.relative_to(TOP)}: {link}"))


def lined_cases():
    """The cases whose lines are those of docs/OUTPUT.md; a picture's are those of docs/PICTURES.md, those of many documents
    have a number and an exit status in front, and verdicts as JSON or JUnit have a form of their own."""
    for case in all_cases():
        is_picture = case.command == "draw" and case.exit == 0
        is_formed = case.command == "verify" and "--as" in case.words
        is_plain = not is_picture and not is_formed and "--each" not in case.words
        if case.stdout is not None and case.exit != USAGE and not HELP & set(case.words) and is_plain:
            yield case


@pytest.mark.parametrize("command, answer", on_pages(shown))
def test_console(desk, command: str, answer: str):
    desk.check_shown(command, answer)


@pytest.mark.parametrize("snippet, words, answer, finds", on_pages(said))
def test_snippet(desk, snippet: str, words: str, answer: str, finds: str):
    desk.check_said(snippet, words, answer, finds)


@pytest.mark.parametrize("folder, link", links())
def test_link(folder: pathlib.Path, link: str):
    assert (folder / link).exists()


@pytest.mark.parametrize("name, command", pages.drawn().items())
def test_picture(desk, name: str, command: str):
    drawn = desk.shell(command)
    picture = (TOP / "docs/pictures" / name).read_text(encoding="utf-8")
    assert collections.Counter(pages.texts_of_svg(picture)) == collections.Counter(pages.texts_of_dot(drawn.stdout))


def test_each_picture_has_a_command():
    assert set(pages.drawn()) == {path.name for path in (TOP / "docs/pictures").glob("*.svg")}


@pytest.mark.parametrize("case", lined_cases(), ids=str)
def test_lines_of_case(case: Case):
    assert pages.ending(case.stdout or "", pages.known_rows(), case.command) == (case.exit, None)


# ---- what is said of claims, and links to headings


def judged(text: str):
    """Each json block of which it is said what `verify` says of its claims."""
    for block in pages.blocks(text):
        for said_of_all in pages.VERDICTS.findall(block.below) if block.kind == "json" else ():
            yield block.text, block.text, said_of_all


def anchors():
    """Each link to a heading, with the page on which it should be."""
    for file in pages.pages():
        for name, head in pages.ANCHOR.findall(file.read_text(encoding="utf-8")):
            page = file.parent / name if name else file
            yield pytest.param(page, head, id=slug(f"{file.relative_to(TOP)}: {name} {head}"))


@pytest.mark.parametrize("snippet, said_of_all", on_pages(judged))
def test_verdicts(program, snippet: str, said_of_all: str):
    given = pages.document(snippet)
    wanted = [claim.split()[2] for claim in said_of_all.split(", ")]
    assert said_of_all == ", ".join(f"claim {number} {verdict}" for number, verdict in enumerate(wanted, 1))
    assert pages.verdicts(program, given) == wanted
    assert pages.true_verdicts(given) == wanted


@pytest.mark.parametrize("page", ["docs/RECIPES.md", "docs/FROM-CSHARP.md"])
def test_each_document_is_asked(page: str):
    found = [block for block in pages.blocks((TOP / page).read_text(encoding="utf-8")) if block.kind == "json"]
    assert len(found) > 15
    assert [block.text for block in found if not pages.says_what_is_answered(block)] == []


@pytest.mark.parametrize("page, head", anchors())
def test_anchor(page: pathlib.Path, head: str):
    assert head in {section.anchor for section in pages.sections(page.read_text(encoding="utf-8"))}


# ---- docs/GALLERY.md

BUGS = tomllib.loads((HERE / "verdicts/gallery.toml").read_text(encoding="utf-8"))["bug"]


def test_each_bug_was_decided():
    heads = [section.head for section in pages.sections(GALLERY) if section.level == 2]
    assert heads == [*(bug["title"] for bug in BUGS), MORE]


@pytest.mark.parametrize("bug", BUGS, ids=lambda bug: slug(bug["title"]))
def test_bug(program, bug: dict):
    """The document with the bug, and the repaired one: their claims are those that were decided, and so are the verdicts."""
    (section,) = (section for section in pages.sections(GALLERY) if section.head == bug["title"])
    documents = [pages.document(text) for text in pages.HANDED.findall(section.text)]
    assert len(documents) == 2
    for document, which in zip(documents, ("wrong", "repaired")):
        assert [claim["name"] for claim in document["claims"]] == [claim["name"] for claim in bug["claims"]]
        wanted = [claim[which] for claim in bug["claims"]]
        assert pages.verdicts(program, document) == wanted
        assert pages.true_verdicts(document) == wanted


def code(text: str) -> list[str]:
    """C# without its indentation."""
    return [line.strip() for line in text.splitlines() if line.strip()]


def test_code_of_the_gallery():
    """It is that of the sample, which the tests of the library compile, and those of the reader read."""
    whole = code((TOP / "dotnet/samples/Gallery.cs").read_text(encoding="utf-8"))
    shown = [code(block.text) for block in pages.blocks(GALLERY) if block.kind == "csharp"]
    assert len(shown) == 1 + 2 * len(BUGS)
    for block in shown:
        assert any(whole[place : place + len(block)] == block for place in range(len(whole))), block


# ---- docs/IDIOMS.md


def idioms() -> list[list[str]]:
    """The cells of each row of the page."""
    lines = [line for line in IDIOMS.splitlines() if line.startswith("| ") and not line.startswith("| C# ")]
    return [[cell.strip() for cell in line.strip("|").split(" | ")] for line in lines]


def is_shown(link: str) -> bool:
    """A link of the page leads to something that the tests ask."""
    name, _, head = link.partition("#")
    text = (TOP / "docs" / name).read_text(encoding="utf-8")
    parts = [section.text for section in pages.sections(text) if section.anchor == head] if head else [text]
    return any(map(pages.is_asked, parts))


def test_each_word_leads_to_what_is_asked():
    assert len(idioms()) > 50
    for cells in idioms():
        assert len(cells) == 4, cells
        links = re.findall(r"\]\(([^)]+)\)", cells[1])
        assert any(map(is_shown, links)), cells


@pytest.mark.parametrize("word", SEARCHED)
def test_a_word_that_is_searched_has_a_row(word: str):
    assert [cells for cells in idioms() if re.search(rf"(?<![\w.]){re.escape(word)}\b", cells[0])]


# ---- the command lines of README.md


def readme_lines() -> list[str]:
    """The command lines outside of console blocks, in order."""
    return [*IN_TEXT.findall(README), *ALONE.findall(pages.FENCE.sub("", README))]


def test_lines_of_readme_are_known():
    """They unpack the archive, ask the program or the reader, and test and prove what they are about."""
    known = r"tar -xzf .+|cd .+|cmd /c .+|taskgraph-csharp .+|\./taskgraph .+|\./test"
    assert readme_lines() and [line for line in readme_lines() if not re.fullmatch(known, line)] == []


def test_the_archive_of_readme_is_unpacked(program, desk, tmp_path):
    """The two lines that unpack the archive, in a folder with the like of it, lead to the program."""
    unpack, enter = (line for line in readme_lines() if line.startswith(("tar ", "cd ")))
    name = enter.removeprefix("cd ")
    (tmp_path / name).mkdir()
    (tmp_path / name / "taskgraph").symlink_to(program.path)
    made = desk.shell(f"cd {tmp_path} && tar -czhf {unpack.split()[-1]} {name} && rm -r {name} && {unpack} && {enter} && ls")
    assert made.stdout == "taskgraph\n", made


def asking_lines() -> list[str]:
    """The lines that ask the program; one for Windows as a shell here has it."""
    windows = [line.removeprefix('cmd /c "').rstrip('"').replace("\\", "/") for line in readme_lines() if line.startswith("cmd ")]
    return [f"./{line}" for line in windows] + [line for line in readme_lines() if line.startswith("./taskgraph ")]


@pytest.mark.parametrize("line", asking_lines(), ids=slug)
def test_line_of_readme(desk, line: str):
    ended = desk.shell(line)
    assert ended.returncode == 0 and re.search(r"^claims \d+, holds \d+, fails 0,", ended.stdout, re.MULTILINE), ended


@pytest.mark.parametrize("words, begin", [("verify --as html", "<!doctype html>"), ("refute | ./taskgraph draw", "flowchart")])
def test_the_bug_of_readme_as_a_picture(desk, words: str, begin: str):
    """What is said below the run of the first claim: with these words in place of `verify` it is a page, or a picture."""
    assert f"`{words.replace('./taskgraph ', '')}`" in README
    command, _ = next(pages.commands(block.text)[0] for block in pages.blocks(README) if block.kind == "console")
    assert desk.shell(re.sub(r"verify$", words, command.strip())).stdout.startswith(begin)
