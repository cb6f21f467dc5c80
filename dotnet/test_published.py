"""Tests what is published of the library of this folder: its package, its comments, and the C# of its pages."""
import re
import shutil
import subprocess
import xml.etree.ElementTree
import zipfile

import pytest

from mono import HERE, TOP, compiled, hold, library

# the package


def packed(folder, *words):
    """The package as it is made into a folder of its own."""
    folder.mkdir()
    subprocess.run([HERE / "pack", *words, folder], stdin=subprocess.DEVNULL, capture_output=True, check=True)
    (file,) = folder.glob("TaskGraph.Recorder.*")
    return file


def of_package(suite):
    """The package is the same twice, has the version, and its sources compile alone."""
    first, second = packed(suite.folder / "first"), packed(suite.folder / "second")
    version = (TOP / "VERSION").read_text(encoding="utf-8").strip()
    yield "the package twice", None if first.read_bytes() == second.read_bytes() else "its bytes differ"
    expected = f"TaskGraph.Recorder.{version}.nupkg"
    yield "the package's name", None if first.name == expected else f"{first.name}, not {expected}"
    folder = suite.folder / "unpacked"
    shutil.unpack_archive(first, folder, "zip")
    manifest = xml.etree.ElementTree.parse(folder / "TaskGraph.Recorder.nuspec")
    sources = [folder / "contentFiles" / element.get("include") for element in manifest.iterfind(".//{*}contentFiles/{*}files")]
    same = manifest.findtext(".//{*}version") == version
    yield "the package's version", None if same else "another one stands in its manifest"
    texts = {word: manifest.findtext(f".//{{*}}{word}") for word in ("license", "readme", "tags", "description")}
    yield "what the package says of itself", None if all(texts.values()) else f"{texts}"
    kept = {name: (folder / name).read_bytes() for name in ("LICENSE", "README.md")}
    same = kept == {"LICENSE": (TOP / "LICENSE").read_bytes(), "README.md": (HERE / "README.md").read_bytes()}
    yield "the package's licence and page", None if same else "they aren't those of the project"
    yield "the package's sources", None if len(sources) == len(library()) else f"{len(sources)} of {len(library())} files"
    main_file = folder / "Alone.cs"
    shutil.copy(HERE / "tests/alone.txt", main_file)
    journal = suite.ran(compiled(folder / "alone.exe", main_file, *sources))
    yield from of_brought(suite)
    acts = [line.split(" ", 1)[1] for line in journal.splitlines()]
    alone = ["begin Fetch", "worked Fetch done", "leave Fetch", "release Save", "begin Save", "worked Save done", "leave Save"]
    yield "the package alone", None if acts == alone else f"its journal is {journal!r}"


def of_brought(suite):
    """The package has the programs that it is given, where the library looks for them, and each file's kind is told."""
    words = [f"--program={runtime}={suite.program}" for runtime in ("win-x64", "linux-x64", "linux-arm64")]
    places = [
        "runtimes/linux-arm64/native/taskgraph",
        "runtimes/linux-x64/native/taskgraph",
        "runtimes/win-x64/native/taskgraph.exe",
    ]
    with zipfile.ZipFile(packed(suite.folder / "programs", *words)) as package:
        found = [name for name in package.namelist() if name.startswith("runtimes/")]
        yield "the package's programs", None if found == places else f"{found}, not {places}"
        same = all(package.read(item) == suite.program.read_bytes() for item in found)
        yield "the bytes of the package's programs", None if same else "they differ"
        kinds = xml.etree.ElementTree.fromstring(package.read("[Content_Types].xml"))
        endings = {f".{element.get('Extension')}" for element in kinds.iterfind("{*}Default")}
        named = {element.get("PartName") for element in kinds.iterfind("{*}Override")}
        parts = set(package.namelist()) - {"[Content_Types].xml"}
        lost = [part for part in parts if not part.endswith(tuple(endings)) and f"/{part}" not in named]
        yield "the kinds of the package's files", f"{lost} have none" if lost else None


# the pages


def code(text):
    """C# without its indentation."""
    return [line.strip() for line in text.splitlines() if line.strip()]


def holds(part, whole):
    """Whether some lines stand in a file, one after another."""
    return any(whole[place : place + len(part)] == part for place in range(len(whole) - len(part) + 1))


def of_pages(suite, tests):
    """The C# of the library's pages is that of the samples, which are compiled and run here; and the verdict that they show is
    the program's."""
    page = code((TOP / "docs/DOTNET.md").read_text(encoding="utf-8"))
    said = code(suite.ran(tests, "first-answer"))
    yield "docs/DOTNET.md: the verdict on the first release", None if said and holds(said, page) else f"the program says {said}"
    samples = [code(file.read_text(encoding="utf-8")) for file in sorted((HERE / "samples").glob("*.cs"))]
    for page in ("README.md", "docs/DOTNET.md", "dotnet/README.md"):
        text = (TOP / page).read_text(encoding="utf-8")
        for block in re.findall(r"^```csharp\n(.*?)^```$", text, re.MULTILINE | re.DOTALL):
            shown = code(block)
            found = any(holds(shown, sample) for sample in samples)
            yield f"{page}: {shown[0]}", None if found else "stands in no sample"
    constructs = (HERE / "samples/FromCSharp.cs").read_text(encoding="utf-8")
    page = (TOP / "docs/FROM-CSHARP.md").read_text(encoding="utf-8")
    for call in re.findall(r"With \[the library\]\([^)]*\): `([^`]*)`", page):
        yield f"docs/FROM-CSHARP.md: {call}", None if call in constructs else "stands in no sample"


def snippets(text):
    """The C# of docs/FROM-CSHARP.md, apart from the usings that it names."""
    blocks = re.findall(r"^```csharp\n(.*?)^```$", text, re.MULTILINE | re.DOTALL)
    return [block for block in blocks if not block.startswith("using")]


def declarations(text):
    """The calls of the library on that page, each behind what it names."""
    for line in re.findall(r"With \[the library\]\([^)]*\): (.*)", text):
        first, *others = re.findall(r"`([^`]*)`", line)
        # "where x is y" says what a name of the first call stands for; another call begins with a dot
        named = [f"var {name} = {value};" for name, value in re.findall(r"`(\w+)` is `([^`]*)`", line)]
        calls = [f"new Steps(){call};" if call.startswith(".") else f"{call};" for call in others if "(" in call]
        yield "\n".join(
            [
                *named,
                first if first.endswith(";") else f"{first};",
                *(it for it in calls if not any(it[:-1] in name for name in named)),
            ]
        )


def of_snippets(suite):
    """The C# of docs/FROM-CSHARP.md compiles as it stands, under the usings that the page names: a method that is written out as
    a method, and anything else in the body of one."""
    text = (TOP / "docs/FROM-CSHARP.md").read_text(encoding="utf-8")
    usings = re.findall(r"^```csharp\n(using.*?)^```$", text, re.MULTILINE | re.DOTALL)
    shown, declared = snippets(text), list(declarations(text))
    assert (len(usings), len(shown), len(declared)) == (2, 17, 16)
    members = [it if it.startswith("async Task") else f"void S{at}()\n{{\n{it}\n}}" for at, it in enumerate(shown)]
    calls = [f"void D{at}()\n{{\n{it}\n}}" for at, it in enumerate(declared)]
    folder = suite.folder / "snippets"
    folder.mkdir()
    (folder / "Shown.cs").write_text(usings[0] + "public abstract class Shown : Code\n{\n" + "\n".join(members) + "\n}\n")
    head = "public abstract class Declared : Declaring\n{\nprotected Declared(TaskGraphBuilder g)\n: base(g)\n{\n}\n"
    (folder / "Declared.cs").write_text(usings[0] + usings[1] + head + "\n".join(calls) + "\n}\n")
    words = ["mcs", "-langversion:7", "-warn:0", "-target:library", f"-out:{folder / 'snippets.dll'}", *map(str, library())]
    context = [*sorted((HERE / "tests/snippets").glob("*.cs")), *sorted(folder.glob("*.cs"))]
    made = subprocess.run([*words, *map(str, context)], stdin=subprocess.DEVNULL, capture_output=True, text=True, check=False)
    yield "the C# of docs/FROM-CSHARP.md", None if made.returncode == 0 else made.stdout + made.stderr


def of_comments(suite):
    """Each public member has its documentation."""
    words = ["mcs", "-langversion:7", "-warn:4", "-warnaserror", "-target:library", f"-doc:{suite.folder / 'library.xml'}"]
    made = subprocess.run(
        [*words, f"-out:{suite.folder / 'library.dll'}", *map(str, library())],
        stdin=subprocess.DEVNULL,
        capture_output=True,
        text=True,
        check=False,
    )
    yield "the documentation of the library", None if made.returncode == 0 else made.stdout + made.stderr


def of_api(suite, tests):
    """docs/API.md is what dotnet/document makes of the sources, and has each public member of each type."""
    page = (TOP / "docs/API.md").read_text(encoding="utf-8")
    made = subprocess.run([HERE / "document"], stdin=subprocess.DEVNULL, capture_output=True, text=True, check=True).stdout
    yield "docs/API.md", None if page == made else "it isn't what dotnet/document writes"
    parts = dict(re.findall(r"^### (\w+)\n(.*?)(?=^##|\Z)", page, re.MULTILINE | re.DOTALL))
    for name, count in (line.split("\t") for line in suite.ran(tests, "members").splitlines()):
        shown = len(re.findall(r"^(?:\*\*`|\| `)", parts.get(name, ""), re.MULTILINE))
        yield f"docs/API.md: {name}", None if shown == int(count) else f"{shown} members are shown, and there are {count}"


@pytest.mark.parametrize("looks", (of_comments, of_package, of_snippets), ids=lambda looks: looks.__name__)
def test_library(suite, looks):
    hold(looks(suite))


@pytest.mark.parametrize("looks", (of_pages, of_api), ids=lambda looks: looks.__name__)
def test_compiled(suite, tests, looks):
    hold(looks(suite, tests))
