"""schema/taskgraph.schema.json and the program agree on the documents of this folder, of examples/ and of the pages.

A document that `check` reads has to be valid. One that it answers with `unreadable: shape` has to be invalid, but for the
cases of UNSEEN: what the schema can't say. The validator is Debian's python3-jsonschema, which is installed if it is
missing and apt-get can; where it can't, nothing is tested, and that has failed.
"""
import importlib
import json
import sys

import pytest

import debian
import pages
from harness import TOP, all_cases, examples, slug

# shapes that are wrong and that no schema sees: JSON numbers have no notation, the last of two members counts, a text's
# length is that of its characters, and no number is compared with another
UNSEEN = {
    "a version with a fraction that is zero",
    "a version with an exponent",
    "a name of 51 letters in 101 bytes",
    "a name of 51 letters in 102 bytes",
    "a name of 34 letters in 101 bytes",
    "a time too few",
    "a journal with a time too few",
    "a time too many for lines that end with CR LF",
    "times of fewer lines",
    "a time too many",
    "times without a journal",
    "times that fall",
}


def jsonschema():
    """The module with the validator of this kind of schema, or None."""
    importlib.invalidate_caches()
    try:
        module = importlib.import_module("jsonschema")
    except ImportError:
        return None
    return module if hasattr(module, "Draft202012Validator") else None


@pytest.fixture(scope="module")
def validator():
    """The validator of the schema."""
    if jsonschema() is None and sys.executable == debian.PYTHON:
        debian.install("python3-jsonschema")
    module = jsonschema()
    assert module, "python3-jsonschema isn't there and can't be installed"
    schema = json.loads((TOP / "schema/taskgraph.schema.json").read_text(encoding="utf-8"))
    module.Draft202012Validator.check_schema(schema)
    return module.Draft202012Validator(schema)


def documents():
    """Each document with the name of its case and what it goes by."""
    for case in all_cases():
        if case.command and "--help" not in case.words:
            yield pytest.param(case.name, case.stdin, id=str(case))
    for file in examples():
        yield pytest.param(file.name, file.read_bytes(), id=file.stem)
    for page in pages.pages():
        for number, document in enumerate(pages.shown_documents(page.read_text(encoding="utf-8")), 1):
            name = f"{page.relative_to(TOP)} {number}"
            yield pytest.param(name, json.dumps(document).encode(), id=slug(name))


def value(text: bytes):
    """The JSON value that a text is, and whether it is one."""
    try:
        return json.loads(text.decode()), True
    except (UnicodeDecodeError, ValueError, RecursionError):
        return None, False


@pytest.mark.parametrize("name, text", documents())
def test_document(program, validator, name, text):
    document, is_json = value(text)
    if not is_json:
        return
    answer = program("check", given=text).stdout
    is_valid = validator.is_valid(document)
    if not answer.startswith("unreadable:"):
        assert is_valid, answer
    elif answer.startswith("unreadable: shape"):
        assert is_valid == (name in UNSEEN), answer
