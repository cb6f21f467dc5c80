"""The text of the program's module, which was lowered for Linux x86-64, for another system.

Nothing of what the code does is changed here: the system and its layout of data are named, features of x86-64 are left out,
and names that the other C library has with other types get the prefix shim_.
"""
import re
from collections.abc import Callable

# calls that the shims answer in Linux's way: their types, numbers and structures are those of Linux
CALLS = "read|write|lseek|close|open|isatty|nanosleep|sysconf|sched_getaffinity|sched_yield|syscall|pthread_[a-z_]*"
PAUSE = re.compile(r"^.*@llvm\.x86\.sse2\.pause\(\).*\n", re.M)
ATTRIBUTES = re.compile(r"^attributes #.*$", re.M)


class NotRewritten(Exception):
    """The module has a form that isn't known here; the text has it."""


def targeted(text: str, triple: str, layout: str) -> str:
    """The module for a system, by its name and its layout of data. Each has to stand in it once."""
    for name, value in (("datalayout", layout), ("triple", triple)):
        text, count = re.subn(rf'^target {name} = ".*"$', f'target {name} = "{value}"', text, flags=re.M)
        if count != 1:
            raise NotRewritten(f"the module has {count} lines of its {name}")
    return text


def without_attributes(text: str, *names: str) -> str:
    """The module without these attributes of its functions."""
    words = re.compile(rf' "(?:{"|".join(names)})"="[^"]*"')
    return ATTRIBUTES.sub(lambda line: words.sub("", line[0]), text)


def with_shims(text: str, names: str) -> str:
    """The module with another name for each of these functions, where it is declared and where it is called."""
    return re.sub(rf"@({names})\(", r"@shim_\1(", text)


def for_arm64(text: str) -> str:
    layout = "e-m:e-p270:32:32-p271:32:32-p272:64:64-i8:8:32-i16:16:32-i64:64-i128:128-n32:64-S128-Fn32"
    text = targeted(text, "aarch64-unknown-linux-gnu", layout)
    # (a hint to the processor while a thread waits)
    return without_attributes(PAUSE.sub("", text), "target-cpu")


def for_windows(text: str) -> str:
    """Names as Windows has them; the C library's function probes the stack there, and nothing does it in line."""
    layout = "e-m:w-p270:32:32-p271:32:32-p272:64:64-i64:64-i128:128-f80:128-n8:16:32:64-S128"
    text = targeted(text, "x86_64-w64-windows-gnu", layout)
    text = without_attributes(text, "probe-stack").replace("@main()", "@taskgraph_main()")
    return with_shims(text, CALLS)


def for_macos(text: str) -> str:
    text = targeted(text, "arm64-apple-macosx11.0.0", "e-m:o-p270:32:32-p271:32:32-p272:64:64-i64:64-i128:128-n32:64-S128-Fn32")
    text = without_attributes(PAUSE.sub("", text), "target-cpu", "probe-stack", "stack-probe-size")
    return with_shims(text, f"main|{CALLS}")


Rewriting = Callable[[str], str]
