"""Debian's packages that the tests need, installed where that can be done."""
import fcntl
import os
import shutil
import subprocess
import tempfile

# Debian's own Python, which has the modules of its packages
PYTHON = "/usr/bin/python3"
# how long an installation may take, in seconds
LIMIT = 300
# how long it waits while another program installs something, in seconds
WAIT = 120


def has_modules(python: str, *modules: str) -> bool:
    """Whether a Python has these modules."""
    if not shutil.which(python):
        return False
    words = [python, "-c", f"import {', '.join(modules)}"]
    return subprocess.run(words, stdin=subprocess.DEVNULL, stderr=subprocess.DEVNULL, check=False).returncode == 0


def install(*packages: str) -> None:
    """Tries to install packages, one call after another. Whoever needs them looks whether they are there."""
    if not packages or os.geteuid() or not shutil.which("apt-get"):
        return
    environment = {**os.environ, "DEBIAN_FRONTEND": "noninteractive"}
    with open(f"{tempfile.gettempdir()}/taskgraph-apt.lock", "w", encoding="utf-8") as held:
        fcntl.flock(held, fcntl.LOCK_EX)
        for words in (["update"], ["install", "-y", "--no-install-recommends", *packages]):
            try:
                subprocess.run(
                    ["apt-get", "-q", "-o", f"DPkg::Lock::Timeout={WAIT}", *words],
                    stdin=subprocess.DEVNULL,
                    stdout=subprocess.DEVNULL,
                    stderr=subprocess.DEVNULL,
                    env=environment,
                    timeout=LIMIT,
                    check=False,
                )
            except subprocess.TimeoutExpired:
                return
