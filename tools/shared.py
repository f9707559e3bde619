"""What the tools share: where things are in the repository, how a difference is reported, and C libraries that make calls fail.

A tool finds this module by its own path, with the folder `tools` put on `sys.path`.
"""
import argparse
import importlib.machinery
import importlib.util
import os
import pathlib
import re
import shutil
import subprocess
import sys

# Links are kept: a repository that is reached by a link is the one that the link names.
TOP = pathlib.Path(os.path.abspath(__file__)).parent.parent
# The program that ./build and the gate build.
PROGRAM = str(TOP / "crates/protoref/out/protoref")
# The language server that the gate and ./build --server build.
SERVER = str(TOP / "crates/protoref_serve/out/protoref_serve")
# The folder of the plain model's modules, which import each other by their bare names.
MODEL = str(TOP / "tools/oracle/model")
# What the program keeps in a folder: its journal, and the new text of a file until it replaces the old one.
JOURNAL, SECOND = ".protoref-journal", ".protoref-new"
STORE_FAILED = "protoref: store failed\n"


# ---- arguments, differences, counts


def arguments(text):
    """A parser of arguments whose --help prints a tool's own text as it stands."""
    return argparse.ArgumentParser(description=text, formatter_class=argparse.RawDescriptionHelpFormatter)


class Difference(Exception):
    """What was expected, and what came instead."""


def expect(what, expected, got):
    if expected != got:
        raise Difference(f"{what}: expected {str(expected)[:300]!r}, got {str(got)[:300]!r}")


def finish(passed, failed):
    """Prints the last line of a tool that counts, and ends it with status 1 where something failed."""
    print(f"{passed} passed, {failed} failed")
    sys.exit(1 if failed else 0)


# ---- the program and the folders that it edits


def program(tool, named):
    """The program that was named, else the built one, else the one on PATH; ends with a line where there is none."""
    found = named or (PROGRAM if os.access(PROGRAM, os.X_OK) else shutil.which("protoref"))
    if not found or not os.access(found, os.X_OK):
        missing = f"{found} is not there" if found else f"neither {PROGRAM} is there nor 'protoref' on PATH; ./build builds it"
        print(f"{tool}: {missing}", file=sys.stderr)
        sys.exit(2)
    return os.path.abspath(found)


def server_at(tool, named):
    """The server that was named, else the built one; ends with a line where there is none."""
    found = os.path.abspath(named or SERVER)
    if not os.access(found, os.X_OK):
        print(f"{tool}: {found} is not there; ./build --server builds it", file=sys.stderr)
        sys.exit(2)
    return found


def answer_of(program, command, root, *words, **how):
    """Runs a command over a folder, and returns its status, its output and what it wrote to standard error."""
    done = subprocess.run([program, command, root, *words], capture_output=True, text=True, check=False, **how)
    return done.returncode, done.stdout, done.stderr


def put(root, path, data):
    """Writes a file below a folder, with the folders that it needs."""
    os.makedirs(os.path.dirname(f"{root}/{path}"), exist_ok=True)
    with open(f"{root}/{path}", "wb") as file:
        file.write(data)


def got(root, path):
    """The bytes of a file below a folder."""
    with open(f"{root}/{path}", "rb") as file:
        return file.read()


def paths_below(root):
    """The paths of all files below a folder, in order."""
    return sorted(os.path.relpath(f"{at}/{name}", root) for at, _, names in os.walk(root) for name in names)


# ---- C libraries that the program loads before the C library


def build_library(tool, source, library):
    """Builds a library of this C text, or ends with a line that says why that cannot be."""
    if shutil.which("cc") is None:
        sys.exit(f"{tool}: 'cc', a C compiler, is not on PATH")
    words = ["cc", "-shared", "-fPIC", "-O1", "-w", "-x", "c", "-o", library, "-", "-ldl"]
    done = subprocess.run(words, input=source, capture_output=True, text=True)
    if done.returncode:
        sys.exit(f"{tool}: cc does not build the library that makes calls fail:\n{done.stderr[:2000]}")
    return library


def build_failing_calls(tool, library):
    """Builds the library that counts the program's calls, and makes one fail or stops or kills the program there."""
    return build_library(tool, (TOP / "tools/acceptance/failing_calls").read_text(), library)


def end_not_loaded(tool):
    """Ends a tool whose program has not loaded its library."""
    sys.exit(f"{tool}: the program does not load the library that makes its calls fail: LD_PRELOAD has no effect here")


# ---- the repository and its toolchain


def crates():
    """The crates of the repository, and for each the words of its line in crates.txt: the crates and libraries that it uses."""
    found = {}
    for line in (TOP / "crates.txt").read_text(encoding="utf-8").splitlines():
        name, _, words = line.partition("#")[0].partition(":")
        if name.strip():
            found[name.split()[0]] = words.split()
    return found


def time_of(command):
    """How long a command takes where nothing was proved before, as docs/gate.md has it."""
    page = (TOP / "docs/gate.md").read_text(encoding="utf-8")
    found = re.search(rf"^\| `{re.escape(command)}` from nothing \| (.*) \|$", page, re.MULTILINE)
    return found[1] if found else "some time"


def module_at(name, path):
    """The module that a file of the toolchain is."""
    loader = importlib.machinery.SourceFileLoader(name, str(path))
    made = importlib.util.module_from_spec(importlib.util.spec_from_loader(name, loader))
    sys.modules[name] = made
    loader.exec_module(made)
    return made
