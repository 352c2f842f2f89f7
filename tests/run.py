#!/usr/bin/env python3
"""Builds the test programs of this folder without proofs, runs them, and compares what each prints with its stdout.

    python3 tests/run.py [NAME..]    all of them, or those that are named
    python3 tests/run.py --show NAME -- ARGS    runs one with these arguments, and shows what it prints
    python3 tests/run.py --format    lays out their sources

Each program is a folder, with a line in programs.txt, and so is each library of theirs, with a line in libraries.txt.
Their sources are Rattle. They end in `.rs`, since `rt ci` refuses an `.rt` file that it doesn't prove. They are copied
as `.rt` into a root beside the crates, where `rt try` builds and runs them. A program has to end by itself, with status
0, after no access out of bounds, overflow or failed unwrap. Its files in data/ lie in the folder that it runs in. A
folder with no src/main.rs has test functions, which have to pass.

The last line is `N passed, M failed`: a program counts as one, and so does a test function.
"""

import concurrent.futures
import difflib
import os
import re
import shutil
import subprocess
import sys
import tempfile
from pathlib import Path

TESTS = Path(__file__).resolve().parent
ROOT = TESTS.parent
# The time that a program has, and the memory that is taken to build it.
SECONDS = 600
GIGABYTES = 4


def names_in(file):
    """The names in a file of lines as those of crates.txt, in its order."""
    lines = (TESTS / file).read_text().splitlines()
    return [line.partition(":")[0] for line in lines if line and not line.startswith("#")]


def programs():
    return names_in("programs.txt")


def folders():
    """Those of the libraries, then those of the programs."""
    return names_in("libraries.txt") + programs()


def sources_of(name):
    return sorted((TESTS / name / "src").rglob("*.rs"))


def copy_of(root, source):
    """Where a source is copied to."""
    return root / "crates" / source.relative_to(TESTS).with_suffix(".rt")


def make_root(root):
    """Makes a root of the crates, the test programs and their libraries."""
    lists = (ROOT / "crates.txt", TESTS / "libraries.txt", TESTS / "programs.txt")
    (root / "crates.txt").write_text("".join(names.read_text() for names in lists))
    shutil.copy(ROOT / "HANDLES", root)
    for part in (ROOT / "crates").glob("*/s*"):
        if part.name in ("src", "specs"):
            shutil.copytree(part, root / part.relative_to(ROOT))
    for name in folders():
        for source in sources_of(name):
            copy = copy_of(root, source)
            copy.parent.mkdir(parents=True, exist_ok=True)
            shutil.copy(source, copy)


def data_of(name):
    """The words by which `rt try` takes the files of a program."""
    data = TESTS / name / "data"
    files = sorted(file for file in data.rglob("*") if file.is_file())
    return [word for file in files for word in ("--data", f"{file.relative_to(data)}={file}")]


def tried(root, name, words):
    return subprocess.run(["rt", "try", *words], cwd=root / "crates" / name, capture_output=True, text=True)


def format_of(root, name):
    """Lays out the copies of a folder's sources. Those files whose layout was another."""
    subprocess.run(["rt", "fmt"], cwd=root / "crates" / name, check=True, stdout=subprocess.DEVNULL)
    copies = {source: copy_of(root, source) for source in sources_of(name)}
    return {source: copy for source, copy in copies.items() if source.read_bytes() != copy.read_bytes()}


def said_of_layout(root, name):
    """What is said of files whose layout is another, if there are any."""
    if others := format_of(root, name):
        files = ", ".join(str(file.relative_to(ROOT)) for file in others)
        return f"{name}: other layout, run tests/run.py --format: {files}\n"
    return ""


def run(root, name):
    """How many passed of a program, how many failed, and what is said of it."""
    if said := said_of_layout(root, name):
        return 0, 1, said
    has_functions = not (TESTS / name / "src" / "main.rs").exists()
    words = ["--seconds", str(SECONDS), *data_of(name), *["--test"] * has_functions]
    ran = tried(root, name, words)
    has_ended = ran.returncode == 0 and re.search(r"^run=ended status=0 .*\n\Z", ran.stderr, re.MULTILINE)
    if has_functions:
        passed = len(re.findall(r"^test \S+ \.\.\. ok$", ran.stdout, re.MULTILINE))
        if has_ended and passed and re.search(rf"^tests: {passed}$", ran.stdout, re.MULTILINE):
            return passed, 0, f"{name}: {passed} test functions passed\n"
        return 0, 1, f"{name}: test functions failed\n{ran.stdout}{ran.stderr}"
    wanted = (TESTS / name / "stdout").read_text()
    if has_ended and ran.stdout == wanted:
        return 1, 0, f"{name}: as wanted\n"
    apart = difflib.unified_diff(wanted.splitlines(True), ran.stdout.splitlines(True), "wanted", "got")
    return 0, 1, f"{name}: not as wanted\n{''.join(apart)}{ran.stderr}"


def run_all(root, names):
    """Runs programs side by side. Whether all passed."""
    memory = os.sysconf("SC_PAGE_SIZE") * os.sysconf("SC_PHYS_PAGES") >> 30
    lanes = max(1, min(os.cpu_count() or 1, memory // GIGABYTES))
    all_passed = all_failed = 0
    for said in filter(None, (said_of_layout(root, name) for name in names_in("libraries.txt"))):
        print(said, end="", flush=True)
        all_failed += 1
    with concurrent.futures.ThreadPoolExecutor(lanes) as pool:
        for running in concurrent.futures.as_completed([pool.submit(run, root, name) for name in names]):
            passed, failed, said = running.result()
            print(said, end="", flush=True)
            all_passed, all_failed = all_passed + passed, all_failed + failed
    print(f"{all_passed} passed, {all_failed} failed")
    return all_failed == 0


def main():
    words = sys.argv[1:]
    with tempfile.TemporaryDirectory(prefix="tests-") as folder:
        root = Path(folder)
        make_root(root)
        if words == ["--format"]:
            for name in folders():
                for source, copy in format_of(root, name).items():
                    shutil.copy(copy, source)
            return 0
        if words[:1] == ["--show"] and words[1:2] and words[1] in programs():
            ran = tried(root, words[1], ["--seconds", str(SECONDS), *data_of(words[1]), *words[2:]])
            print(ran.stdout, ran.stderr, sep="", end="")
            return ran.returncode
        if unknown := [name for name in words if name not in programs()]:
            sys.exit(f"no line of programs.txt: {' '.join(unknown)}")
        return 0 if run_all(root, words or programs()) else 1


if __name__ == "__main__":
    sys.exit(main())
