#!/usr/bin/env python3
"""Makes a repository by ./new in a folder that goes again, and looks at it without any proof: that it has its files and
no other, that `rt fmt` finds its program laid out, and that its tests pass, of which the first row is the run of its gate.
"""
import os
import re
import subprocess
import sys
import tempfile

sys.dont_write_bytecode = True
import crates

FILES = ".ci/run .gitignore HANDLES LICENSE-APACHE LICENSE-MIT NOTICE README.md crates.txt".split()
OWN = "args src/main.rt src/tests.rt stdout".split()


def stop(why):
    sys.exit(f"new: {why}")


def said(folder, *words):
    """What a command writes on standard output; ends where its status isn't 0."""
    ran = subprocess.run(words, cwd=folder, capture_output=True, text=True)
    if ran.returncode:
        stop(f"`{' '.join(words)}` ended with status {ran.returncode}:\n{ran.stdout}{ran.stderr}")
    return ran.stdout


def text_of(*path):
    with open(os.path.join(*path), encoding="utf-8") as file:
        return file.read()


def look(there):
    """Looks at the repository in this folder, whose program is `first`."""
    own = os.path.join(there, "crates", "first")
    uses = re.search("(?m)^first: (.*)$", text_of(there, "crates.txt")).group(1).split()
    said(there, "git", "init", "-q")
    said(there, "git", "add", "-A")
    found = {*said(there, "git", "ls-files").split("\n")} - {""}
    wanted = {*FILES, *crates.files(uses), *(f"crates/first/{it}" for it in OWN)}
    if found != wanted:
        stop(f"these files are missing or too many: {' '.join(sorted(found ^ wanted))}")
    if not os.access(os.path.join(there, ".ci", "run"), os.X_OK):
        stop(".ci/run can't be run")
    said(own, "rt", "fmt")
    if said(there, "git", "diff", "--name-only"):
        stop(f"its program isn't laid out as `rt fmt` does it:\n{said(there, 'git', 'diff')}")
    said(own, "rt", "try", "--test")
    return len(found)


def main():
    with tempfile.TemporaryDirectory() as folder:
        there = os.path.join(folder, "first")
        said(crates.HERE, "./new", there)
        print(f"new: {look(there)} files, laid out; its tests run")
        said(crates.HERE, "./new", "--add", "second", there)
        added = re.findall("(?m)^(?:first|second): (.*)$", text_of(there, "crates.txt"))
        if len(added) != 2 or added[0] != added[1]:
            stop("`--add` gives a program other libraries")
        for path in OWN:
            first = text_of(there, "crates", "first", path).replace('"first"', '"second"')
            if text_of(there, "crates", "second", path) != first.replace("Usage: first ", "Usage: second "):
                stop(f"`--add` writes another {path}")


main()
