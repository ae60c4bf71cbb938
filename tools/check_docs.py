#!/usr/bin/env python3
"""Holds the documents to the tree: names in backticks stand somewhere in crates/, and where a page says
so; each block is code, calls or output that stands, as the comment in front of it says; each row of
docs/ROWS.md runs as it says, by its tests or as data; and docs/STATEMENT.md has the definitions as they
stand. No line of a page is too wide, and no source keeps a value from being dropped. It prints what
doesn't hold, and then exits with 1.

A name is an identifier or a path of them. Of docs/DIFFERENCES.md, whose first column and whose last
lists are of Rust, only what is said to stand here is looked at.
"""
import glob
import os
import re
import sys

sys.dont_write_bytecode = True
import blocks
import places
import rows
import statement

NAME = re.compile(r"[A-Za-z_]\w*(::[A-Za-z_]\w*)*(\(\))?")
IDENTIFIER = re.compile(r"[A-Za-z_]\w*")
PAGES = [*sorted(glob.glob("docs/*.md")), "README.md", "CONTRIBUTING.md", "CHANGELOG.md"]
WIDTH = 160
UNDROPPED = re.compile(r"\b(forget|leak|ManuallyDrop)\b")


def text_of(path):
    with open(path, encoding="utf-8", errors="replace") as it:
        return it.read()


def sources():
    """The texts of the crates' own files by their paths."""
    found = (it for it in glob.glob("crates/**/*", recursive=True) if "/out/" not in it)
    return {it: text_of(it) for it in found if os.path.isfile(it)}


def said_here(path):
    """The text of a page that speaks of this tree, without code that stands in blocks."""
    text = text_of(path)
    if path.endswith("DIFFERENCES.md"):
        parts = re.split(r"(?m)^## ", text)
        kept = [it for it in parts if not it.startswith(("Left out", "Added"))]
        cells = [row.split(" | ") for it in kept for row in it.split("\n")]
        added = [it for it in parts if it.startswith("Added")]
        text = "\n".join(row[1] for row in cells if len(row) > 2) + "\n".join(added)
    text = re.sub(r"(?s)```.*?```", "", text)
    return re.sub(r"``.*?``", "", text)


def names(path, named):
    """The names in backticks of a page, but for those of rows, and those of its own code and lists."""
    text = said_here(path)
    code = "\n".join(re.findall(r"(?m)^ {4,}.*$", text))
    own = {*re.findall(r"(?m)^- `(\w+)` is ", text), *IDENTIFIER.findall(code), *named}
    for it in re.findall(r"`([^`\n]+)`", text):
        if NAME.fullmatch(it) and it not in own:
            yield it


def wide_lines(path):
    """The lines of a page that are too wide, and of no table and no code."""
    for line in re.sub(r"(?s)```.*?```", "", text_of(path)).split("\n"):
        if len(line) > WIDTH and not line.lstrip().startswith("|"):
            yield line


def main():
    found = sources()
    words = {word for path, text in found.items() for word in IDENTIFIER.findall(path + " " + text)}
    words |= {word for it in os.listdir(".") for word in IDENTIFIER.findall(it)}
    named = {cells[0] for cells, _ in rows.tables() if len(cells) == 6}
    lost = [*(f"{rows.ROWS}: {it}" for it in rows.faults()), *places.faults(), *statement.faults()]
    for path, text in found.items():
        if path.endswith(".rt") and UNDROPPED.search(text):
            lost.append(f"{path}: a value may be left undropped")
    for path in PAGES:
        for name in sorted({*names(path, named)}):
            if any(it not in words for it in IDENTIFIER.findall(name)):
                lost.append(f"{path}: `{name}` stands nowhere")
        lost += [f"{path}: a line of over {WIDTH} columns" for _ in wide_lines(path)]
    lost += blocks.faults()
    print("\n".join([*lost, f"documents: {len(named)} rows of tests, {len(lost)} faults"]))
    return 1 if lost else 0


sys.exit(main())
