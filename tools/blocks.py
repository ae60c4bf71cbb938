#!/usr/bin/env python3
"""Holds each block of the pages to what stands. A comment on the line in front of its fence, which readers
don't see, says which of three kinds it is:

code: PATH; ITEM; ITEM       a file, or items of one, as they stand there
calls: PATH, PATH; NAME      each call stands by itself in these files or folders, or in these functions; of a table, each
                             call in code of its second column
output: PATH                 the lines stand in this file, with which a run or a test compares what is printed
output: rt, output: checker  what `rt` prints where nothing compares it; a message of the checker

An item is named by how its declaration begins, as `fn main` or `impl Tried for Program`; one of a definition by its
name; a line of another file by how it begins. With --write the code is copied anew.
"""
import glob
import os
import re
import sys
import textwrap

PAGES = ["README.md", "CONTRIBUTING.md", "CHANGELOG.md", *sorted({*glob.glob("docs/*.md")} - {"docs/STATEMENT.md", "docs/TABLES.md"})]
FENCE = re.compile(r"( *)```\w*$")
MARK = re.compile(r" *<!-- (code|calls|output): (.+) -->$")
LISTED = re.compile(r" *(?:[-*]|\d+\.) +")


class Fault(Exception):
    """Why a block isn't what its mark says."""


def text_of(path):
    """The text of a file."""
    if not os.path.isfile(path):
        raise Fault(f"there is no {path}")
    with open(path, encoding="utf-8") as it:
        return it.read()


def item_of(path, name):
    """The text of an item, with its comment and without the indentation of all its lines."""
    lines = text_of(path).rstrip("\n").split("\n")
    begins = re.compile(rf"\s*(?:(?:pub|abbrev|data|record) )*{re.escape(name)}(?!\w)")
    at = next((number for number, line in enumerate(lines) if begins.match(line)), None)
    if at is None:
        raise Fault(f"`{name}` doesn't stand in {path}")
    if path.endswith(".antt"):
        return next(part for part in re.split(r"\n\s*\n", "\n".join(lines)) if lines[at] in part.split("\n"))
    if not path.endswith(".rt"):
        return lines[at]
    first = last = at
    before = re.match(" *", lines[at])[0]
    while first and lines[first - 1].strip().startswith(("///", "#[")):
        first -= 1
    while not (lines[last].startswith(before + "}") or last == at and lines[at].endswith((";", "}"))):
        last += 1
    return textwrap.dedent("\n".join(lines[first : last + 1]))


def folded(text):
    """Code without comments, and outside of literals without white space but between words, and commas in front of what closes."""
    parts = re.split(r'("(?:[^"\\]|\\.)*")', re.sub(r"(?m)(?:^|\s+)//.*$", "", text))
    parts[::2] = (re.sub(r" (?!\w)|(?<!\w) ", "", re.sub(r"\s+", " ", it)) for it in parts[::2])
    return re.sub(r",(?=[)\]}])", "", "".join(parts))


def calls_of(text):
    """The calls of a list, each whole, on however many lines."""
    call = ""
    for line in re.sub(r"(?m)\s*//.*$", "", text).split("\n"):
        if call.count("(") + call.count("{") == call.count(")") + call.count("}") and not line.strip().startswith("."):
            yield folded(call)
            call = ""
        call += line + "\n"
    yield folded(call)


def look_for_calls(paths, names, text):
    """Refuses a call that stands nowhere in these files, or functions of them."""
    files = [it for path in paths for it in (sorted(glob.glob(f"{path}/*.rt")) or [path])]
    there = folded("\n".join([item_of(path, f"fn {name}") for path in paths for name in names] or map(text_of, files)))
    for call in filter(None, calls_of(text)):
        end = "" if call.endswith((";", "}")) else r"(?!(?!else\{)[\w.?])"
        if not re.search(rf"(?<![\w.]){re.escape(call)}{end}", there):
            raise Fault(f"the call `{call}` stands nowhere in {' '.join([*paths, *names])}")


def has_lines(there, text):
    """Whether a text has these lines, or ends of its own that are these, one behind the other."""
    at = 0
    for line in text.split("\n"):
        at = there.find(line + "\n", at) + 1
        if not at:
            return False
    return True


def wanted(kind, said, text):
    """What a block of this text is to be by its mark: code as it stands, with an empty line between two items."""
    path, *names = re.split(r"; *", said)
    if kind == "code":
        return "\n\n".join(item_of(path, it) for it in names) or text_of(path).rstrip("\n")
    if kind == "calls":
        look_for_calls(path.split(", "), names, text)
    elif path not in ("rt", "checker"):
        raw = text_of(path)
        if not has_lines(raw, text) and not has_lines(re.sub(r"\\\n\s*", "", raw).replace("\\n", "\n"), text):
            raise Fault(f"the output doesn't stand in {path}")
    return text


def table_calls(lines, number):
    """The calls of the second column of the table that begins at a line."""
    while lines[number].startswith("|"):
        cells = re.split(r"(?<!\\)\|", lines[number])
        yield from (it.replace("\\|", "|") for it in re.findall(r"`(.+)`", cells[2]))
        number += 1


def faults_of(page, write):
    """What is wrong with the blocks of a page, whose code is copied anew where that is asked for."""
    lines, made, found, number, inside = text_of(page).split("\n"), [], [], 0, 0
    while number < len(lines):
        line, at = lines[number], f"{page}:{number + 1}"
        fence, mark, listed = FENCE.match(line), MARK.match(made[-1]) if made else None, LISTED.match(line)
        inside = len(listed[0]) if listed else 0 if re.match(r"\S", line) else inside
        made.append(line)
        if fence:
            end = lines.index(fence[1] + "```", number + 1)
            block = "\n".join(it.removeprefix(fence[1]) for it in lines[number + 1 : end])
            try:
                if not mark:
                    raise Fault("a block without a mark")
                anew = wanted(*mark.groups(), block)
                if anew != block and not write:
                    raise Fault(f"the block differs from {mark[2]}; tools/blocks.py --write copies it")
                block = anew
            except Fault as it:
                found.append(f"{at}: {it}")
            made += [*textwrap.indent(block, fence[1]).split("\n"), lines[end]]
            number = end
        elif mark and mark[1] == "calls" and line.startswith("|"):
            try:
                wanted(*mark.groups(), "\n".join(table_calls(lines, number)))
            except Fault as it:
                found.append(f"{at}: {it}")
        elif mark:
            found.append(f"{at}: a mark without a block")
        elif re.match(" " * (inside + 4) + r"\S", line) and made[-2:-1] == [""]:
            found.append(f"{at}: a block without a mark, since it is indented")
        number += 1
    if write:
        with open(page, "w", encoding="utf-8") as it:
            it.write("\n".join(made))
    return found


def faults(write=False):
    """All blocks that aren't what their marks say."""
    return [it for page in PAGES for it in faults_of(page, write)]


if __name__ == "__main__":
    told = faults(sys.argv[1:] == ["--write"])
    print("\n".join([*told, f"blocks: {len(told)} faults"]))
    sys.exit(1 if told else 0)
