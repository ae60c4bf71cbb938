#!/usr/bin/env python3
"""The worked rows of docs/ROWS.md beside what runs: their words and answers, the parts of their parsers, and their places.

A row's name stands right above what runs it: `## name` above a row of data, `# name` in a table of a test, `// name` in a
test's code; names above one another share it. A table of six columns has the places in its last two: the first one, and
all others. `python3 tools/rows.py --fill` writes them.
"""
import glob
import re
import sys

ROWS = "docs/ROWS.md"
DATA = [f"crates/bench/data/{it}.txt" for it in ("rows", "long")]
MARK = re.compile(r"\s*(?:##|#|//) ([a-z0-9]+(?:_[a-z0-9]+)+)")
REMARK = re.compile(r"\s*(?:#|//) ")
ITEM = re.compile(r"(?m)^(?:#\[test\]\n)?(?:pub(?:\(crate\))? )?(?:const|fn|struct|enum|impl|type|macro_rules!) (\w+)")
STRING = re.compile(r'(?s)"((?:[^"\\]|\\.)*)"')
CODE = re.compile(r"``(.+?)``|`([^`\n]+)`")
CELL = re.compile(r"(?<!\\) \| ")
NUMBERS = {"isize::MAX": str(2**63 - 1), "isize::MIN": str(-(2**63))}
# what an answer is by its first word, in data and in tables of tests
KINDS = {"ok": "value", "err": "refused", "refused": "refused", "out": "shown", "full": "shown", "shown": "shown", "memory": "memory"}
# how the bench says a part of a parser, where it has another name there or none
SAYS = {
    **dict.fromkeys(("short", "long", "to_options"), ""),
    "argument": "argument|take_last",
    "construct": "product|or_else|adjacent",
    "env": r"\$",
    "numbers_as_words": "numbers",
    "req_flag": "required_flag",
}


def text_of(path):
    with open(path, encoding="utf-8") as it:
        return it.read()


def codes(cell):
    """The spans of code of a cell."""
    return [(a or b).strip().replace("\\|", "|") for a, b in CODE.findall(cell)]


def unescaped(text):
    """A text as a program reads it that stands in quotes."""
    text = re.sub(r"\\\n\s*", "", text)
    return re.sub(r"(?s)\\(.)", lambda it: {"n": "\n"}.get(it[1], it[1]), text)


def plain(text):
    """A text without what differs between ways to print it."""
    return re.sub(r"[\s\"'\\]|\bi(?=-?\d)", "", NUMBERS.get(text, unescaped(text)))


def words_of(text):
    return ["" if it == "''" else it for it in text.split(" ")] if text.strip() else []


def rows_in(text):
    """The lines of a table: words, and what stands behind the first bar."""
    for line in text.split("\n"):
        words, bar, rest = line.partition(" | ")
        if bar:
            yield words_of(words), rest


class Place:
    """What runs a row: where it stands, its lines of words and answers, its text, and all that makes its parser."""

    def __init__(self, path, line, rows, text, makes):
        self.at, self.rows, self.text, self.makes = f"{path}:{line}", rows, text, makes
        self.is_data = path in DATA

    def says(self, words, cell):
        """Whether these words have this answer here; None are words that aren't told."""
        of_words = [rest for own, rest in self.rows if words in (own, None)]
        is_there = any(agrees(cell, rest) for rest in of_words)
        if is_there or of_words and words is not None:
            return is_there
        strings = [unescaped(it) for it in STRING.findall(self.text)]
        runs = [strings[at : at + len(words)] for at in range(len(strings))] if words else []
        is_here = not words or words in runs or " ".join(words) in strings
        return is_here and all(plain(it) in plain(self.text) for it in told_in(cell))

    def lacks(self, parser):
        """The parts of a parser that nothing here makes."""
        parser = re.sub(r'"\w* [^"]*"|\bbpaf_\w+', "", parser)
        for part in sorted({*re.findall(r"\b[a-z_]{4,}\b", parser)}):
            ways = SAYS.get(part, part) if self.is_data else {"construct": "construct|or_else"}.get(part, part)
            if not re.search(ways.replace("_", ""), self.makes.lower().replace("_", "")):
                yield part


def told_in(cell):
    """The code of an answer, without remarks, names of other rows and what is true or false of itself."""
    found = codes(re.sub(r" \([^`]*\)", "", cell))
    return [it for it in found if not re.fullmatch(r"[a-z]+(_[a-z]+)+|true|false", it)]


def agrees(cell, rest):
    """Whether what stands behind words is the answer of a cell."""
    kind = KINDS.get(re.split(r"[ ^]", rest)[0])
    wanted = cell.split(",")[0].split(":")[0].split(" ")[0].strip("`")
    wanted = wanted if wanted in KINDS.values() else "value"
    found = codes(cell)
    if kind and kind != wanted or rest in ("refused", "shown"):
        return kind == wanted
    if kind == "value" and len(found) == 1:
        return plain(rest[3:]) == plain(found[0])
    return all(plain(it) in plain(rest) for it in found)


def of_data(path):
    """The named rows of a file of the bench."""
    names, head, is_open = [], [], False
    for number, line in enumerate(text_of(path).split("\n"), 1):
        mark = MARK.fullmatch(line)
        if mark and not is_open:
            names.append(mark[1])
        elif is_open or line.startswith("#") and "\t" not in line:
            head = head + [line] if is_open or line.startswith("#env") else [line]
            is_open = "".join(head).count("(") > "".join(head).count(")")
        elif "\t" in line:
            words, answer = line.split("\t")
            for name in names:
                yield name, Place(path, number, [(words_of(words), answer)], line, "\n".join(head))
            names = []


def items_of(paths):
    """The items of files by their file and name, each with the line where it begins, and its text."""
    found = {}
    for path in paths:
        text = text_of(path)
        starts = [*ITEM.finditer(text)]
        for it, end in zip(starts, [it.start() for it in starts[1:]] + [len(text)]):
            found[path, it[1]] = text.count("\n", 0, it.start()) + 1, text[it.start() : end]
    return found


def reached(items, place):
    """The texts of an item, of those of its file that name it, and of all that these name."""
    above, todo = [place], []
    for it in above:
        above += [one for one, (_, text) in items.items() if one[0] == it[0] and one not in above and re.search(rf"\b{it[1]}\b", text)]
    todo += above
    for it in todo:
        own = {*re.findall(r"\w+", items[it][1])}
        todo += [one for one in items if one[1] in own and one not in todo and (one[0] == it[0] or (it[0], one[1]) not in items)]
    return "\n".join(items[it][1] for it in todo)


def of_tests(crate):
    """The rows of a crate of tests."""
    items = items_of([*sorted(glob.glob(f"{crate}/src/*.rt")), *glob.glob("crates/test_support/src/*.rt")])
    for place, (first, text) in items.items():
        names, lines = [], text.split("\n")
        for at, line in enumerate(lines):
            mark = MARK.fullmatch(line)
            names += [mark[1]] if mark else []
            if names and not mark:
                end = next((to for to in range(at, len(lines)) if REMARK.match(lines[to]) or lines[to] in ("", '";', "];", "}")), len(lines))
                block = "\n".join(lines[at:end])
                own = {*re.findall(r"\b[A-Z_]{2,}\b", block)}
                tables = [block] if lines[at - 1].startswith("#") else STRING.findall(block)
                rows = [it for table in tables for it in rows_in(unescaped(table))]
                block += "".join(items[place[0], it][1] for it in own if (place[0], it) in items)
                for name in names:
                    yield name, Place(place[0], first + at, rows, block, reached(items, place))
                names = []


def places():
    """The places of each name."""
    found = {}
    runs = [it for path in DATA for it in of_data(path)]
    runs += [it for crate in sorted(glob.glob("crates/test_*")) if "support" not in crate for it in of_tests(crate)]
    for name, place in runs:
        found.setdefault(name, []).append(place)
    return found


def tables():
    """The rows of all tables, each as its cells, with what its section calls by a name of its own."""
    common = {}
    for part in re.split(r"(?m)^## ", text_of(ROWS)):
        own = dict(re.findall(r"`(\w+)` is\s+`([^`]+)`", part))
        common = common or own
        for line in part.split("\n"):
            cells = CELL.split(re.sub(r"^\| | \|$", "", line.strip()))
            if line.startswith("| ") and cells[0] not in ("row", "Rows"):
                yield [it.strip() for it in cells], {**common, **own}


def lines_of(cell):
    """The lines of words of a cell, each as its words; None where they aren't told in code alone."""
    for it in cell.split("; "):
        code = re.fullmatch(r"`([^`]*)`", it)
        yield {"none": [], "the empty text": [""]}.get(it, words_of(code[1]) if code else None)


def of_row(cells, parser, aliases, runs):
    """The faults of a row at its places."""
    for _ in range(3):
        parser = re.sub(r"\w+", lambda it: aliases.get(it[0], it[0]), parser)
    lines, parts = [*lines_of(cells[2])], cells[3].split("; ")
    answers = parts if len(parts) == len(lines) else [cells[3]] * len(lines)
    for run in runs:
        yield from (f"{cells[0]}: {run.at} has no `{it}`" for it in run.lacks(parser))
        for words, answer in zip(lines, answers):
            if not run.says(words, answer):
                yield f"{cells[0]}: {run.at} doesn't have the words {words} with the answer {answer}"


def told(runs):
    """The last two cells of a row."""
    return [runs[0].at if runs else "", ", ".join(it.at for it in runs[1:])]


def faults():
    """What docs/ROWS.md says otherwise than what runs."""
    found, named, parser = places(), set(), ""
    for cells, aliases in tables():
        names = codes(cells[0]) or [cells[0]]
        named |= {*names}
        yield from (f"nothing runs {it}" for it in names if it not in found)
        if len(cells) == 6 and cells[0] in found:
            code = " ".join(codes(cells[1]))
            parser = parser + " " + code if cells[1].startswith("the same") else code
            yield from of_row(cells, parser, aliases, found[cells[0]])
            if cells[4:] != told(found[cells[0]]):
                yield f"{cells[0]} runs at {told(found[cells[0]])}: python3 tools/rows.py --fill"
    yield from (f"{found[it][0].at} runs {it}, which is no row" for it in sorted({*found} - named))


def fill():
    """Writes the places of all rows."""
    found, lines = places(), text_of(ROWS).split("\n")
    for at, line in enumerate(lines):
        cells = CELL.split(re.sub(r"^\| | \|$", "", line))
        if line.startswith("| ") and len(cells) == 6 and cells[0] in found:
            lines[at] = "| " + " | ".join([*cells[:4], *told(found[cells[0]])]) + " |"
    with open(ROWS, "w", encoding="utf-8") as file:
        file.write("\n".join(lines))


if __name__ == "__main__":
    if sys.argv[1:] != ["--fill"]:
        sys.exit(__doc__)
    fill()
