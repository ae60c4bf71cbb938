"""What the documents say of places: that a crate stands on others, that a definition stands in a file, and that a
name stands in the crate, and in the clause, whose promise it tells.
"""
import glob
import os
import re

import crates

CRATE = re.compile(r"`(bpaf\w*|bench(?:_\w+)?|(?:test|example)_\w+)`")
NAME = re.compile(r"`((?:\w+::)*\w+)(?:\(\))?`")
CLAUSES = re.compile(r"clauses? ((?:`\w+`(?:, | and )?)+)")
CITED = re.compile(r"clause `(\w+)`(?: of [^(;,]*)? \(((?:`\w+`(?:, )?)+)(?:which [^)]*)?\)")
PLACED = re.compile(r"((?:`\w+`(?:, | and )?)+),? ?(?:of `?\w+`?,? )?(?:of )?\(?((?:specs|proofs)/\w+\.antt)")
KINDS = "abbrev|mutual|unfoldable|pub|data|record|fn|struct|enum|trait|type|ghost|law"
ENSURES = re.compile(r"(?s)\b(?:ensures|requires) (\w+) \{(.*?)\n? *(?=\b(?:ensures|requires)\b|\}\s*[;{\n])")


def text_of(path):
    with open(path, encoding="utf-8", errors="replace") as it:
        return it.read()


def declares(path, name):
    """Whether a file declares this name, at whatever depth."""
    return re.search(rf"(?m)^ *(?:(?:{KINDS}) )*{name}(?= *[:({{<=;,]| *$)", text_of(path))


def of_crate(name):
    """The code of a crate's own files, without comments and texts."""
    found = (text_of(os.path.join(crates.HERE, it)) for it in crates.files([name]) if f"crates/{name}/" in it)
    return re.sub(r'"(?:[^"\\\n]|\\.)*"|(?m:(?://|--).*$)', "", "\n".join(found))


def stands_on():
    """The crates' own pages that name a crate on which theirs doesn't stand."""
    for page in sorted(glob.glob("crates/*/src/lib.rt") + glob.glob("crates/*/src/main.rt")):
        name = page.split("/")[1]
        text = " ".join(re.findall(r"(?m)^//! ?(.*)$", text_of(page)))
        for said in re.findall(r"It stands on (.*?)\. ", text):
            for it in CRATE.findall(re.split(r", beside|and hands on|, for which|;", said)[0]):
                if it not in crates.needed([name]):
                    yield f"{page}: it doesn't stand on `{it}`"


def rows_of(page):
    """The rows of a page's tables, each as its cells, with the heading above."""
    for part in re.split(r"(?m)^## ", text_of(page)):
        for line in part.split("\n"):
            cells = [it.strip() for it in re.split(r"(?<!\\)\|", line.strip())[1:-1]]
            if len(cells) == 3:
                yield part.split("\n")[0], cells


def with_members(said, text):
    """A clause, and what the ghost members that it names are."""
    members = re.findall(r"(?s)\bghost (\w+) = \{(.*?)\};", text)
    return said + "".join(it for name, it in members if re.search(rf"\b{name}\b", said))


def promises():
    """The names of docs/LAYERS.md that don't stand in the crate whose promise they tell, or not in the clause."""
    name, text = "", ""
    for heading, (crate, _, contract) in rows_of("docs/LAYERS.md"):
        if not heading.startswith("What each crate promises") or crate in ("Crate", "---"):
            continue
        if crate:
            name = crate.strip("`")
            text = "\n".join(of_crate(it) for it in re.findall(r"\w+", crate))
        for it in NAME.findall(contract):
            if not CRATE.fullmatch(f"`{it}`") and any(part not in re.findall(r"\w+", text) for part in it.split("::")):
                yield f"docs/LAYERS.md: `{it}` doesn't stand in {name}"
        for clause, cited in CITED.findall(contract):
            said = with_members("\n".join(it for own, it in ENSURES.findall(text) if own == clause), text)
            for it in NAME.findall(cited):
                if not re.search(rf"\b{it}\b", said):
                    yield f"docs/LAYERS.md: no clause `{clause}` of {name} says `{it}`"


def definitions():
    """The names of docs/DEFINITIONS.md that the file which is named doesn't define."""
    for heading, (named, _, place) in rows_of("docs/DEFINITIONS.md"):
        files = re.findall(r"(?:specs|src|proofs)/[\w/]+\.(?:antt|rt)", place)
        folders = CRATE.findall(place + heading)
        paths = [path for it in files for folder in folders for path in glob.glob(f"crates/{folder}/{it}")]
        member = [it for it in NAME.findall(place) if not CRATE.fullmatch(f"`{it}`") and it != "Parser"]
        for it in (member or NAME.findall(named)) if files else []:
            if not any(declares(path, it) for path in paths):
                yield f"docs/DEFINITIONS.md: `{it}` isn't defined in {place}"


def files():
    """The names of a page that no crate defines in the file behind them; in docs/LAYERS.md the crate of the row."""
    for page in [*sorted({*glob.glob("docs/*.md")} - {"docs/STATEMENT.md", "docs/TABLES.md"}), "README.md", "CONTRIBUTING.md"]:
        row = ""
        for line in re.split(r"\n(?=\|)|\n\s*\n", text_of(page)):
            row = (re.match(r"\| (`\w+`)", line) or [row, row])[1] if page.endswith("LAYERS.md") else ""
            for named, file in PLACED.findall(line.replace("\n", " ")):
                folders = CRATE.findall(row + line) if row else ["*"]
                paths = [path for it in folders for path in glob.glob(f"crates/{it}/{file}")]
                for it in NAME.findall(named):
                    if not CRATE.fullmatch(f"`{it}`") and not any(declares(path, it) for path in paths):
                        yield f"{page}: `{it}` isn't defined in {file}"


def paragraphs():
    """The names in brackets of a paragraph that stand in none of the crates which it names."""
    for page in ("docs/EXACTNESS.md", "README.md"):
        for part in re.split(r"\n\s*\n", text_of(page)):
            named = [it for it in CRATE.findall(part) if os.path.isdir(f"crates/{it}")]
            words = {*re.findall(r"\w+", "\n".join(map(of_crate, named)))}
            for said in re.findall(r"\(((?:`[\w:]+`(?:, )?)+)\)", part if named else ""):
                for it in NAME.findall(said):
                    if not {*it.split("::")} <= words:
                        yield f"{page}: `{it}` doesn't stand in {' or '.join(named)}"


def clauses():
    """The clauses that a page names and no function has."""
    text = "\n".join(text_of(it) for it in glob.glob("crates/*/src/**/*.rt", recursive=True))
    known = {*re.findall(r"\b(?:ensures|requires|law) (\w+)", text)}
    for page in [*sorted(glob.glob("docs/*.md")), "README.md"]:
        for said in CLAUSES.findall(text_of(page)):
            for it in NAME.findall(said):
                if it not in known:
                    yield f"{page}: no function has a clause `{it}`"


def faults():
    """All that is said of a place, and isn't so."""
    for look in (stands_on, promises, definitions, files, paragraphs, clauses):
        yield from sorted({*look()})
