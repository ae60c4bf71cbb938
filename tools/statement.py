#!/usr/bin/env python3
"""Makes docs/STATEMENT.md, the theorem, and docs/TABLES.md, the tables of runs and parsers: the clauses of what is proved
of every line, and each definition that they rest on, copied out of the specs, top down. It stops at std and at what the
kit's Prelude has.
"""
import glob
import itertools
import os
import re
import sys

sys.dont_write_bytecode = True
from places import text_of
from specs import LIBRARIES, RustType, all_cited, cited, of_path, uses_of

THEOREM = """# What is proved

The theorem on every command line, as it stands in the contracts, and each definition that it rests on, down to std and to the kit's Prelude.
Names of the Prelude (as `List`, `map` and `Result`) aren't explained here. All code is copied out of the crates by `tools/statement.py`, and
`tools/check_docs.py` refuses a page that differs from them. [TABLES](TABLES.md) adds what each parser may answer, message by message.

Read it from the top: each part has its clauses first, and below them each word that they use, before the words that it is made of. A type of
Rust stands as it is declared, and its specs are made of that; one that has a model, as a `Doc` has the list of its pieces, is to all specs what its
`view` gives. `x.now` is the value of `x` when a call is made, `x.entry` that of a parameter, and `P.grammar` what the type `P` gives by its own impl.
[EXACTNESS](EXACTNESS.md) says the same in words, with lines worked through.

"""
REST = """# The tables

What a run and each parser may answer, message by message: the rest of what the clauses of [STATEMENT](STATEMENT.md) speak of. Definitions that
stand there aren't repeated. The code is copied out of the crates by `tools/statement.py`, top down.

"""
TABLE = """| Part | definitions | their lines of code | types of Rust | lines |
|---|---|---|---|---|
"""
KINDS_OF = ("Parser", "Fields", "FromText", "FromList")
FIRST = """ParseFlag FromText ParseArgument ParsePositional ParseMap ParseWith ParseGuard ParseOptional ParseFallback
    ParseFallbackWith ParseMany ParseSome FromList ParseCollect ParseCount ParseLast ParseOrElse ParseChoice Last Both Four
    ParseCon ParseCommand""".split()
MEANINGS = "can_eval grammar means fills"
DEALT = (
    "No word is ignored or used twice",
    """Where a run answers Ok(v), v is read off all places of the words' line but that of the first `--`, each used once (clause `dealt`). That
holds of every parser. A parser is its grammar (`grammar`), which tells what it reads (`reads_of`); of what each kind is made comes in the last two
parts.""",
    """bpaf_core/src/options/running.rt; impl<T: Drop, P: Parser<T>> OptionParser; run_inner dealt
    bpaf_core/src/options/running.rt; impl<T: Drop, P: Parser<T> + Drop> OptionParser; run_once dealt
    bpaf_core/src/parser.rt; pub trait Parser; ; can_eval grammar
    bpaf_keys/src/info.rt; impl Model for Info; ; Value view
    bpaf_text/src/named.rt; impl Model for NamedArg; ; Value view
    bpaf_doc/src/doc.rt; impl Model for Doc; ; Value view
    bpaf_base/src/text.rt; impl Model for Text; ; Value view""",
    "",
    "",
)
EXACT = (
    "A flat record and a program with commands are exact",
    """Where the options are a flat record or a program, each answer is exact, for closures that keep to the premise `agrees`: a value comes only
where it is one of the program on the words' line, and where the program has a value there, the answer is one of these, or want of memory (clauses
`exact` and `each_exact`). Of a flat record it is said field by field too (`by_fields`), and of both what each field says of the words (`fields`).

What a parser is to a program is its form (`program_form`), made of its grammar; the form has the values on what is present (`program_value`). Whether
options are a program or a flat record is a Bool, made of the form, the names and the texts: `is_program` of commands and of fields, `is_record` of
fields alone.

A form may be wide (`wide`): that of a field with a variable of the environment, an adjacent argument, a word with `strict` or `non_strict`, a kept
value, and of a product with another look round it or inside another one. A program may hold wide forms, a flat record none: beside
that there are no commands it is all that `is_record` asks.""",
    """bpaf_record/src/command_line.rt; pub trait CommandLine; run_program exact each_exact fields; \
is_whole can_run agrees answers tells answers_as_program
    bpaf_record/src/command_line.rt; impl<T: Drop, P: ProgramField<T>> CommandLine; ; \
is_whole can_run agrees tells answers_as_program
    bpaf_record/src/record.rt; pub trait Record; run_record exact each_exact fields by_fields; is_flat answers_by_fields
    bpaf_record/src/record.rt; impl<T: Drop, P: ProgramField<T> + FlatField<T>> Record; ; is_flat answers_by_fields""",
    "",
    "",
)
FLAT_KINDS = (
    "The kinds of parsers of a flat record",
    """Of each kind that a flat record may have, of what it is made (`grammar`). The traits that they share come first.""",
    f"""bpaf/src/product.rt; pub trait Fields; ; {MEANINGS}
    bpaf_text/src/from_text.rt; pub trait FromText; ; {MEANINGS}
    bpaf_text/src/from_list.rt; pub trait FromList; ; {MEANINGS}
    bpaf_text/src/params.rt; impl<T> Model for ParseArgument; ; Value view""",
    MEANINGS,
    "flat",
)
OTHER_KINDS = (
    "The other kinds of parsers",
    """The same of commands and of all others. One that is `own` stands in no program; it has readings, as all kinds have, so the first part holds
of it.""",
    "bpaf_keys/src/names.rt; impl Model for CommandNames; ; Value view",
    MEANINGS,
    "other",
)
ANSWERS = (
    "What a run may answer",
    """Every answer that a run may give, its pages and messages byte for byte (`answers`, of which `each_exact` speaks); that each refusal has one of
twelve names (clause `named`); and what one evaluation of a parser may answer and show, by its grammar. The law `lawful_of` ties the outcome to the
readings: the newly taken places are a reading of the value.""",
    """bpaf_core/src/options/running.rt; impl<T: Drop, P: Parser<T>> OptionParser; run_inner named
    bpaf_record/src/command_line.rt; impl<T: Drop, P: ProgramField<T>> CommandLine; ; answers
    bpaf_core/src/parser.rt; pub trait Parser; eval {
    bpaf_core/src/parser.rt; pub trait Parser; meta {
    bpaf/src/product.rt; pub trait Fields; eval_fail_fast {
    bpaf_line/src/state.rt; impl Model for State; ; Value view
    bpaf_line/src/missing.rt; impl Model for MissingItems; ; Value view""",
    "",
    "",
)
PROMISES = (
    "What else is so of an answer",
    """Beside its outcome, of every parser: what is read and what is kept, that want of memory is never caught, and by its kind what else is so.""",
    """bpaf/src/laws.rt; pub fn evaluate""",
    "",
    "",
)
PAGES = {
    "docs/STATEMENT.md": (THEOREM, (DEALT, EXACT, FLAT_KINDS, OTHER_KINDS)),
    "docs/TABLES.md": (REST, (ANSWERS, PROMISES)),
}


class Quote:
    """Of an impl or a trait: its first line, some of its ghost members, and a function with some of its clauses."""

    def __init__(self, file, header, called="", members=""):
        self.path = "crates/" + file
        self.crate, text, (function, *clauses) = file.split("/")[0], text_of(self.path), called.split() or [""]
        found = text[text.index(header) :].split("\n}\n")[0]
        declared = re.findall(r"(?ms)^((?:    ///[^\n]*\n)*    ghost (\w+)(?: =|:) .*?\};)$", found)
        parts = [it for it, name in declared if name in members.split()]
        if function:
            whole = re.search(rf"(?ms)^    (?:pub )?fn {function}\b.*?(?=;$|\n    \{{$)", found)[0]
            first, *said = re.split(r"\n(?=        (?:requires|ensures) )", whole)
            said = [it for it in said if it.split()[0] == "requires" or it.split()[1] in clauses]
            parts.append("\n".join([first, *said]))
        self.text = found.split("{\n")[0] + "{\n" + "\n\n".join(parts) + "\n}" if parts else ""
        if header.startswith("pub fn"):
            self.text = found.split("\n{\n")[0]
        self.uses = uses_of("\n".join(re.findall(r"(?m)^ghost use .*", text)) + "\n" + found)

    def cited(self):
        return cited(re.sub("///.*", "", self.text), self.uses)


def of_flat_records():
    """The types that a flat record may have."""
    sources = "\n".join(map(text_of, glob.glob("crates/bpaf_record/src/*.rt")))
    return {"FromText", "FromList", *re.findall(r"FlatFields?<(?:[^<>]|<[^<>]*>)*>\s+for (\w+)", sources)}


def kinds(members, which):
    """The impls of each kind of parser, of text and of collection, with these ghost members: of those of flat records, the others, or all."""
    sources = [it for crate in LIBRARIES for it in sorted(glob.glob(f"crates/{crate}/src/**/*.rt", recursive=True))]
    public = {*re.findall(r"(?m)^pub struct (\w+)", "\n".join(map(text_of, sources)))}
    found, flat = {}, of_flat_records()
    for path in sources:
        for head in re.findall(r"(?m)^impl\b[^{]*\{\n", text_of(path)):
            trait, of = (re.findall(r"(\w+)(?:<(?:[^<>]|<[^<>]*>)*>)?\s+for (\w+)", head) or [("", "")])[0]
            kind = trait if trait.startswith("From") else of
            if trait in KINDS_OF and (kind == trait or of in public) and which in ("all", "flat" if kind in flat else "other"):
                quote = Quote(path.removeprefix("crates/"), head, "", members)
                found.setdefault(kind, []).extend([quote] if quote.text else [])
    return sorted(found.items(), key=lambda it: (FIRST.index(it[0]) if it[0] in FIRST else len(FIRST), it[0]))


def from_the_top(found):
    """Definitions, those that use others first: the highest crate first, and of a file the last one."""
    place = {it: it.place[:3] + (0 if isinstance(it, RustType) else it.place[3],) for it in found}
    return sorted(found, key=lambda it: (-place[it][0], -place[it][1], place[it][2], -place[it][3]))


def shown(found):
    """Pieces of code, below the crate and the file of each."""
    for (crate, path), texts in itertools.groupby(found, lambda it: (it.crate, it.path)):
        text = "\n\n".join(it.text for it in texts)
        yield f"`{crate}`, {path.removeprefix(f'crates/{crate}/')}:\n\n```{'antt' if path.endswith('.antt') else 'rust'}\n{text}\n```\n"


def lines_of_code(definition):
    """How many lines a definition has, without comments and empty ones; a type of Rust is none."""
    return 0 if isinstance(definition, RustType) else len(re.findall(r"(?m)^\s*(?!--)\S", definition.text))


def part(quoted, members, which, known, later):
    """The texts of a part and what it newly tells, by what is quoted; `later` with what an earlier page leaves out of parsers of one's own."""
    own = [Quote(*line.strip().split("; ")) for line in quoted.split("\n")]
    texts, counted = [], []
    for kind, quotes in [("What the kinds share" if members else "", own), *(kinds(members, which) if members else ())]:
        found = [it for quote in quotes for it in quote.cited()]
        new = all_cited(found + [it for before in known if later for it in before.cited_later()], known, later)
        texts += [f"### {kind}\n"] if kind and (quotes or new) else []
        texts += [*shown(quotes), *shown(from_the_top(new))]
        counted += new
    return texts, counted


def pages():
    """Each page, whose table counts what stands below it."""
    known = {}
    for path, (head, parts) in PAGES.items():
        rows, below, later = [], [], bool(known)
        for number, (title, said, quoted, members, which) in enumerate(parts, 1):
            texts, counted = part(quoted, members, which, known, later)
            lines = sum(it.count("\n") - 4 for it in texts if "```" in it)
            types = sum(isinstance(it, RustType) for it in counted)
            heads, code = sum(len(it.heads) for it in counted), sum(map(lines_of_code, counted))
            rows.append((f"{number}. {title}", heads, code, types, lines))
            below += [f"## {number}. {title}\n", said + "\n", *texts]
        rows.append(("all", *(sum(it) for it in [*zip(*rows)][1:])))
        table = "".join("| " + " | ".join(f"{it:,}" if isinstance(it, int) else it for it in row) + " |\n" for row in rows)
        yield path, head + TABLE + table + "\n" + "\n".join(below)


def faults():
    """Which page differs from what stands in the code."""
    for path, page in pages():
        if not os.path.isfile(path) or text_of(path) != page:
            yield f"{path}: it differs from what stands in the code; tools/statement.py writes it"


if __name__ == "__main__":
    for path, page in pages():
        with open(path, "w", encoding="utf-8") as it:
            it.write(page)
