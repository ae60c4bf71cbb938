"""The definitions of the crates' specs, and the code that cites them: what each piece of it names.

Which definition a name is, is told by the `use` lines of its file, those of ghosts in Rust code too.
"""
import functools
import os
import re

import crates
from places import text_of

WORD = re.compile(r"(?<![\w.'])[^\W\d]\w*'*")
BEHIND = re.compile(r"(?<![\w.'])([^\W\d]\w*)\.([^\W\d]\w*'*)")
USE = re.compile(r"(?m)^ *(?:pub |ghost )?use Rattle\.([\w.]+?)(?:\.\{(.*?)\})?(?: as (\w+))?;?$")
HEAD = r"(?m)^{}(?:(?:abbrev|unfoldable|pub|record|data) )*([^\W\d]\w*'*)(?= [({{:])(?![^:]* =)"
INSIDE = re.compile(r"(?m)^ +(?:pub )?((?:[^\W\d]\w*'* )*◌?\w+◌? ):(?= |$)")
PIECE = re.compile(r"(?m)^(?=(?:  (?:pub )?)?[^\W\d])")
BOUND = re.compile(r"λ ([^.λ]+)\.|[({]([^(){}:]+) : |[{;]\s*([^\W\d]\w*'*) = |(?m:^ *[^\W\d]\w*'*( [^:=\n]*)? =(?: |$))")
FIELDS = re.compile(r" +(?:pub )?((?:[^\W\d]\w*'* )+): ")
OF_OWN = re.compile(r"(?m)^  (?:pub )?(?:outcome|describes|spared|lawful|shows|spares) [:=][^;]*?(?:;|(?=\n  pub |\Z))")
LIBRARIES = [*crates.needed(["bpaf_program", "bpaf_batteries"])]


def uses_of(text):
    """What the `use` lines of a file name: each local name with the path and the name there."""
    found = {}
    for path, names, alias in USE.findall(text):
        found.update({alias: (path, None)} if alias else {})
        for it in names.split(", ") if names else []:
            inside, _, own = it.replace("◌", "").partition(" as ")
            *below, name = inside.split(".")
            found[own or name] = (".".join([path, *below]), name)
    return found


class Definition:
    """A definition as it stands, with its comment, or some that are mutual."""

    def __init__(self, file, text, number):
        self.file, self.crate, self.path, self.text = file, file.crate, file.path, text
        self.place = (LIBRARIES.index(file.crate), file.depth, file.path, number)
        code = re.sub("--.*", "", text)
        indents = ("", "  ") if re.match(r"(abbrev )?mutual\b|module _", code.strip()) else ("",)
        self.heads = [it for indent in indents for it in re.findall(HEAD.format(indent), code)]
        inside = " ".join(INSIDE.findall(code)).replace("◌", "") if "data " in code else ""
        self.names = [*inside.split(), *self.heads]
        self.later = "\n".join(OF_OWN.findall(code)) if re.search(r"\bOwn\b", code) else ""
        self.is_lemma = not re.search(r"(?m)^ *(?:pub )?(?:abbrev|unfoldable|data|record)\b(?! \{)", code)
        self.code = INSIDE.sub(" :", OF_OWN.sub("", code) if self.later else code)

    def cited(self):
        """The definitions and the types that it names; of a parser of one's own, but its tables, its looks and its laws."""
        return cited(self.code, self.file.uses, self.file.names)

    def cited_later(self):
        """What the tables, the looks and the laws of a parser of one's own name."""
        return cited(self.later, self.file.uses, self.file.names)


class File:
    """A file of specs: its definitions, what they name, and what it uses."""

    def __init__(self, crate, path):
        self.crate, self.path, self.uses, parts = crate, path, uses_of(text_of(path)), []
        inside = [of_path(it) for it, _ in self.uses.values() if it.startswith(crate + ".specs.")]
        self.depth = 1 + max([it.depth for it in inside if isinstance(it, File)], default=0)
        for it in re.split(r"\n\s*\n", text_of(path).strip()):
            if it.startswith(" "):
                parts[-1] += "\n\n" + it
            else:
                parts.append(it)
        defined = [it for it in parts if re.search(r"(?m)^(?!--|use |pub use )", it)]
        self.names = {name: it for k, text in enumerate(defined) for it in [Definition(self, text, k)] for name in it.names}


class RustType:
    """A type of the code whose specs are made of it: its declaration, with what is said of it."""

    def __init__(self, crate, inside, name):
        self.crate, self.path, self.heads = crate, f"crates/{crate}/src/{'/'.join(inside) or 'lib'}.rt", ()
        self.place = (LIBRARIES.index(crate), 0, self.path, name)
        end = r"\b(?:[^\n{]*;|.*?^\})"
        declared = r"(?ms)^((?:///[^\n]*\n)*)(?:#\[[^\n]*\n)*((?:pub(?:\(crate\))? )?(?:struct|enum) " + name + end + ")"
        self.text = "".join(found[0] if (found := re.findall(declared, text_of(self.path))) else ())

    def cited(self):
        """None: its specs are made of it."""
        return []

    cited_later = cited


@functools.cache
def of_path(path):
    """The file of specs, or the Rust type, that a path names; a crate's Lib.antt may hand on another's."""
    crate, _, rest = re.sub(r"\.The[A-Z]\w*$", "", path).partition(".specs.")
    if crate not in LIBRARIES:
        return None
    handed = re.search(rf"(?m)^pub use Rattle\.(\S+\.{re.escape(rest)})$", text_of(f"crates/{crate}/specs/Lib.antt"))
    if handed:
        return of_path(handed[1])
    if path != f"{crate}.specs.{rest}":
        return of_path(f"{crate}.specs.{rest}")
    if rest.startswith("declared."):
        _, *inside, name = rest.split(".")
        return RustType(crate, inside, name)
    return File(crate, f"crates/{crate}/specs/{rest.replace('.', '/')}.antt")


def meant(path, name):
    """The definition or the type that a name is which stands at a path; none of std, and no lemma inside a module."""
    there = of_path(path)
    if not isinstance(there, File) or name is None:
        return there if isinstance(there, RustType) else None
    return there.names[name] if name in there.names else meant(*there.uses[name]) if name in there.uses else None


def words_of(code):
    """The words of a piece of code, but for those that it binds itself where they stand: parameters, patterns, fields."""
    words, outer = {}, set()
    for piece in PIECE.split(re.sub('"[^"]*"', '""', code)):
        bound = {it for found in BOUND.findall(piece) for names in found for it in WORD.findall(names) if it[0].islower()}
        inside, fields = piece.startswith(" "), FIELDS.match(piece)
        words.update(dict.fromkeys(it for it in WORD.findall(piece) if it not in bound and not (inside and it in outer)))
        outer = outer | set(WORD.findall(fields[1]) if fields else ()) if inside else bound
    return words


def cited(code, uses, names=()):
    """The definitions and the types that a piece of code names; no lemma."""
    words = words_of(code)
    found = [names[it] if it in names else meant(*uses[it]) for it in words if it in names or it in uses]
    for file, name in dict.fromkeys(BEHIND.findall(code)):
        there = of_path(uses[file][0]) if file in uses and uses[file][1] is None else None
        found.append(there.names.get(name) if isinstance(there, File) else None)
    return [it for it in found if it and not getattr(it, "is_lemma", False)]


def all_cited(found, known, later=False):
    """What these rest on, and they themselves, in order, but for what is known; which is then known too."""
    todo, new = [*found], []
    while todo:
        it = todo.pop()
        if it not in known:
            known[it] = None
            new.append(it)
            todo += it.cited() + (it.cited_later() if later else [])
    return sorted(new, key=lambda it: it.place)
