"""The crates of crates.txt: what each of them needs, and copies of them."""
import hashlib
import os
import shutil

HERE = os.path.dirname(os.path.dirname(os.path.abspath(__file__)))
LEFT_OUT = {"out", "must-fail"}


def needed(names):
    """These crates and all that they need, in the order of crates.txt, each with its libraries."""
    with open(os.path.join(HERE, "crates.txt"), encoding="utf-8") as file:
        lines = [it.split(":") for it in file if ":" in it and not it.startswith("#")]
    listed, found, todo = {name: rest.split() for name, rest in lines}, set(), [*names]
    while todo:
        name = todo.pop()
        if name not in found:
            found.add(name)
            todo += listed[name]
    return {name: libraries for name, libraries in listed.items() if name in found}


def files(names):
    """The paths of all files of these crates and of those that they need, without wrong bodies and what was built."""
    for name in needed(names):
        for folder, inside, found in os.walk(os.path.join(HERE, "crates", name)):
            inside[:] = sorted({*inside} - LEFT_OUT)
            yield from (os.path.relpath(os.path.join(folder, it), HERE) for it in sorted(found))


def checksum(names):
    """A number of all that a proof of these crates reads."""
    made = hashlib.sha256(repr(needed(names)).encode())
    for path in ["HANDLES", *files(names)]:
        with open(os.path.join(HERE, path), "rb") as file:
            made.update(path.encode() + b"\0" + hashlib.sha256(file.read()).digest())
    return made.hexdigest()


def copy(names, there, own=None):
    """Copies all files of these crates, HANDLES, and their lines of crates.txt, behind which others may stand."""
    for path in ["HANDLES", *files(names)]:
        to = os.path.join(there, path)
        os.makedirs(os.path.dirname(to), exist_ok=True)
        shutil.copy(os.path.join(HERE, path), to)
    lines = {**needed(names), **(own or {})}
    with open(os.path.join(there, "crates.txt"), "w", encoding="utf-8") as file:
        file.writelines("%s: %s\n" % (name, " ".join(libraries)) for name, libraries in lines.items())
