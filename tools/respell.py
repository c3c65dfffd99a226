#!/usr/bin/env python3
"""Spells the repository's own names in snake case: a dash in a definition, lemma, field or variable becomes an underscore, a prime an
apostrophe.

usage: python3 tools/respell.py [--check]     at the top of the repository

A name turns where a text of specs/ or a lemma file right in proofs/ declares or binds it, in every .rt, .antt and .edit file below crates/
and in the code spans of the pages. Names of the libraries stay, and so do names that begin with a capital, and those that the prover makes
for the proof of a function (proofs/F/), unless a text of specs/ or a lemma file declares them. It lists the names that fall together with
another name. --check writes nothing.
"""

import os
import re
import sys

NAME = r"[^\s(){}\[\].;:,@\"«»`|λ\\]+"
WORD = re.compile(NAME)
TURNS = re.compile(r"[^\W\d_A-Z][\w'′]*(?:[-→][\w'′]+)*$")
USE = re.compile(r"\buse ([\w·.]+)\.\{([^}]*)\}")
OWN = re.compile(r"Rattle\.(\w+)\.")
COMMENT = {".antt": re.compile(r"--.*"), ".rt": re.compile(r"//.*"), ".edit": None}
SPAN = re.compile(r"(`+)[^`]+\1")

# Names in the style of an older library.
MORE = {"getD-mem": "get_or_mem", "mem-getD": "mem_get_or", "getD-range": "get_or_range", "getD-map-in": "get_or_map_in"}
# Rattle makes a module specs.contracts of its own, so the file beside it has another name.
MODULE = ("Contracts", "Clauses")


def files(root, endings):
    for folder, dirs, names in os.walk(root):
        dirs[:] = sorted(d for d in dirs if d not in ("out", "target", ".git", "node_modules"))
        for name in sorted(names):
            if name.endswith(endings):
                yield os.path.join(folder, name)


def read(path):
    with open(path, encoding="utf-8") as f:
        return f.read()


def write(path, text):
    with open(path, "w", encoding="utf-8") as f:
        f.write(text)


def words(text):
    """The words of a text, without the comments of antt."""
    return WORD.findall(re.sub(r"--.*", "", text))


def spelled(name):
    return name.replace("-", "_").replace("′", "'")


def is_statement(path):
    """A file of specs/, or a lemma file right in proofs/."""
    parts = path.split(os.sep)
    return "specs" in parts or parts[-2] == "proofs"


def of_libraries(crates):
    """The names that a text brings in from a library."""
    own = {d for d in os.listdir(crates)}
    found = set()
    for path in files(crates, (".antt", ".rt")):
        for module, items in USE.findall(read(path)):
            it = OWN.match(module + ".")
            if it and it.group(1) in own:
                continue
            found.update(item.split(" as ")[0].strip() for item in items.split(","))
    return found


def table(crates):
    """The rows old -> new of the names that turn."""
    library = of_libraries(crates)
    seen = set()
    for path in files(crates, (".antt",)):
        if is_statement(path):
            seen.update(words(read(path)))
    rows = {}
    for name in seen:
        if spelled(name) != name and TURNS.match(name) and name not in library and "→" not in name:
            rows[name] = MORE.get(name, spelled(name))
    return rows


def rename_module(crates):
    """Moves specs/Contracts.antt of a crate, with the paths that name it."""
    old, new = MODULE
    for path in list(files(crates, (".antt", ".rt"))):
        text = read(path)
        turned = re.sub(rf"(Rattle\.\w+\.specs\.){old}\b", rf"\g<1>{new}", text)
        if path.endswith("/specs/Lib.antt"):
            turned = re.sub(rf"(?m)^((?:pub )?mod ){old}$", rf"\g<1>{new}", turned)
        if turned != text:
            write(path, turned)
        if path.endswith(f"/specs/{old}.antt"):
            os.rename(path, path.replace(f"{old}.antt", f"{new}.antt"))


def turn(text, rows):
    return WORD.sub(lambda m: rows.get(m.group(), m.group()), text)


def turn_code(text, rows, comment):
    """A text outside of its comments; in a comment the code spans alone."""
    if comment is None:
        return turn(text, rows)
    out, at = [], 0
    for m in comment.finditer(text):
        out.append(turn(text[at : m.start()], rows))
        out.append(SPAN.sub(lambda s: turn(s.group(), rows), m.group()))
        at = m.end()
    return "".join(out) + turn(text[at:], rows)


def main(argv):
    check = "--check" in argv
    crates = "crates"
    rows = table(crates)
    every = set()
    for path in files(crates, (".antt", ".rt")):
        every.update(words(read(path)))
    met = {}
    for old, new in rows.items():
        met.setdefault(new, []).append(old)
    for new, olds in sorted(met.items()):
        if len(olds) > 1 or new in every:
            print(f"look: {' '.join(sorted(olds))} -> {new}" + (" (is there already)" if new in every else ""))
    changed = 0
    for path in list(files(crates, (".antt", ".rt", ".edit"))) + list(files(".", (".md",))):
        text = read(path)
        ending = os.path.splitext(path)[1]
        new = SPAN.sub(lambda s: turn(s.group(), rows), text) if ending == ".md" else turn_code(text, rows, COMMENT[ending])
        if new != text:
            changed += 1
            if not check:
                write(path, new)
    if not check:
        rename_module(crates)
    print(f"respell: {len(rows)} names, {changed} files")
    return 0


if __name__ == "__main__":
    raise SystemExit(main(sys.argv[1:]))
