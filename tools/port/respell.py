#!/usr/bin/env python3
"""Brings the names of this repository's definitions, lemmas, fields and constructors to snake case, behind the kit's port.py, which
respells only some. Run once, at the top. Types and facts keep their capitals, functions of src/, exported names and strings theirs. A lemma
whose name falls together with that of a definition gets `_lem` at its end. The names, old and new, go to tools/port/names.tsv.

usage: respell.py            in crates/: specs/, proofs/ and the clauses of src/
       respell.py pages      in README.md, docs/ and must-fail/, by names.tsv: words in backquotes, and the lines of an edit
"""

import collections
import os
import re
import sys

TOKEN = re.compile(r"(?<![\w'₀-₉◌-])[A-Za-z_][\w'₀-₉◌]*(?:-[\w'₀-₉◌]+)*")
DECLARED = re.compile(
    r"^\s*(?:(?:abbrev|unfoldable|opaque)\s+)?(?:pub\s+)?(?:(?:abbrev|unfoldable|record|data|field)\s+)?"
    r"([A-Za-z][\w'₀-₉-]*) (?:\{[^}]*\} |\([^)]*\) )*:(?: |$)"
)
USE = re.compile(r"use ([A-Za-z][\w.'-]*)\.\{([^}]*)\}")
OLD = re.compile(r"[a-z0-9][A-Z]|-")
TABLE = "tools/port/names.tsv"
# Lemmas in snake case already, and the crates where a definition's new name stands beside them.
MAKES_ROOM = {
    "is_base": ("lines", "set_text"),
    "last_frame": ("hearing",),
    "line_after": ("stored_walk", "event_lines"),
    "from_end": ("frame",),
}


def files(ends):
    for folder, dirs, names in os.walk("crates"):
        dirs[:] = sorted(d for d in dirs if d != "out")
        for name in sorted(names):
            if name.endswith(ends):
                yield os.path.join(folder, name)


# Names that fall together with those of another crate: file, name, new name.
APART = [
    ("crates/hexadecimal/specs/Hex/Laws.antt", "from_end", "hex_at_end"),
    ("crates/hexadecimal/proofs/hex_from/Proof.antt", "from_end", "hex_at_end"),
    ("crates/sorting/specs/Insertion/Laws.antt", "holds_of", "listed_holds"),
    ("crates/text/specs/Number/Laws.antt", "number_digits", "number_of_digits"),
    ("crates/text/proofs/number/number_at/Proof.antt", "number_digits", "number_of_digits"),
    ("crates/protocol/specs/Agreement/Outer/Frames.antt", "frame_at", "frame_encoded"),
    ("crates/protocol/specs/Agreement/Outer/Refusals.antt", "frame_at", "frame_encoded"),
]


def read(path):
    with open(path, encoding="utf-8") as f:
        return f.read()


def write(path, text):
    with open(path, "w", encoding="utf-8") as f:
        f.write(text)


def is_walk(path):
    return "/proofs/" in path and path.endswith("Proof.antt")


def snake(name):
    return re.sub(r"([a-z0-9])([A-Z])", r"\1_\2", name).lower().replace("-", "_")


def without_comments(text):
    return re.sub(r"--.*", "", text)


def tables():
    """Names to turn everywhere, and lemmas in snake case already with which a definition's new name falls together."""
    own = set(os.listdir("crates"))
    library, declared, used, binders = set(), set(), set(), set()
    for path in files((".antt", ".rt")):
        text = read(path)
        for module, names in USE.findall(text):
            parts = module.split(".")
            if parts[0] != "Rattle" or len(parts) < 2 or parts[1] not in own:
                library |= set(re.split(r"[,\s]+", names))
        if path.endswith(".antt") and not is_walk(path):
            declared |= {m.group(1) for m in map(DECLARED.match, text.splitlines()) if m}
            used |= set(TOKEN.findall(without_comments(text)))
    of_library = {"false-name", "not-nil", "obs-res"}
    binders = {n for n in used if n[0].islower() and OLD.search(n)} - declared - library - of_library
    old = {n for n in declared if n[0].islower() and OLD.search(n)} - library
    by_new = collections.defaultdict(set)
    for name in old | {n for n in declared if n[0].islower() and not OLD.search(n)}:
        by_new[snake(name)].add(name)
    turn, first = {n: snake(n) for n in old | binders}, {}
    for new, names in by_new.items():
        lemmas = [n for n in names if "-" in n]
        camel = [n for n in names if re.search("[A-Z]", n)]
        if len(names) > 1 and lemmas:
            turn[lemmas[0]] = new + "_lem"
        elif len(names) > 1 and camel and new in MAKES_ROOM:
            first[new] = new + "_lem"
    turn |= {n: "held_field" for n in old if n == "field-of"}  # the library's field_of stands beside it
    return turn, first


def replaced(text, names, walk, free):
    def one(m):
        before = text[m.start() - 1 : m.start()]
        name = m.group(0)
        if walk and before == "." or free and (before in (".", ":") or text[m.end() : m.end() + 1] == "."):
            return name
        return names.get(name, name)

    return TOKEN.sub(one, text)


def crates():
    turn, first = tables()
    for path in files(".antt"):
        text = read(path)
        here = {o: n for o, n in first.items() if path.split(os.sep)[1] in MAKES_ROOM[o]}
        new = replaced(text, here, True, True)
        walk = is_walk(path)
        local = {m.group(1) for m in map(DECLARED.match, text.splitlines()) if m} if walk else set()
        new = replaced(new, {o: n for o, n in turn.items() if o not in local}, walk, False)
        if new != text:
            write(path, new)
    for path, old, new in APART:
        write(path, re.sub(rf"\b{old}\b", new, read(path)))
    camel = {o: n for o, n in turn.items() if re.search("[A-Z]", o)}
    for path in files(".rt"):
        text = read(path)
        new = TOKEN.sub(lambda m: camel.get(m.group(0), m.group(0)), text)
        new = re.sub(r"ghost use [^;]*;", lambda m: TOKEN.sub(lambda n: turn.get(n.group(0), n.group(0)), m.group(0)), new)
        if new != text:
            write(path, new)
    os.makedirs(os.path.dirname(TABLE), exist_ok=True)
    write(TABLE, "".join(f"{o}\t{n}\n" for o, n in sorted(turn.items())))
    print(len(turn), "names;", "lemmas that made room:", first, [o for o, n in turn.items() if n.endswith("_lem")])


def pages():
    turn = dict(line.split("\t") for line in read(TABLE).splitlines())
    for folder, dirs, names in os.walk("."):
        dirs[:] = [d for d in dirs if d not in (".git", "out", "target")]
        for name in names:
            path = os.path.join(folder, name)
            if name.endswith(".md"):
                text = read(path)
                code = lambda m: TOKEN.sub(lambda n: turn.get(n.group(0), n.group(0)), m.group(0))
                new = re.sub(r"`[^`\n]*`", code, text)
            elif name.endswith(".edit"):
                text = read(path)
                new = TOKEN.sub(lambda n: turn.get(n.group(0), n.group(0)), text)
            else:
                continue
            if new != text:
                write(path, new)


if __name__ == "__main__":
    pages() if sys.argv[1:] == ["pages"] else crates()
