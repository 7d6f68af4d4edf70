#!/usr/bin/env python3
"""Brings crates/*/must-fail/*.edit to today's spelling, behind the kit's port.py and respell.py, from the edits as they stood before those
ran. Each keeps its file name and its wrong meaning. A pair that only imports names becomes one on today's import line; a pair in a proof
that walked the code by hand goes where that walk is gone, as the pair in src/ says the wrong program.

usage: edits.py            at the top of the repository: writes the edits
       edits.py look       each `old:` stands once, in turn, in its file; lists those that don't
       edits.py beside     each edit that differs from what stood before, the older and today's pairs beside one another
"""

import glob
import os
import re
import subprocess
import sys

from respell import TABLE, TOKEN, snake

BEFORE = "93ad6ff0c0350787c3a55176bfd4837478b7480d"
# The library's words, old and new.
WORDS = {"_+_": "◌+◌", "_-_": "◌-◌", "_*_": "◌*◌", "getD": "get_or"}
IMPORT = re.compile(r"use (Prim|lib|mathlib|Rattle)[.·]?([\w.·'-]*)\.\{([^}]*)\}$")
PROJECTED = re.compile(r"\((\w+(?: \w+)+) \.(\w+)\)")
SIMPLE = re.compile(r"([\w)»]) \.(?=[\w«])")
CAMEL = re.compile(r"[a-z][a-z0-9]*[A-Z]\w*$")
# What the rules here can't write: edit, then its pairs whole.
BY_HAND = {
    # the names of goals are of the condition's words, and proof files cite them
    "frame/any_count": [("src/kind.rt", "    if count != held {", "    let count = held; if count != held {")],
    # likewise, each the same program, or one that does the same wrong where the landed one did
    "lines/base_zero": [
        ("src/bases.rt", "        return false;", "        return true;"),
    ],
    "marks/heard_counted": [
        ("src/lib.rt", "if !heard_by(node, a, i + 1) {", "if !heard_by(node, a, i + 1) { total += 0; } else {"),
    ],
    "event_forms/carry_of_number_zero": [
        ("src/lib.rt", "    if k < 1 {", "    if k < 1 { return Line::Carry { from: 1, to: 2, number: k, next };"),
    ],
    "bursts/any_distance": [
        ("src/lib.rt", "    if back != size {", "    let size = back; if back != size {"),
    ],
    "carry_refusals/sixteen_for_zero_alone": [
        ("src/lib.rt", "if broadcasts(sender) < k {", "let given = k; let k: usize = 0; if broadcasts(sender) < k {"),
        ("src/lib.rt", "if heard_by(receiver, a, k) {", "if heard_by(receiver, a, given) {"),
    ],
    "waiting/constant": [
        ("src/lib.rt", "while a < n {", "let n: usize = 0; while a < n {"),
    ],
    "node_arrivals/refused_carry_counted": [
        ("src/lib.rt", "        return after;", "        return mark(after, a, k);"),
    ],
    # likewise: the digits behind a zero are read as those behind another digit
    "text/zero_before_a_number": [
        ("src/number.rt", "        return Number::Value(0, at + 1);", "        return digits_from(s, at + 1, 0);"),
    ],
    # the proof that goes with the edited code, so that what refuses the edit is `set_taken`
    "set_text/higher_base_first": [
        (
            "specs/Text.antt",
            "pair_line p = (field_text faulty_word p.lower ++ field_text (space ∷ []) p.higher) ++ feed",
            "pair_line p = (field_text faulty_word p.higher ++ field_text (space ∷ []) p.lower) ++ feed",
        ),
        (
            "src/put.rt",
            '    let first = put_field(out, at, b"faulty ", pair.lower as u64);',
            '    let first = put_field(out, at, b"faulty ", pair.higher as u64);',
        ),
        (
            "src/put.rt",
            '    let second = put_field(out, first, b" ", pair.higher as u64);',
            '    let second = put_field(out, first, b" ", pair.lower as u64);',
        ),
        (
            "proofs/put/put_pair/Answers.antt",
            "    let t = field_text faulty_word a.pair.lower in",
            "    let t = field_text faulty_word a.pair.higher in",
        ),
        (
            "proofs/put/put_pair/Answers.antt",
            "    let u = field_text (space ∷ []) a.pair.higher in",
            "    let u = field_text (space ∷ []) a.pair.lower in",
        ),
        (
            "proofs/put/put_pair/Answers.antt",
            "few_field number_digits faulty_word a.pair.lower (omega arith) (below_byte a.pair.lower",
            "few_field number_digits faulty_word a.pair.higher (omega arith) (below_byte a.pair.higher",
        ),
        (
            "proofs/put/put_pair/Answers.antt",
            "few_field number_digits (space ∷ []) a.pair.higher (omega arith) (below_byte a.pair.higher",
            "few_field number_digits (space ∷ []) a.pair.lower (omega arith) (below_byte a.pair.lower",
        ),
    ],
    # today one import has both names of `limits`
    "faulty_sets/seven_bases": [
        ("src/lib.rt", "use limits::{SMALL_BASES, size_refusal};", "use limits::size_refusal; const SMALL_BASES: usize = 7;"),
    ],
}


def read(path):
    if not os.path.exists(path):
        return None
    with open(path, encoding="utf-8") as f:
        return f.read()


def before(path):
    return subprocess.run(["git", "show", f"{BEFORE}:{path}"], capture_output=True, check=True).stdout.decode()


def pairs_of(text):
    file, old, pairs = None, None, []
    for line in text.splitlines():
        if line.startswith("file: "):
            file = line[6:].strip()
        elif line.startswith("old: "):
            old = line[5:]
        elif line.startswith("new:"):
            pairs.append((file, old, line[5:]))
    return pairs


def comment_of(text):
    return [line for line in text.splitlines() if line.startswith("#")]


def names():
    return dict(line.split("\t") for line in read(TABLE).splitlines())


def words(text, turn):
    """The names of definitions and lemmas: those of the table, and those in camel case that port.py turned itself."""

    def one(m):
        name = m.group(0)
        return turn.get(name) or WORDS.get(name) or (snake(name) if CAMEL.match(name) else name)

    return TOKEN.sub(one, text)


def spelled(text, turn):
    """A line of specs/: names, and projections written tight; `f x .p` projects what `f x` gives, also with `K .f x` in front."""
    new = words(text, turn)
    new = PROJECTED.sub(lambda m: f"({m.group(1)}).{m.group(2)}", new)
    new = re.sub(r"(?<=eqb )\((\w+(?: \w+)+)\)\.(\w+)", r"(\1).\2", new)
    new = SIMPLE.sub(r"\1.", new)
    new = re.sub(r"\((\w+\.\w+)\)", r"\1", new)  # no brackets round a lone projection
    new = new.replace("«verify_count»", "verify_count").replace("(p ∷_)", "(p ∷◌)")
    for old, word in WORDS.items():
        new = re.sub(r"(?<![\w◌])" + re.escape(old) + r"(?![\w◌])", word, new)
    return new


def imported(file_text, module):
    """Today's line that imports from a module."""
    lines = [line for line in file_text.splitlines() if line.startswith(f"use {module}.{{")]
    assert len(lines) == 1, (module, lines)
    return lines[0]


def gained(pairs, file_text, turn):
    """Pairs on today's import lines, for the names that older pairs brought in."""
    want = {}
    for _, old, new in pairs:
        (base, rest, a), (_, _, b) = IMPORT.match(old).groups(), IMPORT.match(new).groups()
        module = "Rattle." + rest.replace("·", ".") if base == "Rattle" else "Rattle.std.specs.Prelude"
        some = [n for n in b.split(", ") if n not in a.split(", ")]
        want.setdefault(module, []).extend(WORDS.get(n, words(n, turn)) for n in some)
    out = []
    for module, some in want.items():
        line = imported(file_text, module)
        there = line[line.index("{") + 1 : -1].split(", ")
        some = [n for n in some if n not in there]
        if some:
            out.append((line, line[:-1] + ", " + ", ".join(some) + "}"))
    return out


def turned(crate, name, pairs, turn):
    key = f"{crate}/{name}"
    if key in BY_HAND:
        return BY_HAND[key]
    out = []
    imports = [p for p in pairs if IMPORT.match(p[1]) and p[0].endswith(".antt")]
    for file in dict.fromkeys(p[0] for p in imports):
        text = read(f"crates/{crate}/{file}")
        out += [(file, o, n) for o, n in gained([p for p in imports if p[0] == file], text, turn)]
    for file, old, new in pairs:
        if (file, old, new) in imports or file.startswith("proofs/"):
            continue
        out.append((file, spelled(old, turn), spelled(new, turn)) if file.endswith(".antt") else (file, old, new))
    return out


def look(crate, pairs):
    texts, found = {}, []
    for file, old, new in pairs:
        if file not in texts:
            texts[file] = read(f"crates/{crate}/{file}")
        count = texts[file].count(old) if texts[file] is not None else -1
        found.append(count)
        if count == 1:
            texts[file] = texts[file].replace(old, new)
    return found


def comment(lines, turn, walk_gone):
    text = "\n".join(words(line, turn) for line in lines)
    if walk_gone:  # the sentence on how the walk went on
        flat = " ".join(line[2:] for line in text.splitlines())
        text = "# " + re.sub(r"\. The walk go(?:es)? .*", "", flat)
    return text


def write_all():
    turn = names()
    for path in sorted(glob.glob("crates/*/must-fail/*.edit")):
        crate, name = path.split(os.sep)[1], os.path.basename(path)[:-5]
        old = before(path)
        pairs = pairs_of(old)
        new = turned(crate, name, pairs, turn)
        gone = any(p[0].startswith("proofs/") for p in pairs)
        said = comment(comment_of(old), turn, gone)
        if new == pairs and said == "\n".join(comment_of(old)):
            text = old
        else:
            text = written(said, new)
        with open(path, "w", encoding="utf-8") as out:
            out.write(text)


def written(said, pairs):
    lines, file = [said], None
    for f, o, n in pairs:
        if f != file:
            lines.append(f"file: {f}")
            file = f
        lines += [f"old: {o}", f"new: {n}"]
    return "\n".join(lines) + "\n"


def look_all():
    bad = 0
    paths = sorted(glob.glob("crates/*/must-fail/*.edit"))
    for path in paths:
        found = look(path.split(os.sep)[1], pairs_of(read(path)))
        if any(n != 1 for n in found) or not found:
            bad += 1
            print(path, found)
    print(f"{len(paths)} edits, {bad} that do not stand")


def beside():
    for path in sorted(glob.glob("crates/*/must-fail/*.edit")):
        old, new = before(path), read(path)
        if old != new:
            print(f"== {path}\n{old.rstrip()}\n--\n{new.rstrip()}")


if __name__ == "__main__":
    {"look": look_all, "beside": beside}.get(" ".join(sys.argv[1:]), write_all)()
