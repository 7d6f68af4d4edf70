#!/usr/bin/env python3
"""Moves theorems from specs/ to proofs/, statements unchanged, in the crates where an edit of must-fail/ changes a definition: an edit of a
definition reads as BAD where theorems in specs/ rest on it. What a reader has to believe stays in specs/. Run once, at the top, behind
respell.py. A file is moved whole, or split: the names that STAY has stay, with the comments before them.
"""

import os
import re
import subprocess

STAY = {
    "frame": {"Encoding": None, "Message": None, "Reading": None, "Reading.Laws": ["Framed"], "Slots": None},
    "link_sets": {"Count": None, "Pairs": None, "Sets": None, "Statement": None},
    "protocol": {
        "Agreement": None,
        "Agreement.Calls": None,
        "Agreement.Growth": ["Delivered"],
        "Agreement.Invariant": None,
        "Agreement.Premise": ["idle_net"],
        "Agreement.Views": None,
        "Airtime": None,
        "Airtime.Statement": None,
        "Links": None,
        "Net": None,
        "Numbering": None,
        "Record": None,
        "Record.Memory": None,
        "Sound": None,
        "Steps": None,
        "Steps.Calls": ["Call", "CallBytes", "called", "AllBytes", "after_calls", "answers_of", "life"],
        "Steps.Cases": ["begun"],
        "Table": None,
    },
    "schedule": {
        "Header": None,
        "Meaning": None,
        "Meaning.Begins": ["with_ids"],
        "Meaning.Effects": ["carried_out", "Effect", "Effects"],
        "Report": None,
        "Theorem": None,
        "Walk": None,
    },
    "set_text": {"Text": None, "Taken": ["named", "read_to", "with_set", "SetTaken"]},
}
HEAD = re.compile(
    r"(?:(?:abbrev|unfoldable|opaque|pub|record|data)\s+)*([A-Za-z][\w'₀-₉-]*) (?:\{[^}]*\} |\([^)]*\) )*:(?: |$)"
)
TOKEN = re.compile(r"(?<![\w'₀-₉◌-])[A-Za-z_][\w'₀-₉◌]*(?:-[\w'₀-₉◌]+)*")
DECLARED = re.compile(r"^\s*(?:(?:abbrev|unfoldable|opaque|pub|record|data)\s+)*([A-Za-z][\w'₀-₉-]*) (?:\{[^}]*\} |\([^)]*\) )*:(?: |$)")


def read(path):
    with open(path, encoding="utf-8") as f:
        return f.read()


def write(path, text):
    os.makedirs(os.path.dirname(path), exist_ok=True)
    with open(path, "w", encoding="utf-8") as f:
        f.write(text)


def parts(text):
    """The comments at the head, the imports and `pub mod` lines, and the blocks, each with the comments before it."""
    lines = text.split("\n")
    head, uses, i = [], [], 0
    while i < len(lines) and lines[i].startswith("--"):
        head.append(lines[i])
        i += 1
    while i < len(lines):
        line = lines[i]
        if line.startswith("use "):
            while "{" in line and "}" not in line:
                i += 1
                line += "\n" + lines[i]
            uses.append(line)
        elif line.startswith("pub mod "):
            uses.append(line)
        elif line.strip():
            break
        i += 1
    blocks, block = [], []
    for line in lines[i:]:
        begins = line and not line[0].isspace() and not line.startswith("--") and (HEAD.match(line) or line.startswith("module "))
        if begins:
            before = []
            while block and block[-1].startswith("--"):
                before.insert(0, block.pop())
            if block:
                blocks.append(block)
            block = before
        block.append(line)
    if block:
        blocks.append(block)
    return head, uses, ["\n".join(b).strip("\n") for b in blocks]


def name_of(block):
    for line in block.split("\n"):
        m = HEAD.match(line)
        if m:
            return m.group(1)
    return None


def importable(block):
    """The lines of a block that declare what another file can import: not those of a record's fields."""
    lines = [l for l in block.split("\n") if not l.startswith("--")]
    return lines[:1] if re.match(r"(pub )?record ", lines[0]) else lines


def pruned(uses, body):
    tokens = set(TOKEN.findall(body))
    out = []
    for use in uses:
        m = re.match(r"(use [^{]*\.\{)([^}]*)(\})(.*)", use, re.S)
        if not m:
            word = re.match(r"use \S+ as (\S+)", use)
            if not word or word.group(1) + "." in body:
                out.append(use)
            continue
        names = [n.strip() for n in m.group(2).split(",") if n.strip()]
        keep = []
        for n in names:
            known = n.split(" as ")[-1]
            if "◌" in known:
                if all(p in body for p in known.split("◌") if p):
                    keep.append(n)
            elif known in tokens or not re.match(r"[A-Za-z]", known) and known in body:
                keep.append(n)
        if keep:
            out.append(m.group(1) + ", ".join(keep) + m.group(3))
    return out


def modules(crate):
    root = f"crates/{crate}/specs"
    for folder, _, names in os.walk(root):
        for n in sorted(names):
            if n.endswith(".antt") and n != "Lib.antt":
                yield os.path.relpath(os.path.join(folder, n), root)[:-5].replace("/", ".")


def path_of(crate, side, module):
    return f"crates/{crate}/{side}/{module.replace('.', '/')}.antt"


def node(crate, module):
    """The file in which a module of proofs/ is declared."""
    return path_of(crate, "proofs", module.rsplit(".", 1)[0]) if "." in module else f"crates/{crate}/proofs/Lib.antt"


def declare(crate, module):
    line = "pub mod " + module.rsplit(".", 1)[-1]
    path = node(crate, module)
    text = read(path) if os.path.exists(path) else ""
    if line in text.split("\n"):
        return
    head, uses, rest = [], [], text
    lines = text.split("\n") if text else []
    i = 0
    while i < len(lines) and (lines[i].startswith(("--", "use ", "pub mod")) or lines[i].startswith("    ") and "}" in lines[i]):
        i += 1
    lines.insert(i, line)
    write(path, "\n".join(lines).rstrip("\n") + "\n")
    if "." in module:
        declare(crate, module.rsplit(".", 1)[0])


def main():
    moved, split = set(), {}
    for crate, stays in STAY.items():
        every = list(modules(crate))
        for module in every:
            if (crate, module) == ("schedule", "Theorem.Proof"):
                # in proofs/ a file Proof.antt is that of a function
                subprocess.run(["git", "mv", path_of(crate, "specs", module), path_of(crate, "proofs", "Theorem.Agrees")], check=True)
                moved.add((crate, module))
                continue
            names = stays.get(module, [])
            if names is None:
                continue
            old, new = path_of(crate, "specs", module), path_of(crate, "proofs", module)
            if module not in stays:
                os.makedirs(os.path.dirname(new), exist_ok=True)
                subprocess.run(["git", "mv", old, new], check=True)
                text = "\n".join(l for l in read(new).split("\n") if not l.startswith("pub mod "))
                write(new, text)
                moved.add((crate, module))
                continue
            head, uses, blocks = parts(read(old))
            here = [b for b in blocks if name_of(b) in names]
            there = [b for b in blocks if name_of(b) not in names]
            own = {m.group(1) for b in here for m in map(DECLARED.match, importable(b)) if m}
            split[crate, module] = own
            mods = [u for u in uses if u.startswith("pub mod")]
            uses = [u for u in uses if not u.startswith("pub mod")]
            body = "\n\n".join(here)
            write(old, "\n".join(head + pruned(uses, body) + mods) + "\n\n" + body + "\n")
            body = "\n\n".join(there)
            used = sorted(n for n in own if n in set(TOKEN.findall(body)))
            back = [f"use Rattle.{crate}.specs.{module}.{{{', '.join(used)}}}"] if used else []
            write(new, "\n".join(head + pruned(uses, body) + back) + "\n\n" + body + "\n")
        gone = {m for c, m in moved if c == crate}
        for module in every + ["Lib"]:
            path = path_of(crate, "specs", module)
            if not os.path.exists(path):
                continue
            prefix = "" if module == "Lib" else module + "."
            lines = read(path).split("\n")
            keep = [l for l in lines if not (l.startswith("pub mod ") and prefix + l[8:].strip() in gone)]
            if keep != lines:
                write(path, "\n".join(keep))
        for c, module in sorted(moved | set(split)):
            if c == crate:
                declare(crate, module)
    rewrite(moved, split)


def rewrite(moved, split):
    pattern = re.compile(r"((?:ghost )?use )Rattle\.(\w+)\.specs\.([A-Za-z][\w.]*?)(\.\{[^}]*\}| as \w+)(;?)")

    def one(m):
        key = m.group(2), m.group(3)
        if key in moved:
            return f"{m.group(1)}Rattle.{key[0]}.proofs.{key[1]}{m.group(4)}{m.group(5)}"
        if key in split and m.group(4).startswith(".{"):
            names = [n.strip() for n in m.group(4)[2:-1].split(",") if n.strip()]
            here = [n for n in names if n.split(" as ")[0] in split[key]]
            there = [n for n in names if n not in here]
            out = []
            if here:
                out.append(f"{m.group(1)}Rattle.{key[0]}.specs.{key[1]}.{{{', '.join(here)}}}{m.group(5)}")
            if there:
                out.append(f"{m.group(1)}Rattle.{key[0]}.proofs.{key[1]}.{{{', '.join(there)}}}{m.group(5)}")
            return "\n".join(out)
        return m.group(0)

    own = re.compile(r"use Rattle\.(\w+)\.proofs\.([\w.]+)\.\{")
    for folder, dirs, names in os.walk("crates"):
        dirs[:] = [d for d in dirs if d != "out"]
        for n in names:
            if n.endswith((".antt", ".rt")):
                path = os.path.join(folder, n)
                text = read(path)
                new = pattern.sub(one, text)
                if new != text:
                    write(path, new)


if __name__ == "__main__":
    main()
