#!/usr/bin/env python3
"""Brings this repository's own definitions and lemmas to the spelling of today's Rattle. It was run once, at the top,
right behind the kit's port.py (docs/PORT.md).

usage: python3 tools/respell.py

What is declared in crates/*/specs and crates/*/proofs with a capital or a dash inside its name gets snake case: `setFlag`
becomes `set_flag`, the lemma `fault-high` `fault_high`. A lemma whose name would then be a definition's gets `_lem` behind
it. Names that the sources brought in as `M·x`, since a function was called `x` too, are `x` again, as today a clause does
not see functions. The crate `hex` becomes `hexverdict`, since the kit has a library of that name. Strings are left alone,
and so is the code of sources: only their clauses have such names. It turns .antt, .rt and .edit files, and names between
backticks in README.md and docs/*.md. It prints each new name, and stops where two would fall together.
"""

import os
import re
import subprocess
import sys

CAMEL = re.compile(r"^[a-z][A-Za-z0-9_'-]*[A-Z]")
DECLARED = re.compile(r"^\s*(?:unfoldable |abbrev |rec )*(?:pub )?(?:abbrev )?([a-zA-Z][^\s(){}:]*)\s*:(?:\s|$)")
TOKEN = re.compile(r"[^\s(){}\[\];,.@\"`=·:]+")
PIECES = re.compile(r'("(?:[^"\\]|\\.)*")')
# lemmas whose name in snake case is a definition's, spelled by port.py so that the two would fall together
LEMMAS = {"same_over": "same_over_lem", "same_text": "same_text_lem"}


def files(*ends):
    for folder, dirs, names in os.walk("crates"):
        dirs[:] = sorted(d for d in dirs if d != "out")
        for name in sorted(names):
            if name.endswith(ends):
                yield os.path.join(folder, name)


def read(path):
    with open(path, encoding="utf-8") as f:
        return f.read()


def write(path, text, before):
    if text != before:
        with open(path, "w", encoding="utf-8") as f:
            f.write(text)


def shared(path):
    """Whether a file's own names are for others too: definitions and lemma files, not the proof of one function."""
    return "/specs/" in path or bool(re.match(r"^crates/\w+/proofs/[A-Z]\w*\.antt$", path))


def snake(name):
    name = re.sub(r"(?<=[a-z0-9])([A-Z])(?=[a-z0-9]|-|$)", lambda m: "_" + m.group(1).lower(), name)
    return name.replace("-", "_")


def collect():
    camel, dashed, plain = set(), set(), set()
    for path in files(".antt"):
        for line in read(path).split("\n"):
            m = DECLARED.match(line)
            if not m:
                continue
            name = m.group(1)
            if CAMEL.match(name):
                camel.add(name)
            elif "-" in name and shared(path):
                dashed.add(name)
            elif shared(path):
                plain.add(name)
    names = {n: snake(n) for n in camel}
    taken = set(names.values()) | plain
    for n in sorted(dashed):
        new = snake(n)
        names[n] = new + "_lem" if new in taken else new
    return names


def turned(text, names, dashes, old=False):
    """The text with each name of a piece of code respelled; dashes: also names with a dash; old: a text that port.py did not turn."""

    def one(m):
        word = m.group(0)
        if word in names and (dashes or "-" not in word):
            return names[word]
        return snake(word) if old and CAMEL.match(word) else word

    return TOKEN.sub(one, text)


def line_turned(line, names, dashes, old):
    head, mark, remark = re.match(r"^(.*?)((?:^|(?<=\s))(?:--|//)(?=\s|$))?((?(2).*|))$", line, re.S).groups()
    parts = PIECES.split(head)
    parts[0::2] = [turned(p, names, dashes, old) for p in parts[0::2]]
    remark = re.sub(r"`[^`]*`", lambda m: turned(m.group(0), names, True), remark or "")
    return "".join(parts) + (mark or "") + remark


def respelled(path, text, names):
    dashes = path.endswith((".antt", ".edit"))
    own = dict(names)
    if path.endswith((".antt", ".edit")):
        own.update(LEMMAS)
    return "\n".join(line_turned(line, own, dashes, path.endswith(".edit")) for line in text.split("\n"))


def plain_aliases(path, text):
    """`x as M·x` is `x`, but in an .antt file, where another `x` stands, `m_x`."""
    for m in re.findall(r"(\w+) as (\w+·\w+)", text):
        new = m[0] if path.endswith(".rt") else m[1].replace("·", "_").lower()
        text = text.replace(f"{m[0]} as {m[1]}", m[0] if new == m[0] else f"{m[0]} as {new}").replace(m[1], new)
    return text


def crate_renamed(path, text):
    if path.endswith(".rt"):
        text = re.sub(r"(?<![\w:])hex::", "hexverdict::", text)
    return text.replace("Rattle.hex.", "Rattle.hexverdict.")


def main():
    names = collect()
    for old, new in sorted(names.items()):
        print(f"{old} -> {new}")
    new = sorted(names.values())
    twice = [a for a, b in zip(new, new[1:]) if a == b]
    if twice:
        sys.exit(f"respell: fall together: {' '.join(twice)}")
    for path in list(files(".antt", ".rt", ".edit")):
        text = read(path)
        after = crate_renamed(path, plain_aliases(path, respelled(path, text, names)))
        write(path, after, text)
    pages = ["README.md"] + sorted("docs/" + f for f in os.listdir("docs") if f.endswith(".md"))
    for path in pages:
        text = read(path)
        after = re.sub(r"`[^`\n]*`", lambda m: turned(m.group(0), names, True, True), text)
        write(path, after.replace("crates/hex/", "crates/hexverdict/"), text)
    text = read("crates.txt")
    write("crates.txt", re.sub(r"(?<!\w)hex(?!\w)", "hexverdict", text), text)
    subprocess.run(["git", "mv", "crates/hex", "crates/hexverdict"], check=True)


main()
