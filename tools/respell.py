#!/usr/bin/env python3
"""Spells this repository's own definitions, fields and lemmas in snake case, as today's Rattle does, once, after port.py.

usage: respell.py FOLDER [NAMES]    the repository at FOLDER; its names are those that FOLDER, or else NAMES, declares

A name's camel case becomes underscores; a dash stays where it joins two names, and is an underscore elsewhere.
Types and facts keep their capitals. A name that a file takes from a library stays.
Names of Rust items, strings, inputs and outputs are not touched.
"""

import os
import re
import sys

TOKEN = r"[^\s(){}\[\].;,@\"«»∷]+"
DECLARED = re.compile(
    r"^\s*(?:pub |abbrev pub |abbrev |unfoldable pub |unfoldable |data |pub data |record |pub record )*"
    r"([^\s:(){}]+)((?: \{[^{}]*\}| \([^()]*\))*) :(?!:)"
)
USE = re.compile(r"^\s*(?:pub )?(?:ghost )?use ([^\s;{]+)\.\{([^}]*)\}")
# A folder of definitions that today's Rattle would take for one of its own.
FOLDER_NAMES = {"Contracts": "Promised"}
# What would fall together with another name, and what has a name of the library in it that changed.
BY_HAND = {
    "isNumeral": "is_numeral_text",
    "earlier-on-B": "earlier_on_b",
    "J4-passes": "j4_passes",
    "J4-lacks": "j4_lacks",
    "J5-passes": "j5_passes",
    "J5-lacks": "j5_lacks",
    "the-rules": "TheRules",
    "count_at": "count_at_lem",
    "counts_step": "counts_step_lem",
    "on_line": "on_line_lem",
}
# Names of Rust items that lemmas had too: only the lemmas change.
LEMMAS_ALONE = {"count_at", "counts_step", "on_line"}
LIBRARY = set(
    "length take drop map set get_or append sum min max reverse repeat any all filter flat_map mod div zip".split()
)


def texts(root):
    for folder, dirs, files in os.walk(os.path.join(root, "crates")):
        dirs[:] = sorted(d for d in dirs if d not in ("out", "target"))
        for f in sorted(files):
            if f.endswith((".rt", ".antt")):
                yield os.path.join(folder, f)


def read(p):
    with open(p, encoding="utf-8") as f:
        return f.read()


def snake(part):
    if not part[:1].islower():
        return part
    part = re.sub(r"(?<=[a-z0-9'])([A-Z])", lambda m: "_" + m[1].lower(), part)
    return re.sub(r"\bgetD\b", "get_or", part)


def gathered(root):
    """Names declared in specs/ and in lemma files, and names taken from libraries."""
    specs, lemmas, taken = set(), set(), set()
    for p in texts(root):
        rel = os.path.relpath(p, root)
        t = read(p)
        for line in t.split("\n"):
            u = USE.match(line)
            if u:
                step = u[1].split(".")
                own = step[0] == "Rattle" and os.path.isdir(os.path.join(root, "crates", step[1]))
                if not own:
                    for item in u[2].split(","):
                        taken.update(item.replace(" as ", " ").split())
            if p.endswith(".antt") and not rel.endswith("/Proof.antt"):
                d = DECLARED.match(line)
                if d:
                    (specs if "/specs/" in rel else lemmas).add(d[1])
    return specs, lemmas, taken


def mapping(root, say=False):
    specs, lemmas, taken = gathered(root)
    known = {snake(n) for n in specs if "-" not in n and "_" in snake(n)} | LIBRARY
    plain = {snake(n) for n in specs | lemmas if "-" not in n}
    new = {}
    for n in sorted(specs | lemmas):
        if n in taken or "◌" in n:
            continue
        parts = [snake(x) for x in n.split("-")]
        out = parts[0]
        for a, b in zip(parts, parts[1:]):
            dash = n not in specs and a in known and b in known
            out += ("-" if dash else "_") + b
        if "-" in n and n not in specs and out in plain:
            # the rule for a lemma that would have its function's name
            out += "_lem"
        out = BY_HAND.get(n, out)
        if out != n:
            new[n] = out
    # names that would fall together
    back = {}
    for n in specs | lemmas | taken:
        back.setdefault(new.get(n, n), set()).add(n)
    for to, froms in sorted(back.items()):
        if len(froms) > 1:
            if say:
                print("together:", to, sorted(froms))
    return new, back


def respelled(text, new, walk=False):
    """In a proof that walks the code, a step of the walk keeps its name."""
    step = r"(?<!\bc\.)(?<!\bbefore\.)(?<!\btie\.)" if walk else ""
    return re.sub(rf"(?<![^\s(){{}}\[\].;,@\"«»∷]){step}{TOKEN}", lambda m: new.get(m[0], m[0]), text)


def main():
    root = sys.argv[1]
    new, _ = mapping(sys.argv[2] if len(sys.argv) > 2 else root, say=True)
    for p in list(texts(root)):
        t = read(p)
        ours = new if p.endswith(".antt") else {n: m for n, m in new.items() if n not in LEMMAS_ALONE}
        out = respelled(t, ours, p.endswith("/Proof.antt"))
        for old, to in FOLDER_NAMES.items():
            out = re.sub(rf"(\bspecs\.){old}\b", rf"\1{to}", out)
            if p.endswith("/specs/Lib.antt"):
                out = re.sub(rf"(\bmod ){old}\b", rf"\1{to}", out)
        if out != t:
            with open(p, "w", encoding="utf-8") as f:
                f.write(out)
        folder, name = os.path.split(p)
        stem, ext = os.path.splitext(name)
        first, _, last = stem.rpartition("__")
        if folder.endswith("/specs") and last in FOLDER_NAMES:
            os.rename(p, os.path.join(folder, (first + "__" if first else "") + FOLDER_NAMES[last] + ext))
    print(len(new), "names")


if __name__ == "__main__":
    main()
