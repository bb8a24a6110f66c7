#!/usr/bin/env python3
"""Brings the names of this repository's definitions and lemmas to snake case: `ceilDiv` and `ceil-div` become `ceil_div`.

usage: python3 tools/snake_names.py [FOLDER]      once, at the top of the repository (or in FOLDER), after /opt/rattle/port/port.py

It rewrites specs/, proofs/, the clauses of src/ (functions of src/ keep their names), and what README and docs/ put between backticks. Names that a library gives, and
names that Rattle makes (all that stands behind `tie.`), stay. Strings of src/ on one line stay; it ran once, and turned two names in strings of `fields` that are mended by hand since. Where two names would fall together in one file, the lemma gets `_lem`, or the name that OTHER has.
"""
import collections
import glob
import os
import re
import sys

TOKEN = re.compile(r"[A-Za-zα-ωΑ-Ωℕℤ_][\w≤≡<'ℕℤ₀-₉]*(?:-[\w≤≡<'ℕℤ₀-₉]+)*")
COMMENT = re.compile(r"(^|\s)--(\s.*)?$")
OWN = re.compile(r"Rattle\.(?!std\b|core\b)")
DEFINED = re.compile(r"^[ ]*(?:(?:abbrev|unfoldable|pub|opaque|record|data)\s+)*([^\s(){}:;,.]+)(?:\s+[({][^=\n]*)?\s*:(?!\w)", re.M)
# names that would fall together and that both are definitions
OTHER = {
    "header-bytes": "header_bytes_of",
    "componentNumber": "component_number_of",
    "columnOf": "column_in",
    "sliceWith": "its_slice",
    "numberWith": "its_number",
    "slotWith": "its_slot",
    "candidateWith": "its_candidate",
}
# names that port.py has in snake case already, and that would fall together with a definition's in the crate
THERE = {
    ("fields", "no_code"): "no_code_lem",
    ("packets", "count_turn"): "count_turn_lem",
}


def odd(name):
    return bool(re.search(r"\w-\w", name)) or bool(re.match(r"[a-z]\w*[A-Z]", name))


def snake(name):
    return re.sub(r"(?<=[a-z0-9])([A-Z])", lambda m: "_" + m.group(1).lower(), name.replace("-", "_"))


def antt(root):
    return sorted(glob.glob(root + "/crates/*/specs/**/*.antt", recursive=True) + glob.glob(root + "/crates/*/proofs/**/*.antt", recursive=True))


def code(text):
    return "\n".join(COMMENT.sub(r"\1", line) for line in text.split("\n"))


def is_walk(path):
    return path.endswith("/Proof.antt")


def crate_of(path, root):
    return os.path.relpath(path, root).split("/")[1]


def read(path):
    with open(path, encoding="utf-8") as f:
        return f.read()


def gather(root):
    """The odd names that are the repository's own, its definitions in snake case, what libraries give in each file, and the names in each file."""
    own, plain, library, there = set(), set(), collections.defaultdict(set), collections.defaultdict(set)
    for path in antt(root):
        text = code(read(path))
        for m in re.finditer(r"use ([\w.·+-]+)\.\{([^}]*)\}", text):
            if not OWN.match(m.group(1)):
                library[path] |= {n.strip() for n in m.group(2).split(",")}
        there[path] = set(TOKEN.findall(text))
        if not is_walk(path):
            plain |= {n for n in DEFINED.findall(text) if not odd(n)}
            # defined here, or bound inside a definition
            own |= {n for n in there[path] if odd(n) and n not in library[path]}
    everywhere = set().union(*library.values())
    return {n for n in own if n not in everywhere}, plain, library, there


def together(own, plain, there):
    """What each name becomes; a lemma that meets a definition of its name in some file gets `_lem`."""
    by = collections.defaultdict(set)
    for n in own:
        by[snake(n)].add(n)
    to = {n: OTHER.get(n, snake(n)) for n in own}
    files = list(there.values())
    for name, names in by.items():
        known = {o for o in names | ({name} & plain) if o not in OTHER}
        for n in names:
            if "-" in n and n not in OTHER and any(n in f and o in f for o in known - {n} for f in files):
                to[n] = name + "_lem"
    return to


def turn_tokens(text, to, kept, walk):
    out, at = [], 0
    for m in TOKEN.finditer(text):
        n = m.group(0)
        out.append(text[at:m.start()])
        before = text[:m.start()][-4:]
        made = before.endswith("tie.")
        field = before.endswith(".") and not made
        if made or n not in to or n in kept:
            out.append(n)
        elif field and walk:
            out.append(to[n][:-4] if to[n].endswith("_lem") else to[n])
        else:
            out.append(to[n])
        at = m.end()
    out.append(text[at:])
    return "".join(out)


def ticked(text, to):
    return re.sub(r"`([^`\n]+)`", lambda m: "`" + turn_tokens(m.group(1), to, set(), False) + "`", text)


def turn_antt(path, to, library):
    lines = []
    for line in read(path).split("\n"):
        m = COMMENT.search(line)
        head, tail = (line[: m.start()], line[m.start():]) if m else (line, "")
        lines.append(turn_tokens(head, to, library[path], is_walk(path)) + ticked(tail, to))
    return "\n".join(lines)


def turn_rt(path, to):
    """Strings on one line keep what they say, and comments what is not between backticks."""
    out = []
    for line in read(path).split("\n"):
        m = re.search(r'(^|\s)//', line)
        if m and '"' not in line[: m.start()]:
            head, tail = line[: m.start()], line[m.start():]
        else:
            head, tail = line, ""
        parts = re.split(r'("(?:[^"\\]|\\.)*")', head)
        out.append("".join(p if p.startswith('"') else turn_tokens(p, to, set(), False) for p in parts) + ticked(tail, to))
    return "\n".join(out)


def write(path, text):
    if text != read(path):
        with open(path, "w", encoding="utf-8") as f:
            f.write(text)


def main(argv):
    root = argv[1] if len(argv) > 1 else "."
    own, plain, library, there = gather(root)
    to = together(own, plain, there)
    for path in antt(root):
        here = dict(to)
        for (crate, n), new in THERE.items():
            if crate_of(path, root) == crate:
                here[n] = new
        write(path, turn_antt(path, here, library))
    for path in sorted(glob.glob(root + "/crates/*/src/**/*.rt", recursive=True)):
        write(path, turn_rt(path, to))
    for path in [root + "/README.md", root + "/tests/README.md"] + sorted(glob.glob(root + "/docs/**/*.md", recursive=True)):
        write(path, ticked(read(path), to))
    for n in sorted(to):
        if to[n] != snake(n):
            print(f"{n} -> {to[n]}")
    print(f"{len(to)} names")


if __name__ == "__main__":
    main(sys.argv)
