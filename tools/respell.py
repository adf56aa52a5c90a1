#!/usr/bin/env python3
"""Brings this repository's own definitions, lemmas and fields to snake case, once, right after the toolchain's port.py.

usage: python3 tools/respell.py [--check]    at the top of the repository

A name that the antt files of crates/ declare and that has a dash or an inner capital gets plain underscores. Names that Rattle makes
(behind 'tie.' and 'goal.', and the steps behind a dot) stay, and so do functions of src/, exported names, strings, inputs and outputs.
Where a new spelling would meet another name, the table APART says what is written. In comments and pages only code spans turn.
--check writes nothing. It says which names fall together, and which a file takes from elsewhere.
"""

import os
import re
import sys

NAME = r"[^\s(){}\[\].;,@\"«»`]+"
DECLARED = re.compile(r"(?m)^ *(?:(?:pub|abbrev|unfoldable) )*(%s)(?: \{[^{}\n]*\})* :(?!:)" % NAME)
IMPORT = re.compile(r"\buse ([^\s;{]+)\{([^;}]*)\}")
SPAN = re.compile(r"`[^`\n]*`")

# A lemma that would have the name of a definition or a field: old, new.
APART = {
    "at-most-64-KiB": "at_most_64_kib",
    "address-back": "address_back_lem",
    "at-root": "at_root_lem",
    "end-leaf": "end_leaf_lem",
    "find-in": "find_in_lem",
    "in-pool": "in_pool_lem",
    "inners-apart": "inners_apart_lem",
    "inners-used": "inners_used_lem",
    "joints-apart": "joints_apart_lem",
    "left-leaf": "left_leaf_lem",
    "left-least": "left_least_lem",
    "line-of": "line_of_lem",
    "mask-answer": "mask_answer_lem",
    "not-past": "not_past_lem",
    "of-measure": "of_measure_lem",
    "prefix-in": "prefix_in_lem",
    "right-one": "right_one_lem",
    "route-in": "route_in_lem",
    "routes-apart": "routes_apart_lem",
    "seats-apart": "seats_apart_lem",
}
# The same, where the toolchain's port had already turned the lemma: old, new, in these files.
MADE = {
    "of_mask": ("of_mask_lem", ("crates/route/proofs/Masks.antt", "crates/route/proofs/answer/measure/Proof.antt")),
}


def in_snake_case(name):
    words = re.sub(r"(?<=[a-z0-9])[A-Z]", lambda m: "_" + m[0].lower(), name)
    return words.replace("-", "_")


def files(*ends):
    for top in ("crates", "docs"):
        for folder, dirs, names in os.walk(top):
            dirs[:] = sorted(d for d in dirs if d != "out")
            for name in sorted(names):
                if name.endswith(ends):
                    yield os.path.join(folder, name)


def read(path):
    with open(path, encoding="utf-8", newline="") as f:
        return f.read()


def is_old(name):
    return bool(re.match(r"[a-zμ+]", name)) and ("-" in name or bool(re.search(r"[a-z0-9][A-Z]", name)))


def own_names():
    """Each old name, with the files that declare it."""
    found = {}
    for path in files(".antt"):
        text = read(path)
        for m in DECLARED.finditer(text):
            rest = text[m.end() :].lstrip()
            if is_old(m[1]) and not rest.startswith(("tie.", "audit-tree-lts.", "lts.")):
                found.setdefault(m[1], []).append(path)
    return found


def foreign(text):
    """The names that a file takes from the toolchain's libraries."""
    names = set()
    for m in IMPORT.finditer(text):
        if not m[1].startswith("Rattle.") or re.match(r"Rattle\.(std|core|io|libc|bytes|check)\b", m[1]):
            names |= {n.strip() for n in m[2].split(",")}
    return names


def turn(code, table, stay):
    def one(m):
        name = m[0]
        behind = code[: m.start()]
        if behind.endswith(".") and "-" in name:
            head = re.search(r"(%s)\.$" % NAME, behind)
            if not head or head[1] not in ALIASES:
                return name
        if behind.endswith("tie.") or behind.endswith("goal."):
            return name
        return name if name in stay else table.get(name, name)

    return re.sub(NAME, one, code)


# Modules that a file names by a short word, behind which an own name may stand.
ALIASES = {"history"}


def turned(path, text, table):
    stay = foreign(text)
    if path.endswith((".antt", ".rt")):
        mark = "--" if path.endswith(".antt") else "//"
        lines = []
        for line in text.split("\n"):
            at = line.find(mark)
            code, note = (line, "") if at < 0 else (line[:at], line[at:])
            parts = re.split(r'("(?:[^"\\]|\\.)*")', code)
            code = "".join(p if p.startswith('"') else turn(p, table, stay) for p in parts)
            lines.append(code + SPAN.sub(lambda m: turn(m[0], table, stay), note))
        return "\n".join(lines)
    return SPAN.sub(lambda m: turn(m[0], table, stay), text)


def main(argv):
    own = own_names()
    table = {old: APART.get(old, in_snake_case(old)) for old in own}
    by_new = {}
    for old, new in table.items():
        by_new.setdefault(new, []).append(old)
    for new, olds in sorted(by_new.items()):
        if len(olds) > 1:
            print(f"together: {' '.join(sorted(olds))} -> {new}")
    paths = [*files(".antt", ".rt", ".md")] + ["README.md"]
    for path in paths:
        text = read(path)
        here = table | {old: to for old, (to, where) in MADE.items() if path in where}
        new = turned(path, text, here)
        if path.endswith((".antt", ".rt")):
            code = re.sub(r"(--|//)[^\n]*", "", text)
            words = set(re.findall(NAME, code))
            for old, to in table.items():
                if old in words and to in words and old not in foreign(text):
                    print(f"meets: {path}: {old} -> {to}")
            for old in sorted(foreign(text) & set(table)):
                print(f"stays: {path}: {old}")
        if new != text and "--check" not in argv:
            with open(path, "w", encoding="utf-8", newline="") as f:
                f.write(new)
    print(f"respell: {len(table)} names")
    return 0


if __name__ == "__main__":
    raise SystemExit(main(sys.argv[1:]))
