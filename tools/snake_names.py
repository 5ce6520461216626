#!/usr/bin/env python3
"""Spells the definitions and lemmas of this repository in snake case, as the libraries of the kit do.

    tools/snake_names.py [FOLDER]

Run once, at the top, after the kit's port.py. It renames what specs/ and proofs/ declare (definitions, constructors, fields, lemmas) in all
files of crates/ with Rattle's endings. Functions of src/, strings, edits and names of the kit's libraries stay. In comments
only words that no text has (someName) are renamed. A lemma that would fall together with a definition ends in _lem.
"""

import collections
import pathlib
import re
import sys

ROOT = pathlib.Path(sys.argv[1] if len(sys.argv) > 1 else ".")
DECLARED = re.compile(r"^\s*(?:(?:pattern|unfoldable|abbrev|pub|axiom|data|record)\s+)*([^\s(){};,.\":]+)(?:\s*\{[^{}]*\}|\s*\([^()]*\))*\s*:\s")
WORD = r"[^\s(){}.;,@\"«»]+"
USE = re.compile(r"\buse ([^\s;{]+?)\.?\{([^}]*)\}")

# Lemmas that port.py spelled as a definition is spelled now: where they stand.
LEMMAS = {
    "too_long": ["listing/proofs/AnyLength.antt"],
    "too_many": ["frames/proofs/FramesTest.antt", "guarantees/proofs/SessionSimulates.antt"],
    "deep_of": ["guarantees/proofs/PlainVerdict.antt"],
    "big_endian": ["soundness/proofs/FileMeaning.antt"],
}

# Fields and constructors that would fall together with a definition.
APART = {
    "manifest-section": "section_of_manifest",
    "nodes-section": "section_of_nodes",
    "name-part": "part_of_name",
    "name-size": "size_of_name",
}


def snake(name):
    return re.sub(r"(?<=[a-z0-9])[A-Z]", lambda m: "_" + m[0].lower(), name).replace("-", "_")


def texts():
    for path in sorted((ROOT / "crates").rglob("*")):
        if path.suffix in (".rt", ".antt") and "out" not in path.parts:
            yield path, path.read_text()


def is_walk(path):
    return path.name == "Proof.antt"


def pieces(path, text):
    """Code, comments and strings, in their order, each with its kind."""
    comment = r"//[^\n]*" if path.suffix == ".rt" else r"(?:(?<=\s)|^)--[^\n]*"
    last = 0
    for m in re.finditer(rf'(?P<comment>{comment})|(?P<string>"(?:[^"\\\n]|\\.)*")', text, re.M):
        yield "code", text[last : m.start()]
        yield m.lastgroup, m[0]
        last = m.end()
    yield "code", text[last:]


def declared(all_texts):
    """Each name that is to change, with whether specs/ declares it."""
    names = {}
    for path, text in all_texts:
        if path.suffix != ".antt" or is_walk(path):
            continue
        for line in text.split("\n"):
            m = DECLARED.match(line)
            if m and m[1][0].islower() and snake(m[1]) != m[1]:
                names[m[1]] = names.get(m[1], False) or "specs" in path.parts
    return names


def main():
    for name, paths in LEMMAS.items():
        for path in (ROOT / "crates" / p for p in paths):
            path.write_text(re.sub(rf"(?<![\w'-]){name}(?![\w'-])", f"{name}_lem", path.read_text()))
    path = ROOT / "crates/guarantees/proofs/Demands.antt"
    path.write_text(path.read_text().replace("{big_endian}", "{big_endian_lem}").replace("= big_endian;", "= big_endian_lem;"))
    all_texts = list(texts())
    crates = {p.name for p in (ROOT / "crates").iterdir()}
    names = declared(all_texts)
    known = {m[1] for p, t in all_texts if p.suffix == ".antt" and not is_walk(p) for line in t.split("\n") if (m := DECLARED.match(line))}
    groups = collections.defaultdict(set)
    for name in known:
        groups[snake(name)].add(name)
    to = {}
    for name, in_specs in names.items():
        others = groups[snake(name)] - {name}
        is_lemma = "-" in name and not in_specs
        to[name] = APART.get(name) or snake(name) + ("_lem" if others and is_lemma else "")
        if others:
            print(f"look: {name} is {to[name]}, beside {' '.join(sorted(others))}")
    if len(set(to.values())) != len(to):
        for word, count in collections.Counter(to.values()).items():
            if count > 1:
                print(f"look: {count} names are {word}")

    def rename(path, text, taken):
        def word(m):
            name = m[0]
            if name in taken or name not in to:
                return name
            # a label of a walk, as c.before.some-call
            if is_walk(path) and "-" in name and text_before(m).endswith("."):
                return name
            return to[name]

        def text_before(m):
            return m.string[max(0, m.start() - 1) : m.start()]

        new = []
        for kind, piece in pieces(path, text):
            if kind == "code" and path.suffix == ".antt":
                piece = re.sub(WORD, word, piece)
            elif kind == "code":
                piece = re.sub(r"(?<![\w'-])[a-z][\w']*(?:-[\w']+)*(?![\w'-])", word, piece)
            elif kind == "comment":
                piece = re.sub(r"(?<![\w'-])[a-z]+[A-Z]\w*(?![\w'-])", word, piece)
            new.append(piece)
        return "".join(new)

    changed = 0
    for path, text in all_texts:
        taken = set()
        for m in USE.finditer(text):
            steps = m[1].split(".")
            if not (steps[0] == "Rattle" and len(steps) > 1 and steps[1] in crates):
                taken |= {n.strip().split(" as ")[0] for n in m[2].split(",")}
        new = rename(path, text, taken)
        if new != text:
            path.write_text(new)
            changed += 1
    print(f"{len(to)} names, {changed} files")


if __name__ == "__main__":
    main()
