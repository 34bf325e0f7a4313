#!/usr/bin/env python3
"""Brings this repository's own definitions and lemmas to the spelling of the library: words in snake case, types, facts and modules in camel case.

usage: tools/respell.py [ROOT]      once, after the toolchain's own script for older repositories; rewrites files in place

A name is the repository's own if a file of specs/ or proofs/ declares it and no line takes it from the library. Names of goals, functions of src/, strings,
inputs and outputs stay. It stops, and changes nothing, where two names would fall together.
"""

import os
import re
import sys

ROOT = os.path.abspath(sys.argv[1] if len(sys.argv) > 1 else os.path.join(os.path.dirname(os.path.abspath(__file__)), ".."))
CRATES = os.path.join(ROOT, "crates")
WORD = r"[^\s(){}\[\],;.:|\"`/⌜⌝]+"
TOKEN = re.compile(WORD)
DECLARED = re.compile(r"^\s*(?:(?:abbrev|unfoldable|pub|data|record)\s+)*(" + WORD + r")\s+:\s")
DECLARED_TYPE = re.compile(r"^\s*(?:pub\s+)?(?:data|record)\s+(" + WORD + r")\s")
FROM_STD = re.compile(r"^\s*(?:ghost )?use Rattle\.std\.[\w.]*\.\{(.*)\}")
FILE_NAMES = {"Entry_calls": "EntryCalls", "Sizes_of": "SizesOf"}


def files(*ends):
    for folder, dirs, names in os.walk(CRATES):
        dirs[:] = sorted(d for d in dirs if d != "out")
        for name in sorted(names):
            if name.endswith(ends):
                yield os.path.join(folder, name)


def read(path):
    with open(path, encoding="utf-8") as f:
        return f.read()


def own_names():
    declared, goals, library = set(), set(), set()
    for path in files(".antt"):
        for line in read(path).splitlines():
            taken = FROM_STD.match(line)
            if taken:
                library.update(n.strip() for n in taken.group(1).split(","))
            for form in (DECLARED, DECLARED_TYPE):
                found = form.match(line)
                if found and "-" in found.group(1):
                    (goals if ": goal." in line else declared).add(found.group(1))
    return declared - goals - library


def respelled(name):
    parts = name.split("-")
    if parts[0][:1].isupper():
        return "".join(p[:1].upper() + p[1:] for p in parts)
    return "_".join(parts)


def main():
    table = {n: respelled(n) for n in own_names()}
    taken = set()
    for path in files(".antt", ".rt"):
        for token in TOKEN.findall(read(path)):
            taken.add(token)
    clash = sorted(f"{n} -> {m}" for n, m in table.items() if m in taken)
    if "--clashes" in sys.argv:
        print("\n".join(clash))
        return
    here = {}
    for n, m in table.items():
        here.setdefault(m, []).append(n)
    twice = {m: ns for m, ns in here.items() if len(ns) > 1}
    if twice:
        raise SystemExit(f"fall together: {twice}")

    def turned(text, known):
        return TOKEN.sub(lambda t: known.get(t.group(0), t.group(0)), text)

    def path_turned(text):
        for old, new in FILE_NAMES.items():
            text = re.sub(r"\b" + old + r"\b", new, text)
        return text

    for path in files(".antt", ".rt"):
        text = read(path)
        new = path_turned(turned(text, table))
        if new != text:
            with open(path, "w", encoding="utf-8") as f:
                f.write(new)
    # edits still have every name in the older spelling, also those that the toolchain's script has turned
    words = {t for path in files(".antt") for t in TOKEN.findall(read(path))}
    for path in files(".edit"):
        text = read(path)
        older = {t: respelled(t) for t in TOKEN.findall(text) if "-" in t and respelled(t) in words and not t.startswith("-")}
        new = turned(text, older)
        if new != text:
            with open(path, "w", encoding="utf-8") as f:
                f.write(new)
    for path in list(files(".antt")):
        folder, name = os.path.split(path)
        stem = name[: -len(".antt")]
        if stem in FILE_NAMES:
            os.rename(path, os.path.join(folder, FILE_NAMES[stem] + ".antt"))
    print(f"{len(table)} names, {len(clash)} of them with the spelling of a word that stood elsewhere: see --clashes before")


main()
