#!/usr/bin/env python3
"""Counts the places where src/ may still read like older Rattle: python3 tools/count_places.py [--list]

Each pattern finds candidates by text; docs/DESIGN-PASS.md says which of them are places, and why one stays.
Tests are left out. Run it at the top of a checkout.
"""
import re
import subprocess
import sys
from collections import Counter

FUNCTION = re.compile(r"\n *(?:pub(?:\(crate\))? )?fn (\w+)(?:<[^(]*>)?\(([^)]*)\)")

# what is found line by line: the point, what it is, and how it looks
LINES = [
    (1, "enums", r"^ *(pub(\(crate\))? )?enum "),
    (1, "flags in structs", r"^    (pub(\(crate\))? )?\w+: bool,$"),
    (1, "variants that carry a number", r"^    \w+\((usize|u8|u16|u32|u64)\),$"),
    (1, "numbers matched as kinds", r"^ *[0-9]+ (if .* )?=>|matches!\(\w+, [0-9]"),
    (1, "errors and Nones passed on by hand", r"if let Err\(|Err\(\w+\) => (return )?Err\(|Err\(_\) =>|None => \(?(return )?\(?(None|\w+, None)|\{ Some\(\w+\) \} else \{ None|Some\(\w+\)$|or how many there are"),
    (3, "loops", r"^ *(for|while|loop)\b"),
    (3, "of them over a range or counted", r"^ *for .* in .*\.\.|enumerate\(\) \{$"),
    (3, "counts by hand", r"\+= 1;|saturating_add\(1\);"),
    (4, "impls of traits", r"^ *impl.* for "),
    (4, "casts and conversions", r"\bas (u8|u16|u32|u64|u128|usize)\b|\b(usize|u64|u16)::from\("),
    (4, "copies by hand", r"fn copied\b"),
    (6, "arrays and vectors", r"\[[a-zA-Z0-9<>]+; [A-Z0-9]+\]|Vec<"),
    (7, "closures, dyn, macros", r"\|\w+\| |\bdyn |impl Fn|macro_rules"),
]


def sources():
    listed = subprocess.run(["git", "ls-files", "crates/*/src/*.rt"], capture_output=True, text=True, check=True)
    return [f for f in listed.stdout.split() if not f.endswith("tests.rt")]


def main():
    listing = "--list" in sys.argv[1:]
    texts = {f: open(f, encoding="utf-8").read() for f in sources()}
    for point, what, look in LINES:
        found = [
            f"{f}:{n}: {line.strip()}"
            for f, text in texts.items()
            for n, line in enumerate(text.splitlines(), 1)
            if re.search(look, line) and not line.lstrip().startswith("//") or "or how many" in look and "or how many there are" in line
        ]
        print(f"{point} {what}: {len(found)}")
        if listing:
            print("\n".join("    " + line for line in found))
    long = []
    clauses = Counter()
    for f, text in texts.items():
        for name, parameters in FUNCTION.findall(text):
            count = sum(1 for p in re.split(r",(?![^<]*>)", parameters) if p.strip())
            if count >= 6:
                long.append(f"{f}: {name} has {count}")
        clauses.update(line.strip() for line in text.splitlines() if line.strip().startswith("requires"))
    again = [(n, c) for c, n in clauses.most_common() if n >= 3]
    print(f"5 functions with six parameters or more: {len(long)}")
    if listing:
        print("\n".join("    " + line for line in long))
    print(f"5 requires that stand word for word in three contracts or more: {len(again)}, in {sum(n for n, _ in again)} places")
    if listing:
        print("\n".join(f"    {n} {c}" for n, c in again))
    proofs = subprocess.run(["git", "ls-files", "crates/*/proofs/*.antt"], capture_output=True, text=True, check=True).stdout.split()
    answers = [f for f in proofs if f.endswith("/Answers.antt")]
    size = lambda files: sum(len(open(f, encoding="utf-8").read().splitlines()) for f in files)
    print(f"8 answer files: {len(answers)}, {size(answers)} lines; other proof files: {len(proofs) - len(answers)}, {size(proofs) - size(answers)} lines")


if __name__ == "__main__":
    main()
