#!/usr/bin/env python3
"""Respells this repository's own definitions and lemmas: words in snake case, types and facts in camel case.

usage: python3 tools/respell.py         rewrites the files below crates/ and the pages, and prints each name old and new
       python3 tools/respell.py --list  only prints them

Names that the prover makes (of goals, invariants and measures) keep their dashes; so do names of the library.
"""

import os
import re
import sys

# A capital fact or type goes to camel case, and these would then stand beside an item of the same name.
BY_HAND = {
    "Too-large": "IsTooLarge",
    "Too-much": "IsTooMuch",
    "Some-job": "SomeJob",
    "numbered-getD": "numbered_get_or",
    "nth-get": "nth_get",
    "from-1": "from_1",
}

# Names in which only the prover's own words are joined.
MADE = re.compile(r"^(invariant|decreases|returns|overflow|loop|ensures|requires)-|-(requires|init|preserved|smaller)(-\d+)?$|^nonzero-")

DECLARED = re.compile(r"^ *(?:(?:abbrev|unfoldable|pub|data|record|ruleset) )*([^\s:(){}\[\],;.|]+)((?: \{[^}]*\}| \([^)]*\))*) :(.*)$")
MEMBER = re.compile(r"^  (?:\| )?(?:pub )?([^\s:(){}\[\],;.|]+)(?: \{[^}]*\}| \([^)]*\))* : ")
BINDER = re.compile(r"(?:\blet |\()([a-zα-ω][^\s:(){}\[\],;.|]*-[^\s:(){}\[\],;.|]*) ?[:=]")
RECORD = re.compile(r"^ *(?:pub )?(?:data|record) ([^\s:(){}\[\],;.|]+)")
ALIAS = re.compile(r" as ([A-Za-z][^\s:(){}\[\],;.|]*-[^\s:(){}\[\],;.|]*)")
LABEL = re.compile(r"\b(?:ensures|requires|ghost) ([a-z]+_[a-z_]+)(?: \{|:)")
TOKEN = re.compile(r"[A-Za-z_◌ℕ0-9'′+*<>≤≡≢∷&|/^-]+")


def files(root, *endings):
    for folder, dirs, names in os.walk(root):
        dirs[:] = sorted(d for d in dirs if d not in ("out", ".git", "target"))
        for name in sorted(names):
            if name.endswith(endings):
                yield os.path.join(folder, name)


def read(path):
    with open(path, encoding="utf-8") as f:
        return f.read()


def own_names(root):
    found = set()
    for path in files(os.path.join(root, "crates"), ".antt"):
        for line in read(path).split("\n"):
            line = re.sub(r"--(\s.*)?$", "", line)
            top = DECLARED.match(line)
            if top and not top[3].lstrip().startswith("goal."):
                found.add(top[1])
            member = MEMBER.match(line)
            if member:
                found.add(member[1])
            found.update(BINDER.findall(line) + RECORD.findall(line) + ALIAS.findall(line))
    for path in files(os.path.join(root, "crates"), ".rt"):
        # a clause's label, which older proofs spelled with dashes, and a name under which a clause brings a definition in
        found.update(n.replace("_", "-") for n in LABEL.findall(read(path)))
    return {n for n in found if ("-" in n or "′" in n) and re.match(r"[A-Za-z]", n) and not MADE.search(n)}


def respelled(name):
    if name in BY_HAND:
        return BY_HAND[name]
    name = name.replace("′", "'")
    if name[0].isupper():
        parts = name.split("-")
        return "".join(p[:1].upper() + p[1:] for p in parts)
    return name.replace("-", "_")


def turned(text, names):
    return TOKEN.sub(lambda m: names.get(m[0], m[0]), text)


def turned_page(text, names):
    """In a page only what stands in backticks is a name."""
    return re.sub(r"`[^`\n]+`", lambda m: turned(m[0], names), text)


def turned_source(text, names):
    """In code strings and comments stay."""
    part = re.compile(r'//[^\n]*|b?"(?:\\.|[^"\\])*"', re.S)
    out, at = [], 0
    for m in part.finditer(text):
        out.append(turned(text[at : m.start()], names))
        out.append(m[0])
        at = m.end()
    return "".join(out) + turned(text[at:], names)


def turned_proof(text, names):
    out = []
    for line in text.split("\n"):
        m = re.search(r"(^|\s)--(\s|$)", line)
        out.append(turned(line[: m.start()], names) + line[m.start() :] if m else turned(line, names))
    return "\n".join(out)


def main(argv):
    root = os.path.dirname(os.path.dirname(os.path.abspath(__file__)))
    names = {n: respelled(n) for n in own_names(root)}
    taken = {}
    for path in files(os.path.join(root, "crates"), ".antt", ".rt"):
        for token in TOKEN.findall(read(path)):
            taken.setdefault(token, path)
    seen = {}
    for old in sorted(names):
        new = names[old]
        note = ""
        if new in taken:
            note = "   stands already, in " + os.path.relpath(taken[new], root)
        if new in seen:
            note += "   falls together with " + seen[new]
        seen[new] = old
        print(f"{old} {new}{note}")
    if "--list" in argv:
        return 0
    for path in files(os.path.join(root, "crates"), ".antt", ".rt", ".edit"):
        old = read(path)
        new = turned_proof(old, names) if path.endswith(".antt") else turned_source(old, names)
        if new != old:
            with open(path, "w", encoding="utf-8") as f:
                f.write(new)
    for path in [*files(os.path.join(root, "docs"), ".md"), os.path.join(root, "README.md")]:
        old = read(path)
        new = turned_page(old, names)
        if new != old:
            with open(path, "w", encoding="utf-8") as f:
                f.write(new)
    return 0


if __name__ == "__main__":
    raise SystemExit(main(sys.argv[1:]))
