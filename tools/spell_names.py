#!/usr/bin/env python3
"""Brings the repository's own definitions and lemmas to one spelling: words in snake case, types in camel case.

usage: python3 tools/spell_names.py [--list]     at the top of the repository; --list prints the renamings and writes nothing

It was run once, on what the toolchain's own script had made of the older state (docs/PORT.md), and stands here so that this can
be done again and compared; nothing else calls it.

A name is the repository's own where a file of specs/ or proofs/ declares it: a signature, a record's field, a constructor.
What the toolchain declares keeps its dashes: the goals in proofs/F/, and the names of the library.
"""

import glob
import re
import sys

NAME = r"[^\s(){}\[\].,;:«»λ→×=|]+"
WORDS = r"(?:(?:pub|abbrev|unfoldable|data|record) )*"
SIGNATURE = re.compile(rf"(?m)^\s*{WORDS}({NAME}(?: {NAME})*)(?:(?: \([^:\n]*:.*)?| \{{[^:\n]*:.*)? : ")
TOKEN = re.compile(NAME)
ALIAS = re.compile(rf" as ({NAME})")
LOCAL = re.compile(rf"\blet ({NAME}) [:=]")
ANSWERS = ("/Answers.antt", "/Invariants.antt", "/Choices.antt")


# Names whose plain spelling something else has: a word of the library, or a ghost field.
OTHER = {
    "bit-and": "bit_of_and",
    "bit-or": "bit_of_or",
    "runs-within": "all_runs_within",
    "parts-within": "all_parts_within",
}
# The same name as it stands in specs/ and proofs/ already, where no dot makes it the field.
TURNED = (re.compile(r"(?<![.\w-])parts_within(?![\w-]| =)"), "all_parts_within")

# Names that a parameter or the head of a clause binds.
BOUND = set(
    "cuts-all here-is there-is inside-run inside-xs inside-ys is-new is-next is-run e-is n-is next-is open-ended some-run "
    "zero-least least-behind each-front each-rest".split()
)


def own_names(proofs, sources):
    """The names with a dash that the files declare: definitions and lemmas, and what `as` or `let` calls something."""
    names = set()
    for path in proofs + sources:
        with open(path, encoding="utf-8") as file:
            text = file.read()
        for local in ALIAS.findall(text) + LOCAL.findall(text):
            if "-" in local:
                names.add(local)
    for path in proofs:
        if path.endswith(ANSWERS):
            continue
        with open(path, encoding="utf-8") as file:
            text = file.read()
        for match in SIGNATURE.finditer(text):
            names.update(name for name in match.group(1).split(" ") if "-" in name and not name.startswith("-"))
    return names


def spelled(name):
    """A type in camel case, any other name in snake case."""
    if name in OTHER:
        return OTHER[name]
    words = name.split("-")
    if words[0][0].isupper():
        return "".join(word[:1].upper() + word[1:] for word in words)
    return "_".join(word.lower() if word.isupper() else word for word in words)


def main(argv):
    proofs = sorted(glob.glob("crates/*/specs/**/*.antt", recursive=True) + glob.glob("crates/*/proofs/**/*.antt", recursive=True))
    sources = sorted(glob.glob("crates/*/src/**/*.rt", recursive=True))
    names = own_names(proofs, sources) | set(OTHER) | BOUND
    turned = {name: spelled(name) for name in names}
    taken = {}
    for old, new in turned.items():
        taken.setdefault(new, []).append(old)
    for new, olds in sorted(taken.items()):
        if len(olds) > 1:
            sys.exit(f"spell_names: {', '.join(olds)} would all be {new}")
    used = {}
    for path in proofs + sources:
        with open(path, encoding="utf-8") as file:
            for token in TOKEN.findall(file.read()):
                used.setdefault(token, path)
    for new, (old,) in sorted(taken.items()):
        if new in used:
            print(f"stands already: {new} (from {old}), in {used[new]}")
    if "--list" in argv:
        for old, new in sorted(turned.items()):
            print(f"{old} {new}")
        return
    for path in proofs + sources:
        with open(path, encoding="utf-8") as file:
            text = file.read()
        new = TOKEN.sub(lambda m: turned.get(m.group(0), m.group(0)), text)
        if path.endswith(".antt"):
            new = TURNED[0].sub(TURNED[1], new)
        if new != text:
            with open(path, "w", encoding="utf-8") as file:
                file.write(new)


main(sys.argv[1:])
