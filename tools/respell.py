#!/usr/bin/env python3
"""Brings the repository's own names, and the text of its must-fail edits, to the spelling of today's Rattle.

Run once, at the top, after the kit's port.py. Functions, fields and lemmas that the repository defines in camel case
become snake case (`sectorAt`: `sector_at`); types and modules keep their capitals. In the edits projections are
written tight, operators have `◌` for their places, and a library word has its new name, as port.py writes them elsewhere.
"""
import glob
import re

WORD = re.compile(r"[A-Za-z_][A-Za-z_0-9'₀-₉]*")
DEFINES = re.compile(r"\s*(?:abbrev\s+|unfoldable\s+|pub\s+)*([^\s:(){}]+)\s*(?:\{[^}]*\}\s*)?:\s")


def is_camel(word):
    return re.fullmatch(r"[a-z][a-z0-9]*[A-Z].*", word) is not None


def snake(word):
    return re.sub(r"(?<=[a-z0-9])([A-Z])", lambda m: "_" + m.group(1).lower(), word)


def files(pattern):
    return sorted(f for f in glob.glob(pattern, recursive=True) if "/out/" not in f)


def own_names():
    """The camel-case names that a signature of the repository defines, or that a lemma's name has as a part."""
    names = set()
    for path in files("crates/**/*.antt"):
        for line in open(path, encoding="utf-8"):
            defined = DEFINES.match(line)
            if defined:
                names.update(part for part in defined.group(1).split("-") if is_camel(part))
    return names


# What port.py wrote in the crates, for the edits, which it leaves alone: the library's words and its own choices of ours.
WORDS = {
    "getD": "get_or",
    "sizeOf": "size_of",
    "upTo": "up_to",
    "tallyOf": "tally_of",
    "stepOf": "step_of",
    "stateOf": "state_of",
    "saidOf": "said_of",
    "keyOf": "key_of",
    "lastOf": "last_of",
    "nextOf": "next_of",
    "saysOf": "says_of",
    "readingOf": "reading_of",
    "isNone": "is_none",
    "andThen": "and_then",
    "orElse": "or_else",
    "foundAt": "found_at",
    "upFrom": "up_from",
}


def rename(text, names):
    return WORD.sub(lambda m: snake(m.group(0)) if m.group(0) in names else m.group(0), text)


def tighten(line):
    line = re.sub(r"\((\w+(?: \.\w+)+)\)(?! \.)", lambda m: m.group(1).replace(" .", "."), line)
    line = re.sub(r"\b(\w+)((?: \.\w+)+)", lambda m: m.group(1) + m.group(2).replace(" .", "."), line)
    line = re.sub(r"\(now \((\w+)\.entry\)\)|now \((\w+)\.entry\)", lambda m: (m.group(1) or m.group(2)) + ".now", line)
    line = re.sub(r"(?<![\w◌])_([^\w\s(){},.]+)_(?!\w)", r"◌\1◌", line)
    line = line.replace("⌜ ", "").replace(" ⌝", "").replace("λ r. ", "")
    return line


def edit_line(line, names):
    if not line.startswith(("old:", "new:")):
        return rename(line, names)
    line = WORD.sub(lambda m: WORDS.get(m.group(0), m.group(0)), line)
    return tighten(rename(line, names))


def rewrite(path, turn):
    text = open(path, encoding="utf-8").read()
    new = turn(text)
    if new != text:
        open(path, "w", encoding="utf-8").write(new)


# A lemma whose name would fall together with the function that it speaks of.
CLASHES = {"crates/line/proofs/Digits.antt": ("run_on", "run_on-digit")}


def main():
    names = own_names()
    for path, (old, new) in CLASHES.items():
        rewrite(path, lambda text: re.sub(rf"(?<![\w-]){old}(?![\w-])", new, text))
    for path in files("crates/**/*.antt") + files("crates/**/*.rt") + ["README.md"] + files("docs/*.md"):
        rewrite(path, lambda text: rename(text, names))
    for path in files("crates/*/must-fail/*.edit"):
        rewrite(path, lambda text: "\n".join(edit_line(line, names) for line in text.split("\n")))


if __name__ == "__main__":
    main()
