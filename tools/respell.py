#!/usr/bin/env python3
"""Brings the repository's own names to the spelling of today's Rattle: words in snake case, types and modules in camel case.

usage: python3 tools/respell.py [FOLDER]      once, at the top of a repository, after the kit's own scripts

It goes by text, over crates/, README.md and docs/. A word in lower camel case that a file of specs/ or proofs/ uses is written in
snake case wherever it stands: in definitions, lemmas, contracts, comments, edits and pages. Where a lemma would then bear its
definition's name, the lemma gets `_lem` first. Nothing else is changed. Functions of src/ are in snake case already.
"""

import glob
import os
import re
import sys

TOKEN = re.compile(r"[A-Za-z_][\w'-]*")
PART = re.compile(r"[a-z](?:[a-z0-9_]*[a-z0-9])?[A-Z]")
# bytes in hexadecimal, and a name in capitals, are no words
KEPT = re.compile(r"x[0-9A-F]{2}$|dESK")

# A lemma whose definition has its name now: (crates, lemma).
LEMMAS = [
    (("pin_model",), "end_fits"),
    (("night_report",), "is_digit"),
    (("pin_model", "tack_extension"), "one_byte"),
    (("pin_model",), "same_key"),
    (("pin_creation",), "taken_at"),
    (("pin_creation", "pin_steps"), "with_keys"),
]


def is_camel(word):
    return word[0].islower() and not KEPT.match(word) and any(PART.match(p) for p in word.split("-"))


def respelled(word):
    parts = [re.sub("[A-Z]", lambda m: "_" + m.group(0).lower(), p) if PART.match(p) else p for p in word.split("-")]
    return "-".join(parts)


def texts(root, *patterns):
    for pattern in patterns:
        for path in sorted(glob.glob(os.path.join(root, pattern), recursive=True)):
            if os.path.isfile(path) and "/out/" not in path:
                with open(path, encoding="utf-8") as f:
                    yield path, f.read()


def write(path, text):
    with open(path, "w", encoding="utf-8") as f:
        f.write(text)


def main(root):
    for crates, lemma in LEMMAS:
        for crate in crates:
            for path, text in texts(root, f"crates/{crate}/proofs/**/*.antt"):
                new = TOKEN.sub(lambda m: lemma + "_lem" if m.group(0) == lemma else m.group(0), text)
                if new != text:
                    write(path, new)
    words = set()
    for path, text in texts(root, "crates/*/specs/**/*.antt", "crates/*/proofs/**/*.antt", "crates/*/must-fail/*.edit"):
        for m in TOKEN.finditer(text):
            if is_camel(m.group(0)):
                words.add(m.group(0))
    changed = 0
    for path, text in texts(root, "crates/**/*.rt", "crates/**/*.antt", "crates/*/must-fail/*.edit", "README.md", "docs/**/*.md"):
        new = TOKEN.sub(lambda m: respelled(m.group(0)) if m.group(0) in words else m.group(0), text)
        if new != text:
            write(path, new)
            changed += 1
    print(f"respell: {len(words)} words, {changed} files")


if __name__ == "__main__":
    main(sys.argv[1] if len(sys.argv) > 1 else ".")
