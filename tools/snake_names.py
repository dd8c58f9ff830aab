#!/usr/bin/env python3
"""Brings the book's own definitions and lemmas to today's spelling: words in snake case, facts and types in upper camel case.

usage: python3 tools/snake_names.py [FOLDER]     in the repository, or over the checkout FOLDER; once, after the kit's port.py

It turns each word `recordsLayout` of the crates and of docs/ to `records_layout`, also as a part of a lemma's name (`sound-recordsLayout`). Words of the sources that C, Rust and the
tests see have no capital after a small letter, so none of them changes. A word in `backquotes` of a page changes like one in code.
"""

import os
import re
import sys

# Facts that were spelled as words, a word of the library that only a lemma's name had kept, and pairs that would fall together.
OTHERWISE = {
    "rowsKnown": "RowsKnown",
    "suffixesKnown": "SuffixesKnown",
    "getD": "get_or",
}

# Lemmas, fields and constructors that port.py's spelling would let fall together with a definition keep the dash of their name.
DASHED = {
    "put_one": ("crates/verdict/proofs/", "crates/requests/proofs/"),
    "is_digit": ("crates/text/proofs/",),
    "is_inverse": ("crates/reporting/specs/", "crates/reporting/proofs/"),
    "all_found": ("crates/merge_sources/proofs/", "crates/merge/proofs/"),
    "goes_on": ("crates/batch/proofs/BookedSoFar.antt",),
    "is_open": ("crates/history/proofs/StepMatched.antt",),
}

# A fact of one file that was spelled as a word of everyday use.
FACT = ("crates/tables/proofs/NewRows.antt", "numbered", "IsNumbered")

WORD = re.compile(r"(?<![A-Za-z0-9_'/])[a-z][a-z0-9_']*[A-Z][A-Za-z0-9_']*")


def snake(word):
    if word in OTHERWISE:
        return OTHERWISE[word]
    return re.sub(r"(?<=[a-z0-9'])([A-Z])", lambda m: "_" + m.group(1).lower(), word).replace("__", "_").lower()


def texts(root):
    for top in ("crates", "docs"):
        for folder, dirs, files in os.walk(os.path.join(root, top)):
            dirs[:] = sorted(d for d in dirs if d not in ("out", "data"))
            for f in sorted(files):
                if f.endswith((".antt", ".rt", ".edit", ".md")):
                    yield os.path.join(folder, f)


def main(root):
    for path in texts(root):
        with open(path, encoding="utf-8") as f:
            text = f.read()
        turned = text
        for word, places in DASHED.items():
            if os.path.relpath(path, root).startswith(places):
                turned = re.sub(r"(?<![A-Za-z0-9_'-])" + word + r"(?![A-Za-z0-9_'-])", word.replace("_", "-"), turned)
        if os.path.relpath(path, root) == FACT[0]:
            turned = re.sub(r"(?m)^(?!--).*$", lambda m: re.sub(r"(?<![A-Za-z0-9_'-])" + FACT[1] + r"(?![A-Za-z0-9_'])", FACT[2], m.group(0)), turned)
        turned = WORD.sub(lambda m: snake(m.group(0)), turned)
        if turned != text:
            with open(path, "w", encoding="utf-8") as f:
                f.write(turned)


if __name__ == "__main__":
    main(sys.argv[1] if len(sys.argv) > 1 else ".")
