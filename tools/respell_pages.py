#!/usr/bin/env python3
"""Respells the names of definitions in README.md, samples/README.md and docs/, as tools/respell.py respelled them in the crates.

Run once, at the top, with a checkout of the commit that docs/PORT.md begins with as its argument. Only between backquotes, and only a name that stands
in that checkout's crates and no more in today's; docs/PORT.md itself has old and new names side by side and is left out.
"""
import glob
import os
import re
import sys

sys.path.insert(0, os.path.dirname(os.path.abspath(__file__)))
from respell import TOKEN, snake

KINDS = ("crates/*/src/**/*.rt", "crates/*/specs/**/*.antt", "crates/*/proofs/**/*.antt", "rust/*/src/**/*.rs", "include/*", "examples/*")


def names(top):
    found = set()
    for kind in KINDS:
        for path in glob.glob(f"{top}/{kind}", recursive=True):
            if os.path.isfile(path):
                found.update(TOKEN.findall(open(path, encoding="utf-8").read()))
    return found


def main():
    before, now = names(sys.argv[1]), names(".")

    def of(token):
        if token in before and token not in now:
            for new in (snake(token), token.replace("-", "_").lower()):
                if new in now:
                    return new
        return token

    def quoted(text):
        return re.sub(r"\binner/", "Inner/", TOKEN.sub(lambda m: of(m.group()), text))

    for path in ["README.md", "samples/README.md", *glob.glob("docs/**/*.md", recursive=True)]:
        if path == "docs/PORT.md":
            continue
        text = open(path, encoding="utf-8").read()
        new = re.sub(r"`[^`\n]+`", lambda m: quoted(m.group()), text)
        if new != text:
            open(path, "w", encoding="utf-8").write(new)


if __name__ == "__main__":
    main()
