#!/usr/bin/env python3
"""Brings the names of this repository's own definitions, lemmas and record fields from hyphens to snake case.

usage: python3 tools/respell.py        at the top of the repository, once, after the kit's own porting script

Which names: those that a file of specs/, or a lemma file right in proofs/, declares with a hyphen, and two that the porting script
left half turned. Types go to camel case. It changes code alone, and no comment; functions of src/, strings and files that hold
inputs and outputs have no such names. In README.md and docs/ a name is changed where it stands whole between backquotes.
"""

import glob
import re

WORD = re.compile(r"(?<![\w'-])[A-Za-z_][\w']*(?:-[\w']+)*")
DECLARED = re.compile(r"\s*(?:(?:abbrev|unfoldable|pub|opaque)\s+)*([A-Za-z_][\w']*(?:-[\w']+)+)\s*:(?!=)")
RECORD = re.compile(r"\s*(?:pub\s+)?record\s+([\w']+(?:-[\w']+)+)")
# what the porting script could not place: the kind is the kind of the device
LEFT = {"Kind-as-Kind": "D.Kind.Kind", "left_After": "left_after"}


def parts(line, mark):
    """The code of a line, and its comment."""
    at = line.find(mark)
    return (line, "") if at < 0 else (line[:at], line[at:])


def snake(name):
    if name[0].isupper():
        return "".join(word[:1].upper() + word[1:] for word in name.split("-"))
    return name.replace("-", "_")


def main():
    lemmas = glob.glob("crates/*/specs/**/*.antt", recursive=True) + glob.glob("crates/*/proofs/*.antt")
    turned = dict(LEFT)
    for path in lemmas:
        for line in open(path, encoding="utf-8"):
            code, _ = parts(line, "--")
            for pattern in (DECLARED, RECORD):
                found = pattern.match(code)
                if found:
                    turned[found.group(1)] = snake(found.group(1))
    together = {}
    for old, new in turned.items():
        together.setdefault(new, []).append(old)
    for new, olds in together.items():
        if len(olds) > 1:
            raise SystemExit(f"respell: {' and '.join(olds)} would both be {new}")

    def turn(text):
        return WORD.sub(lambda found: turned.get(found.group(0), found.group(0)), text)

    sources = [(path, "--") for path in glob.glob("crates/*/specs/**/*.antt", recursive=True) + glob.glob("crates/*/proofs/**/*.antt", recursive=True)]
    sources += [(path, "//") for path in glob.glob("crates/*/src/**/*.rt", recursive=True)]
    for path, mark in sources:
        old = open(path, encoding="utf-8").read()
        new = "\n".join("".join((turn(code), comment)) for code, comment in (parts(line, mark) for line in old.split("\n")))
        if new != old:
            open(path, "w", encoding="utf-8").write(new)
    for path in ["README.md", *glob.glob("docs/*.md")]:
        old = open(path, encoding="utf-8").read()
        new = re.sub(r"`([^`\n]+)`", lambda found: "`" + turned.get(found.group(1), found.group(1)) + "`", old)
        if new != old:
            open(path, "w", encoding="utf-8").write(new)
    print(f"respell: {len(turned)} names")


main()
