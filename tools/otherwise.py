#!/usr/bin/env python3
"""Gives the conditional of levels and lines another name than the library's.

usage: tools/otherwise.py     at the top of the repository, once, after respell.py

`rt ci` refuses a definition named like one of the library's operators, as `if t then a else b` of levels `Basics` and of
lines `Bytes`. Each use keeps its operator and its meaning, and only its last word is another one:
`if t then a otherwise b`.
"""
import os
import re

NAME = "if◌then◌else◌"
WORD = re.compile(r"(?<![\w'.-])else(?![\w'-])")


def turn(l):
    """A line of antt, but for its comment: no other `else` stands alone there."""
    at = re.search(r"(^|\s)-- ", l)
    code, comment = (l[: at.start()], l[at.start() :]) if at else (l, "")
    code = code.replace(NAME, "if◌then◌otherwise◌")
    return WORD.sub("otherwise", code) + comment


changed = 0
for folder, dirs, files in os.walk("crates"):
    dirs[:] = sorted(d for d in dirs if d != "out")
    for f in sorted(files):
        if not f.endswith((".antt", ".rt", ".edit")):
            continue
        p = os.path.join(folder, f)
        with open(p, encoding="utf-8") as it:
            text = it.read()
        lines = text.split("\n")
        if f.endswith(".antt"):
            new = [turn(l) for l in lines]
        elif f.endswith(".rt"):
            new = [turn(l) if NAME in l or re.search(r"\bif\b.*\bthen\b.*\belse\b", l) and not l.lstrip().startswith("//") else l for l in lines]
        else:
            new = [turn(l) if re.match(r"(old|new): ", l) and (NAME in l or re.search(r"\bthen\b.*\belse\b|^(old|new): else ", l)) else l for l in lines]
        if new != lines:
            with open(p, "w", encoding="utf-8") as it:
                it.write("\n".join(new))
            changed += 1
print(changed, "files")
