#!/usr/bin/env python3
"""Gives the choice by a test that crates/whole/specs/Choice.antt defines a name of its own, `when b then x else y`: `if b then x else y` is the
library's, which chooses among values alone and does not nest without parentheses, and today's gate keeps its name for it.

usage: python3 tools/choice.py     at the top of the repository, once
"""

import glob
import re

IF = re.compile(r"(?<![\w'◌.-])if(?![\w'◌-])")
# A text in quotes, or a comment.
SAID = re.compile(r'"(?:[^"\\]|\\.)*"|(?:^|(?<=\s))--(?=\s|$).*')


def turned(line):
    out, at = [], 0
    for it in SAID.finditer(line):
        out += [IF.sub("when", line[at : it.start()]), it[0].replace("  if b then x else y ", "  when b then x else y")]
        at = it.end()
    out.append(IF.sub("when", line[at:]))
    return "".join(out).replace("if◌then◌else◌", "when◌then◌else◌")


def of_rt(line):
    """In a source only the clauses and the ghost imports name it."""
    return turned(line) if re.match(r"\s*(requires|ensures|ghost)\b", line) else line


def main():
    for folder, ending, turn in (("specs", "antt", turned), ("proofs", "antt", turned), ("src", "rt", of_rt)):
        for path in glob.glob(f"crates/*/{folder}/**/*.{ending}", recursive=True):
            text = open(path, encoding="utf-8").read()
            new = "\n".join(map(turn, text.split("\n")))
            if new != text:
                open(path, "w", encoding="utf-8").write(new)


if __name__ == "__main__":
    main()
