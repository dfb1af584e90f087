#!/usr/bin/env python3
"""Brings the repository's own definitions and lemmas to the spelling of today's library: words in snake case, where they were written
with capitals or dashes inside.

usage: python3 tools/spell.py [--list]     at the top of the repository, once, after the kit's port.py and with everything committed

A name is turned where a file of specs/ or proofs/ defines it. It keeps its spelling where a file imports it from a library of the kit,
where it answers a goal of Rattle's own, and where its dash joins an operator or a type. Texts in quotes and comments stay, but for
names in backquotes. Must-fail edits are brought over by tools/edits.py. --list prints the names and writes nothing.
"""

import collections
import glob
import os
import re
import sys

WORD = re.compile(r"[^\s(){}\[\].,;\"«»`\\@]+")
DEFINES = re.compile(r"^\s*((?:(?:pub|abbrev|unfoldable|record|data|private)\s+)*)((?:[^\s:(){}=λ.,]+\s+)+):(?:\s+(.*))?$")
BINDS = re.compile(r"\b(?:let|λ)\s+((?:[^\s:(){}=.,]+\s+)*?[^\s:(){}=.,]+)\s*[:=.]|[({]((?:[^\s:(){}=.,]+\s+)+):\s")
KEYWORDS = {"pub", "abbrev", "unfoldable", "record", "data", "private", "module", "where", "use", "let", "in", "λ", "elim"}
USE = re.compile(r"^\s*(?:ghost )?(?:pub )?use ([^\s{;]+?)\.?\{(.*?)\}")
PLAIN = re.compile(r"[a-z][A-Za-z0-9₀-₉]*(-[A-Za-z0-9₀-₉]+)*'*")
# Here the dash joins the names of two definitions.
JOINED = {"with_digits-append", "with_digits-nil", "with_digits-cons"}
# A lemma that would have the name of what it speaks of gets `_lem`.
LEMMAS = set(
    """all-on answered-by booking-told by-half change-of corner-at corner-in end-code first-missing from-to good-mark is-book least-of
    listing-told loaded-of lowest-free not-convex on-table outline-of place-answered release-told rest-answered slots-good to-even
    whole-answer whole-cut number-of put-at slot-at cut-of start-of cross-of point-of is-nan""".split()
)
# A case that would have the name of the number that it gives.
OTHERWISE = {"no-area": "without_area", "not-a-number": "no_number"}
# Lemmas that had such a name already, in the files that speak of both.
HERE = {
    "outlines/proofs/Computed.antt": "numbers_of kept_of added_of pass_of counts_of",
    "writing/proofs/Writing.antt": "numbers_of",
    "writing/proofs/Numbers.antt": "numbers_of",
    "cuts/proofs/Cutting.antt": "part_cut",
    "strip_book/proofs/Halves.antt": "number_is",
    "strip_book/proofs/is_renter/Proof.antt": "number_is",
    "book_text/proofs/Slots.antt": "written_out",
    "convex/proofs/Places.antt": "point_at",
    "corners/proofs/Edges.antt": "point_at",
    "convex/proofs/Rounds.antt": "point_at",
    "crossings/proofs/Outlines.antt": "point_at",
    "uncut/proofs/OwnCorners.antt": "point_at",
    "cuts/proofs/cut_stroke/Proof.antt": "part_cut",
}


def texts():
    for folder in ("specs", "proofs"):
        yield from glob.glob(f"crates/*/{folder}/**/*.antt", recursive=True)


def sources():
    return glob.glob("crates/*/src/**/*.rt", recursive=True)


def snake(name):
    if name in OTHERWISE:
        return OTHERWISE[name]
    if name in LEMMAS:
        return name.replace("-", "_") + "_lem"
    if re.fullmatch(r"[≤<]-[a-z]+", name):
        return name.replace("-", "_")
    if not PLAIN.fullmatch(name):
        return name
    parts = name.split("-")
    if any(re.fullmatch(r"[A-Z].*", part) for part in parts[1:]):
        dash = "-"
    else:
        dash = "_"
    turned = [re.sub(r"(?<=[a-z0-9])([A-Z])|(?<=[A-Z])([A-Z])(?=[a-z])", lambda it: "_" + it[0].lower(), part) for part in parts]
    turned = [part if re.fullmatch(r"[A-Z]", part) else part[0] + part[1:].lower() if part[:1].isupper() else part.lower() for part in turned]
    joined = "-".join(turned)
    return joined if joined in JOINED else dash.join(turned)


def brought(text):
    """The names that the file imports from a library of the kit, and those that it imports from a crate of ours."""
    from_kit, from_ours = set(), set()
    for line in text.splitlines():
        it = USE.match(line)
        if not it:
            continue
        module = it[1]
        names = {leaf.strip().split(" as ")[0] for leaf in it[2].split(",")}
        crate = re.match(r"Rattle\.(\w+)", module)
        ours = crate and os.path.isdir("crates/" + crate[1])
        (from_ours if ours else from_kit).update(names)
    return from_kit, from_ours


def defined():
    found = collections.defaultdict(set)
    for path in texts():
        walk = path.endswith("/Proof.antt")
        function = path.split("/")[-2].replace("_", "-")
        for line in open(path, encoding="utf-8"):
            if line.lstrip().startswith("--"):
                continue
            it = DEFINES.match(line)
            if it and not (walk and re.match(r"tie\.Need|Statement\.|tie\.Invariant", it[3] or "")):
                for name in it[2].split():
                    if name not in KEYWORDS:
                        found[name].add(path)
            for it in BINDS.finditer(line):
                for name in (it[1] or it[2]).split():
                    if name not in KEYWORDS and "-" in name:
                        found[name].add(path)
    return found


def turn_words(text, table):
    def turn(it):
        # behind a dot stands the step of a function's code, which has the function's name
        if it[0] in LEMMAS and text[: it.start()].endswith("."):
            return it[0].replace("-", "_") if it[0] in table else it[0]
        return table.get(it[0], it[0])

    return WORD.sub(turn, text)


def outside(line, comment, table):
    """The line turned, but for what stands in quotes, and in its comment only what stands in backquotes."""
    out, at = [], 0
    for it in re.finditer(r'b?"(?:[^"\\]|\\.)*"|' + comment, line):
        out.append(turn_words(line[at : it.start()], table))
        said = it[0]
        if not said.lstrip("b").startswith('"'):
            said = re.sub(r"`[^`]*`", lambda quoted: turn_words(quoted[0], table), said)
            # a list of what the definitions mean names them at its lines' heads
            said = re.sub(r"^(--   )(\S[^ ]*(?: [a-zα-ω]\w*)*(?:, \S+(?: [a-z]\w*)*)*)(?=   )", lambda head: head[1] + turn_words(head[2], table), said)
        out.append(said)
        at = it.end()
    return "".join(out) + turn_words(line[at:], table)


def main():
    names = {name: snake(name) for name in defined()}
    names = {old: new for old, new in names.items() if old != new}
    together = collections.defaultdict(set)
    for old, new in names.items():
        together[new].add(old)
    tables = {}
    for path in list(texts()) + sources():
        text = open(path, encoding="utf-8").read()
        words = set(WORD.findall(text))
        kit, _ = brought(text)
        table = {old: new for old, new in names.items() if old in words and old not in kit}
        for name in HERE.get(path.removeprefix("crates/"), "").split():
            table[name] = name + "_lem"
        if "--list" in sys.argv:
            for old, new in table.items():
                if new in words and path.endswith(".antt"):
                    print(f"stands already: {path}: {old} -> {new}")
                elif new in words and path.endswith(".rt"):
                    print(f"in code: {path}: {old} -> {new}")
            seen = collections.defaultdict(set)
            for old, new in table.items():
                seen[new].add(old)
            for new, olds in seen.items():
                if len(olds) > 1:
                    print(f"fall together: {path}: {sorted(olds)} -> {new}")
        tables[path] = table
    if "--list" in sys.argv:
        for new, olds in sorted(together.items()):
            if len(olds) > 1:
                print(f"two for one: {sorted(olds)} -> {new}")
        print(f"{len(names)} names")
        return
    for path, table in tables.items():
        text = open(path, encoding="utf-8").read()
        comment = r"--(?: .*)?$" if path.endswith(".antt") else r"//.*$"
        lines = []
        for line in text.split("\n"):
            lines.append(outside(line, comment, table))
        turned = "\n".join(lines)
        if turned != text:
            open(path, "w", encoding="utf-8").write(turned)


if __name__ == "__main__":
    main()
