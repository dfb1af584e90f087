#!/usr/bin/env python3
"""tools/places.py [list]: how many places of the sources stand in an older form, a line for each kind; with `list` the places too.
docs/DESIGN-PASS.md says what the kinds are and what became of their places."""
import collections
import glob
import os
import re
import sys

os.chdir(os.path.join(os.path.dirname(os.path.abspath(__file__)), "..", "crates"))
LIST = sys.argv[1:] == ["list"]
SOURCES = sorted(glob.glob("*/src/*.rt"))


def show(kind, places):
    print(f"{len(places):5}  {kind}")
    if LIST:
        for place in places:
            print(f"         {place}")


def lines(kind, pattern):
    """The lines of the sources that fit a pattern, comments left out."""
    found = []
    for path in SOURCES:
        for number, line in enumerate(open(path, encoding="utf-8"), 1):
            if not line.lstrip().startswith("//") and re.search(pattern, line):
                found.append(f"{path}:{number}: {line.strip()}")
    show(kind, found)


def functions():
    """Each function with its path and the lines of its body."""
    for path in SOURCES:
        text = open(path, encoding="utf-8").read().split("\n")
        for at, line in enumerate(text):
            head = re.match(r"( *)(pub )?(extern \"C\" )?fn (\w+)", line)
            if not head:
                continue
            indent = head.group(1)
            opening = next((k for k in range(at, len(text)) if text[k] == indent + "{" or text[k].endswith(") {") or text[k].endswith("> {")), None)
            if opening is None:
                continue
            end = next((k for k in range(opening + 1, len(text)) if text[k] == indent + "}"), None)
            if end is not None:
                yield path, head.group(4), text[opening + 1:end]


def shape(body):
    """A body without its names, its numbers and its comments."""
    text = "\n".join(line for line in body if not line.strip().startswith("//"))
    text = re.sub(r"b?\"[^\"]*\"", '"', text)
    text = re.sub(r"\b(?!(?:if|else|while|for|in|return|let|mut|match|loop|as)\b)[A-Za-z_]\w*(?:::[A-Za-z_]\w*)*", "a", text)
    return re.sub(r"\b\d\w*", "0", text)


def twins():
    """Functions of four lines or more that differ from another one in names and numbers alone."""
    groups = collections.defaultdict(list)
    for path, name, body in functions():
        if len(body) >= 4:
            groups[shape(body)].append(f"{path} {name}")
    show("2  functions that differ from another one in names and numbers alone, of four lines or more",
         [" = ".join(group) for group in groups.values() if len(group) > 1 for _ in range(len(group) - 1)])


def facts():
    """The facts that three or more contracts of one crate ask for."""
    found = []
    for crate in sorted(os.listdir(".")):
        said = collections.Counter()
        for path in glob.glob(f"{crate}/src/*.rt"):
            for line in open(path, encoding="utf-8"):
                clause = re.match(r" *requires (?:\w+ )?(\{.*\})$", line.rstrip())
                if clause:
                    said[clause.group(1)] += 1
        found += [f"{crate}: {fact} {count} times" for fact, count in said.items() if count >= 3]
    show("5  facts that three or more contracts of a crate ask for", found)


lines("1a enums of our own", r"^ *(pub )?enum ")
lines("1b flags among the fields of a struct", r"^    (pub )?[a-z_0-9]+: bool,$")
lines("1c questions whether the number of a refusal is 0", r"number [!=]= 0")
lines("1d numbers that stand for a kind, a side, a word or a refusal", r"^ *(pub )?const [A-Z_0-9]+: u(8|32|64) = (0x1_|[0-9]+;|0x[0-9A-F][0-9A-F];)")
twins()
lines("3  loops that are no for", r"^ *(while|loop) ")
lines("4  functions for what the library has",
      r"fn (lesser|greater|size|closest|is_digit|is_capital|ten_to|has|byte_at|number32|put_bytes|first_of|right_count|number_at|same)\(")
facts()
lines("6a functions with a page and a place in it", r"fn .*page: &mut \[u8\], at: usize")
lines("6b arrays of numbers beside one another, or several rows in one", r": (&mut |&)?\[(u8|u64|i16); (16|288)\]")
lines("7  choices of a step by a number or a word", r"^ *match (word|number|side|command_of.*|kind) \{")
print(f"{len(glob.glob('*/proofs/*/Proof.antt')):5}  8a proofs that walk the code by hand")
rules = sum(open(path, encoding="utf-8").read().count("= search rules\n") for path in glob.glob("*/proofs/*/*.antt"))
print(f"{rules:5}  8b answers that say only: search by the rules")
