#!/usr/bin/env python3
"""Brings the must-fail edits (crates/NAME/must-fail/*.edit) from an older spelling to today's, with the same wrong meaning.

usage: python3 tools/edits.py OLD NEW PORT ROOM [CRATE..]     at the top of the repository

OLD is the last commit in the older spelling, to which every edit fits. NEW is the commit in which the kit's port.py and tools/spell.py
ran, nothing else. PORT is the kit's port.py. ROOM is a folder for scratch repositories, some 30 MB each; what was made there by an
earlier run is used again.

An edit's pairs are applied to OLD's files, which gives the wrong files. They are put into as few copies of the repository as hold each
file once, port.py and spell.py turn each copy, and what then differs from NEW's file, line by line, is written as pairs of old and new text,
in the order in which the edit had them. Files without an edit must come out as NEW has them; the script says which don't. With names of
crates, only their edits are written.

What it can't do: names that Rattle generates for a proof of the wrong program are those of the old kit. They are mended by hand, so run it
once: it writes over crates/*/must-fail.
"""

import difflib
import glob
import os
import re
import shutil
import subprocess
import sys


def say(text):
    print(text, flush=True)


def git(*words, where="."):
    return subprocess.run(["git", "-c", "user.name=edits", "-c", "user.email=edits@localhost", *words], cwd=where, check=True, capture_output=True, text=True).stdout


def pairs_of(text):
    """The pairs of an edit, as [file, old, new]."""
    found, path, old = [], "", None
    for line in text.split("\n"):
        if line.startswith("file: "):
            path = line[6:].strip()
        elif line.startswith("old: "):
            old = line[5:]
        elif line.startswith("new:"):
            found.append([path, old, line[4:].removeprefix(" ")])
    return found


def heads_of(text):
    """An edit's lines that nothing reads, for people."""
    return [line for line in text.split("\n") if line.strip() and not line.startswith(("file: ", "old: ", "new:"))]


def applied(pairs, read):
    """The texts of the files that the pairs change, by path; a word for what doesn't fit instead."""
    texts = {}
    for path, old, new in pairs:
        if path not in texts:
            texts[path] = read(path)
        if texts[path].count(old) != 1:
            return f"{path}: stands {texts[path].count(old)} times: {old}"
        texts[path] = texts[path].replace(old, new)
    return texts


def reader(crate, root):
    def read(path):
        with open(f"{root}/crates/{crate}/{path}", encoding="utf-8") as it:
            return it.read()

    return read


def crates_below(root):
    """For each crate the crates that it needs, itself too."""
    needs = {}
    for line in open(f"{root}/crates.txt", encoding="utf-8"):
        head, _, tail = line.split("#")[0].partition(":")
        if head.strip():
            needs[head.split()[0]] = tail.split()

    def below(names):
        seen, todo = set(), list(names)
        while todo:
            name = todo.pop()
            if name in needs and name not in seen:
                seen.add(name)
                todo += needs[name]
        return seen

    return needs, below


def make_copies(room):
    """Spreads the wrong files over copies of the old tree, and returns for each copy which edit's file stands where."""
    old = f"{room}/OLD"
    plans = []
    for edit in sorted(glob.glob(f"{old}/crates/*/must-fail/*.edit")):
        crate = edit.split("/")[-3]
        texts = applied(pairs_of(open(edit, encoding="utf-8").read()), reader(crate, old))
        if isinstance(texts, str):
            say(f"{edit} does not fit: {texts}")
            continue
        plan = next((it for it in plans if not any((crate, path) in it for path in texts)), None)
        if plan is None:
            plan = {}
            plans.append(plan)
        for path, text in texts.items():
            plan[crate, path] = (os.path.basename(edit), text)
    needs, below = crates_below(old)
    for number, plan in enumerate(plans, 1):
        copy = f"{room}/copy{number}"
        if os.path.isdir(copy):
            continue
        # the first copies are whole, and show that the crates without an edit come out as they should
        keep = set(needs) if number <= 2 else below({crate for crate, _ in plan})
        os.makedirs(f"{copy}/tools")
        shutil.copy("tools/spell.py", f"{copy}/tools")
        for crate in keep:
            shutil.copytree(f"{old}/crates/{crate}", f"{copy}/crates/{crate}", ignore=shutil.ignore_patterns("must-fail", "out"))
        with open(f"{copy}/crates.txt", "w", encoding="utf-8") as it:
            for line in open(f"{old}/crates.txt", encoding="utf-8"):
                head = line.split("#")[0].partition(":")[0].split()
                if not head or head[0] in keep:
                    it.write(line)
        for (crate, path), (_, text) in plan.items():
            with open(f"{copy}/crates/{crate}/{path}", "w", encoding="utf-8") as it:
                it.write(text)
        with open(f"{copy}/.gitignore", "w") as it:
            it.write("target/\ncrates/*/out/\n")
        git("init", "-q", where=copy)
        git("add", "-A", where=copy)
        git("commit", "-qm", "old", where=copy)
    return plans


def turn_copy(copy, port):
    if git("log", "--format=%s", where=copy).split("\n")[0] == "spelled":
        return
    say(f"turning {copy}")
    for words, said in ((["python3", port], "ported"), (["python3", "tools/spell.py"], "spelled")):
        ran = subprocess.run(words, cwd=copy, stdout=subprocess.PIPE, stderr=subprocess.STDOUT, text=True)
        if ran.returncode:
            raise SystemExit(f"{copy}: {' '.join(words)} failed: {ran.stdout[-600:]}")
        git("add", "-A", where=copy)
        git("commit", "-q", "--allow-empty", "-m", said, where=copy)


def compare(copy, plan, new):
    """Says which files without an edit differ from NEW's."""
    for folder, _, files in os.walk(f"{copy}/crates"):
        for name in files:
            path = os.path.relpath(f"{folder}/{name}", copy)
            crate, inside = path.split("/")[1], "/".join(path.split("/")[2:])
            if name.endswith((".rt", ".antt")) and (crate, inside) not in plan and "/out/" not in path:
                mine = open(f"{folder}/{name}", encoding="utf-8").read()
                if not os.path.isfile(f"{new}/{path}") or open(f"{new}/{path}", encoding="utf-8").read() != mine:
                    say(f"differs from the new commit's, without an edit: {os.path.basename(copy)} {path}")


TOKEN = re.compile(r"\s+|[\w']+|[^\w\s]")


def shortened(old, new, text):
    """The part of two lines that differs, with as much around it as makes the old one stand once in the text."""
    a, b = TOKEN.findall(old), TOKEN.findall(new)
    head = 0
    while head < min(len(a), len(b)) and a[head] == b[head]:
        head += 1
    tail = 0
    while tail < min(len(a), len(b)) - head and a[-1 - tail] == b[-1 - tail]:
        tail += 1
    while True:
        one, other = "".join(a[head : len(a) - tail]), "".join(b[head : len(b) - tail])
        if len(one.strip()) > 24 and text.count(one) == 1 and one == one.strip() and other == other.strip():
            return one, other
        if not head and not tail:
            return old, new
        if tail:
            tail -= 1
        if head:
            head -= 1


def flat(lines):
    return " ".join(line.strip() for line in lines if line.strip())


def paired(one, other, is_code):
    """Gives each new line an old one, in order, so that they are as much alike as can be: what the old lines become, '' for those that go."""
    if len(other) > len(one):
        # more lines than before: each new line that is like no old one goes in front of the next that is
        back = paired(other, one, is_code)
        grouped, waits = [], []
        for _, y, x in back:
            waits.append(y)
            if x:
                grouped.append(waits)
                waits = []
        grouped[-1] += waits
        joined = [re.match(r"\s*", it[0])[0] + flat(it) if is_code else " ¶ ".join(it) for it in grouped]
        return [(n, x, y) for n, (x, y) in enumerate(zip(one, joined))]
    alike = [[difflib.SequenceMatcher(None, x, y).ratio() for y in other] for x in one]
    best = [[0.0] * (len(other) + 1) for _ in range(len(one) + 1)]
    for n in range(1, len(one) + 1):
        for m in range(1, min(n, len(other)) + 1):
            best[n][m] = best[n - 1][m - 1] + alike[n - 1][m - 1] + 0.001
            if m < n:
                best[n][m] = max(best[n][m], best[n - 1][m])
    found, m = [], len(other)
    for n in range(len(one), 0, -1):
        if m and (m == n or best[n][m] != best[n - 1][m]):
            found.append((n - 1, one[n - 1], other[m - 1]))
            m -= 1
        else:
            found.append((n - 1, one[n - 1], ""))
    return found[::-1]


def ordered(pairs, text, cut):
    """The pairs in such an order that each old text stands once when its turn comes."""
    rest, out, shown = list(pairs), [], text
    while rest:
        for it in rest:
            old, put = cut(it, shown)
            if shown.count(old) != 1:
                continue
            then = shown.replace(old, put)
            if all(then.count(cut(other, then)[0]) == 1 or shown.count(cut(other, shown)[0]) != 1 for other in rest if other is not it):
                break
        else:
            it = rest[0]
            old, put = cut(it, shown)
        rest.remove(it)
        out.append((it, old, put))
        shown = shown.replace(old, put) if shown.count(old) == 1 else shown
    return out


def hunks(base, wrong, is_code):
    """What differs, as [line, old text, new text], one line each."""
    a, b = ([line for line in text.split("\n") if line.strip()] for text in (base, wrong))
    found = []
    for kind, i, j, k, l in difflib.SequenceMatcher(None, a, b, autojunk=False).get_opcodes():
        if kind == "equal":
            continue
        one, other = a[i:j], b[k:l]
        if len(one) == len(other):
            found += [[i + n, x, y] for n, (x, y) in enumerate(zip(one, other)) if x != y]
        elif not one:
            # lines that came in are written behind the line before them
            if is_code:
                found.append([i - 1, a[i - 1], a[i - 1] + " " + flat(other)])
            else:
                found.append([i - 1, a[i - 1], a[i - 1] + " ¶ " + " ¶ ".join(other)])
        elif not other:
            found += [[i + n, x, ""] for n, x in enumerate(one) if x.strip()]
        elif is_code and len(one) == 1:
            indent = re.match(r"\s*", one[0])[0]
            found.append([i, one[0], indent + flat(other)])
        else:
            found += [[i + n, x, y] for n, x, y in paired(one, other, is_code) if x != y]
    return found


def same(text, is_code):
    if is_code:
        return re.sub(r",? *([)\]}])", r"\1", re.sub(r"\s+", " ", text)).replace(" ", "")
    return "\n".join(line.rstrip() for line in text.split("\n") if line.strip())


def rewritten(text, crate, room, plans, new, name):
    """The edit's text in the new spelling, and what is left of it to mend by hand."""
    left = []
    was = pairs_of(text)
    old_read, new_read = reader(crate, f"{room}/OLD"), reader(crate, new)
    # the place of each pair in its old file
    at, now = {}, {}
    for n, (path, old, put) in enumerate(was):
        base = old_read(path)
        texts = now.setdefault(path, base)
        place = base.find(old) if base.count(old) == 1 else texts.find(old)
        at[n] = base[:place].count("\n") if place >= 0 else 0
        now[path] = texts.replace(old, put)
    made = []
    for path in dict.fromkeys(it[0] for it in was):
        number = next(n for n, plan in enumerate(plans, 1) if plan.get((crate, path), ("",))[0] == name)
        base, wrong = new_read(path), reader(crate, f"{room}/copy{number}")(path)
        is_code = path.endswith(".rt")
        found = hunks(base, wrong, is_code)
        mine = [n for n in range(len(was)) if was[n][0] == path]
        lines = sorted({at[n] for n in mine})
        order = {line: min(n for n in mine if at[n] == line) for line in lines}
        if len(lines) == len(found):
            found = [(order[lines[n]], *it) for n, it in enumerate(sorted(found))]
        else:
            left.append(f"{path}: {len(lines)} lines were changed, and now {len(found)}")
            found = [(mine[0], *it) for it in sorted(found)]
        def cut(it, text):
            _, _, old, put = it
            if len(old) < 140 or not put:
                return old, put
            one, other = shortened(old, put, text)
            return (one, other) if text.count(one) == 1 else (old, put)

        shown = base
        for it, one, other in ordered(sorted(found, key=lambda it: it[0]), base, cut):
            if "¶" in other:
                left.append(f"{path}: more lines than before: {other[:80]}")
            if shown.count(one) != 1:
                left.append(f"{path}: stands {shown.count(one)} times: {one}")
            else:
                shown = shown.replace(one, other)
            made.append((it[0], path, one, other))
        if same(shown, is_code) != same(wrong, is_code):
            left.append(f"{path}: does not give the turned file")
    made.sort(key=lambda it: it[0])
    out, path = heads_of(text), ""
    for _, file, old, put in made:
        if file != path:
            out.append(f"file: {file}")
            path = file
        out.append(f"old: {old}")
        out.append(f"new: {put}" if put else "new:")
    return "\n".join(out) + "\n", left


def main(words):
    if len(words) < 4:
        print(__doc__)
        return 2
    old, new, port, room, names = words[0], words[1], words[2], words[3], words[4:]
    for commit, folder in ((old, "OLD"), (new, "NEW")):
        if not os.path.isdir(f"{room}/{folder}"):
            os.makedirs(f"{room}/{folder}")
            archive = subprocess.Popen(["git", "archive", commit, "crates", "crates.txt"], stdout=subprocess.PIPE)
            subprocess.run(["tar", "-x", "-C", f"{room}/{folder}"], stdin=archive.stdout, check=True)
    plans = make_copies(room)
    done = left_over = 0
    for number, plan in enumerate(plans, 1):
        turn_copy(f"{room}/copy{number}", port)
        compare(f"{room}/copy{number}", plan, f"{room}/NEW")
    for edit in sorted(glob.glob(f"{room}/OLD/crates/*/must-fail/*.edit")):
        crate, name = edit.split("/")[-3], os.path.basename(edit)
        if names and crate not in names:
            continue
        text, left = rewritten(open(edit, encoding="utf-8").read(), crate, room, plans, f"{room}/NEW", name)
        with open(f"crates/{crate}/must-fail/{name}", "w", encoding="utf-8") as it:
            it.write(text)
        done += 1
        left_over += bool(left)
        for it in left:
            say(f"by hand: {crate}/{name}: {it}")
    say(f"{done} edits written, {left_over} of them to be looked at")
    return 0


if __name__ == "__main__":
    raise SystemExit(main(sys.argv[1:]))
