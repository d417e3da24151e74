#!/usr/bin/env python3
"""Turns the must-fail edits to the spelling of the files that they patch, once, after port.py and respell.py.

usage: edits.py COMMIT

Run at the top. COMMIT is the last one in the older spelling. Each edit's wrong file is laid beside the file that it patches, in a copy of
COMMIT in a temporary folder, and port.py and respell.py turn that copy: so an edit's words are turned as the files were. The lines in
which the two then differ are the edit's pairs. An edit of src/ whose pairs stand in today's file stays as it is. Prints what is left to do by hand.
"""

import difflib
import glob
import os
import re
import subprocess
import sys
import tempfile

PORT = "/opt/rattle/port/port.py"
# Paths that port.py turns in a `use` line alone.
PATHS = {"mathlib.Core.Bool.": "Rattle.std.specs.Prelude.", "mathlib.Core.Path._≡_ x": "x ≡"}


def read(path):
    with open(path, encoding="utf-8") as it:
        return it.read()


def write(path, text):
    with open(path, "w", encoding="utf-8") as it:
        it.write(text)


def parsed(text):
    """The file that an edit patches, and its pairs."""
    file, pairs = None, []
    for line in text.splitlines():
        if line.startswith("file: "):
            file = line[6:]
        elif line.startswith("old: "):
            pairs.append([line[5:], None])
        elif line.startswith("new:"):
            pairs[-1][1] = line[5:]
    return file, pairs


def applied(text, pairs):
    """The text with the pairs applied, or None where one does not stand in it exactly once."""
    for old, new in pairs:
        if text.count(old) != 1:
            return None
        text = text.replace(old, new)
    return text


def crate_of(edit):
    return "/".join(edit.split("/")[:2])


def turned(commit, edits):
    """The lines of each edit's file and of its wrong file, both turned."""
    with tempfile.TemporaryDirectory() as top:

        def run(command):
            subprocess.run(command, shell=True, check=True, cwd=top, stdout=subprocess.DEVNULL)

        run(f"git -C '{os.getcwd()}' archive {commit} | tar x")
        beside = {}
        for n, edit in enumerate(edits):
            file, pairs = parsed(read(f"{top}/{edit}"))
            path = f"{top}/{crate_of(edit)}/{file}"
            stem, end = os.path.splitext(path)
            wrong = applied(read(path), pairs)
            for old, new in PATHS.items():
                wrong = re.sub(r"(?m)^(?!use )(.*)" + re.escape(old), lambda m: m.group(1) + new, wrong)
            beside[edit] = path, f"{os.path.dirname(path)}/{'Wrong' if end == '.antt' else 'wrong_'}{n}{end}"
            write(beside[edit][1], wrong)
        run("git init -q && git add -A && git -c user.name=edits -c user.email=edits@localhost commit -qm edits")
        run(f"python3 {PORT}")
        run(f"python3 '{os.path.dirname(os.path.abspath(__file__))}/respell.py'")
        return {edit: [read(it).split("\n") for it in both] for edit, both in beside.items()}


def carried(before, now, wrong):
    """The line `wrong`, changed in the one place in which `now` differs from `before`; None where it hasn't that place once."""
    words = [re.findall(r"\w+|\W", it) for it in (before, now)]
    first = len(os.path.commonprefix(words))
    last = len(os.path.commonprefix([it[first:][::-1] for it in words]))
    old, new = ("".join(it[first : len(it) - last]) for it in words)
    return wrong.replace(old, new) if old and wrong.count(old) == 1 else None


def turn(edit, before, wrong, said):
    """Pairs of today's lines for the lines in which `wrong` differs from `before`, or None for what is left to do by hand."""
    today = read(f"{crate_of(edit)}/{parsed(read(edit))[0]}").split("\n")
    now = {}
    for kind, i, end, j, past in difflib.SequenceMatcher(None, before, today, autojunk=False).get_opcodes():
        if end - i == past - j:
            now |= {i + k: today[j + k] for k in range(end - i)}
    if len(before) != len(wrong):
        said.append(f"{edit}: {len(before)} lines for {len(wrong)}")
        return None
    pairs = []
    for n, (line, other) in enumerate(zip(before, wrong)):
        if line == other:
            continue
        if now.get(n) != line:
            other = carried(line, now.get(n, ""), other)
            if not other:
                said.append(f"{edit}: changed since: {line}")
                return None
        pairs.append([now[n], other])
    if applied("\n".join(today), pairs) is None:
        said.append(f"{edit}: lines change places")
        return None
    return pairs


def main(argv):
    commit = argv[0]
    said, rest = [], []
    for edit in sorted(glob.glob("crates/*/must-fail/*.edit")):
        file, pairs = parsed(read(edit))
        if file.endswith(".antt") or applied(read(f"{crate_of(edit)}/{file}"), pairs) is None:
            rest.append(edit)
    for edit, (before, wrong) in turned(commit, rest).items():
        pairs = turn(edit, before, wrong, said)
        if not pairs:
            continue
        kept = [it for it in read(edit).splitlines() if not it.startswith(("old: ", "new:"))]
        write(edit, "\n".join(kept + [f"{word}: {line}" for pair in pairs for word, line in zip(("old", "new"), pair)]) + "\n")
    print("\n".join(said + [f"{len(rest) - len(said)} edits turned, {len(said)} left"]))
    return 0


if __name__ == "__main__":
    raise SystemExit(main(sys.argv[1:]))
