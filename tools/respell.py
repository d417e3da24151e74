#!/usr/bin/env python3
"""Respells the repository's own definitions, lemmas and record fields as today's Rattle does, once, after port.py.

usage: respell.py [--check] [TOP]

    nicknameGood -> nickname_good, length-bytesOf -> length-bytes_of, fill-again -> fill_again, .start-low -> .start_low

A name of several parts in camel case is written in snake case. A dash stays between two names of definitions, and becomes `_` before
a plain word; in a record's field it always does. Types, facts, modules, functions of src/ and exported names keep their spelling.
--check prints the table and where two names would fall together, and writes nothing.
"""

import collections
import glob
import re
import sys

WORD = r"[^\s(){}.;,@\"«»\[\]\\]+"
TOKEN = re.compile(r"--(?= |$)[^\n]*|\"(?:[^\"\\\n]|\\.)*\"|" + WORD)
SIGNED = re.compile(r"^(\s*)((?:(?:pub|abbrev|unfoldable|ruleset|record|data|module)\s+)*)([^\s:(){}]+) (:|=|where\b)")
CAMEL = re.compile(r"[a-z][a-zA-Z0-9]*[A-Z]")
# Functions of the library that a lemma's name may join by a dash.
LIBRARY = set(
    "length take drop set append reverse map filter sum min max flat_map replicate head tail all any get_or num suc add sub mul div mod pow eqb leb ltb "
    "cons count fold zip range".split()
)
# A constructor that stands in a row of them.
BY_HAND = {"refusedFront": "refused_front"}


def files(top, ends):
    return sorted(f for end in ends for f in glob.glob(f"{top}/crates/**/*{end}", recursive=True) if "/out/" not in f)


def read(path):
    with open(path, encoding="utf-8") as it:
        return it.read()


def snake(part):
    if not CAMEL.match(part):
        return part
    return re.sub(r"(?<=[a-z0-9])(?=[A-Z])", "_", part).lower()


def declared(top):
    names, fields, defined = set(), set(), set()
    for path in files(top, [".antt"]):
        lemma = re.search(r"/proofs/[^/]+\.antt$", path) or "/specs/" in path
        in_record = False
        for line in read(path).split("\n"):
            head = re.match(r"(?:pub |abbrev )*record (\S+)", line)
            if head:
                in_record = True
                names.add(head.group(1))
                defined.add(head.group(1))
                continue
            if line and not line[0].isspace():
                in_record = False
            m = SIGNED.match(line)
            if not m:
                continue
            name = m.group(3)
            if m.group(1) and in_record:
                fields.add(name)
            elif lemma or CAMEL.match(name):
                names.add(name)
                if "/specs/" in path and not m.group(1):
                    defined.add(name)
    return names, fields, defined


def table(top):
    names, fields, defined = declared(top)
    known = {snake(it) for it in defined if "-" not in it} | LIBRARY
    out = {}
    for name in names | fields | set(BY_HAND):
        if name in BY_HAND:
            out[name] = BY_HAND[name]
            continue
        parts = [snake(it) for it in name.split("-")]
        new = parts[0]
        for before, part in zip(parts, parts[1:]):
            joined = name not in fields and name not in defined and before.split("_")[-1] and before in known and part in known
            new += ("-" if joined else "_") + part
        if name in fields and re.search(r"[A-Z]{2}", new):
            new = new.lower()
        if new != name and name.strip("-") == name and not name.startswith("invariant-") and not name.startswith("decreases-"):
            out[name] = new
    taken = collections.Counter(out.values())
    for path in files(top, [".antt"]):
        text = read(path)
        taken.update({m.group(0) for m in TOKEN.finditer(text) if m.group(0) not in out and text[m.start() - 1 : m.start()] != "."})
    # two names that would be one: the definition has it, a lemma gets `_lem`, as in the library, and a field stays
    for name, new in list(out.items()):
        if taken[new] > 1 and "-" not in name and new in names:
            out[new] = new + "_lem"
        elif taken[new] > 1 and "-" in name:
            if name in fields:
                del out[name]
            else:
                out[name] = new + "_lem"
    return out, fields


def aliases(text):
    """Modules that a text cites under a name of theirs: `spec.x` after `use M as spec`, `Front.x` after `use M.Front`."""
    return set(re.findall(r"use (?:Rattle\.[^\n;{}]*?)\.([A-Z]\w*)(?:;|\n|$)", text)) | set(re.findall(r"use Rattle\.\S+ as (\S+?)[;\n]", text))


def turned(text, names, fields):
    out, end, known = [], 0, aliases(text)
    for m in TOKEN.finditer(text):
        word = m.group(0)
        if word in names and not word.startswith("--"):
            behind_dot = m.start() > 0 and text[m.start() - 1] == "."
            module = re.search(r"(?<![\w.'-])([A-Za-z_][\w'-]*)\.$", text[max(0, m.start() - 60) : m.start()]) if behind_dot else None
            own = CAMEL.match(word) or "-" in word
            if not behind_dot or word in fields or module and own and module.group(1) in known - {"tie", "goal"}:
                out += [text[end : m.start()], names[word]]
                end = m.end()
    out.append(text[end:])
    return "".join(out)


def turned_comment(text, names):
    """Names in a comment's backticks, and camel-case names anywhere in a comment."""

    def one(m):
        return re.sub(WORD, lambda w: names.get(w.group(0), w.group(0)) if CAMEL.match(w.group(0)) or "`" + w.group(0) + "`" in m.group(0) else w.group(0), m.group(0))

    return re.sub(r"(?m)(?:--|//) [^\n]*", one, text)


def turned_source(text, names):
    """In a .rt file only `ghost use` lines, clauses and comments name definitions: words in camel case or with a dash are none of Rust's."""
    return re.sub(r"\"(?:[^\"\\\n]|\\.)*\"|[A-Za-z_][\w'-]*", lambda m: names[m.group(0)] if CAMEL.match(m.group(0)) and m.group(0) in names else m.group(0), text)


def main(argv):
    check = "--check" in argv
    argv = [it for it in argv if it != "--check"]
    top = argv[0] if argv else "."
    names, fields = table(top)
    used = collections.Counter()
    for path in files(top, [".antt"]):
        text = read(path)
        used.update(m.group(0) for m in TOKEN.finditer(text) if text[m.start() - 1 : m.start()] != ".")
    by_new = collections.defaultdict(list)
    for old, new in names.items():
        by_new[new].append(old)
    clash = 0
    for new, olds in sorted(by_new.items()):
        if len(olds) > 1 or new in used and new not in names:
            print("falls together:", new, olds, used.get(new, 0))
            clash += 1
    for path in files(top, [".rt"]):
        text = read(path)
        cited = {names[it] for it in re.findall(r"[A-Za-z_][\w'-]*", text) if CAMEL.match(it) and it in names}
        for fn in re.finditer(r"fn (\w+)[^(]*\(([^)]*)\)(.*?)\n\{", text, re.S):
            params = set(re.findall(r"(\w+)\s*:", fn.group(2)))
            said = {names.get(it, it) for it in re.findall(r"[A-Za-z_][\w'-]*", fn.group(3))}
            for it in sorted(params & said & cited):
                print("parameter:", path, fn.group(1), it)
                clash += 1
    if check:
        for old, new in sorted(names.items()):
            print(old, "->", new)
        print(len(names), "names,", clash, "to look at")
        return 0
    for path in files(top, [".antt", ".rt"]):
        text = read(path)
        new = turned_source(text, names) if path.endswith(".rt") else turned_comment(turned(text, names, fields), names)
        if new != text:
            with open(path, "w", encoding="utf-8") as it:
                it.write(new)
    print(len(names), "names respelled")
    return 0


if __name__ == "__main__":
    raise SystemExit(main(sys.argv[1:]))
