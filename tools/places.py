#!/usr/bin/env python3
"""Counts the places of docs/DESIGN-PASS.md in src/:

    tools/places.py [--list] [COMMIT]

A line for each count; with --list a line for each place too. Without COMMIT the files are those of the checkout.
"""
import os
import re
import subprocess
import sys
from collections import defaultdict

TOP = os.path.dirname(os.path.dirname(os.path.realpath(__file__)))


def git(*words):
    return subprocess.run(["git", "-C", TOP, *words], stdout=subprocess.PIPE, text=True, check=True).stdout


def files(commit, folder, ending):
    """The files crates/*/FOLDER/.. with this ending, path and text."""
    if commit:
        names = git("ls-tree", "-r", "--name-only", commit, "crates").split()
    else:
        names = git("ls-files", "crates").split()
    for name in names:
        if name.split("/")[2] == folder and name.endswith(ending):
            text = git("show", f"{commit}:{name}") if commit else open(f"{TOP}/{name}", encoding="utf-8").read()
            yield name, text


def bare(text):
    """The code without comments and clauses, each left as an empty line."""
    out = []
    for line in text.split("\n"):
        s = line.strip()
        drop = s.startswith("//") or re.match(r"(requires|ensures|ghost)\b", s)
        out.append("" if drop else line)
    return "\n".join(out)


def items(text, head):
    """Items at the left margin whose first line matches: line number, head, body."""
    lines = text.split("\n")
    i = 0
    while i < len(lines):
        if re.match(head, lines[i]):
            e = i
            while e < len(lines) and lines[e] != "}" and not (e == i and lines[e].endswith(";")):
                e += 1
            yield i + 1, "\n".join(lines[i : e + 1])
            i = e
        i += 1


FN = r'(pub )?(const )?(extern "C" )?fn '


def enums(text):
    for at, body in items(text, r"(pub )?enum "):
        name = re.match(r"(?:pub )?enum (\w+)", body).group(1)
        inner = body[body.index("{") + 1 : body.rindex("}")]
        variants = re.findall(r"^    (\w+)(.*?),?$", inner, re.M)
        yield at, name, variants


def skeleton(body):
    """A function's tokens with each type, constant, callee and number taken out: what twins share."""
    code = body[body.index("\n") :] if "\n" in body else body
    params = re.findall(r"(\w+): ", body.split(")")[0])
    words = re.findall(r"[A-Za-z_]\w*|\d[\w_]*|\S", code)
    names = {}
    out = []
    for k, word in enumerate(words):
        after = words[k + 1] if k + 1 < len(words) else ""
        if re.match(r"\d|[A-Z]", word) or (re.match(r"\w", word) and after in ("(", ":") and word not in ("if", "while", "match")):
            out.append("#")
        elif re.match(r"[a-z_]", word) and word not in KEYWORDS:
            out.append(names.setdefault(word, f"v{len(names)}"))
        else:
            out.append(word)
    return len(params), re.sub(r"(# : : )*#", "#", " ".join(out))


KEYWORDS = {"let", "mut", "if", "else", "while", "for", "in", "match", "return", "as", "true", "false", "self", "loop", "break", "continue"}


def count(commit):
    places = defaultdict(list)
    twins = defaultdict(list)
    facts = defaultdict(list)
    together = defaultdict(list)
    for name, text in files(commit, "src", ".rt"):
        code = bare(text)
        lines = code.split("\n")

        def put(what, at, line):
            places[what].append(f"{name}:{at}: {line.strip()}")

        for at, enum, variants in enums(code):
            if any(v == "Refused" and rest.startswith("(u8)") for v, rest in variants):
                put("1 enums with a refusal number among their variants", at, enum)
            elif len(variants) == 2 and sorted(bool(rest) for _, rest in variants) == [False, True]:
                put("1 enums of two variants, one of which holds a value", at, enum)
        for at, body in items(code, r"(pub )?struct "):
            if re.search(r": bool,", body) and len(re.findall(r"^    (?:pub )?\w+:", body, re.M)) == 2:
                put("1 structs of a flag and a value", at, body.split("\n")[0])
            if re.search(r"\brefusal: u8", body):
                put("1 structs of a flag and a value", at, body.split("\n")[0])
        for at, line in enumerate(lines, 1):
            if name.endswith("refusals.rt") and re.match(r"pub const \w+: u8 = \d+;", line) or re.match(r"pub const (MAP_BAD|NO_PAIR|LISTS_BAD|PORTION_BAD|HELLO_MALFORMED|PARAMETERS_MISSING)\b", line):
                put("1 constants that number a refusal", at, line)
            if re.search(r"\bfn .*\b(kind|state): (u8|u32|u64)", line) or re.match(r"    (kind|state): (u8|u32|u64),", line):
                put("1 parameters that number a kind or a state", at, line)
            if re.search(r"(Refused|Err)\((\w)\) => (?:return )?([\w:]+::)?(Refused|Err)\(\2\)", line):
                put("1 arms that hand a refusal on", at, line)
            if re.match(r"\s*while ", line):
                put("3 while loops", at, line)
            if re.match(r"\s*for ", line):
                put("3 for loops", at, line)
        for at, body in items(code, FN):
            fn = re.search(r"fn (\w+)", body).group(1)
            if body.count("\n") >= 3 and fn != "claims" and "extern" not in body.split("\n")[0]:
                twins[skeleton(body)].append(f"{name}:{at}: {fn}")
            arms = re.findall(r"^        (.+?) => (.+?),?$", body, re.M)
            if arms and all(re.fullmatch(r"[0-9][\w_]*|true|false|[A-Z_]+", a[1]) for a in arms) and re.search(r"^    match \w+ \{", body, re.M):
                put("4 conversions from an enum by hand", at, fn)
            calls = [a for a in arms if re.match(r"[a-z_:]+\(", a[1])]
            if len(calls) >= 2 and len(calls) == len(arms):
                put("7 matches whose arms are each a call", at, fn)
            head = body.split("{")[0]
            for run in re.findall(r"((?:\w+: (?:&mut |&)?[\[\]\w]+, ){1,}\w+: (?:&mut |&)?[\[\]\w]+)", re.sub(r",?\s*\n\s*", ", ", head).replace("(, ", "(")):
                pairs = run.split(", ")
                for k in range(len(pairs) - 1):
                    together[(pairs[k], pairs[k + 1])].append(f"{name}:{at}: {fn}")
            if re.search(r"(\w+): &(mut )?\[\w+\],\s+\w*(n|count|len|held)\w*: usize", head):
                put("6 areas with a length beside them", at, fn)
        for at, body in items(text, FN):
            fn = re.search(r"fn (\w+)", body).group(1)
            for line in body.split("\n"):
                m = re.match(r"\s*requires(?: \w+)? \{ (.*) \}", line)
                if m:
                    facts[m.group(1)].append(f"{name}:{at}: {fn}")
    for group in twins.values():
        if len(group) > 1:
            places["2 functions of the same shape as another"] += [f"{p} ({len(group)})" for p in group]
    for fact, where in facts.items():
        if len(where) >= 3:
            places["5 requires that three or more functions share"] += [f"{p} {fact}" for p in where]
    for pair, where in together.items():
        if len(where) >= 3:
            places["5 parameters beside one another in three or more functions"] += [f"{p} {', '.join(pair)}" for p in where]
    goals = 0
    for name, text in files(commit, "proofs", ".antt"):
        if name.endswith("/Answers.antt") and name.count("/") > 3:
            goals += len(re.findall(r"^pub \S+ : goal\.", text, re.M))
            for at, line in enumerate(text.split("\n"), 1):
                if re.match(r"\S+( g)? c = search rules$", line):
                    places["8 answers that are a search alone"].append(f"{name}:{at}: {line}")
    places["8 answers"] = [""] * goals
    return places


def main():
    words = [w for w in sys.argv[1:] if w != "--list"]
    places = count(words[0] if words else None)
    for what in sorted(places):
        print(f"{len(places[what])} {what[2:]} (point {what[0]})")
        if "--list" in sys.argv:
            for place in places[what]:
                if place:
                    print(f"    {place}")


main()
