#!/usr/bin/env python3
"""Turns the proofs of an older Rattle, which give `tie.spec` its answers in a row, to Invariants.antt and Answers.antt, once.

usage: answers.py NAMES CRATE_FOLDER [FUNCTION..]

NAMES is the names.json of the crate (rt check --generated DIR --old-names). What it can't turn it says and leaves.
"""

import collections
import glob
import json
import os
import re
import sys

WORD = r"[^\s(){}.;,@\"«»\[\]\\]+"
TOKEN = re.compile(r"--(?= |$)[^\n]*|" + WORD + r"|.", re.S)
KINDS = {"args", "requires", "ranges", "lifetimes", "well_formed", "type_inv", "utf8", "captures"}
plain = lambda it: it.replace("_", "-")


def read(path):
    with open(path, encoding="utf-8") as it:
        return it.read()


def arguments(text):
    """The arguments of an application, as texts."""
    out, depth, start = [], 0, None
    for i, ch in enumerate(text):
        if ch in "({[":
            if depth == 0 and start is None:
                start = i
            depth += 1
        elif ch in ")}]":
            depth -= 1
        if depth == 0 and ch.isspace():
            if start is not None:
                out.append(text[start:i])
                start = None
        elif start is None:
            start = i
    if start is not None:
        out.append(text[start:])
    return out


class Function:
    def __init__(self, crate, function, of, said, source_names):
        self.crate, self.function, self.of, self.said, self.source_names = crate, function, of, said, source_names
        self.parent = {old: parent for old, parent, *_ in of["places"]}
        self.step = {old: step for old, _, step, *_ in of["places"]}
        self.callee = {step[0]: callee for _, _, step, callee, *_ in of["places"] if callee}
        self.loops = {old: (new, names, changed) for ((old, new), names), changed in zip(of["loops"], of["changed"])}

    def up(self, place):
        return self.parent.get(place) or place

    def find(self, place, seg):
        """The step seg, in its old name, at place or nearest above it."""
        at = place
        while at is not None:
            if self.step[at] and plain(self.step[at][0]).lower() == plain(seg).lower().removesuffix("-lem") and self.step[at][0]:
                return self.step[at]
            at = self.parent[at]
        return None

    def source(self, seg):
        it = seg.replace("-", "_")
        return it if it in self.source_names else seg

    def turn(self, body, place):
        """The body of an answer whose `c` is at place."""
        records = {"c": place}
        steps = {}
        tokens = [m.group(0) for m in TOKEN.finditer(body)]
        out, i = [], 0
        while i < len(tokens):
            word = tokens[i]
            if re.fullmatch(WORD, word) and (i == 0 or tokens[i - 1] != ".") and (word in records or word in steps):
                path, j = [], i + 1
                while j + 1 < len(tokens) and tokens[j] == "." and re.fullmatch(WORD, tokens[j + 1]):
                    path.append(tokens[j + 1])
                    j += 2
                # a λ or a let that binds the same name again
                before = "".join(out).rstrip()
                bound = re.search(r"let (" + WORD + r")(?: : [^=]*)? =$", before) if before.endswith("=") else None
                rest = "".join(tokens[j : j + 4]).lstrip()
                if before.endswith("let"):
                    records.pop(word, None)
                    steps.pop(word, None)
                    out.append(word)
                    i += 1
                    continue
                if word in steps:
                    out.append(".".join([word] + self.fields(steps[word], path)))
                    i = j
                    continue
                at, k = records[word], 0
                while k < len(path) and path[k] == "before":
                    at = self.up(at)
                    k += 1
                if k == len(path):
                    if bound and rest.startswith("in"):
                        records[bound.group(1)] = at
                        # drop the let
                        text = "".join(out)
                        cut = text.rindex("let " + bound.group(1))
                        out = [text[:cut]]
                        while tokens[j] != "in":
                            j += 1
                        j += 1
                        while j < len(tokens) and tokens[j].isspace():
                            j += 1
                        i = j
                        continue
                    if path or word != "c":
                        self.said.append(f"bare {word}.{'.'.join(path)}")
                    out.append("c")
                    i = j
                    continue
                seg = path[k]
                if seg in KINDS:
                    more = path[k + 1 :]
                    if seg in ("args", "ranges") and more:
                        more = [self.source(more[0])] + more[1:]
                    out.append(".".join(["c", seg] + [self.source(it) for it in more]))
                    i = j
                    continue
                step = self.find(at, seg) or self.find(place, seg)
                if not step:
                    self.said.append(f"no step {seg}")
                    out.append(".".join(["c"] + path[k:]))
                    i = j
                    continue
                if bound and k + 1 == len(path) and rest.startswith("in"):
                    steps[bound.group(1)] = step[0]
                out.append(".".join(["c", step[1]] + self.fields(step[0], path[k + 1 :])))
                i = j
                continue
            out.append(word)
            i += 1
        return "".join(out)

    def fields(self, step, path):
        path = list(path)
        callee = self.callee.get(step)
        if path and path[0] == "new" and len(path) > 1 and path[1].isdigit():
            names = self.news(callee)
            if names and int(path[1]) < len(names):
                path[1] = names[int(path[1])]
            else:
                self.said.append(f"new.{path[1]} of {callee}")
        elif path and step in self.loops:
            path[0] = self.source(path[0])
        return path[:1] + [self.source(it) for it in path[1:]] if path else path

    def news(self, callee):
        """The parameters of callee that are a &mut, in order."""
        return MUTABLE.get(callee) if callee else None

    def invariant(self, kind, old, params, body):
        new, names, changed = self.loops[old]
        olds = names + [it for it, ch in zip(names, changed) if ch]
        if len(params) != len(olds):
            self.said.append(f"{kind}-{old}: {len(params)} parameters, {len(olds)} variables")
            return None
        to = {}
        for k, (param, name) in enumerate(zip(params, olds)):
            first = k < len(names)
            to[param] = f"l.initial.{name}" if first and changed[k] else f"l.{name}"
        tokens = [m.group(0) for m in TOKEN.finditer(body)]
        out = []
        for k, word in enumerate(tokens):
            behind_dot = k > 0 and tokens[k - 1] == "."
            out.append(to[word] if word in to and not behind_dot else (self.source(word) if behind_dot else word))
        return f"abbrev pub {kind}-{new} : goal.{kind}-{new}\n{kind}-{new} l = " + "".join(out)


MUTABLE = {}


def scan_sources(top):
    names = set()
    for path in glob.glob(f"{top}/crates/*/src/**/*.rt", recursive=True):
        crate = path.split("/crates/")[1].split("/")[0]
        module = os.path.basename(path)[:-3]
        text = re.sub(r"//[^\n]*", "", read(path))
        text = re.sub(r"\[u8; (\w+)\]", r"[u8]", text)
        names.update(it for it in re.findall(r"[a-z_][a-z0-9_]*", text) if "_" in it)
        for m in re.finditer(r"\bfn (\w+)\s*(?:<[^>]*>)?\(([^)]*)\)", text):
            muts = re.findall(r"(\w+)\s*:\s*&mut\b", m.group(2))
            for name in (f"{crate}::{m.group(1)}", f"{crate}::{module}::{m.group(1)}"):
                MUTABLE[name] = muts
    return names


def blocks_of(text):
    """The declarations of a proof file: (comment, lines)."""
    out, comment, now = [], [], []
    for line in text.split("\n"):
        top = line and not line[0].isspace() and not line.startswith(")")
        if line.startswith("--"):
            if now:
                out.append((comment, now))
                comment, now = [], []
            comment.append(line)
        elif not line.strip():
            if now:
                now.append(line)
        elif top and re.match(r"(pub |abbrev |unfoldable )*" + WORD + r" :( |$)", line) or re.match(r"(use|module|record|data|ruleset|pub ruleset|pub record|pub data) ", line):
            if now:
                out.append((comment, now))
                comment = []
            now = [line]
        else:
            now.append(line)
    if now:
        out.append((comment, now))
    return [(c, "\n".join(n).rstrip()) for c, n in out]


def used(uses, text):
    out = []
    words = set(re.findall(WORD, re.sub(r"(?m)--(?= |$).*$", "", text)))
    # an operator is used where each of its parts is
    for line in uses:
        m = re.match(r"use ([^{}]*)\.\{(.*)\}$", line, re.S)
        if not m:
            alias = re.match(r"use (\S+) as (\S+)$", line)
            last = alias.group(2) if alias else line.split(".")[-1]
            if last in words or re.search(r"(?<![\w.])" + re.escape(last) + r"\.", text):
                out.append(line)
            continue
        names = [it.strip() for it in m.group(2).split(",") if it.strip()]
        kept = []
        for name in names:
            shown = name.split(" as ")[-1]
            parts = [it for it in shown.split("◌") if it]
            if all(p in words or (len(p) == 1 and not p.isalnum() and p in text) for p in parts):
                kept.append(name)
        if kept:
            out.append(f"use {m.group(1)}.{{{', '.join(kept)}}}")
    return out


def turn(crate, top, folder, function, of, source_names, dry):
    said = []
    path = f"{folder}/Proof.antt"
    text = read(path)
    fn = Function(crate, function, of, said, source_names)
    parts = blocks_of(text)
    head = parts[0][0] if parts else []
    uses = [b for _, b in parts if b.startswith("use ")]
    module_path = function.replace("::", ".")
    final = [b for _, b in parts if "tie.close" in b]
    if len(final) != 1:
        return [f"{crate}::{function}: no tie.close"]
    m = re.search(r"tie\.close\s*\((.*)\)\s*$", final[0], re.S)
    if not m:
        m = re.search(r"tie\.close\s+(tie\.spec)\s*$", final[0], re.S)
    inner = arguments(m.group(1))
    if inner[0] != "tie.spec":
        return [f"{crate}::{function}: tie.close of {inner[0]}"]
    given = inner[1:]
    invariants, answers, helpers = {}, {}, []
    order = []
    # what the file declares
    for comment, block in parts:
        if block.startswith("use ") or "tie.close" in block:
            continue
        first = block.split("\n")[0]
        m = re.match(r"abbrev (?:pub )?(\S+) : tie\.(invariant|decreases)-(\S+)", first)
        if m:
            d = re.search(r"\n" + re.escape(m.group(1)) + r"((?: \S+)*) =\s*(.*)$", block, re.S)
            invariants[m.group(1)] = (m.group(2), m.group(3), d.group(1).split(), d.group(2))
            continue
        m = re.match(r"(\S+) : tie\.Need-(\S+)(.*)$", first)
        if m:
            body = block.split("\n", 1)[1]
            unfolding = ""
            u = re.match(r"(unfolding [^\n]*)\n", body)
            if u:
                unfolding, body = u.group(1), body[u.end() :]
            d = re.match(re.escape(m.group(1)) + r"((?: [^\s=]+)*) =(\s.*)$", body, re.S)
            if not d:
                said.append(f"shape of {m.group(1)}")
                continue
            answers[m.group(1)] = (m.group(2), unfolding, d.group(1).split(), d.group(2), comment)
            continue
        helpers.append("\n".join(comment + [block]) if comment is not head else block)
    used_as = collections.OrderedDict()
    rest = list(given)
    while rest and rest[0] in invariants:
        rest.pop(0)
    needs = of["needs"]
    aligned = len(rest) == len(needs)
    out = []
    if not aligned:
        said.append(f"{len(rest)} answers for {len(needs)} goals")
    pairs = []
    if aligned:
        pairs = [(arg, new, asked[0]) for arg, (_, new), asked in zip(rest, needs, of["asked_at"])]
    else:
        by_old = {}
        for (old, new), asked in zip(needs, of["asked_at"]):
            by_old[plain(old)] = (new, asked[0])
        for arg in rest:
            if arg in answers:
                need = plain(answers[arg][0])
                hit = by_old.get(need) or by_old.get(re.sub(r"^overflow-", "", need)) or by_old.get(need.replace("slice-bounds", "part"))
                if hit:
                    pairs.append((arg, *hit))
                else:
                    said.append(f"no goal for {arg} : {answers[arg][0]}")
            elif not re.match(r"\(λ c( κs)?\. search rules\)$", arg):
                said.append(f"left out {arg}")
    for arg, new, place in pairs:
        if arg in answers:
            need, unfolding, params, body, comment = answers[arg]
            body = body.strip() if "\n" not in body.strip("\n") else body
            c = params[0] if params else "c"
        else:
            m = re.match(r"\(λ (\S+)( κs)?\. (.*)\)$", arg, re.S)
            if not m:
                m2 = re.match(r"^" + WORD + r"$", arg)
                if m2:
                    out.append((new, "", f"{arg} c", [], "c"))
                    said.append(f"argument {arg} for {new}")
                    continue
                said.append(f"argument {arg[:60]}")
                continue
            c, body, unfolding, comment, params = m.group(1), m.group(3), "", [], []
        if body.strip() in ("search rules",) and not unfolding:
            continue
        if c != "c" and len(params) <= 2:
            said.append(f"argument {c} of {new}")
        if re.search(r"(?<![\w])κs(?![\w])", body):
            said.append(f"κs in {new}")
        turned = fn.turn(body, place)
        out.append((new, unfolding, turned, comment, c))
    inv = []
    for name, (kind, loop, params, body) in invariants.items():
        if loop not in fn.loops:
            said.append(f"no loop {loop}")
            continue
        it = fn.invariant(kind, loop, params, body)
        if it:
            inv.append(it)
    texts = {}
    if inv:
        body = "\n\n".join(inv)
        lines = used(uses, body) + [f"use Rattle.{crate}.proofs.{module_path}.Given as goal"]
        texts["Invariants.antt"] = "\n".join(lines) + "\n\n" + body + "\n"
    if out or helpers:
        decls = list(helpers)
        for new, unfolding, body, comment, c in out:
            sep = "" if body.startswith((" ", "\n")) else " "
            decls.append("\n".join(comment + [f"pub {new} : goal.{new}"] + ([unfolding] if unfolding else []) + [f"{new} c ={sep}{body}"]))
        body = "\n\n".join(decls)
        lines = used([u for u in uses if "Statement.{statement}" not in u and "Tie as tie" not in u], body) + [f"use Rattle.{crate}.proofs.{module_path}.Goals as goal"]
        note = [it for it in head if it != "-- Assumes nothing."]
        texts["Answers.antt"] = "\n".join(note + lines) + "\n\n" + body + "\n"
    if not dry:
        os.remove(path)
        for name, it in texts.items():
            with open(f"{folder}/{name}", "w", encoding="utf-8") as f:
                f.write(it)
        if not texts and not os.listdir(folder):
            os.rmdir(folder)
    return [f"{crate}::{function}: {it}" for it in said]


def main(argv):
    dry = "--check" in argv
    argv = [it for it in argv if it != "--check"]
    names, folder = argv[0], os.path.abspath(argv[1])
    only = argv[2:]
    crate = os.path.basename(folder)
    top = os.path.dirname(os.path.dirname(folder))
    source_names = scan_sources(top)
    data = json.loads(read(names))
    n = 0
    for module, of in data.items():
        m = re.fullmatch(r"Rattle-" + crate + r"-proofs\.(.*)\.Lts", module)
        if not m:
            continue
        function = m.group(1)
        where = f"{folder}/proofs/{function.replace('.', '/')}"
        if only and function not in only or not os.path.exists(f"{where}/Proof.antt"):
            continue
        n += 1
        try:
            for it in turn(crate, top, where, function.replace(".", "::"), of, source_names, dry):
                print(it)
        except Exception as e:  # the file stays as it was
            print(f"{crate}::{function}: {type(e).__name__} {e}")
    print(f"{crate}: {n} proofs")
    return 0


if __name__ == "__main__":
    raise SystemExit(main(sys.argv[1:]))
