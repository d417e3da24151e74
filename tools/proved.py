#!/usr/bin/env python3
"""Works over the libraries that are proved, in crates/*/out, without proving those again:

    tools/proved.py [--fresh] archive          writes target/staticlib/libshinglebar.a, and prints the verdict on it
    tools/proved.py [--fresh] verdict CRATE..  prints the verdict on each program
    tools/proved.py [--fresh] refusals         tries each wrong program (CONTRIBUTING.md), and says at which facts it is refused

With --fresh the libraries are those that `rt ci` has just left in a checkout where nothing was built before: rt does not count
these as built, since they have no proofs in them. Else `rt lib` first proves what has changed. What is said of an edit goes to
target/must-fail/CRATE/EDIT/.log.
"""
import contextlib
import importlib.util
import os
import re
import shutil
import subprocess
import sys
import tempfile
from concurrent.futures import ThreadPoolExecutor

sys.dont_write_bytecode = True
TOP = os.path.dirname(os.path.dirname(os.path.realpath(__file__)))


def load():
    """Returns the module of the kit that knows with which words its prover is called."""
    page = subprocess.run(["rt", "doc"], stdout=subprocess.PIPE, text=True, check=True).stdout.strip()
    spec = importlib.util.spec_from_file_location("rtlib", f"{os.path.dirname(page)}/bin/rtlib.py")
    made = importlib.util.module_from_spec(spec)
    spec.loader.exec_module(made)
    return made


KIT = load()


def crate_of(name):
    return KIT.Crate(f"{TOP}/crates/{name}", TOP, {})


def prover(verb, crate, folder, *words):
    """Runs the prover on a crate whose src/, specs/ and proofs/ lie in the folder, and returns its status and what it said."""
    whole = [KIT.RATTLE, verb, *crate.words(["--jobs", "1"], keeps=False), *words]
    how = {"stdin": subprocess.DEVNULL, "stdout": subprocess.PIPE, "stderr": subprocess.STDOUT, "errors": "replace"}
    ran = subprocess.run(whole, cwd=folder, **how)
    return ran.returncode, ran.stdout


def build_below(crates, fresh):
    """Has the libraries below these crates built."""
    if fresh:
        lacking = {it.name for crate in crates for it in crate.below() if not os.path.isdir(it.rlib)}
        if lacking:
            sys.exit(f"proved: rt ci has left no library {' '.join(sorted(lacking))}")
        return
    done = set()
    for it in [it for crate in crates for it in crate.deps]:
        if it.name not in done and subprocess.run(["rt", "lib"], cwd=it.folder).returncode:
            sys.exit(f"proved: {it.name} is not proved")
        done.update([it.name, *[below.name for below in it.below()]])


def archive(fresh):
    crate = crate_of("shinglebar_c")
    build_below([crate], fresh)
    made = f"{crate.folder}/out/lib{crate.name}.a"
    os.makedirs(os.path.dirname(made), exist_ok=True)
    with contextlib.suppress(FileNotFoundError):
        os.remove(made)
    status, said = prover("build", crate, crate.folder, "--toolchain", f"{KIT.KIT}/toolchain", "-o", made)
    print(said, end="")
    if status:
        return 1
    os.makedirs(f"{TOP}/target/staticlib", exist_ok=True)
    shutil.copyfile(made, f"{TOP}/target/staticlib/libshinglebar.a")
    return 0


def verdict(fresh, names):
    crates = [crate_of(it) for it in names]
    build_below(crates, fresh)
    failed = 0
    for crate in crates:
        status, said = prover("check", crate, crate.folder)
        failed += status != 0
        if status:
            print(said, end="")
        print(f"{crate.name}: {said.rstrip().rpartition(chr(10))[2]}", flush=True)
    return int(failed > 0)


class Program:
    """A wrong program: its name, the functions that it changes, and the lines that make it, as (file, old, new)."""

    def __init__(self, name, functions):
        self.name, self.functions, self.pairs = name, functions, []


def programs_of(edit):
    found, path, old = [], None, None
    with open(edit, encoding="utf-8") as it:
        for line in it.read().split("\n"):
            if line.startswith("wrong: "):
                name, *functions = line.split()[1:]
                found.append(Program(name, functions))
            elif line.startswith("file: "):
                path = line[len("file: ") :].strip()
            elif line.startswith("old: "):
                old = line[len("old: ") :]
            elif line.startswith("new:") and found:
                found[-1].pairs.append((path, old, re.sub(r"\A ", "", line[len("new:") :])))
    return found


def try_programs(crate, programs):
    """Checks the functions of these wrong programs, in a copy of the crate with their lines, and returns what the prover said."""
    with tempfile.TemporaryDirectory(prefix="shinglebar-wrong-") as room:
        for part in ("src", "specs", "proofs"):
            if os.path.isdir(f"{crate.folder}/{part}"):
                shutil.copytree(f"{crate.folder}/{part}", f"{room}/{part}")
        for path, old, new in [pair for it in programs for pair in it.pairs]:
            with open(f"{room}/{path}", encoding="utf-8") as it:
                text = it.read()
            if text.count(old) != 1:
                return f"cannot be applied: {old.strip()}\n"
            with open(f"{room}/{path}", "w", encoding="utf-8") as it:
                it.write(text.replace(old, new))
        only = [word for it in programs for function in it.functions for word in ("--only", function)]
        return prover("check", crate, room, *only)[1]


# An error is none of a fact if it says that a name is gone, that something else was not admitted, or that a search broke off.
NO_FACT = re.compile(r"has no field|has no `|is not in scope|can be named|was not admitted|was rejected|was refused, and|give the call less to do|ran out of|broke off")
# A goal that a callee's `requires` makes is none either where a search leaves it open; an answer of the file's own that fails there is one.
DEMAND = re.compile(r"-requires\b")
ERROR = re.compile(r"(?:\./)?proofs/(\S+)/(?:Answers|Invariants|Proof)\.antt:\d+:\d+: error: (?:`([^`]*)`: )?(.*)")
# What a search did not prove, above the line of the function.
OPEN = re.compile(r"note: (?:\./)?src/\S+:\d+:\d+: it is not proved that .*\(`([^`]*)`\)")


def facts(crate, said):
    """Returns, for each function, the goals of its own that the prover refused."""
    found, left = {}, []
    for line in said.split("\n"):
        error, goal, function = ERROR.match(line), OPEN.match(line), re.match(r"fn (\S+): (\w+ \w+|\w+)", line)
        searched = error and re.match(r"`?search`?: ", error[3])
        if error and not NO_FACT.search(error[3]) and not (searched and DEMAND.search(error[2] or "")):
            found.setdefault(error[1].replace("/", "::"), []).append(error[2] or error[3])
        elif goal:
            left.append(goal[1])
        elif function:
            if function[2] in ("not proved", "no proof"):
                own = [it for it in left if not DEMAND.search(it)]
                found.setdefault(function[1].partition("::")[2], []).extend(own)
            left = []
    return found


def try_edit(crate, edit):
    """Returns a line for each wrong program of the edit, and how many of them are not refused at a fact of each function that they change."""
    name, programs = os.path.basename(edit)[: -len(".edit")], programs_of(edit)
    said = try_programs(crate, programs)
    log, lines, missed = [said], [], 0
    joint = facts(crate, said)
    for program in programs:
        at = joint
        if len(programs) > 1 and not all(at.get(it) for it in program.functions):
            # what a search leaves open is not looked at where a callee is wrong too
            said = try_programs(crate, [program])
            log.append(f"== {program.name} alone\n{said}")
            at = facts(crate, said)
        lacking = [it for it in program.functions or ["(none)"] if not at.get(it)]
        missed += bool(lacking)
        own = "; ".join(f"{it}: {', '.join(at[it][:2])}" for it in program.functions if at.get(it))
        lines.append(f"{crate.name}/{program.name}: {'refused at ' + own if not lacking else 'no fact fails in ' + ' '.join(lacking)}")
    folder = f"{TOP}/target/must-fail/{crate.name}/{name}"
    os.makedirs(folder, exist_ok=True)
    with open(f"{folder}/.log", "w", encoding="utf-8") as it:
        it.write("".join(log))
    return lines, len(programs), missed


def lanes():
    """Returns how many checks run side by side: one a processor, where each has 3 GB."""
    with open("/proc/meminfo", encoding="utf-8") as it:
        free = int(re.search(r"MemAvailable:\s+(\d+)", it.read())[1]) * 1024
    return max(1, min(len(os.sched_getaffinity(0)), free // 3_000_000_000))


def refusals(fresh, names):
    crates, edits = [], []
    for name in sorted(os.listdir(f"{TOP}/crates")):
        folder = f"{TOP}/crates/{name}/must-fail"
        files = sorted(it for it in os.listdir(folder) if it.endswith(".edit")) if os.path.isdir(folder) else []
        found = [f"{folder}/{it}" for it in files if programs_of(f"{folder}/{it}")]
        if found and (not names or name in names):
            crates.append(crate_of(name))
            edits += [(crates[-1], it) for it in found]
    build_below(crates, fresh)
    tried = bad = 0
    with ThreadPoolExecutor(lanes()) as pool:
        for lines, number, missed in pool.map(lambda it: try_edit(*it), edits):
            tried, bad = tried + number, bad + missed
            for line in lines:
                print(line, flush=True)
    print(f"refusals: {tried - bad} refused, {bad} not")
    return int(bad > 0)


def main(words):
    fresh = words[:1] == ["--fresh"]
    verb, *names = words[fresh:] or [""]
    if verb == "archive" and not names:
        return archive(fresh)
    if verb == "verdict" and names:
        return verdict(fresh, names)
    if verb == "refusals":
        return refusals(fresh, names)
    print(__doc__, end="", file=sys.stderr)
    return 2


if __name__ == "__main__":
    sys.exit(main(sys.argv[1:]))
