#!/usr/bin/env python3
"""Counts the places of each point of docs/DESIGN-PASS.md in crates/*/src/*.rt, and of point 8 in crates/*/proofs.

usage: python3 tools/design_places.py [--list] [FOLDER]    FOLDER: a checkout, else the one that this file is in
With --list each place is printed below its count. Comments and clauses are left out, but for point 5, which reads `requires`.
"""
import collections
import glob
import os
import re
import sys

LIST = "--list" in sys.argv
GIVEN = [it for it in sys.argv[1:] if it != "--list"]
TOP = GIVEN[0] if GIVEN else os.path.dirname(os.path.dirname(os.path.abspath(__file__)))
SOURCES = sorted(glob.glob(f"{TOP}/crates/*/src/*.rt"))
WORDS = {}


def show(point, what, places):
    print(f"{point:3} {what:88} {len(places):4}")
    if LIST:
        for it in places:
            print(f"       {it}")


def code(file):
    """Yields line numbers and lines, with comments, `ghost use` lines and clauses left blank."""
    with open(file, encoding="utf-8") as it:
        for at, line in enumerate(it, 1):
            bare = line.split("//")[0].rstrip("\n")
            if re.match(r"\s*(ghost|requires|ensures)\b", bare):
                bare = ""
            yield at, bare


def places(pattern, names=""):
    found = []
    for file in SOURCES:
        short = file[len(TOP) + 8 :]
        if names and not re.search(names, short):
            continue
        for at, line in code(file):
            found += [f"{short}:{at}: {line.strip()}"] * bool(re.search(pattern, line))
    return found


def functions():
    """Yields the file, the name, the parameters, the `requires` and the body of each function."""
    for file in SOURCES:
        with open(file, encoding="utf-8") as it:
            text = re.sub(r"//[^\n]*", "", it.read())
        for m in re.finditer(r"^( *)(?:pub(?:\(crate\))? )?(?:extern \"C\" )?fn (\w+)[^(]*\(", text, re.M):
            end = text.index("\n" + m[1] + "}", m.end()) if "\n" + m[1] + "}" in text[m.end() :] else len(text)
            whole = text[m.end() : end]
            opens = re.search(r"(?m)^" + m[1] + r"\{$|^(?!\s*(?:requires|ensures|ghost)\b).*[^=] \{$", whole)
            head, body = (whole[: opens.end() - 1], whole[opens.end() :]) if opens else (whole, "")
            parameters = re.sub(r"\s+", " ", head[: head.find(")")])
            yield file[len(TOP) + 8 :], m[2], parameters, " ".join(re.findall(r"requires[^{\n]*\{(.*)\}", head)), body


def skeleton(parameters, body):
    """A function's code with each name and number put by its first place, so that functions that differ in these alone are equal."""
    seen = {}
    keep = r"if|else|return|let|mut|for|in|while|match|as|true|false"

    def put(m):
        word = m[0]
        return word if re.fullmatch(keep, word) else seen.setdefault(word, f"_{len(seen)}")

    return re.sub(r"b?\"[^\"]*\"|\w+", put, re.sub(r"\s+", " ", parameters + " { " + body))


FUNCTIONS = list(functions())
show("1", "own enums (each is looked at: shape of Option or Result, or not)", places(r"^\s*(pub(\(crate\))? )?enum \w+"))
show("1", "a flag or a verdict with a value beside it in a struct", places(r"^\s*(pub(\(crate\))? )?(ok: bool|verdict: Verdict),"))
show("1", "a refusal's number in place of its reason", places(r"number: (u64,|\d+,)|unless\(\d+,|^\s+return 1[67];|\"refused \", 1\d|_fault\(.*\) -> u64|fn unless\(number"))
show("1", "an approach's number in place of its name", places(r"fn approach.*-> u64|\bby == \d|by: u64", r"weights/"))
groups = collections.defaultdict(list)
for file, name, parameters, _, body in FUNCTIONS:
    if body.strip():
        groups[skeleton(parameters, body)].append(f"{file}: {name}")
twins = [it for it in groups.values() if len(it) > 1]
show("2", "functions that are equal but for names, types and numbers", [f"{len(it)}: " + ", ".join(it) for it in twins])
show("3", "`while` loops", places(r"^\s*while "))
show("3", "`for` over an index of a list that is read only there", places(r"for \w+ in 0\.\.\w+\.len\(\)"))
show("4", "comparison, order, difference, widening and bytes by hand", places(r"fn (same_\w+|smaller|larger|excess|wide|half_from|word_from|put_word|(put|push)_decimal)\b"))
show("4", "`return true;`, `return false;` in place of `&&` and `||`", places(r"^\s+return (true|false);"))
facts = collections.defaultdict(set)
for file, name, _, needs, _ in FUNCTIONS:
    for it in set(re.findall(r"\b[A-Z][a-z]\w*", needs)):
        facts[it].add(f"{file}: {name}")
for it in sorted(facts, key=lambda it: -len(facts[it])):
    if len(facts[it]) > 2:
        show("5", f"functions that require {it}", sorted(facts[it]))
together = collections.Counter()
for file, name, parameters, _, _ in FUNCTIONS:
    names = [it.strip() for it in parameters.split(",") if ":" in it and "self" not in it]
    for i, a in enumerate(names):
        for b in names[i + 1 :]:
            together[(file.split("/")[0], a.replace("mut ", ""), b.replace("mut ", ""))] += 1
pairs = [f"{n}: {c}: {a}, {b}" for (c, a, b), n in sorted(together.items(), key=lambda it: -it[1]) if n > 2]
show("5", "pairs of parameters, same names and types, in three or more functions of a crate", pairs)
show("6", "a buffer with a place or a length beside it, as parameters", [f"{f}: {n}" for f, n, p, _, _ in FUNCTIONS if re.search(r"&(mut )?\[u(8|64)\]", p) and re.search(r"\b(at|n|size|length|count): (usize|u64)", p)])
show("6", "lists of fixed size that stand for others (sentinels)", places(r"\[u8; (NEXT|TRANCHES_MOST)\]", "deal/"))
show("7", "function pointers, tables of functions, a number that says which step", places(r"\bfn\(|\[fn |step: |\bdyn\b"))
show("8", "answers", [f"{f[len(TOP) + 8 :]}: {m}" for f in sorted(glob.glob(f"{TOP}/crates/*/proofs/**/Answers.antt", recursive=True)) for m in re.findall(r"^pub (\S+) : goal\.", open(f, encoding="utf-8").read(), re.M)])
show("8", "measures of loops", [f"{f[len(TOP) + 8 :]}: {m}" for f in sorted(glob.glob(f"{TOP}/crates/*/proofs/**/Invariants.antt", recursive=True)) for m in re.findall(r"^abbrev pub (decreases\S+) :", open(f, encoding="utf-8").read(), re.M)])
