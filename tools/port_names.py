#!/usr/bin/env python3
"""Brings the repository's own names to today's spelling, around one run of the kit's port.py.

usage, at the top of the repository:
  python3 tools/port_names.py links    before port.py: a link below crates/ becomes a copy of what it points to
  python3 tools/port_names.py names    after port.py: definitions, lemmas, fields and local names of specs/ and proofs/ in snake case,
                                       in .antt, .rt and .edit files, README.md and docs/; writes tools/port_names.tsv

A name is respelled where it is declared in a .antt file or bound there by a let: a capital inside it and a dash become an underscore.
Two names that would fall together are told apart by APART. The names of functions of src/ are not touched, nor what proofs call goals and steps by.
"""

import collections
import glob
import os
import re
import shutil
import subprocess
import sys

NAME = r"[^\s(){}\[\].;,@\"«»`]+"
DECLARED = re.compile(rf"^( *)((?:abbrev |unfoldable |pub )*)({NAME})((?: \{{[^{{}}\n]*\}})*) :(?: |$)(.*)", re.M)
BOUND = re.compile(rf"\blet ({NAME}) [:=]")
TOKEN = re.compile(NAME)
# What proofs of functions declare for the toolchain: a goal's answer, a loop's invariant and measure, the function's proof.
MADE = re.compile(r"(tie|goal)\.|\{M : Type 1\}|statement\b")

# A lemma, a field or a local name that would fall together with a definition.
APART = {
    "words-after": "words_behind",
    "weighted-most": "weighted_at_most",
    "maturity-months": "maturity_in_months",
    "by-formula": "under_formula",
    "is-reference": "is_reference_lem",
    "pool-kind": "pool_kind_good",
    "reporting-date": "reporting_date_good",
    "amount-most": "amount_at_most",
    "facts-least": "facts_at_least",
    "facts-most": "facts_at_most",
    "rows-most": "rows_at_most",
    "tranches-most": "tranches_at_most",
    "refused-with": "refused_as",
    "pool-at": "pool_at_same",
    "tranches-at": "tranches_at_same",
    "tranche-count": "tranche_count_same",
    "in-other-unit": "in_other_unit_lem",
} | {
    n: n.replace("-", "_") + "_lem"
    for n in (
        "amended-row figures-at-most rewritten-length within-limits rounded-up product-above formula-weight irb-place has-irb irb-words "
        "layout-read words-follow end-at-most end-at-least made-next past-character past-white"
    ).split()
}

# The same of one file alone.
APART_IN = {
    "crates/faults/proofs/GoodWordsLaw.antt": {"yes_or_no": "yes_or_no_lem"},
    "crates/files/proofs/FileLaws.antt": {"bytes_after": "bytes_after_lem"},
}


def snake(name):
    return re.sub(r"(?<=[a-z0-9])[A-Z]", lambda m: "_" + m[0].lower(), name).replace("-", "_")


def antt_files():
    return sorted(glob.glob("crates/*/specs/**/*.antt", recursive=True) + glob.glob("crates/*/proofs/**/*.antt", recursive=True))


def code_of(text):
    return re.sub(r"--.*", "", text)


def read(path):
    with open(path, encoding="utf-8") as f:
        return f.read()


def links():
    for folder, _, files in os.walk("crates"):
        for it in files:
            path = os.path.join(folder, it)
            if os.path.islink(path):
                target = os.path.realpath(path)
                os.remove(path)
                shutil.copyfile(target, path)
                print(f"copied: {path}")


def names_of():
    """Each name to be respelled, with the files that declare it."""
    where = collections.defaultdict(set)
    for path in antt_files():
        code = code_of(read(path))
        for m in DECLARED.finditer(code):
            if not (path.endswith("/Proof.antt") and MADE.match(m[5].strip())):
                where[m[3]].add(path)
        for m in BOUND.finditer(code):
            where[m[1]].add(path)
    return {n: f for n, f in where.items() if n in APART or (n[0].islower() and n.isascii() and snake(n) != n)}, where


def turn(text, table):
    return TOKEN.sub(lambda m: table.get(m[0], m[0]), text)


def turn_antt(text, table):
    """Code by its words; a comment where a name has a capital inside it or stands between backquotes."""
    out = []
    for line in text.split("\n"):
        m = re.match(r"((?:[^-]|-(?!-))*)(--.*)?$", line)
        code, comment = (m[1], m[2] or "") if m else (line, "")
        out.append(turn(code, table) + turn_prose(comment, table))
    return "\n".join(out)


def turn_prose(text, table):
    text = re.sub(r"`[^`\n]*`", lambda m: turn(m[0], table), text)
    camel = {n: s for n, s in table.items() if re.search(r"[a-z0-9][A-Z]", n)}
    return turn(text, camel)


def turn_rt(text, table):
    """Ghost imports and clauses by their words, comments as prose; the code itself is left."""
    out, depth, ghost = [], 0, False
    for line in text.split("\n"):
        if re.match(r"\s*//", line):
            out.append(turn_prose(line, table))
            continue
        if re.match(r"\s*ghost use ", line):
            ghost = True
        clause = re.match(r"\s*(requires|ensures|ghost \w+:)", line)
        if clause:
            depth = 0
        if ghost or clause or depth > 0:
            out.append(turn(line, table))
            if not ghost:
                depth += line.count("{") - line.count("}")
            if ghost and ";" in line:
                ghost = False
        else:
            out.append(line)
    return "\n".join(out)


def names():
    table, where = names_of()
    table = {n: APART.get(n, snake(n)) for n in table}
    taken = collections.defaultdict(set)
    for n in where:
        taken[table.get(n, n)].add(n)
    for new, olds in sorted(taken.items()):
        if len(olds) > 1:
            print(f"look: {new} of {sorted(olds)}")
    paths = antt_files() + sorted(glob.glob("crates/*/src/**/*.rt", recursive=True))
    for path in paths:
        text = read(path)
        if path.endswith(".antt"):
            words = set(TOKEN.findall(re.sub(rf"\.{NAME}", "", code_of(text))))
            for n in sorted(words & set(table)):
                if table[n] in words:
                    print(f"look: {path} has {table[n]} beside {n}")
            new = turn_antt(text, table | APART_IN.get(path, {}))
        else:
            new = turn_rt(text, table)
        if new != text:
            with open(path, "w", encoding="utf-8") as f:
                f.write(new)
    for path in sorted(glob.glob("crates/*/must-fail/*.edit")):
        text = read(path)
        rt = ".rt" in text.split("file:", 1)[1].split("\n", 1)[0]
        new = "\n".join(turn(l, {} if rt and "ghost use" not in l and "≡" not in l else table) if re.match(r"(old|new): ", l) else l for l in text.split("\n"))
        if new != text:
            with open(path, "w", encoding="utf-8") as f:
                f.write(new)
    for path in ["README.md"] + sorted(glob.glob("docs/*.md")):
        text = read(path)
        new = turn_prose(text, table)
        if new != text:
            with open(path, "w", encoding="utf-8") as f:
                f.write(new)
    for crate in sorted(os.listdir("crates")):
        subprocess.run(["rt", "fmt"], cwd=os.path.join("crates", crate), stdout=subprocess.DEVNULL, stderr=subprocess.DEVNULL)
    with open("tools/port_names.tsv", "w", encoding="utf-8") as f:
        for n in sorted(table):
            crates = sorted({p.split("/")[1] for p in where[n]})
            f.write(f"{n}\t{table[n]}\t{' '.join(crates)}\n")
    print(f"{len(table)} names respelled")


if __name__ == "__main__":
    if sys.argv[1:] == ["links"]:
        links()
    elif sys.argv[1:] == ["names"]:
        names()
    else:
        print(__doc__)
        raise SystemExit(2)
