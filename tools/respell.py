#!/usr/bin/env python3
"""Brings the repository's own names to the spelling of today's Rattle, once, right after the kit's port.py.

Definitions, constructors, fields and lemmas are in snake case. A dash stays only where it joins the names of two things that are defined, as in
length-changed. Types, modules, functions of src/, exported names and strings keep their names. Prints the renames with --list, and what falls
together; writes nothing then.
"""

import os
import re
import sys

KEPT_PARTS = set(
    "length map append take drop set replicate filter get get_or sum max min add sub mul div mod le lt eq suc zero nil cons and or not cond".split()
)
TOKEN = re.compile(r"[^\s(){}\[\],;.`\"“”]+")
DECLARED = re.compile(r"^\s*(?:abbrev |unfoldable )?(?:pub )?(record |data )?([^\s(){}:;,.=]+(?: [^\s(){}:;,.=]+)*)\s*(?=[:({])")
BOUND = re.compile(r"[({]([^(){}:]+?) : ")
# A name that would fall together with another one in a file: the rule of a lemma with its function's name.
APART = {
    "can-run": "can_run_row",
    "due-at": "due_at_lem",
    "good-table": "good_table_lem",
    "guest-at": "guest_at_lem",
    "of-bits": "of_bits_lem",
    "spare-at": "spare_at_row",
    "spare-of": "spare_of_row",
    "spare-places": "spare_places_lem",
    "turn-room": "turn_room_lem",
    "walk-left": "walk_left_lem",
    "walk-lines": "walk_lines_lem",
    "walk-state": "walk_state_lem",
}
# Rows that port.py gave the name of a definition, by the files that speak of them.
ROWS = {
    "rules/specs/HeldWalks.antt": {"no_line": "no_line_row"},
    "rules/specs/HeldCalls.antt": {"no_table": "no_table_row"},
    "rules/proofs/Held.antt": {"no_line": "no_line_row", "no_table": "no_table_row"},
    "promises/specs/Promises.antt": {"no_table": "no_table_made"},
    "promises/proofs/Outcomes.antt": {"no_table": "no_table_made"},
}
KEYWORDS = {"module", "where", "let", "in", "record", "data", "use", "mod", "pub", "abbrev", "unfoldable", "unfolding", "open"}


def antt_files(root):
    for folder, dirs, files in os.walk(os.path.join(root, "crates")):
        dirs[:] = sorted(d for d in dirs if d not in ("out", "must-fail"))
        for f in sorted(files):
            if f.endswith(".antt"):
                yield os.path.join(folder, f)


def of_function(path):
    """A file that belongs to the proof of one function: its names follow the goals."""
    parts = path.split(os.sep)
    return "proofs" in parts and os.path.basename(path) in ("Proof.antt", "Answers.antt", "Invariants.antt")


def declared(root):
    """Own names and those that come from a library."""
    own, defined, foreign = set(), set(), set()
    crates = set(os.listdir(os.path.join(root, "crates")))
    for path in antt_files(root):
        with open(path, encoding="utf-8") as f:
            text = f.read()
        for m in re.finditer(r"^\s*(?:pub )?use ([^\s{]+?)\.?\{([^}]*)\}", text, re.M):
            parts = m.group(1).split(".")
            if not (parts[0] == "Rattle" and parts[1] in crates):
                for word in m.group(2).split(","):
                    foreign.update(w for w in word.split() if w != "as")
        if of_function(path):
            continue
        for line in text.split("\n"):
            code = line.split("--")[0]
            m = DECLARED.match(code)
            if m and ":" in code and not m.group(2).split()[0] in KEYWORDS:
                own.update(m.group(2).split())
                if re.match(r"(abbrev|unfoldable) ", code) and "specs" in path.split(os.sep):
                    defined.update(m.group(2).split())
            elif m and m.group(1):
                own.add(m.group(2).split()[0])
            for m in BOUND.finditer(code):
                own.update(m.group(1).split())
    return {n for n in own if re.match(r"[A-Za-z◌]", n)}, defined, foreign


def snake(word):
    word = re.sub(r"([a-z0-9])([A-Z])", r"\1_\2", word)
    return re.sub(r"([A-Z])([A-Z][a-z])", r"\1_\2", word).lower()


def respelled(name, defined):
    if not re.match(r"^[a-z][\w'-]*$", name):
        return name
    parts = name.split("-")
    parts = [snake(p) if re.search(r"[a-z0-9][A-Z]", p) else p for p in parts]
    if len(parts) > 1 and all(p in defined for p in parts):
        return "-".join(parts)
    return "_".join(parts)


def renames(root):
    own, defined, foreign = declared(root)
    defined = {n for n in defined if "-" not in n} | KEPT_PARTS
    defined |= {snake(n) for n in defined}
    table = {}
    for n in sorted(own - foreign):
        to = APART.get(n) or respelled(n, defined)
        if to != n:
            table[n] = to
    return table, own, foreign


def rewritten(text, table):
    return TOKEN.sub(lambda m: table.get(m.group(0), m.group(0)), text)


def clauses_rewritten(text, table):
    """A source file: only its imports of definitions and the clauses of its functions."""
    out, i = [], 0
    for m in re.finditer(r"^ghost use [^;]*;|\b(?:requires|ensures)\b[ \w]*(?=\{)", text, re.M):
        if m.start() < i:
            continue
        out.append(text[i : m.start()])
        end = m.end()
        if not m.group(0).startswith("ghost"):
            depth = 0
            while True:
                depth += {"{": 1, "}": -1}.get(text[end], 0)
                end += 1
                if depth == 0:
                    break
        out.append(rewritten(text[m.start() : end], table))
        i = end
    out.append(text[i:])
    return "".join(out)


def files_renamed(root):
    """Rattle makes a module specs.contracts, so a file of definitions has another name."""
    for crate in sorted(os.listdir(os.path.join(root, "crates"))):
        old = os.path.join(root, "crates", crate, "specs", "Contracts.antt")
        if os.path.exists(old):
            os.rename(old, os.path.join(os.path.dirname(old), "Clauses.antt"))
    for folder, dirs, files in os.walk(os.path.join(root, "crates")):
        dirs[:] = sorted(d for d in dirs if d != "out")
        for name in sorted(files):
            if name.endswith((".rt", ".antt")):
                path = os.path.join(folder, name)
                with open(path, encoding="utf-8") as f:
                    text = f.read()
                new = text.replace(".specs.Contracts.", ".specs.Clauses.")
                if path.endswith(os.path.join("specs", "Lib.antt")):
                    new = re.sub(r"\bmod Contracts\b", "mod Clauses", new)
                if new != text:
                    with open(path, "w", encoding="utf-8") as f:
                        f.write(new)


def main():
    root = os.getcwd()
    table, own, foreign = renames(root)
    targets = {}
    for n, to in table.items():
        targets.setdefault(to, []).append(n)
    together = {to: ns + ([to] if to in own else []) + (["library's " + to] if to in foreign else []) for to, ns in targets.items()}
    together = {to: ns for to, ns in together.items() if len(ns) > 1}
    if "--list" in sys.argv:
        for n, to in table.items():
            print(n, to)
        for to, ns in sorted(together.items()):
            print("together:", to, "from", ", ".join(ns))
        return
    files_renamed(root)
    for path in antt_files(root):
        with open(path, encoding="utf-8") as f:
            text = f.read()
        rows = ROWS.get("/".join(path.split(os.sep)[-3:]), {})
        new = rewritten(rewritten(text, rows), table)
        if new != text:
            with open(path, "w", encoding="utf-8") as f:
                f.write(new)
    for folder, dirs, files in os.walk(os.path.join(root, "crates")):
        dirs[:] = sorted(d for d in dirs if d != "out")
        for name in sorted(files):
            if name.endswith(".rt"):
                path = os.path.join(folder, name)
                with open(path, encoding="utf-8") as f:
                    text = f.read()
                new = clauses_rewritten(text, table)
                if new != text:
                    with open(path, "w", encoding="utf-8") as f:
                        f.write(new)


main()
