#!/usr/bin/env python3
"""Brings the must-fail edits to the spelling of today's Rattle, once: python3 tools/port_edits.py COMMIT, at the top of the ported repository.

COMMIT is the last commit in the older spelling. Each edit is made there, on files in which no other edit touches its lines; the whole is turned by the
kit's port.py and by respell.py, and what then differs from the ported files is the edit of today. Edits that stand in one line come one after the other.
"""

import concurrent.futures
import difflib
import glob
import os
import re
import shutil
import subprocess
import sys
import tempfile

PORT = "/opt/rattle/port/port.py"
RESPELL = os.path.join(os.path.dirname(os.path.realpath(__file__)), "respell.py")


def read(path):
    with open(path, encoding="utf-8") as f:
        return f.read()


def write(path, text):
    with open(path, "w", encoding="utf-8") as f:
        f.write(text)


def parsed(path):
    head, pairs, file, old = [], [], None, None
    for line in read(path).split("\n"):
        if line.startswith("file:"):
            file = line[5:].strip()
        elif line.startswith("old:"):
            old = line[4:].strip()
        elif line.startswith("new:"):
            pairs.append((file, old, line[4:].strip()))
        elif line.strip():
            head.append(line)
    return head, pairs


def run(words, where):
    return subprocess.run(words, cwd=where, stdout=subprocess.PIPE, stderr=subprocess.STDOUT, text=True)


def turned(top, commit, name, changes):
    """A copy of the commit with these (crate, file) texts, in today's spelling."""
    where = os.path.join(top, name)
    run(["git", "clone", "-q", os.getcwd(), where], top)
    run(["git", "checkout", "-q", commit], where)
    for (crate, file), text in changes.items():
        write(os.path.join(where, "crates", crate, file), text)
    run(["git", "-c", "user.name=x", "-c", "user.email=x@x", "commit", "-qam", "edits"], where)
    env_tmp = os.path.join(top, name + "-tmp")
    os.makedirs(env_tmp)
    script = os.path.join(top, name + "-port.py")
    text = read(PORT).replace("HERE = os.path.dirname(os.path.realpath(__file__))", f"HERE = {os.path.dirname(PORT)!r}")
    write(script, text.replace('SAID = "/tmp/port-said"', f"SAID = {env_tmp + '-said'!r}"))
    r = subprocess.run([sys.executable, script], cwd=where, env=os.environ | {"TMPDIR": env_tmp}, stdout=subprocess.PIPE, stderr=subprocess.STDOUT, text=True)
    if "paths changed" not in r.stdout:
        print(r.stdout[-2000:])
    print(run([sys.executable, RESPELL], where).stdout, end="")
    shutil.rmtree(env_tmp, ignore_errors=True)
    return where


def renamed(file):
    return file.replace("specs/Contracts.antt", "specs/Clauses.antt")


def hunks(a, b):
    """The line pairs in which b differs from a, in order; a hunk of as many lines on both sides is taken line by line."""
    out = []
    for tag, i1, i2, j1, j2 in difflib.SequenceMatcher(None, a, b, autojunk=False).get_opcodes():
        if tag == "equal":
            continue
        if i2 - i1 == j2 - j1:
            out += [(i1 + k, a[i1 + k], b[j1 + k]) for k in range(i2 - i1) if a[i1 + k] != b[j1 + k]]
        else:
            out.append((i1, a[i1:i2], b[j1:j2]))
    return out


def narrowed(text, old, new):
    """The shortest run of whole words round the change that stands once in the text."""
    o, n = old.strip(), new.strip()
    lo = len(os.path.commonprefix([o, n]))
    hi = len(os.path.commonprefix([o[lo:][::-1], n[lo:][::-1]]))
    starts = [0] + [m.start() for m in re.finditer(r"(?<=\s)\S", o)]
    ends = [m.end() for m in re.finditer(r"\S(?=\s)", o)] + [len(o)]
    a = max(s for s in starts if s <= lo)
    b = min(e for e in ends if e >= len(o) - hi)
    while text.count(o[a:b]) != 1:
        before = [s for s in starts if s < a]
        after = [e for e in ends if e > b]
        if after:
            b = after[0]
        elif before:
            a = before[-1]
        else:
            return None
    return o[a:b], n[a : len(n) - (len(o) - b)]


def near(line, landed, crate, file):
    """The lines that no other edit of a turn may touch; the imports, which become one line, count as one."""
    text = read(os.path.join(landed, "crates", crate, file)).split("\n")[line]
    return {-1} if re.match(r"(pub |ghost )?use ", text) else {line, line + 1}


def main():
    commit = sys.argv[1]
    top = tempfile.mkdtemp(prefix="edits-")
    edits = {p: parsed(p) for p in sorted(glob.glob("crates/*/must-fail/*.edit"))}
    landed = os.path.join(top, "landed")
    run(["git", "clone", "-q", os.getcwd(), landed], top)
    run(["git", "checkout", "-q", commit], landed)
    batches = []
    left = []
    for p, (head, pairs) in edits.items():
        crate = p.split("/")[1]
        texts, touched, good = {}, {}, True
        for file, old, new in pairs:
            t = texts.get(file) or read(os.path.join(landed, "crates", crate, file))
            if t.count(old) != 1:
                good = False
                break
            line = t[: t.index(old)].count("\n")
            touched.setdefault(file, set()).add(line)
            texts[file] = t.replace(old, new)
        if not good:
            left.append((p, "an old text does not stand once"))
            continue
        for batch in batches:
            if all(not (near(l, landed, crate, f) & batch["near"].get((crate, f), set())) for f, ls in touched.items() for l in ls):
                break
        else:
            batch = {"lines": {}, "near": {}, "edits": []}
            batches.append(batch)
        for f, ls in touched.items():
            batch["lines"].setdefault((crate, f), set()).update(ls)
            for l in ls:
                batch["near"].setdefault((crate, f), set()).update(near(l, landed, crate, f))
        batch["edits"].append((p, crate, touched, texts))
    print(len(edits), "edits in", len(batches), "turns", [len(b["edits"]) for b in batches])
    jobs = []
    for b in batches:
        changes = {}
        for p, crate, touched, texts in b["edits"]:
            for f, ls in touched.items():
                key = (crate, f)
                base = changes.get(key) or read(os.path.join(landed, "crates", crate, f))
                lines, mine = base.split("\n"), texts[f].split("\n")
                for l in ls:
                    lines[l] = mine[l]
                changes[key] = "\n".join(lines)
        jobs.append(changes)
    with concurrent.futures.ThreadPoolExecutor(4) as pool:
        wheres = list(pool.map(lambda k: turned(top, commit, f"turn{k}", jobs[k]), range(len(jobs))))
    done = 0
    for b, where in zip(batches, wheres):
        found = {}
        for (crate, f), ls in b["lines"].items():
            a_text = read(os.path.join("crates", crate, renamed(f)))
            b_text = read(os.path.join(where, "crates", crate, renamed(f)))
            hs = hunks(a_text.split("\n"), b_text.split("\n"))
            order = sorted(ls)
            if len(hs) == len(order):
                for l, h in zip(order, hs):
                    found[crate, f, l] = h
            else:
                print("look:", crate, f, len(order), "edits and", len(hs), "changes")
                base = read(os.path.join(landed, "crates", crate, f)).split("\n")
                for l in order:
                    close = difflib.get_close_matches(base[l], [h[1] for h in hs if isinstance(h[1], str)], 1, 0.5)
                    if close:
                        found[crate, f, l] = next(h for h in hs if h[1] == close[0])
        for p, crate, touched, texts in b["edits"]:
            head, _ = edits[p]
            out, good = list(head), True
            for f in touched:
                out.append("file: " + renamed(f))
                a_text = read(os.path.join("crates", crate, renamed(f)))
                for l in sorted(touched[f]):
                    h = found.get((crate, f, l))
                    pair = narrowed(a_text, h[1], h[2]) if h and isinstance(h[1], str) else None
                    if not pair:
                        good = False
                        left.append((p, f"line {l + 1} of {f}: {h}"))
                        continue
                    out += ["old: " + pair[0], "new: " + pair[1]]
            if good:
                write(p, "\n".join(out) + "\n")
                done += 1
    print(done, "edits turned; left by hand:")
    for p, why in left:
        print(" ", p, why)
    shutil.rmtree(top, ignore_errors=True)


main()
