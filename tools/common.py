"""What several tools read of the tree: the crates, the edits beside them, what their antt files declare, and the words for a refusal.

No crate is named here: whatever crates.txt lists is read.
"""
import functools
import glob
import os
import re
import sys
from typing import NamedTuple

SIGNATURE = re.compile(r"(?P<kind>abbrev |unfoldable )?(?P<public>pub )?(?P<name>[^\s(){}:]+) : (?P<type>.*)")
NOMINAL = re.compile(r"(?P<public>pub )?(?P<kind>record|data) (?P<name>\S+)(?P<parameters>.*?) : (?P<type>Type \d+) where")
HEADER = os.path.join(os.path.dirname(os.path.dirname(os.path.abspath(__file__))), "include", "lomvadric.h")
TEXTS = re.compile(r"texts\[\] = \{\n(.*?)\n    \};", re.DOTALL)
IMPORT = re.compile(r"(?:ghost )?use Rattle\.(?P<crate>[a-z0-9_]+)\.specs\.(?P<file>[A-Za-z0-9_]+)\.\{(?P<names>[^}]*)\}")


class Edit(NamedTuple):
    """A change of a crate, in one file or several."""

    crate: str
    label: str
    about: str
    files: list

    def of_definition(self):
        """Whether a definition is changed, and not code alone."""
        return any(file.startswith("specs/") for file in self.files)


class Declared(NamedTuple):
    """What an antt file declares at its left edge, and on which line. `kind` is empty for a theorem."""

    crate: str
    folder: str
    file: str
    name: str
    kind: str
    public: bool
    parameters: str
    type: str
    line: int

    def is_statement(self):
        """Whether this is a statement with a name, in the form that promises have."""
        stands_open = self.kind == "abbrev" or (self.kind == "record" and not self.parameters)
        return self.folder == "specs" and self.public and stands_open and self.type in ("Type 0", "Type 1")


def read(path):
    """The text of a file."""
    with open(path, encoding="utf-8") as file:
        return file.read()


def listed():
    """The crates of crates.txt, in its order, each with those that it builds on."""
    lines = [line.split("#")[0].strip() for line in read("crates.txt").splitlines()]
    return {line.split(":")[0].split()[0]: line.split(":")[1].split() for line in lines if line}


def chosen(names):
    """The crates that a command line names, or all."""
    unknown = [name for name in names if name not in listed()]
    if unknown:
        sys.exit(f"crates.txt has no crate {', '.join(unknown)}")
    return names or list(listed())


def edits(crate, folder="must-fail"):
    """The edits in a folder of a crate, by label."""
    found = []
    for path in sorted(glob.glob(f"crates/{crate}/{folder}/*.edit")):
        lines = read(path).splitlines()
        files = [line[len("file: ") :] for line in lines if line.startswith("file: ")]
        found.append(Edit(crate, os.path.basename(path)[: -len(".edit")], lines[0].lstrip("# "), files))
    return found


def edited(crate, text):
    """The files of a crate, by path, as an edit of this text makes them."""
    texts, file, old = {}, "", ""
    for line in text.splitlines():
        if line.startswith("file: "):
            file = line[len("file: ") :].strip()
            texts.setdefault(file, read(f"crates/{crate}/{file}"))
        elif line.startswith("old: "):
            old = line[len("old: ") :]
        elif line.startswith("new:"):
            texts[file] = texts[file].replace(old, line[len("new:") :].removeprefix(" "))
    return texts


def whole_type(lines, at, first):
    """A stated type with the indented lines that it goes on in."""
    behind = at + 1
    while behind < len(lines) and lines[behind].startswith(" "):
        behind += 1
    return " ".join([first.strip()] + [line.strip() for line in lines[at + 1 : behind]]).strip()


def declared_in(crate, folder, path):
    """What one file declares."""
    file = os.path.relpath(path, f"crates/{crate}/{folder}")[: -len(".antt")]
    lines = read(path).splitlines()
    found = []
    for at, line in enumerate(lines):
        nominal, signature = NOMINAL.match(line), SIGNATURE.match(line)
        if nominal:
            found.append(Declared(crate, folder, file, nominal["name"], nominal["kind"], bool(nominal["public"]), nominal["parameters"].strip(), nominal["type"], at + 1))
        elif signature:
            kind = (signature["kind"] or "").strip()
            found.append(Declared(crate, folder, file, signature["name"], kind, bool(signature["public"]), "", whole_type(lines, at, signature["type"]), at + 1))
    return found


def paths(crate, folder):
    """The antt files of crates/CRATE/specs or crates/CRATE/proofs."""
    return sorted(glob.glob(f"crates/{crate}/{folder}/**/*.antt", recursive=True))


def declared(crate, folder):
    """What these files declare."""
    return [one for path in paths(crate, folder) for one in declared_in(crate, folder, path)]


def imported(path):
    """For each name that a file has from some crate's specs/: the crate and the file that it comes from."""
    found = {}
    for use in IMPORT.finditer(read(path)):
        for name in use["names"].split(","):
            found[name.strip()] = (use["crate"], use["file"])
    return found


@functools.lru_cache(maxsize=None)
def refusal_texts():
    """What each number of refusal says, from 0 on. The words stand once, in lomvadric_refusal_text of the C header."""
    texts = TEXTS.search(read(HEADER))
    if not texts:
        sys.exit(f"{HEADER} has no texts of the refusals")
    return [line.strip().strip('",') for line in texts.group(1).splitlines()]
