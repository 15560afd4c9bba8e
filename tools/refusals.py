"""How strong a refusal is: what the checker's log says of a wrong definition or of wrong code.

The classes, from the strongest:
  row              an error stands where a row is computed, in the theorem of `Hold rows` or at a `refl` in that of a named statement: what the
                   definitions compute is not what is written out
  promise          an error stands in the theorem of a named promise: its stated type is a statement of some crate's specs/
  counterexample   the checker names numbers at which the goal fails: omega's own, for variables alone, with nothing in reach that it does not read;
                   or two values that should be equal, in a statement without variables
  goal or text     a goal was not proved, or two terms differ as text
  shape            only the text of a proof no longer fits
The checker goes on after an error, so every error of a log is read and the strongest counts. That something "was not admitted" follows from
another error, and never counts.
"""
import os
import re
from typing import NamedTuple

import common

ROW, PROMISE, COUNTEREXAMPLE, GOAL, SHAPE, NONE = "row", "promise", "counterexample", "goal or text", "shape", "none"
CLASSES = [ROW, PROMISE, COUNTEREXAMPLE, GOAL, SHAPE, NONE]

# What follows from another error.
CONSEQUENCE = "was not admitted"
# What the checker says where a statement does not hold.
FACTS = re.compile(
    r"does not follow from what it read"
    r"|(types|indices|terms|values) (differ only|first differ) where"
    r"|the two types are `Path "
    r"|expected type .* but this has type"
    r"|is checked against .* which is not a"
    r"|`search`: no proof of"
)
# What it says where the proof's text, and no fact, is at odds with the edit.
SHAPES = re.compile(
    r"has no `Need-|has no field|not in scope|cannot be unfolded|explicit arguments"
    r"|no occurrence|unsolved|was not determined|no proof: expected|step limit|Parse|parse|layout"
)
# What it says where it has numbers that decide: of a goal over variables, of two types that differ in one place, of an equation of values.
VARIABLE = r"`[\w'-]+(?:\.[\w-]+)*`"
FAILS_AT = re.compile(rf"(?:goal|part) fails, at {VARIABLE}\s*= \d+(?:, {VARIABLE}\s*= \d+)*(?:\.|, and 0 for every other atom\.) ")
VALUE = r"(?:\d[\d_]*|true|false)"
WRITTEN_OUT = r"(?:[A-Z]\w*|\d[\d_]*|true|false|\([A-Z]\w*(?: [A-Z]\w*| \d[\d_]*)*\))"
COMPUTED = "computed as far as they go, the two types "
DIFFER = re.compile(COMPUTED + rf"(?:differ only|first differ) where one has `{VALUE}` \(expected\)(?:, right after `[^`]*`)?,? and the other has `{VALUE}` \(found\)")
UNEQUAL = re.compile(COMPUTED + rf"are `Path \S+ (?P<left>{WRITTEN_OUT}) (?P<right>{WRITTEN_OUT})` \(expected\)")
# A search reports what omega said last, over what the search had; and omega may not read all that is known.
INCOMPLETE = re.compile(r"`search`: no proof of|It passed over \d+ in reach")
# What it says of a function that it has to prove by itself; the next line has what it found.
UNPROVED = "it is not proved that what the function ensures holds when it returns"


# What rt tells of an edit that it tried, in one line.
TOLD = re.compile(r"^(?:rt: )?must-fail (?P<crate>[a-z0-9_]+)/(?P<label>[\w.-]+)\.edit: (?P<rest>.*)$", re.MULTILINE)
AS_IT_MUST = re.compile(r"refused, as it must be(?: \((?P<only>only [^)]*)\)?)?(?:: (?P<text>.*))?")
NAMES_GONE = "only because a proof file names what the edit took away"
# What it says of a goal of a function that it could not prove.
NOT_PROVED = "it is not proved that "


class Told(NamedTuple):
    """What rt told of an edit: whether it could be tried, whether it was refused, why the refusal says less, and its first error."""

    crate: str
    bad: bool
    refused: bool
    only: str
    text: str


class Refusal(NamedTuple):
    """The class of an error and where it stands."""

    strength: str
    place: str
    text: str


def errors(log):
    """Each error with the indented lines that belong to it, and where it stands."""
    lines = log.splitlines()
    for at, line in enumerate(lines):
        if ": error:" in line:
            behind = at + 1
            while behind < len(lines) and lines[behind].startswith("  "):
                behind += 1
            place, text = line.split(": error:", 1)
            yield place, " ".join([text.strip()] + [l.strip() for l in lines[at + 1 : behind]])
        elif line.startswith("note: ") and UNPROVED in line:
            place, text = line[len("note: ") :].split(": " + UNPROVED, 1)
            found = lines[at + 1] if at + 1 < len(lines) else ""
            yield place, " ".join([text.strip(), found.strip()])


class Theorems:
    """Which theorems of the tree prove rows or a named promise, and where they stand."""

    def __init__(self):
        specs = [one for crate in common.listed() for one in common.declared(crate, "specs")]
        self.statements = {one.name for one in specs if one.is_statement()}
        self.rows = {one.name for one in specs if one.type.startswith("List ")}
        self.proofs = {}

    def opened(self, crate, file):
        """What stands at the left edge of crates/CRATE/proofs/FILE.antt, by line: a theorem, or None for a `module` with others in it."""
        path = f"crates/{crate}/proofs/{file}.antt"
        if path not in self.proofs and os.path.exists(path):
            modules = {at + 1: None for at, line in enumerate(common.read(path).splitlines()) if line.startswith("module ")}
            self.proofs[path] = modules | {one.line: one for one in common.declared_in(crate, "proofs", path)}
        return self.proofs.get(path, {})

    def around(self, place, crate):
        """The theorem that a place of a crate's log stands in, if any."""
        inside = re.search(r"(?:^|/)proofs/(.*)\.antt:(\d+)", place)
        opened = self.opened(crate, inside[1]) if inside else {}
        above = [at for at in opened if at <= int(inside[2])]
        theorem = opened[max(above)] if above else None
        return theorem if theorem and not theorem.kind else None

    def is_computed(self, place, crate):
        """Whether a `refl` stands at a place of a crate's log."""
        inside = re.search(r"(?:^|/)(proofs/.*\.antt):(\d+):(\d+)", place)
        lines = common.read(f"crates/{crate}/{inside[1]}").splitlines() if inside and os.path.exists(f"crates/{crate}/{inside[1]}") else []
        return int(inside[2]) <= len(lines) and lines[int(inside[2]) - 1][int(inside[3]) - 1 :].startswith("refl") if lines else False

    def strength_of(self, text, theorem, computed):
        """The class of an error in a theorem, at a row that is computed or elsewhere."""
        if SHAPES.search(text.split(" computed as far")[0][:400]) or not FACTS.search(text):
            return SHAPE
        words = theorem.type.split() if theorem else []
        if len(words) == 2 and words[0] == "Hold" and words[1] in self.rows:
            return ROW
        if len(words) == 1 and words[0] in self.statements:
            return ROW if computed else PROMISE
        return COUNTEREXAMPLE if decided(text, theorem) else GOAL


def decided(text, theorem):
    """Whether an error has numbers, or other values, that show that the goal does not hold."""
    unequal = UNEQUAL.search(text)
    if unequal:
        return unequal["left"] != unequal["right"]
    closed = theorem is not None and "≡" in theorem.type and "→" not in theorem.type
    return bool(closed and DIFFER.search(text)) or bool(FAILS_AT.search(text) and not INCOMPLETE.search(text))


def refusal_of(log, crate, theorems):
    """The strongest refusal of a crate's log; the first one among equals."""
    found = []
    for place, text in errors(log):
        if CONSEQUENCE in text.split(" expected type")[0][:400]:
            continue
        short = re.sub(r"^.*/(?=(specs|proofs|src)/)", "", place)
        name = re.match(r"`[^`]*`", text)
        found.append(Refusal(theorems.strength_of(text, theorems.around(place, crate), theorems.is_computed(place, crate)), short + (f" {name[0]}" if name else ""), text))
    return min(found, key=lambda one: CLASSES.index(one.strength), default=Refusal(NONE, "", "no error in the log"))


def told_in(log):
    """What rt told of each edit, by crate and label."""
    found = {}
    for line in TOLD.finditer(log):
        said = AS_IT_MUST.match(line["rest"])
        bad = "BAD EDIT" in line["rest"] or "NOT TRIED" in line["rest"]
        found[line["crate"], line["label"]] = Told(line["crate"], bad, bool(said), (said["only"] or "") if said else "", (said["text"] or "") if said else line["rest"])
    return found


def refusal_told(told, theorems):
    """How an edit was refused, by its first error, of which rt tells the beginning: a shape where that is no fact."""
    if told.bad or not told.refused:
        return Refusal(NONE, "", told.text)
    place, _, text = re.sub(r"^(note: )?(\./)?", "", told.text).partition(": ")
    name = re.search(r"`[^`]*`", text)
    shown = place + (f" {name[0]}" if name else "")
    if told.only:
        return Refusal(SHAPE, shown, told.only)
    if NOT_PROVED in text:
        return Refusal(GOAL, shown, text)
    if CONSEQUENCE in text or SHAPES.search(text) or not FACTS.search(text):
        return Refusal(SHAPE, shown, text)
    theorem = theorems.around(place, told.crate)
    words = theorem.type.split() if theorem else []
    if len(words) == 2 and words[0] == "Hold" and words[1] in theorems.rows:
        return Refusal(ROW, shown, text)
    if len(words) == 1 and words[0] in theorems.statements:
        return Refusal(ROW if theorems.is_computed(place, told.crate) else PROMISE, shown, text)
    return Refusal(GOAL if place else NONE, shown, text)
