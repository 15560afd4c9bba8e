"""The small changes of a file of definitions, one at a time: what `make mutants` tries.

Changed are the right-hand sides of clauses and the types of a record's fields. Comments, imports, signatures and `unfolding` lines stay.
"""
import itertools
import re
from typing import NamedTuple

import common

WORDS = {"leb": ["ltb"], "ltb": ["leb"], "eqb": ["leb"], "<": ["≤"], "≤": ["<"], "&&": ["||"], "||": ["&&"], "max": ["min"], "min": ["max"], "+": ["-"], "-": ["+"], "true": ["false"], "false": ["true"]}
# Where a word comes from that a change brings in.
HOMES = {"Rattle.std.specs.Prelude": ["leb", "ltb", "◌<◌", "◌≤◌", "◌+◌", "◌-◌", "max", "min", "suc", "◌&&◌", "◌||◌", "true", "false"]}
TOKEN = re.compile(r"[(){}]|[;,]|[^\s(){};,]+")
# What ends an operand, from the loosest on.
BREAKS = {"→", "↔", ",", ";", "=", "let", "in", "λ", ".", ":"}
TESTS = BREAKS | {"×", "⊎", "≡"}
PARTS = {"×": BREAKS, "&&": TESTS | {"<", "≤", "∷", "++", "gives", "||"}, "∷": TESTS | {"<", "≤", "++"}}
COMPARED = TESTS | {"&&", "||", "∷"}
SHOWN = 70


class Item(NamedTuple):
    """A word, or a bracket with what stands in it."""

    start: int
    end: int
    text: str
    inside: list


class Piece(NamedTuple):
    """A part of a file that may be changed: a clause's right-hand side with the names that its patterns bind, or a field's type."""

    start: int
    end: int
    head: int
    function: str
    bound: list


class Change(NamedTuple):
    """One change: the line that it begins on, what it does, and the file's text after it."""

    where: str
    line: str
    what: str
    text: str


def items_of(text, start, end):
    """The words and brackets of a part of a text."""
    stack, opened = [[]], []
    for found in TOKEN.finditer(text, start, end):
        word = found.group()
        if word in "({":
            opened.append(found.start())
            stack.append([])
        elif word in ")}" and opened:
            inside, begin = stack.pop(), opened.pop()
            stack[-1].append(Item(begin, found.end(), text[begin : found.end()], inside))
        elif word not in ")}":
            stack[-1].append(Item(found.start(), found.end(), word, None))
    return stack[0]


def groups(items):
    """The items, and those of every bracket in them."""
    yield items
    for item in items:
        if item.inside is not None:
            yield from groups(item.inside)


def split(items, words):
    """The items between the given words, where there are any."""
    part = []
    for item in items:
        if item.text in words:
            yield part
            part = []
        else:
            part.append(item)
    yield part


# ---- what may be changed

def kind_of(line):
    """What a line at the left edge of a definition is."""
    if re.match(r"(--|(pub )?(mod|use|infixl?|infixr?|unfolding)\b)", line):
        return "other"
    nominal = common.NOMINAL.match(line)
    if nominal or line.startswith("module "):
        return nominal["kind"] if nominal else "module"
    return "signature" if common.SIGNATURE.match(line) else "clause"


def blocks(text, start, end, edge):
    """Each line with just so much indentation, and where it begins and ends with the deeper lines under it."""
    lines = [(found.start(), found.end()) for found in re.compile(r"^.*\S", re.MULTILINE).finditer(text, start, end)]
    begins = [at for at, (first, last) in enumerate(lines) if len(text[first:last]) - len(text[first:last].lstrip()) == edge]
    for at, behind in zip(begins, begins[1:] + [len(lines)]):
        yield text[slice(*lines[at])].strip(), lines[at][0], lines[behind - 1][1]


def numbers_bound(left, type):
    """The variables of a clause's patterns that may be numbers."""
    types = [part.strip() for part in type.split("→")]
    patterns = items_of(left, 0, len(left))[1:]
    names = []
    for at, pattern in enumerate(patterns):
        words = [pattern.text] if pattern.inside is None else re.findall(r"[a-z]\w*", pattern.text)
        plain = pattern.inside is None and "(" not in type and at < len(types)
        names += [] if plain and types[at] != "ℕ" else words
    return [name for name in names if re.fullmatch(r"[a-zA-Z]+", name) and name not in ("zero", "suc", "true", "false")]


def pieces(text, start, end, edge):
    """The parts of a file that may be changed, of those definitions whose left edge is here."""
    found, function, type = [], "", ""
    for line, begin, behind in blocks(text, start, end, edge):
        kind, under = kind_of(line), text.find("\n", begin) + 1
        sign = re.search(r" =( |$)", line)
        if kind == "module":
            found += pieces(text, under, behind, edge + 2)
        elif kind == "record":
            fields = blocks(text, under, behind, edge + 2)
            found += [Piece(first + edge + 2 + field.index(" :") + 2, last, first, "record", []) for field, first, last in fields if " :" in field]
        elif kind == "signature":
            function, type = common.SIGNATURE.match(line)["name"], common.SIGNATURE.match(line)["type"]
        elif kind == "clause" and sign:
            found.append(Piece(begin + edge + sign.start() + 2, behind, begin, function, numbers_bound(line[: sign.start()], type)))
    return found


def argument_types(type):
    """The types of a constructor's arguments: `(a b : ℕ) → Use → Line` has two numbers and a use."""
    found = []
    for part in type.split("→")[:-1]:
        named = re.findall(r"\(([^:()]*):([^()]*)\)", part)
        found += [one.strip() for names, one in named for _ in names.split()] or [part.strip()]
    return found


def constructors():
    """The constructors of every crate's specs/, each with the types of its arguments."""
    found = {}
    for crate in common.listed():
        for path in common.paths(crate, "specs"):
            for block in re.findall(r"^(?:pub )?data .*\n((?:  .*\n?)+)", common.read(path), re.MULTILINE):
                for name, type in re.findall(r"^  ([a-zA-Z]+) : (.*)$", block, re.MULTILINE):
                    found[name] = argument_types(type)
    return found


# ---- the kinds of change: each gives (start, end, new text, what)

def other_words(text, group):
    """Another number, comparison, connective, sum or truth value."""
    for at, item in enumerate(group):
        if item.inside is not None:
            continue
        if re.fullmatch(r"\d[\d_]*", item.text):
            follows = group[at + 1].text if at + 1 < len(group) else ""
            level = text[item.start - 1] == "{" or (at > 0 and group[at - 1].text == "Type")
            number = int(item.text.replace("_", ""))
            for other in [] if follows == "^" or level else [number + 1, number - 1]:
                if other >= 0:
                    yield item.start, item.end, str(other), f"{item.text} -> {other}"
        for other in WORDS.get(item.text, []):
            yield item.start, item.end, other, f"{item.text} -> {other}"


def dropped(text, group):
    """A conjunct or an element of a list left out."""
    for word, breaks in PARTS.items():
        for chain in split(group, breaks):
            parts = [part for part in split(chain, {word}) if part]
            for at, part in enumerate(parts if len(parts) > 1 else []):
                if at + 1 < len(parts):
                    yield part[0].start, parts[at + 1][0].start, "", f"{short(text[part[0].start : part[-1].end])} {word} -> nothing"
                elif word != "∷":
                    yield parts[at - 1][-1].end, part[-1].end, "", f"{word} {short(text[part[0].start : part[-1].end])} -> nothing"


def successors(text, group, bound):
    """A number one less or one more."""
    for at, item in enumerate(group):
        words = [one.text for one in item.inside or []]
        if item.text.startswith("(") and len(words) == 2 and words[0] == "suc":
            yield item.start, item.end, words[1], f"{item.text} -> {words[1]}"
        follows = group[at + 1].text if at + 1 < len(group) else ""
        before = group[at - 1].text if at else ""
        if item.text in bound and before not in ("suc", "λ") and not follows.startswith(".") and follows not in (":", "="):
            yield item.start, item.end, f"(suc {item.text})", f"{item.text} -> (suc {item.text})"


def exchanged(text, one, other, why=""):
    """Two parts of a text in each other's place, which do not overlap."""
    (a, b), (c, d) = one, other
    new = text[c:d] + text[b:c] + text[a:b]
    what = f"{short(text[a:b])}, {short(text[c:d])} -> exchanged{why}"
    return [(a, d, new, what)] if text[a:b].split() != text[c:d].split() else []


def compared(text, group):
    """The two sides of a comparison exchanged."""
    for at, item in enumerate(group[:-2]):
        if item.text in ("leb", "ltb"):
            yield from exchanged(text, group[at + 1][:2], group[at + 2][:2], f" in {item.text}")
    for chain in split(group, COMPARED):
        for word in ("<", "≤"):
            sides = list(split(chain, {word}))
            if len(sides) == 2 and all(sides):
                yield from exchanged(text, *[(side[0].start, side[-1].end) for side in sides], f" in {word}")


def fields(text, group):
    """The values of two fields of a record exchanged."""
    for at, item in enumerate(group[1:], 1):
        if item.inside is None or group[at - 1].text != "record":
            continue
        values = [part for part in split(item.inside, {";"}) if len(part) > 2]
        for one, other in itertools.combinations(values, 2):
            for start, end, new, _ in exchanged(text, (one[2].start, one[-1].end), (other[2].start, other[-1].end)):
                yield start, end, new, f"fields {one[0].text}, {other[0].text} -> exchanged"


def arguments(text, group, known):
    """Two neighbouring arguments of one type exchanged, behind a constructor."""
    for at, item in enumerate(group):
        types = known.get(item.text, [])
        behind = group[at + 1 : at + 1 + len(types)]
        whole = len(behind) == len(types) and all(one.inside is not None or re.fullmatch(r"[\w.]+", one.text) for one in behind)
        for place in range(len(types) - 1 if whole else 0):
            if types[place] == types[place + 1]:
                yield from exchanged(text, behind[place][:2], behind[place + 1][:2], f" in {item.text}")


def cases(text, found):
    """The right-hand sides of two neighbouring clauses exchanged, or one in the place of both."""
    for one, other in zip(found, found[1:]):
        if one.function == other.function != "record":
            a, b, c, d = one.start, one.end, other.start, other.end
            if text[a:b].split() != text[c:d].split():
                yield a, d, text[c:d] + text[b:c] + text[a:b], "this clause, the next -> exchanged"
                yield a, b, text[c:d], "this clause -> the next one's right-hand side"
                yield c, d, text[a:b], "this clause -> the one before's right-hand side"


def without_fields(text, found):
    """A field of a record left out, where the record is a predicate: some field of it states something."""
    for piece in found:
        around = [one for one in found if one.function == "record" and record_of(text, one) == record_of(text, piece)]
        if piece.function == "record" and len(around) > 1 and any(re.search(r"[≡<≤→]", text[one.start : one.end]) for one in around):
            yield piece.head, piece.end + 1, "", "this field -> nothing"


def record_of(text, piece):
    """Where the record of a field begins."""
    return text.rfind("record ", 0, piece.head)


# ---- all of them

def short(text):
    """A part of a text in one line."""
    text = " ".join(text.split())
    return text if len(text) <= SHOWN else text[: SHOWN - 3] + "..."


def line_at(text, place):
    """The line of a place, without its indentation."""
    place += len(text[place:]) - len(text[place:].lstrip())
    return text[text.rfind("\n", 0, place) + 1 :].split("\n")[0].strip()


def with_imports(text, new):
    """A file's text with what the words of a change need besides."""
    here = {name.strip() for names in re.findall(r"^use .*\{(.*)\}$", text, re.MULTILINE) for name in names.split(",")}
    words = set(TOKEN.findall(new))
    missing = [(home, name) for home, names in HOMES.items() for name in names if name.strip("◌") in words and name not in here]
    first = text.index("\nuse ") + 1 if "\nuse " in text else text.index("\n") + 1
    return text[:first] + "".join(f"use {home}.{{{name}}}\n" for home, name in missing) + text[first:]


def in_group(text, piece, group, known):
    """The changes of the items of one bracket, or of a whole piece."""
    yield from other_words(text, group)
    yield from dropped(text, group)
    yield from successors(text, group, piece.bound)
    yield from compared(text, group)
    yield from fields(text, group)
    yield from arguments(text, group, known)


def changes(where, text, known):
    """Every change of a file. Where two of one line would be called the same, the later ones are numbered."""
    found, all_pieces, called, seen = [], pieces(text, 0, len(text), 0), {}, {text}
    for piece in all_pieces:
        for group in groups(items_of(text, piece.start, piece.end)):
            found += in_group(text, piece, group, known)
    found += list(cases(text, all_pieces)) + list(without_fields(text, all_pieces))
    for start, end, new, what in sorted(found, key=lambda one: (one[0], one[1])):
        after = text[:start] + new + text[end:]
        line = line_at(text, start)
        called[line, what] = called.get((line, what), 0) + 1
        number = called[line, what]
        if after not in seen:
            seen.add(after)
            yield Change(where, line, what + (f" ({number})" if number > 1 else ""), with_imports(after, new))
