"""A script, which is the input of the program: a line is a letter, then numbers, each after one space, then a line feed. `F h` is the first line,
`G q t` lines follow, then any of `A i`, `D i` and `R k`.

A line that may not stand in its place is told with the column where it goes wrong, what stands there, and what was expected.
"""
import re
from typing import NamedTuple

MOST_INPUT = 65_536
MOST_GUESTS = 16
MOST_DIGITS = 13
NUMBERS = {"F": 1, "G": 2, "A": 1, "D": 1, "R": 1}
COUNTED = {1: "one number", 2: "two numbers"}
# The letters that a line may have: the first line, those behind the table's lines, and those behind a command.
FIRST, TABLE, LATER = "F", "GADR", "ADR"
EXPECTED = {FIRST: "F must be the first line", TABLE: "a letter G, A, D or R was expected", LATER: "a letter A, D or R was expected"}
OUT_OF_ORDER = {"F": "F must be the first line, and no other", "G": "G lines stand right behind the F line"}
BYTE_ORDER_MARK = b"\xef\xbb\xbf"
DIGITS = re.compile(rb"[0-9]*")
NAMES = {
    b"": "the input ends here",
    b"\n": "the line ends here",
    b" ": "a space too many",
    b"\t": "a tab",
    b"\r": "a carriage return",
    b"-": "a minus sign",
    b"+": "a plus sign",
}


class Line(NamedTuple):
    """A good line: its number from 1 on, its bytes, its letter and its numbers."""

    number: int
    content: bytes
    letter: str
    numbers: tuple


class Wrong(NamedTuple):
    """A line that may not stand in its place, and why."""

    number: int
    content: bytes
    words: str


class Misread(Exception):
    """Where a line goes wrong, as a place from 0 on; what stands there; what was expected."""

    def __init__(self, place, found, expected):
        super().__init__(f"at column {place + 1} {found}; {expected}")


# ---- one line


def name_of(line, place):
    """What stands at a place of a line."""
    byte = line[place : place + 1]
    if byte in NAMES:
        return NAMES[byte]
    return f"'{byte.decode()}'" if b"!" <= byte <= b"~" else f"the byte {byte[0]:#04x}"


def letter_of(line, letters):
    """The letter of a line, which must be one of those that may stand there."""
    letter = line[:1].decode("latin-1")
    if letter in letters:
        return letter
    if letter in NUMBERS:
        raise Misread(0, f"the letter {letter}", EXPECTED[FIRST] if letters == FIRST else OUT_OF_ORDER[letter])
    raise Misread(0, name_of_front(line, letter), EXPECTED[letters])


def name_of_front(line, letter):
    """What stands where a letter should be."""
    if line == b"\n":
        return "an empty line"
    if line.startswith(BYTE_ORDER_MARK):
        return "a byte order mark"
    return f"the small letter {letter}" if letter.upper() in NUMBERS else name_of(line, 0)


def digits_at(line, place):
    """The digits of the number that stands there."""
    digits = DIGITS.match(line, place).group()
    if not digits:
        raise Misread(place, name_of(line, place), f"a number of 1 to {MOST_DIGITS} digits was expected")
    if len(digits) > MOST_DIGITS:
        raise Misread(place, f"a number of {len(digits):,} digits", f"a number of at most {MOST_DIGITS} digits was expected")
    if len(digits) > 1 and digits.startswith(b"0"):
        raise Misread(place, "a zero too many", "a number without leading zeros was expected")
    return digits


def check_end(line, place, letter):
    """Behind the last number stands the line feed, and nothing else."""
    if line[place:] == b"\n":
        return
    if DIGITS.match(line, place + 1).group() and line[place : place + 1] == b" ":
        raise Misread(place, "a number too many", f"{letter} has {COUNTED[NUMBERS[letter]]}")
    raise Misread(place, name_of(line, place), "the line feed was expected")


def numbers_of(line, letter):
    """The numbers behind a letter, each after one space."""
    numbers, place = [], 1
    for _ in range(NUMBERS[letter]):
        if line[place : place + 1] != b" ":
            raise Misread(place, name_of(line, place), f"a space and a number were expected, as {letter} has {COUNTED[NUMBERS[letter]]}")
        digits = digits_at(line, place + 1)
        numbers.append(int(digits))
        place += 1 + len(digits)
    check_end(line, place, letter)
    return tuple(numbers)


# ---- the whole


def lines_in(content):
    """Each line with its line feed; the last one may lack it."""
    lines = [line + b"\n" for line in content.split(b"\n")]
    return lines[:-1] + [lines[-1][:-1]] if lines[-1] != b"\n" else lines[:-1]


class Script:
    """A script up to the first line that may not stand in its place."""

    def __init__(self, content):
        self.is_too_long = len(content) > MOST_INPUT
        self.lines = lines_in(content)
        self.frame, self.guests, self.commands, self.wrong = None, [], [], None
        for number, line in enumerate(self.lines, 1):
            try:
                self.take(self.read_line(number, line))
            except Misread as misread:
                self.wrong = Wrong(number, line, str(misread))
                return

    def read_line(self, number, content):
        letters = FIRST if self.frame is None else LATER if self.commands else TABLE
        letter = letter_of(content, letters)
        return Line(number, content, letter, numbers_of(content, letter))

    def take(self, line):
        if line.letter == "F":
            self.frame = line
        else:
            (self.guests if line.letter == "G" else self.commands).append(line)
