"""A listing, which is the output of the program: portions that lie end to end, refusals with their tick, and how it ended.

A line that is no line of a listing is told with its number.
"""
import re
from array import array
from bisect import bisect_left, bisect_right
from dataclasses import dataclass
from functools import partial
from typing import NamedTuple, Optional

import script
import streams

END_OF_TIME = 2**40
STOPPING_REFUSALS = (10, 12, 13, 14, 16)
REFUSALS = (2, 3, 4, 5, 6, 7) + STOPPING_REFUSALS
# No line of a listing is as long as this, so that a file without line feeds is seen to be none.
LONG_LINE = 200
# The program may write without an end, and the memory for what is read has one.
MOST_LINES = 10_000_000


# Kinds and uses are compared as objects: there is one of each, and a long listing looks them up often.
@dataclass(frozen=True, eq=False)
class Kind:
    """What ticks are used for: a short name, and the words for it."""

    name: str
    meaning: str


OWN = Kind("own", "own time")
SPARE = Kind("spare", "spare time, with its owner")
BURNED = Kind("burned", "burned spare, with its owner")
NOTHING = Kind("nothing", "idle, nothing to burn")
KINDS = (OWN, SPARE, BURNED, NOTHING)


@dataclass(frozen=True, eq=False)
class Use:
    """Who runs in a portion (None is nobody), what is used up, and whose it is."""

    guest: Optional[int]
    kind: Kind
    owner: Optional[int]


class Refusal(NamedTuple):
    tick: int
    number: int


class BadListing(streams.Unusable):
    """Its message names the line and what is wrong with it."""


class Listing:
    """The portions lie end to end: portion i goes from borders[i] to borders[i + 1].

    There may be millions of them, so each is only a number and a shared use.
    """

    def __init__(self):
        self.borders = array("q")
        self.uses = []
        self.refusals = []
        self.ended = False
        self.stopped = False
        self.window = None

    @property
    def first(self):
        """The first tick that is shown."""
        if self.window:
            return self.window[0]
        return self.borders[0] if self.borders else 0

    @property
    def last(self):
        """The tick at which that what is shown ends."""
        if self.window:
            return self.window[1]
        return self.borders[-1] if self.borders else 0

    def portions(self):
        ends = iter(self.borders)
        next(ends, None)
        return zip(self.borders, ends, self.uses)

    def guest_count(self):
        """As many guests as the portions tell of."""
        return 1 + max(map(highest_guest, set(self.uses)), default=-1)

    def cut(self, first, last):
        """Shows the ticks from `first` to `last` alone. The portions at both ends stay whole, so that it can be told how long they are."""
        low, high = bisect_right(self.borders, first) - 1, bisect_left(self.borders, last)
        goes_on = last < self.last
        self.borders, self.uses = self.borders[low : high + 1], self.uses[low:high]
        self.refusals = [refusal for refusal in self.refusals if first <= refusal.tick <= last]
        self.window = (first, last)
        # What is not shown is not missing.
        self.ended, self.stopped = self.ended or goes_on, self.stopped and not goes_on

    def title(self):
        start = f"from tick {self.first:,} " if self.first else ""
        words = f"Schedule {start}up to tick {self.last:,}"
        if self.stopped:
            return f"{words}, stopped by refusal {self.refusals[-1].number} (no end line)"
        return words if self.ended else f"{words}, stopped (no end line)"


def highest_guest(use):
    return max(-1 if number is None else number for number in (use.guest, use.owner))


def known_uses():
    """Every legal end of a portion's line, so that reading one is a single look-up."""
    uses = {b"- -": Use(None, NOTHING, None)}
    for owner in range(script.MOST_GUESTS):
        uses[b"%d %do" % (owner, owner)] = Use(owner, OWN, owner)
        uses[b"- %ds" % owner] = Use(None, BURNED, owner)
        for guest in range(script.MOST_GUESTS):
            uses[b"%d %ds" % (guest, owner)] = Use(guest, SPARE, owner)
    return uses


USES = known_uses()
# The last line of a listing may have lost its line feed on the way.
PORTION_LINE = re.compile(rb"(0|[1-9][0-9]{0,12}) (0|[1-9][0-9]{0,12}) (.*)\n?")
OTHER_LINE = re.compile(rb"(!|end) (0|[1-9][0-9]{0,12})\n?")
NO_LINE = "no line of a listing"


def read_listing(lines):
    listing = Listing()
    line_number = 0
    for line_number, line in enumerate(lines, 1):
        problem = take_line(listing, line)
        if line_number > MOST_LINES:
            problem = f"more than {MOST_LINES:,} lines are not taken"
        if problem:
            raise BadListing(f"line {line_number}: {problem}: {streams.quoted(line)}")
    if line_number == 0:
        raise BadListing("line 1: the listing is empty")
    return listing


def read_named(name):
    """The listing in a file, or on standard input."""
    return streams.taken(name, lambda file: read_listing(iter(partial(file.readline, LONG_LINE), b"")))


def take_line(listing, line):
    """Adds the line to the listing; gives what is wrong with the line, or None."""
    if listing.ended or listing.stopped:
        return "a line behind the end of the listing"
    portion = PORTION_LINE.fullmatch(line)
    if portion:
        first, end, use = portion.groups()
        return take_portion(listing, int(first), int(end), USES.get(use))
    other = OTHER_LINE.fullmatch(line)
    if not other:
        return NO_LINE
    take = take_end if other[1] == b"end" else take_refusal
    return take(listing, int(other[2]))


def take_portion(listing, first, end, use):
    if use is None or not first < end <= END_OF_TIME:
        return NO_LINE
    if not listing.uses:
        start_at(listing, first)
    if first != listing.borders[-1]:
        return f"a portion that does not start at tick {listing.last}, where the one before it ends"
    listing.borders.append(end)
    listing.uses.append(use)
    return None


def start_at(listing, tick):
    """The start is not held to be 0, so that a part cut out of a longer listing can be drawn too."""
    listing.borders.append(tick)
    listing.refusals = [Refusal(tick, refusal.number) for refusal in listing.refusals]


def take_refusal(listing, number):
    if number not in REFUSALS:
        return NO_LINE
    listing.refusals.append(Refusal(listing.last, number))
    listing.stopped = number in STOPPING_REFUSALS
    return None


def take_end(listing, tick):
    if tick > END_OF_TIME:
        return NO_LINE
    if not listing.uses:
        start_at(listing, tick)
    if tick != listing.last:
        return f"an end that is not tick {listing.last}, where the last portion ends"
    listing.ended = True
    return None
