"""The commands of a script beside their listing: when jobs arrived and were done, and which deadlines the guests got.

Who ran is never decided here: the listing has it. What is kept of a guest is its jobs, what is left of its budget, its deadline, and what is left of
each spare that it left. A listing that is not of these commands is told with the line that does not fit.
"""
from array import array
from collections import deque

import listing as listings
import streams

MOST_JOBS = 255
MOST_PLACES = 64
LAST_DEADLINE = 2**44


class Guest:
    """A guest, and the ticks at which jobs arrived and were done, and of its deadlines."""

    def __init__(self, budget, period):
        self.budget, self.period = budget, period
        self.jobs, self.left, self.deadline = 0, 0, 0
        # Those of one guest have rising deadlines, so they are used up in the order in which they were left.
        self.spares = deque()
        self.arrivals, self.completions, self.deadlines = array("q"), array("q"), array("q")

    def renew(self, start):
        """Its budget is whole again, and its deadline a period later than `start`."""
        self.left, self.deadline = self.budget, start + self.period
        if self.deadline <= listings.END_OF_TIME:
            self.deadlines.append(self.deadline)


class Unfit(Exception):
    """The listing does not have there what the commands give."""


class BrokenOff(Exception):
    """The listing ends before the commands do, without saying so: the rest of it is lost."""


class Replay:
    """A state as far as it is needed, and how far the listing is read."""

    def __init__(self, script, listing):
        self.guests = [Guest(*line.numbers) for line in script.guests]
        self.listing, self.now = listing, 0
        self.portions_read, self.refusals_read, self.spent = 0, 0, None
        # The last line that fits.
        self.reached = 0

    def gone(self):
        """What it means that the listing has no more."""
        return Unfit() if self.listing.ended or self.listing.stopped else BrokenOff()

    # ---- calls: each gives its number of refusal, or 0

    def arrive(self, number):
        if number >= len(self.guests):
            return 2
        guest = self.guests[number]
        if guest.jobs == MOST_JOBS:
            return 4
        if guest.jobs == 0:
            if self.places() == MOST_PLACES:
                return 5
            start = max(self.now, guest.deadline)
            if start + guest.period > LAST_DEADLINE:
                return 6
            guest.renew(start)
        guest.jobs += 1
        guest.arrivals.append(self.now)
        return 0

    def places(self):
        """Spares and active guests together."""
        return sum(len(guest.spares) + (guest.jobs > 0) for guest in self.guests)

    def done(self, number):
        if number >= len(self.guests):
            return 2
        guest = self.guests[number]
        if guest.jobs == 0:
            return 3
        guest.jobs -= 1
        guest.completions.append(self.now)
        if guest.jobs == 0 and guest.left > 0:
            guest.spares.append(guest.left)
            guest.left = 0
        return 0

    def advance(self, ticks):
        """Goes through the portions of the listing until so many ticks have passed."""
        end = self.now + ticks
        if end > listings.END_OF_TIME:
            return 7
        while self.now < end:
            if self.portions_read == len(self.listing.uses):
                raise self.gone()
            border = self.listing.borders[self.portions_read + 1]
            self.use(self.listing.uses[self.portions_read], border - self.now)
            self.now = border
            self.portions_read += 1
        if self.now > end:
            raise Unfit()
        return 0

    def use(self, use, ticks):
        """One portion: a budget that was used up before it is renewed, and the guest's budget or a spare loses its ticks."""
        spent, self.spent = self.spent, None
        if spent and spent.jobs > 0 and spent.left == 0:
            spent.renew(spent.deadline)
        if listings.highest_guest(use) >= len(self.guests) or (use.guest is not None and self.guests[use.guest].jobs == 0):
            raise Unfit()
        if use.owner is None:
            return
        owner = self.guests[use.owner]
        if use.kind is listings.OWN:
            self.use_own(owner, ticks)
        else:
            use_spare(owner, ticks)

    def use_own(self, guest, ticks):
        if guest.left < ticks:
            raise Unfit()
        guest.left -= ticks
        if guest.left == 0:
            self.spent = guest

    # ---- the commands

    def carry_out(self, line):
        """One command; what it is refused with must stand in the listing."""
        call = {"A": self.arrive, "D": self.done, "R": self.advance}[line.letter]
        number = call(*line.numbers)
        if number != 0:
            self.read_refusal(number)
        self.reached = line.number

    def read_refusal(self, number):
        if self.refusals_read == len(self.listing.refusals):
            raise self.gone()
        if self.listing.refusals[self.refusals_read] != (self.now, number):
            raise Unfit()
        self.refusals_read += 1

    def is_over(self):
        """Whether the whole listing is read."""
        return (self.portions_read, self.refusals_read) == (len(self.listing.uses), len(self.listing.refusals))


def use_spare(owner, ticks):
    """The first spare of a guest loses ticks, and is gone at 0."""
    if not owner.spares or owner.spares[0] < ticks:
        raise Unfit()
    owner.spares[0] -= ticks
    if owner.spares[0] == 0:
        owner.spares.popleft()


def is_malformed(script):
    return script.is_too_long or script.wrong is not None or not script.lines


def follow(replay, script, listing):
    """Carries out the commands; behind them the listing must end as the script does."""
    stopped_by = listing.refusals[-1].number if listing.stopped else 0
    # A refused table has no commands carried out, and neither has too much input.
    for line in script.commands if stopped_by in (0, 16) and not script.is_too_long else []:
        replay.carry_out(line)
    if stopped_by:
        replay.read_refusal(stopped_by)
    if not replay.is_over() or (listing.ended and is_malformed(script)) or (stopped_by == 16 and not is_malformed(script)):
        raise Unfit()


def replayed(script, listing):
    """The guests of a script, with what became of them by its listing."""
    if listing.first != 0:
        raise streams.Unusable(f"the listing starts at tick {listing.first:,}, and commands start at tick 0")
    replay = Replay(script, listing)
    try:
        follow(replay, script, listing)
    except BrokenOff:
        pass
    except Unfit:
        raise streams.Unusable(f"the listing is not of these commands: it does not fit behind their line {replay.reached}") from None
    return replay.guests
