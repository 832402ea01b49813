"""A game, and what its tables and profiles come to."""

from ctypes import c_double, c_uint8, c_uint64
from dataclasses import dataclass
from fractions import Fraction

from . import _calls, _sets, _tables
from ._calls import call, number

NODES = {(_calls.KUHN, 2): 58, (_calls.KUHN, 3): 617, (_calls.KUHN, 4): 7886, (_calls.KUHN, 5): 116437, (_calls.KUHN, 6): 1944020, (_calls.LEDUC, 2): 9457}
MOST_SETS = 1344


@dataclass(frozen=True)
class Evaluation:
    """Worths, best values and gains of the seats, and NashConv: in chips per hand, and in units of which so many are one chip."""

    worths: tuple
    best_values: tuple
    gains: tuple
    nash_conv: Fraction
    nash_conv_units: int
    units: int


@dataclass(frozen=True)
class Reply:
    """A seat's best value and the table in which it plays the reply."""

    value: Fraction
    table: _tables.Table


@dataclass(frozen=True)
class Values:
    """The values of a profile in f64, in chips per hand."""

    best_response_values: tuple
    worths: tuple
    nash_conv: float
    exploitability: float


@dataclass(frozen=True)
class Switch:
    """What a set's switch to the reply's action adds to a seat's worth, after the sets that can follow it, and that in words."""

    set: _sets.Set
    action: str
    adds: Fraction
    words: str


class Game:
    """Kuhn with 2 to 6 seats, or Leduc."""

    def __init__(self, name, seats=2):
        self.name, self.seats = str(name).lower(), int(seats)
        self._number = {"kuhn": _calls.KUHN, "leduc": _calls.LEDUC}.get(self.name, _calls.MOST)
        words = _calls.WORDS * NODES.get((self._number, self.seats), 0)
        self._work = (c_uint64 * words)()
        out = (c_uint8 * (_calls.RECORD * MOST_SETS))()
        listing = call("enumerate_infosets", *self._lent(), out, len(out))
        self.nodes = listing.nodes
        self.sets = _sets.listed(self._number, out[: _calls.RECORD * listing.sets])
        self.entries = sum(len(own.legal) for own in self.sets)
        self.labels = [own.label for own in self.sets]
        self.by_label = {_tables._folded(own.label): own for own in self.sets}
        self.by_key = {own.key: own for own in self.sets}

    def __str__(self):
        return f"{self.name.capitalize()} with {self.seats} seats"

    def _lent(self):
        return self._number, number(self.seats), self._work, len(self._work)

    def spiel_key(self, text):
        """The key that an information-state string of OpenSpiel stands for, or None."""
        return _sets.spiel_key(self._number, self.seats, text)

    def hold_parts(self, d):
        """Raises what a call says of D: no game has a table without entries, so an empty one is refused with 7 where D is fit."""
        try:
            self._worths(_tables.Table(d, b""))
        except _calls.Refused as refused:
            if refused.number != 7:
                raise

    def table(self, given, d):
        """A table with D parts a set: of a dict of probabilities, rounded, or of parts in the order of the sets."""
        if hasattr(given, "items"):
            return _tables.table_of(self, given, int(d))
        return _tables.Table(int(d), bytes(int(part) for part in given))

    @staticmethod
    def _bytes(table):
        parts = (c_uint8 * len(table.parts)).from_buffer_copy(table.parts) if table.parts else (c_uint8 * 0)()
        return number(table.d), parts, len(parts)

    def _worths(self, table):
        answer = call("worths", *self._lent(), *self._bytes(table))
        return list(answer.worths[: answer.count])

    def _best(self, table, seat):
        out = (c_uint8 * self.entries)()
        answer = call("best_reply", *self._lent(), number(seat), *self._bytes(table), out, len(out))
        return answer.value, bytes(out)

    def nash_conv(self, table):
        """NashConv of a table in chips per hand, as a Fraction."""
        answer = call("nash_conv_units", *self._lent(), *self._bytes(table))
        return Fraction(answer.nash_conv, answer.units)

    def evaluate(self, table):
        """What a table is worth to each seat, each seat's best value and NashConv."""
        conv = call("nash_conv_units", *self._lent(), *self._bytes(table))
        worths = self._worths(table)
        bests = [self._best(table, seat)[0] for seat in range(self.seats)]
        chips = lambda counts: tuple(Fraction(count, conv.units) for count in counts)
        gains = [best - worth for best, worth in zip(bests, worths)]
        return Evaluation(chips(worths), chips(bests), chips(gains), Fraction(conv.nash_conv, conv.units), conv.nash_conv, conv.units)

    def reply(self, table, seat):
        """The best value of a seat, and its reply."""
        value, parts = self._best(table, seat)
        units = call("nash_conv_units", *self._lent(), *self._bytes(table)).units
        return Reply(Fraction(value, units), _tables.Table(table.d, parts))

    def explain(self, table, seat):
        """The sets that carry what a seat gains by its reply, those that add most first; what they add makes up the gain."""
        units = call("nash_conv_units", *self._lent(), *self._bytes(table)).units
        _, reply = self._best(table, seat)
        own = [of for of in self.sets if of.seat == seat and table.parts[of.entries] != reply[of.entries]]
        own.sort(key=lambda of: -sum(len(actions) for actions in of.rounds))
        worth, parts, switches = self._worths(table)[seat], bytearray(table.parts), []
        for of in own:
            parts[of.entries] = reply[of.entries]
            after = self._worths(_tables.Table(table.d, bytes(parts)))[seat]
            adds, worth = Fraction(after - worth, units), after
            place = reply[of.entries].index(table.d)
            if adds:
                switches.append(Switch(of, of.actions[place], adds, _words(of, place, table, adds)))
        return sorted(switches, key=lambda switch: -switch.adds)

    def f64(self, given):
        """The values of a profile in floating point: of a dict of probabilities, or of numbers of any kind in the order of the sets."""
        numbers = _tables.profile_of(self, given)
        profile = (c_double * len(numbers))(*numbers)
        made = lambda name: call(name, *self._lent(), profile, len(numbers))
        values = lambda answer: tuple(answer.values[: answer.count])
        best, worths = values(made("best_response_values")), values(made("profile_values"))
        return Values(best, worths, made("nash_conv").values[0], made("exploitability").values[0])


_VERBS = {"PASS": ("passes", "passing"), "BET": ("bets", "betting"), "FOLD": ("folds", "folding"), "CALL": ("calls", "calling"), "RAISE": ("raises", "raising")}


def _words(own, place, table, adds):
    """What a set does, and what the reply's action gains."""
    does, doing = _VERBS[own.actions[place]]
    often = Fraction(table.parts[own.first_entry + place], table.d)
    hands = "1 hand" if often.numerator == 1 else f"{often.numerator} hands"
    told = {0: f"never {does}", 1: f"always {does}"}.get(often, f"{does} {hands} in {often.denominator}")
    chips = f"{adds} of a chip" if adds < 1 else "1 chip" if adds == 1 else f"{adds} chips"
    return f"{own.situation} it {told}; {doing} always gains {chips}."


def compare(one, other):
    """How NashConv of an evaluation stands to that of another, of any games and D, by the proved comparison: -1, 0 or 1."""
    return call("compare", one.nash_conv_units, one.units, other.nash_conv_units, other.units)
