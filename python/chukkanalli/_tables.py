"""Tables and profiles of a dict, and what rounding to D parts does."""

from dataclasses import dataclass
from fractions import Fraction
from typing import List

TOLERANCE = 1e-9


@dataclass(frozen=True)
class Rounded:
    """What rounding did to a set: its probabilities, its parts, and the most that a probability changed by."""

    label: str
    probabilities: tuple
    parts: tuple
    most: float


@dataclass(frozen=True)
class Table:
    """D parts a set, in the order of the sets. Where it was made of probabilities, `rounded` has the sets that these do not fit exactly, the
    farthest first, and `profile_nash_conv` NashConv of the probabilities in f64, beside which that of the table may be held."""

    d: int
    parts: bytes
    rounded: tuple = ()
    profile_nash_conv: float = None

    def array(self):
        """The parts as a numpy array."""
        import numpy

        return numpy.frombuffer(self.parts, dtype=numpy.uint8).copy()


def set_of(game, key):
    """The set that a label, a key or an OpenSpiel string stands for."""
    if isinstance(key, str):
        found = game.by_label.get(_folded(key))
        if found is None:
            spiel = game.spiel_key(key)
            found = game.by_key.get(spiel) if spiel is not None else None
    else:
        found = game.by_key.get(bytes(key))
    if found is None:
        raise KeyError(f"{key!r} is no set of {game}")
    return found


def _folded(label):
    return " ".join(label.lower().split())


def numbers_of(own, value, zero):
    """The numbers of a set's legal actions: one for each of them, one for each action of the game, pairs of an action and its number, or a dict
    from actions, by name or number, to theirs."""
    if hasattr(value, "items"):
        value = list(value.items())
    value = list(value)
    if value and all(isinstance(entry, (tuple, list)) and len(entry) == 2 for entry in value):
        numbers = {action: zero for action in own.legal}
        for action, number in value:
            place = own._names.index(action.upper()) if isinstance(action, str) else int(action)
            if place not in numbers and number != 0:
                raise ValueError(f"{own.label}: {action!r} is not legal there")
            numbers[place] = number
        return [numbers[action] for action in own.legal]
    if len(value) == len(own.legal):
        return value
    if len(value) == len(own._names):
        if any(value[action] != 0 for action in range(len(value)) if action not in own.legal):
            raise ValueError(f"{own.label}: an action that is not legal there has a number")
        return [value[action] for action in own.legal]
    raise ValueError(f"{own.label}: {len(value)} numbers, and {len(own.legal)} are needed")


def laid_out(game, given, zero):
    """The numbers of a dict in the order of the sets; each set once."""
    found = {}
    for key, value in given.items():
        own = set_of(game, key)
        if own.number in found:
            raise ValueError(f"{own.label} stands twice")
        found[own.number] = numbers_of(own, value, zero)
    missing = [own.label for own in game.sets if own.number not in found]
    if missing:
        raise ValueError(f"{len(missing)} sets are missing; the first is {missing[0]}")
    return [found[own.number] for own in game.sets]


def profile_of(game, given):
    """A profile of a dict, or of numbers in the order of a table; each set adds up to 1."""
    if not hasattr(given, "items"):
        return [float(number) for number in given]
    numbers = []
    for own, values in zip(game.sets, laid_out(game, given, 0.0)):
        values = [float(value) for value in values]
        if not all(value >= 0 for value in values) or not abs(sum(values) - 1) <= TOLERANCE:
            raise ValueError(f"{own.label}: {values} do not add up to 1")
        numbers += values
    return numbers


def parts_of(values, d):
    """So many parts for each probability, D in all: rounded down, and what is left to the largest remainders, the first of equals."""
    exact = [Fraction(value) * d for value in values]
    parts = [int(share) for share in exact]
    by_rest = sorted(range(len(values)), key=lambda place: (parts[place] - exact[place], place))
    for place in by_rest[: max(0, d - sum(parts))]:
        parts[place] += 1
    for place in reversed(by_rest):
        while sum(parts) > d and parts[place] > 0:
            parts[place] -= 1
    return parts


def table_of(game, given, d):
    """A table of a dict of probabilities."""
    game.hold_parts(d)
    profile = profile_of(game, given)
    parts: List[int] = []
    rounded = []
    for own in game.sets:
        values = profile[own.entries]
        laid = parts_of(values, d)
        most = max(abs(part / d - value) for part, value in zip(laid, values))
        if most > 0:
            rounded.append(Rounded(own.label, tuple(values), tuple(laid), most))
        parts += laid
    rounded.sort(key=lambda own: -own.most)
    return Table(d, bytes(parts), tuple(rounded), game.f64(profile).nash_conv)
