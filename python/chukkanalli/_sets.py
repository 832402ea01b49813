"""The information sets of a game: labels, keys, and OpenSpiel's strings."""

import re
from dataclasses import dataclass
from typing import Optional, Tuple

from . import _calls

ACTIONS = {_calls.KUHN: ("PASS", "BET"), _calls.LEDUC: ("FOLD", "CALL", "RAISE")}


@dataclass(frozen=True)
class Set:
    """A set: its number, its seat, what the seat knows, its legal actions by name, and its label and place in a table."""

    number: int
    seat: int
    key: bytes
    card: int
    public_card: Optional[int]
    rounds: Tuple[Tuple[int, ...], ...]
    legal: Tuple[int, ...]
    actions: Tuple[str, ...]
    first_entry: int

    @property
    def entries(self):
        """Where its numbers stand in a table."""
        return slice(self.first_entry, self.first_entry + len(self.legal))

    @property
    def label(self):
        """The words that a template has behind its parts."""
        return f"{' '.join(self.actions)}: seat {self.seat}, {self.words}"

    @property
    def words(self):
        """What the seat knows: its card, the public card and what was played."""
        played = [" ".join(self._names[action] for action in actions) for actions in self.rounds]
        if self._names is ACTIONS[_calls.KUHN]:
            return f"card {self.card}, " + (f"after {played[0]}" if played[0] else "first action of the hand")
        own = f"card {self.card} (rank {self.card // 2})"
        if self.public_card is None:
            return f"{own}, no public card, " + (f"after {played[0]}" if played[0] else "first action of the hand")
        public = f"public card {self.public_card} (rank {self.public_card // 2})"
        second = f"in round 2 after {played[1]}" if played[1] else "first action of round 2"
        return f"{own}, {public}, after {played[0]}, {second}"

    @property
    def situation(self):
        """The same as the beginning of a sentence."""
        words = self.words.replace(", first action of the hand", " as first action")
        if self._names is ACTIONS[_calls.KUHN]:
            return "With " + words.replace(", after", " after", 1)
        return "With " + words.replace("first action of round", "as first action of round")

    @property
    def _names(self):
        return ACTIONS[_calls.KUHN] if self.actions[0] in ACTIONS[_calls.KUHN] else ACTIONS[_calls.LEDUC]


def listed(game, records):
    """The sets of a game from the listing's bytes."""
    sets, first = [], 0
    for number in range(len(records) // _calls.RECORD):
        record = bytes(records[number * _calls.RECORD : (number + 1) * _calls.RECORD])
        key = record[2 : 2 + record[1]]
        public = None if record[15] == 255 else record[15]
        if game == _calls.KUHN:
            rounds, legal = (tuple(key[2:]),), (0, 1)
        else:
            one = tuple(key[4 : 4 + key[3]])
            two = tuple(key[5 + len(one) :])
            rounds = (one,) if public is None else (one, two)
            legal = _leduc_legal(record, public, one, two)
        actions = tuple(ACTIONS[game][action] for action in legal)
        sets.append(Set(number, record[0], key, key[1], public, rounds, legal, actions, first))
        first += len(legal)
    return sets


def _leduc_legal(record, public, one, two):
    """The legal actions at a set's first node, by the rules call."""
    history = (list(one) + [0] * 4)[:4] + (list(two) + [0] * 4)[:4]
    position = _calls.LeducPosition(
        (_calls.c_uint8 * 2)(*record[16:18]), 2, 255 if public is None else public, (_calls.c_uint8 * 8)(*history), len(one), len(two)
    )
    out = (_calls.c_uint8 * 3)()
    count = _calls.call("leduc_legal_actions", position, record[0], out, 3).count
    return tuple(out[:count])


_LEDUC = re.compile(
    r"\[Observer: (\d)\]\[Private: (\d)\]\[Round \d\]\[Player: \d\]\[Pot: \d+\]\[Money: [\d ]+\](?:\[Public: (\d)\])?"
    r"\[Round1: ([\d ]*)\]\[Round2: ([\d ]*)\]"
)


def spiel_key(game, seats, text):
    """The key that an information-state string of OpenSpiel stands for, or None. Kuhn: `0pb`, the card, then p and b for each action. Leduc:
    `[Observer: 0][Private: 2][Round 1][Player: 0][Pot: 2][Money: 99 99][Round1: ][Round2: ]`, behind Money `[Public: 4]` once it is dealt."""
    if game == _calls.KUHN:
        found = re.fullmatch(r"(\d)([pb]*)", text)
        if not found:
            return None
        actions = ["pb".index(letter) for letter in found[2]]
        return bytes([len(actions) % seats, int(found[1])] + actions)
    found = _LEDUC.fullmatch(text)
    if not found:
        return None
    one, two = ([int(word) for word in found[place].split()] for place in (4, 5))
    public = 255 if found[3] is None else int(found[3])
    return bytes([int(found[1]), int(found[2]), public, len(one)] + one + [len(two)] + two)
