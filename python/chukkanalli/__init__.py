"""Kuhn and Leduc poker by proved calls: what strategy tables are worth, best replies, NashConv.

    import chukkanalli

    game = chukkanalli.Game("kuhn", 2)
    table = game.table({label: [0.5, 0.5] for label in game.labels}, d=12)
    print(game.evaluate(table).nash_conv)        # a Fraction, exact
    print(game.explain(table, seat=0)[0].words)

Every number comes from a call of libchukkanalli, by ctypes; `make shared` builds it. Tables are made of a dict from labels (docs/TABLES.md),
keys or OpenSpiel's information-state strings to probabilities, or are D parts a set as bytes, in the order of `Game.sets`. A call that cannot
be carried out raises `Refused`, with its number and sentence.
"""

from ._calls import Refused
from ._game import Evaluation, Game, Reply, Switch, Values, compare
from ._sets import Set
from ._tables import Rounded, Table

__all__ = ["Evaluation", "Game", "Refused", "Reply", "Rounded", "Set", "Switch", "Table", "Values", "compare"]
