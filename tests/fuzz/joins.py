"""Rounds of tests/fuzz/hostile-lines with joins: most calls query, most statements equate what
their variables lead to (tests/fuzz/equations.py), and there are few values, so that they meet."""
from __future__ import annotations

from typing import TYPE_CHECKING, Any

from fuzz.filled import Filling
from fuzz.lines import Calls

if TYPE_CHECKING:
    from random import Random

    from fuzz.kinds import Plot
    from model.kinds import Key, Part, Value
    from model.machine import Machine
    from model.reading import Number
    from model.unit import Entity

FEW = 12


class FewFilled(Filling):
    """A set whose keys and values are from few."""

    values = FEW

    def key(self, root: Entity) -> Key:
        if root.generated:
            return super().key(root)
        return tuple(self.part(kind) for kind in root.key.values())

    def part(self, kind: type) -> Part:
        number = self.random.randrange(3 * FEW)
        return {int: number, str: f"v{number}", bytes: bytes([number])}[kind]


class JoinCalls(Calls):
    """A maker of calls most of which query."""

    def __init__(self, random: Random, machine: Machine) -> None:
        super().__init__(random, machine)
        self.equated_share, self.mutated_share, self.most_tuples = 0.9, 0.04, 600
        self.crowd = random.choice([1, 2, 2, 3])

    def call(self) -> tuple[str, dict[str, Any]]:
        if self.open_ones() and self.random.random() < 0.5:
            word = self.random.choices(["query", "querySingle", "executeUpdate"], [9, 1, 3])[0]
            return word, getattr(self, word)()
        return super().call()

    def some_plot(self) -> Plot:
        return self.queried() if self.random.random() < 0.6 else super().some_plot()

    def value(self, kind: type) -> Number | Value:
        if self.random.random() < 0.25:
            return super().value(kind)
        number = self.random.randrange(FEW)
        return {int: number, str: f"v{number}", bytes: bytes([number])}[kind]
