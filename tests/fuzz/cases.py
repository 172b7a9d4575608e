"""Values for tests/fuzz/jpql_lines.py by CASE, of tests or of a value. A few are ill formed or ill typed."""
from __future__ import annotations

from typing import TYPE_CHECKING

if TYPE_CHECKING:
    from fuzz.jpql_lines import Block
    from model.unit import Entity

TESTS = {"compare": 10, "between": 3, "in": 3, "like": 4, "null": 4}


class Cases:
    """The part of the maker of statements that writes CASE."""

    def case(self, kind: type, block: Block, depth: int) -> list[str]:
        """A CASE that gives values of a kind."""
        self.inside += 1
        other = self.some([int, int, str, bytes])
        is_of_value = self.chance(0.4)
        tokens = ["CASE", *(self.value(other, block, depth) if is_of_value else [])]
        for _ in range(self.some([1, 1, 2, 3])):
            found = self.other_or(other, block) if is_of_value else self.when(block, depth)
            tokens += ["WHEN", *found, "THEN", *self.other_or(kind, block, depth)]
        tokens += ["ELSE", *self.value(kind, block, depth), "END"]
        self.inside -= 1
        return self.odd_case(tokens) if self.chance(0.02) else tokens

    def other_or(self, kind: Entity | type, block: Block, depth: int = 0) -> list[str]:
        """A value of a kind, or rarely of another one or null."""
        if self.chance(0.01):
            return self.some([["NULL"], self.value(self.some([int, str, bytes]), block, 0)])
        return self.value(kind, block, depth)

    def odd_case(self, tokens: list[str]) -> list[str]:
        """A CASE with one of its words left out or twice."""
        words = [at for at, token in enumerate(tokens) if token in ("WHEN", "THEN", "ELSE", "END")]
        at = self.some(words)
        return tokens[:at] + (tokens[at:at + 1] * 2 if self.chance(0.3) else []) + tokens[at + 1:]

    def when(self, block: Block, depth: int) -> list[str]:
        """Tests behind WHEN, of which AND comes before OR."""
        if not self.chance(0.35):
            return self.when_part(block, depth)
        parts = [self.when_part(block, depth) for _ in range(self.some([2, 2, 3]))]
        tokens = parts[0]
        for part in parts[1:]:
            tokens = [*tokens, self.some(["AND", "OR"]), *part]
        return tokens

    def when_part(self, block: Block, depth: int) -> list[str]:
        """A test or tests in parentheses, before which NOT may stand."""
        within = depth and self.chance(0.3)
        found = ["(", *self.when(block, depth - 1), ")"] if within else self.when_test(block, depth)
        return ["NOT", *found] if self.chance(0.15) else found

    def when_test(self, block: Block, depth: int) -> list[str]:
        """A test of values; rarely one that stands behind no WHEN."""
        if self.chance(0.01):
            return self.test(block, 0)
        word = self.random.choices(list(TESTS), TESTS.values())[0]
        kind, negation = self.some([int, int, str, bytes]), self.some([[], [], [], ["NOT"]])
        found = self.value_test(word, kind, negation, block, depth)
        is_escaped = "ESCAPE" in found[-2:-1] and self.chance(0.3)
        return [*found[:-1], *self.quoted(self.some(["", "!!", "%a"]))] if is_escaped else found
