"""Conditions for tests/fuzz/jpql_lines.py with nested SELECTs: EXISTS, and in the wider language a value
beside the rows of one, or beside what an aggregate gives of them, on either side. A tenth of these are
ill formed or ill typed."""
from __future__ import annotations

from typing import TYPE_CHECKING

if TYPE_CHECKING:
    from fuzz.jpql_lines import Block
    from model.unit import Entity

COMPARISONS = ["=", "=", "<>", "<", "<=", ">", ">="]


class Rows:
    """The part of the maker of statements that nests SELECTs."""

    def nests(self, block: Block) -> bool:
        """Whether a nested SELECT may stand here, and has few enough tuples."""
        return (
            block.depth < 2
            and block.groups is None
            and self.product < self.calls.most_tuples / 4
        )

    def exists(self, block: Block) -> list[str]:
        inner, sources = self.nested_sources(block)
        where = self.where(inner, 1, 0.7)
        item = ["1"] if self.chance(0.5) else self.any_value(inner)[0]
        return ["EXISTS", "(", *self.nested(item, [*sources, *where]), ")"]

    def nested_sources(self, block: Block) -> tuple[Block, list[str]]:
        """What stands in scope in a nested SELECT, and its FROM."""
        variables, sources = self.sources(block.variables, block.depth + 1)
        return type(block)(variables, depth=block.depth + 1), sources

    def nested(self, item: list[str], behind: list[str]) -> list[str]:
        """A nested SELECT of an item, with what stands behind FROM."""
        return ["SELECT", *(["DISTINCT"] if self.chance(0.1) else []), *item, "FROM", *behind]

    def rows(self, block: Block, negation: list[str]) -> list[str]:
        """A value beside rows: by IN, by a comparison with ANY, SOME or ALL, or with an aggregate."""
        kind = self.some([int, int, int, str, str, bytes])
        kind = self.some(self.roots()) if self.roots() and self.chance(0.15) else kind
        operator = self.some(COMPARISONS if kind in (int, str, bytes) else ["=", "<>"])
        left = self.value(kind, block, 1)
        inner, sources = self.nested_sources(block)
        item = self.value(kind, inner, 1)
        behind = [*sources, *self.where(inner, 1, 0.6)]
        if self.chance(0.1):
            return self.odd_rows(block, left, operator, item, behind)
        form = self.random.random()
        if form < 0.4:
            return [*left, *negation, "IN", "(", *self.nested(item, behind), ")"]
        if form < 0.7:
            word = self.some(["ANY", "SOME", "ALL", "ALL"])
            return [*left, operator, word, "(", *self.nested(item, behind), ")"]
        scalar = ["(", *self.scalar(kind, inner, item, behind), ")"]
        if self.gives_number(scalar) and kind is not int:
            left, operator = self.value(int, block, 1), self.some(COMPARISONS)
        return [*scalar, operator, *left] if self.chance(0.3) else [*left, operator, *scalar]

    def scalar(
        self, kind: type | Entity, inner: Block, item: list[str], behind: list[str]
    ) -> list[str]:
        """A nested SELECT of an aggregate of an item of a kind, or of anything that is counted."""
        words = ["COUNT", "MIN", "MAX"] if kind in (int, str, bytes) else ["COUNT"]
        word = self.some([*words, "SUM"] if kind is int and not self.is_calm else words)
        if word == "COUNT" and self.chance(0.5):
            item = self.any_value(inner)[0]
        distinct = ["DISTINCT"] if self.chance(0.25) else []
        return ["SELECT", word, "(", *distinct, *item, ")", "FROM", *behind]

    def gives_number(self, scalar: list[str]) -> bool:
        return scalar[2] in ("COUNT", "SUM")

    def odd_rows(
        self, block: Block, left: list[str], operator: str, item: list[str], behind: list[str]
    ) -> list[str]:
        """A form beside the grammar, or one that is ill typed or may be so."""
        rows, other = ["SELECT", *item, "FROM", *behind], self.value(self.some([int, str]), block, 0)
        most = ["SELECT", "MAX", "(", *item, ")", "FROM", *behind]
        grouped = [*rows, "GROUP", "BY", *item]
        return self.some([
            [*left, "IN", "(", *item, ",", *rows, ")"],
            [*left, "IN", "(", "SELECT", *item, ",", "1", "FROM", *behind, ")"],
            [*left, "IN", "ANY", "(", *rows, ")"], [*left, "LIKE", "ANY", "(", *rows, ")"],
            [*left, "IN", *rows], [*left, "IN", "(", *rows], [*left, "IN", "(", "(", *rows, ")", ")"],
            [*left, operator, "ANY", *rows], [*left, operator, "ALL", "(", "(", *rows, ")", ")"],
            [*left, operator, "NOT", "ANY", "(", *rows, ")"], [*left, operator, "(", *rows, ")"],
            [*left, "NOT", operator, "ALL", "(", *rows, ")"], [*left, operator, "SOME", "(", *item, ")"],
            ["ANY", "(", *rows, ")", operator, *left], ["(", *rows, ")", operator, *left],
            ["(", *most, ")", operator, "(", *most, ")"], ["(", *most, ")", "IS", "NULL"],
            ["(", *most, ")", operator, "ALL", "(", *rows, ")"], ["(", *most, ")", "IN", "(", *rows, ")"],
            [*left, operator, "(", "SELECT", "DISTINCT", *most[1:], ")"],
            [*left, operator, "(", *most[:-len(behind) - 1], "AS", "m", *most[-len(behind) - 1:], ")"],
            [*left, operator, "(", "SELECT", "MAX", "(", *item, ")", ")"],
            [*left, operator, "1", "+", "(", *most, ")"], [*left, operator, "ANY", "(", *most, ")"],
            [*left, "BETWEEN", "(", *most, ")", "AND", *left], [*left, "IN", "(", *most, ")"],
            [*left, operator, "ANY", "(", *grouped, ")"], [*left, operator, "(", *most, ")", "+", "1"],
            [*other, "IN", "(", *rows, ")"], [*other, operator, "ALL", "(", *rows, ")"],
            [*other, operator, "(", *most, ")"], [*left, "<", "ANY", "(", *rows, ")"],
            [*left, operator, "(", "SELECT", "SUM", "(", *item, ")", "FROM", *behind, ")"],
        ])
