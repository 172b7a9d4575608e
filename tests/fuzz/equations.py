"""Conditions for tests/fuzz/jpql_lines.py that equate what variables lead to, as joins do: keys,
objects, links and values, in WHERE, in ON and in EXISTS, also under OR and NOT."""
from __future__ import annotations

from typing import TYPE_CHECKING

if TYPE_CHECKING:
    from fuzz.jpql_lines import Block
    from model.unit import Entity

# How many equations there are.
EQUATIONS = [1, 1, 1, 2, 2, 3]


class Equations:
    """The part of the maker of statements that equates. `equates` tells it to, for a statement;
    `is_calm` that nothing in its conditions can overflow, so that objects may be looked up."""

    equates = is_calm = False

    def equating(self, share: float) -> None:
        """Whether the statement at hand equates, and with what beside it."""
        self.equates = self.chance(share)
        self.is_calm = self.equates and self.chance(0.75)

    def where(self, block: Block, depth: int, most: float) -> list[str]:
        """A WHERE, or mostly none with this chance."""
        if self.equates and block.variables and self.chance(0.95):
            return ["WHERE", *self.equated(block)]
        return ["WHERE", *self.condition(block, depth)] if self.chance(most) else []

    def equated(self, block: Block) -> list[str]:
        """Equations with other tests beside them, mostly joined by AND."""
        parts = [self.equation(block) for _ in range(self.some(EQUATIONS))]
        if self.chance(0.2):
            parts += self.whole_key(block)
        parts = [part for part in parts if part]
        if not self.is_calm and self.chance(0.4):
            parts.append(self.near_limit(block))
        while not parts or self.chance(0.35):
            parts.append(self.beside(block))
        self.random.shuffle(parts)
        parts = [self.bent(part, block) for part in parts]
        while len(parts) > 2 and self.chance(0.4):
            at = self.random.randrange(len(parts) - 1)
            parts[at:at + 2] = [["(", *parts[at], "AND", *parts[at + 1], ")"]]
        word = "OR" if self.chance(0.07) else "AND"
        return [
            token for place, part in enumerate(parts) for token in ([word] if place else []) + part
        ]

    def bent(self, part: list[str], block: Block) -> list[str]:
        """Rarely with NOT, or under OR; else as it stands."""
        roll = self.random.random()
        if roll < 0.05:
            return ["NOT", "(", *part, ")"]
        if roll < 0.12:
            other = self.equation(block) or self.beside(block)
            return ["(", *part, "OR", *other, ")"]
        return part

    def beside(self, block: Block) -> list[str]:
        """Another test; a nested block so often that it equates too."""
        if block.depth < 2 and block.groups is None and block.steps > 1 and self.chance(0.4):
            return [*self.some([[], [], ["NOT"]]), *self.exists(block)]
        return self.part(block, 1)

    def near_limit(self, block: Block) -> list[str]:
        """A test that overflows for some objects."""
        path = self.path(int, block) or ["7"]
        near = str(2**63 - 1 - self.some([0, 3, 7, 11, 11, 20, 255]))
        value = self.some(
            [
                [*path, "+", near], [near, "+", *path], ["-", near, "-", *path],
                [*path, "*", self.some(["1000000000000000000", "2"])],
                ["ABS", "(", *path, "-", "1", ")"], ["MOD", "(", *path, ",", "3", ")"],
            ]
        )
        return [*value, self.some(["<>", ">", "<"]), str(self.some([0, 1, 5]))]

    def kinds(self) -> list[type | Entity]:
        return [int, int, int, str, str, bytes, *self.roots(), *self.roots()]

    def equation(
        self, block: Block, kind: type | Entity | None = None, side: list[str] | None = None
    ) -> list[str] | None:
        """Two values of a kind that are equated: paths of different variables, or of one, or a path
        and what is known; in either order. Rarely another comparison."""
        names = list(block.variables)
        kind = kind or self.some(self.kinds())
        one = names[-1] if self.chance(0.5) else self.some(names)
        side = side or self.side(kind, block, one)
        others = [name for name in names if name != one] or names
        other = (
            self.side(kind, block, self.some(others))
            if self.chance(0.8 if len(names) > 1 else 0.3)
            else self.value(kind, block, 0)
        )
        if not side or not other:
            return None
        others = ["<>", "<"] if kind in (int, str) else ["<>"]
        operator = "=" if self.chance(0.95) else self.some(others)
        return [*side, operator, *other] if self.chance(0.5) else [*other, operator, *side]

    def side(self, kind: type | Entity, block: Block, variable: str) -> list[str] | None:
        """A path of a variable, mostly of one step, and often of its key."""
        entity = block.variables[variable]
        keys = [name for name, other in entity.key.items() if other is kind]
        if keys and self.chance(0.4):
            return self.along(variable, self.some(keys))
        steps = 1 if self.chance(0.75) else block.steps
        one = block.but(variables={variable: entity}, steps=min(steps, block.steps))
        return self.path(kind, one)

    def along(self, variable: str, name: str) -> list[str]:
        return [self.cased(variable), *[token for part in name.split(".") for token in (".", part)]]

    def whole_key(self, block: Block) -> list[list[str] | None]:
        """An equation for each part of the key of a variable."""
        variable = self.some(list(block.variables))
        return [self.equation(block, kind, self.along(variable, name))
                for name, kind in block.variables[variable].key.items()]
