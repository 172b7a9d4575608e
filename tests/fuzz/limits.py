"""Texts for tests/fuzz/hostile-lines that are about as long, as deep or as wide as is allowed."""
from __future__ import annotations


class Limits:
    """The part of the maker of statements that goes to the limits of a text."""

    def deep(self) -> str:
        """A text with parentheses about as deep as is allowed, or with about as many variables."""
        entity = self.some_entity()
        if self.chance(0.5):
            depth = self.some([31, 32, 33])
            return f"SELECT {'(' * depth}1{')' * depth} FROM {entity.name} p"
        least = min(self.unit.entities.values(), key=self.count)
        wide = [
            f"{least.name} v{place}"
            for place in range(self.some([8, 9, 12] if self.count(least) < 2 else [9, 12]))
        ]
        return f"SELECT 1 FROM {', '.join(wide)}" + (" WHERE" if self.chance(0.2) else "")

    def long(self) -> str:
        """A text about as long as is allowed."""
        entity, length = self.some_entity(), self.some([16384, 16385, 16383, 20000])
        before, after = f"SELECT p FROM {entity.name} p WHERE '", "' = 'a'"
        filled = length - len(before) - len(after)
        return before + self.some(["a" * filled, "é" * (filled // 2) + "a" * (filled % 2)]) + after

    def often(self) -> str:
        """A text in which collections become about as many values as is allowed, together."""
        entity, count = min(self.unit.entities.values(), key=self.count), self.some([64, 1024, 4096])
        self.parameters = {
            "o": (("list", int), [self.some([0, 1, None])] * count),
            "m": (("list", int), [1] * self.some([0, 0, 1, 2])),
        }
        tests = ["1 IN :o"] * (65536 // count) + ["1 NOT IN (:m)"]
        self.random.shuffle(tests)
        text = f"SELECT COUNT(p) FROM {entity.name} p WHERE {' OR '.join(tests)}"
        return text + self.some(["", "", "", " OR", " #"])
