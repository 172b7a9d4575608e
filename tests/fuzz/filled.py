"""Sets of many stored objects for tests/fuzz/hostile-lines: what is committed already where a run
with long contexts begins."""
from __future__ import annotations

from typing import TYPE_CHECKING

from model.cells import State, Stored
from model.reading import Refused
from model.unit import KINDS, side

if TYPE_CHECKING:
    from model.kinds import Identity, Key, Part, Value
    from model.unit import Entity, Relation, Unit
    from random import Random

# How many objects mostly lead to one another.
FAMILY = 10


class Filling:
    """A sound set of so many stored objects of a unit, in families that lead to one another; what
    can't be sound is left out."""

    # How many values of an attribute there are.
    values = 100

    def __init__(self, random: Random, unit: Unit, count: int) -> None:
        self.random, self.unit, self.count = random, unit, count
        self.objects, self.numbers = {}, {}
        # Relations with the targets of which they have an owner.
        self.taken = set()
        # The attributes that a listener requires.
        self.needed = {each["attribute"] for each in unit.functions.values()
                       if each["make"] == "require"}

    def state(self) -> State:
        entities, family = list(self.unit.entities.values()), []
        for at in range(self.count):
            if at % FAMILY == 0:
                self.link(family)
                family = []
            family += self.made(self.random.choice(entities))
        self.link(family)
        return State(self.objects, self.numbers)

    def made(self, entity: Entity) -> list[Identity]:
        """The identity of a new object; none where what it must hold isn't there."""
        version = self.random.randint(0, 3) if entity.version else None
        values = {name: self.value(each) for name, each in entity.attributes.items()}
        stored = Stored(entity, version, values)
        needed = {relation: self.target(relation, list(self.objects))
                  for relation in entity.owned if relation.is_required}
        for relation, target in needed.items():
            stored = stored.with_link(relation.name, target)
        identity = entity.root.name, self.key(entity.root)
        if stored.lacks() or identity in self.objects:
            return []
        self.objects[identity] = stored
        self.taken |= set(needed.items())
        return [identity]

    def key(self, root: Entity) -> Key:
        if root.generated:
            number = self.numbers.get(root.name, 1)
            self.numbers[root.name] = number + 1
            return (number,)
        number = self.random.randrange(10 ** 6)
        parts = {int: number, str: f"k{number}", bytes: number.to_bytes(3, "big")}
        return tuple(parts[kind] for kind in root.key.values())

    def value(self, attribute: dict[str, Part | bool]) -> Value:
        """A value of an attribute that its converter takes and no listener refuses; null where
        there is none."""
        is_needed = attribute.get("required") or attribute["name"] in self.needed
        if not is_needed and self.random.random() < 0.1:
            return None
        kind, number = KINDS[attribute["type"]], self.random.randrange(self.values)
        pairs = self.unit.functions.get(attribute.get("converter"), {}).get("pairs", [])
        values = [{int: number, str: f"v{number}", bytes: bytes([number])}[kind],
                  *(side(here) for here, _ in pairs)]
        fits = [each for each in values
                if isinstance(each, kind) and self.is_taken(attribute, each)]
        return self.random.choice(fits or [None])

    def is_taken(self, attribute: dict[str, Part | bool], value: Part) -> bool:
        try:
            self.unit.column(attribute, value)
        except Refused:
            return False
        return True

    def target(self, relation: Relation, identities: list[Identity]) -> Identity | None:
        """One of these identities to which one more object may lead."""
        taken = self.taken if relation.kind == "oneToOne" else ()
        fits = [identity for identity in identities if (relation, identity) not in taken
                and self.objects[identity].entity.is_a(relation.target)]
        return self.random.choice(fits) if fits else None

    def link(self, family: list[Identity]) -> None:
        """Links the objects of a family to one another, and rarely to those of others."""
        for identity in family:
            for relation in self.objects[identity].entity.owned:
                if relation.is_required or self.random.random() < 0.3:
                    continue
                near = family if self.random.random() < 0.9 else list(self.objects)
                count = self.random.choice([1, 2]) if relation.is_many else 1
                found = {self.target(relation, near) for _ in range(count)} - {None}
                if found:
                    held = frozenset(found) if relation.is_many else next(iter(found))
                    self.objects[identity] = self.objects[identity].with_link(relation.name, held)
                    self.taken |= {(relation, target) for target in found}
