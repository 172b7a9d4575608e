"""Rounds of tests/fuzz/hostile-lines: runs over one file, each from where the one before ends."""
from __future__ import annotations

import random
from typing import TYPE_CHECKING, Iterator

from model.cells import State, Stored
from fuzz.contexts import LongCalls
from fuzz.filled import Filling
from fuzz.joins import FewFilled, JoinCalls
from fuzz.lines import MAPPINGS, RANDOM, Calls, made, some_mapping, unit_of
from model.reading import GREATEST

if TYPE_CHECKING:
    from fuzz.lines import Case
    from model.unit import Unit

RUN, LONG_RUN = 250, 500
LONG_MAPPINGS = ["houses.json", RANDOM, "linked.json", RANDOM, None, "woven.json", RANDOM,
                 "houses.json", "heard.json", RANDOM]


def at_limits(unit: Unit) -> State:
    """A state whose persons have versions, and whose generators next numbers, at their greatest."""
    persons = [entity for entity in unit.entities.values() if entity.name == "Person"]
    objects = {("Person", (n,)): Stored(person, GREATEST - 2 + n, dict.fromkeys(person.attributes))
               for person in persons for n in (1, 2)}
    roots = [name for name, entity in unit.entities.items()
             if entity.generated and entity.root is entity]
    return State(objects, {name: GREATEST - 2 for name in roots})


def round_of(
    seed: str, at: int, count: int, is_random: bool = False, is_long: bool = False,
    is_joined: bool = False, is_wide: bool = False,
) -> Iterator[Case]:
    """The cases of a round; one with long contexts begins with many stored objects, one with joins
    with some."""
    names = [RANDOM] if is_random else LONG_MAPPINGS if is_long else MAPPINGS
    mapping = some_mapping(f"{seed}/{at}", names[at % len(names)])
    unit, chance = unit_of(mapping), random.Random(f"{seed}/{at}/filled")
    if is_joined:
        state = FewFilled(chance, unit, chance.choice([0, 8, 15, 30, 60])).state()
    elif is_long:
        state = Filling(chance, unit, chance.choice([100, 150, 250, 400])).state()
    else:
        state = at_limits(unit) if at % 5 == 4 else State()
    for part in (1, 2):
        length = min(LONG_RUN if is_long else RUN, count)
        maker = JoinCalls if is_joined else LongCalls if is_long else Calls
        case = made(f"{seed}/{at}/{part}", mapping, unit, state, length, maker, is_wide)
        count -= len(case.lines)
        yield case
        state = case.predicted()[1]
        if count <= 0:
            return
