"""Forty classes at random, with every feature, through classes, mapping, store and back."""

from __future__ import annotations

import json
import random
from operator import attrgetter
from types import ModuleType
from typing import Any, Dict, List, NamedTuple, Set, Tuple

from karzhoul import NotUnique
from karzhoul.classes.changes import make
from karzhoul.mapping.linter import lint

from ..classed import ClassesTest
from ..support import needs_program
from .written_classes import Made, written

Key = Tuple[Any, ...]


class Stored(NamedTuple):
    """What was stored of an object: its values, and the keys of what it leads to."""

    made: Made
    key: Key
    values: Dict[str, Any]
    links: Dict[str, Key]
    lists: Dict[str, Set[Key]]


def key_of(entity: Any, classes: Dict[str, Made]) -> Key:
    """The parts of an object's key."""
    return tuple(attrgetter(path)(entity) for path in classes[type(entity).__name__].key.paths)


@needs_program
class Forty(ClassesTest):
    def test_forty_classes_through_mapping_store_and_back(self) -> None:
        for seed in range(3):
            with self.subTest(seed=seed):
                self.lock, self.db = (self.folder / f"{seed}.{it}" for it in ("lock", "db"))
                self._goes_through(random.Random(seed), *written(seed, 40))

    def _goes_through(self, r: random.Random, text: str, classes: List[Made]) -> None:
        module = self.module(text)
        made = make(module, self.lock)
        self.assertEqual(list(lint(json.dumps(made.mapping).encode()).findings), [])
        self.assertEqual(make(module, self.lock).mapping, made.mapping)
        known = {each.name: each for each in classes}
        stored = self._store(r, module, known)
        with self.open(module) as app, app.begin() as manager:
            for each in stored:
                self._is_as_stored(manager, module, each, stored, known)
        with self.open(module) as app:
            for each in stored:
                self._stays_unique(r, app, module, each)
        self.assertEqual(make(module, self.lock).mapping, made.mapping)

    # ---- storing

    def _store(
        self, r: random.Random, module: ModuleType, classes: Dict[str, Made]
    ) -> List[Stored]:
        """Stores two objects of each class, with their relations."""
        with self.open(module) as app, app.begin() as manager:
            objects: Dict[str, List[Any]] = {}
            values: Dict[int, Dict[str, Any]] = {}
            for number, made in enumerate(classes.values()):
                for place in (2 * number, 2 * number + 1):
                    given = _values(r, module, made)
                    own = getattr(module, made.name)(**made.key.make(place, module), **given)
                    manager.persist(own)
                    objects.setdefault(made.name, []).append(own)
                    values[id(own)] = given
            for made in classes.values():
                for own, other in zip(objects[made.name], reversed(objects[made.name])):
                    _relate(r, made, own, other, objects)
            return [
                _stored(made, own, values[id(own)], classes)
                for made in classes.values() for own in objects[made.name]
            ]

    # ---- and back

    def _is_as_stored(
        self, manager: Any, module: ModuleType, each: Stored, stored: List[Stored],
        classes: Dict[str, Made],
    ) -> None:
        name, key = each.made.name, each.key
        found = manager.find(name, key if len(key) > 1 else key[0])
        self.assertEqual(type(found).__name__, name)
        for attribute, value in each.values.items():
            self.assertEqual(getattr(found, attribute), value, f"{name}.{attribute}")
            self._is_found(manager, module, each, attribute, value)
        for link, target in each.links.items():
            self.assertEqual(key_of(getattr(found, link), classes), target, f"{name}.{link}")
        for attribute, members in each.lists.items():
            self.assertEqual(_keys(getattr(found, attribute), classes), members, attribute)
        for attribute, owner in each.made.inverse.items():
            wanted = {
                it.key for it in stored
                if it.links.get(owner) == key or key in it.lists.get(owner, ())
            }
            self.assertEqual(_keys(getattr(found, attribute), classes), wanted, attribute)

        for attribute, owner in each.made.backs.items():
            back = getattr(found, attribute)
            told = [] if back is None else [key_of(back, classes)]
            self.assertEqual(told, [it.key for it in stored if it.links.get(owner) == key])

    def _is_found(
        self, manager: Any, module: ModuleType, each: Stored, attribute: str, value: Any
    ) -> None:
        """It is found by what it has."""
        if isinstance(value, (list, dict)):
            return
        where, given = f"e.{attribute} IS NULL", {}
        if isinstance(value, module.Spot):
            where, given = f"e.{attribute}.at = :v", {"v": value.at}
        elif value is not None:
            where, given = f"e.{attribute} = :v", {"v": value}
        for place, (path, part) in enumerate(zip(each.made.key.paths, each.key)):
            where += f" AND e.{path} = :k{place}"
            given[f"k{place}"] = part
        asked = f"SELECT e.{attribute} FROM {each.made.name} e WHERE {where}"
        self.assertEqual(manager.query(asked, **given), [value], asked)

    def _stays_unique(self, r: random.Random, app: Any, module: ModuleType, each: Stored) -> None:
        """No other object may have what is unique of it, together or alone."""
        for together in each.made.unique:
            values = _values(r, module, each.made)
            values.update((name, each.values[name]) for name in together)
            with self.assertRaises(NotUnique) as refused, app.begin() as manager:
                key = each.made.key.make(500, module)
                manager.persist(getattr(module, each.made.name)(**key, **values))
            for name in together:
                self.assertIn(name, str(refused.exception))


def _values(r: random.Random, module: ModuleType, made: Made) -> Dict[str, Any]:
    """A value of each attribute, of which some may be None."""
    return {
        name: None if name in made.optional and r.random() < 0.3 else maker(r, module)
        for name, maker in made.values.items()
    }


def _relate(
    r: random.Random, made: Made, own: Any, other: Any, objects: Dict[str, List[Any]]
) -> None:
    for link, target in made.links.items():
        setattr(own, link, r.choice(objects[target]))
    for link in made.pairs:
        setattr(own, link, other)
    for attribute, target in made.lists.items():
        for member in r.sample(objects[target], r.randrange(3)):
            getattr(own, attribute).append(member)


def _stored(made: Made, own: Any, values: Dict[str, Any], classes: Dict[str, Made]) -> Stored:
    if "noted" in values:  # Its validator shouts, and its callback hears of one persist.
        values = {**values, "noted": values["noted"].upper(), "heard": 1}
    links = {link: key_of(getattr(own, link), classes) for link in (*made.links, *made.pairs)}
    lists = {name: _keys(getattr(own, name), classes) for name in made.lists}
    return Stored(made, key_of(own, classes), values, links, lists)


def _keys(members: List[Any], classes: Dict[str, Made]) -> Set[Key]:
    return {key_of(each, classes) for each in members}
