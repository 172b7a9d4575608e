"""The two sides of a migration: a mapping, or classes, with what is known of the values' types."""

from __future__ import annotations

import json
from dataclasses import dataclass, field
from pathlib import Path
from types import ModuleType
from typing import Any, Dict, Mapping, Optional, Tuple, Union

from ..classes.changes import Made, make
from ..classes.declared import Member as ClassMember
from ..classes.faults import DeclarationError
from ..classes.mapping import UNIQUE, gone_name
from ..classes.types import StoredType
from ..mapping.given import WrongMapping, given_of
from ..mapping.linter import lint
from ..records.records import Shape, shapes_of
from ..mapping.unit import OWN_ENTITIES
from .forms import type_of
from .names import shown

Place = Tuple[str, str]
"""An entity and a member of it."""


@dataclass
class Side:
    """One side. `types` are those of values and keys that aren't stored as they are."""

    word: str
    mapping: Dict[str, Any]
    given: Union[ModuleType, Dict[str, Any]]
    made: Optional[Made] = None
    shapes: Dict[str, Shape] = field(default_factory=dict)
    types: Dict[Place, StoredType] = field(default_factory=dict)
    _members: Dict[str, Dict[str, ClassMember]] = field(default_factory=dict)

    def __post_init__(self) -> None:
        described = {**self.mapping, "entities": [
            _without_keys(each) for each in self.mapping["entities"]
            if each["name"] not in OWN_ENTITIES
        ]}
        self.shapes = shapes_of(described)
        for name in self.shapes if self.made else ():
            members = self.class_members(name).values()
            for leaf in (leaf for each in members for leaf in each.leaves()):
                if leaf.type is not None:
                    self.types[name, leaf.name] = leaf.type

    def class_members(self, entity: str) -> Dict[str, ClassMember]:
        """The members of a class of this name, with those of what it extends; none where there are
        no classes."""
        if entity not in self._members:
            found: Dict[str, ClassMember] = {}
            model = self.made.model if self.made else {}
            declared = model.get(entity)
            while declared is not None:
                found = {**declared.members, **found}
                declared = model.get(declared.parent or "")
            self._members[entity] = found
        return self._members[entity]

    def shown(self, entity: str, name: str) -> str:
        """The name of a member as its class has it, or had it, of a part of an embedded value its
        path; of a mapping by hand that of the mapping."""
        if self.made:
            said = {leaf.name: leaf.said for it in self.class_members(entity).values()
                    for leaf in it.leaves()}
            gone = {gone_name(it): str(it["name"]) for each in self.shapes[entity].chain
                    for it in self.made.lock["entities"][each].get("gone", ())}
            return {**gone, **said}.get(name, name)
        return shown(name) if self._is_of_classes else name

    @property
    def _is_of_classes(self) -> bool:
        return any(it["name"] in OWN_ENTITIES for it in self.mapping["entities"])

    def take_forms(self, stored: Mapping[str, str]) -> None:
        """Takes note of the forms that a store says its columns have, by table and column: those of
        a mapping that classes made."""
        entities = {each["name"]: each for each in self.mapping["entities"]}
        for name in self.shapes if self.made is None else ():
            chain = [entities[each] for each in self.shapes[name].chain]
            for each in (it for entity in chain for it in entity.get("attributes", ())):
                form = stored.get(f"{chain[-1]['table']}.{each['column']}")
                if form is not None:
                    self.types[name, each["name"]] = type_of(form, each["type"])


def _without_keys(entity: Dict[str, Any]) -> Dict[str, Any]:
    """An entity without the links to the keys of unique values, which the classes make anew."""
    relations = [it for it in entity.get("relations", ()) if it["target"] != UNIQUE]
    return {**entity, "relations": relations}


def mapped(word: str) -> Side:
    """The side of a mapping file, or of a module whose lock fits; a `WrongMapping` says what is
    wrong."""
    given = given_of(word)
    if isinstance(given, ModuleType):
        return _of_classes(word, given)
    data = Path(given).read_bytes()
    findings = lint(data).findings
    if findings:
        raise WrongMapping("\n".join(f"{word}:{finding}" for finding in findings))
    mapping = json.loads(data)
    return Side(word, mapping, mapping)


def mapped_anew(word: str, lock: Optional[str]) -> Side:
    """The side of what a store is brought over to. Classes that can't be of the lock that there is
    begin one anew, since the file is new too."""
    given = given_of(word)
    if not isinstance(given, ModuleType):
        return mapped(word)
    try:
        return _of_classes(word, given, lock)
    except WrongMapping:
        return _of_classes(word, given, lock, is_anew=True)


def _of_classes(
    word: str, module: ModuleType, lock: Optional[str] = None, is_anew: bool = False
) -> Side:
    try:
        made = make(module, lock, is_anew=is_anew)
    except (DeclarationError, TypeError) as fault:
        raise WrongMapping(str(fault)) from fault
    return Side(word, made.mapping, module, made)
