"""The JSON Schema of mappings, by which editors complete them, tell what a member is, and underline
what can't stand where it does. Its forms are those of the linter, which finds more."""

from __future__ import annotations

from typing import Any, Dict, List

from ..wire.lines import LifecycleEvent
from ..wire.strict_json import GREATEST_INTEGER, LEAST_INTEGER
from .linter import MOST_ENTITIES, MOST_KEY_PARTS, MOST_MEMBERS, MOST_NUMBER, REVISIONS
from .linter.functions import MAKES
from .linter.rules import SIDES_OF
from .linter.shapes import FORMS, SIDES, WORDS

Schema = Dict[str, Any]

_NAME = "^[A-Za-z_][A-Za-z0-9_]{0,63}$"
_REF = "#/definitions/"
# What each member is, by its form; those of all entities are said once.
_SAID: Dict[str, Dict[str, str]] = {
    "mapping": {
        "revision": "The revision of the mapping: 1 for a first one.",
        "listeners": "Functions that hear of the objects of all entities, before their own do.",
        "entities": "What is stored: classes of objects. One of its own table is a root, and one "
                    "that extends another is a subclass.",
        "functions": "The listeners and converters that the mapping names, and what they do.",
    },
    "root": {
        "table": "A number of its own. The store knows the entity by it: it stays as it is.",
        "key": "The parts of the key, by which an object is found; several need an embedded id.",
        "embedded": "The name of the embedded id, whose members are the parts of the key.",
        "generated": "Whether the key is a number that is given when a new object is stored.",
        "version": "A number that rises with each change of an object. A commit sees by it that "
                   "another one came first.",
        "dropped": "Columns of an earlier revision that are there no more.",
    },
    "subclass": {"extends": "The entity above: this one has its key, version and members too."},
    "entity": {
        "name": "The name of the class.",
        "discriminator": "The text that marks its rows in the store, in the place of its name. A "
                         "class that is renamed keeps the name of before here.",
        "attributes": "The values of an object.",
        "relations": "What objects lead to: one object, or many.",
        "listeners": "Functions that hear of its objects.",
        "callbacks": "Functions that hear of its objects, after the listeners.",
        "excludeDefault": "Whether the listeners of the mapping hear nothing of its objects.",
        "excludeSuper": "Whether the listeners of the classes above hear nothing of its objects.",
    },
    "part": {"name": "The name of the part.", "type": "The type of its values, never null."},
    "version": {"name": "The name of the version.", "column": "A column of its own."},
    "attribute": {
        "name": "The name of the attribute.",
        "type": "The type of its values: int is a whole number of 64 bits, text and bytes have at "
                "most 65,535 bytes.",
        "column": "A number of its own in the hierarchy. The store knows the attribute by it.",
        "required": "Whether it may not be null in what is stored.",
        "converter": "The function by which its value is stored.",
        "since": "The revision with which it came, where that isn't the first.",
        "default": "What objects of before have, of an attribute that is new.",
        "was": "Its column in the revision before, where that was another one.",
    },
    "relation": {
        "name": "The name of the relation.",
        "kind": "How many lead to how many. A manyToOne and a oneToOne lead to one object, a "
                "oneToMany and a manyToMany to many.",
        "target": "The entity that it leads to.",
        "column": "The side of a link that is stored: a column of its own in the hierarchy.",
        "joinTable": "The side of a manyToMany that is stored: a table of its own.",
        "mappedBy": "The other side: the name of the target's relation that is stored.",
        "required": "Whether the link may not be null in what is stored.",
        "cascade": "Which operations go on along it to what it leads to.",
        "orphanRemoval": "Whether an object that leaves the relation is removed.",
    },
    "listener": {"name": "One of the functions.", "events": "What it hears of."},
}
_MADE = {
    "set_text": "assigns a text to an attribute",
    "copy": "assigns one attribute to another",
    "count": "assigns to an attribute one more than it has",
    "require": "throws where an attribute is null",
    "note": "does nothing, but events have its name",
    "flip": "stores n as -1-n",
    "table": "stores the first of each pair as the second, and throws for any other value",
    "hextext": "stores bytes as the text of their digits",
}
_PLAIN: Dict[str, Schema] = {
    "text": {"type": "string"},
    "integer": {"type": "integer", "minimum": LEAST_INTEGER, "maximum": GREATEST_INTEGER},
    "flag": {"type": "boolean"},
    "any": {"type": "array", "items": {"$ref": f"{_REF}function"}},
    "value": {"$ref": f"{_REF}value"},
    "entity": {"$ref": f"{_REF}entity"},
}
_NUMBER: Schema = {"type": "integer", "minimum": 1, "maximum": MOST_NUMBER}
_OWN: Dict[str, Schema] = {
    "name": {"type": "string", "pattern": _NAME},
    "embedded": {"type": "string", "pattern": _NAME},
    "converter": {"type": "string", "pattern": _NAME},
    "table": _NUMBER,
    "column": _NUMBER,
    "joinTable": _NUMBER,
    "was": _NUMBER,
    "dropped": {"type": "array", "items": _NUMBER},
    "revision": {"enum": list(REVISIONS)},
    "since": {"enum": list(REVISIONS[1:])},
    "entities": {
        "type": "array", "minItems": 1, "maxItems": MOST_ENTITIES,
        "items": {"$ref": f"{_REF}entity"},
    },
    "key": {
        "type": "array", "minItems": 1, "maxItems": MOST_KEY_PARTS,
        "items": {"$ref": f"{_REF}part"},
    },
    "events": {
        "type": "array", "uniqueItems": True,
        "items": {"enum": [event.value for event in LifecycleEvent]},
    },
}
"""What the rules say of a member beyond its form, wherever it stands."""


def mapping_schema() -> Schema:
    """The schema, of draft 7."""
    definitions = {name: _form(name) for name in FORMS if name != "mapping"}
    definitions["entity"] = {
        "if": {"required": ["extends"]},
        "then": {"$ref": f"{_REF}subclass"},
        "else": {"$ref": f"{_REF}root"},
    }
    definitions["relation"].update(_sides())
    definitions["value"] = {"anyOf": [_PLAIN["integer"], _PLAIN["text"], _hex()]}
    definitions["function"] = {"oneOf": [_function(make) for make in MAKES]}
    return {
        "$schema": "http://json-schema.org/draft-07/schema#",
        "title": "A mapping of Karzhoul",
        "description": "Which entities are stored, and how. docs/MAPPINGS.md has all rules, and "
                       "'karzhoul check' tells which a mapping breaks.",
        **_form("mapping"),
        "definitions": definitions,
    }


def _form(name: str) -> Schema:
    form = FORMS[name]
    members = {member.rstrip("?"): check for member, check in form.members.items()}
    said = {**_SAID["entity"], **_SAID[name]} if name in ("root", "subclass") else _SAID[name]
    return {
        "type": "object",
        "properties": {each: _member(each, check, said[each]) for each, check in members.items()},
        "required": [member for member in form.members if not member.endswith("?")],
        "additionalProperties": False,
    }


def _member(name: str, check: str, said: str) -> Schema:
    return {"description": said, **_OWN.get(name, _checked(check))}


def _checked(check: str) -> Schema:
    if check.startswith("list "):
        most = {"maxItems": MOST_MEMBERS} if check in ("list attribute", "list relation") else {}
        return {"type": "array", "items": _checked(check[len("list ") :]), **most}
    if check in WORDS:
        return {"enum": list(WORDS[check])}
    return _PLAIN.get(check, {"$ref": f"{_REF}{check}"})


def _sides() -> Schema:
    """What goes with which kind of relation."""
    kinds: List[Schema] = []
    for kind, sides in SIDES_OF.items():
        held: Schema = {"anyOf": [{"required": [side]} for side in sides]}
        if kind not in ("oneToOne", "oneToMany"):
            held["properties"] = {"orphanRemoval": {"enum": [False]}}
        kinds.append({"if": {"properties": {"kind": {"enum": [kind]}}}, "then": held})
    one = [{"required": [side]} for side in SIDES]
    return {"oneOf": one, "dependencies": {"required": ["column"]}, "allOf": kinds}


def _hex() -> Schema:
    digits = {"type": "string", "pattern": "^([0-9a-fA-F]{2})*$"}
    return {
        "type": "object",
        "properties": {"hex": digits},
        "required": ["hex"],
        "additionalProperties": False,
    }


def _function(make: str) -> Schema:
    is_listener, own = MAKES[make]
    value = {"$ref": f"{_REF}value"}
    pair = {"type": "array", "minItems": 2, "maxItems": 2, "items": value}
    members: Schema = {
        "name": {"type": "string", "description": "The name by which the mapping names it."},
        "make": {"enum": [make], "description": _MADE[make]},
    }
    for name in own:
        members[name] = {"type": "array", "items": pair} if name == "pairs" else _PLAIN["text"]
    return {
        "type": "object",
        "title": f"a {'listener' if is_listener else 'converter'}: {_MADE[make]}",
        "properties": members,
        "required": list(members),
        "additionalProperties": False,
    }
