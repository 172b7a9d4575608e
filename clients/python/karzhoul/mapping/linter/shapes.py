"""Whether a mapping has its shape: the members of each object, and their types."""

from __future__ import annotations

from dataclasses import dataclass
from typing import Dict, Mapping, Tuple

from ...wire.strict_json import Value
from .findings import Fault, Path, Teller
from .reading import VALUES, members, plain_of


@dataclass(frozen=True)
class Form:
    """What an object may hold: each member with its check; one whose name ends in `?` may be
    absent."""

    what: str
    members: Mapping[str, str]


_COMMON = {
    "name": "text",
    "discriminator?": "text",
    "attributes?": "list attribute",
    "relations?": "list relation",
    "listeners?": "list listener",
    "callbacks?": "list listener",
    "excludeDefault?": "flag",
    "excludeSuper?": "flag",
}
FORMS: Dict[str, Form] = {
    "mapping": Form(
        "mapping",
        {
            "revision": "integer", "listeners?": "list listener", "entities": "list entity",
            "functions?": "any",
        },
    ),
    "root": Form(
        "root entity",
        {
            "table": "integer", "key": "list part", "embedded?": "text", "generated?": "flag",
            "version?": "version", "dropped?": "list integer", **_COMMON,
        },
    ),
    "subclass": Form("subclass", {"extends": "text", **_COMMON}),
    "part": Form("key part", {"name": "text", "type": "type"}),
    "version": Form("version", {"name": "text", "column": "integer"}),
    "attribute": Form(
        "attribute",
        {
            "name": "text", "type": "type", "column": "integer", "required?": "flag",
            "converter?": "text", "since?": "integer", "default?": "value", "was?": "integer",
        },
    ),
    "relation": Form(
        "relation",
        {
            "name": "text", "kind": "kind", "target": "text", "column?": "integer",
            "joinTable?": "integer", "mappedBy?": "text", "required?": "flag",
            "cascade?": "list cascade", "orphanRemoval?": "flag",
        },
    ),
    "listener": Form("listener", {"name": "text", "events": "list text"}),
}
SIDES = ("column", "joinTable", "mappedBy")
WORDS: Dict[str, Tuple[str, ...]] = {
    "type": ("int", "text", "bytes"),
    "kind": ("manyToOne", "oneToMany", "oneToOne", "manyToMany"),
    "cascade": ("PERSIST", "MERGE", "REMOVE", "REFRESH", "DETACH", "ALL"),
}
_PLAIN: Dict[str, Tuple[type, str]] = {
    "text": (str, "a text"),
    "integer": (int, "a whole number of 64 bits"),
    "flag": (bool, "true or false"),
}


class Shape:
    """Whether each object has its members and no others, and each member is of its type."""

    def __init__(self, teller: Teller) -> None:
        self._teller = teller

    def mapping(self, root: Value) -> None:
        self._object("mapping", (), root)

    def _value(self, check: str, path: Path, value: Value) -> None:
        if check.startswith("list "):
            self._list(check[len("list ") :], path, value)
        elif check in WORDS:
            self._word(check, path, value)
        elif check == "value":
            if value.data is not None and plain_of(value) is None:
                self._tell(path, value, f"this must be {VALUES}")
        elif check in _PLAIN:
            kind, what = _PLAIN[check]
            if type(value.data) is not kind:
                self._tell(path, value, f"this must be {what}")
        elif check == "entity":
            is_subclass = isinstance(value.data, dict) and "extends" in value.data
            self._object("subclass" if is_subclass else "root", path, value)
        elif check != "any":
            self._object(check, path, value)

    def _list(self, check: str, path: Path, value: Value) -> None:
        if not isinstance(value.data, list):
            self._tell(path, value, "this must be a list")
            return
        for place, item in enumerate(value.data):
            self._value(check, (*path, place), item)

    def _word(self, check: str, path: Path, value: Value) -> None:
        if not isinstance(value.data, str) or value.data not in WORDS[check]:
            self._tell(path, value, f"this must be one of {', '.join(WORDS[check])}")

    def _object(self, name: str, path: Path, value: Value) -> None:
        form = FORMS[name]
        if not isinstance(value.data, dict):
            self._tell(path, value, f"{_one(form.what)} is an object")
            return
        checks = {member.rstrip("?"): check for member, check in form.members.items()}
        for member, item in value.data.items():
            if member in checks:
                self._value(checks[member], (*path, member), item)
            else:
                self._tell(
                    (*path, member),
                    item,
                    f"{_one(form.what)} has no member {member!r}; it may have {', '.join(checks)}",
                )
        for member in form.members:
            if not member.endswith("?") and member not in value.data:
                self._tell(path, value, f"the {form.what} lacks its member {member!r}")
        if name == "relation":
            self._side(path, value)

    def _side(self, path: Path, value: Value) -> None:
        given = [side for side in SIDES if side in members(value)]
        if len(given) != 1:
            self._tell(
                path,
                value,
                f"a relation has exactly one of {', '.join(SIDES)}, and not {len(given)} of them",
            )
        elif "required" in members(value) and given != ["column"]:
            self._tell(
                (*path, "required"), members(value)["required"],
                "'required' goes with 'column' alone",
            )

    def _tell(self, path: Path, value: Value, message: str) -> None:
        self._teller.tell(Fault.SHAPE, path, value, message)


def _one(what: str) -> str:
    return f"{'an' if what[0] in 'aeiou' else 'a'} {what}"
