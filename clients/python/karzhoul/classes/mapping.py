"""The mapping that classes make, with the numbers of their lock."""

from __future__ import annotations

from typing import Any, Dict, List, Mapping, Sequence

from .declared import KINDS, OWN_ID, Declared, Member, Model
from .lock import FORMS_TABLE, UNIQUE_TABLE, Lock, Record, is_stored

FORMS, UNIQUE = "KarzhoulForm", "KarzhoulUnique"
"""The entities that have the form in which each column is stored, and a key for each value that is
unique."""
_FORMS_ENTITY: Dict[str, Any] = {
    "name": FORMS, "table": FORMS_TABLE, "key": [{"name": "at", "type": "text"}],
    "attributes": [{"name": "form", "type": "text", "column": 1, "required": True}],
}
# An object leads to the key of its value by a oneToOne, and so no other one does. With each object
# that gets it `taken` rises, so that two transactions that take one value change one key.
_UNIQUE_ENTITY: Dict[str, Any] = {
    "name": UNIQUE, "table": UNIQUE_TABLE, "key": [{"name": "at", "type": "text"}],
    "attributes": [{"name": "taken", "type": "int", "column": 1, "required": True}],
}


def mapping_of(model: Model, lock: Lock, is_soft: bool = False) -> Dict[str, Any]:
    """The mapping of a model. A soft one lets each value be null.

    What a class has no more stays in it, by a name of no attribute, so that its values stay in the
    store. So do classes that are gone, where rows of a class or links lead to them, or where they
    lead to others: else that could be removed, and the class couldn't come back. And so do those
    with generated keys, of which the store has the next number.
    """
    hidden = _hidden_entities(model, lock)
    entities = [_entity(model[name], lock, is_soft) for name in model]
    entities += [_gone_entity(name, lock) for name in hidden]
    is_unique = any("unique" in record for record in lock["entities"].values())
    own = [_FORMS_ENTITY, *([_UNIQUE_ENTITY] if is_unique else [])]
    return {"revision": 1, "entities": [*entities, *own]}


def _hidden_entities(model: Model, lock: Lock) -> List[str]:
    records: Dict[str, Record] = lock["entities"]
    found: Dict[str, None] = dict.fromkeys(model)
    found.update(dict.fromkeys(
        name for name, record in records.items()
        if record.get("key", {}).get("generated")
        or any(map(_is_link, [*record["members"].values(), *record.get("gone", ())]))
    ))
    size = -1
    while size != len(found):
        size = len(found)
        for name, record in records.items():
            if record.get("extends") in found:
                found[name] = None
            if name not in found:
                continue
            links = list(record.get("gone", ()))
            links += list(record["members"].values()) if name not in model else []
            found.update(dict.fromkeys(it["target"] for it in links if _is_link(it)))
            found.update({record["extends"]: None} if "extends" in record else {})
    return [name for name in found if name not in model]


def _is_link(record: Record) -> bool:
    return "target" in record


def _entity(entity: Declared, lock: Lock, is_soft: bool) -> Dict[str, Any]:
    record = lock["entities"][entity.name]
    said = _head(entity.name, record)
    said.update(_key(entity.key()))
    for version in entity.of("version"):
        said["version"] = {"name": version.name, "column": record["version"]}
    attributes, relations = [], []
    for member in entity.members.values():
        if member.field.sort in KINDS:
            relations.append(_relation(member, record, is_soft))
        elif is_stored(member):
            attributes.append(_attribute(member, record, is_soft))
    for each in record.get("gone", ()):
        _add_gone(each, attributes, relations)
    relations += _unique_links(record)
    return _with_members(said, attributes, relations)


def _unique_links(record: Record) -> List[Dict[str, Any]]:
    return [
        {"name": unique_link(each["column"]), "kind": "oneToOne", "target": UNIQUE,
         "column": each["column"], "cascade": ["MERGE"]}
        for each in record.get("unique", {}).values()
    ]


def unique_link(column: int) -> str:
    """The name in the mapping of the link to the keys of unique values."""
    return f"_unique_{column}"


def _key(parts: Sequence[Member]) -> Dict[str, Any]:
    """What a mapping says of a key of these parts, each named in its embedded id by its last step.
    """
    said: Dict[str, Any] = {}
    for part in parts:
        assert part.type is not None
        embedded, _, name = part.name.rpartition(".")
        if embedded:
            said["embedded"] = embedded
        if part.field.sort == "generated":
            said["generated"] = True
        said.setdefault("key", []).append({"name": name, "type": part.type.stored})
    return said


def _head(name: str, record: Record) -> Dict[str, Any]:
    said: Dict[str, Any] = {"name": name}
    if record["mark"] != name:
        said["discriminator"] = record["mark"]
    kept = "extends" if "extends" in record else "table"
    said[kept] = record[kept]
    return said


def _with_members(
    said: Dict[str, Any], attributes: List[Dict[str, Any]], relations: List[Dict[str, Any]]
) -> Dict[str, Any]:
    return {
        **said,
        **({"attributes": attributes} if attributes else {}),
        **({"relations": relations} if relations else {}),
    }


def _attribute(member: Member, record: Record, is_soft: bool) -> Dict[str, Any]:
    assert member.type is not None
    column = record["members"][member.name]["column"]
    said = {"name": member.name, "type": member.type.stored, "column": column}
    return said if member.is_optional or is_soft else {**said, "required": True}


def _relation(member: Member, record: Record, is_soft: bool) -> Dict[str, Any]:
    field = member.field
    said: Dict[str, Any] = {
        "name": member.name, "kind": KINDS[field.sort], "target": member.target,
    }
    stored: Mapping[str, Any] = record["members"].get(member.name, {})
    if field.mapped_by is not None:
        said["mappedBy"] = field.mapped_by
    elif "table" in stored:
        said["joinTable"] = stored["table"]
    else:
        said["column"] = stored["column"]
        if not member.is_optional and not is_soft:
            said["required"] = True
    if field.cascade:
        said["cascade"] = list(field.cascade)
    if field.orphan_removal:
        said["orphanRemoval"] = True
    return said


def _add_gone(
    each: Record, attributes: List[Dict[str, Any]], relations: List[Dict[str, Any]]
) -> None:
    """What a class has no more."""
    name = gone_name(each)
    if "table" in each:
        relations.append({
            "name": name, "kind": "manyToMany", "target": each["target"],
            "joinTable": each["table"],
        })
    elif "target" in each:
        relations.append({
            "name": name, "kind": "manyToOne", "target": each["target"], "column": each["column"],
        })
    else:
        attributes.append({"name": name, "type": each["type"], "column": each["column"]})


def gone_name(each: Record) -> str:
    """The name in the mapping of a member that its class has no more."""
    return f"_gone_list_{each['table']}" if "table" in each else f"_gone_{each['column']}"


def _gone_entity(name: str, lock: Lock) -> Dict[str, Any]:
    record = lock["entities"][name]
    said = _head(name, record)
    if "key" in record:
        types = record["key"]["type"].split(", ")
        said["key"] = [{"name": f"id{at or ''}", "type": it} for at, it in enumerate(types)]
        if len(types) > 1:
            said["embedded"] = OWN_ID
        if record["key"]["generated"]:
            said["generated"] = True
    if record.get("version"):
        said["version"] = {"name": "_version", "column": record["version"]}
    attributes: List[Dict[str, Any]] = []
    relations: List[Dict[str, Any]] = []
    for each in [*record["members"].values(), *record.get("gone", ())]:
        _add_gone(each, attributes, relations)
    relations += _unique_links(record)
    return _with_members(said, attributes, relations)

