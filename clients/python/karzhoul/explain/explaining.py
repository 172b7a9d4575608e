"""What can be told of a refusal beside its name: what is wrong with the query, the entity or the
member that its line names, and which objects a refused flush was about."""

from __future__ import annotations

import json
from itertools import islice
from typing import TYPE_CHECKING, Any, Callable, Dict, Iterable, Iterator, List, Mapping, Optional

from ..jpql.check import BYTES, INT, TEXT, Kind, Kinds, check
from ..mapping.meant import meant
from ..mapping.unit import EntityDescription, MemberKind, entities_of
from ..refusals import BadLine, KarzhoulError, Refused, Rollback, StoreFault
from ..told import with_article
from .culprits import Culprits
from .line_check import faults_of_line
from .meanings import meaning
from .statements import of_statement

if TYPE_CHECKING:
    from ..classes.naming import Naming
    from ..session.factory import EntityManagerFactory

# So many lines are told, and so many characters of each.
_MOST, _LONGEST = 10, 500
_KINDS = {"int": "a whole number", "text": "a text", "bytes": "bytes"}
_OF_QUERIES = {
    "IllegalArgument(syntax)", "IllegalArgument(typing)", "IllegalArgument(parameter)",
    "Limit(query)",
}
# Those of which the objects are looked at that they are about.
_ASKED: Dict[str, Callable[[Culprits], Iterable[str]]] = {
    "Persistence(null)": Culprits.null,
    "Persistence(reference)": Culprits.reference,
    "Persistence(unique)": Culprits.unique,
    "Persistence(converter)": Culprits.converter,
    "IllegalState(reference)": Culprits.unpersisted,
    "OptimisticLock": Culprits.stale,
    "EntityExists": Culprits.exists,
}


def explained(refused: Refused, factory: Optional[EntityManagerFactory]) -> str:
    """What can be told of a refusal: at the least what it means. Of another run than the one that
    is on, the numbers in its line are those of other objects, and it tells that alone."""
    if factory is not None and refused._run is not factory._run:
        return meaning(refused)
    told = [_cut(line) for line in islice(_told(refused, factory), _MOST + 1)]
    if len(told) > _MOST:
        told[_MOST:] = ["and so on"]
    return "\n".join(told) or meaning(refused)


def _cut(line: str) -> str:
    """A line without its middle, where that is long, as of a value that was handed in: it may stand
    in a log."""
    if len(line) <= _LONGEST:
        return line
    return f"{line[: _LONGEST - 100]} .. ({len(line):,} characters) .. {line[-100:]}"


def sentence(refused: Refused) -> Optional[str]:
    """What can be told of a refusal without asking the program; None where it would be asked, and
    where nothing is known but its word."""
    cause = refused.cause if isinstance(refused, Rollback) else None
    word = (cause or refused).word
    if word in _ASKED or isinstance(refused, StoreFault) or type(refused) is Refused:
        return None
    try:
        return refused.explain()
    except RecursionError:  # As of a text of thousands of NOT, which the program reads.
        return meaning(refused)


def _told(refused: Refused, factory: Optional[EntityManagerFactory]) -> Iterator[str]:
    if isinstance(refused, BadLine):
        language = "profile" if factory is None else factory.language
        yield from faults_of_line(refused.line, language)
    elif factory is not None:
        said = _said(refused.line)
        if refused.word in _OF_QUERIES:
            yield from _of_query(refused, said, factory)
        if refused.name == "IllegalArgument":
            yield from _of_argument(refused.detail, said, factory)
        elif refused.word == "IllegalState(unfetched)":
            yield from _of_unread(said, factory)
        elif refused.word in _ASKED:
            # (within a pipeline, and once the program has ended, nothing can be asked)
            found = [] if factory.turn is None else _of_objects(refused, said, factory)
            yield from found or _of_statement(refused, said, factory)


def _of_query(
    refused: Refused, said: Mapping[str, Any], factory: EntityManagerFactory
) -> Iterator[str]:
    if isinstance(said.get("text"), str):
        entities, told = entities_of(factory.mapping), _naming(factory).told
        found = check(said["text"], entities, _kinds(said, factory), factory.language)
        yield from (told(str(each)) for each in found)
        if not found and refused.detail == "syntax":
            yield (
                "the program can't read the text, in which the client finds nothing wrong: it may be "
                "older than what the text has; 'karzhoul --version' tells which one is started"
            )


def _of_statement(
    refused: Refused, said: Mapping[str, Any], factory: EntityManagerFactory
) -> Iterator[str]:
    if said.get("call") == "executeUpdate":
        entities, told = entities_of(factory.mapping), _naming(factory).told
        yield from map(told, of_statement(refused.detail or "", said, entities))


def _naming(factory: EntityManagerFactory) -> Naming:
    from ..classes.naming import Naming

    return Naming({} if factory.binding is None else factory.binding.model)


def _of_argument(
    detail: Optional[str], said: Mapping[str, Any], factory: EntityManagerFactory
) -> Iterator[str]:
    """What is wrong with what a line hands in."""
    entity, name = str(said.get("entity")), str(said.get("name"))
    if detail == "entity":
        yield f"there is no entity {entity!r}{meant(entity, factory._classes)}"
    if detail == "key" and entity in factory._classes:
        yield from _of_key(entities_of(factory.mapping)[entity], said.get("key"), factory)
    kind = factory._kinds[said.get("object", 0)]
    if kind is None:
        return
    members = {it.name: it for it in entities_of(factory.mapping)[kind.__name__].members}
    if detail in ("key", "version"):
        yield f"{kind.__name__}.{name} can't be set: the object is not new any more"
    elif detail == "name" and name in members:
        is_collection = members[name].kind is MemberKind.COLLECTION
        way = "is a collection: add and takeOut change it" if is_collection else "is no collection"
        yield f"{kind.__name__}.{name} {way}"
    elif detail == "name":
        near = meant(name, members) or f"; it has {', '.join(members)}"
        yield f"{kind.__name__} has no member {name!r} of that sort{near}"
    elif detail == "type" and name in members and members[name].kind is not MemberKind.COLLECTION:
        wanted = members[name].type
        word = _KINDS.get(wanted) or with_article(wanted)
        yield f"{kind.__name__}.{name} is {word}, and not {_given(said.get('value'), factory)}"
    elif detail == "type" and name in members:
        other = factory._kinds[said.get("member", 0)]
        told = "no other object" if other is None else f"no {other.__name__}"
        yield f"{kind.__name__}.{name} is a list of {members[name].type}, and takes {told}"


def _of_unread(said: Mapping[str, Any], factory: EntityManagerFactory) -> Iterator[str]:
    """Which relation of a detached object wasn't read before."""
    kind = factory._kinds[said.get("object", 0)]
    if kind is not None and "name" in said:
        yield (
            f"{kind.__name__}.{said['name']} wasn't read before its object was detached: read it while "
            "it is managed, or find the object again"
        )


def _of_key(
    entity: EntityDescription, given: Any, factory: EntityManagerFactory
) -> Iterator[str]:
    """What keeps values from being a key of an entity."""
    parts = entity.key
    if not isinstance(given, list) or len(given) != len(parts):
        many = len(given) if isinstance(given, list) else 0
        count = "1 value was" if many == 1 else f"{many or 'no'} values were"
        yield f"the key of {entity.name} is {', '.join(part.name for part in parts)}: {count} given"
        return
    for part, value in zip(parts, given):
        if not _is_of(part.type, value):
            wanted = _KINDS[part.type]
            yield f"{entity.name}.{part.name} is {wanted}, and not {_given(value, factory)}"


def _is_of(wanted: str, value: Any) -> bool:
    if isinstance(value, dict):
        return wanted == "bytes" and "hex" in value
    return isinstance(value, {"int": int, "text": str}.get(wanted, bytes))


def _given(value: Any, factory: EntityManagerFactory) -> str:
    if isinstance(value, dict) and "object" in value:
        kind = factory._kinds[value["object"]]
        return with_article(kind.__name__) if kind else "another object"
    if isinstance(value, dict):
        return f"bytes ({value.get('hex')})"
    return repr(value)


def _of_objects(
    refused: Refused, said: Mapping[str, Any], factory: EntityManagerFactory
) -> List[str]:
    """The objects that a refusal is about."""
    culprits = Culprits(factory, refused)
    number = said.get("object")
    try:
        found = culprits.of([number]) if number else []
        if refused.name == "EntityExists" and found:
            return list(culprits.persisted(found[0]))
        if refused.word == "OptimisticLock" and said.get("call") == "merge" and found:
            return list(culprits.merged(found[0]))
        return list(_ASKED[refused.word](culprits))
    except (KarzhoulError, LookupError):  # As where 16 managers are open.
        return []


def _said(line: str) -> Mapping[str, Any]:
    """What a line says; nothing where that can't be read."""
    try:
        said = json.loads(line)
    except ValueError:
        return {}
    return said if isinstance(said, dict) else {}


def _kinds(said: Mapping[str, Any], factory: EntityManagerFactory) -> Kinds:
    """The kinds of a query's parameters."""
    return {
        name: [_kind(each, factory) for each in value] if isinstance(value, list)
        else _kind(value, factory)
        for name, value in said.get("params", {}).items()
    }


def _kind(value: Any, factory: EntityManagerFactory) -> Optional[Kind]:
    if isinstance(value, dict) and "object" in value:
        kind = factory._kinds[value["object"]]
        if kind is None:
            return None
        entities = entities_of(factory.mapping)
        root = entities[kind.__name__]
        while root.superclass is not None:
            root = entities[root.superclass]
        return Kind(root.name, True)
    if isinstance(value, dict):
        return BYTES
    return None if value is None else INT if isinstance(value, int) else TEXT
