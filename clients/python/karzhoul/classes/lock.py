"""The numbers of classes and attributes, which a store knows them by, in a file that is kept with
the classes: each keeps its number for ever, also once its class has it no more."""

from __future__ import annotations

import copy
import fcntl
import json
import os
from contextlib import contextmanager, suppress
from pathlib import Path
from typing import Any, Dict, Iterator, List, Optional, Tuple

from .declared import TO_MANY, Declared, Member, Model
from .faults import Faults, NotBroughtOver
from .keys import lock_key
from .renaming import Claim, refuse, words_of, written

NAME = "karzhoul.lock.json"
FORMAT = 1
FORMS_TABLE, UNIQUE_TABLE = 1_000_000, 999_999
"""The tables of the forms of columns and of the keys of unique values, which no entity has."""
Record = Dict[str, Any]
Lock = Dict[str, Any]


def empty() -> Lock:
    """A lock of no classes."""
    return {"lock": FORMAT, "entities": {}}


def read(file: Optional[Path]) -> Lock:
    """The lock of a file, as `parsed` says."""
    return parsed(text_of(file), file)


def parsed(text: Optional[str], file: Optional[Path]) -> Lock:
    """The lock that a file says, an empty one where there is none; a `ValueError` where it is no
    lock."""
    if text is None or file is None:
        return empty()
    try:
        said = json.loads(text)
    except ValueError as fault:
        raise ValueError(f"{file} is no lock: {fault}") from None
    if not isinstance(said, dict) or said.get("lock") != FORMAT:
        raise ValueError(f"{file} is no lock of the format {FORMAT}")
    _check_numbers(said, file)
    return said


def _check_numbers(lock: Lock, file: Path) -> None:
    """Two branches may have given one number, each to its own."""
    tables: Dict[int, str] = {}
    columns: Dict[Tuple[str, int], str] = {}
    for name, record in lock["entities"].items():
        top = root_of(lock, name)
        told = [(("", record["table"]), name)] if "table" in record else []
        told += [((top, record["version"]), f"{name}'s version")] if record.get("version") else []
        for member, stored in _stored(record):
            place = ("", stored["table"]) if "table" in stored else (top, stored["column"])
            told.append((place, f"{name}.{member}"))
        for (where, number), what in told:
            before = (tables.setdefault(number, what) if where == ""
                      else columns.setdefault((where, number), what))
            if before is not what:
                raise ValueError(
                    f"{file}: {before} and {what} have one number, {number}: give the one that no "
                    "store has yet the next free number"
                )


def _stored(record: Record) -> Iterator[Tuple[str, Record]]:
    yield from record["members"].items()
    for each in record.get("gone", ()):
        yield each["name"], each
    for each in record.get("unique", {}).values():
        yield f"unique {', '.join(each['of'])}", each


def write_anew(file: Path, lock: Lock) -> None:
    """Writes a lock, whatever the file said before, by one rename."""
    _put(file, _text(lock))


def write(file: Path, lock: Lock, before: Optional[str]) -> None:
    """Writes a lock in the place of the one that it was made of; a `NotBroughtOver` where another
    opening wrote that meanwhile, which may have given the same numbers to others."""
    said = _text(lock)
    if said == before:
        return
    with _held(file):
        if text_of(file) not in (before, said):
            raise NotBroughtOver([f"{file} was written by another opening meanwhile, whose numbers "
                                  "this one doesn't know: open again"])
        _put(file, said)


def put_back(file: Path, lock: Lock, before: Optional[str]) -> None:
    """Has a file that `write` wrote say again what it said before, or be gone where it wasn't
    there."""
    with _held(file):
        if text_of(file) != _text(lock):
            return
        if before is None:
            file.unlink()
        else:
            _put(file, before)


def text_of(file: Optional[Path]) -> Optional[str]:
    """What a file says; None where there is none."""
    return file.read_text(encoding="utf-8") if file is not None and file.exists() else None


def _text(lock: Lock) -> str:
    return json.dumps(lock, indent=1, ensure_ascii=False) + "\n"


@contextmanager
def _held(file: Path) -> Iterator[None]:
    """Has no other process, nor thread, write the locks of a folder."""
    folder = os.open(file.parent, os.O_RDONLY)
    try:
        with suppress(OSError):  # Not each file system has locks.
            fcntl.flock(folder, fcntl.LOCK_EX)
        yield
    finally:
        os.close(folder)


def _put(file: Path, said: str) -> None:
    if text_of(file) == said:
        return
    new = file.with_name(f"{file.name}.{os.getpid()}")
    try:
        with new.open("w", encoding="utf-8") as out:
            out.write(said)
            out.flush()
            os.fsync(out.fileno())  # It stands before what the store is told next.
        os.replace(new, file)
    except BaseException:
        new.unlink(missing_ok=True)
        raise


def root_of(lock: Lock, name: str) -> str:
    """The entity at the top of a hierarchy."""
    while "extends" in lock["entities"][name]:
        name = lock["entities"][name]["extends"]
    return name


def locked(model: Model, before: Lock) -> Lock:
    """The lock of a model, with the numbers of before; a `DeclarationError` has each change that
    must be said, and how."""
    faults = Faults()
    lock = copy.deepcopy(before)
    told = _rename_entities(model, lock, faults)
    faults.tell()
    numbers = _Numbers(lock)
    for entity in model.values():
        _lock_entity(model, lock, entity, told[entity.name], numbers, faults)
    faults.tell()
    left = {entity.name: _leave(lock, entity) for entity in model.values()}
    claims = _claims(model, lock, left, faults)
    for entity in model.values():
        _refuse(entity, claims[entity.name], left[entity.name], faults)
        made: Dict[str, Record] = {}
        for name, claim in claims[entity.name].items():
            member = entity.members[name]
            if claim.record is None:
                _refuse_new(entity, member, claim, left[entity.name], faults)
            made[name] = _lock_member(entity, member, claim, numbers, faults)
        record = lock["entities"][entity.name]
        record["members"] = {name: made[name] for name in [*record["members"], *made]}
    for entity in model.values():
        for each in left[entity.name]:
            if _is_dropped(each["name"], entity):
                each["cleared"] = True
        if gone := left[entity.name]:
            lock["entities"][entity.name]["gone"] = sorted(gone, key=lambda it: str(it["name"]))
    faults.tell()
    for entity in model.values():
        _lock_unique(model, lock, entity, numbers)
    for name, record in lock["entities"].items():
        record.pop("dropped", None)
        if name not in model:
            record["dropped"] = True
    return lock


def _is_dropped(name: str, entity: Declared) -> bool:
    """Whether the class lets the values of a member go, or those of the embedded value that it is
    of."""
    return name in entity.dropped or name.partition("__")[0] in entity.dropped


# ---- entities


def _rename_entities(model: Model, lock: Lock, faults: Faults) -> Dict[str, Record]:
    """Has what a lock has be of the names that classes have now, and answers what it is to know of
    these."""
    records: Dict[str, Record] = lock["entities"]
    claims = [
        Claim(it.name, it.was or "", records.get(it.name), records.get(it.was or ""))
        for it in model.values()
    ]
    refuse(claims, lambda name, why: faults.add(model[name].kind, None, why))
    now = {id(it.record): it for it in claims if it.record is not None}
    lost = {name for name, record in records.items()
            if id(record) not in now and not record.get("dropped")}
    for claim in claims:
        entity = model[claim.name]
        near = _like(records, lost, entity) if claim.record is None and entity.was != "" else ""
        if near:
            faults.add(entity.kind, None, f"{_new(claim)} and has the attributes of {near}, which "
                       f"is gone: where it is renamed write class {entity.name}(.., was=\"{near}\")"
                       ", else was=\"\"")
    names = {
        old: now[id(record)].name if id(record) in now else old for old, record in records.items()
    }
    lock["entities"] = {names[old]: _renamed(it, names) for old, it in records.items()}
    return {it.name: it.remembered() for it in claims}


def _new(claim: Claim) -> str:
    return f"is new (the lock has no {words_of(claim.was)})" if claim.was else "is new"


def _renamed(record: Record, names: Dict[str, str]) -> Record:
    """A record that leads to others by the names that they have now."""
    for each in [record, *(it for _, it in _stored(record))]:
        for word in ("extends", "target"):
            if word in each:
                each[word] = names[each[word]]
    return record


def _like(records: Dict[str, Record], lost: "set[str]", entity: Declared) -> str:
    """A class that is gone of which this one has most attributes."""
    own = {name for name, member in entity.members.items() if is_stored(member)}
    for name in sorted(lost):
        members = set(records[name]["members"])
        if members and 2 * len(members & own) > len(members):
            return name
    return ""


def _lock_entity(
    model: Model, lock: Lock, entity: Declared, told: Record, numbers: _Numbers, faults: Faults
) -> None:
    record = lock["entities"].get(entity.name)
    key = entity.key()
    version = next(iter(entity.of("version")), None)
    if record is None:
        place: Record = {"extends": entity.parent} if entity.parent else {"table": numbers.table()}
        record = {"mark": _mark(lock, entity.name), **place, "members": {}}
        lock["entities"][entity.name] = record
        if version is not None:
            record["version"] = numbers.column(entity.name)
    elif record.get("extends") != entity.parent:
        faults.add(entity.kind, None, f"extended {record.get('extends', 'Entity')} before, and "
                   f"extends {entity.parent or 'Entity'} now: {_other_base(model, record)}")
    elif bool(record.get("version")) != (version is not None):
        faults.add(entity.kind, None, "has a version where it had none, or none where it had one: "
                   "an entity keeps that for good. Take the change back, or bring the store over by "
                   "karzhoul migrate (docs/OPERATING.md)")
    if "says" not in told:
        record.pop("says", None)
    record.update(told)
    if key:
        lock_key(record, key, faults)


def _other_base(model: Model, record: Record) -> str:
    """What to do where a class extends another one than before."""
    swapped = [name for name in record.get("was", ()) if name in model]
    if swapped:
        return (f"it swapped its name with {swapped[0]} before. Two that are to change their names "
                "once more do so by a third name, in three openings")
    return ("its rows are of a table for good. Let it be a new class, by another name and was=\"\", "
            "and carry its objects over (docs/OPERATING.md)")


def _mark(lock: Lock, name: str) -> str:
    """The text that marks rows of a class: its name, unless a renamed one has that."""
    marks = {record["mark"] for record in lock["entities"].values()}
    while name in marks:
        name += "_"
    return name


class _Numbers:
    """The numbers that are free in a lock: none of them is one that it had as it was read."""

    def __init__(self, lock: Lock) -> None:
        self._lock, self._table = lock, 0
        self._columns: Dict[str, int] = {}
        for name, record in lock["entities"].items():
            told = [record, *(it for _, it in _stored(record))]
            self._table = max(self._table, *(it.get("table", 0) for it in told))
            columns = [record.get("version", 0), *(it.get("column", 0) for it in told)]
            top = root_of(lock, name)
            self._columns[top] = max(self._columns.get(top, 0), *columns)

    def table(self) -> int:
        """The next table."""
        self._table += 1
        return self._table

    def column(self, name: str) -> int:
        """The next column of the hierarchy that an entity is of."""
        top = root_of(self._lock, name)
        self._columns[top] = self._columns.get(top, 0) + 1
        return self._columns[top]


# ---- what is unique


def _lock_unique(model: Model, lock: Lock, entity: Declared, numbers: _Numbers) -> None:
    """The link of each list of unique attributes to its keys, by the columns of these, which stay
    where an attribute is renamed. One that isn't unique any more keeps its number."""
    record = lock["entities"][entity.name]
    known: Dict[str, Record] = record.setdefault("unique", {})
    for each in known.values():
        each["dropped"] = True
    for names in entity.unique:
        columns = ",".join(_place_of(model, lock, entity, name) for name in names)
        if columns not in known:
            known[columns] = {"column": numbers.column(entity.name)}
        known[columns] = {"column": known[columns]["column"], "of": list(names)}
    if not known:
        del record["unique"]


def _place_of(model: Model, lock: Lock, entity: Declared, name: str) -> str:
    """What an attribute of an entity is known by, whatever its name: its column, or its place in
    the key."""
    from .checks import chain

    each = next(it for it in chain(model, entity) if name in it.members)
    member, key = each.members[name], each.key()
    if member in key:
        return f"key{key.index(member)}"
    return str(lock["entities"][each.name]["members"][name]["column"])


# ---- members


def is_stored(member: Member) -> bool:
    """Whether a member has a number of its own."""
    field = member.field
    if field.sort in ("embedded", "key", "generated", "version", "one_to_many"):
        return False
    return field.mapped_by is None


def _said(member: Member) -> Record:
    if member.type is not None:
        return {"form": member.type.form, "type": member.type.stored}
    return {"target": member.target, "many": member.field.sort in TO_MANY}


def _leave(lock: Lock, entity: Declared) -> List[Record]:
    """Takes what the class has no more out of its record, and answers that."""
    record = lock["entities"][entity.name]
    left: List[Record] = list(record.pop("gone", []))
    stored = {name for name, member in entity.members.items() if is_stored(member)}
    for name in [name for name in record["members"] if name not in stored]:
        left.append({"name": name, **record["members"].pop(name), "now": True})
    return left


def _claims(
    model: Model, lock: Lock, left: Dict[str, List[Record]], faults: Faults
) -> Dict[str, Dict[str, Claim]]:
    """What the stored members of classes go on with, which isn't left then."""
    claims = {entity.name: _own_claims(lock, entity, left) for entity in model.values()}
    _take(claims, left)
    for entity in model.values():
        _claim_others(model, lock, entity, claims[entity.name], left, faults)
    _refuse_two(model, claims, left, faults)
    _take(claims, left)
    return claims


def _own_claims(lock: Lock, entity: Declared, left: Dict[str, List[Record]]) -> Dict[str, Claim]:
    """What the stored members of a class go on with of what it has or had itself."""
    found: Dict[str, Claim] = {}
    for member in filter(is_stored, entity.members.values()):
        was = (member.field.was if member.field.was != member.name else None) or ""
        own, other = (_own(lock, entity, left, name) for name in (member.name, was))
        found[member.name] = Claim(member.name, was, own, other)
    return found


def _claim_others(
    model: Model, lock: Lock, entity: Declared, claims: Dict[str, Claim],
    left: Dict[str, List[Record]], faults: Faults,
) -> None:
    """Has members also go on with what another class of their hierarchy has no more, and none of
    its own does, where that isn't to go."""

    def moved(member: Member, name: str) -> Optional[Record]:
        found = {
            where: record for where, record in _of_others(lock, entity, left, name).items()
            if not _is_dropped(name, model[where])
        }
        if len(found) > 1:
            told = " and ".join(f"{where}.{words_of(name)}" for where in found)
            was = written("", name)
            faults.add(member.writer, member.said, f"would be {told}, each with values of its own: "
                       f"keep all but one in its class, by another name, with was=\"{was}\" there, or "
                       f"let it go by dropped=(\"{was}\",) behind its base, {_MIGRATE}")
        return next(iter(found.values()), None)

    for name, claim in claims.items():
        member = entity.members[name]
        other = claim.other or moved(member, claim.was)
        own = claim.own or (moved(member, name) if other is None else None)
        claims[name] = Claim(name, claim.was, own, other)


_MIGRATE = "or bring the store over by karzhoul migrate, which takes all (docs/OPERATING.md)"


def _refuse_two(
    model: Model, claims: Dict[str, Dict[str, Claim]], left: Dict[str, List[Record]],
    faults: Faults,
) -> None:
    """Refuses members of two classes that would go on with one of a third class."""
    places = {id(it): f"{where}.{words_of(it['name'])}" for where, gone in left.items()
              for it in gone}
    takers: Dict[int, Tuple[str, str]] = {}
    for where, found in claims.items():
        for name, claim in found.items():
            at = id(claim.record)
            first = takers.setdefault(at, (where, name))
            if at in places and first[0] != where:
                member = model[where].members[name]
                faults.add(member.writer, member.said, f"would be {places[at]}, and so would "
                           f"{first[0]}.{words_of(first[1])}: leave it where it was, {_MIGRATE}")


def _take(claims: Dict[str, Dict[str, Claim]], left: Dict[str, List[Record]]) -> None:
    """Takes what members go on with out of what is left."""
    taken = {id(it.record) for found in claims.values() for it in found.values()}
    for gone in left.values():
        gone[:] = [each for each in gone if id(each) not in taken]


def _own(
    lock: Lock, entity: Declared, left: Dict[str, List[Record]], name: str
) -> Optional[Record]:
    """What a class has, or had, by a name."""
    known: Optional[Record] = lock["entities"][entity.name]["members"].get(name)
    return known or next((it for it in left[entity.name] if it["name"] == name), None)


def _of_others(
    lock: Lock, entity: Declared, left: Dict[str, List[Record]], name: str
) -> Dict[str, Record]:
    """What other classes of the hierarchy have no more by a name, by these."""
    top = root_of(lock, entity.name)
    return {
        where: each for where, gone in left.items() if root_of(lock, where) == top
        for each in gone if each["name"] == name and each.get("now")
    }


def _refuse(
    entity: Declared, claims: Dict[str, Claim], left: List[Record], faults: Faults
) -> None:
    """Refuses each was= that isn't carried out."""
    gone = {each["name"] for each in left if each.get("now")}
    for member in entity.members.values():
        if member.kind is None and not is_stored(member) and member.field.was in gone:
            faults.add(member.writer, member.said, f"has was=\"{member.field.was}\", and isn't "
                       "stored as that was: take was= away; what is stored there stays so")

    def add(name: str, why: str) -> None:
        member = entity.members[name]
        faults.add(member.writer, member.said, why)

    refuse(list(claims.values()), add, ", or let it go, by an opening before without {name} "
           "and with dropped=(\"{name}\",) behind the class's base")


def _lock_member(
    entity: Declared, member: Member, claim: Claim, numbers: _Numbers, faults: Faults
) -> Record:
    said, known = _said(member), claim.record
    if known is None:
        number = {"table": numbers.table()} if said.get("many") else {
            "column": numbers.column(entity.name)}
        return {**number, **said, **claim.remembered()}
    if known.get("type") != said.get("type") or known.get("many") != said.get("many"):
        faults.add(member.writer, member.said, f"is stored as {_words(said)}, and was stored as "
                   f"{_words(known)}: give the new one another name, with was=\"\", and fill it "
                   "from the old one before that goes")
    elif known.get("target") != said.get("target"):
        faults.add(member.writer, member.name, f"leads to {said['target']}, and led to "
                   f"{known['target']}: give the new one another name, with was=\"\"")
    kept = {name: known[name] for name in ("table", "column") if name in known}
    return {**kept, **said, **claim.remembered()}


def _refuse_new(
    entity: Declared, member: Member, claim: Claim, left: List[Record], faults: Faults
) -> None:
    """Asks of a member that is new whether it is what the class has no more, which nobody says."""
    said = _said(member)
    gone = [each for each in left if each.get("now") and not _is_dropped(each["name"], entity)]
    lost = [each["name"] for each in gone if each.get("type") == said.get("type") and
            each.get("target") == said.get("target")]
    if claim.was and not member.path:
        lost += [each["name"] for each in gone]
    if lost and member.field.was != "":
        name = claim.was or member.name
        before = _before(name, lost)
        faults.add(member.writer, member.said, f"{_new(claim)}, and {words_of(before)} is gone: "
                   f"where it is renamed write was=\"{written(name, before)}\" in its "
                   "word, and where not, was=\"\" there; the values of "
                   f"{words_of(before)} stay in the store")


def _before(name: str, lost: List[str]) -> str:
    """What a member was, of those that are gone: of a part of an embedded value the same part, or
    else another one of the same value."""
    front, _, part = name.rpartition("__")
    same = [each for each in lost if each.rpartition("__")[2] == part]
    beside = [each for each in lost if front and each.rpartition("__")[0] == front]
    return [*same, *beside, *lost][0]


def _words(said: Record) -> str:
    return str(said.get("form") or ("a list" if said.get("many") else "a link"))


def finished(lock: Lock) -> Lock:
    """A lock as it is written."""
    made = copy.deepcopy(lock)
    for record in made["entities"].values():
        for each in [record, *(it for _, it in _stored(record))]:
            each.pop("again", None)
            each.pop("now", None)
    return made
