"""Opening a store with classes: where they have changed since it was written it is opened all the
same, or brought over, or refused with what to do."""

from __future__ import annotations

import re
import sys
from contextlib import suppress
from dataclasses import replace
from pathlib import Path
from types import ModuleType
from typing import TYPE_CHECKING, Any, Callable, Dict, Iterable, Iterator, List, Mapping
from typing import NamedTuple, Optional, Sequence, Set, Tuple, Union

from ..told import shown
from ..refusals import Damaged, Refused
from ..wire.tally import LOGGER
from . import lock as locks
from .binding import Binding
from .columns import (
    DROPPED, Column, columns, misplaced, other_names, places, stored_forms, unknown,
)
from .declared import Declared, Given, Member, Model, declared_by
from .faults import NotBroughtOver
from .fields import MISSING
from .mapping import FORMS, mapping_of
from .types import Listed, StoredType, Unfit
from .unique import Constraint, Uniques, doubles, keyless, linked, make_keys, sweep

if TYPE_CHECKING:
    from ..session.factory import EntityManagerFactory
    from ..session.managers import EntityManager

Start = Callable[[Mapping[str, Any], Optional[Binding]], "EntityManagerFactory"]
_FORMS_OF = f"SELECT f.at, f.form FROM {FORMS} f"
_TOLD = 3
# So many values are divided by an UPDATE each, and so many objects are set at once.
_FEW, _AT_ONCE = 100, 5_000


class Made(NamedTuple):
    """What classes make: the model, its lock, the file of that with what it said before, and the
    mapping."""

    model: Model
    lock: locks.Lock
    file: Optional[Path]
    before: Optional[str]
    mapping: Dict[str, Any]


def make(
    given: Given, lock: Union[None, str, Path] = None, *, is_anew: bool = False
) -> Made:
    """What the classes of a module, or these, make, by the lock of a file, else of the one beside
    them, or by one that begins anew; nothing is written."""
    given = given if isinstance(given, ModuleType) else list(given)
    model = declared_by(given)
    file = Path(lock) if lock is not None else _beside(given, model)
    before = locks.text_of(file)
    made = locks.locked(model, locks.empty() if is_anew else locks.parsed(before, file))
    return Made(model, made, file, before, mapping_of(model, made))


def _beside(given: Given, model: Model) -> Optional[Path]:
    """The lock beside the module of classes; None where that is in no file."""
    name = next(iter(model.values())).kind.__module__
    module = given if isinstance(given, ModuleType) else sys.modules.get(name)
    file = getattr(module, "__file__", None)
    return Path(file).resolve().with_name(locks.NAME) if file else None


def open_classes(
    given: Given, lock: Union[None, str, Path], db: Optional[Path], start: Start
) -> EntityManagerFactory:
    """Opens a store with classes by what starts a program over a mapping, and writes their lock. A
    store in memory, which goes with the factory, or of a server leaves the lock as it is."""
    made = make(given, lock)
    if made.file is None and db is not None:
        raise ValueError(
            f"the classes are in no file, beside which {locks.NAME} would be: say where it is to "
            "be, as lock=\"karzhoul.lock.json\""
        )
    uniques = Uniques(made.model, made.lock)
    app = _opened(made, uniques, db, start)
    app.bind(uniques if uniques.all else None)
    return app


def _opened(
    made: Made, uniques: Uniques, db: Optional[Path], start: Start
) -> EntityManagerFactory:
    """A factory over a store that is as the classes say, whose lock is written."""
    binding = Binding(made.model)
    app, is_soft = _started(made, binding, db, start)
    try:
        unmade = _bring_over(app, made, uniques, db, is_soft)
        if is_soft:
            app.close()
            app = start(made.mapping, binding)
        # The keys go by many commits. Where they are stopped, the lock tells of what is stored.
        _make_keys(app, uniques, unmade)
    except BaseException:
        with suppress(Refused):
            app.close()
        raise
    return app


def _started(
    made: Made, binding: Binding, db: Optional[Path], start: Start
) -> Tuple[EntityManagerFactory, bool]:
    """A factory over the store, and whether it lets what is required be null: so it does where
    objects of before have nothing there."""
    try:
        return start(made.mapping, binding), False
    except Damaged as damaged:
        try:
            return start(mapping_of(made.model, made.lock, is_soft=True), None), True
        except Damaged:  # It is none of these classes, whatever may be null.
            stored = stored_forms(db) if db is not None else {}
            words = stored, str(made.file), str(db)
            faults = unknown(made.lock, *words) + other_names(made.model, made.lock, *words)
            faults += misplaced(made.model, made.lock, db) if db is not None else []
            raise (NotBroughtOver(faults) if faults else damaged) from None


def settle(app: EntityManagerFactory, made: Made) -> None:
    """Has a new store say its forms, and give each value that is unique its key, by a factory over
    any mapping of the same rows; a `NotBroughtOver` where two objects have one value."""
    uniques = Uniques(made.model, made.lock)
    _make_keys(app, uniques, _bring_over(app, made, uniques, None))


# ---- the commit


def _bring_over(
    app: EntityManagerFactory, made: Made, uniques: Uniques, db: Optional[Path],
    is_soft: bool = False,
) -> List[Constraint]:
    """Has a store be as the classes say, all of it in one commit before which all is judged, and
    answers what is unique whose keys are to be made.

    The lock is written right before that commit: a kill between the two leaves numbers that no row
    has yet, and never a row with a number that could be given to something else."""
    file = made.file if db is not None else None
    lock = locks.finished(made.lock)
    try:
        with app.begin() as manager:
            unmade = _changed(app, manager, made, uniques, db, is_soft)
            if file is not None:
                locks.write(file, lock, made.before)
    except Refused:  # Nothing of it is stored.
        if file is not None:
            locks.put_back(file, lock, made.before)
        raise
    return unmade


def _changed(
    app: EntityManagerFactory, manager: EntityManager, made: Made, uniques: Uniques,
    db: Optional[Path], is_soft: bool,
) -> List[Constraint]:
    """Has each column be in the form that its class says, and what is required be there; and what
    is unique whose keys are to be made."""
    stored: Dict[str, str] = {at: form for at, form in manager.query(_FORMS_OF)}
    _say_names(app, manager, made, stored, db)
    faults: List[str] = []
    unfit = _bring_forms(app, manager, made, stored, faults)
    filled = _fill_required(app, manager, made, faults) if is_soft else set()
    filled |= _fill_parts(app, manager, made, faults)
    unmade: List[Constraint] = []
    for each in uniques.dropped + uniques.all:
        before, is_on = stored.get(each.at), each in uniques.all
        names = {it.name for it in each.members}
        # What was stored by the mapping alone, as by a load, has no key. And where the making of
        # keys was stopped, some have keys that the store doesn't speak of.
        odd = manager.query(keyless(each) if is_on else linked(each), max=1)
        if before == (each.form if is_on else DROPPED) and not (names & filled or odd):
            continue
        if is_on and not names & unfit:
            faults += doubles(manager, each)
        manager.execute_update(f"UPDATE {each.entity} e SET e.{each.link} = NULL")
        _say_form(app, manager, each.at, DROPPED, is_new=before is None)
        unmade += [each] if is_on else []
    if faults:
        raise NotBroughtOver(faults)
    return unmade


def _say_names(
    app: EntityManagerFactory, manager: EntityManager, made: Made, stored: Mapping[str, str],
    db: Optional[Path],
) -> None:
    """Has the store say the name of each number; a `NotBroughtOver` where one is another's, by which
    nothing can be told of its values."""
    store = str(db or "the store")
    faults = other_names(made.model, made.lock, stored, str(made.file or "the lock"), store)
    if faults:
        raise NotBroughtOver(faults)
    for each in places(made.model, made.lock):
        if stored.get(each.row) != each.name:
            _say_form(app, manager, each.row, each.name, is_new=each.row not in stored)


# ---- what is required now


def _fill_required(
    app: EntityManagerFactory, manager: EntityManager, made: Made, faults: List[str]
) -> Set[str]:
    """Gives objects of before the defaults of what is required now, and answers the names of what
    was given."""
    return {
        member.name for entity, member in _required(made.model)
        if _fill(app, manager, entity, member, faults)
    }


def _fill(
    app: EntityManagerFactory, manager: EntityManager, entity: Declared, member: Member,
    faults: List[str], whole: Optional[Member] = None,
) -> bool:
    """Gives the objects of an entity that have none of an attribute its default, of a part of an
    embedded value those that have the value; whether there were any. Where it has no default, one
    more of the faults says which they are."""
    where = f"WHERE e.{member.name} IS NULL"
    if whole is not None:
        others = [f"e.{leaf.name} IS NOT NULL" for leaf in whole.leaves()]
        where += f" AND ({' OR '.join(others)})"
    count = manager.one(f"SELECT COUNT(e) FROM {entity.name} e {where}")
    if count and member.type is not None and member.field.has_default:
        told = f"{entity.name}.{member.said}"
        LOGGER.info("%s: %s objects get its default", told, f"{count:,}", extra={"objects": count})
        _give_default(app, manager, entity, member, where)
        return True
    if count:
        found = manager.query(f"SELECT e FROM {entity.name} e {where}", max=_TOLD)
        named = ", ".join(map(_named, found))
        there = f" where {whole.said} is there" if whole is not None else ""
        faults.append(
            f"{entity.name}.{member.said} may not be None{there}, and is in {count:,} stored: "
            f"{named}{', ..' if count > _TOLD else ''}. Give it a default, which these get "
            "at the next opening, or let it be .. | None, and fill it first"
        )
    return False


def _give_default(
    app: EntityManagerFactory, manager: EntityManager, entity: Declared, member: Member, where: str
) -> None:
    """Gives objects of an entity the default of an attribute, each its own where that is made for
    each."""
    assert member.type is not None
    if member.field.default_factory is None:
        manager.execute_update(
            f"UPDATE {entity.name} e SET e.{member.name} = :value {where}",
            value=member.type.to_stored(member.default),
        )
        return
    objects = manager.query(f"SELECT e FROM {entity.name} e {where}")
    fresh = ((each, member.type.to_stored(member.field.fresh())) for each in objects)
    _set_each(manager, f"{entity.name}.{member.said}", member.name, list(fresh))


def _set_each(manager: Any, what: str, name: str, values: Sequence[Tuple[Any, Any]]) -> None:
    """Sets a column of each of many objects, and says how many have it."""
    app, run = manager.factory, manager._run
    for start in range(0, len(values), _AT_ONCE):
        part = values[start : start + _AT_ONCE]
        app.tell_all(run, [run.set_line(each, name, value) for each, value in part])
        done, total = f"{start + len(part):,}", f"{len(values):,}"
        LOGGER.info("%s: %s of %s objects", what, done, total, extra={"objects": len(values)})
    manager.flush()
    manager.clear()  # Else they wouldn't see what an UPDATE gives them.


def _named(entity: Any) -> str:
    return str(entity).strip("<>")


def _required(model: Model) -> Iterator[Tuple[Declared, Member]]:
    for entity in model.values():
        for member in entity.members.values():
            if locks.is_stored(member) and not member.is_optional and (
                member.is_link or member.type is not None
            ):
                yield entity, member


def _fill_parts(
    app: EntityManagerFactory, manager: EntityManager, made: Made, faults: List[str]
) -> Set[str]:
    """Gives embedded values that may be None, and are there, the defaults of their required parts,
    whose columns must let these be null; and answers the names of what was given."""
    return {
        member.name for entity in made.model.values()
        for whole in _optional_wholes(entity.members.values())
        for member in _needed(whole)
        if _fill(app, manager, entity, member, faults, whole)
    }


def _optional_wholes(members: Iterable[Member]) -> Iterator[Member]:
    """The embedded values of members that may be None, also within others."""
    for each in members:
        if each.kind is not None and (each.part or each).is_optional:
            yield each
        yield from _optional_wholes(each.parts)


def _needed(whole: Member, default: Any = MISSING) -> Iterator[Member]:
    """What is stored of an embedded value wherever that is there, with the defaults that its class
    says, or that of a value that it is a part of."""
    for each in whole.parts:
        assert each.part is not None
        said = each.part.field
        if default is not MISSING:
            said = replace(said, default=vars(default)[each.part.name], default_factory=None)
        if each.kind is not None and not each.part.is_optional:
            yield from _needed(each, said.default)
        elif not each.part.is_optional:
            yield replace(each, field=said)


# ---- the forms of columns


def _bring_forms(
    app: EntityManagerFactory, manager: EntityManager, made: Made, stored: Mapping[str, str],
    faults: List[str],
) -> Set[str]:
    """Brings the columns whose stored form is another one over to that of their class, and answers
    the names of those that can't be; one more of the faults says of each why."""
    unfit: Set[str] = set()
    for column in columns(made.model, made.lock):
        before, form = stored.get(column.at), column.form
        if before == form:
            continue
        try:
            if before not in (None, DROPPED):
                told = f"{column.entity.name}.{column.was or column.name}"
                LOGGER.info("%s: what is stored as %s becomes %s", told, before, form)
            if form == DROPPED:
                _let_go(app, manager, column)
            elif before not in (None, DROPPED):
                _bring(manager, column, str(before))
        except Unfit as why:
            unfit.add(column.name)
            faults.append(f"{column.entity.name}.{column.name} is stored as {before}, and is "
                          f"{form} now: {why}")
            continue
        _say_form(app, manager, column.at, form, is_new=before is None)
    return unfit


def _say_form(
    app: EntityManagerFactory, manager: EntityManager, at: str, form: str, is_new: bool
) -> None:
    if is_new:
        manager.persist(app.new(FORMS, at=at, form=form))
    else:
        manager.get_reference(FORMS, at).form = form


def _make_keys(app: EntityManagerFactory, uniques: Uniques, unmade: List[Constraint]) -> None:
    """Makes the keys of what is unique that have none yet, each in the store's words once it has
    all; what is stopped on the way goes on at the next opening."""
    for each in unmade:
        make_keys(app, uniques, each)
        with app.begin() as manager:
            manager.get_reference(FORMS, each.at).form = each.form
    if uniques.all or uniques.dropped:
        sweep(app, uniques)


def _let_go(app: EntityManagerFactory, manager: EntityManager, column: Column) -> None:
    """Lets the values of a column go, or the members of a list."""
    name, path = column.entity.name, f"e.{column.name}"
    if "." in column.at:
        manager.execute_update(f"UPDATE {name} e SET {path} = NULL")
        return
    objects, run = manager.query(f"SELECT e FROM {name} e WHERE {path} IS NOT EMPTY"), manager._run
    app.ask_lines(run, [
        run.member_line("takeOut", each, column.name, member)
        for each, members in zip(objects, app.get_many(objects, column.name)) for member in members
    ])
    manager.flush()
    manager.clear()  # A later change of one would write all that it has been read with.


_OTHER = (
    "give the new one another name, with was=\"\", fill it from the old one, and take that away "
    "then"
)


def _bring(manager: Any, column: Column, before: str) -> None:
    """Brings a column over to the form of its attribute; `Unfit` says what is in the way."""
    old, new = scale_of(before), scale_of(column.form)
    if old is not None and new is not None:
        _rescale(manager, column, old, new)
    elif isinstance(column.type, Listed) and column.type.reads_others(before):
        raise Unfit("what is stored by name and by value has the same texts, each of another member. "
                    f"Take by_value() back as it was, and the order of the members; or {_OTHER}")
    elif column.type is not None and may_become(before, column.form):
        _check_values(manager, column, column.type)
    else:
        raise Unfit(f"the one can't be told from the other; {_OTHER}")


def scale_of(form: str) -> Optional[int]:
    """How many digits behind the point a form has; None where it is no number."""
    found = re.fullmatch(r"money\(([0-9]+)\)", form)
    return 0 if form == "int" else int(found[1]) if found else None


def _rescale(manager: Any, column: Column, old: int, new: int) -> None:
    """Has whole units be those of another scale, where all of them are whole there."""
    name, path, by = column.entity.name, f"e.{column.name}", 10 ** abs(new - old)
    if new < old:
        odd = f"SELECT e FROM {name} e WHERE MOD({path}, {by}) <> 0"
        found = manager.query(odd, max=_TOLD)
        if found:
            raise Unfit(f"{', '.join(map(_named, found))} has more digits than {new} behind the "
                        f"point: change it first, or {_OTHER}")
        _divide(manager, column, by)
        return
    bound = (2**63 - 1) // by
    large = manager.query(
        f"SELECT e FROM {name} e WHERE {path} > {bound} OR {path} < -{bound}", max=_TOLD
    )
    if large:
        raise Unfit(f"{', '.join(map(_named, large))} is too large for {new} digits behind the "
                    f"point: change it first, or {_OTHER}")
    manager.execute_update(f"UPDATE {name} e SET {path} = {path} * {by}")


def _divide(manager: Any, column: Column, by: int) -> None:
    # Queries have no division: each value that there is, once.
    name, path = column.entity.name, f"e.{column.name}"
    conversions, manager.factory.conversions = manager.factory.conversions, None
    try:
        has = f"{path} IS NOT NULL AND {path} <> 0"
        values = manager.query(f"SELECT DISTINCT {path} FROM {name} e WHERE {has}", max=_FEW + 1)
        if len(values) > _FEW:
            _divide_each(manager, column, by, f"WHERE {has}")
            return
        # A result may be a value that is still to be divided: those nearest to 0 come first.
        for value in sorted(values, key=abs):
            manager.execute_update(
                f"UPDATE {name} e SET {path} = :new WHERE {path} = :old", old=value,
                new=_quotient(value, by),
            )
    finally:
        manager.factory.conversions = conversions


def _divide_each(manager: Any, column: Column, by: int, where: str) -> None:
    """The same of each object by itself, where an UPDATE for each value would look at all of them
    too often; their versions stay, as an UPDATE leaves them."""
    entity = column.entity
    found = manager.query(f"SELECT e, e.{column.name} FROM {entity.name} e {where}")
    values = [(each, _quotient(value, by)) for each, value in found]
    _set_each(manager, f"{entity.name}.{column.name}", column.name, values)
    version = manager.factory._classes[entity.name]._karzhoul_version
    if version:
        manager.execute_update(
            f"UPDATE {entity.name} e SET e.{version} = e.{version} - 1 {where}"
        )


def _quotient(value: int, by: int) -> int:
    return abs(value) // by * (1 if value > 0 else -1)


def may_become(before: str, form: str) -> bool:
    """Whether what is stored in a form may be of another one, value by value."""
    own = re.split(r"[ (]", before)[0], re.split(r"[ (]", form)[0]
    if own[0] == own[1]:
        return own[0] != "datetime"  # An enum of other values, a json of another kind.
    if form == "text":
        return own[0] in ("date", "time", "datetime", "uuid", "json", "enum", "typed")
    if before == "text":
        return own[1] in ("date", "time", "uuid", "json", "enum", "typed", "datetime")
    if form == "int":
        return own[0] in ("bool", "enum", "typed")
    return before == "int" and own[1] in ("bool", "enum", "typed")


def _check_values(manager: Any, column: Column, kind: StoredType) -> None:
    """Each value that is stored is one of the type; else `Unfit` names one that isn't."""
    entity, path = column.entity, f"e.{column.name}"
    conversions, manager.factory.conversions = manager.factory.conversions, None
    try:
        asked = f"SELECT DISTINCT {path} FROM {entity.name} e WHERE {path} IS NOT NULL"
        for value in manager.query(asked):
            try:
                kind.from_stored(value)
            except Unfit as why:
                found = manager.query(
                    f"SELECT e FROM {entity.name} e WHERE {path} = :value", value=value, max=1
                )
                raise Unfit(f"{_named(found[0])} has {shown(value)}, which {why}: change it first, or "
                            f"{_OTHER}") from None
    finally:
        manager.factory.conversions = conversions
