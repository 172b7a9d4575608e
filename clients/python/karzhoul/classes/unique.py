"""What keeps values unique.

Each value that is unique has a key: an object of an entity of its own (`mapping.UNIQUE`), to which
the object that has the value leads by a oneToOne, which the program has one object alone lead by.
Before a flush writes, the objects that it is about get the keys of their values, and a value that
another object has is refused. Two transactions that take one value make or change one key, and so
the second commit is refused.
"""

from __future__ import annotations

import hashlib
import json
from contextlib import suppress
from dataclasses import dataclass
from operator import attrgetter
from typing import TYPE_CHECKING, Any, Dict, Iterable, Iterator, List, Optional, Sequence, Set
from typing import Tuple

from ..objects.concern import Noted
from ..objects.entities import Entity
from ..jpql.statements import Bulk, read, tokens_of
from ..wire.lines import line_of, text_spelled
from ..wire.tally import LOGGER
from ..told import shown
from ..refusals import KarzhoulError, NotUnique, OptimisticLock, Refused, Rollback
from .checks import chain, member_of
from .declared import Member, Model
from .lock import Lock, root_of
from .mapping import UNIQUE, unique_link

if TYPE_CHECKING:
    from ..session.managers import EntityManager
    from ..session.pending import Due

# A longer value is told by its digest.
_LONGEST = 500
Keys = Dict[Entity, Optional[str]]


@dataclass(frozen=True)
class Constraint:
    """Attributes of an entity of which no two objects have the same values together."""

    entity: str
    members: Tuple[Member, ...]
    link: str
    """The relation that leads to the key."""
    at: str
    """What a store has it by: its table, and the column of the link."""

    @property
    def names(self) -> Tuple[str, ...]:
        """The names of the attributes, as their class has them."""
        return tuple(member.said for member in self.members)

    @property
    def form(self) -> str:
        """The form in which the values are stored that its keys were made of."""
        forms = ["link" if it.type is None else it.type.form for it in self.members]
        return f"unique {', '.join(forms)}"

    def key(self, parts: Sequence[Any]) -> Optional[str]:
        """The key of values as they are stored; None where one of them is null."""
        if any(part is None for part in parts):
            return None
        said = json.dumps(list(parts), ensure_ascii=False, default=_spelled)
        if len(said) > _LONGEST:
            return f"{self.at}#{hashlib.sha256(said.encode()).hexdigest()}"
        return f"{self.at}:{said}"


def _where_of(text: str) -> str:
    """The WHERE of a statement that can be read, with a blank before it; else nothing."""
    depth = 0
    for token in tokens_of(text):
        depth += token.is_mark("(") - token.is_mark(")")
        if depth == 0 and token.is_word("WHERE"):
            return f" {text[token.at :].strip()}"
    return ""


def _spelled(value: Any) -> Any:
    return {"hex": bytes(value).hex()}


class Uniques:
    """What is unique of a model, by the entity of an object."""

    def __init__(self, model: Model, lock: Lock) -> None:
        self.all: List[Constraint] = []
        self.dropped: List[Constraint] = []
        for entity in model.values():
            table = lock["entities"][root_of(lock, entity.name)]["table"]
            for each in lock["entities"][entity.name].get("unique", {}).values():
                is_dropped = each.get("dropped", False)
                found = [None if is_dropped else member_of(model, entity.name, name)
                         for name in each["of"]]
                (self.dropped if is_dropped else self.all).append(Constraint(
                    entity.name, tuple(it for it in found if it is not None),
                    unique_link(each["column"]), f"{table}.{each['column']}",
                ))
        self._of = {
            name: [it for it in self.all if it.entity in {up.name for up in chain(model, entity)}]
            for name, entity in model.items()
        }

    def of(self, name: str) -> List[Constraint]:
        """Those of the objects of an entity."""
        return self._of.get(name, [])


class Keeper:
    """Keeps the values of a manager's objects unique."""

    def __init__(self, manager: EntityManager, uniques: Uniques) -> None:
        self._manager, self._uniques = manager, uniques
        self._factory, self._run = manager.factory, manager._run
        # The keys that its transaction has taken, with the objects that have them.
        self._taken: Dict[str, Tuple[Constraint, Entity]] = {}
        # Those that it has left, of which a commit drops what nobody has; and what was to be dropped
        # with a commit that didn't come.
        self._left: Dict[str, Constraint] = {}
        self._dropped: Dict[str, Tuple[Constraint, Entity]] = {}
        # The keys that the manager has read, and those of transactions that are over, which others
        # may have changed since.
        self._read: Dict[Entity, None] = {}
        self._old: Dict[Entity, None] = {}

    def go_over(self) -> None:
        """The manager, which has no object, is one of another run."""
        self._run = self._manager._run
        self._read, self._old = {}, {}

    def over(self) -> None:
        """The transaction is over."""
        self._taken, self._left, self._dropped = {}, {}, {}
        self._old.update(self._read)
        self._read = {}
        self._run.noted.pop(self._manager.number, None)

    def settle(self, due: Sequence[Due], is_commit: bool) -> None:
        """Gives the objects that a flush is about the keys of their values; `NotUnique` where
        another object has one. With the events that the flush would tell."""
        if self._old:
            self._ask("detach", self._old)
            self._old = {}
        if self._dropped:
            self._ask("persist", [row for _, row in self._dropped.values()])
            self._left.update((key, it) for key, (it, _) in self._dropped.items())
            self._dropped = {}
        earlier = set(self._left)
        live, gone = self._touched(due)
        for each in self._uniques.all:
            owners, leaving = ([it for it in some if each in self._of(it)] for some in (live, gone))
            if owners or leaving:
                earlier -= self._settle(each, owners, leaving)
        if is_commit and self._left:
            self._drop(earlier)

    def _of(self, each: Entity) -> List[Constraint]:
        return self._uniques.of(type(each).__name__)

    def _touched(self, due: Sequence[Due]) -> Tuple[List[Entity], List[Entity]]:
        """The objects that a flush is about and that it leaves stored, and those that it removes.
        """
        noted = self._run.noted.get(self._manager.number) or Noted()
        live = self._objects(number for kind, number in due if kind != "PreRemove")
        gone = self._objects(number for kind, number in due if kind == "PreRemove")
        asked = self._objects([*noted.new, *noted.removed])
        for each, is_held in zip(asked, self._ask("contains", asked)):
            number = each._karzhoul_number
            if is_held and each not in gone:
                live[each] = None
            elif number in noted.removed:
                gone[each] = None
        return list(live), list(gone)

    def _objects(self, numbers: Iterable[int]) -> Dict[Entity, None]:
        """The objects of these numbers of which anything is unique, each once."""
        kinds = self._run.kinds
        perhaps = [
            it for it in dict.fromkeys(numbers)
            if (kind := kinds[it]) is None or self._uniques.of(kind.__name__)
        ]
        found = self._factory.objects(self._run, perhaps)
        return dict.fromkeys(it for it in found if self._of(it))

    def _ask(self, call: str, objects: Iterable[Entity]) -> List[Any]:
        """What a call of the manager answers of each object, of which no callback hears."""
        front, number = f'{{"call":"{call}","em":{self._manager._em},"object":', self._run.number
        lines = [f"{front}{number(each)}}}".encode() for each in objects]
        return self._factory.ask_lines(self._run, lines, is_quiet=True) if lines else []

    # ---- one constraint

    def _settle(
        self, constraint: Constraint, owners: List[Entity], leaving: List[Entity]
    ) -> Set[str]:
        """Has objects lead to the keys of their values; and the keys that they leave."""
        wanted = self.keys(constraint, owners)
        by_key: Dict[str, Entity] = {}
        for each, key in wanted.items():
            if key is not None and by_key.setdefault(key, each) is not each:
                raise self._refusal(constraint, each, by_key[key])
        held = self._held(constraint, [*owners, *leaving])
        moved = {it: key for it, key in wanted.items() if held.get(it, (None, None))[0] != key}
        rows = self.found(moved)
        leads = self._leading(constraint, rows.values())
        for each, key in moved.items():
            other = leads.get(rows[key]) if key in rows else None
            if other is not None and other not in wanted and other not in leaving:
                if not self._is_removed(other):
                    raise self._refusal(constraint, each, other)
        told = (held.get(it, (None, None))[0] for it in [*moved, *leaving])
        left = {key: constraint for key in told if key is not None}
        self._left.update(left)
        self.link(constraint, moved, rows)
        return set(left)

    def keys(self, constraint: Constraint, objects: Sequence[Entity]) -> Keys:
        """The key that each object is to have."""
        columns: List[List[Any]] = []
        values = self._factory._values(self._run, objects)
        for member in constraint.members:
            if member.type is None:
                columns.append(self._targets(member, objects))
            else:
                columns.append([
                    row[type(each)._karzhoul_places[member.name]]
                    for each, row in zip(objects, values)
                ])
        return {each: constraint.key(parts) for each, *parts in zip(objects, *columns)}

    def _targets(self, member: Member, objects: Sequence[Entity]) -> List[Any]:
        """The keys of what objects lead to."""
        lines = [self._run.get_line(each, member.name) for each in objects]
        targets: List[Optional[Entity]] = self._factory.ask_lines(self._run, lines, member.target)
        if {"ALL", "PERSIST"} & set(member.field.cascade):
            # The flush would give them their generated keys.
            new = [it for it in targets if it is not None and None in self._key(it)]
            self._ask("persist", dict.fromkeys(new))
        return [None if it is None else self._key(it) for it in targets]

    def _key(self, each: Entity) -> List[Any]:
        return self._factory.get_members(each, each._karzhoul_key[1])

    def _held(
        self, constraint: Constraint, objects: Sequence[Entity]
    ) -> Dict[Entity, Tuple[Optional[str], Optional[Entity]]]:
        """The key that objects have, with its object; what was let go before has none."""
        lines = [self._run.get_line(each, constraint.link) for each in objects]
        found = self._factory.ask_lines(self._run, lines, UNIQUE, is_quiet=True)
        rows = [it for it in found if isinstance(it, Entity)]
        self._read.update(dict.fromkeys(rows))
        told = dict(zip(rows, self._factory.get_many(rows, "at"))) if rows else {}
        return {each: (told.get(row), row) for each, row in zip(objects, found) if row in told}

    def found(self, moved: Keys) -> Dict[str, Entity]:
        """The objects of keys that are there, by the keys."""
        keys = [key for key in moved.values() if key is not None]
        rows = self._manager.find_many(UNIQUE, keys) if keys else []
        self._read.update(dict.fromkeys(row for row in rows if row is not None))
        return {key: row for key, row in zip(keys, rows) if row is not None}

    def _leading(
        self, constraint: Constraint, rows: Iterable[Entity]
    ) -> Dict[Entity, Entity]:
        """Which objects lead to keys, as the manager has written them."""
        rows = list(rows)
        text = text_spelled(
            f"SELECT e FROM {constraint.entity} e WHERE e.{constraint.link} = :k"
        )
        em, number = self._manager._em, self._run.number
        modes = [
            line_of("setFlushMode", {"em": em, "mode": text_spelled(mode)})
            for mode in ("COMMIT", self._manager._mode)
        ]
        asked = [
            line_of("query", {
                "em": em, "text": text, "params": f'{{"k":{{"object":{number(row)}}}}}'
            })
            for row in rows
        ]
        if not rows:
            return {}
        lines = [modes[0], *asked, modes[1]]
        answers = self._factory.ask_lines(self._run, lines, constraint.entity, is_quiet=True)[1:-1]
        for answer in answers:
            if isinstance(answer, Refused):
                raise answer
        return {row: found[0] for row, found in zip(rows, answers) if found}

    def _is_removed(self, other: Entity) -> bool:
        """Whether the flush removes an object that it had not read before, as an orphan."""
        due = self._manager._pending.asked(None) or []
        return ("PreRemove", other._karzhoul_number) in due

    def link(self, constraint: Constraint, moved: Keys, rows: Dict[str, Entity]) -> None:
        """Has objects lead to their keys, of which these are there; the others are made."""
        run, factory = self._run, self._factory
        wanted = {key: each for each, key in moved.items() if key is not None}
        lines = [run.set_line(rows[key], "taken", taken + 1) for key, taken in zip(
            rows, factory.get_many(list(rows.values()), "taken") if rows else ())]
        new = [key for key in wanted if key not in rows]
        kind = factory._classes[UNIQUE]
        made = factory.ask_lines(None, [kind._karzhoul_line] * len(new), UNIQUE) if new else []
        for key, row in zip(new, made):
            lines += [run.set_line(row, "at", key), run.set_line(row, "taken", 1)]
        if lines:  # By themselves, as their replies are taken in less time.
            factory.ask_lines(run, lines)
        front = f'{{"call":"persist","em":{self._manager._em},"object":'
        lines = [f"{front}{run.number(row)}}}".encode() for row in made]
        self._read.update(dict.fromkeys(made))
        rows = {**rows, **dict(zip(new, made))}
        lines += [
            run.set_line(each, constraint.link, None if key is None else rows[key])
            for each, key in moved.items()
        ]
        if lines:
            factory.ask_lines(run, lines)
        for key, each in wanted.items():
            self._taken[key] = constraint, each
            self._left.pop(key, None)

    def _drop(self, earlier: Set[str]) -> None:
        """Removes the keys that were left, and that nobody has. What earlier flushes left an object
        may have again, which was refreshed or detached after a refusal."""
        left, self._left = self._left, {}
        found = zip(left, self._manager.find_many(UNIQUE, left))
        rows = {key: row for key, row in found if row is not None}
        for each in self._uniques.all if earlier else ():
            unsure = [row for key, row in rows.items() if key in earlier and left[key] is each]
            had = self._had(each, unsure)
            rows = {key: row for key, row in rows.items() if row not in had}
        self._dropped = {key: (left[key], row) for key, row in rows.items()}
        for refused in self._ask("remove", rows.values()):
            if refused is not None:
                raise refused

    def _had(self, constraint: Constraint, rows: Sequence[Entity]) -> Set[Entity]:
        """Which of these keys an object has that the commit leaves stored."""
        if not rows:
            return set()
        leads = self._leading(constraint, rows)
        owners = list(leads.values())
        held = self._held(constraint, owners)
        return {
            row for (row, owner), is_held in zip(leads.items(), self._ask("contains", owners))
            if is_held and held.get(owner, (None, None))[1] is row
        }

    # ---- refusals

    def check_statement(self, text: str) -> None:
        """Refuses an UPDATE that sets what is unique beside its keys; a `ValueError` says so, and
        what to write in its place."""
        conversions = self._factory.conversions
        statement = read(text if conversions is None else conversions.flattened(text))
        if not isinstance(statement, Bulk) or statement.source.entity is None:
            return
        entity, name = statement.source.entity.said, statement.source.variable
        names = {each.name.said for each in statement.sets or ()}
        found = next((
            (each, member) for each in self._uniques.of(entity) for member in each.members
            if member.name in names
        ), None)
        if found is None:
            return
        each, member = found
        variable = name.said if name is not None else "e"
        select = f"SELECT {variable} FROM {entity} {variable}{_where_of(text)}"
        whole, _, part = member.said.partition(".")
        value = f"it.{whole}.replace({part}=..)" if part else ".."
        raise ValueError(
            f"an UPDATE sets {each.entity}.{member.said}, which is unique, and tells nobody of "
            "which objects, whose keys it would leave as they are: set it on each, as\n"
            f"    for it in manager.query(\"{select}\"):\n"
            f"        it.{whole} = {value}\n"
            "whose flush looks whether another one has the value"
        )

    def _refusal(
        self, constraint: Constraint, each: Entity, other: Entity, is_raced: bool = False
    ) -> NotUnique:
        values = [attrgetter(name)(each) for name in constraint.names]
        return NotUnique(constraint.entity, constraint.names, values, each, other, is_raced)

    def raced(self, refused: Rollback) -> Optional[NotUnique]:
        """The refusal of a commit that another one came before which took a value, in its words;
        None where it was another one."""
        if not isinstance(refused.cause, OptimisticLock):
            return None
        # Of what it has rolled back the manager has nothing, and so it reads what is committed.
        read: Dict[Entity, None] = {}
        with suppress(KarzhoulError, LookupError):
            keys = list(self._taken)
            found = zip(keys, self._manager.find_many(UNIQUE, keys))
            rows = {row: self._taken[key] for key, row in found if row is not None}
            read.update(dict.fromkeys(rows))
            try:
                for row, (constraint, each) in rows.items():
                    for other in self._leading(constraint, [row]).values():
                        read[other] = None
                        if self._key(other) != self._key(each):
                            return self._refusal(constraint, each, other, is_raced=True)
            finally:
                self._ask("detach", read)
        return None


# ---- a store


def doubles(manager: Any, constraint: Constraint) -> Iterator[str]:
    """What two stored objects have that is to be unique, the first of it."""
    paths = [f"e.{member.name}" for member in constraint.members]
    has = " AND ".join(f"{path} IS NOT NULL" for path in paths)
    found = manager.query(
        f"SELECT {', '.join(paths)}, COUNT(e) FROM {constraint.entity} e WHERE {has} "
        f"GROUP BY {', '.join(paths)} HAVING COUNT(e) > 1", max=1,
    )
    for *values, count in found:
        same = " AND ".join(f"{path} = :p{at}" for at, path in enumerate(paths))
        params = {f"p{at}": value for at, value in enumerate(values)}
        pair = manager.query(
            f"SELECT e FROM {constraint.entity} e WHERE {same}", params=params, max=2
        )
        names, told = ", ".join(constraint.names), ", ".join(map(_told, constraint.members, values))
        named = " and ".join(str(each).strip("<>") for each in pair)
        yield (f"{constraint.entity}.{names} is to be unique, and {count:,} objects have {told}: "
               f"{named}{', ..' if count > 2 else ''}. Give them other values first")


def _told(member: Member, value: Any) -> str:
    if member.type is None:
        return str(value).strip("<>")
    return shown(member.type.from_stored(value))


# So many objects get their keys in one commit, and a run that has made so many is restarted before.
_AT_ONCE, _DUE = 5_000, 500_000
_DROPPED_AT_ONCE = 500


def keyless(constraint: Constraint) -> str:
    """The query for the objects that have values, and no key of them."""
    has = " AND ".join(f"e.{member.name} IS NOT NULL" for member in constraint.members)
    return f"SELECT e FROM {constraint.entity} e WHERE e.{constraint.link} IS NULL AND {has}"


def linked(constraint: Constraint) -> str:
    """The query for the objects that have keys."""
    return f"SELECT e FROM {constraint.entity} e WHERE e.{constraint.link} IS NOT NULL"


def make_keys(app: Any, uniques: Uniques, constraint: Constraint) -> None:
    """Gives the objects of a store that have none the keys of their values, some at a time."""
    text, count, total = keyless(constraint), _AT_ONCE, 0
    what = f"{constraint.entity}.{', '.join(constraint.names)}"
    while count == _AT_ONCE:
        if app._run.made > _DUE:
            app.restart()
        with app.begin() as manager:
            objects = manager.query(text, max=_AT_ONCE)
            count = len(objects)
            keeper = Keeper(manager, uniques)
            moved = keeper.keys(constraint, objects)
            keeper.link(constraint, moved, keeper.found(moved))
        total += count
        told = "%s is unique: %s objects have got their keys"
        LOGGER.info(told, what, f"{total:,}", extra={"objects": total})


def sweep(app: Any, uniques: Uniques) -> None:
    """Drops the keys that no object has, as of what a DELETE removed."""
    known: Set[str] = set()
    with app.begin() as manager:
        count = sum(
            manager.one(f"SELECT COUNT(e) FROM {it.entity} e WHERE e.{it.link} IS NOT NULL")
            for it in uniques.all
        )
        if manager.one(f"SELECT COUNT(k) FROM {UNIQUE} k") == count:
            return
        for each in uniques.all:
            known.update(manager.query(f"SELECT k.at FROM {each.entity} e JOIN e.{each.link} k"))
        left = [at for at in manager.query(f"SELECT k.at FROM {UNIQUE} k") if at not in known]
    for start in range(0, len(left), _DROPPED_AT_ONCE):
        with app.begin() as manager:
            manager.execute_update(
                f"DELETE FROM {UNIQUE} k WHERE k.at IN :left",
                left=left[start : start + _DROPPED_AT_ONCE],
            )
