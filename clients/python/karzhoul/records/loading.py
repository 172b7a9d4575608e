"""Files of records that are stored: many rows to a transaction, in the order of the file."""

from __future__ import annotations

from typing import Any, Callable, Dict, Iterator, List, Mapping, Optional, Sequence, Tuple

from ..refusals import Limit, ObjectLimit, OutOfMemory, Persistence, Refused, StoreFault
from ..session.factory import EntityManagerFactory
from ..told import with_article
from ..wire.lines import LifecycleEvent
from .dumping import Stored
from .plans import Plan, Terms
from .records import GREATEST, Key, Next, Record, Shape, named, shapes_of
from .sources import RowFault, Source
from .writing import Row, Writer

# Numbers of generated keys that no row has are given out by themselves where more than so many come
# before a row; and more than so many in all are refused, since each takes a call.
_SLICE = 10_000
MOST_UNUSED = 20_000_000
# What listeners hear of an object that is stored, and of one that is changed.
HEARD = (LifecycleEvent.PRE_PERSIST, LifecycleEvent.POST_PERSIST)
HEARD_OF_CHANGES = (*HEARD, LifecycleEvent.PRE_UPDATE, LifecycleEvent.POST_UPDATE)

Told = Callable[[int], None]


class Loader:
    """Stores the records of a file. `done` and `line` tell how far it is."""

    def __init__(
        self, mapping: Mapping[str, Any], source: Source, plan: Plan, terms: Terms
    ) -> None:
        self._mapping, self._shapes = mapping, shapes_of(mapping)
        self._source, self._plan, self._terms = source, plan, terms
        self.done, self.line = 0, 0
        # The class of each object that is stored, of the hierarchies that the file is about, and
        # the next numbers of those whose rows keep their generated keys.
        self._stored: Dict[str, Dict[Key, str]] = {}
        self._nexts: Dict[str, int] = {}
        # The last record of each hierarchy.
        self._last: Dict[str, Record] = {}

    def look(self, app: Optional[EntityManagerFactory]) -> None:
        """Looks at what is stored, if anything is; a `RowFault` at a row that can't be added."""
        tops = {*self._plan.held, *(self._shapes[target].top for target in self._plan.abroad)}
        self._nexts = {top: 1 for top in (*tops, *self._plan.nexts) if self._keeps(top)}
        if app is not None:
            stored = Stored(app)
            self._stored = {top: stored.classes(top) for top in tops}
            if self._nexts:
                self._nexts = {top: stored.next_number(top) for top in self._nexts}
                app._start_again()  # They were given out by that, and are given again.
        for target, keys in self._plan.abroad.items():
            self._look_abroad(target, keys)
        for top in self._plan.held:
            self._look_at_keys(top, self._nexts.get(top))

    def run(self, app: EntityManagerFactory, told: Told) -> None:
        """Stores all rows, and tells after each transaction how many there are. The mapping of the
        unit is `bare`, but for what is heard. A `RowFault` at a row that can't be stored: those up
        to `line` are stored then, which are `done` rows."""
        self._app = app
        self._writer = Writer(app, dict(self._nexts), self._terms.hears)
        transaction = self._writer.em.transaction()
        if self._terms.is_dry:
            transaction.begin()
        for batch in self._batches():
            self._store(batch)
            told(self.done)
        for top, number in self._plan.nexts.items():
            if top in self._nexts:
                self._give_out(top, number, self._last.get(top))
        if self._terms.is_dry:
            transaction.rollback()

    # ---- what the store has

    def _keeps(self, top: str) -> bool:
        is_told = top not in self._plan.keyless and not self._terms.new_keys
        return self._shapes[top].is_generated and is_told

    def _look_abroad(self, target: str, keys: Mapping[Key, Tuple[int, str]]) -> None:
        classes = self._stored.get(self._shapes[target].top, {})
        for key, (line, name) in keys.items():
            found = classes.get(key)
            if found is None:
                lacks = "which is neither stored nor in the file"
                raise self._fault(line, f"{name} leads to {named(target, key)}, {lacks}")
            if target not in self._shapes[found].chain:
                other = f"{named(found, key)}, which is no {target}"
                raise self._fault(line, f"{name} leads to {other}")

    def _look_at_keys(self, top: str, following: Optional[int]) -> None:
        """Looks whether each key can be that of its row."""
        if self._shapes[top].is_generated and following is None:
            return
        classes, unused = self._stored.get(top, {}), 0
        for key, (line, entity) in self._plan.held[top].items():
            found, number, why = classes.get(key), key[0], None
            if found is not None:
                why = self._why_stored(entity, found)
            elif following is not None and isinstance(number, int):
                unused += number - following
                why = _why_not_given(number, following, unused)
                following = number + 1
            if why:
                raise self._fault(line, f"{named(entity, key)}: {why}")

    def _why_stored(self, entity: str, found: str) -> Optional[str]:
        if not self._terms.updates:
            return "this key is stored already; --update gives that object the row's values"
        if found == entity:
            return None
        return f"the object of this key that is stored is {with_article(found)}"

    def _fault(self, line: int, why: str) -> RowFault:
        return self._source.fault(line, why)

    # ---- rows

    def _batches(self) -> Iterator[List[Row]]:
        """The rows that are stored together: none leads to a later one of another transaction."""
        batch: List[Row] = []
        until = 0
        for line, item in self._source.items():
            if isinstance(item, Next):
                continue
            row = self._row(line, item)
            # A transaction for all gives out the numbers within it.
            is_far = self._terms.size > 0 and self._gap(row, batch) > _SLICE
            if is_far and batch and batch[-1].line >= until:
                yield batch
                batch = []
            if is_far and not batch:
                self._give_out(row.shape.top, row.number(), item)
            batch.append(row)
            until = max(until, self._until(row))
            if line >= until and 0 < self._terms.size <= len(batch):
                yield batch
                batch = []
        if batch:
            yield batch

    def _row(self, line: int, record: Record) -> Row:
        shape = self._shapes[record.entity]
        is_named = record.key is not None and not (shape.is_generated and self._terms.new_keys)
        is_stored = is_named and record.key in self._stored.get(shape.top, {})
        return Row(line, record, shape, not is_stored)

    def _until(self, row: Row) -> int:
        """The last line of what a row leads to."""
        lines = [row.line]
        for member, key in row.record.targets(row.shape):
            held = self._plan.held.get(self._shapes[member.type].top, {})
            lines += [held[key][0]] if key in held else []
        return max(lines)

    def _gap(self, row: Row, batch: Sequence[Row]) -> int:
        """How many numbers are to be given out before a row's key, behind those of a batch, whose
        keys rise."""
        following = self._writer.nexts.get(row.shape.top)
        if not row.is_new or following is None:
            return 0
        mine = (each for each in reversed(batch) if each.is_new and each.shape.top == row.shape.top)
        last = next(mine, None)
        return row.number() - (following if last is None else last.number() + 1)

    def _groups(self, batch: Sequence[Row]) -> Iterator[List[Row]]:
        """Rows that can be written together, as few as can be."""
        group: List[Row] = []
        until = 0
        for row in batch:
            group.append(row)
            until = max(until, self._until(row))
            if row.line >= until:
                yield group
                group = []

    # ---- storing

    def _store(self, batch: List[Row]) -> None:
        if self._terms.is_dry:
            for group in self._groups(batch):
                self._try(group)
        else:
            self._commit(batch)
        self._writer.em.clear()
        self.done, self.line = self.done + len(batch), batch[-1].line
        self._last.update({row.shape.top: row.record for row in batch})

    def _try(self, group: List[Row], is_trial: bool = False) -> None:
        """Writes rows into the open transaction; a `RowFault` where they are refused."""
        try:
            self._writer.write(group, is_trial)
        except (Limit, OutOfMemory, StoreFault):
            raise
        except Refused as refused:
            raise self._blamed(group, refused) from refused

    def _commit(self, batch: List[Row]) -> None:
        """Stores rows in a transaction of their own."""
        nexts = dict(self._writer.nexts)

        def store() -> None:
            with self._writer.em.transaction():
                self._writer.write(batch)

        try:
            self._within_limits(store, nexts)
        except (Limit, OutOfMemory, StoreFault):
            raise
        except Refused as refused:
            raise self._found_fault(batch, refused) from refused

    def _within_limits(self, step: Callable[[], None], nexts: Dict[str, int]) -> None:
        """Does a step; where the run of the program has made all its objects, in the next run."""
        try:
            step()
        except ObjectLimit:
            if self._terms.is_dry:
                raise
            self._app._start_again()  # So that numbers which weren't stored are given again.
            self._writer.nexts = nexts
            self._writer.open()
            step()

    def _give_out(self, top: str, number: int, like: Optional[Record]) -> None:
        """Gives out the numbers of a hierarchy below this one."""
        is_left = True

        def give() -> None:
            nonlocal is_left
            is_left = self._writer.give_out(top, number, _SLICE, like)
            if not self._terms.is_dry:
                # A commit stores the next number.
                with self._writer.em.transaction():
                    pass

        while is_left:
            self._within_limits(give, dict(self._writer.nexts))

    # ---- faults

    def _found_fault(self, batch: List[Row], refused: Refused) -> RowFault:
        """The fault of a transaction that was refused: its rows are written again, as few together
        as can be, and given up."""
        if len(batch) == 1 or self._writer.line_of(refused):
            return self._blamed(batch, refused)
        transaction = self._writer.em.transaction().begin()
        try:
            for group in self._groups(batch):
                self._try(group, is_trial=True)
        except RowFault as fault:
            return fault
        finally:
            transaction.rollback()
        return self._blamed(batch, refused)

    def _blamed(self, rows: Sequence[Row], refused: Refused) -> RowFault:
        line = self._writer.line_of(refused)
        row = next((each for each in rows if each.line == line), rows[0])
        others = "" if line or len(rows) == 1 else f", or a row up to line {rows[-1].line}"
        why = _why(row.record, row.shape, refused, self._mapping)
        return self._fault(row.line, f"{row.record}{others}: {refused.word}{why}")


def _why_not_given(number: int, following: int, unused: int) -> Optional[str]:
    if number < following:
        given = f"{following - 1:,} was given out before, and generated keys rise"
        return f"{given}: --new-keys gives new ones, and has links follow"
    if number >= GREATEST:
        return "this number is never given"
    if unused > MOST_UNUSED:
        before = f"{unused:,} numbers before it are no row's, and each takes a call to give out"
        return f"{before}: --new-keys gives new ones, and leaves none out"
    return None


def _why(record: Record, shape: Shape, refused: Refused, mapping: Mapping[str, Any]) -> str:
    """What a refusal means of a row."""
    if not isinstance(refused, Persistence):
        return ""
    if refused.detail == "null":
        members = [*shape.values.values(), *shape.links.values()]
        given: Dict[str, object] = {**record.values, **record.links}
        null = [it.name for it in members if it.is_required and given.get(it.name) is None]
        return f": {' and '.join(null)} may not be null" if null else ""
    if refused.detail == "converter":
        entities = [entity for entity in mapping["entities"] if entity["name"] in shape.chain]
        attributes = [each for entity in entities for each in entity.get("attributes", ())]
        named = [each["name"] for each in attributes if "converter" in each]
        values = [f"{name} {record.values[name]!r}" for name in named if name in record.values]
        return f": a converter doesn't take {' or '.join(values)}" if values else ""
    return ": what it leads to has another owner" if refused.detail == "unique" else ""
