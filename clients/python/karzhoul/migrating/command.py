"""The command `migrate .. --from`: a store that is brought over to another mapping or other
classes."""

from __future__ import annotations

import argparse
import importlib.util
import sys
from pathlib import Path
from types import ModuleType
from typing import Any, Dict, Iterator, List, Optional

from ..session import opening
from ..session.factory import EntityManagerFactory
from ..classes.columns import other_names
from ..classes.faults import NotBroughtOver
from ..classes.mapping import FORMS
from ..records.dumping import Stored
from ..store.finding import find_program
from ..mapping.given import WrongMapping
from ..store.migration import outlook
from ..records.progress import Progress
from ..records.records import bare
from ..refusals import Damaged, KarzhoulError, Misused
from ..refusals import Mapping as MappingRefused
from .bringing import MOST_FAULTS, Bringer
from .feeding import Feed
from .judging import judge
from .olds import OldStore
from .places import Places
from .plans import Plan, planned
from .sides import mapped, mapped_anew
from .singles import Singles
from .writing import NewStore, carrying

WRONG, REFUSED = 1, 3
_FORMS_OF = f"SELECT f.at, f.form FROM {FORMS} f"


def run(said: argparse.Namespace) -> int:
    """Brings a store over, or tells what would be done; 1 where something can't be brought over or
    a mapping is wrong, 3 where the program refuses the store or the new one."""
    db = Path(said.db)
    if not db.is_file():
        raise FileNotFoundError(f"there is no file {db}")
    try:
        old, new = mapped(said.before), mapped_anew(said.mapping, said.lock)
        plan = planned(old, new, _functions(said.functions), said.drop)
    except WrongMapping as fault:
        print(fault, file=sys.stderr)
        return WRONG
    except KeyError as fault:
        raise Misused(str(fault.args[0])) from fault
    places = Places(db, said.copy, new.made.file if new.made else None)
    if places.is_put() and not said.plan:
        places.finish()
        print(f"{db} was brought over by a run before, which was stopped; it is done now")
        return 0
    try:
        return _Migration(said, plan, places).run()
    except (MappingRefused, Damaged) as refused:
        more = f"\n  {refused.explain()}" if isinstance(refused, Damaged) else ""
        again = f"; {places.kept} is there, so a run before may have brought it over"
        print(f"karzhoul: {refused}{more}\n{db} is as it was"
              f"{again if places.kept.exists() else ''}", file=sys.stderr)
        return REFUSED


def _functions(name: Optional[str]) -> Optional[ModuleType]:
    """The module of functions, of a name or a file."""
    if name is None:
        return None
    if not name.endswith(".py"):
        return importlib.import_module(name)
    path = Path(name).resolve()
    spec = importlib.util.spec_from_file_location(path.stem, path)
    if spec is None or spec.loader is None or not path.is_file():
        raise FileNotFoundError(f"there is no module {name}")
    module = importlib.util.module_from_spec(spec)
    sys.path.insert(0, str(path.parent))
    spec.loader.exec_module(module)
    return module


class _Migration:
    """One run of the command over a store."""

    def __init__(self, said: argparse.Namespace, plan: Plan, places: Places) -> None:
        self._said, self._plan, self._places = said, plan, places
        self._program = find_program(said.program)
        # How many objects there are of each class, and how many have what goes.
        self._counts: Dict[str, int] = {}
        self._lost: Dict[str, int] = {}

    def run(self) -> int:
        self._refuse_older()
        app = self._held()
        try:
            store = self._look(app)
            faults = self._plan.faults() + self._told_lost(app)
            print("\n".join(self._told()))
            if faults:
                return self._stopped(faults)
            if self._said.plan:
                return self._tried(app, store)
            self._places.clean()
            made = self._plan.new.made
            self._places.begin(made.lock if made is not None else None)
            status = WRONG
            try:
                status = self._bring(app, store)
                if status == 0:
                    self._places.put()
            finally:
                # Once it is put in place, the next run does what is left.
                if not self._places.is_put():
                    self._places.give_up()
            if status != 0:
                return status
            app.program.kill()  # It holds the old file, and has nothing to say of the new one.
            self._places.finish()
        finally:
            app.program.kill()
        print(f"{sum(self._counts.values()):,} objects are brought over; the old store is "
              f"{self._places.kept}")
        return 0

    # ---- the old store

    def _refuse_older(self) -> None:
        mapping, db = self._plan.old.mapping, self._places.db
        if mapping["revision"] == 2 and outlook(mapping, db).is_due:
            raise KarzhoulError(
                f"{db} is of revision 1, and an opening by {self._plan.old.word} would bring it "
                "over for good: name the mapping that it was written with by --from"
            )

    def _held(self) -> EntityManagerFactory:
        """The old store, opened, with nothing in its log that the file lacks: at the end of a
        program all of it is in the file."""
        while True:
            app = opening.open(
                bare(self._plan.old.mapping), self._places.db, program=self._said.program
            )
            if not self._places.has_log():
                return app
            app.close()

    def _look(self, app: EntityManagerFactory) -> OldStore:
        """What the old store says of itself."""
        manager = app.create_entity_manager()
        if any(it["name"] == FORMS for it in self._plan.old.mapping["entities"]):
            self._take_forms({at: form for at, form in manager.query(_FORMS_OF)})
        old = self._plan.old
        for name in old.shapes:
            where = f"FROM {name} e WHERE TYPE(e) = {name}"
            self._counts[name] = int(manager.one(f"SELECT COUNT(e) {where}"))
        return OldStore(old, app)

    def _take_forms(self, stored: Dict[str, str]) -> None:
        """Takes note of the forms that the old store says; a `NotBroughtOver` where it has another
        name for a number than the lock of its classes."""
        old = self._plan.old
        if old.made is None:
            old.take_forms(stored)
            self._plan = planned(
                old, self._plan.new, _functions(self._said.functions), self._said.drop
            )
        elif faults := other_names(
            old.made.model, old.made.lock, stored, str(old.made.file), str(self._places.db)
        ):
            raise NotBroughtOver(faults)

    def _told_lost(self, app: EntityManagerFactory) -> List[str]:
        """What would be lost, and isn't said to go; what is said is told with its number."""
        manager, found = app.create_entity_manager(), []
        for name, plan in self._plan.classes.items():
            if plan.function is not None or not self._counts[name]:
                continue
            lost = {} if plan.new else {name: self._counts[name]}
            for member in plan.gone if plan.new else ():
                test = "IS NOT EMPTY" if member in plan.old.pairs else "IS NOT NULL"
                text = f"SELECT COUNT(e) FROM {name} e WHERE TYPE(e) = {name} AND e.{member} {test}"
                lost[self._place(name, member)] = int(manager.one(text))
            for what, count in lost.items():
                self._lost[what] = count
                if count and what not in self._said.drop and not self._is_said_dropped(what):
                    found.append(
                        f"{what} goes, with {_count(count)}: --drop {what} says that this is "
                        f"meant, and bring_over_{name}(old) of a module, named by --with, may use "
                        "it"
                    )
        return found

    def _place(self, entity: str, member: str) -> str:
        return f"{entity}.{self._plan.old.shown(entity, member)}"

    def _is_said_dropped(self, what: str) -> bool:
        """Whether the new class says by its own word that an attribute is dropped, or the embedded
        value that it is of."""
        entity, _, member = what.partition(".")
        after = self._plan.classes[entity].new
        made = self._plan.new.made
        return bool(made and after and any(
            {member, member.partition(".")[0]} & set(made.model[each].dropped)
            for each in after.chain if each in made.model
        ))

    # ---- what is told

    def _told(self) -> Iterator[str]:
        for name, plan in self._plan.classes.items():
            after = plan.new.name if plan.new else None
            word = f"{name}: {_count(self._counts[name])}"
            yield word if after == name else f"{word}, " + (
                f"which become {after}" if after else "which go")
            for line in plan.told():
                yield f"  {line}"
            for member in plan.gone if plan.new and not plan.function else ():
                what = self._place(name, member)
                yield (f"  {what[len(name) + 1:]} goes, from "
                       f"{_count(self._lost.get(what, 0))}")
        for name in self._plan.added:
            yield f"{name}: new"

    def _stopped(self, faults: List[str]) -> int:
        for fault in faults[:MOST_FAULTS]:
            print(f"karzhoul: {fault}", file=sys.stderr)
        if len(faults) > MOST_FAULTS:
            print("karzhoul: and more", file=sys.stderr)
        print(f"karzhoul: {self._places.db} is as it was", file=sys.stderr)
        return WRONG

    # ---- objects

    def _tried(self, app: EntityManagerFactory, store: OldStore) -> int:
        """Makes all new objects, and stores none."""
        bringer = Bringer(self._plan, store)
        singles = Singles(self._plan.new, bringer)
        with Progress(sum(self._counts.values())) as told:
            for done, record in enumerate(self._records(app), 1):
                for each in bringer.brought(record):
                    singles.add(each)
                if len(bringer.faults) + len(singles.faults) > MOST_FAULTS:
                    break
                if done % 1_000 == 0:
                    told(done)
        singles.finish()
        faults = bringer.faults + singles.faults
        return self._stopped(faults) if faults else 0

    def _records(self, app: EntityManagerFactory) -> Iterator[Any]:
        stored = Stored(app)
        return stored.in_order({name: stored.keys(name) for name in self._plan.old.shapes})

    def _bring(self, app: EntityManagerFactory, store: OldStore) -> int:
        """Makes the new store, and has the program judge it."""
        side = self._plan.new
        feed = Feed(self._program, carrying(side.mapping), self._places.new)
        bringer = Bringer(self._plan, store)
        with Progress(sum(self._counts.values())) as told:
            try:
                made, singles = NewStore(feed, side, bringer, told), Singles(side, bringer)
                for record in self._records(app):
                    for each in bringer.brought(record):
                        made.add(each)
                        singles.add(each)
                    if len(bringer.faults) + len(made.faults) + len(singles.faults) > MOST_FAULTS:
                        break
                nexts = {it.entity: it.number for it in Stored(app).nexts()}
                made.finish({self._top(name): number for name, number in nexts.items()})
                singles.finish()
                faults = bringer.faults + made.faults + singles.faults
                if not faults:
                    feed.close()
            except BaseException:
                feed.stop()
                raise
        if faults:
            feed.stop()
            return self._stopped(faults)
        lock = self._places.new_lock if side.made is not None else None
        judge(side, self._places.new, lock, made.counts, self._said.program)
        return 0

    def _top(self, name: str) -> str:
        """The new hierarchy of one of before; one that isn't there is of no next number."""
        after = self._plan.classes[name].new
        return after.top if after is not None else ""


def _count(number: int) -> str:
    return f"{number:,} object{'' if number == 1 else 's'}"
