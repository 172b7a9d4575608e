"""A model for tests/fuzz/hostile-marks whose flushes look at marked objects alone: whole, it
answers as the model of tests/model/machine.py does; with a fault it forgets something.

At the end of each accepted call what the call changed is looked at. What a manager holds is marked
then, unless it is calm: managed and unlocked, with its base's values, the members that are
remembered, and no new one among them. Linked says that what is unmarked leads to what a flush lets
pass. Persist along cascades and the removal of orphans go over all objects where a marked one gives
a reason, else over none; what follows goes over the marked and what the call itself has changed.
"""
from __future__ import annotations

import itertools
from typing import TYPE_CHECKING, Any, Callable

from model.machine import Machine
from model.reading import Refused

if TYPE_CHECKING:
    from model.cells import State, Stored
    from model.kinds import Datum, Events, Identity, Part, Value
    from model.live import Live, Manager
    from model.reading import Number
    from model.unit import Relation, Unit

# What each fault does wrong. Those of NEEDLESS only cost time, and change no answer.
FAULTS = {
    "set": "marks nothing for set",
    "add": "marks nothing for add",
    "takeOut": "marks nothing for takeOut",
    "merge": "marks no object onto which a merge copied",
    "remove": "marks nothing for remove",
    "lock": "marks nothing for lock",
    "refresh": "marks nothing for refresh, though listeners assign",
    "write lock": "takes an object locked WRITE as unlocked",
    "read lock": "asks no object locked READ that is not marked otherwise",
    "callback": "marks nothing for what listeners assign",
    "callback of a load": "marks nothing for what listeners of PostLoad assign",
    "callback of a write": "marks nothing for what listeners of PostPersist and PostUpdate assign",
    "links": "compares values alone",
    "inverse links": "compares values and owned relations alone",
    "memory": "remembers the members of those objects alone that it wrote",
    "no base": "marks no new object",
    "removed": "marks no removed object",
    "holds new": "marks no object for a new one that it holds",
    "at begin": "forgets at begin what was marked before",
    "undone": "takes marks away in a flush whose call is refused then",
    "order": "goes over marked objects in the order of their marks",
    "reach": "persists along cascades of marked objects alone",
    "reached": "forgets in a flush what the flush itself has changed",
    "removal": "lets pass what leads to an object that was removed since",
    "detachment": "lets pass what leads to an object that was detached since",
    "orphan": "lets pass what leads to an orphan that the same flush removes",
}
NEEDLESS = {
    "kept by refresh": "takes no mark away for refresh",
    "kept by commit": "takes no mark away for commit",
    "persist": "marks nothing for a persist that revives, since what is removed is marked",
    "others": "looks at the objects of the call's manager alone",
}


def standing(live: Live) -> tuple[Any, ...]:
    return (dict(live.values), dict(live.links), live.held, live.is_removed, live.lock, live.base,
            live.known)


class Marks:
    """What a manager has marked; all where nothing is known."""

    def __init__(self) -> None:
        self.is_all, self.marked, self.is_linked = True, {}, False


class Marked(Machine):
    """The machine with marks, and a fault or none."""

    def __init__(self, unit: Unit, state: State, fault: str | None = None) -> None:
        super().__init__(unit, state)
        self.fault, self.marks = fault, {}
        # Of the call at hand: how objects stood, what listeners assigned over, and who was flushed.
        self.before, self.unheard, self.flushed = {}, {}, None

    # -- the end of a call

    def answered(self, events: Events, word: str, given: list[Any]) -> Any:
        self.unheard, self.flushed = {}, None
        self.before = {live: standing(live) for live in self.objects if live.held != "detached"}
        try:
            answer = super().answered(events, word, given)
        except Refused:
            for manager in self.managers:
                if not manager.context:
                    self.marks[manager] = Marks()
                elif self.fault == "undone" and manager is self.flushed:
                    self.marks[manager].marked.clear()
            raise
        for manager in self.managers:
            if self.fault != "others" or manager is self.manager_of(word, given):
                self.mark(manager, word)
        return answer

    def manager_of(self, word: str, given: list[Any]) -> Manager | str | None:
        """The manager that a call names, or that holds the object which it names."""
        if word in ("createEntityManager", "new", "values", "restart", "index"):
            return None
        is_of_object = word in ("get", "set", "add", "takeOut")
        return self.objects[given[0] - 1].held if is_of_object else self.managers[given[0] - 1]

    def noted(self, manager: Manager) -> list[Live]:
        """What the call at hand has changed, of this manager and of none."""
        lives = {**self.before, **dict.fromkeys(manager.context)}
        return [live for live in lives if self.before.get(live) != standing(live)]

    def has_entered(self, manager: Manager, live: Live) -> bool:
        return live not in self.before or self.before[live][2] is not manager

    def mark(self, manager: Manager, word: str) -> None:
        marks = self.marks.setdefault(manager, Marks())
        if not manager.context:
            self.marks[manager] = Marks()
            return
        changed = self.noted(manager)
        looked = [live for live in changed if live.held is manager]
        if word == self.fault:
            looked = [live for live in looked if self.has_entered(manager, live)]
        elif self.fault == f"at {word}":
            marks.marked, looked = {}, []
        if marks.is_all:
            looked = manager.context
        calm = {live: self.is_calm(manager, live) for live in looked}
        marked = {**marks.marked, **{live: None for live in looked if not calm[live]}}
        is_kept = self.fault == f"kept by {word}"
        marked = {live: None for live in marked
                  if live.held is manager and (is_kept or not calm.get(live))}
        is_anew = marks.is_all or word in ("flush", "commit") or manager is self.flushed
        goes_on = marks.is_linked and not any(self.stops(manager, live) for live in changed)
        marks.marked, marks.is_all = marked, False
        marks.is_linked = (goes_on or is_anew) and all(
            self.is_linked(manager, live) for live in (manager.context if is_anew else looked)
            if live not in marked)

    def stops(self, manager: Manager, live: Live) -> bool:
        """Whether an object was managed before the call, and is no longer."""
        if self.has_entered(manager, live) or self.before[live][3] or live.is_managed(manager):
            return False
        return self.fault != ("removal" if live.held is manager else "detachment")

    # -- what is calm

    def is_calm(self, manager: Manager, live: Live) -> bool:
        if live.is_removed:
            return self.fault == "removed"
        if live.lock and self.fault != {"WRITE": "write lock", "READ": "read lock"}[live.lock]:
            return False
        if live.base is None:
            return self.fault == "no base"
        values = self.unheard.get(live, live.values)
        is_same = all(values[name] == live.base.values[name] for name in live.entity.attributes)
        return is_same and all(self.is_kept(live, each) for each in live.entity.relations.values())

    def is_kept(self, live: Live, relation: Relation) -> bool:
        """Whether a relation holds what is remembered of it, and no new object."""
        if self.fault == "links" or self.fault == "inverse links" and not relation.owns:
            return True
        has_new = any(other.held == "new" for other in live.read_of(relation))
        is_same = live.known[relation.name] == live.identities_of(relation)
        return is_same and (self.fault == "holds new" or not has_new)

    def is_linked(self, manager: Manager, live: Live) -> bool:
        """Whether a flush lets pass what an object leads to."""
        refused = (manager,) if self.fault == "holds new" else ("new", manager)
        relations = live.entity.relations.values()
        passes = lambda other, each: other.held not in refused and not each.cascades("PERSIST")
        return all(other.is_managed(manager) or passes(other, each)
                   for each in relations for other in live.read_of(each))

    def fire(self, events: Events, event: str, live: Live) -> None:
        before = dict(live.values)
        super().fire(events, event, live)
        unheard = {"callback of a load": ("PostLoad",),
                   "callback of a write": ("PostPersist", "PostUpdate")}.get(self.fault, ())
        if self.fault == "callback" or event in unheard:
            self.unheard.setdefault(live, before)

    # -- flushes

    def looked(self, manager: Manager) -> list[Live]:
        """The marked objects and what the call has changed, in order of the context."""
        marked = self.marks[manager].marked
        if self.fault == "order":
            return list(marked)
        changed = [] if self.fault == "reached" else self.noted(manager)
        looked = {**marked, **dict.fromkeys(changed)}
        return [live for live in manager.context if live in looked]

    def flush_before(self, events: Events, manager: Manager) -> None:
        super().flush_before(events, manager)
        if manager.is_begun and manager.flush_mode == "AUTO":
            self.flushed = manager

    def write(self, events: Events, manager: Manager) -> None:
        marks = self.marks.setdefault(manager, Marks())
        known = {live: (live.base, live.known) for live in manager.context}
        if marks.is_all:
            super().write(events, manager)
        else:
            self.write_looked(events, manager, marks)
        if self.fault == "memory":
            for live, (base, members) in known.items():
                live.known = members if base and live.base is base else live.known

    def write_looked(self, events: Events, manager: Manager, marks: Marks) -> None:
        if not marks.is_linked or any(map(self.is_reaching, self.looked(manager))):
            self.persist_targets(events, manager)
        if any(not live.is_removed and any(live.orphans()) for live in self.looked(manager)):
            self.remove_orphans(events, manager)
        removes = any(self.stops(manager, live) for live in self.noted(manager))
        if not marks.is_linked or removes and self.fault != "orphan":
            self.see_references(manager)
        self.over(manager, self.looked(manager), lambda: self.write_held(events, manager))

    def over(self, manager: Manager, lives: list[Live], does: Callable[..., Any]) -> None:
        """Does something as if the manager held these objects alone."""
        whole, manager.context = manager.context, lives
        try:
            does()
        finally:
            manager.context = whole

    def is_reaching(self, live: Live) -> bool:
        """Whether a managed object leads to what a flush persists."""
        targets = [] if live.is_removed else self.targets("PERSIST", live.held, live)
        return not all(other.is_managed(live.held) for other in targets)

    def persist_targets(self, events: Events, manager: Manager) -> None:
        if self.fault != "reach" or self.marks[manager].is_all:
            super().persist_targets(events, manager)
            return
        count = len(manager.context)
        for walk in (self.looked(manager), itertools.islice(manager.context, count, None)):
            for live in walk:
                targets = [] if live.is_removed else list(self.targets("PERSIST", manager, live))
                for target in targets:
                    self.persist_from(events, manager, target)

    # -- locks

    def see_first(self, manager: Manager, changed: list[Identity]) -> None:
        self.over_locked(manager, lambda: super(Marked, self).see_first(manager, changed))

    def see_read_locks(self, manager: Manager) -> None:
        self.over_locked(manager, lambda: super(Marked, self).see_read_locks(manager))

    def over_locked(self, manager: Manager, look: Callable[..., Any]) -> None:
        """Looks at what is marked alone, where the fault is that a lock READ sets no mark."""
        is_less = self.fault == "read lock" and not self.marks[manager].is_all
        self.over(manager, self.looked(manager) if is_less else manager.context, look)
