"""Rounds of tests/fuzz/hostile-lines with long contexts: a manager holds hundreds of objects, and
each of many transactions touches a few.

What is tried is which of them a flush has to look at: what was touched long before, by a listener,
by another manager, by a call that was refused, or only along relations of objects that nobody
touched."""
from __future__ import annotations

from typing import TYPE_CHECKING, Any, Callable

from fuzz.context_links import ContextLinkPlots
from fuzz.lines import Calls

if TYPE_CHECKING:
    from fuzz.kinds import Plot
    from model.kinds import Part, Value, Values
    from model.live import Live
    from model.machine import Machine
    from model.unit import Entity, Relation
    from random import Random


class ContextPlots(ContextLinkPlots):
    """The plots over a long context. Each is a generator of calls, as their words and members."""

    def some_plot(self) -> Plot:
        em = self.long_one()
        if em is None:
            return self.opening()
        if self.random.random() < 0.006:
            return self.restarting()
        if self.is_short(em) and self.random.random() < 0.8:
            return self.loading(em)
        if self.random.random() < 0.12:
            return self.random.choice(self.other_plots())()
        return self.random.choice(self.long_plots())(em)

    def other_plots(self) -> list[Callable[..., Any]]:
        """Those of the other rounds that leave most of a context alone."""
        plots = [self.one_object, self.another_writes, self.locked, self.copied, self.flushes,
                 self.queried]
        if self.has_relations:
            plots += [self.removed_family, self.read_again, self.handed_over, self.merged_family,
                      self.orphaned]
        return plots

    def long_plots(self) -> list[Callable[..., Any]]:
        plots = [self.between, self.between, self.undone, self.same_again, self.heard,
                 self.refreshed, self.refreshed, self.locked_among, self.locked_among,
                 self.revived, self.merged_among, self.changed_by_another, self.emptied,
                 self.in_bulk]
        if self.has_relations:
            plots += [self.branching, self.branching, self.led_to, self.led_to, self.orphaned_later,
                      self.orphaned_later, self.shared, self.named_later, self.both_hold,
                      self.refused_apart, self.orphan_led_to, self.orphan_led_to]
        return plots

    # -- what a plot looks at

    def long_one(self) -> int | None:
        """The open manager that holds most, or rarely another one."""
        found = sorted(self.open_ones(), key=lambda em: -len(self.held_by(em)))
        return found and self.random.choice(found[:1] * 5 + found[:3]) or None

    def is_short(self, em: int) -> bool:
        return len(self.held_by(em)) < min(60, len(self.seen_by(em)) // 2)

    def some_held(self, em: int) -> Live:
        held = self.held_by(em)
        return self.random.choice(held) if held else None

    def managed(self, em: int, wanted: Callable[..., Any] = lambda live: True) -> Live | None:
        """An object that the manager manages, mostly one that is wanted."""
        held = [live for live in self.held_by(em) if not live.is_removed]
        chosen = [live for live in self.random.sample(held, min(40, len(held))) if wanted(live)]
        return self.random.choice(chosen or held) if held else None

    def fitting(self, em: int, relation: Relation, live: Live | None = None) -> Live | None:
        """An object that the manager manages and that may be led to."""
        fits = lambda other: other.entity.is_a(relation.target) and other is not live
        found = self.managed(em, fits)
        return found if found and found.entity.is_a(relation.target) else None

    def others(self, em: int) -> list[int]:
        return [other for other in self.open_ones() if other != em]

    # -- calls that plots are made of

    def opening(self) -> Plot:
        for _ in range(self.random.choice([1, 2, 2, 3])):
            yield "createEntityManager", {}

    def reopening(self) -> Plot:
        """What follows a restart: as at first, so that much is loaded again."""
        return self.opening()

    def settled(self, em: int) -> Plot:
        """Calls after which the manager has no open transaction, and mostly holds what it held."""
        manager = self.machine.managers[em - 1]
        if manager.is_begun:
            yield "rollback" if manager.is_marked else "commit", {"em": em}

    def working(self, em: int) -> Plot:
        """Calls after which the manager has an open transaction that can commit."""
        manager = self.machine.managers[em - 1]
        if manager.is_marked and manager.is_begun:
            yield "rollback", {"em": em}
        if not manager.is_begun:
            yield "begin", {"em": em}

    def whole(self, entity: Entity) -> str:
        return f"SELECT x FROM {entity.name} x"

    def loading(self, em: int) -> Plot:
        """What is stored is loaded by queries of whole classes, and some of it is read around."""
        if self.random.random() < 0.7:
            yield from self.settled(em)
        is_second = any(len(self.held_by(other)) > 60 for other in self.others(em))
        for entity in list(self.machine.unit.entities.values()):
            if entity.root is entity or self.random.random() < 0.3:
                is_few = self.random.random() < (0.7 if is_second else 0.1)
                few = {"max": self.random.randint(10, 60)} if is_few else {}
                yield "query", {"em": em, "text": self.whole(entity), **few}
        for _ in range(self.random.randint(0, 3)):
            yield from self.around(em, self.managed(em))

    def around(self, em: int, live: Live, steps: int = 2) -> Plot:
        """Calls that read what an object leads to, and mostly what that leads to."""
        if live is None or live.held is not self.machine.managers[em - 1]:
            return
        for relation in live.entity.relations.values():
            if live.is_unread(relation) and self.random.random() < 0.6:
                yield "get", {"object": live.number, "name": relation.name}
            near = live.read_of(relation)
            if near and steps > 1 and self.random.random() < 0.5:
                yield from self.around(em, self.random.choice(near), steps - 1)

    def reading_to(self, em: int, live: Live) -> Plot:
        """Calls that read, of what the manager holds, some relations that lead to an object."""
        seen = self.seen_by(em)
        leads = lambda stored, relation: (stored is not None and stored.entity.has(relation)
                                          and live.identity() in stored.linked(relation))
        found = [(other, relation) for other in self.held_by(em) for relation in other.entity.owned
                 if other.is_unread(relation) and leads(seen.get(other.identity()), relation)]
        for other, relation in self.random.sample(found, min(2, len(found))):
            yield "get", {"object": other.number, "name": relation.name}

    def touching(self, em: int, live: Live) -> Plot:
        """A call that changes an object, or sets what it holds already."""
        relations = list(live.entity.relations.values())
        if not relations or self.random.random() < 0.5:
            if live.entity.attributes and self.random.random() < 0.2:
                yield self.setting(live, self.some_attribute(live))
            else:
                yield self.modest(live)
            return
        relation = self.random.choice(relations)
        held, other = live.read_of(relation), self.fitting(em, relation, live)
        if held and self.random.random() < 0.4:
            yield self.unlinked(live, relation)
        elif other:
            yield from self.linking(live, relation, other, self.random.random() < 0.7)

    def modest(self, live: Live) -> tuple[str, Values]:
        """A change of an attribute that a flush mostly accepts."""
        every = list(live.entity.attributes.values())
        attributes = [each for each in every if "converter" not in each] or every
        if not attributes or self.random.random() < 0.05:
            return self.change(live)
        attribute = self.random.choice(attributes)
        number = self.random.randrange(40)
        value = {"int": number, "text": f"w{number}", "bytes": bytes([number])}[attribute["type"]]
        return self.setting(live, attribute["name"], self.given(value))

    def setting(
        self, live: Live, name: str, *value: Part | dict[str, int]
    ) -> tuple[str, dict[str, Part | dict[str, int]]]:
        """The call that sets a value, or what the object holds already."""
        given = value[0] if value else self.given(live.values[name])
        return "set", {"object": live.number, "name": name, "value": given}

    def flushing(self, em: int) -> Plot:
        """A call that flushes in a transaction, also as a query does it."""
        entity = self.random.choice(list(self.machine.unit.entities.values()))
        count = f"SELECT COUNT(x) FROM {entity.name} x"
        yield self.random.choice([("flush", {"em": em}), ("flush", {"em": em}),
                                  ("query", {"em": em, "text": self.whole(entity), "max": 3}),
                                  ("querySingle", {"em": em, "text": count})])

    def undoing(self, em: int) -> Plot:
        """A call that flushes and then is refused, so that the flush is undone; mostly one that
        leaves the transaction unmarked."""
        entity = self.random.choice(list(self.machine.unit.entities.values()))
        roll = self.random.random()
        if roll < 0.06:
            text = f"SELECT 9223372036854775807 + 1 FROM {entity.name} x"
            yield "query", {"em": em, "text": text}
        else:
            none = {"max": 0} if roll < 0.6 else {}
            yield "querySingle", {"em": em, "text": self.whole(entity), **none}

    def ending(self, em: int) -> Plot:
        """Calls that end the transaction, and mostly further ones that touch nothing or little."""
        if self.random.random() < 0.25:
            yield from self.flushing(em)
        yield "rollback" if self.random.random() < 0.03 else "commit", {"em": em}
        for _ in range(self.random.choice([0, 1, 1, 2])):
            yield from self.working(em)
            live = self.managed(em)
            if live and self.random.random() < 0.3:
                yield self.modest(live)
            yield "commit", {"em": em}

    def apart(self, em: int) -> Plot:
        """Calls that let go of some other object, or make another one, between what a plot does."""
        roll, live = self.random.random(), self.managed(em)
        if live and roll < 0.15:
            yield "detach", {"em": em, "object": live.number}
        elif live and roll < 0.4:
            yield self.finding(em, live)
        elif roll < 0.55:
            yield from self.making(em)
        elif live and roll < 0.7:
            yield from self.around(em, live)

    # -- plots

    def between(self, em: int) -> Plot:
        """Objects are touched outside a transaction, or in one; then a later one writes them."""
        if self.random.random() < 0.7:
            yield from self.settled(em)
        for _ in range(self.random.randint(1, 3)):
            live = self.managed(em)
            if live:
                yield from self.touching(em, live)
            yield from self.apart(em)
        yield from self.working(em)
        if self.random.random() < 0.5:
            yield from self.flushing(em)
            live = self.managed(em)
            if live:
                yield from self.touching(em, live)
        yield from self.ending(em)

    def undone(self, em: int) -> Plot:
        """What was touched is flushed by a call that is refused; then it is written."""
        yield from self.working(em)
        lives = [self.managed(em) for _ in range(self.random.randint(1, 3))]
        lives = [live for live in lives if live]
        for live in lives:
            yield from self.touching(em, live)
        for _ in range(self.random.randint(1, 2)):
            yield from self.undoing(em)
            live = self.managed(em)
            if live and self.random.random() < 0.4:
                yield self.setting(live, self.some_attribute(live), {"object": live.number})
            if self.random.random() < 0.3:
                yield from self.making(em)
        if lives and self.random.random() < 0.4:
            yield self.modest(self.random.choice(lives))
        yield from self.ending(em)

    def same_again(self, em: int) -> Plot:
        """What objects hold is set again, or set to something else and back."""
        yield from self.working(em)
        for _ in range(self.random.randint(1, 4)):
            live = self.managed(em)
            if live is None:
                return
            relations = [each for each in live.entity.relations.values() if live.read_of(each)]
            if relations and self.random.random() < 0.5:
                relation = self.random.choice(relations)
                other = self.random.choice(live.read_of(relation))
                if relation.is_many or self.random.random() < 0.5:
                    yield self.unlinked(live, relation, other)
                if self.random.random() < 0.85:
                    yield self.linked(live, relation, other)
            elif live.entity.attributes:
                name = self.some_attribute(live)
                before = self.given(live.values[name])
                if self.random.random() < 0.6:
                    yield self.modest(live)
                    if self.random.random() < 0.3:
                        yield from self.flushing(em)
                yield self.setting(live, name, before)
        yield from self.ending(em)

    def heard(self, em: int) -> Plot:
        """Objects are loaded anew, by a find, along a relation, by a query or by a merge, so that
        listeners may assign; then transactions follow."""
        live = self.managed(em)
        if live is None or None in live.key():
            return
        if self.random.random() < 0.6:
            yield from self.settled(em)
        yield "detach", {"em": em, "object": live.number}
        way = self.random.choice(["find", "get", "query", "merge"])
        if way == "find":
            yield self.finding(em, live)
        elif way == "query":
            yield "query", {"em": em, "text": self.whole(live.entity)}
        elif way == "merge":
            yield "merge", {"em": em, "object": live.number}
        else:
            leads = lambda other: any(other.is_unread(each) and live.entity.is_a(each.target)
                                      for each in other.entity.relations.values())
            yield from self.around(em, self.managed(em, leads))
        yield from self.working(em)
        yield from self.ending(em)

    def refreshed(self, em: int) -> Plot:
        """What was touched, or not, is read again, perhaps after another manager changed it; then
        it is committed."""
        is_heard = lambda each: self.machine.unit.heard_by(each.entity, "PostLoad")
        live = self.managed(em, is_heard if self.random.random() < 0.6 else lambda each: True)
        if live is None:
            return
        if self.random.random() < 0.4:
            yield from self.stale_for(em, live, ("set",))
        if self.random.random() < 0.5:
            yield from self.working(em)
        if self.random.random() < 0.6:
            yield from self.touching(em, live)
        if self.random.random() < 0.3:
            yield from self.around(em, live)
        yield "refresh", {"em": em, "object": live.number}
        if self.random.random() < 0.3:
            yield from self.touching(em, live)
        yield from self.working(em)
        yield from self.ending(em)

    def locked_among(self, em: int) -> Plot:
        """Objects that nothing else touches are locked; flushes follow, perhaps beside changes of
        another manager."""
        yield from self.working(em)
        for _ in range(self.random.randint(1, 3)):
            live = self.managed(em, lambda each: each.entity.version)
            if live is None or not live.entity.version:
                return
            yield self.locking(em, live)
            if self.random.random() < 0.3:
                on_live = {"em": em, "object": live.number}
                calls = [self.modest(live), ("remove", on_live), ("refresh", on_live)]
                yield self.random.choice(calls)
        if self.random.random() < 0.5:
            yield from self.stale_for(em, live, ("set",))
        for _ in range(self.random.randint(0, 2)):
            yield from self.flushing(em)
        yield from self.ending(em)
        yield "get", {"object": live.number, "name": live.entity.version["name"]}

    def revived(self, em: int) -> Plot:
        """An object is removed, in a transaction or before it, perhaps flushed, touched and
        persisted again."""
        if self.random.random() < 0.5:
            yield from self.settled(em)
        else:
            yield from self.working(em)
        live = self.managed(em)
        if live is None:
            return
        yield from self.reading_to(em, live)
        yield "remove", {"em": em, "object": live.number}
        if self.random.random() < 0.5:
            yield from self.working(em)
        for _ in range(self.random.randint(0, 3)):
            word = self.random.choice(["touch", "persist", "flush", "undone", "apart"])
            if word == "touch":
                yield self.modest(live)
            elif word == "persist":
                yield "persist", {"em": em, "object": live.number}
            elif word == "apart":
                yield from self.apart(em)
            elif self.machine.managers[em - 1].is_begun:
                yield from (self.flushing(em) if word == "flush" else self.undoing(em))
        yield from self.working(em)
        yield from self.ending(em)
        yield self.finding(em, live) if None not in live.key() else ("flush", {"em": em})

    def merged_among(self, em: int) -> Plot:
        """What was let go, a copy, or the object of another manager is merged onto what is held,
        with changes or without."""
        live = self.managed(em)
        if live is None:
            return
        way, others = self.random.choice(["copy", "detach", "theirs"]), self.others(em)
        if way == "theirs" and others:
            theirs = yield from self.found(self.random.choice(others), live)
            merged = theirs
        elif way == "copy":
            merged = yield from self.copying(live)
        else:
            yield from self.around(em, live)
            yield "detach", {"em": em, "object": live.number}
            merged = live
            if self.random.random() < 0.7:
                yield self.finding(em, live)
        if merged is None:
            return
        if merged.held != "new" and self.random.random() < 0.4:
            yield self.modest(merged)
        if self.random.random() < 0.6:
            yield from self.working(em)
        yield "merge", {"em": em, "object": merged.number}
        yield from self.working(em)
        yield from self.ending(em)

    def changed_by_another(self, em: int) -> Plot:
        """Another manager changes what is held here, and commits it before or within a transaction
        of this one, which touches it or others."""
        live, others = self.managed(em), self.others(em)
        if live is None or not others:
            return
        yield from self.working(em) if self.random.random() < 0.4 else self.settled(em)
        yield from self.stale_for(em, live, ("set", "set", "set", "remove"))
        touched = live if self.random.random() < 0.25 else self.managed(em)
        if touched:
            yield from self.touching(em, touched)
        yield from self.working(em)
        if self.random.random() < 0.3:
            yield "refresh", {"em": em, "object": live.number}
        yield from self.ending(em)

    def emptied(self, em: int) -> Plot:
        """What is touched is let go, alone or with all; a little is loaded and touched, and a
        transaction follows."""
        live = self.managed(em)
        if live is None:
            return
        yield from self.touching(em, live)
        roll = self.random.random()
        if roll < 0.75:
            yield "detach", {"em": em, "object": live.number}
        elif roll < 0.9:
            yield "clear", {"em": em}
        elif len(self.open_ones()) > 1:
            yield from self.settled(em)
            yield "close", {"em": em}
            yield "createEntityManager", {}
            return
        yield self.finding(em, live) if None not in live.key() else ("clear", {"em": em})
        other = self.managed(em)
        if other:
            yield from self.touching(em, other)
        yield from self.working(em)
        yield from self.ending(em)

    def in_bulk(self, em: int) -> Plot:
        """Statements change the rows of what is held; then some of it is touched or read again."""
        yield from self.working(em)
        entity = self.random.choice(list(self.machine.unit.entities.values()))
        plain = [each for each in entity.attributes.values()
                 if "converter" not in each and each["type"] == "int"]
        if not plain or self.random.random() < 0.1:
            yield "executeUpdate", self.updating(em)
        else:
            name, number = self.random.choice(plain)["name"], self.random.randrange(9)
            text = f"UPDATE {entity.name} x SET x.{name} = {number} WHERE x.{name} < 40"
            yield "executeUpdate", {"em": em, "text": text}
        live = self.managed(em, lambda each: each.entity.is_a(entity))
        if live:
            is_set = self.random.random() < 0.6
            yield self.modest(live) if is_set else ("refresh", {"em": em, "object": live.number})
        yield from self.ending(em)


class LongCalls(ContextPlots, Calls):
    """Makes calls over a machine whose managers hold much, nearly all of them in plots."""

    def __init__(self, random: Random, machine: Machine) -> None:
        super().__init__(random, machine)
        self.crowd, self.mutated_share = random.choice([1, 2, 2, 3]), 0.03

    def call(self) -> tuple[str, dict[str, Any]]:
        self.plot = self.plot or self.some_plot()
        if self.random.random() < 0.98:
            call = next(self.plot, None)
            if call:
                return call
            self.plot = None
        word = self.random.choice(["set", "get", "find", "persist", "add", "takeOut", "contains",
                                   "new", self.word()])
        return word, getattr(self, word)()
