"""Plots of long contexts (tests/fuzz/contexts.py) about relations: what untouched objects lead
to is added, removed, let go, orphaned, or held by another manager too."""
from __future__ import annotations

from typing import TYPE_CHECKING

from model.cells import members

if TYPE_CHECKING:
    from fuzz.kinds import Plot
    from model.live import Live
    from model.unit import Relation


class ContextLinkPlots:
    """The plots along the relations of what a manager holds. Each is a generator of calls, as their
    words and members."""

    # -- what a plot looks at, and calls that plots are made of

    def cascading(self, live: Live, operation: str) -> list[Relation]:
        """The relations of an object along which an operation goes."""
        return [each for each in live.entity.relations.values() if each.cascades(operation)]

    def near(self, live: Live, relations: list[Relation] | None = None) -> list[Live]:
        """What an object is known to lead to, of the same manager's, in all relations or these."""
        relations = relations or live.entity.relations.values()
        return [other for relation in relations for other in live.read_of(relation)
                if other.is_managed(live.held)]

    def orphaning(self, em: int, live: Live) -> list[Relation]:
        """The relations of an object that have members which would be orphans without it."""
        seen = self.seen_by(em)
        return [each for each in live.entity.relations.values() if each.removes_orphans
                and (live.read_of(each) or members(seen, live.identity(), each))]

    def step_away(self, em: int) -> Plot:
        """Calls that read from an object to another one that the manager manages; the other one, or
        None."""
        above = self.managed(em, lambda live: any(self.cascading(live, "PERSIST")))
        if above is None:
            return None
        yield from self.around(em, above, 1)
        near = self.near(above)
        return self.random.choice(near) if near else above

    def led_by(self, em: int, live: Live) -> Plot:
        """Calls that make one more managed object lead to this one, and commit it."""
        fits = lambda each: [relation for relation in each.entity.owned
                             if relation.kind != "oneToOne" and live.entity.is_a(relation.target)]
        other = self.managed(em, fits)
        if other and fits(other):
            yield from self.working(em)
            yield self.linked(other, self.random.choice(fits(other)), live)
            yield "commit", {"em": em}

    def chosen(self, em: int, relation: Relation, live: Live) -> Plot:
        """One that the manager manages already, as calls that make one give it."""
        yield "contains", {"em": em, "object": live.number}
        return self.fitting(em, relation, live)

    # -- plots

    def branching(self, em: int) -> Plot:
        """New objects hang on managed ones, some of them steps away from what leads to them, and a
        flush persists them in its order."""
        yield from self.working(em) if self.random.random() < 0.6 else self.settled(em)
        for _ in range(self.random.randint(1, 4)):
            live = yield from self.step_away(em)
            if live is None:
                return
            for _ in range(self.random.choice([1, 1, 2])):
                relations = self.cascading(live, "PERSIST")
                if not relations or live.held == "detached":
                    break
                relation = self.random.choice(relations)
                other = yield from self.shaping(em, self.some_class(relation.target))
                if other is None:
                    break
                yield from self.linking(live, relation, other, self.random.random() < 0.7)
                live = other
        yield from self.working(em)
        yield from self.ending(em)

    def led_to(self, em: int) -> Plot:
        """An object to which others lead that are not touched is removed or let go, within a
        transaction or before it."""
        yield from self.working(em) if self.random.random() < 0.6 else self.settled(em)
        above = self.managed(em, lambda live: live.entity.relations)
        if above is None:
            return
        yield from self.around(em, above)
        word = self.random.choice(["remove", "detach"])
        # What is let go, and led to along a cascade of persist, refuses the flush.
        near = word == "detach" and self.near(above, self.cascading(above, "PERSIST"))
        near = near or self.near(above)
        if not near:
            return
        live = self.random.choice(near)
        is_anew = self.random.random() < 0.4
        yield from self.led_by(em, live) if is_anew else self.reading_to(em, live)
        yield word, {"em": em, "object": live.number}
        roll = self.random.random()
        if roll < 0.2:
            yield "persist", {"em": em, "object": live.number}
        elif roll < 0.5:
            for relation in above.entity.relations.values():
                if live in above.read_of(relation):
                    yield self.unlinked(above, relation, live)
        elif roll < 0.6 and None not in live.key():
            yield self.finding(em, live)
        if self.random.random() < 0.3:
            yield from self.apart(em)
        yield from self.working(em)
        yield from self.ending(em)

    def orphaned_later(self, em: int) -> Plot:
        """The members of a relation change, with transactions between; what leaves it then may be
        an orphan."""
        live = self.managed(em, lambda each: self.orphaning(em, each))
        if live is None or not live.entity.relations:
            return
        wanted = self.orphaning(em, live) or list(live.entity.relations.values())
        relation, added = self.random.choice(wanted), None
        yield from self.working(em)
        for _ in range(self.random.randint(2, 4)):
            held = live.read_of(relation)
            if not live.is_managed(self.machine.managers[em - 1]):
                break
            if live.is_unread(relation):
                yield "get", {"object": live.number, "name": relation.name}
            elif held and self.random.random() < 0.55:
                is_new = added in held and self.random.random() < 0.6
                leaving = added if is_new else self.random.choice(held)
                yield from self.reading_to(em, leaving)
                yield self.unlinked(live, relation, leaving)
            else:
                is_new = self.random.random() < 0.6
                added = yield from (self.shaping(em, self.some_class(relation.target)) if is_new
                                    else self.chosen(em, relation, live))
                if added is None:
                    break
                yield from self.linking(live, relation, added, self.random.random() < 0.8)
            if self.random.random() < 0.7:
                yield from self.working(em)
                yield "commit", {"em": em}
        yield from self.working(em)
        yield from self.ending(em)

    def orphan_led_to(self, em: int) -> Plot:
        """A member leaves a relation that removes orphans, while others lead to it that are not
        touched."""
        live = self.managed(em, lambda each: self.orphaning(em, each))
        wanted = self.orphaning(em, live) if live else []
        if not wanted:
            return
        relation = self.random.choice(wanted)
        yield "get", {"object": live.number, "name": relation.name}
        held = [other for other in live.read_of(relation) if other.is_managed(live.held)]
        if not held:
            return
        leaving = self.random.choice(held)
        yield from self.reading_to(em, leaving)
        if self.random.random() < 0.6:
            yield from self.led_by(em, leaving)
        yield self.unlinked(live, relation, leaving)
        yield from self.working(em)
        yield from self.ending(em)

    def shared(self, em: int) -> Plot:
        """What is held here leads to an object that another manager makes, holds, removes or lets
        go, while this one commits."""
        others = self.others(em)
        live = self.managed(em, lambda each: each.entity.relations)
        if not others or live is None or not live.entity.relations:
            return
        other_em = self.random.choice(others)
        relation = self.random.choice(list(live.entity.relations.values()))
        yield from self.settled(em)
        if self.random.random() < 0.4:
            theirs = yield from self.shaping(other_em, self.some_class(relation.target))
            if theirs is None:
                return
        else:
            near = self.fitting(em, relation, live)
            theirs = near and None not in near.key() and (yield from self.found(other_em, near))
        if not theirs or not theirs.entity.is_a(relation.target):
            return
        yield from self.linking(live, relation, theirs, self.random.random() < 0.3)
        yield from self.working(other_em)
        if theirs.held == "new":
            yield "persist", {"em": other_em, "object": theirs.number}
        elif self.random.random() < 0.6:
            on_theirs = {"em": other_em, "object": theirs.number}
            yield self.random.choice([("remove", on_theirs), ("detach", on_theirs),
                                      ("clear", {"em": other_em}), self.modest(theirs)])
        yield self.random.choice(["commit", "commit", "rollback"]), {"em": other_em}
        if self.random.random() < 0.2:
            yield self.unlinked(live, relation, theirs)
        yield from self.working(em)
        yield from self.ending(em)

    def both_hold(self, em: int) -> Plot:
        """Two managers hold the same identities, and touch, flush and commit them by turns."""
        others = self.others(em)
        if not others:
            return
        other_em = self.random.choice(others)
        for _ in range(self.random.randint(2, 5)):
            here = self.random.choice([em, em, other_em])
            live = self.managed(self.random.choice([em, other_em]))
            if live is None or None in live.key():
                return
            mine = yield from self.found(here, live)
            if mine and not mine.is_removed:
                yield from self.touching(here, mine)
            if self.random.random() < 0.5:
                yield from self.working(here)
                yield self.random.choice(["flush", "commit", "commit"]), {"em": here}
        for here in (em, other_em):
            yield from self.working(here)
            yield "commit", {"em": here}

    def refused_apart(self, em: int) -> Plot:
        """Outside a transaction a cascade is refused after some of its way, so that all is undone;
        then a transaction follows."""
        yield from self.settled(em)
        word = self.random.choice(["persist", "persist", "remove", "refresh", "merge"])
        live = self.managed(em, lambda each: any(self.cascading(each, word.upper())))
        relations = self.cascading(live, word.upper()) if live else []
        if not relations:
            return
        relation, other = self.random.choice(relations), None
        yield from self.around(em, live, 1)
        if relation.is_many and self.random.random() < 0.7:
            new = yield from self.shaping(em, self.some_class(relation.target))
            if new:
                yield from self.linking(live, relation, new)
        other = self.fitting(em, relation, live)
        if other is None:
            return
        yield self.linked(live, relation, other)
        yield "detach", {"em": em, "object": other.number}
        yield word, {"em": em, "object": live.number}
        if self.random.random() < 0.8:
            yield self.unlinked(live, relation, other)
        yield from self.working(em)
        yield from self.ending(em)

    def named_later(self, em: int) -> Plot:
        """A managed object holds a new one whose key is set afterwards, or that is persisted by
        another call or manager."""
        yield from self.settled(em)
        live = self.managed(em, lambda each: any(not relation.cascades("PERSIST")
                                                 for relation in each.entity.relations.values()))
        if live is None or not live.entity.relations:
            return
        relations = list(live.entity.relations.values())
        apart = [each for each in relations if not each.cascades("PERSIST")]
        relation = self.random.choice(apart or relations)
        other = yield from self.shaping(em, self.some_class(relation.target))
        if other is None:
            return
        yield self.linked(live, relation, other)
        yield from self.apart(em)
        if not other.entity.generated:
            for name, part in zip(other.entity.key, self.fresh_key(other.entity)):
                yield "set", {"object": other.number, "name": name, "value": self.given(part)}
        em_of_it = self.random.choice([em, *self.others(em)])
        yield from self.working(em_of_it)
        yield "persist", {"em": em_of_it, "object": other.number}
        if em_of_it != em:
            yield "commit", {"em": em_of_it}
        yield from self.working(em)
        yield from self.ending(em)
