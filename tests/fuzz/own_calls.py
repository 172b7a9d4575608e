"""The calls that are the provider's own, for tests/fuzz/hostile-lines: what objects hold, which
callbacks a flush would run, what is to be looked up, and restarts with what follows them."""
from __future__ import annotations

from typing import TYPE_CHECKING, Any

from model.reading import GREATEST, LEAST, Refused

if TYPE_CHECKING:
    from fuzz.kinds import Call, Members, Plot
    from model.live import Live

# The calls that may flush.
FLUSHING = {"flush", "commit", "query", "querySingle", "executeUpdate"}
ENDING = ["commit", "rollback", "rollback"]
NAMES = ["", "at", "at.", "version", "Name", "name ", "name", "id", "\0", "a" * 65536]


class OwnMakers:
    """The makers of these calls, beside those of tests/fuzz/lines.py, and plots of them."""

    # How often what objects hold is asked between other calls; how often a flush is asked for
    # before it comes, where it tells something then, and where it doesn't.
    shown_share, due_share, asked_share = 0.025, 0.6, 0.06

    def values(self) -> Members:
        """Some objects, of one state or of any, also twice and none, or all of the last ones."""
        recent, roll = self.machine.objects[-30:], self.random.random()
        if roll < 0.05:
            return {"objects": []}
        if roll < 0.25:
            return {"objects": [live.number for live in recent]}
        state = self.random.choice(sorted({state_of(live) for live in recent}) or ["new"])
        count = self.random.choice([1, 1, 2, 3, 5])
        numbers = [self.object(lambda live: state_of(live) == state) for _ in range(count)]
        times = 1 if roll < 0.93 else 2 if roll < 0.995 else 700
        return {"objects": numbers * times}

    def pending(self) -> Members:
        return {"em": self.em(0.9)}

    def restart(self) -> Members:
        return {}

    def index(self) -> Members:
        """A member of an entity, of any sort, or of another one."""
        entities = self.machine.unit.entities
        name = self.entity()
        chosen = entities.get(name if self.random.random() < 0.9 else self.entity())
        members = [*chosen.key, *chosen.attributes, *chosen.relations] if chosen else []
        if chosen and chosen.version:
            members.append(chosen.version["name"])
        odd = not members or self.random.random() < 0.1
        return {"entity": name, "name": self.random.choice(NAMES if odd else members)}

    # -- between other calls

    def next_call(self) -> Call:
        """The next call: after a restart the first one of what follows; a call that was kept back;
        or any, perhaps after one that asks and changes nothing."""
        if self.managers is not self.machine.managers:
            self.managers, self.kept, self.plot = self.machine.managers, [], self.reopening()
        if not self.kept:
            call = self.call()
            self.kept = [call, *self.asked_before(*call)]
        return self.kept.pop()

    def asked_before(self, word: str, members: Members) -> list[Call]:
        """The calls, the last one first, that ask something before another one."""
        roll = self.random.random()
        if word in FLUSHING:
            is_due = self.is_due(members["em"])
            if roll < (self.due_share if is_due else self.asked_share):
                return [("pending", {"em": members["em"]})] * (2 if roll < 0.02 else 1)
        return [("values", self.values())] if roll > 1 - self.shown_share else []

    def is_due(self, em: int) -> bool:
        """Whether a flush that came now would tell something before its writes."""
        try:
            return bool(self.machine.pending([], em))
        except Refused:
            return False

    # -- plots

    def shown(self) -> Plot:
        """What an object and others hold is asked again and again, while it is read along its
        relations, changed, removed, written, and let go."""
        em = yield from self.at_work()
        if em is None:
            return
        live = self.some_held(em)
        if live is None or self.random.random() < 0.4:
            yield from self.making(em)
            live = self.some_held(em)
        if live is None:
            return
        for _ in range(self.random.randint(2, 6)):
            yield from self.stepping(em, live)
            near = [other.number for each in live.entity.relations.values()
                    for other in live.read_of(each)]
            yield "values", {"objects": [live.number, *near, *near[:1]]}
        yield self.random.choice(["commit", "commit", "rollback"]), {"em": em}
        yield "values", {"objects": [live.number]}

    def stepping(self, em: int, live: Live) -> Plot:
        """A call or two on an object, after which it mostly holds something else."""
        word = self.random.choice(["read", "read", "set", "link", "remove", "persist", "refresh",
                                   "detach", "flush", "commit", "clear", "find"])
        relations = list(live.entity.relations.values())
        if word == "read":
            yield from self.reading(live)
        elif word == "set" or word == "link" and not relations:
            yield self.change(live)
        elif word == "link":
            relation = self.random.choice(relations)
            other = yield from self.another(em, relation.target, 0.7)
            if other:
                yield self.linked(live, relation, other)
        elif word == "find":
            yield self.finding(em, live)
        elif word in ("flush", "commit", "clear"):
            yield word, {"em": em}
        else:
            yield word, {"em": em, "object": live.number}

    def asked(self) -> Plot:
        """What a flush would run is asked again and again, while an object is changed, others are
        added to it and taken out, and removed; then it is flushed, or not."""
        made = self.has_relations and (yield from self.owner_found(
            lambda relation: relation.removes_orphans or relation.cascades("PERSIST")))
        em = made[0] if made else (yield from self.at_work())
        live = made[1] if made else em and self.some_held(em)
        if not live:
            return
        yield from self.reading(live)
        for _ in range(self.random.randint(2, 5)):
            yield from self.moving(em, live)
            yield "pending", {"em": em}
            if self.random.random() < 0.2:
                yield from self.looking(self.machine.objects[-2:])
        roll = self.random.random()
        yield self.random.choice(["flush", "commit", "commit"]), {"em": em}
        yield self.random.choice(ENDING) if roll < 0.5 else "pending", {"em": em}

    def moving(self, em: int, live: Live) -> Plot:
        """Calls after which a flush has more to do with an object, or with what it leads to."""
        relations = list(live.entity.relations.values())
        word = self.random.choice(["add", "add", "take", "take", "set", "null", "remove", "detach"])
        relation = self.random.choice(relations) if relations else None
        near = live.read_of(relation) if relation else []
        if word == "add" and relation:
            other = yield from self.another(em, relation.target, 0.3)
            if other:
                yield from self.linking(live, relation, other, self.random.random() < 0.7)
        elif word == "take" and near:
            yield self.unlinked(live, relation)
        elif word in ("remove", "detach") and near:
            yield word, {"em": em, "object": self.random.choice(near).number}
        elif word == "null":
            yield "set", {"object": live.number, "name": self.some_attribute(live), "value": None}
        else:
            yield self.change(live)

    def restarting(self) -> Plot:
        """A restart, also of up to 16 managers with transactions, while some are open; and once
        they are ended. What follows is another plot."""
        if self.random.random() < 0.3:
            for _ in range(self.random.choice([2, 16])):
                yield "createEntityManager", {}
            for em in self.open_ones():
                if self.random.random() < 0.5:
                    yield "begin", {"em": em}
        if self.begun() and self.random.random() < 0.7:
            yield "restart", {}
        for em in self.open_ones():
            if self.machine.managers[em - 1].is_begun:
                yield self.random.choice(ENDING), {"em": em}
            if self.random.random() < 0.05:
                yield "close", {"em": em}
        yield "restart", {}

    def reopening(self) -> Plot:
        """What follows a restart: numbers of before are named; managers are made, and what is
        committed is found by them, changed, and committed with new objects."""
        for _ in range(self.random.choice([0, 0, 1, 2])):
            yield self.of_before()
        for _ in range(self.random.choice([1, 2, self.crowd, 17])):
            yield "createEntityManager", {}
        em = self.random.choice(self.open_ones()[:4] or [1])
        if self.random.random() < 0.7:
            yield "begin", {"em": em}
        stored = list(self.machine.committed.objects)
        for identity in self.random.sample(stored, min(len(stored), self.random.randint(1, 6))):
            yield self.found_again(em, *identity)
        for live in self.machine.objects[:3]:
            yield self.random.choice([self.change(live), ("values", self.values())])
        for _ in range(self.random.randint(0, 2)):
            yield from self.making(em)
        yield self.random.choice(["flush", "commit", "commit"]), {"em": em}

    def found_again(self, em: int, name: str, key: Any) -> Call:
        return "find", {"em": em, "entity": name, "key": [self.given(part) for part in key]}

    def of_before(self) -> Call:
        """A call that names a manager and an object by numbers that may have been theirs."""
        em, number = self.random.choice([1, 1, 2, 3, 16]), self.random.randint(1, 60)
        return self.random.choice([
            ("contains", {"em": em, "object": number}), ("commit", {"em": em}),
            ("values", {"objects": [number]}), ("persist", {"em": em, "object": number}),
            ("pending", {"em": em}), ("values", {"objects": [1, GREATEST, LEAST]}),
        ])


def state_of(live: Live) -> str:
    if live.held in ("new", "detached"):
        return live.held
    return "removed" if live.is_removed else "managed"
