"""Plots of tests/fuzz/hostile-lines about relations: objects that lead to one another, which are
stored, read again, changed and removed along cascades."""
from __future__ import annotations

from typing import TYPE_CHECKING, Any, Callable


if TYPE_CHECKING:
    from fuzz.kinds import Plot
    from model.kinds import Part, Values
    from model.live import Live
    from model.unit import Entity, Relation


def cascading(operation: str) -> Callable[..., Any]:
    return lambda relation: relation.cascades(operation)


class LinkPlots:
    """The plots over the relations of a machine's unit. Each is a generator of calls, as their
    words and members."""

    def link_plots(self) -> list[Callable[..., Any]]:
        return [
            self.family, self.family, self.orphaned, self.orphaned, self.refused_link,
            self.removed_family, self.read_apart, self.read_again, self.handed_over, self.once_more,
            self.merged_family, self.merged_family, self.merged_family, self.new_family,
            self.new_family,
        ]

    # -- what a plot looks at

    def some_relation(self, wanted: Callable[..., Any]) -> tuple[Entity, Relation]:
        """An entity with one of its relations, mostly one that is wanted."""
        found = [
            (entity, relation)
            for entity in self.machine.unit.entities.values()
            for relation in entity.relations.values()
        ]
        chosen = [pair for pair in found if wanted(pair[1])]
        return self.random.choice(chosen if chosen and self.random.random() < 0.7 else found)

    def some_class(self, entity: Entity) -> Entity:
        """An entity or one of its subclasses."""
        return self.random.choice(
            [each for each in self.machine.unit.entities.values() if each.is_a(entity)]
        )

    def other_side(self, relation: Relation) -> Relation | None:
        """The relation on the other side of one, if there is one."""
        if not relation.owns:
            return relation.owner
        return next(
            (each for each in relation.target.relations.values() if each.owner is relation), None
        )

    def linking(self, live: Live, relation: Relation, other: Live, is_whole: bool = True) -> Plot:
        """Calls after which an object leads to another one, and mostly the other one back."""
        yield self.linked(live, relation, other)
        back = self.other_side(relation)
        if back and other.entity.has(back) and is_whole:
            yield self.linked(other, back, live)

    def linked(
        self, live: Live, relation: Relation, other: Live
    ) -> tuple[str, dict[str, Part | dict[str, int]]]:
        if relation.is_many:
            return "add", {"object": live.number, "name": relation.name, "member": other.number}
        return "set", {
            "object": live.number, "name": relation.name, "value": {"object": other.number},
        }

    def unlinked(
        self, live: Live, relation: Relation, other: Live | None = None
    ) -> tuple[str, Values]:
        if relation.is_many:
            held = [other] if other else live.read_of(relation) if live.entity.has(relation) else []
            number = self.random.choice(held).number if held else self.object()
            return "takeOut", {"object": live.number, "name": relation.name, "member": number}
        return "set", {"object": live.number, "name": relation.name, "value": None}

    def reading(self, live: Live) -> Plot:
        """Calls that get what an object holds in its relations."""
        for relation in live.entity.relations.values():
            if self.random.random() < 0.7:
                yield "get", {"object": live.number, "name": relation.name}

    def another(self, em: int, entity: Entity, most: float = 0.5) -> Plot:
        """Calls that give an object of the entity or a subclass, be it one that the manager holds
        already."""
        held = [
            live
            for live in self.held_by(em)[-12:]
            if live.entity.is_a(entity) and not live.is_removed
        ]
        if held and self.random.random() < most:
            return self.random.choice(held)
        return (yield from self.shaping(em, self.some_class(entity)))

    def found(self, em: int, live: Live) -> Plot:
        """The call that finds an object's identity, and the manager's instance of it."""
        yield self.finding(em, live)
        return next((each for each in self.held_by(em) if each.identity() == live.identity()), None)

    def tied(self, em: int, wanted: Callable[..., Any] = lambda relation: True) -> Plot:
        """Calls that make an object with members in one of its relations, and persist what no
        cascade reaches."""
        entity, relation = self.some_relation(wanted)
        live = yield from self.another(em, entity, 0.2)
        if live is None:
            return None
        lives = [live]
        for _ in range(self.random.choice([1, 1, 2, 3]) if relation.is_many else 1):
            other = yield from self.another(em, relation.target, 0.3)
            if other:
                lives.append(other)
                yield from self.linking(live, relation, other, self.random.random() < 0.85)
                if relation.is_many and self.random.random() < 0.2:
                    yield self.linked(live, relation, other)
        yield "persist", {"em": em, "object": live.number}
        for other in lives:
            if other.held == "new" and self.random.random() < 0.93:
                yield "persist", {"em": em, "object": other.number}
        return lives, relation

    def stored(self, em: int, wanted: Callable[..., Any] = lambda relation: True) -> Plot:
        """Calls that tie objects and commit or flush them; a transaction is open then, and the
        manager has let them go or not."""
        made = yield from self.tied(em, wanted)
        if made is None:
            return None
        yield self.random.choice(["commit", "commit", "flush"]), {"em": em}
        if self.random.random() < 0.7:
            yield "clear", {"em": em}
        yield from self.beginning(em)
        return made

    def stored_at_work(self, wanted: Callable[..., Any] = lambda relation: True) -> Plot:
        """The same by a manager at work: the manager, the objects and the relation."""
        em = yield from self.at_work()
        made = em and (yield from self.stored(em, wanted))
        return (em, *made) if made else None

    def owner_found(self, wanted: Callable[..., Any]) -> Plot:
        """The same, and the call that finds the first of them, which has the relation: the manager,
        its instance, the others and the relation."""
        made = yield from self.stored_at_work(wanted)
        if made is None:
            return None
        em, (first, *others), relation = made
        live = yield from self.found(em, first)
        if live is None or not live.entity.has(relation):
            return None
        return em, live, others, relation

    # -- plots

    def family(self) -> Plot:
        """Objects that lead to one another are stored, found and read again, and their relations
        changed."""
        made = yield from self.owner_found(cascading("PERSIST"))
        if made is None:
            return
        em, live, others, relation = made
        yield from self.reading(live)
        for _ in range(self.random.randint(1, 4)):
            word = self.random.choice(["add", "takeOut", "set", "flush", "get", "other"])
            if word == "add":
                other = yield from self.another(em, relation.target, 0.4)
                if other:
                    yield from self.linking(live, relation, other, self.random.random() < 0.7)
            elif word == "takeOut":
                yield self.unlinked(live, relation)
            elif word == "set":
                yield self.change(live)
            elif word == "flush":
                yield "flush", {"em": em}
            elif word == "get":
                yield from self.reading(live)
            elif others:
                other = yield from self.found(em, self.random.choice(others))
                if other:
                    yield from self.reading(other)
        yield self.random.choice(["flush", "commit", "commit"]), {"em": em}
        yield from self.reading(live)
        yield self.random.choice(["commit", "rollback", "clear"]), {"em": em}

    def orphaned(self) -> Plot:
        """What leaves a relation is an orphan or not, and moves, is let go, removed or persisted
        before and after the flush."""
        made = yield from self.owner_found(lambda relation: relation.removes_orphans)
        if made is None:
            return
        em, live, _, relation = made
        if relation.is_many or self.random.random() < 0.5:
            yield "get", {"object": live.number, "name": relation.name}
        held = live.read_of(relation)
        other = self.random.choice(held) if held else None
        if not relation.is_many and self.random.random() < 0.5:
            following = yield from self.another(em, relation.target, 0.3)
            if following:
                yield self.linked(live, relation, following)
        else:
            yield self.unlinked(live, relation, other)
        for _ in range(self.random.choice([0, 1, 1, 2])):
            word = self.random.choice(
                ["remove", "detach", "persist", "move", "add", "unlink", "remove owner"]
            )
            if other and word in ("remove", "detach", "persist"):
                yield word, {"em": em, "object": other.number}
            elif other and word == "move":
                rival = yield from self.another(em, relation.declaring, 0.6)
                if rival and rival.entity.has(relation):
                    yield from self.linking(rival, relation, other)
            elif other and word == "add":
                yield self.linked(live, relation, other)
            elif other and word == "unlink":
                yield self.unlinked(other, self.side_of(other, relation))
            elif word == "remove owner":
                yield "remove", {"em": em, "object": live.number}
        yield self.random.choice(["flush", "flush", "commit"]), {"em": em}
        yield from self.reading(live)
        if self.random.random() < 0.5:
            yield "flush", {"em": em}
        yield self.random.choice(["commit", "commit", "rollback"]), {"em": em}

    def refused_link(self) -> Plot:
        """A link that a flush may refuse: to a removed, new or detached object, to one that another
        owns, or none where one is required."""
        em = yield from self.at_work()
        can_be_refused = self.random.choice(
            [
                lambda each: each.owns and each.kind == "oneToOne",
                lambda each: each.is_required,
                lambda each: each.owns,
            ]
        )
        made = em and (yield from self.tied(em, can_be_refused))
        if not made:
            return
        (live, *others), relation = made
        if self.random.random() < 0.6:
            yield "flush", {"em": em}
        rival = None
        for _ in range(self.random.choice([1, 1, 1, 2])):
            word = self.random.choice(
                ["remove", "new", "detach", "rival", "rival", "null", "required", "remove"]
            )
            if word in ("remove", "detach") and others:
                yield word, {"em": em, "object": self.random.choice(others).number}
            elif word == "new":
                other = yield from self.shaping(em, self.some_class(relation.target))
                if other:
                    yield self.linked(live, relation, other)
            elif word == "rival" and others:
                rival = yield from self.another(
                    em, self.random.choice([relation.declaring, live.entity]), 0.2
                )
                if rival and rival.entity.has(relation):
                    yield self.linked(rival, relation, self.random.choice(others))
                    yield "persist", {"em": em, "object": rival.number}
            elif word == "null":
                yield self.unlinked(live, relation)
            elif word == "required":
                needed = [
                    (each, one)
                    for each in [live, *others]
                    for one in each.entity.owned
                    if one.is_required
                ]
                if needed:
                    yield self.unlinked(*self.random.choice(needed))
        yield self.random.choice(["flush", "commit"]), {"em": em}
        for each in [live, *others, *([rival] if rival else [])]:
            yield from self.reading(each)
        yield self.random.choice(["commit", "rollback"]), {"em": em}

    def one_found(self, operation: str) -> Plot:
        """Calls that store related objects along a cascade of the operation and find one of them:
        the manager, it, all and the relation."""
        made = yield from self.stored_at_work(cascading(operation))
        if made is None:
            return None
        em, lives, relation = made
        live = yield from self.found(
            em, lives[0] if self.random.random() < 0.7 else self.random.choice(lives)
        )
        return None if live is None else (em, live, lives, relation)

    def removed_family(self) -> Plot:
        """An object is removed, of which relations were read or not; what leads to it is taken out
        or not; and perhaps it is persisted again."""
        begun = yield from self.one_found("REMOVE")
        if begun is None:
            return
        em, live, lives, relation = begun
        if self.random.random() < 0.25:
            yield from self.reading(live)
        if self.random.random() < 0.3:
            other = yield from self.found(em, self.random.choice(lives))
            if other and other is not live:
                yield from self.reading(other)
                yield self.random.choice(["remove", "detach"]), {"em": em, "object": other.number}
        yield "remove", {"em": em, "object": live.number}
        for each in lives[1:]:
            other = yield from self.found(em, each)
            if other and not other.is_removed and self.random.random() < 0.6:
                yield (
                    "remove",
                    {"em": em, "object": other.number},
                ) if self.random.random() < 0.5 else self.unlinked(
                    other, self.side_of(other, relation)
                )
        yield self.random.choice(["flush", "flush", "commit"]), {"em": em}
        if self.random.random() < 0.4:
            yield "persist", {"em": em, "object": live.number}
            yield from self.reading(live)
        yield self.random.choice(["commit", "rollback", "flush"]), {"em": em}
        yield from self.reading(live)

    def side_of(self, live: Live, relation: Relation) -> Relation:
        """The relation, or its other side, or any one that the object has."""
        sides = [
            each for each in (relation, self.other_side(relation)) if each and live.entity.has(each)
        ]
        return self.random.choice(sides or list(live.entity.relations.values()) or [relation])

    def read_apart(self) -> Plot:
        """What was not read of an object that its manager let go is asked for, and changed."""
        made = yield from self.stored_at_work(cascading("DETACH"))
        if made is None:
            return
        em, lives, _ = made
        live = yield from self.found(em, lives[0])
        if live is None or not live.entity.relations:
            return
        if self.random.random() < 0.5:
            yield "get", {
                "object": live.number,
                "name": self.random.choice(list(live.entity.relations)),
            }
        yield self.random.choice(["detach", "detach", "clear", "rollback"]), {
            "em": em,
            "object": live.number,
        }
        if self.random.random() < 0.5:
            yield "clear", {"em": em}
        yield from self.reading(live)
        relation = self.random.choice(list(live.entity.relations.values()))
        other = yield from self.another(em, relation.target)
        if other:
            yield self.random.choice([self.linked, self.unlinked])(live, relation, other)
        yield from self.reading(live)
        again = yield from self.found(em, live)
        if again and again is not live:
            yield from self.reading(again)
            back = self.other_side(relation)
            if other and back and other.entity.has(back):
                yield self.linked(other, back, self.random.choice([live, again]))
        yield from self.beginning(em)
        yield self.random.choice(["flush", "commit"]), {"em": em}

    def read_again(self) -> Plot:
        """What an object holds is changed and refreshed, also along cascades."""
        begun = yield from self.one_found("REFRESH")
        if begun is None:
            return
        em, live, lives, _ = begun
        yield from self.reading(live)
        for _ in range(self.random.randint(1, 3)):
            relations = [each for each in live.entity.relations.values() if live.read_of(each)]
            if relations:
                relation = self.random.choice(relations)
                other = self.random.choice(live.read_of(relation))
                yield self.random.choice(
                    [
                        self.change(other), self.unlinked(live, relation),
                        self.linked(live, relation, other),
                    ]
                )
                if self.random.random() < 0.25:
                    yield self.random.choice(["remove", "detach", "flush"]), {
                        "em": em,
                        "object": other.number,
                    }
        yield self.random.choice(["refresh", "refresh", "refresh", "detach"]), {
            "em": em,
            "object": live.number,
        }
        yield from self.reading(live)
        yield self.random.choice(["commit", "rollback"]), {"em": em}

    def handed_over(self) -> Plot:
        """An object of another manager is linked to, added and taken out."""
        managers = self.open_ones()
        made = (yield from self.stored_at_work()) if len(managers) > 1 else None
        if made is None:
            return
        em, lives, _ = made
        other_em = self.random.choice([each for each in managers if each != em])
        theirs = yield from self.found(other_em, self.random.choice(lives))
        live = yield from self.found(em, lives[0])
        if theirs is None or live is None:
            return
        if self.random.random() < 0.5:
            yield from self.reading(theirs)
        if self.random.random() < 0.25:
            yield "remove", {"em": other_em, "object": theirs.number}
        fitting = [
            each for each in live.entity.relations.values() if theirs.entity.is_a(each.target)
        ]
        if fitting:
            relation = self.random.choice(fitting)
            yield self.linked(live, relation, theirs)
            if self.random.random() < 0.3:
                yield self.unlinked(live, relation, theirs)
        yield self.random.choice(["remove", "refresh", "persist", "flush", "flush", "detach"]), {
            "em": em,
            "object": live.number,
        }
        yield from self.reading(live)
        yield self.random.choice(["commit", "commit", "rollback"]), {"em": em}

    def once_more(self) -> Plot:
        """What another manager changed of a collection since it was loaded, or read, is read, kept
        or written over."""
        managers = self.open_ones()
        if len(managers) < 2:
            return
        made = yield from self.stored_at_work(lambda each: each.owns and each.is_many)
        if made is None:
            return
        em, (first, *_), relation = made
        yield "commit", {"em": em}
        live = yield from self.found(em, first)
        if live is None or not live.entity.has(relation):
            return
        if self.random.random() < 0.4:
            yield from self.reading(live)
        other_em = self.random.choice([each for each in managers if each != em])
        yield from self.beginning(other_em)
        theirs = yield from self.found(other_em, live)
        if theirs is None:
            return
        yield "get", {"object": theirs.number, "name": relation.name}
        if theirs.read_of(relation) and self.random.random() < 0.4:
            yield self.unlinked(theirs, relation)
        else:
            other = yield from self.another(other_em, relation.target, 0.3)
            if other:
                if other.held == "new":
                    yield "persist", {"em": other_em, "object": other.number}
                yield self.linked(theirs, relation, other)
        yield "commit", {"em": other_em}
        if self.random.random() < 0.5:
            yield from self.reading(live)
        yield from self.beginning(em)
        if self.random.random() < 0.3:
            mine = yield from self.another(em, relation.target)
            if mine:
                yield self.random.choice([self.linked, self.unlinked])(live, relation, mine)
        if self.random.random() < 0.5:
            yield self.change(live)
        yield self.random.choice(["flush", "commit"]), {"em": em}
        yield from self.reading(live)
        yield self.random.choice(["commit", "commit", "rollback"]), {"em": em}

    def merged_family(self) -> Plot:
        """What was stored and let go, with relations that were read or not, is changed and merged
        onto what the manager has, reads or removed."""
        em = yield from self.at_work()
        wanted = self.random.choice(
            [
                cascading("MERGE"), cascading("MERGE"), lambda each: each.removes_orphans,
                lambda each: each.owns,
            ]
        )
        made = em and (yield from self.stored(em, wanted))
        if not made:
            return
        lives, relation = made
        apart = lives[0]
        if self.random.random() < 0.6:
            apart = yield from self.found(em, self.random.choice(lives))
            if apart is None:
                return
            if self.random.random() < 0.7:
                yield from self.reading(apart)
        if self.random.random() < 0.85:
            yield "clear", {"em": em}
        for _ in range(self.random.randint(0, 3)):
            yield from self.changing_apart(em, apart, lives)
        if self.random.random() < 0.25:
            yield from self.stale_for(em, apart)
            yield from self.beginning(em)
        if self.random.random() < 0.35:
            other = yield from self.found(em, self.random.choice([apart, *lives]))
            if other:
                yield from self.reading(other)
                if self.random.random() < 0.4:
                    yield self.random.choice(["remove", "remove", "detach"]), {
                        "em": em,
                        "object": other.number,
                    }
        yield from self.merging(em, apart)

    def changing_apart(self, em: int, live: Live, lives: list[Live]) -> Plot:
        """Calls that change an object which no manager holds: its values, and what it leads to."""
        relations = list(live.entity.relations.values())
        word = self.random.choice(["set", "link", "unlink", "unlink", "empty", "new", "copy"])
        if word == "set" or not relations:
            yield self.change(live)
            return
        relation = self.random.choice(relations)
        if word == "unlink":
            yield self.unlinked(live, relation)
        elif word == "empty":
            for other in list(live.read_of(relation)):
                yield self.unlinked(live, relation, other)
        elif word == "link":
            other = self.random.choice(lives)
            if other.entity.is_a(relation.target):
                yield self.linked(live, relation, other)
        else:
            near = [
                each
                for each in lives
                if each.entity.is_a(relation.target) and None not in each.key()
            ]
            copied = word == "copy" and near
            other = (
                (yield from self.copying(self.random.choice(near)))
                if copied
                else (yield from self.shaping(em, self.some_class(relation.target)))
            )
            if other:
                yield from self.linking(live, relation, other, self.random.random() < 0.5)

    def merging(self, em: int, live: Live) -> Plot:
        """Calls that merge an object and look at its image, then flush and end the transaction."""
        yield "merge", {"em": em, "object": live.number}
        newest = self.machine.objects[-1] if self.machine.objects else None
        image = next(
            (each for each in self.held_by(em) if each.identity() == live.identity()), newest
        )
        if image and self.random.random() < 0.7:
            yield from self.reading(image)
        if self.random.random() < 0.2:
            yield "merge", {"em": em, "object": live.number}
        yield self.random.choice(["flush", "commit"]), {"em": em}
        if image:
            yield from self.reading(image)
        yield self.random.choice(["commit", "commit", "rollback", "flush"]), {"em": em}

    def new_family(self) -> Plot:
        """New objects that lead to one another and to managed ones are merged, from a new one or
        from a managed one."""
        em = yield from self.at_work()
        if em is None:
            return
        entity, relation = self.some_relation(cascading("MERGE"))
        live = yield from self.another(em, entity, 0.4)
        if live is None or not live.entity.has(relation):
            return
        if live.held == "new" and self.random.random() < 0.4:
            yield "persist", {"em": em, "object": live.number}
        for _ in range(self.random.choice([1, 2, 3]) if relation.is_many else 1):
            other = yield from self.another(em, relation.target, 0.25)
            if other is None:
                return
            yield from self.linking(live, relation, other, self.random.random() < 0.6)
            if other.held == "new" and None not in other.key() and self.random.random() < 0.2:
                copy = yield from self.copying(other)
                if copy and copy.entity.is_a(relation.target):
                    yield self.linked(live, relation, copy)
        yield from self.merging(em, live)
