"""Plots of tests/fuzz/lines.py: calls that follow on one another, so that what is rare among calls
by chance comes often. A plot gives the next call once the last one was answered; other calls may
come between.
"""
from __future__ import annotations

from typing import TYPE_CHECKING, Any

from fuzz.links import LinkPlots
from model.reading import UNSERVED

if TYPE_CHECKING:
    from fuzz.kinds import Plot
    from model.kinds import Part, Value, Values
    from model.live import Live
    from model.reading import Number
    from model.unit import Entity, Relation


class Plots(LinkPlots):
    """The plots over a machine. Each is a generator of calls, as their words and members."""

    def some_plot(self) -> Plot:
        if self.random.random() < 0.11:
            return self.random.choice([self.restarting, self.shown, self.asked])()
        if "query" not in UNSERVED and self.random.random() < 0.4:
            return self.queried()
        if self.has_relations and self.random.random() < 0.6:
            return self.random.choice(self.link_plots())()
        plots = [
            self.one_object, self.another_writes, self.flushes, self.same_key_again,
            self.refused_flush, self.locked, self.copied, self.many_managers,
        ]
        return self.random.choices(plots, [4, 4, 3, 3, 4, 9, 7, 0.4])[0]()

    # -- what a plot looks at

    def open_ones(self) -> list[int]:
        return [n for n, manager in enumerate(self.machine.managers, 1) if manager.is_open]

    def begun(self) -> int | None:
        begun = [n for n in self.open_ones() if self.machine.managers[n - 1].is_begun]
        return self.random.choice(begun) if begun else None

    def newest(self) -> int:
        return len(self.machine.objects)

    def a_value(self, live: Live, name: str) -> Value | Values:
        return self.given(self.value(self.kind(live.entity, name)))

    def some_attribute(self, live: Live) -> str:
        return self.random.choice(list(live.entity.attributes) or ["name"])

    def change(self, live: Live) -> tuple[str, dict[str, Value | Values]]:
        name = self.some_attribute(live)
        return "set", {"object": live.number, "name": name, "value": self.a_value(live, name)}

    def finding(self, em: int, live: Live) -> Any:
        key = [self.given(part) for part in live.key()]
        classes = [
            name
            for name, entity in self.machine.unit.entities.items()
            if entity.root is live.entity.root
        ]
        name = self.random.choice(classes) if self.random.random() < 0.4 else live.entity.name
        return self.random.choice(["find", "find", "getReference"]), {
            "em": em, "entity": name, "key": key,
        }

    def beginning(self, em: int) -> Plot:
        """Calls after which the manager has an open transaction, mostly one that can commit; those
        of others mostly stay open."""
        manager = self.machine.managers[em - 1]
        if manager.is_begun and (not manager.is_marked or self.random.random() < 0.3):
            return
        ending = em if manager.is_begun else self.begun() if self.random.random() < 0.3 else None
        if ending:
            yield self.random.choice(["commit", "commit", "rollback"]), {"em": ending}
        yield "begin", {"em": em}

    def making(self, em: int, key: Any = None) -> Plot:
        """Calls that make an object and persist it; its key is that, if one is given."""
        if not self.machine.unit.entities:
            return
        roots = [
            entity
            for entity in self.machine.unit.entities.values()
            if key is None or list(entity.root.key.values()) == list(map(type, key))
        ]
        live = yield from self.shaping(em, self.random.choice(roots), key)
        if live:
            yield "persist", {"em": em, "object": live.number}

    def shaping(
        self, em: int, entity: Entity, key: tuple[int, str] | None = None, depth: int = 0
    ) -> Plot:
        """Calls that make an object of the entity, with a key and what is required; the object
        then, or None."""
        yield "new", {"entity": entity.name}
        number = self.newest()
        if not 1 <= number or self.machine.objects[-1].entity is not entity:
            return None
        live = self.machine.objects[-1]
        if not entity.generated:
            for name, part in zip(entity.key, key or self.fresh_key(entity)):
                yield "set", {"object": number, "name": name, "value": self.given(part)}
        for name, attribute in entity.attributes.items():
            if attribute.get("required") or self.random.random() < 0.5:
                yield "set", {"object": number, "name": name, "value": self.a_value(live, name)}
        if entity.version and self.random.random() < 0.1:
            yield "set", {
                "object": number, "name": entity.version["name"],
                "value": self.random.randint(-1, 3),
            }
        for relation in entity.owned:
            if relation.is_required and depth < 3:
                yield from self.requiring(em, live, relation, depth)
        return live

    def fresh_key(self, entity: Entity) -> list[Number | Part]:
        """A key that mostly is whole, and that no object has."""
        taken, kinds = {live.identity() for live in self.machine.objects}, entity.key.values()
        for _ in range(20):
            key = [self.value(kind) for kind in kinds]
            if (
                self.random.random() < 0.04
                or all(map(isinstance, key, kinds))
                and (entity.root.name, tuple(key)) not in taken
            ):
                break
        return key

    def requiring(self, em: int, live: Live, relation: Relation, depth: int) -> Plot:
        """Calls that give an object what it must lead to."""
        held = [each for each in self.held_by(em)[-20:] if each.entity.is_a(relation.target)]
        if relation.kind == "oneToOne" or not held or self.random.random() < 0.3:
            other = yield from self.shaping(em, self.some_class(relation.target), None, depth + 1)
        else:
            other = self.random.choice(held)
        if other:
            yield self.linked(live, relation, other)

    def at_work(self) -> Plot:
        """One of the open managers, whose transaction is begun; None where none is open."""
        managers = self.open_ones()
        if not managers:
            return None
        em = self.random.choice(managers[:4])
        yield from self.beginning(em)
        return em

    def some_held(self, em: int) -> Live | None:
        """An object that the manager holds; it is loaded or made where there is none."""
        held = self.machine.managers[em - 1].context
        return self.random.choice(held[-6:]) if held else None

    def looking(self, lives: list[Live]) -> Plot:
        """Calls that get what objects hold."""
        for live in lives:
            for name in live.values:
                if self.random.random() < 0.6:
                    yield "get", {"object": live.number, "name": name}

    # -- plots

    def refused_flush(self) -> Plot:
        """Objects are made, changed and removed, one of them so that it may be refused; then what
        they hold is looked at."""
        em = yield from self.at_work()
        if em is None:
            return
        for _ in range(self.random.randint(0, 2)):
            yield from self.making(em)
        lives = list(self.machine.managers[em - 1].context)
        lives = self.random.sample(lives, min(4, len(lives)))
        for live in lives:
            yield (
                "remove",
                {"em": em, "object": live.number},
            ) if self.random.random() < 0.2 else self.change(live)
        if lives:
            live = self.random.choice(lives)
            yield "set", {"object": live.number, "name": self.some_attribute(live), "value": None}
        yield self.random.choice(["flush", "commit"]), {"em": em}
        yield from self.looking(lives)
        yield self.random.choice(["commit", "rollback", "flush"]), {"em": em}
        yield from self.looking(lives)

    def flushes(self) -> Plot:
        """Objects are made and changed, with a flush after each, and all is rolled back or
        committed."""
        em = yield from self.at_work()
        if em is None:
            return
        for _ in range(self.random.randint(1, 4)):
            live = self.some_held(em)
            if live is None or self.random.random() < 0.4:
                yield from self.making(em)
            elif self.random.random() < 0.3:
                yield "remove", {"em": em, "object": live.number}
            else:
                yield self.change(live)
            if self.random.random() < 0.9:
                yield "flush", {"em": em}
            if (
                self.random.random() < 0.4
                and self.machine.objects
                and None not in self.machine.objects[-1].key()
            ):
                yield self.finding(self.random.choice(self.open_ones()), self.machine.objects[-1])
        yield self.random.choice(["commit", "commit", "rollback", "clear"]), {"em": em}

    def one_object(self) -> Plot:
        """An object is removed, persisted, flushed, changed, refreshed and looked for in turns."""
        em = yield from self.at_work()
        if em is None:
            return
        live = self.some_held(em)
        if live is None:
            yield from self.making(em)
            live = self.some_held(em)
        if live is None:
            return
        for _ in range(self.random.randint(3, 12)):
            word = self.random.choices(
                [
                    "remove", "persist", "flush", "set", "refresh", "contains", "find", "other",
                    "get", "detach",
                ],
                [6, 6, 7, 4, 1.5, 2, 1, 1, 1, 0.3],
            )[0]
            if word == "set":
                yield self.change(live)
            elif word == "flush":
                yield "flush", {"em": em}
            elif word == "get":
                yield "get", {"object": live.number, "name": self.random.choice(list(live.values))}
            elif word in ("find", "other"):
                yield self.finding(
                    em if word == "find" else self.random.choice(self.open_ones()), live
                )
            elif word == "refresh" and (
                live.is_removed or live.identity() not in (self.machine.managers[em - 1].seen or {})
            ):
                continue
            else:
                yield word, {"em": em, "object": live.number}
        yield self.random.choice(["commit", "commit", "commit", "rollback"]), {"em": em}

    def another_writes(self) -> Plot:
        """What a manager holds another one changes or removes, and commits; then the first one
        writes it, or reads it again."""
        managers = self.open_ones()
        if len(managers) < 2:
            return
        em, other = self.random.sample(managers[:4], 2)
        live = self.some_held(em)
        if live is None or live.is_removed or None in live.key():
            return
        if self.random.random() < 0.7:
            yield self.finding(em, live)
        yield from self.beginning(other)
        yield self.finding(other, live)
        same = next(
            (
                each
                for each in self.machine.managers[other - 1].context
                if each.identity() == live.identity()
            ),
            None,
        )
        if same is None:
            return
        for _ in range(self.random.randint(1, 2)):
            yield self.random.choice(
                [
                    ("remove", {"em": other, "object": same.number}),
                    self.change(same), self.change(same), ("flush", {"em": other}),
                ]
            )
        if self.random.random() < 0.4:
            yield self.finding(em, live)
        yield "commit", {"em": other}
        if self.random.random() < 0.2 and not live.entity.generated:
            yield from self.beginning(other)
            yield from self.making(other, live.key())
            yield "commit", {"em": other}
        yield from self.beginning(em)
        for _ in range(self.random.randint(1, 3)):
            on_live = {"em": em, "object": live.number}
            yield self.random.choice(
                [
                    ("remove", on_live), self.change(live), self.change(live),
                    ("flush", {"em": em}), ("refresh", on_live), ("persist", on_live),
                ]
            )
        yield self.random.choice(["flush", "commit"]), {"em": em}
        yield self.random.choice(["commit", "commit", "rollback"]), {"em": em}

    def locking(self, em: int, live: Live) -> tuple[str, Values]:
        mode = self.random.choice(
            ["READ", "OPTIMISTIC", "WRITE", "WRITE", "OPTIMISTIC_FORCE_INCREMENT"]
        )
        return "lock", {"em": em, "object": live.number, "mode": mode}

    def stale_for(
        self, em: int, live: Live, words: tuple[str, ...] = ("set", "set", "remove")
    ) -> Plot:
        """Calls by which another manager changes or removes what the object is of, and commits it;
        its instance, or None."""
        managers = [each for each in self.open_ones() if each != em]
        if not managers or None in live.key():
            return None
        other = self.random.choice(managers[:4])
        yield from self.beginning(other)
        yield self.finding(other, live)
        same = next(
            (each for each in self.held_by(other) if each.identity() == live.identity()), None
        )
        if same:
            yield self.change(same) if self.random.choice(words) == "set" else (
                "remove",
                {"em": other, "object": same.number},
            )
        yield "commit", {"em": other}
        return same

    def locked(self) -> Plot:
        """An object is locked, once or more, and flushed, changed, removed, read again or let go;
        another manager may have changed it."""
        em = yield from self.at_work()
        if em is None:
            return
        live = self.some_held(em)
        if live is None or not live.entity.version or self.random.random() < 0.3:
            versioned = [entity for entity in self.machine.unit.entities.values() if entity.version]
            live = versioned and (yield from self.shaping(em, self.random.choice(versioned)))
            if not live:
                return
            yield "persist", {"em": em, "object": live.number}
        if self.random.random() < 0.5:
            yield "commit", {"em": em}
            if self.random.random() < 0.6:
                yield from self.stale_for(em, live)
            yield from self.beginning(em)
        for _ in range(self.random.randint(2, 7)):
            on_live = {"em": em, "object": live.number}
            word = self.random.choices(
                [
                    "lock", "flush", "set", "remove", "persist", "refresh", "detach", "again",
                    "other",
                ],
                [9, 6, 3, 1.5, 2, 1, 0.4, 0.6, 1],
            )[0]
            if word == "lock":
                yield self.locking(em, live)
            elif word == "set":
                yield self.change(live)
            elif word == "again":
                yield self.finding(em, live)
            elif word == "other":
                other = self.some_held(em)
                yield self.change(other) if other else ("flush", {"em": em})
            else:
                yield word, {"em": em} if word == "flush" else on_live
        yield self.random.choice(["flush", "commit"]), {"em": em}
        yield "get", {
            "object": live.number,
            "name": live.entity.version["name"] if live.entity.version else "version",
        }
        yield self.random.choice(["commit", "commit", "rollback"]), {"em": em}
        yield "contains", {"em": em, "object": live.number}

    def copying(self, live: Live) -> Plot:
        """Calls that make a new object with the key of one, and perhaps a version and values; or
        one of another class."""
        classes = [
            entity
            for entity in self.machine.unit.entities.values()
            if entity.root is live.entity.root
        ]
        entity = live.entity if self.random.random() < 0.7 else self.random.choice(classes)
        yield "new", {"entity": entity.name}
        copy = self.machine.objects[-1] if self.machine.objects else None
        if copy is None or copy.entity is not entity:
            return None
        if not entity.generated or self.random.random() < 0.85:
            for name, part in zip(entity.key, live.key()):
                yield "set", {"object": copy.number, "name": name, "value": self.given(part)}
        if entity.version and self.random.random() < 0.4:
            version = (
                live.values[entity.version["name"]]
                if self.random.random() < 0.7
                else self.random.randint(-1, 3)
            )
            yield "set", {"object": copy.number, "name": entity.version["name"], "value": version}
        for name in entity.attributes:
            if self.random.random() < 0.7:
                yield "set", {
                    "object": copy.number, "name": name, "value": self.a_value(copy, name),
                }
        return copy

    def copied(self) -> Plot:
        """An object that is held, let go, stale, removed or of another manager, or a new one with
        its key, is merged."""
        em = yield from self.at_work()
        if em is None:
            return
        live = self.some_held(em)
        if live is None or self.random.random() < 0.3:
            yield from self.making(em)
            live = self.some_held(em)
        if live is None:
            return
        merged, way = live, self.random.choice(
            ["copy", "copy", "detach", "stale", "theirs", "remove", "clear", "drop"]
        )
        if way in ("stale", "theirs"):
            yield "commit", {"em": em}
            theirs = yield from self.stale_for(
                em, live, ("set",) if way == "theirs" else ("set", "remove")
            )
            merged = theirs if theirs and way == "theirs" else live
            if self.random.random() < 0.7:
                yield self.random.choice(["clear", "detach"]), {"em": em, "object": live.number}
        elif way in ("detach", "clear", "drop") and self.random.random() < 0.7:
            yield self.random.choice(["commit", "flush"]), {"em": em}
        if way == "copy":
            merged = yield from self.copying(live)
        elif way == "drop":
            yield "remove", {"em": em, "object": live.number}
            yield "flush", {"em": em}
            merged = (yield from self.copying(live)) or live
        elif way in ("detach", "clear", "remove"):
            yield way, {"em": em} if way == "clear" else {"em": em, "object": live.number}
        if merged is None:
            return
        if self.random.random() < 0.8:
            yield from self.beginning(em)
        if merged.held != "new" and self.random.random() < 0.5:
            yield self.change(merged)
        yield "merge", {"em": em, "object": merged.number}
        if self.random.random() < 0.3:
            yield "merge", {"em": em, "object": merged.number}
        image = next(
            (each for each in self.held_by(em) if each.identity() == merged.identity()), None
        )
        if image:
            yield from self.looking([image])
            if self.random.random() < 0.3:
                yield self.locking(em, image) if image.entity.version else self.change(image)
        yield self.random.choice(["flush", "commit", "commit"]), {"em": em}
        yield self.random.choice(["commit", "commit", "rollback"]), {"em": em}

    def same_key_again(self) -> Plot:
        """An object is dropped by a flush, or only removed, and another one of its identity is
        persisted."""
        em = yield from self.at_work()
        if em is None:
            return
        kept = [live for live in self.machine.managers[em - 1].context if not live.entity.generated]
        if not kept:
            yield from self.making(em)
            kept = [
                live
                for live in self.machine.managers[em - 1].context[-1:]
                if not live.entity.generated
            ]
        if not kept:
            return
        live = self.random.choice(kept)
        if self.random.random() < 0.5:
            yield "flush", {"em": em}
        yield "remove", {"em": em, "object": live.number}
        if self.random.random() < 0.7:
            yield "flush", {"em": em}
        leaving = self.random.choice([None, "detach", "detach", "detach", "clear", "commit"])
        if leaving:
            yield leaving, {"em": em, "object": live.number} if leaving == "detach" else {"em": em}
        yield from self.beginning(em)
        yield from self.making(em, live.key())
        yield "flush", {"em": em}
        if self.random.random() < 0.4:
            yield "persist", {"em": em, "object": live.number}
            yield "flush", {"em": em}
        yield self.random.choice(["commit", "commit", "rollback"]), {"em": em}

    def many_managers(self) -> Plot:
        """Managers are made up to one too many, some are closed, and others made."""
        for _ in range(self.random.choice([2, 3, 17])):
            yield "createEntityManager", {}
        for _ in range(self.random.randint(1, 15)):
            if len(self.open_ones()) > 2:
                yield "close", {"em": self.random.choice(self.open_ones())}
        for _ in range(self.random.randint(0, 3)):
            yield "createEntityManager", {}
