"""The calls of queries for tests/fuzz/hostile-lines, and plots in which they come among flushes,
changes and commits."""
from __future__ import annotations

from typing import TYPE_CHECKING

from fuzz.jpql_lines import Texts
from model.reading import GREATEST, LEAST

if TYPE_CHECKING:
    from fuzz.kinds import Plot
    from model.kinds import Objects, Part, Value, Values


class QueryCalls:
    """The makers of calls that query, beside those of tests/fuzz/lines.py."""

    def setFlushMode(self) -> Values:
        return {
            "em": self.em(0.8),
            "mode": self.random.choice(
                ["AUTO", "COMMIT"] if self.random.random() < 0.97 else ["auto", "", "READ", None]
            ),
        }

    def query(self) -> dict[str, Part | dict[str, Value | Values]]:
        return self.querying(self.em(0.6), self.random.random() < 0.05)

    def querySingle(self) -> dict[str, Part | dict[str, Value | Values]]:
        return self.query()

    def executeUpdate(self) -> dict[str, Part | dict[str, Value | Values]]:
        return self.updating(self.em(0.9))

    def updating(self, em: int) -> dict[str, Part | dict[str, Value | Values]]:
        members = self.querying(em, self.random.random() < 0.93)
        return {
            name: value
            for name, value in members.items()
            if name not in ("first", "max") or self.random.random() < 0.02
        }

    def querying(self, em: int, is_bulk: bool) -> dict[str, Part | dict[str, Value | Values]]:
        """The members of a call with a statement, and mostly the parameters that it takes."""
        texts = Texts(self, self.seen_by(em), self.machine.is_wide)
        tokens, is_odd = texts.statement(is_bulk), self.random.random() < (
            0.07 if self.marks(em) else 0.35
        )
        roll = self.random.random() if is_odd else 0
        text = texts.text(texts.damaged(tokens) if 0 < roll < 0.6 else tokens)
        if roll > 0.93:
            is_often = texts.takes_lists and roll > 0.98
            text = texts.often() if is_often else texts.deep() if roll > 0.96 else texts.long()
        params = {name: value for name, (_, value) in texts.parameters.items()}
        members = {"em": em, "text": text}
        if params or self.random.random() < 0.2:
            members["params"] = self.damaged_params(params) if is_odd else params
        for name in ("first", "max"):
            if self.random.random() < 0.12:
                members[name] = self.random.choice(
                    [0, 0, 1, 1, 2, 3, 10, GREATEST, *([-1, -1, LEAST] if is_odd else [])]
                )
        return members

    def marks(self, em: int) -> bool:
        """Whether a refusal of the manager marks a transaction, so that it should be rare."""
        return 1 <= em <= len(self.machine.managers) and self.machine.managers[em - 1].is_begun

    def seen_by(self, em: int) -> Objects:
        """The objects that a manager sees."""
        if not 1 <= em <= len(self.machine.managers):
            return self.machine.committed.objects
        return self.machine.view(self.machine.managers[em - 1])

    def damaged_params(self, params: dict[str, Value | Values]) -> dict[str, Value | Values]:
        """The parameters, of which one may be missing, too much, of another kind, or an object that
        is nowhere or has no key."""
        roll = self.random.random()
        if roll < 0.1 and params:
            del params[self.random.choice(list(params))]
        elif roll < 0.17:
            params[self.random.choice(["more", "", "0", "a b", "X", "1"])] = 1
        elif roll < 0.27 and params:
            keyless = [live.number for live in self.machine.objects[-20:] if None in live.key()]
            other = self.given(self.value(self.random.choice([int, str, bytes])))
            params[self.random.choice(list(params))] = (
                {"object": self.random.choice(keyless)} if keyless and roll < 0.24 else other
            )
        elif roll < 0.3 and params:
            params[self.random.choice(list(params))] = {"object": self.object()}
        elif roll < 0.5 and params and self.machine.is_wide:
            self.damage_lists(params, self.random.choice(list(params)))
        return params

    def damage_lists(self, params: dict[str, Value | Values], name: str) -> None:
        """A collection is handed in for a parameter in a value's place, or the other way round, or one
        of too many, of lists, of another kind or of objects that are nowhere, or where names clash."""
        value, roll = params[name], self.random.random()
        if roll < 0.3:
            params[name] = value[0] if isinstance(value, list) and value else [value]
        elif roll < 0.4:
            params[name] = [value] * self.random.choice([4095, 4096, 4097, 5000])
        elif roll < 0.5:
            params[name] = [[value]]
        elif roll < 0.65:
            params[name] = [*(value if isinstance(value, list) else []), self.object_or_value()]
        elif roll < 0.85:
            params[f"{name},{self.random.choice([0, 1, 1, 1, 2, 3, '01'])}"] = value
        else:
            params[self.random.choice(["more", "1", "a,1", ""])] = []

    def object_or_value(self) -> Value | Values:
        """An object that there may be, or a value of any kind, as JSON says it."""
        if self.random.random() < 0.5:
            return {"object": self.object()}
        return self.given(self.value(self.random.choice([int, str, bytes])))

    # -- plots

    def queried(self) -> Plot:
        """What was changed and not flushed is queried, with a flush or without, and changed by
        statements; then it is written, read or stale."""
        em = yield from self.at_work()
        if em is None:
            return
        for _ in range(self.random.randint(1, 3)):
            live = self.some_held(em)
            if live is None or self.random.random() < 0.4:
                yield from self.making(em)
            elif self.random.random() < 0.2:
                yield "remove", {"em": em, "object": live.number}
            else:
                yield self.change(live)
        if self.random.random() < 0.3:
            yield "setFlushMode", {"em": em, "mode": self.random.choice(["COMMIT", "AUTO"])}
        for _ in range(self.random.randint(2, 7)):
            word = self.random.choices(
                ["query", "querySingle", "executeUpdate", "other", "clear", "flush", "change"],
                [6, 2, 3, 1, 0.5, 0.7, 1],
            )[0]
            if word == "other":
                yield "query", self.querying(self.random.choice(self.open_ones()), False)
            elif word == "change":
                live = self.some_held(em)
                yield self.change(live) if live else ("flush", {"em": em})
            elif word in ("clear", "flush"):
                yield word, {"em": em}
            else:
                yield word, self.updating(em) if word == "executeUpdate" else self.querying(
                    em, False
                )
        live = self.some_held(em)
        if live:
            yield from self.looking([live])
            on_live = {"em": em, "object": live.number}
            yield self.random.choice(
                [
                    self.change(live),
                    ("refresh", on_live),
                    ("get", {"object": live.number, "name": "version"}),
                ]
            )
        yield self.random.choice(["flush", "commit"]), {"em": em}
        yield "setFlushMode", {"em": em, "mode": "AUTO"}
        yield self.random.choice(["commit", "commit", "rollback"]), {"em": em}
