"""Lines for tests/fuzz/hostile-lines and tests/fuzz/hostile-stores: calls over a unit with members
at their limits, mutations of their bytes, and the cells of a store's file."""
from __future__ import annotations

import json, os, random, re, sqlite3
from typing import TYPE_CHECKING, Any, Callable

from model.machine import Machine
from fuzz.own_calls import OwnMakers
from fuzz.plots import Plots
from fuzz.query_plots import QueryCalls
from model.reading import DEPTH, GREATEST, LEAST, LINE, UNSERVED, Number, lines_of
from model.unit import LENGTH, Unit
from fuzz.units import random_mapping

if TYPE_CHECKING:
    from model.cells import State
    from model.kinds import Cell, Part, Value, Values
    from model.live import Live
    from model.unit import Entity, Relation
    from random import Random

TESTS = os.path.dirname(os.path.dirname(os.path.abspath(__file__)))
RANDOM = "random"
MAPPINGS = [
    None, "linked.json", RANDOM, "flat.json", "woven.json", RANDOM, "wide.json", None, RANDOM,
    "heard.json", "linked.json", RANDOM, "sub.json", "woven.json", RANDOM,
]
TABLE = ("CREATE TABLE cell (t INTEGER NOT NULL, r BLOB NOT NULL, c INTEGER NOT NULL,\n"
         "  v BLOB NOT NULL, PRIMARY KEY (t, r, c)) STRICT")
# What the program serves without a mapping.
PERSONS = "persons.json"

INTEGERS = [0, 1, 2, -1, 7, 255, 2**31, 2**53 + 1, GREATEST, GREATEST - 1, LEAST, LEAST + 1]
TEXTS = [
    "", "a", "Ada", "Bob", "glad", "sad", "\0", "a\0b", '"\\/', "\n\r\t\b\f\x1f\x7f", "é", "\u2028",
    "\U0001f600", "\ufeff", '{"hex":"00"}', "0aff",
]
BYTES = [b"", b"\0", b"\0\xff", b"\x0a\xff", b"\x80", bytes(range(256))]
LONG_TEXTS = [
    "a" * LENGTH, "a" * (LENGTH + 1), "é" * (LENGTH // 2), "é" * (LENGTH // 2 + 1), "\0" * LENGTH,
    "\U0001f600" * (LENGTH // 4 + 1),
]
LONG_BYTES = [
    b"\0" * LENGTH, b"\xff" * (LENGTH + 1), b"\xab" * (LENGTH // 2), b"\xab" * (LENGTH // 2 + 1),
]
NUMBERS_TEXTS = [
    "-0", "1.0", "1e0", "0.5", "1e400", "-1e400", "1e308", "01", "+1", "-", "0x1",
    "9223372036854775808", "-9223372036854775809", "18446744073709551615", "18446744073709551616",
    "9" * 400, "1e", ".1", "1.", "NaN", "Infinity", "true", "[]", "{}", "null",
]
MODES = ["READ", "OPTIMISTIC", "WRITE", "OPTIMISTIC_FORCE_INCREMENT"]
OTHERS = [
    "merge", "lock", "NONE", "PESSIMISTIC_READ", "WRITE", "add", "takeOut", "query",
    "executeUpdate", "setFlushMode", "x", "", "Begin", "begin ", "call", "flush", "close",
    "values", "pending", "restart", "index",
]
LISTS = [
    b"[]", b"[1.0]", b'["1"]', b"[null]", b"[true]", b"[[1]]", b"[1,]", b"[1 2]", b'{"0":1}', b"1",
    b"[18446744073709551615]", b"[-9223372036854775809]", b"[9223372036854775808]", b"[-0]",
    b"[1e0]", b'[{"object":1}]', b"[ 1 , 1 ]", b"[1", b"null", b'""', b"[-1]", b"[0]",
]


class Calls(Plots, QueryCalls, OwnMakers):
    """Makes calls over a machine, mostly such as it accepts."""

    def __init__(self, random: Random, machine: Machine) -> None:
        self.random, self.machine, self.plot = random, machine, None
        # The managers that plots know of, all of them until a restart; and the calls that are kept
        # back, the next one last.
        self.managers, self.kept = machine.managers, []
        # How many managers there are mostly; up to 16 may have a transaction open.
        self.crowd = random.choice([2, 3, 3, 6, 16])
        self.has_relations = any(entity.relations for entity in machine.unit.entities.values())
        self.mutated_share = 0.12 if self.has_relations else 0.3
        # How many statements equate what variables lead to, and how many tuples one may have.
        self.equated_share, self.most_tuples = 0.15, 1500

    def line(self) -> tuple[bytes, bool]:
        """A line, and whether a plot wants it as it stands."""
        word, members = self.next_call()
        members = list({"call": word, **members}.items())
        if self.random.random() < 0.1:
            self.random.shuffle(members)
        return self.written(dict(members)), self.plot is not None

    def call(self) -> tuple[str, dict[str, Any]]:
        """The next call of the plot, or any other one."""
        if self.plot is None and self.random.random() < (0.35 if self.has_relations else 0.16):
            self.plot = self.some_plot()
        if self.plot is not None and self.random.random() < (0.93 if self.has_relations else 0.85):
            call = next(self.plot, None)
            if call:
                return call
            self.plot = None
        word = self.word()
        return word, getattr(self, word)()

    def word(self) -> str:
        """The word of a call, the likelier where it makes sense now."""
        managers = [manager for manager in self.machine.managers if manager.is_open]
        begun = any(manager.is_begun for manager in managers)
        idle = not all(manager.is_begun for manager in managers)
        weights = {
            "createEntityManager": 0.6 if len(managers) >= self.crowd else 9,
            "new": 9, "set": 26, "get": 8,
            "begin": 14 if not begun else 7 if idle else 1,
            "persist": 14, "find": 14, "commit": 6 if begun else 0.7,
            "rollback": 1 if begun else 0.4, "setRollbackOnly": 0.3 if begun else 0.2,
            "getReference": 4, "contains": 5, "clear": 0.7, "flush": 10 if begun else 0.7,
            "remove": 7, "refresh": 4, "detach": 2, "merge": 5 if managers else 1,
            "lock": 3 if begun else 0.4,
            "close": 0.4 if len(managers) < 4 else 0.8,
            "add": 9 if self.has_relations else 0.3,
            "takeOut": 5 if self.has_relations else 0.2,
        }
        weights |= {
            "query": 16 if managers else 1, "querySingle": 4, "executeUpdate": 6 if begun else 0.5,
            "setFlushMode": 1,
            "values": 4, "pending": 3 if begun else 0.5, "restart": 0.3, "index": 3,
        }
        weights = {word: weight for word, weight in weights.items() if word not in UNSERVED}
        return self.random.choices(list(weights), weights.values())[0]

    def written(self, members: dict[str, Any]) -> bytes:
        roll = self.random.random()
        text = json.dumps(
            members, ensure_ascii=roll < 0.1, separators=(", ", " : ") if roll > 0.9 else (",", ":")
        )
        if roll > 0.9975:
            text += " " * (LINE - len(text.encode()) + self.random.choice([-1, 0, 0, 1]))
        return text.encode()

    # -- members

    def em(self, most: float = 0.4) -> int:
        """A manager's number: one of an open transaction so often at least, and rarely none, or a
        closed one."""
        open_ones = [n for n, manager in enumerate(self.machine.managers, 1) if manager.is_open]
        if self.random.random() < 0.02 or not open_ones:
            return self.random.choice(
                [0, -1, len(self.machine.managers) + 1, 1, 2, GREATEST, LEAST]
            )
        begun = [n for n in open_ones if self.machine.managers[n - 1].is_begun]
        if begun and self.random.random() < most:
            return self.random.choice(begun)
        return self.random.choice(
            open_ones[: self.crowd] if self.random.random() < 0.9 else open_ones
        )

    def object(self, wanted: Callable[..., Any] = lambda live: True) -> int:
        """An object's number: mostly of one that is wanted, and rarely none."""
        count = len(self.machine.objects)
        if self.random.random() < 0.02 or not count:
            return self.random.choice([0, -1, count + 1, GREATEST, LEAST])
        chosen = [live.number for live in self.machine.objects[-30:] if wanted(live)]
        return (
            self.random.choice(chosen)
            if chosen and self.random.random() < 0.85
            else self.random.randint(1, count)
        )

    def live(self, number: int) -> Live | None:
        return (
            self.machine.objects[number - 1] if 1 <= number <= len(self.machine.objects) else None
        )

    def entity(self) -> str:
        if self.random.random() < 0.03:
            return self.random.choice(["", "person", "Nobody", "Person\0", *TEXTS])
        return self.random.choice(list(self.machine.unit.entities))

    def value(self, kind: type) -> Number | Value:
        """A value of the kind, or rarely of another one."""
        if self.random.random() < 0.05:
            kind = self.random.choice([int, str, bytes])
        if self.random.random() < 0.04:
            return None
        if self.random.random() < 0.02:
            return Number(self.object())
        if kind is int:
            return self.random.choice(INTEGERS if self.random.random() < 0.4 else range(1, 20))
        rare = self.random.random() < 0.004
        return self.random.choice(
            (LONG_TEXTS if rare else TEXTS) if kind is str else LONG_BYTES if rare else BYTES
        )

    def given(self, value: Number | Value) -> Value | Values:
        if isinstance(value, bytes):
            return {"hex": value.hex().upper() if self.random.random() < 0.3 else value.hex()}
        return {"object": value.number} if isinstance(value, Number) else value

    def member(self, entity: Entity, key_too: bool) -> str:
        names = [*(entity.key if key_too else []), *entity.attributes]
        if self.random.random() < 0.05 or not names:
            names = [*entity.key, "", "at", "at.", "version", "turn", "Name", "name "]
        return self.random.choice(names)

    def kind(self, entity: Entity, name: str) -> type:
        return (
            entity.key.get(name)
            or {"int": int, "text": str, "bytes": bytes}[
                entity.attributes.get(name, {"type": "int"})["type"]
            ]
        )

    # -- calls

    def createEntityManager(self) -> dict[str, Any]:
        return {}

    def new(self) -> dict[str, str]:
        return {"entity": self.entity()}

    def get(self) -> Values:
        number = self.object()
        live = self.live(number)
        return {
            "object": number,
            "name": self.random.choice([*live.values, *live.links])
            if live and self.random.random() < 0.95
            else "name",
        }

    def set(self) -> dict[str, Value | Values]:
        number = self.object(lambda live: live.held != "detached")
        live = self.live(number)
        if not live:
            return {"object": number, "name": "name", "value": "x"}
        links = [
            relation
            for relation in live.entity.relations.values()
            if not relation.is_many or self.random.random() < 0.05
        ]
        if links and self.random.random() < 0.4:
            relation = self.random.choice(links)
            value = (
                None
                if self.random.random() < 0.1
                else {"object": self.linkable(live, relation)}
                if self.random.random() < 0.98
                else 1
            )
            return {"object": number, "name": relation.name, "value": value}
        lacking = [
            name
            for name in live.entity.key
            if live.values[name] is None and live.held == "new" and not live.entity.generated
        ]
        name = (
            lacking[0]
            if lacking and self.random.random() < 0.8
            else self.member(live.entity, live.held == "new" and not live.entity.generated)
        )
        return {
            "object": number,
            "name": name,
            "value": self.given(self.value(self.kind(live.entity, name))),
        }

    def linkable(self, live: Live, relation: Relation) -> int:
        """An object that one may lead to: mostly of the target's class, and new or of the same
        manager."""
        fits = lambda other: other.entity.is_a(relation.target)
        near = lambda other: fits(other) and other.held in ("new", live.held)
        return self.object(
            near
            if self.random.random() < 0.8
            else fits
            if self.random.random() < 0.9
            else lambda other: True
        )

    def add(self) -> Values:
        number = self.object(
            lambda live: live.held != "detached"
            and any(each.is_many for each in live.entity.relations.values())
        )
        live = self.live(number)
        relations = (
            [
                each
                for each in live.entity.relations.values()
                if each.is_many or self.random.random() < 0.05
            ]
            if live
            else []
        )
        if not relations:
            return {"object": number, "name": "name", "member": self.object()}
        relation = self.random.choice(relations)
        return {"object": number, "name": relation.name, "member": self.linkable(live, relation)}

    def takeOut(self) -> Values:
        members = self.add()
        live = self.live(members["object"])
        held = live.links.get(members["name"]) if live else None
        if isinstance(held, list) and held and self.random.random() < 0.8:
            members["member"] = self.random.choice(held).number
        return members

    def persist(self) -> dict[str, int]:
        em = self.em(0.7)
        held = self.held_by(em)
        can_be = (
            lambda live: live.is_removed
            if live in held
            else live.held == "new" and (live.entity.generated or None not in live.key())
        )
        return {"em": em, "object": self.object(can_be)}

    def held_by(self, em: int) -> list[Live]:
        return (
            self.machine.managers[em - 1].context if 1 <= em <= len(self.machine.managers) else []
        )

    def remove(self) -> dict[str, int]:
        em = self.em(0.7)
        held = self.held_by(em)
        return {"em": em, "object": self.object(lambda live: live in held and not live.is_removed)}

    refresh = detach = remove

    def merge(self) -> dict[str, int]:
        """Mostly of what the manager does not hold, and often of what it has an instance or a row
        of."""
        em = self.em(0.6)
        held = self.held_by(em)
        known = {live.identity() for live in held} | set(self.machine.committed.objects)
        roll = self.random.random()
        return {
            "em": em,
            "object": self.object(
                lambda live: live not in held and (roll < 0.5 or live.identity() in known)
            ),
        }

    def lock(self) -> Values:
        em = self.em(0.9)
        held = self.held_by(em)
        mode = (
            self.random.choice(MODES)
            if self.random.random() < 0.97
            else self.random.choice(["NONE", "read", "", "PESSIMISTIC_WRITE", None, 1])
        )
        return {
            "em": em,
            "object": self.object(
                lambda live: live in held and (live.entity.version or self.random.random() < 0.1)
            ),
            "mode": mode,
        }

    def begin(self) -> dict[str, int]:
        return {"em": self.em()}

    def commit(self) -> dict[str, int]:
        return {"em": self.em(0.95)}

    rollback = setRollbackOnly = clear = flush = commit

    def close(self) -> dict[str, int]:
        idle = [
            n
            for n, manager in enumerate(self.machine.managers, 1)
            if manager.is_open and not manager.is_begun
        ]
        return {
            "em": self.random.choice(idle) if idle and self.random.random() < 0.8 else self.em()
        }

    def contains(self) -> dict[str, int]:
        return {"em": self.em(), "object": self.object(lambda live: True)}

    def getReference(self) -> dict[str, Part | list[Value | dict[str, str]]]:
        return self.find()

    def find(self) -> dict[str, Part | list[Value | Values]]:
        seen = [manager.seen for manager in self.machine.managers if manager.is_begun]
        stored = list(
            self.machine.committed.objects if not seen or self.random.random() < 0.4 else seen[0]
        )
        held = [
            live.identity()
            for live in self.machine.objects[-8:]
            if live.is_removed or live.held != "new"
        ]
        if held and self.random.random() < 0.25:
            stored = held
        if stored and self.random.random() < 0.8:
            name, key = self.random.choice(stored[-5:] if self.random.random() < 0.7 else stored)
            name = self.random.choice(
                [
                    other
                    for other, entity in self.machine.unit.entities.items()
                    if entity.root.name == name
                ]
            )
        else:
            name = self.entity()
            entity = self.machine.unit.entities.get(name)
            key = [self.value(kind) for kind in entity.key.values()] if entity else [1]
        key = list(key) + ([1] if self.random.random() < 0.01 else [])
        return {"em": self.em(0.5), "entity": name, "key": [self.given(part) for part in key]}


# ---- mutations

def cut(random: Random, line: bytes) -> bytes:
    at = random.randrange(len(line) + 1)
    return line[:at] if random.random() < 0.7 else line[at:]


def doubled(random: Random, line: bytes) -> bytes:
    return line + random.choice([b"", b" ", b",", b"\r"]) + line


def flipped(random: Random, line: bytes) -> bytes:
    bytes_ = bytearray(line or b"x")
    for _ in range(random.choice([1, 1, 2, 9])):
        bytes_[random.randrange(len(bytes_))] ^= 1 << random.randrange(8)
    return bytes(bytes_)


def inserted(random: Random, line: bytes) -> bytes:
    at = random.randrange(len(line) + 1)
    odd = random.choice(
        [
            b"\xff", b"\xc0\x80", b"\xed\xa0\x80", b"\xf4\x90\x80\x80", b"\xe2\x28",
            b"\xef\xbb\xbf", b"\0", b"\x0b", b"\xc2\xa0", b"\r", b"\n", b"\n\n", b"\\ud800",
            b"\\u0000", b"\\x", b"'", b"//", b"/**/", b",", b"}", b"{", b"]", b"[", b'"', b":",
            b"\t", b"\x7f",
        ]
    )
    return line[:at] + odd + line[at:]


def nested(random: Random, line: bytes) -> bytes:
    depth = random.choice([1, 2, 10, DEPTH - 2, DEPTH - 1, DEPTH, DEPTH + 1, 200, 5000])
    opened, closed = random.choice([(b"[", b"]"), (b'{"a":', b"}")])
    deep = opened * depth + b"1" + closed * depth
    return (
        swapped(random, line, deep)
        if random.random() < 0.7
        else line[:1] + b'"em":' + deep + b"," + line[1:]
    )


def swapped(random: Random, line: bytes, other: bytes) -> bytes:
    """With other in the place of a number or a text of the line."""
    places = list(re.finditer(rb'(?<=:)(-?[0-9]+|"[^"]*"|null)', line[:4096]))
    if not places:
        return line
    place = random.choice(places)
    return line[:place.start()] + other + line[place.end():]


def numbered(random: Random, line: bytes) -> bytes:
    return swapped(random, line, random.choice(NUMBERS_TEXTS).encode())


def worded(random: Random, line: bytes) -> bytes:
    return swapped(random, line, json.dumps(random.choice(OTHERS + TEXTS)).encode())


def longer(random: Random, line: bytes) -> bytes:
    length = random.choice(
        [LENGTH, LENGTH + 1, LINE - len(line), LINE - len(line) + 1, LINE, 2 * LINE]
    )
    return random.choice(
        [
            lambda: swapped(random, line, b'"' + b"a" * length + b'"'),
            lambda: b" " * length + line,
            lambda: line + b"\t" * length,
        ]
    )()


def more_members(random: Random, line: bytes) -> bytes:
    more = random.choice(
        [
            b'"em":1', b'"x":null', b'"call":"begin"', b'"object":1', b'"em":1e400',
            b'"value":"\\ud83d\\ude00"', b'"":{}', b'"key":[1]', b'"hex":"00"',
        ]
    )
    return (
        line[:1] + more + b"," + line[1:]
        if random.random() < 0.5
        else line[:-1] + b"," + more + line[-1:]
    )


def fewer_members(random: Random, line: bytes) -> bytes:
    places = list(re.finditer(rb',?"[a-z]+" ?: ?(-?[0-9]+|"[^"]*"|null),?', line[:4096]))
    if not places:
        return b""
    place = random.choice(places)
    return line[:place.start()] + line[place.end():]


def escaped(random: Random, line: bytes) -> bytes:
    """The same text in other words: letters of names and texts as escapes."""
    letters = [place.start() for place in re.finditer(rb"[a-zA-Z](?=[a-zA-Z]*\")", line[:4096])]
    if not letters:
        return line
    at = random.choice(letters)
    return line[:at] + b"\\u%04x" % line[at] + line[at + 1:]


def odd_hex(random: Random, line: bytes) -> bytes:
    digits = random.choice(["", "0", "0g", "0A", "aF", "00 ", " 00", "0aff0", "é", "0x00"])
    return swapped(random, line, json.dumps({"hex": digits}, ensure_ascii=False).encode())


def listed(random: Random, line: bytes) -> bytes:
    """With another list, or none, in the place of one of the line."""
    places = list(re.finditer(rb"\[[^][]*\]", line[:4096]))
    if not places:
        return numbered(random, line)
    place = random.choice(places)
    return line[:place.start()] + random.choice(LISTS) + line[place.end():]


MUTATIONS = [
    cut, doubled, flipped, inserted, nested, numbered, worded, more_members, fewer_members, escaped,
    odd_hex, listed,
]
WEIGHTS = [4, 1, 4, 4, 2, 4, 2, 3, 2, 2, 2, 2]


def mutated(random: Random, line: bytes) -> bytes:
    if random.random() < 0.01:
        return longer(random, line)
    if random.random() < 0.03:
        noise = bytes(random.randrange(256) for _ in range(40))
        return random.choice(
            [
                b"", b" ", b"\r", b"\t", b"{}", b"[]", b"null", b"\xff", b'"call"', b"{",
                b'{"call"', noise,
            ]
        )
    for _ in range(random.choice([1, 1, 1, 2, 3])):
        line = random.choices(MUTATIONS, WEIGHTS)[0](random, line)
    return line


# ---- cases

def some_mapping(seed: str, name: str | None) -> dict[str, int | list[dict[str, Any]]] | str | None:
    """The mapping of this name: None where the program gets none, the name of a file, or a random
    one as JSON says it."""
    return random_mapping(random.Random(seed)) if name == RANDOM else name


def words_for(mapping: dict[str, int | list[dict[str, Any]]] | str | None, place: str) -> list[str]:
    """The words of the command line that give the program the mapping, for which a file is made at
    this place where there is none."""
    if isinstance(mapping, dict):
        with open(place, "w", encoding="utf-8") as file:
            json.dump(mapping, file)
        return ["--mapping", place]
    return ["--mapping", os.path.join(TESTS, "mappings", mapping)] if mapping else []


def unit_of(mapping: dict[str, int | list[dict[str, Any]]] | str | None) -> Unit:
    if isinstance(mapping, dict):
        return Unit(mapping)
    with open(os.path.join(TESTS, "mappings", mapping or PERSONS), "rb") as file:
        return Unit(json.load(file))


class Case:
    """A run: a unit, what is committed before, and the lines."""

    def __init__(
        self,
        mapping: dict[str, int | list[dict[str, Any]]] | str | None,
        unit: Unit,
        state: State,
        lines: list[bytes],
        is_wide: bool = False,
    ) -> None:
        self.mapping, self.unit, self.state, self.lines = mapping, unit, state, lines
        self.is_wide, self.known = is_wide, None

    def predicted(self) -> tuple[list[bytes], State]:
        """The replies, and the state afterwards."""
        if self.known is None:
            machine = Machine(self.unit, self.state, self.is_wide)
            self.known = [
                machine.answer(line) for line in lines_of(b"".join(self.lines))
            ], machine.committed
        return self.known

    def with_lines(self, lines: list[bytes]) -> Case:
        return Case(self.mapping, self.unit, self.state, lines, self.is_wide)


def made(
    seed: str,
    mapping: dict[str, int | list[dict[str, Any]]] | str | None,
    unit: Unit,
    state: State,
    count: int,
    maker: type = Calls,
    is_wide: bool = False,
) -> Case:
    """A case of so many lines, of which some hold line feeds by mutation."""
    chance, machine = random.Random(seed), Machine(unit, state, is_wide)
    calls, lines, heard, replies = maker(chance, machine), [], [], []

    def take(line: bytes) -> None:
        lines.append(line + b"\n")
        for each in lines_of(lines[-1]):
            heard.append(each)
            replies.append(machine.answer(each))

    while len(lines) < count:
        line, is_wanted = calls.line()
        is_mutated = chance.random() < calls.mutated_share
        if is_mutated:
            take(mutated(chance, line))
        if not is_mutated or (is_wanted and chance.random() < 0.85):
            take(line)
    if chance.random() < 0.5:
        lines[-1] = lines[-1].removesuffix(b"\n")
    case = Case(mapping, unit, state, lines[:count], is_wide)
    if lines_of(b"".join(case.lines)) == heard:
        case.known = replies, machine.committed
    return case


def fill(store: str, cells: list[Cell]) -> None:
    with sqlite3.connect(store) as open_store:
        open_store.execute(TABLE)
        open_store.executemany("INSERT INTO cell VALUES (?, ?, ?, ?)", cells)
    open_store.close()


def cells_in(store: str) -> list[Cell]:
    open_store = sqlite3.connect(store)
    try:
        sound = open_store.execute("PRAGMA integrity_check").fetchone()[0]
        return sorted(open_store.execute("SELECT t, r, c, v FROM cell")) if sound == "ok" else sound
    finally:
        open_store.close()
