#!/usr/bin/env python3
"""tests/counts.py [--table] [--time] PROGRAM: counts the instructions of calls beside few objects
and beside many, and tells those that grow with what is beside them.

No contract speaks of speed, so marks, look-ups and indexes could be lost with every proof standing.
Counted is one commit of one object, a find, and queries that look up what they ask: beside 2,000
and 20,000 stored objects, of which few are managed, without and with an index of a value, and
beside 100 and 1,600 that a manager holds.
Each may take at most 1.5 times as much beside the many. Of queries that go through all of a class
what each of its objects takes is counted, over 200 and 1,000: a nested block, or the other side of
a join, that is walked for each takes five times as much there, and all of it some seconds.

Beside these, calls are counted that do look at everything. Those must be told as grown: else what
is counted here would show nothing.

The program runs under callgrind, which counts only from what is asked on. tests/counts.c has it
dump after each line. So the figures are the same, to a few instructions, on a machine that is busy.
With --time it is the processor time that the system tells, in nanoseconds, for machines without
valgrind: the least of more turns, which may take three times as much. --table prints the figures.
"""
from __future__ import annotations

import json
import os
import re
import subprocess
import sys
import tempfile
from typing import Any, Callable, Iterable, Iterator, NamedTuple

sys.dont_write_bytecode = True
TOP = os.path.dirname(os.path.dirname(os.path.abspath(__file__)))
MAPPING = os.path.join(TOP, "tests/mappings/persons.json")
WARM = 2
STORED, JOINED, MANAGED = (2000, 20000), (200, 1000), (100, 1600)
EACH = 9  # orders of a person


class Work(NamedTuple):
    """What is counted: the lines of one turn of it, for the number of a turn; how many objects it
    goes through, where it goes through all of a class; and whether it looks at everything."""

    name: str
    lines: Callable[[int], list[str]]
    parts: int = 1
    is_linear: bool = False


def line(call: str, **members: Any) -> str:
    return json.dumps({"call": call, **members}, separators=(",", ":")) + "\n"


def new_order(place: int, number: int, person: int | None = None) -> list[str]:
    """A new order, persisted, which is the run's object of this place."""
    made = [line("new", entity="Order"), line("set", object=place, name="number", value=number),
            line("set", object=place, name="amount", value=number)]
    if person:
        made.append(line("set", object=place, name="person", value={"object": person}))
    return [*made, line("persist", em=1, object=place)]


def new_objects(count: int) -> list[str]:
    """So many new objects in one transaction: persons with nine orders each. The number of an order
    is its place among them, and so is its amount."""
    lines = [line("createEntityManager"), line("begin", em=1)]
    for person in range(1, count, EACH + 1):
        lines += [line("new", entity="Person"), line("persist", em=1, object=person)]
        for place in range(person + 1, person + EACH + 1):
            lines += new_order(place, place, person)
    return [*lines, line("commit", em=1)]


def asked(text: str, **params: Any) -> list[str]:
    return [line("query", em=1, text=text, params=params)]


def page(text: str, **params: Any) -> list[str]:
    return [line("query", em=1, text=text, params=params, max=20)]


def queries() -> list[Work]:
    """Queries of one variable. A turn's number is that of an order and of a person; the second
    object of the run is a person."""
    all_ = "SELECT COUNT(o) FROM Order o WHERE "
    return [
        Work("query by key", lambda n: asked("SELECT o.amount FROM Order o WHERE o.number = 5")),
        Work("query by key, a parameter",
             lambda n: asked("SELECT o.amount FROM Order o WHERE o.number = :n", n=n + 2)),
        Work("query by reference",
             lambda n: asked("SELECT o.number FROM Order o WHERE o.person = :p", p={"object": 2})),
        Work("query by a link's key",
             lambda n: asked("SELECT o.number FROM Order o WHERE o.person.id = :n", n=n)),
        Work("query along a link",
             lambda n: asked("SELECT o.person.id FROM Order o WHERE o.number = :n", n=n + 2)),
        Work("query of a collection",
             lambda n: asked("SELECT COUNT(o) FROM Person p JOIN p.orders o WHERE p.id = :n", n=n)),
        Work("query of a range of twenty keys",
             lambda n: asked(all_ + "o.number BETWEEN :l AND :h", l=100, h=121)),
        Work("first twenty objects", lambda n: page("SELECT o.amount FROM Order o")),
        Work("first twenty behind a key",
             lambda n: page("SELECT o.amount FROM Order o WHERE o.number > :n", n=n + 100)),
        # (these look at everything)
        Work("a query of a bound", lambda n: asked(all_ + "o.amount > 0"), is_linear=True),
        Work("a query of an equal value, once", lambda n: asked(all_ + "o.amount = 7"),
             is_linear=True),
    ]


def beside_joined(count: int) -> list[Work]:
    """Queries of two variables over so many stored objects."""
    orders, persons = count * EACH // (EACH + 1), count // (EACH + 1)
    many, all_ = "SELECT COUNT(q) FROM ", "SELECT COUNT(o) FROM Order o WHERE "
    return [
        Work("join of one person",
             lambda n: asked("SELECT o.number FROM Person p, Order o WHERE p.id = :n"
                             " AND o.person = p", n=n)),
        Work("EXISTS for one person",
             lambda n: asked("SELECT p.id FROM Person p WHERE p.id = :n AND EXISTS (SELECT o FROM"
                             " Order o WHERE o.person = p AND o.amount > 0)", n=n)),
        Work("EXISTS by a link's key for one person",
             lambda n: asked("SELECT p.id FROM Person p WHERE p.id = :n AND EXISTS (SELECT o FROM"
                             " Order o WHERE o.person.id = p.id AND o.amount > 0)", n=n)),
        Work("join by a link's key, of each",
             lambda n: asked(many + "Person p, Order q WHERE q.person.id = p.id"), persons),
        Work("join by an equal value, of each",
             lambda n: asked(many + "Order o, Order q WHERE q.amount = o.amount"), orders),
        Work("join by reference, of each",
             lambda n: asked(many + "Person p, Order q WHERE q.person = p"), orders),
        Work("EXISTS by reference, of each",
             lambda n: asked("SELECT COUNT(p) FROM Person p WHERE EXISTS (SELECT o FROM Order o"
                             " WHERE o.person = p AND o.amount > 0)"), persons),
        Work("EXISTS by an equal value, of each",
             lambda n: asked(all_ + "EXISTS (SELECT 1 FROM Order q WHERE q.amount = o.amount"
                             " AND q.number <> o.number)"), orders),
        # (these look at everything)
        Work("a join of a bound",
             lambda n: asked(many + "Person p, Order q WHERE q.amount > p.id"), persons,
             is_linear=True),
    ]


def beside_stored(count: int) -> list[Work]:
    """What is counted beside so many stored objects. Its own objects come behind the two that the
    run has found."""

    def committed(n: int) -> list[str]:
        return [line("begin", em=1), *new_order(n + 2, count + n), line("commit", em=1)]

    return [
        Work("commit of a new object", committed),
        Work("commit of a change", lambda n: [
            line("begin", em=1), line("set", object=1, name="amount", value=count + n),
            line("commit", em=1)]),
        Work("find", lambda n: [line("find", em=1, entity="Order", key=[3 + n])]),
        Work("UPDATE by key", lambda n: [
            line("begin", em=1),
            line("executeUpdate", em=1, params={"n": n},
                 text="UPDATE Order o SET o.amount = :n WHERE o.number = 3"),
            line("commit", em=1)]),
        *queries(),
    ]


def beside_indexed(count: int) -> list[Work]:
    """What is counted beside so many stored objects whose amounts have an index, as a turn's number
    is an amount of one of them."""
    asks, parts = "SELECT o.number FROM Order o WHERE ", {"l": 100, "h": 121}
    return [
        Work("query of an equal value by its index", lambda n: asked(asks + "o.amount = :n", n=n + 2)),
        Work("query of a range by its index",
             lambda n: asked(asks + "o.amount BETWEEN :l AND :h", **parts)),
        Work("query of three values by their index",
             lambda n: asked(asks + "o.amount IN (5, 7, :n)", n=n + 12)),
        Work("page of twenty by an index",
             lambda n: page("SELECT o.number, o.amount FROM Order o ORDER BY o.amount")),
        Work("page of twenty by an index, falling", lambda n: page(
            "SELECT o.number, o.amount FROM Order o ORDER BY o.amount DESC, o.number")),
        Work("page of twenty behind a value",
             lambda n: page(asks + "o.amount > :n ORDER BY o.amount", n=n + 500)),
        Work("UPDATE by an index", lambda n: [
            line("begin", em=1),
            line("executeUpdate", em=1, params={"n": n},
                 text="UPDATE Order o SET o.amount = o.amount WHERE o.amount = :n"),
            line("commit", em=1)]),
        Work("commit of a new object with an index", lambda n: [
            line("begin", em=1), *new_order(n + 2, count + n), line("commit", em=1)]),
        Work("commit of a change with an index", lambda n: [
            line("begin", em=1), line("set", object=1, name="amount", value=count + n),
            line("commit", em=1)]),
        # (this looks at everything)
        Work("a query of all but one value", lambda n: asked(
            "SELECT COUNT(o) FROM Order o WHERE o.amount <> 7"), is_linear=True),
    ]


def beside_managed(count: int) -> list[Work]:
    """What is counted beside so many objects that manager 1 holds; manager 2 holds the first
    order."""

    def changed(em: int, place: int, n: int) -> list[str]:
        return [line("begin", em=em), line("set", object=place, name="amount", value=count + n),
                line("commit", em=em)]

    last = count + 1
    return [
        Work("commit of a new object", lambda n: [
            line("begin", em=1), *new_order(last + n, count + n), line("commit", em=1)]),
        Work("commit of a change", lambda n: changed(1, 3, n)),
        Work("commits of two managers by turns",
             lambda n: [*changed(2, last, n), line("refresh", em=1, object=2), *changed(1, 3, n)]),
        Work("find", lambda n: [line("find", em=1, entity="Order", key=[2 + n])]),
        Work("collection", lambda n: [line("get", object=1, name="orders")]),
        Work("query in a transaction", lambda n: [
            line("begin", em=1), line("set", object=3, name="amount", value=n),
            *asked("SELECT o.amount FROM Order o WHERE o.number = 5"), line("commit", em=1)]),
        Work("commit after a detach", lambda n: [
            line("detach", em=1, object=count - n), *changed(1, 3, n)], is_linear=True),
    ]


def grown(few: dict[str, float], many: dict[str, float], most: float) -> list[str]:
    """Those that take more than so many times as much beside many objects: each name is in both."""
    return [name for name, count in few.items() if many[name] > most * count]


class Run:
    """The program over a store, whose lines are timed."""

    # How many times as much a call may take beside many objects, and how many turns are looked at.
    most, turns = 3.0, 20

    def __init__(self, program: str, store: str) -> None:
        self.start([program, "--mapping", MAPPING, "--db", store], {})

    def start(self, words: list[str], more: dict[str, str]) -> None:
        self.process = subprocess.Popen(
            words, stdin=subprocess.PIPE, stdout=subprocess.PIPE, env={**os.environ, **more}
        )

    def chosen(self, taken: list[int]) -> int:
        """What is taken for the turns of a work."""
        return min(taken)

    def serve(self, lines: Iterable[str]) -> None:
        """Sends these lines, and looks at each reply before the next line."""
        assert self.process.stdin and self.process.stdout
        for one in lines:
            self.process.stdin.write(one.encode())
            self.process.stdin.flush()
            reply = self.process.stdout.readline()
            if not reply or b'"error"' in reply:
                sys.exit(f"counts: {one!r} is answered {reply!r}")

    def end(self) -> None:
        assert self.process.stdin
        self.process.stdin.close()
        if self.process.wait():
            sys.exit(f"counts: status {self.process.returncode}")

    def spent(self) -> int:
        with open(f"/proc/{self.process.pid}/schedstat", encoding="ascii") as it:
            return int(it.read().split()[0])

    def counts(self, lines: list[str]) -> list[int]:
        """What each of these lines takes, which are the run's last."""
        moments = [self.spent()]
        for one in lines:
            self.serve([one])
            moments.append(self.spent())
        self.end()
        return [after - before for before, after in zip(moments, moments[1:])]


class Counted(Run):
    """The program under callgrind, whose instructions are counted."""

    most, turns, library = 1.5, 3, ""

    def __init__(self, program: str, store: str) -> None:
        self.begin, self.out = f"{store}.begin", f"{store}.counts"
        words = [
            "setarch", "-R", "valgrind", "--tool=callgrind", "--instr-atstart=no", "--quiet",
            "--combine-dumps=yes", f"--callgrind-out-file={self.out}", program,
            "--mapping", MAPPING, "--db", store,
        ]
        self.start(words, {"LD_PRELOAD": self.library, "BEGIN": self.begin})

    def chosen(self, taken: list[int]) -> int:
        return sorted(taken)[len(taken) // 2]

    def counts(self, lines: list[str]) -> list[int]:
        with open(self.begin, "w", encoding="ascii"):
            pass
        # (the program waits for this one already)
        self.serve([line("createEntityManager"), *lines])
        self.end()
        with open(self.out, encoding="utf-8", errors="replace") as it:
            found = [int(word) for word in re.findall(r"^totals: (\d+)", it.read(), re.M)]
        if len(found) < len(lines):
            sys.exit(f"counts: {len(found)} dumps of {len(lines)} lines")
        return found[: len(lines)]


def counted(run: Run, works: list[Work]) -> dict[str, float]:
    """What each takes, by some turns of it after others."""
    numbers = range(1, WARM + run.turns + 1)
    turns = [(work.name, n, work.lines(n)) for work in works for n in numbers]
    counts = run.counts([one for _, _, lines in turns for one in lines])
    found: dict[str, list[int]] = {}
    for name, n, lines in turns:
        taken, counts = sum(counts[: len(lines)]), counts[len(lines) :]
        if n > WARM:
            found.setdefault(name, []).append(taken)
    return {work.name: run.chosen(found[work.name]) / work.parts for work in works}


def filled(program: str, place: str, count: int) -> str:
    """A store of so many objects."""
    store = os.path.join(tempfile.mkdtemp(dir=place), f"{count}.db")
    ran = subprocess.run(
        [program, "--mapping", MAPPING, "--db", store], input="".join(new_objects(count)).encode(),
        stdout=subprocess.PIPE, check=True,
    )
    if b'"error"' in ran.stdout:
        sys.exit("counts: a store could not be filled")
    return store


def see(few: dict[str, float], many: dict[str, float], linear: set[str], most: float) -> list[str]:
    """What has grown and may not, and what has not though it looks at everything."""
    told = grown(few, many, most)
    wrong = [f"{name} grows with what is beside it" for name in told if name not in linear]
    wrong += [f"{name} looks at everything, and was not told as grown"
              for name in sorted(linear.difference(told))]
    return wrong


def all_counts(kind: type[Run], program: str, place: str) -> Iterator[tuple[str, int, list[Work],
                                                                            dict[str, float]]]:
    """What is counted beside few and many objects, stored ones and then managed ones."""
    opened = line("createEntityManager")
    found = line("find", em=1, entity="Order", key=[2])
    person = line("find", em=1, entity="Person", key=[1])
    index = line("index", entity="Order", name="amount")
    for sizes, beside, told in ((STORED, beside_stored, ()), (STORED, beside_indexed, (index,)),
                                (JOINED, beside_joined, ())):
        for count in sizes:
            run, works = kind(program, filled(program, place, count)), beside(count)
            run.serve([opened, found, person, *told])
            yield "stored", count, works, counted(run, works)
    for count in MANAGED:
        run, works = kind(program, os.path.join(place, f"{count}.db")), beside_managed(count)
        run.serve([*new_objects(count), opened, found.replace('"em":1', '"em":2')])
        yield "managed", count, works, counted(run, works)


def main(words: list[str]) -> int:
    options = {word for word in words if word.startswith("--")}
    programs = [os.path.abspath(word) for word in words if word not in options]
    if len(programs) != 1 or options - {"--table", "--time"}:
        sys.exit(__doc__)
    kind, wrong, kinds = Run if "--time" in options else Counted, [], 0
    with tempfile.TemporaryDirectory() as place:
        if kind is Counted:
            Counted.library = os.path.join(place, "counts.so")
            library = ["-shared", "-fPIC", "-o", Counted.library, f"{TOP}/tests/counts.c"]
            subprocess.run(["cc", "-O1", *library], check=True)
        all_ = list(all_counts(kind, programs[0], place))
    for (what, little, works, few), (_, much, _, many) in zip(all_[::2], all_[1::2]):
        linear = {work.name for work in works if work.is_linear}
        figures = {name: f"{few[name]:,.0f} and {many[name]:,.0f} beside {little:,} and {much:,}"
                   f" {what} objects" for name in few}
        kinds += len(few)
        if "--table" in options:
            print(*(f"{name}: {told}" for name, told in figures.items()), sep="\n")
        for told in see(few, many, linear, kind.most):
            name = next(name for name in few if told.startswith(f"{name} "))
            wrong.append(f"{told}: {figures[name]}")
    print(*wrong, f"{kinds} kinds of calls counted, {len(wrong)} not as they must be", sep="\n")
    return 1 if wrong else 0


if __name__ == "__main__":
    sys.exit(main(sys.argv[1:]))
