"""Values that are unique over eight threads, restarts, and kills at any moment."""

from __future__ import annotations

import random
import signal
import subprocess
import sys
import threading
import time
from collections import Counter
from pathlib import Path
from typing import Any, List
from unittest import mock

import karzhoul
from karzhoul import NotUnique
from karzhoul.store import starting

from ..classed import ClassesTest
from ..support import PROGRAM, needs_program

NAMES = """
class Name(Entity, unique=("town", "street")):
    id: int = generated()
    said: str = field(unique=True)
    town: str | None = None
    street: int | None = None
"""
# Takes, moves and frees names until it is killed; each that is stored is told once it is committed.
CHILD = """
import random, sys
sys.path.insert(0, sys.argv[1])
import karzhoul
from MODULE import Name

chance = random.Random(int(sys.argv[3]))
with karzhoul.open([Name], sys.argv[2], lock=sys.argv[4], program=sys.argv[5]) as app:
    while True:
        with app.begin() as manager:
            stored = manager.query("SELECT n FROM Name n")
            free = sorted({f"n{it}" for it in range(30)} - {it.said for it in stored})
            chance.shuffle(stored)
            for each in stored[:3]:
                manager.remove(each)
                free.append(each.said)
            chance.shuffle(free)
            if len(stored) > 8:
                one, two, three = stored[4:7]
                one.said, two.said, three.said = two.said, three.said, free.pop()
                for each in (one, two, three):
                    each.street = int(each.said[1:])
            for said in free[:5]:
                manager.persist(Name(said=said, town="a", street=int(said[1:])))
        print("committed", flush=True)
"""


@needs_program
class Service(ClassesTest):
    def setUp(self) -> None:
        super().setUp()
        self.models = self.module(NAMES)

    def threads(self, work: Any) -> List[BaseException]:
        """Does work on eight threads, and answers what they raised."""
        faults: List[BaseException] = []

        def done(number: int) -> None:
            try:
                work(number)
            except BaseException as fault:
                faults.append(fault)

        threads = [threading.Thread(target=done, args=(number,)) for number in range(8)]
        for each in threads:
            each.start()
        for each in threads:
            each.join()
        return faults

    def test_eight_threads_take_the_same_fifty_names_each_once(self) -> None:
        app = karzhoul.open(self.models, str(self.db), program=PROGRAM, lock=self.lock,
                            threads=True)
        self.addCleanup(app.close)
        told: "Counter[str]" = Counter()
        refused: "Counter[str]" = Counter()

        def take(number: int) -> None:
            chance = random.Random(number)
            for name in chance.sample(range(50), 50):
                made = f"name {name}"

                def work(manager: karzhoul.EntityManager) -> None:
                    manager.persist(self.models.Name(said=made))

                try:
                    if number % 2:
                        app.retry(work, 1000)
                    else:
                        with app.begin() as manager:
                            work(manager)
                    told[made] += 1
                except NotUnique:
                    refused[made] += 1

        self.assertEqual(self.threads(take), [])
        self.assertEqual((len(told), set(told.values())), (50, {1}))
        self.assertEqual(set(refused.values()), {7})
        app.restart()
        with app.begin() as manager:
            stored = manager.scalars("SELECT n.said FROM Name n")
        self.assertEqual(sorted(stored), sorted(told))

    def test_threads_that_swap_move_and_free_names(self) -> None:
        app = karzhoul.open(self.models, str(self.db), program=PROGRAM, lock=self.lock,
                            threads=True)
        self.addCleanup(app.close)
        with app.begin() as manager:
            manager.persist_all([self.models.Name(said=f"n{it}") for it in range(12)])

        def change(number: int) -> None:
            chance = random.Random(number)

            def work(manager: karzhoul.EntityManager) -> None:
                stored = manager.query("SELECT n FROM Name n")
                chance.shuffle(stored)
                one, two, three = stored[:3]
                one.said, two.said = two.said, one.said
                free = {f"n{it}" for it in range(16)} - {it.said for it in stored}
                manager.remove(three)
                manager.persist(self.models.Name(said=chance.choice([*free, three.said])))

            for _ in range(4):
                app.retry(work, 1000)

        self.assertEqual(self.threads(change), [])
        self.consistent(app, 12)

    def consistent(self, app: karzhoul.EntityManagerFactory, count: int = 0) -> None:
        """Each name is there once, taken, and no other one is."""
        with app.begin() as manager:
            stored = manager.scalars("SELECT n.said FROM Name n")
        self.assertEqual(len(stored), len(set(stored)))
        self.assertEqual(len(stored), count or len(stored))
        for said in stored:
            with self.assertRaises(NotUnique), app.begin() as manager:
                manager.persist(app.new("Name", said=said))
        free = sorted({f"n{it}" for it in range(60)} - set(stored))
        with app.begin() as manager:
            manager.persist_all([app.new("Name", said=said) for said in free])

    def test_kills_at_any_moment(self) -> None:
        file = self.folder / "child.py"
        file.write_text(CHILD.replace("MODULE", self.models.__name__))
        here = str(Path(karzhoul.__file__).parent.parent)
        chance, committed = random.Random(7), 0
        for turn in range(6):
            more = map(str, (file, here, self.db, turn, self.lock, PROGRAM))
            words = [sys.executable, *more]
            child = subprocess.Popen(words, stdout=subprocess.PIPE, text=True)
            assert child.stdout is not None
            committed += child.stdout.readline() == "committed\n"
            time.sleep(chance.uniform(0, 0.5))
            child.send_signal(signal.SIGKILL)
            child.communicate()
            with mock.patch.object(starting, "PATIENCE", 60):
                self.open(self.models).close()
        self.assertEqual(committed, 6)
        with self.open(self.models) as app:
            self.consistent(app)
            with app.begin() as manager:
                keys = manager.one("SELECT COUNT(k) FROM KarzhoulUnique k")
                taken = manager.one("SELECT COUNT(n) FROM Name n WHERE n.town IS NOT NULL")
                self.assertEqual(keys, manager.one("SELECT COUNT(n) FROM Name n") + taken)
