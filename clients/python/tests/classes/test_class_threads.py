"""Classes on eight threads of a service, over restarts."""

from __future__ import annotations

import threading
from typing import List

import karzhoul

from ..classed import ClassesTest
from ..support import PROGRAM, needs_program

COUNTER = """
class Counter(Entity):
    id: int = generated()
    version: int = version()
    total: Decimal = money(2, default=Decimal(0))
    changes: ClassVar[list[str]] = []

    def pre_update(self) -> None:
        self.changes.append(str(self.total))
"""


@needs_program
class Threads(ClassesTest):
    def test_eight_threads_change_and_make_objects(self) -> None:
        module = self.module(COUNTER)
        app = karzhoul.open(module, str(self.db), program=PROGRAM, lock=self.lock, threads=True)
        self.addCleanup(app.close)
        with app.begin() as manager:
            manager.persist(module.Counter())
        faults: List[BaseException] = []

        def add(manager: karzhoul.EntityManager) -> None:
            counter = manager.get_reference(module.Counter, 1)
            counter.total += module.Decimal("0.01")
            manager.persist(module.Counter(total=counter.total))

        def work() -> None:
            try:
                for _ in range(10):
                    app.retry(add, 1000)
            except BaseException as fault:
                faults.append(fault)

        threads = [threading.Thread(target=work) for _ in range(8)]
        for each in threads:
            each.start()
        for each in threads:
            each.join()
        self.assertEqual(faults, [])
        app.restart()
        with app.begin() as manager:
            self.assertEqual(str(manager.get_reference(module.Counter, 1).total), "0.80")
            self.assertEqual(manager.one("SELECT COUNT(c) FROM Counter c"), 81)
            self.assertEqual(str(manager.one("SELECT MAX(c.total) FROM Counter c")), "0.80")
            manager.persist(module.Counter())
        self.assertGreaterEqual(len(module.Counter.changes), 80)

    def test_what_is_set_in_a_pipeline_and_merged(self) -> None:
        module = self.module(COUNTER)
        with self.open(module) as app:
            with app.begin() as manager, app.pipeline():
                made = module.Counter(total=module.Decimal(5))
                manager.persist(made)
            made.total = module.Decimal(7)
            with app.begin() as manager:
                manager.merge(made)
            with app.begin() as manager:
                self.assertEqual(manager.query("SELECT c.total FROM Counter c"),
                                 [module.Decimal(7)])
