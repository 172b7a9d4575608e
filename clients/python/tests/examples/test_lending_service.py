"""The lending library as a service: eight clients for KARZHOUL_LIBRARY_SECONDS (60), while the
program is killed under it, and then the service itself."""

from __future__ import annotations

import http.client
import os
import random
import re
import signal
import subprocess
import sys
import tempfile
import threading
import time
import unittest
from pathlib import Path
from typing import Dict, List, NamedTuple, Optional, Set, Tuple
from urllib.parse import urlencode

import karzhoul

from ..support import HERE, PROGRAM, needs_program
from .test_lending_library import LIBRARY

from lending import entities
from lending.entities import CopyState, Loan

SECONDS = float(os.environ.get("KARZHOUL_LIBRARY_SECONDS", "60"))
CLIENTS = 8
BARCODES = [f"B{number:05}" for number in range(1, 25)]
"""So few copies that the clients want the same ones."""


class Service:
    """A process that serves the library, and what it answers."""

    def __init__(self, db: Path) -> None:
        own = {
            "KARZHOUL_PROGRAM": str(PROGRAM), "PYTHONPATH": str(HERE.parent),
            "PYTHONDONTWRITEBYTECODE": "1",
        }
        words = [sys.executable, "-m", "lending", "--db", str(db), "--port", "0", "--demo"]
        self.process = subprocess.Popen(
            words, cwd=LIBRARY, env={**os.environ, **own}, stdout=subprocess.PIPE,
            stderr=subprocess.PIPE, text=True,
        )
        assert self.process.stdout is not None
        line = self.process.stdout.readline()
        if not line:
            raise AssertionError(self.process.communicate()[1])
        self.port = int(line.strip().rstrip("/").rpartition(":")[2])

    def ask(self, method: str, path: str, **form: object) -> Tuple[int, str]:
        """The status of a reply, and where it leads on, or its page; 0 where none came."""
        connection = http.client.HTTPConnection("127.0.0.1", self.port, timeout=60)
        try:
            connection.request(method, path, urlencode(form))
            reply = connection.getresponse()
            return reply.status, reply.getheader("Location") or reply.read().decode()
        except (OSError, http.client.HTTPException) as fault:
            return 0, repr(fault)
        finally:
            connection.close()

    def kill_program(self) -> None:
        """Ends the program that it has started, and leaves the service."""
        name = f"Name:\t{Path(str(PROGRAM)).name[:15]}\n"
        for folder in Path("/proc").glob("[0-9]*"):
            try:
                status = (folder / "status").read_text()
            except OSError:
                continue  # It has ended meanwhile.
            if f"\nPPid:\t{self.process.pid}\n" in status and status.startswith(name):
                os.kill(int(folder.name), signal.SIGKILL)
                return
        raise AssertionError("the service has no program")

    def end(self, number: signal.Signals) -> str:
        """Ends it by a signal; what it said on standard error."""
        self.process.send_signal(number)
        return self.process.communicate(timeout=60)[1]


class Confirmed(NamedTuple):
    """What the clients were told."""

    lent: Dict[int, Tuple[int, str]]
    """The member and the barcode of each loan whose reply came."""
    back: Set[int]
    unanswered: List[Tuple[str, str]]
    """Calls of which nobody knows whether they are stored."""


class Desk:
    """Clients that lend and bring back, each on a thread of its own, until they are to stop."""

    def __init__(self, service: Service) -> None:
        self.service: Optional[Service] = service
        self.told = Confirmed({}, set(), [])
        self.is_closing = threading.Event()
        self._lock = threading.Lock()
        self._faults: List[str] = []
        self._threads = [
            threading.Thread(target=self._serve, args=(random.Random(seed),))
            for seed in range(CLIENTS)
        ]
        for thread in self._threads:
            thread.start()

    def close(self) -> List[str]:
        """Has the clients stop; what went wrong in them."""
        self.is_closing.set()
        for thread in self._threads:
            thread.join()
        return self._faults

    def _serve(self, chance: random.Random) -> None:
        while not self.is_closing.is_set():
            service = self.service
            if service is None:
                time.sleep(0.05)
                continue
            try:
                self._one(service, chance)
            except Exception as fault:  # Told by the test.
                self._faults.append(repr(fault))
                return

    def _one(self, service: Service, chance: random.Random) -> None:
        member, barcode = chance.randrange(1, 81), chance.choice(BARCODES)
        what = chance.choice(("lend",) * 5 + ("bring-back",) * 5 + ("reserve", "search", "overdue"))
        if what == "lend":
            status, said = service.ask("POST", "/lend", member=member, barcode=barcode)
            self._note(status, said, what, barcode)
            if status == 303:
                self._lent(int(said.rpartition("/")[2]), member, barcode)
        elif what == "bring-back":
            status, said = service.ask("POST", "/bring-back", barcode=barcode)
            self._note(status, said, what, barcode)
            if status == 200:
                number = re.search("Loan ([0-9]+) is brought back", said)
                assert number is not None, said
                with self._lock:
                    self.told.back.add(int(number[1]))
        elif what == "reserve":
            self._reserve(service, member, chance.randrange(1, 13))
        else:
            status, said = service.ask("GET", f"/{what}")
            self._note(status, said, what, "")

    def _reserve(self, service: Service, member: int, title: int) -> None:
        """Reserves a title, and gives it up again."""
        status, said = service.ask("POST", "/reserve", member=member, title=title)
        self._note(status, said, "reserve", str(title))
        status, said = service.ask("GET", f"/member/{member}")
        self._note(status, said, "member", str(member))
        for number in re.findall('name="reservation" value="([0-9]+)"', said):
            self._note(*service.ask("POST", "/cancel", reservation=number), "cancel", number)

    def _lent(self, loan: int, member: int, barcode: str) -> None:
        with self._lock:
            if loan in self.told.lent:
                self._faults.append(f"loan {loan} was confirmed twice")
            self.told.lent[loan] = (member, barcode)

    def _note(self, status: int, said: str, what: str, barcode: str) -> None:
        with self._lock:
            if status == 0 or status == 503 and "may be stored or not" in said:
                self.told.unanswered.append((what, barcode))
            if status in (400, 404, 500):
                self._faults.append(f"{what} {barcode}: {status} {said[-200:]}")


@needs_program
@unittest.skipUnless(sys.platform == "linux", "it looks for the program in /proc")
class AMinute(unittest.TestCase):
    def setUp(self) -> None:
        place = tempfile.TemporaryDirectory()
        self.addCleanup(place.cleanup)
        self.db = Path(place.name) / "library.db"

    def started(self) -> Service:
        service = Service(self.db)
        self.addCleanup(lambda: service.process.poll() is None and service.end(signal.SIGKILL))
        return service

    def test_what_was_confirmed_stands_after_kills(self) -> None:
        service = self.started()
        desk = Desk(service)
        try:
            time.sleep(SECONDS / 4)
            service.kill_program()
            self.lends_again(desk)
            time.sleep(SECONDS / 4)
            desk.service = None
            service.end(signal.SIGKILL)
            desk.service = service = self.started()
            self.lends_again(desk)
            time.sleep(SECONDS / 2)
        finally:
            faults = desk.close()
        self.assertEqual(faults, [])
        self.assertNotIn("Traceback", service.end(signal.SIGINT))
        self.is_sound(desk.told)

    def lends_again(self, desk: Desk) -> None:
        """Waits for the next confirmed loan."""
        before, end = len(desk.told.lent), time.monotonic() + 60
        while len(desk.told.lent) == before:
            self.assertLess(time.monotonic(), end, "no loan within a minute")
            time.sleep(0.05)

    def is_sound(self, told: Confirmed) -> None:
        """Each confirmed loan is stored once, as it was confirmed, and no copy is lent twice."""
        with karzhoul.open(entities, self.db, program=PROGRAM) as app, app.begin() as manager:
            loans = manager.query("SELECT l FROM Loan l", Loan)
            stored = {
                loan.id: (loan.member.id, loan.copy.barcode) for loan in loans if loan.id > 40
            }
            self.assertEqual({loan: stored.get(loan) for loan in told.lent}, told.lent)
            more = [barcode for loan, (_, barcode) in stored.items() if loan not in told.lent]
            unknown = [barcode for what, barcode in told.unanswered if what == "lend"]
            for barcode in more:
                unknown.remove(barcode)  # No loan that nobody asked for.
            back = {loan.id for loan in loans if loan.returned}
            self.assertLessEqual(told.back, back)
            unknown = [barcode for what, barcode in told.unanswered if what == "bring-back"]
            self.assertLessEqual(len(back - told.back), len(unknown))
            lent = [loan.copy.barcode for loan in loans if not loan.returned]
            self.assertEqual(len(lent), len(set(lent)), "a copy is lent twice")
            away = manager.scalars(
                "SELECT c.barcode FROM Copy c WHERE c.state = :state", state=CopyState.ON_LOAN
            )
            self.assertEqual(sorted(lent), sorted(away))
            held = manager.scalars("SELECT r.held.barcode FROM Reservation r")
            waiting = manager.scalars("SELECT c.barcode FROM Copy c WHERE c.state = 'HELD'")
            self.assertEqual(sorted(held), sorted(waiting))


if __name__ == "__main__":
    unittest.main()
