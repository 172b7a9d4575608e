"""The anomalies of Hermitage: of managers of one program, and of sessions that are processes."""

from __future__ import annotations

import json
import subprocess
import sys
from typing import Any, Dict

import karzhoul

from .isolation import MAPPING, SCENARIOS, Session, begin_again
from ..served import SECONDS, Here
from ..support import HERE, PROGRAM, FolderTest, needs_program


class Process:
    """A session that is a process of its own."""

    def __init__(self, address: str) -> None:
        self._process = subprocess.Popen(
            [sys.executable, "-m", "tests.session.isolation", address], cwd=HERE.parent,
            stdin=subprocess.PIPE, stdout=subprocess.PIPE, text=True,
        )

    def do(self, step: str) -> Any:
        """As `Session.do`."""
        assert self._process.stdin is not None and self._process.stdout is not None
        self._process.stdin.write(f"{step}\n")
        self._process.stdin.flush()
        return json.loads(self._process.stdout.readline())

    def close(self) -> None:
        """Ends it."""
        self._process.communicate(timeout=SECONDS)


@needs_program
class Isolation(FolderTest):
    def check(self, app: karzhoul.EntityManagerFactory, sessions: Dict[int, Any]) -> None:
        """Each scenario by these sessions, of which 0 looks at what stands then."""
        for name, steps in SCENARIOS.items():
            begin_again(app)
            for at, step in enumerate(steps):
                with self.subTest(f"{name}: step {at + 1}, {step.session} {step.does}"):
                    self.assertEqual(sessions[step.session].do(step.does), step.wanted)

    def test_managers_of_one_program(self) -> None:
        with karzhoul.open(MAPPING, program=PROGRAM) as app:
            self.check(app, {number: Session(app) for number in range(4)})

    def test_processes_that_connect_to_a_server(self) -> None:
        path = self.place / "s"
        server = Here(MAPPING, self.place / "app.db", listen=path)
        self.addCleanup(server.close)
        address = f"unix:{path}"
        with karzhoul.connect(address) as app:
            sessions: Dict[int, Any] = {0: Session(app)}
            for number in (1, 2, 3):
                sessions[number] = Process(address)
                self.addCleanup(sessions[number].close)
            self.check(app, sessions)
