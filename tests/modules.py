#!/usr/bin/env python3
"""tests/modules.py FOLDER [MODULE..]: runs each module test_*.py of unittest in FOLDER and in the
folders in it, in a process of its own, as many at a time as this process has processors
(KARZHOUL_TEST_PROCESSES says another number). Those that are named, as test_a or wire.test_b, come
first: name the longest, so that none of them is waited for alone. Each has a TMPDIR of its own,
which goes with it. What it says beside its count is told when it has ended. The last lines are
those of unittest, over all modules.

A module that hasn't ended after SECONDS is ended with what it started, and has failed. So has one
that gives no count. The status is 0 where nothing failed.
"""
from __future__ import annotations

import os
import re
import shutil
import signal
import subprocess
import sys
import tempfile
import time
from pathlib import Path
from typing import Dict, List, NamedTuple, Optional

UNIT = Path(__file__).resolve().with_name("unit.py")
SECONDS = 1200
"""How long one module may take: ten times what the longest takes where four run on four
processors."""
_COUNTED = ("failures", "errors", "skipped", "expected failures", "unexpected successes")
_RAN = re.compile(r"^Ran (\d+) tests? in [0-9.]+s$", re.MULTILINE)
_ENDED = re.compile(r"^(OK|FAILED|NO TESTS RAN)(?: \((.*)\))?$", re.MULTILINE)
_COUNT_LINES = re.compile(r"[.sxu]*|-{70}|Ran \d+ tests? in [0-9.]+s|OK(?: \(.*\))?")


class Outcome(NamedTuple):
    """How a module ended: how many tests it ran, what else unittest counted, and why it failed as a
    whole, or nothing."""

    ran: int
    counts: Dict[str, int]
    fault: str


class Running:
    """A module that runs in a process of its own."""

    def __init__(self, name: str) -> None:
        self.name, self._start = name, time.monotonic()
        self._place = tempfile.mkdtemp(prefix=f"{name.rpartition('.')[2]}-")
        self._said = tempfile.TemporaryFile()
        self._process = subprocess.Popen(
            [sys.executable, str(UNIT), name], stdin=subprocess.DEVNULL, stdout=self._said,
            stderr=subprocess.STDOUT, env={**os.environ, "TMPDIR": self._place},
            start_new_session=True,
        )

    def outcome(self) -> Optional[Outcome]:
        """How it ended, which is told, or None as long as it runs."""
        status = self._process.poll()
        seconds = time.monotonic() - self._start
        if status is None and seconds < SECONDS:
            return None
        self.end()
        self._said.seek(0)
        said = self._said.read().decode(errors="replace")
        outcome = _outcome(status, said)
        failed = f", failed: {outcome.fault}" if outcome.fault else ""
        print(f"{self.name}: {outcome.ran} tests in {seconds:.1f} s{failed}", flush=True)
        for line in said.splitlines():
            if outcome.fault or not _COUNT_LINES.fullmatch(line):
                print(line, flush=True)
        return outcome

    def end(self) -> None:
        """Ends what still runs, and removes its folder."""
        if self._process.poll() is None:
            os.killpg(self._process.pid, signal.SIGKILL)
            self._process.wait()
        shutil.rmtree(self._place, ignore_errors=True)


def _outcome(status: Optional[int], said: str) -> Outcome:
    ran, ended = _RAN.search(said), _ENDED.search(said)
    counts: Dict[str, int] = {}
    for part in ((ended and ended[2]) or "").split(", "):
        word, _, number = part.partition("=")
        if word:
            counts[word] = int(number)
    if status is None:
        fault = f"it hadn't ended after {SECONDS} s"
    elif not (ran and ended):
        fault = f"it ended with status {status}, and gave no count"
    else:
        fault = f"it ended with status {status}" if status else ""
    return Outcome(int(ran[1]) if ran else 0, counts, fault)


def run(names: List[str], at_a_time: int) -> List[Outcome]:
    """Runs the modules, the first ones first, and gives their outcomes."""
    waiting, running, outcomes = list(names), [], []
    try:
        while waiting or running:
            while waiting and len(running) < at_a_time:
                running.append(Running(waiting.pop(0)))
            time.sleep(0.05)
            for module in list(running):
                outcome = module.outcome()
                if outcome is not None:
                    running.remove(module)
                    outcomes.append(outcome)
    finally:
        for module in running:
            module.end()
    return outcomes


def tell(outcomes: List[Outcome], seconds: float) -> int:
    """Tells the counts over all modules, and answers the status."""
    sums = {word: sum(it.counts.get(word, 0) for it in outcomes) for word in _COUNTED}
    faults = sums["modules"] = sum(1 for it in outcomes if it.fault)
    told = ", ".join(f"{word}={number}" for word, number in sums.items() if number)
    print(f"Ran {sum(it.ran for it in outcomes)} tests in {seconds:.3f}s\n")
    print(("FAILED" if faults else "OK") + (f" ({told})" if told else ""), flush=True)
    return 1 if faults else 0


def _stop(*_: object) -> None:
    """Ends what runs, and is asked once: `timeout` may ask twice."""
    signal.signal(signal.SIGTERM, signal.SIG_IGN)
    sys.exit(143)


def found(folder: Path) -> List[str]:
    """The modules of a folder and of those in it, by their names from the folder on."""
    paths = (path.relative_to(folder) for path in folder.rglob("test_*.py"))
    return sorted(".".join(path.with_suffix("").parts) for path in paths)


def main(words: List[str]) -> int:
    """Runs the modules of a folder, and answers the status."""
    folder, *first = words
    there = found(Path(folder))
    if not there or not set(first) <= set(there):
        lacking = ", ".join(sorted(set(first) - set(there))) or "test_*.py"
        print(f"modules: {folder} has no {lacking}", file=sys.stderr)
        return 1
    names = [*first, *(name for name in there if name not in first)]
    signal.signal(signal.SIGTERM, _stop)
    told = os.environ.get("KARZHOUL_TEST_PROCESSES")
    at_a_time = int(told) if told else len(os.sched_getaffinity(0))
    start = time.monotonic()
    outcomes = run([".".join([*Path(folder).parts, name]) for name in names], at_a_time)
    return tell(outcomes, time.monotonic() - start)


if __name__ == "__main__":
    sys.exit(main(sys.argv[1:]))
