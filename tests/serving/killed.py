#!/usr/bin/env python3
"""tests/serving/killed.py [--minutes M] [--kills N] [--processes P] [--threads T] [--seed S]
[--program PROGRAM]: clients lend copies through a server while one of them, the server or its
program is killed.

Eight processes (or P) of four threads each (or T) connect to one `karzhoul serve`, and lend copies
and take them back (tests/serving/lending.py) for ten minutes (or M), from the first transaction on
that is confirmed. At 200 moments (or N), at random from a seed, one of the processes, the server
or the program ends by SIGKILL; processes and the server are started again. A program that isn't
there at its moment, since it is being started, is waited for. After the last one more is to be
confirmed. Then the store is opened, and what each client noted is compared: each confirmed
transaction is there, none of those that were told to be lost is, none is half there, and no copy
was lent twice. Ctrl-C has it kill no more, and compare. It is run by hand;
clients/python/tests/server/test_server_trials.py has it short. Exit status 0 where nothing is wrong.
"""
from __future__ import annotations

import argparse, json, os, random, signal, subprocess, sys, tempfile, time
from contextlib import suppress
from pathlib import Path
from typing import Any, List, Optional, Sequence, Tuple

HERE = Path(__file__).resolve().parent
CLIENT = HERE.parents[1] / "clients" / "python"
sys.path[:0] = [str(HERE), str(CLIENT)]
import lending  # noqa: E402
from karzhoul.store.finding import find_program  # noqa: E402
from karzhoul.server.asking import asked  # noqa: E402
from karzhoul.server.way import Way  # noqa: E402

PATIENCE = lending.PATIENCE
# After so many kills without a transaction that was confirmed between, one is waited for: else a
# slow machine would have nothing to lose.
_IN_VAIN = 3


class Trial:
    """A server with its clients, in a folder."""

    def __init__(self, folder: Path, said: argparse.Namespace) -> None:
        self._folder, self._said = folder, said
        self._program = str(find_program(said.program))
        self.db, self._over = folder / "app.db", folder / "over"
        self._mapping = lending.mapping_file(folder)
        self._address = f"unix:{folder / 's'}"
        self._chance = random.Random(said.seed)
        self._started = 0
        self.kills = {"client": 0, "server": 0, "program": 0}
        lending.filled(self.db, self._program)
        self._log = open(folder / "log", "ab")
        self._server = self._served()
        self._clients = [self._client() for _ in range(said.processes)]

    def _start(self, *words: str) -> subprocess.Popen[bytes]:
        environment = {**os.environ, "PYTHONPATH": str(CLIENT), "PYTHONDONTWRITEBYTECODE": "",
                       "PYTHONPYCACHEPREFIX": str(self._folder / "compiled")}
        return subprocess.Popen([sys.executable, *words], env=environment, stderr=self._log,
                                start_new_session=True)  # Ctrl-C is not for them.

    def _served(self) -> subprocess.Popen[bytes]:
        return self._start(
            "-m", "karzhoul", "serve", str(self.db), "--mapping", str(self._mapping), "--program",
            self._program, "--listen", self._address,
        )

    def _client(self) -> subprocess.Popen[bytes]:
        self._started += 1
        notes = self._folder / f"notes-{self._started}"
        return self._start(str(HERE / "killed.py"), "--client", self._address, str(notes),
                           f"c{self._started}", str(self._over), str(self._said.threads))

    # ---- kills

    def run(self) -> None:
        """Kills, and starts again, until the time is over, or Ctrl-C is given."""
        try:
            self._kill_at_moments()
        except KeyboardInterrupt:
            print("interrupted: nothing more is killed")
        self._start_again()
        self._wait_for_more()

    def _kill_at_moments(self) -> None:
        seconds = 60 * self._said.minutes
        self._wait_for_more()
        began = time.monotonic()
        moments = sorted(self._chance.uniform(0, seconds) for _ in range(self._said.kills))
        count, vain = self._confirmed(), 0
        for moment in moments:
            time.sleep(max(0, began + moment - time.monotonic()))
            self._kill_one()
            self._start_again()
            before, count = count, self._confirmed()
            vain = 0 if count > before else vain + 1
            if vain == _IN_VAIN:
                self._wait_for_more()
        time.sleep(max(0, began + seconds - time.monotonic()))

    def _wait_for_more(self) -> None:
        """Waits until more is confirmed than now."""
        count, until = self._confirmed(), time.monotonic() + PATIENCE
        while self._confirmed() <= count:
            if time.monotonic() > until:
                print(f"nothing is confirmed within {PATIENCE} s")
                return
            time.sleep(0.2)
            self._start_again()

    def _confirmed(self) -> int:
        return sum(it.read_text().count(lending.STORED) for it in self._folder.glob("notes-*"))

    def _kill_one(self) -> None:
        kind = self._chance.choice(sorted(self.kills))
        if kind == "program":
            self._kill_program()
            return
        killed = self._server if kind == "server" else self._chance.choice(self._clients)
        killed.kill()
        killed.wait()  # Else it isn't known to have ended, and isn't started again.
        self.kills[kind] += 1

    def _kill_program(self) -> None:
        """Kills the server's program, which may still have to be started."""
        until = time.monotonic() + PATIENCE
        while (process := self._process_of_program()) is None:
            if time.monotonic() > until:
                print(f"the server has no program within {PATIENCE} s")
                return
            time.sleep(0.05)
            self._start_again()
        with suppress(ProcessLookupError):
            os.kill(process, signal.SIGKILL)
            self.kills["program"] += 1

    def _process_of_program(self) -> Optional[int]:
        for listed in Path(f"/proc/{self._server.pid}/task").glob("*/children"):
            with suppress(OSError):  # The thread has ended.
                for word in listed.read_text().split():
                    if str(self.db) in _command(int(word)):
                        return int(word)
        return None

    def _start_again(self) -> None:
        if self._server.poll() is not None:
            self._server = self._served()
        for at, each in enumerate(self._clients):
            if each.poll() is not None:
                self._clients[at] = self._client()

    # ---- the end

    def end(self) -> Optional[Any]:
        """Ends the clients and the server in order; what the server told of itself before."""
        self._over.touch()
        until = time.monotonic() + PATIENCE
        for each in self._clients:
            try:
                each.wait(max(1, until - time.monotonic()))
            except subprocess.TimeoutExpired:
                print(f"a client hangs: process {each.pid}, of {_command(each.pid)}")
                each.kill()
        told = self._told()
        self._server.terminate()
        try:
            if self._server.wait(PATIENCE):
                print(f"the server ended with status {self._server.returncode}")
        except subprocess.TimeoutExpired:
            print("the server hangs")
            self._server.kill()
        return told

    def _told(self) -> Optional[Any]:
        until = time.monotonic() + PATIENCE
        while self._server.poll() is None and time.monotonic() < until:
            try:
                return asked(Way(self._address, None, None), "status")
            except Exception:
                time.sleep(0.5)
        return None

    def clean(self) -> None:
        """Ends at once what still runs."""
        for each in (self._server, *self._clients):
            if each.poll() is None:
                each.kill()
            each.wait()
        self._log.close()


def _command(process: int) -> str:
    try:
        return Path(f"/proc/{process}/cmdline").read_bytes().replace(b"\0", b" ").decode()
    except OSError:
        return ""


def tried(said: argparse.Namespace, folder: Path) -> List[str]:
    """What was wrong in a trial."""
    trial = Trial(folder, said)
    try:
        trial.run()
        status = trial.end()
    finally:
        trial.clean()
    told = lending.noted(folder)
    counts = {word: len(marks) for word, marks in told.items()}
    print(f"killed: {trial.kills}; transactions: {counts}")
    if status is not None:
        kept = {name: status[name] for name in ("connections_made", "programs", "memory")}
        print(f"the last server: {json.dumps(kept)}")
    wrong = [] if status is not None else ["the server doesn't answer"]
    faults = {line for line in (folder / "log").read_text().splitlines() if '"fault"' in line}
    wrong += [*faults, *lending.faults(trial.db, str(find_program(said.program)), told)]
    return wrong if told[lending.STORED] else [*wrong, "no transaction was confirmed"]


def main(words: Sequence[str]) -> int:
    """Runs it, and tells what is wrong."""
    parser = argparse.ArgumentParser(
        description=__doc__, formatter_class=argparse.RawDescriptionHelpFormatter
    )
    for name, kind, value in (("minutes", float, 10.0), ("kills", int, 200), ("processes", int, 8),
                              ("threads", int, 4), ("seed", str, "1")):
        parser.add_argument(f"--{name}", type=kind, default=value)
    parser.add_argument("--program")
    said = parser.parse_args(words)
    with tempfile.TemporaryDirectory(prefix="karzhoul-killed-") as place:
        wrong = tried(said, Path(place))
    for line in wrong[:50]:
        print(f"wrong: {line}")
    print(f"{len(wrong)} things are wrong")
    return 1 if wrong else 0


def _as_client(address: str, notes: str, name: str, over: str, threads: str) -> int:
    lending.Client(address, Path(notes), name, Path(over)).run(int(threads))
    return 0


if __name__ == "__main__":
    if sys.argv[1:2] == ["--client"]:
        sys.exit(_as_client(*sys.argv[2:]))
    sys.exit(main(sys.argv[1:]))
