"""What trials share: how a difference is told, and how those of tests/input.py and tests/questions.py
are run."""
from __future__ import annotations

import subprocess, tempfile
from typing import Any, Callable, Sequence


class Differs(Exception):
    pass


def see(found: Any, wanted: Any, where: Any) -> None:
    if found != wanted:
        raise Differs(f"{where}: {found!r}, and not {wanted!r}"[:800])


def tried(trials: Sequence[Callable[..., None]], what: str, run: Callable[..., None]) -> int:
    """Runs each trial in a folder of its own, as `run(trial, folder)`, and tells how many are as
    they must be. The exit status: 0 where all are."""
    failed = 0
    for trial in trials:
        with tempfile.TemporaryDirectory() as place:
            try:
                run(trial, place)
            except (Differs, subprocess.TimeoutExpired) as why:
                failed += 1
                print(f"differs: {trial.__name__}: {why}")
    print(f"{len(trials) - failed} trials of {what} are as they must be, {failed} differ")
    return 1 if failed else 0
