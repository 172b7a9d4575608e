"""Which program is started. Nothing is built for it, since that takes an hour."""

from __future__ import annotations

import os
import shutil
import subprocess
import sys
from pathlib import Path
from typing import Optional, Set

from ..refusals import ProgramNotFound
from .program import Words

_PACKAGE = Path(__file__).resolve().parents[1]
# What was said on standard error, so that each is said once.
_said: Set[str] = set()


def find_program(given: Optional[Words] = None) -> str:
    """The program to start: the one that is given; else the one that was installed with this
    package; else, where the package lies in a clone, the one that was built there, or `dist/jpa`;
    else the one that KARZHOUL_PROGRAM names; else, outside of a clone, `jpa` on the PATH."""
    if given:
        return _startable(given)
    named = os.environ.get("KARZHOUL_PROGRAM")
    found = _installed(_PACKAGE) or _of_clone((_PACKAGE / "../../..").resolve(), named)
    if not found:
        return _startable(named or "jpa")
    if named and not _is_same(named, found):
        _say(
            f"{found} is started, and not {named}, which KARZHOUL_PROGRAM names: give it as "
            f"program=.."
        )
    return found


def _startable(named: Words) -> str:
    found = shutil.which(os.fspath(named))
    if found is None:
        words = f"{os.fspath(named)!r} is no program that can be started"
        ways = "name one by program=.. or by KARZHOUL_PROGRAM, or install the wheel that brings it"
        raise ProgramNotFound(f"{words}: {ways}")
    return os.path.abspath(found)


def _installed(package: Path) -> Optional[str]:
    """The program that was installed with a package, of the wheel that brings it."""
    for record in package.parent.glob(f"{package.name}-*.dist-info/RECORD"):
        for line in record.read_text(encoding="utf-8").splitlines():
            name = line.split(",")[0]
            if name.endswith("/bin/jpa"):
                # (`pip install --target` moves it beside the package, and leaves the line as it
                # was)
                places = (package.parent / name, package.parent / "bin" / "jpa")
                found = (os.path.abspath(place) for place in places if os.access(place, os.X_OK))
                return next(found, None)
    return None


def _of_clone(top: Path, named: Optional[str]) -> Optional[str]:
    """The program that runs in a clone without a build. Where there is none, and no other one is
    named, it is said what can be done."""
    if not (top / "crates" / "jpa").is_dir():
        return None
    words = [str(top / "tools" / "program"), "--any"]
    ran = subprocess.run(words, stdin=subprocess.DEVNULL, capture_output=True, text=True)
    if ran.returncode == 0:
        # Which one it runs is of no concern where one is named: `find_program` says what is started.
        if ran.stderr and not (named and "runs dist/jpa" in ran.stderr):
            _say(ran.stderr.strip())
        return ran.stdout.rstrip("\n")
    if named:
        return None
    why = "; ".join(line.partition(": ")[2] or line for line in ran.stderr.splitlines())
    ways = (
        f"'{top}/jpa --proved' proves and builds it; program=.. or KARZHOUL_PROGRAM names another"
    )
    raise ProgramNotFound(f"there is no program that runs without a build ({why}): {ways}")


def _is_same(named: str, found: str) -> bool:
    return os.path.realpath(shutil.which(named) or named) == os.path.realpath(found)


def _say(words: str) -> None:
    if words not in _said:
        _said.add(words)
        print(f"karzhoul: {words}", file=sys.stderr)
