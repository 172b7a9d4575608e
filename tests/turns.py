#!/usr/bin/env python3
"""tests/turns.py: walks the turns of tools/planted-turn, from the landing that is next on, and
tells each planted edit that has none in a round, and each landing that takes more than it may.
Nothing is laid and nothing is proved.

A landing's lots begin in a window of the budget's width. So they may take as much as that and the
dearest lot. It warns where a landing was made, which changed CHANGELOG.md, and planted/landing was
not raised in that commit or a later one; where git's log doesn't tell, as in a shallow clone, it
says nothing.
"""
from __future__ import annotations

import glob
import importlib.machinery
import importlib.util
import os
import shutil
import subprocess
import sys
import tempfile
from types import ModuleType
from typing import Any, Callable

sys.dont_write_bytecode = True
TOP = os.path.dirname(os.path.dirname(os.path.abspath(__file__)))
LANDINGS = 60


def planted_turn() -> ModuleType:
    loader = importlib.machinery.SourceFileLoader("planted_turn", f"{TOP}/tools/planted-turn")
    spec = importlib.util.spec_from_loader(loader.name, loader)
    assert spec is not None
    module = importlib.util.module_from_spec(spec)
    sys.modules[loader.name] = module
    loader.exec_module(module)
    return module


def walked(turns: Any) -> list[str]:
    """What is wrong with a round, of at least so many landings."""
    first = turns.landing()
    lots = turns.ring()
    round_ = turns.windows(lots)
    wrong, tried, cost = [], set[str](), []
    for number in range(first, first + max(LANDINGS, len(round_))):
        lots_now = round_[number % len(round_)]
        chosen = turns.turn(number)
        if chosen[: len(lots_now)] != lots_now:
            wrong.append(f"landing {number} leaves out lots of its window")
        tried.update(edit for lot in lots_now for edit in lot.edits)
        cost.append(sum(lot.seconds for lot in lots_now))
        extra = sum(lot.seconds for lot in chosen[len(lots_now) :])
        if extra > turns.BUDGET / 3:
            wrong.append(f"landing {number} takes {extra:.0f} s more for crates that changed")
    planted = glob.glob("planted/*/*.edit")
    planted = [edit for edit in planted if not edit.startswith("planted/untried/")]
    wrong += [f"{edit} has no turn" for edit in sorted(set(planted) - tried)]
    most = turns.BUDGET + max(lot.seconds for lot in lots)
    if max(cost) > most:
        wrong.append(f"a landing takes {max(cost):.0f} s, more than {most:.0f}")
    names = sorted(it.split("/")[1] for it in glob.glob("crates/*/must-fail"))
    for name in names:
        if all(name in turns.crates_left_out(first + i) for i in range(turns.OWN)):
            wrong.append(f"the edits of must-fail/ of {name} have no turn in {turns.OWN} landings")
    print(
        f"{len(planted)} planted edits in {len(lots)} lots: {len(round_)} landings a round,"
        f" of {sum(cost) / len(cost):.0f} s, {max(cost):.0f} at most"
    )
    return wrong


def without_git(turns: Any) -> list[str]:
    """Whether the turns move, and come in one round, where there is no git and so no count."""
    with tempfile.TemporaryDirectory() as top:
        shutil.copytree("planted", f"{top}/planted")
        for part in ("tools/planted-turn", "tools/seconds"):
            os.makedirs(f"{top}/tools", exist_ok=True)
            shutil.copy(part, f"{top}/{part}")
        for folder in glob.glob("crates/*/must-fail"):
            shutil.copytree(folder, f"{top}/{folder}")
        run: Callable[..., str] = lambda word: subprocess.run(
            [f"{top}/tools/planted-turn", word], check=True, capture_output=True, text=True,
            env={**os.environ, "GIT_DIR": f"{top}/.git"},
        ).stdout
        number, first = turns.landing(), run("--list")
        raised, second = run("--next"), run("--list")
        if not raised.endswith(f" {number + 1} now\n") or first == second:
            return [f"the turn doesn't move where there is no git: {raised!r}, {first!r}"]
    return []


def warn_of_landing(turns: Any) -> None:
    """Warns where CHANGELOG.md tells of a landing after the number was raised."""
    landed, raised = (turns.git("log", "-1", "--format=%H", "--", it) for it in
                      ("CHANGELOG.md", turns.LANDING))
    if not landed or not raised or turns.git("status", "--porcelain", "--", turns.LANDING):
        return
    order = ["git", "merge-base", "--is-ancestor", *landed, *raised]
    if subprocess.run(order, capture_output=True).returncode == 1:
        print(f"warning: {turns.LANDING} was not raised since the landing {landed[0][:8]}:"
              " 'tools/planted-turn --next' does, once for each landing")


def main() -> int:
    os.chdir(TOP)
    turns = planted_turn()
    wrong = walked(turns) + without_git(turns)
    warn_of_landing(turns)
    for why in wrong:
        print(why)
    return 1 if wrong else 0


if __name__ == "__main__":
    sys.exit(main())
