"""A new store, held against what was written, by an opening."""

from __future__ import annotations

from pathlib import Path
from typing import Mapping, Optional

from ..session import opening
from ..classes.changes import settle
from ..classes.mapping import UNIQUE
from ..refusals import KarzhoulError
from .sides import Side
from .writing import carrying


def judge(
    side: Side, db: Path, lock: Optional[Path], counts: Mapping[str, int], program: Optional[str]
) -> None:
    """Opens a new store by its mapping or classes, whose lock is this file, and counts its objects:
    a `KarzhoulError` where they are others than were written."""
    if side.made is not None and any(it["name"] == UNIQUE for it in side.mapping["entities"]):
        # By the mapping of the writing, in which a version is a number that no commit raises.
        with opening.open(carrying(side.mapping), db, program=program) as app:
            settle(app, side.made)
    said = str(lock) if lock is not None else None
    with opening.open(side.given, db, program=program, lock=said) as app, app.begin() as manager:
        for name in side.shapes:
            count = manager.one(f"SELECT COUNT(e) FROM {name} e WHERE TYPE(e) = {name}")
            if count != counts.get(name, 0):
                raise KarzhoulError(f"the new store has {count:,} objects of {name}, and "
                                    f"{counts.get(name, 0):,} were written")
