"""Where tables are written to."""

from __future__ import annotations

from typing import Dict, Iterable, Union

from ..session.factory import EntityManagerFactory
from .script import Script
from .sqlite import File

Target = Union[File, Script]


def counts_of(app: EntityManagerFactory, entities: Iterable[str]) -> Dict[str, int]:
    """How many objects there are of each of these very classes."""
    manager = app.create_entity_manager()
    return {
        name: int(manager.one(f"SELECT COUNT(e) FROM {name} e WHERE TYPE(e) = {name}"))
        for name in entities
    }
