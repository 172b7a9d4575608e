"""What the sessions of other libraries call by another name than a manager does."""

from __future__ import annotations

_TRANSACTION = "with app.begin() as manager: .. commits at its end, and manager.transaction() has {}()"
_NAMES = {
    **{name: _TRANSACTION.format(name) for name in ("begin", "commit", "rollback")},
    "add": "manager.persist(object) stores a new one",
    "add_all": "manager.persist_all(objects) stores new ones",
    "save": "manager.persist(object) stores a new one, and a managed one is stored as it is",
    "update": "a managed object is stored as it is, and manager.merge(object) takes a detached one",
    "delete": "manager.remove(object) removes it",
    "get": "manager.find(Class, key) gives the object of a key, or None",
    "execute": "manager.query(text) and manager.one(text) ask, and manager.execute_update(text) "
    "does an UPDATE or a DELETE",
    "exec": "manager.query(text) asks",
    "scalars": "manager.query(text) gives a row of one item as that item",
    "scalar": "manager.one(text) gives the one row, of one item as that item",
    "expunge": "manager.detach(object) lets it go",
    "expunge_all": "manager.clear() lets all go",
}


def no_member(name: str) -> str:
    """That a manager has no member of a name, and what is meant by it."""
    way = f": {_NAMES[name]}" if name in _NAMES else ""
    return f"'EntityManager' object has no attribute {name!r}{way}"
