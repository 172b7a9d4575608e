"""What is asked of the library, within a transaction that is open."""

from __future__ import annotations

from datetime import date
from typing import Any, Dict, List, Sequence

from karzhoul import EntityManager

from .entities import CopyState, Title, folded

PAGE = 20


def titles(manager: EntityManager, text: str, page: int = 1) -> Any:
    """A page of the titles that have a word which begins so, for each word of the text: of their
    names or their authors, in any case.
    """
    words = {f"word{number}": f"% {word}%" for number, word in enumerate(folded(text).split()[:8])}
    tests = " AND ".join(f"t.words LIKE :{name}" for name in words)
    where = f"WHERE {tests} " if tests else ""
    return manager.page(
        f"SELECT t FROM Title t {where}ORDER BY t.words, t.id", page, PAGE, Title, total=True,
        params=words,
    )


def on_shelves(manager: EntityManager, found: Sequence[Title]) -> Dict[int, int]:
    """How many copies of each of these titles stand on a shelf."""
    rows = manager.query(
        "SELECT c.title.id AS title, COUNT(c) AS copies FROM Copy c "
        "WHERE c.title.id IN :titles AND c.state = :state GROUP BY c.title.id",
        titles=[title.id for title in found], state=CopyState.ON_SHELF,
    )
    return {row.title: row.copies for row in rows}


def overdue(manager: EntityManager, today: date, page: int = 1) -> Any:
    """A page of the loans that were due before this day, the longest overdue first."""
    return manager.page(
        "SELECT l AS loan, m AS reader, c AS copy, t.name AS title, b.name AS branch FROM Loan l "
        "JOIN l.member m JOIN l.copy c JOIN c.title t JOIN c.branch b "
        "WHERE l.returned IS NULL AND l.due < :today ORDER BY l.due, l.id",
        page, PAGE, total=True, today=today,
    )


def overdue_by_branch(manager: EntityManager, today: date) -> List[Any]:
    """How many loans are overdue of each branch, and since when."""
    return manager.query(
        "SELECT b.name AS branch, COUNT(l) AS loans, MIN(l.due) AS oldest FROM Loan l "
        "JOIN l.copy c JOIN c.branch b WHERE l.returned IS NULL AND l.due < :today "
        "GROUP BY b.name ORDER BY b.name",
        today=today,
    )
