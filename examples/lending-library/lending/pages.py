"""The pages, as HTML: each is made within the transaction that reads what it shows."""

from __future__ import annotations

from html import escape
from typing import Any, Iterable, Mapping, Optional, Sequence
from urllib.parse import urlencode

from karzhoul import EntityManager

from . import reports
from .entities import Loan, Member, ReservationState, Staff, Title
from .service import Library, found

STYLE = (
    "body{font:16px/1.5 sans-serif;max-width:60em;margin:1em auto;padding:0 1em}"
    "table{border-collapse:collapse}td,th{padding:.2em .8em;text-align:left;"
    "border-bottom:1px solid #ccc}form{margin:.3em 0}td form{display:inline}.late{color:#a00}"
)
OPEN = (ReservationState.WAITING, ReservationState.READY)


def page(heading: str, *parts: str) -> str:
    """A whole page."""
    return (
        f"<!DOCTYPE html><html lang=en><meta charset=utf-8><title>{escape(heading)}</title>"
        f"<style>{STYLE}</style><p>{link('/', 'Counter')} {link('/search', 'Catalogue')} "
        f"{link('/members', 'Members')} {link('/overdue', 'Overdue')}</p>"
        f"<h1>{escape(heading)}</h1>{''.join(parts)}</html>"
    )


def link(path: str, text: object) -> str:
    """A link to a page of the site; the text is no HTML."""
    return f'<a href="{escape(path)}">{escape(str(text))}</a>'


def title_link(title: Title) -> str:
    """A title by its name, with its page behind it."""
    return link(f"/title/{title.id}", title.name)


def member_link(member: Member) -> str:
    """A member by her name, with her page behind it."""
    return link(f"/member/{member.id}", member.name)


def table(heads: Sequence[str], rows: Iterable[Sequence[str]]) -> str:
    """A table of cells that are HTML, or a word that there is nothing."""
    lines = ["<tr>" + "".join(f"<td>{cell}" for cell in row) for row in rows]
    if not lines:
        return "<p>None."
    return f"<table><tr>{''.join(f'<th>{escape(head)}' for head in heads)}{''.join(lines)}</table>"


def form(action: str, button: str, *fields: str, **hidden: object) -> str:
    """A form that is sent by POST."""
    kept = "".join(
        f'<input type=hidden name="{name}" value="{escape(str(value))}">'
        for name, value in hidden.items()
    )
    inner = "".join([*fields, kept, f"<button>{button}</button>"])
    return f'<form method=post action="{escape(action)}">{inner}</form>'


def field(label: str, name: str, value: object = "") -> str:
    """A field of a form, with the value that stands in it."""
    shown = escape("" if value is None else str(value))
    return f'<label>{escape(label)} <input name="{name}" value="{shown}"></label> '


def pager(path: str, shown: Any, **asked: str) -> str:
    """Where the pages before and behind this one are."""
    near = [("Before", shown.number - 1)] if shown.number > 1 else []
    near += [("Next", shown.number + 1)] if shown.has_next else []
    links = (link(f"{path}?{urlencode({**asked, 'page': number})}", word) for word, number in near)
    place = f"page {shown.number} of {max(shown.pages, 1)}"
    return f"<p>{shown.total} in all, {place} {' '.join(links)}"


def counter() -> str:
    """The first page, with what is done at a counter."""
    return page(
        "Lending library",
        "<h2>Lend</h2>",
        form("/lend", "Lend", field("Member", "member"), field("Barcode", "barcode")),
        "<h2>Bring back</h2>",
        form("/bring-back", "Bring back", field("Barcode", "barcode")),
        "<h2>Search</h2>",
        search_form(""),
    )


def search_form(words: str) -> str:
    """The form of a search, with the words that were asked for."""
    return f"<form action=/search>{field('Words', 'words', words)}<button>Search</button></form>"


def search(manager: EntityManager, words: str, number: int) -> str:
    """The titles that a search finds."""
    found_titles = reports.titles(manager, words, number)
    authors = manager.fetch(found_titles, "authors.name")
    copies = reports.on_shelves(manager, found_titles)
    rows = [
        (title_link(title), escape(", ".join(names)), str(title.published or ""),
         str(copies.get(title.id, 0)))
        for title, names in zip(found_titles, authors)
    ]
    return page(
        "Catalogue",
        search_form(words),
        table(("Title", "Authors", "Published", "On shelves"), rows),
        pager("/search", found_titles, words=words),
    )


def title(manager: EntityManager, number: int) -> str:
    """A title with its copies, and who waits for it."""
    shown = found(manager, Title, number)
    manager.fetch(shown.copies, "branch")
    copies = (
        (escape(copy.barcode), escape(copy.branch.name), escape(copy.state.value),
         "reading room" if copy.reading_room else "")
        for copy in shown.copies
    )
    waiting = (
        (member_link(each.member), each.state.value, str(each.held_until or ""))
        for each in shown.reservations if each.state in OPEN
    )
    return page(
        shown.name,
        f"<p>{escape(', '.join(author.name for author in shown.authors))}"
        f" {shown.published or ''} {escape(', '.join(shown.subjects))}",
        f"<p>{link(f'/title/{number}/correct', 'Correct')}",
        table(("Barcode", "Branch", "State", ""), copies),
        "<h2>Reserved</h2>", table(("Member", "State", "Until"), waiting),
        form("/reserve", "Reserve", field("Member", "member"), title=number),
    )


def correction(title: Title, typed: Optional[Mapping[str, Any]] = None, told: str = "") -> str:
    """The form that corrects a title, over the version that it shows; what was typed stays."""
    values = typed or {
        "name": title.name, "published": title.published, "subjects": ", ".join(title.subjects),
    }
    stored = (
        f"<p class=late>{escape(told)}<p>Now it is: {escape(title.name)}, {title.published or ''}, "
        f"{escape(', '.join(title.subjects))}. Yours is below: send it again, or "
        f"{link(f'/title/{title.id}', 'leave it')}."
    )
    return page(
        f"Correct {title.name}", stored if told else "",
        form(
            f"/title/{title.id}/correct", "Save", field("Name", "name", values.get("name")),
            field("Published", "published", values.get("published")),
            field("Subjects", "subjects", values.get("subjects")), version=title.version,
        ),
    )


def members(manager: EntityManager, number: int) -> str:
    """A page of the members by their names, staff among them."""
    shown = manager.page(
        "SELECT m FROM Member m ORDER BY m.name, m.id", number, reports.PAGE, Member, total=True
    )
    rows = (
        (str(each.id), member_link(each), each.role.value if isinstance(each, Staff) else "")
        for each in shown
    )
    return page("Members", table(("Number", "Name", ""), rows), pager("/members", shown))


def member(manager: EntityManager, library: Library, number: int) -> str:
    """A member with her loans, reservations and fines."""
    shown = found(manager, Member, number)
    manager.fetch(shown.loans, "copy.title")
    reserved = [each for each in shown.reservations if each.state in OPEN]
    owed = [fine for fine in shown.fines if fine.left]
    return page(
        shown.name,
        f"<p>{escape(shown.email)}, since {shown.joined}{', barred' if shown.barred else ''}",
        "<h2>Loans</h2>",
        table(
            ("Barcode", "Title", "Due", ""),
            (loan_cells(loan, library) for loan in shown.loans if loan.returned is None),
        ),
        "<h2>Reservations</h2>",
        table(
            ("Title", "State", "Until", ""),
            ((title_link(each.title), each.state.value, str(each.held_until or ""),
              form("/cancel", "Cancel", reservation=each.id)) for each in reserved),
        ),
        f"<h2>Fines: {shown.owes}</h2>",
        table(
            ("Title", "Left", ""),
            ((title_link(fine.loan.copy.title), str(fine.left),
              form("/pay", "Pay", field("", "amount", fine.left), fine=fine.id)) for fine in owed),
        ),
    )


def loan_cells(loan: Loan, library: Library) -> Sequence[str]:
    """A loan as a row of a member's page."""
    late = " class=late" if loan.days_late(library.today()) else ""
    return (
        escape(loan.copy.barcode), title_link(loan.copy.title),
        f"<span{late}>{loan.due}</span>", form("/extend", "Extend", loan=loan.id),
    )


def loan(manager: EntityManager, number: int) -> str:
    """One loan, as it is answered to who lends."""
    shown = found(manager, Loan, number)
    back = f"brought back on {shown.returned}" if shown.returned else f"due on {shown.due}"
    return page(
        f"Loan {number}",
        f"<p>{escape(shown.copy.barcode)}, {title_link(shown.copy.title)}, to "
        f"{member_link(shown.member)}, lent on {shown.lent}, {back}",
    )


def overdue(manager: EntityManager, library: Library, number: int) -> str:
    """What is overdue: how much of each branch, and a page of the loans."""
    today = library.today()
    late = reports.overdue(manager, today, number)
    branches = (
        (escape(row.branch), str(row.loans), str(row.oldest))
        for row in reports.overdue_by_branch(manager, today)
    )
    rows = (
        (str(row.loan.due), str(row.loan.days_late(today)), member_link(row.reader),
         escape(row.reader.email), escape(row.title), escape(row.copy.barcode), escape(row.branch))
        for row in late
    )
    return page(
        f"Overdue on {today}", table(("Branch", "Loans", "Since"), branches),
        table(("Due", "Days", "Member", "Mail", "Title", "Barcode", "Branch"), rows),
        pager("/overdue", late),
    )


def message(heading: str, text: str) -> str:
    """A page that says one thing; the text is no HTML."""
    return page(heading, f"<p>{escape(text)}")
