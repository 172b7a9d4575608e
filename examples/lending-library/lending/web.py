"""The library over HTTP: pages and forms, served by eight threads."""

from __future__ import annotations

import logging
import re
from concurrent.futures import ThreadPoolExecutor
from decimal import Decimal
from http import HTTPStatus
from http.server import BaseHTTPRequestHandler, ThreadingHTTPServer
from typing import Any, Callable, Dict, List, NamedTuple, Optional, Tuple
from urllib.parse import parse_qsl, urlsplit

import karzhoul

from . import pages
from .entities import Title
from .service import ChangedMeanwhile, Library, LibraryError, NotThere, found

THREADS = 8
MOST_BYTES = 8_192

Form = Dict[str, str]


class Answer(NamedTuple):
    """What is answered: a page, or where to go on."""

    status: HTTPStatus
    text: str = ""
    location: str = ""


class BadForm(ValueError):
    """A form has a field that can't be read."""


def shown(text: str) -> Answer:
    """A page."""
    return Answer(HTTPStatus.OK, text)


def go_on(location: str) -> Answer:
    """What was asked is done: this page shows it."""
    return Answer(HTTPStatus.SEE_OTHER, location=location)


def number(form: Form, name: str, default: Optional[int] = None) -> int:
    """A whole number of a form."""
    text = form.get(name, "").strip()
    if not text and default is not None:
        return default
    if not re.fullmatch("[0-9]{1,9}", text):
        raise BadForm(f"{name} is to be a whole number, and is {text!r}")
    return int(text)


def sum_of_money(form: Form, name: str) -> Decimal:
    """A sum of a form, of two digits behind the point at most."""
    text = form.get(name, "").strip()
    if not re.fullmatch("[0-9]{1,9}([.][0-9]{1,2})?", text):
        raise BadForm(f"{name} is to be a sum as 1.20, and is {text!r}")
    return Decimal(text)


class Site:
    """What is answered to each path."""

    def __init__(self, library: Library) -> None:
        self.library = library
        routes: List[Tuple[str, str, Callable[..., Answer]]] = [
            ("GET", "/", self.counter),
            ("GET", "/search", self.search),
            ("GET", "/title/([0-9]{1,9})", self.title),
            ("GET", "/title/([0-9]{1,9})/correct", self.correction),
            ("POST", "/title/([0-9]{1,9})/correct", self.correct),
            ("GET", "/members", self.members),
            ("GET", "/member/([0-9]{1,9})", self.member),
            ("GET", "/loan/([0-9]{1,9})", self.loan),
            ("GET", "/overdue", self.overdue),
            ("POST", "/lend", self.lend),
            ("POST", "/bring-back", self.bring_back),
            ("POST", "/extend", self.extend),
            ("POST", "/reserve", self.reserve),
            ("POST", "/cancel", self.cancel),
            ("POST", "/pay", self.pay),
        ]
        self.routes = [(method, re.compile(path), answer) for method, path, answer in routes]

    def answer(self, method: str, path: str, form: Form) -> Answer:
        """The answer to a request, also where it is refused."""
        try:
            return self._routed(method, path, form)
        except ValueError as refused:  # Of a form, or as an attribute of an entity is set.
            return refusal(HTTPStatus.BAD_REQUEST, str(refused))
        except NotThere as refused:
            return refusal(HTTPStatus.NOT_FOUND, str(refused))
        except LibraryError as refused:
            return refusal(HTTPStatus.CONFLICT, str(refused))
        except karzhoul.ProgramEnded as ended:
            told = "This wasn't stored: do it again."
            if ended.may_be_stored:
                told = "This may be stored or not: look before you do it again."
            return refusal(HTTPStatus.SERVICE_UNAVAILABLE, f"The store was interrupted. {told}")
        except karzhoul.Rollback as refused:
            return refusal(HTTPStatus.SERVICE_UNAVAILABLE, refused.explain())

    def _routed(self, method: str, path: str, form: Form) -> Answer:
        methods = []
        for each, pattern, answer in self.routes:
            matched = pattern.fullmatch(path)
            if matched and each == method:
                return answer(form, *map(int, matched.groups()))
            methods += [each] if matched else []
        if methods:
            return refusal(HTTPStatus.METHOD_NOT_ALLOWED, f"{path} takes {' and '.join(methods)}")
        return refusal(HTTPStatus.NOT_FOUND, f"there is no page {path}")

    def counter(self, form: Form) -> Answer:
        return shown(pages.counter())

    def search(self, form: Form) -> Answer:
        words, at = form.get("words", ""), number(form, "page", 1)
        return shown(self.library.read(lambda manager: pages.search(manager, words, max(at, 1))))

    def title(self, form: Form, title: int) -> Answer:
        return shown(self.library.read(lambda manager: pages.title(manager, title)))

    def correction(self, form: Form, title: int) -> Answer:
        return shown(
            self.library.read(lambda manager: pages.correction(found(manager, Title, title)))
        )

    def correct(self, form: Form, title: int) -> Answer:
        subjects = [word for word in map(str.strip, form.get("subjects", "").split(",")) if word]
        published = number(form, "published") if form.get("published", "").strip() else None
        version = number(form, "version")
        try:
            self.library.correct(title, version, form.get("name", ""), published, subjects)
        except ChangedMeanwhile as refused:
            told = str(refused)
            text = self.library.read(
                lambda manager: pages.correction(found(manager, Title, title), form, told)
            )
            return Answer(HTTPStatus.CONFLICT, text)
        return go_on(f"/title/{title}")

    def members(self, form: Form) -> Answer:
        at = max(number(form, "page", 1), 1)
        return shown(self.library.read(lambda manager: pages.members(manager, at)))

    def member(self, form: Form, member: int) -> Answer:
        return shown(
            self.library.read(lambda manager: pages.member(manager, self.library, member))
        )

    def loan(self, form: Form, loan: int) -> Answer:
        return shown(self.library.read(lambda manager: pages.loan(manager, loan)))

    def overdue(self, form: Form) -> Answer:
        at = max(number(form, "page", 1), 1)
        return shown(self.library.read(lambda manager: pages.overdue(manager, self.library, at)))

    def lend(self, form: Form) -> Answer:
        loan = self.library.lend(number(form, "member"), form.get("barcode", "").strip())
        return go_on(f"/loan/{loan}")

    def bring_back(self, form: Form) -> Answer:
        back = self.library.bring_back(form.get("barcode", "").strip())
        told = f"Loan {back.loan} is brought back."
        told += f" It is late, and costs {back.fine}." if back.fine else ""
        told += f" Put it aside for {back.held_for}." if back.held_for else ""
        return shown(pages.message("Brought back", told))

    def extend(self, form: Form) -> Answer:
        loan = number(form, "loan")
        self.library.extend(loan)
        return go_on(f"/loan/{loan}")

    def reserve(self, form: Form) -> Answer:
        member = number(form, "member")
        self.library.reserve(member, number(form, "title"))
        return go_on(f"/member/{member}")

    def cancel(self, form: Form) -> Answer:
        self.library.cancel(number(form, "reservation"))
        return shown(pages.message("Cancelled", "The reservation is cancelled."))

    def pay(self, form: Form) -> Answer:
        left = self.library.pay(number(form, "fine"), sum_of_money(form, "amount"))
        return shown(pages.message("Paid", f"{left} is left to be paid."))


def refusal(status: HTTPStatus, text: str) -> Answer:
    """A page that says why something isn't done."""
    return Answer(status, pages.message(status.phrase, text))


class Handler(BaseHTTPRequestHandler):
    """One request, which is the only one of its connection."""

    server: "LibraryServer"
    timeout = 30

    def do_GET(self) -> None:
        parts = urlsplit(self.path)
        self._answer("GET", parts.path, dict(parse_qsl(parts.query)))

    def do_POST(self) -> None:
        length = self.headers.get("Content-Length", "")
        if not length.isdecimal() or int(length) > MOST_BYTES:
            told = "that is no form of this site"
            self._send(refusal(HTTPStatus.REQUEST_ENTITY_TOO_LARGE, told))
            return
        body = self.rfile.read(int(length)).decode("utf-8", "replace")
        self._answer("POST", urlsplit(self.path).path, dict(parse_qsl(body, keep_blank_values=True)))

    def _answer(self, method: str, path: str, form: Form) -> None:
        try:
            answer = self.server.site.answer(method, path, form)
        except Exception:
            logging.exception("%s %s", method, path)
            answer = refusal(HTTPStatus.INTERNAL_SERVER_ERROR, "This went wrong here.")
        self._send(answer)

    def _send(self, answer: Answer) -> None:
        body = answer.text.encode("utf-8")
        self.send_response(answer.status)
        if answer.location:
            self.send_header("Location", answer.location)
        self.send_header("Content-Type", "text/html; charset=utf-8")
        self.send_header("Content-Length", str(len(body)))
        policy = "default-src 'none'; style-src 'unsafe-inline'; form-action 'self'"
        self.send_header("Content-Security-Policy", policy)
        self.end_headers()
        self.wfile.write(body)

    def log_message(self, form: str, *given: Any) -> None:
        logging.getLogger("lending").info(form, *given)


class LibraryServer(ThreadingHTTPServer):
    """Serves the site by eight threads; who comes while all are at work waits."""

    request_queue_size = 128

    def __init__(self, library: Library, port: int = 0) -> None:
        self.site = Site(library)
        self._workers = ThreadPoolExecutor(THREADS, "library")
        super().__init__(("127.0.0.1", port), Handler)

    def process_request(self, request: Any, client_address: Any) -> None:
        self._workers.submit(self.process_request_thread, request, client_address)

    def server_close(self) -> None:
        super().server_close()
        self._workers.shutdown()
