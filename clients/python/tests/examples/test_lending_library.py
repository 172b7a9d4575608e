"""The lending library of examples/lending-library: its service, and its pages over HTTP."""

from __future__ import annotations

import http.client
import re
import sys
import threading
import unittest
from concurrent.futures import ThreadPoolExecutor
from datetime import date, timedelta
from decimal import Decimal
from typing import Any, Callable, ClassVar, Dict, List, Tuple
from urllib.parse import urlencode

import karzhoul

from ..support import PROGRAM, TOP, needs_program, present

LIBRARY = TOP / "examples" / "lending-library"
sys.path.insert(1, str(LIBRARY))

from lending import demo, entities, reports, web  # noqa: E402
from lending.entities import (  # noqa: E402
    Author, Branch, Copy, CopyState, Fine, Loan, Member, Reservation, ReservationState, Role, Staff,
    Title,
)
from lending.service import ChangedMeanwhile, Library, LibraryError, NotThere  # noqa: E402

NEW_YEAR = date(2026, 1, 1)


@needs_program
class LibraryTest(unittest.TestCase):
    """A library in memory with one branch, whose day is told by the test."""

    app: ClassVar[karzhoul.EntityManagerFactory]

    @classmethod
    def setUpClass(cls) -> None:
        cls.app = karzhoul.open(entities, program=PROGRAM, threads=True)
        cls.addClassCleanup(cls.app.close)
        with cls.app.begin() as manager:
            manager.persist(Branch(name="Main library", city="Ghent"))

    def setUp(self) -> None:
        self.day = NEW_YEAR
        self.library = Library(self.app, lambda: self.day)

    def made(self, make: Callable[[karzhoul.EntityManager], Any]) -> Any:
        """The key of an object that is made and stored."""
        with self.app.begin() as manager:
            thing = make(manager)
            manager.persist(thing)
            return thing.barcode if isinstance(thing, Copy) else thing.id

    def member(self, name: str = "Ada", **values: Any) -> int:
        mail = f"{name}@example.org"
        return int(self.made(lambda _: Member(name=name, email=mail, joined=NEW_YEAR, **values)))

    def title(self, name: str = "Emma", *authors: str) -> int:
        def make(manager: karzhoul.EntityManager) -> Title:
            written = [Author(name=author) for author in authors]
            manager.persist_all(written)
            return Title(name=name, authors=written, subjects=[])

        return int(self.made(make))

    def copy(self, title: int, **values: Any) -> str:
        def make(manager: karzhoul.EntityManager) -> Copy:
            count = manager.one("SELECT COUNT(c) FROM Copy c")
            of, at = present(manager, Title, title), present(manager, Branch, 1)
            return Copy(barcode=f"B{count}", title=of, branch=at, **values)

        return str(self.made(make))

    def state(self, barcode: str) -> CopyState:
        with self.app.begin() as manager:
            found: Copy = present(manager, Copy, barcode)
            return found.state

    def refuses(self, told: str, call: Callable[..., object], *given: object) -> None:
        with self.assertRaises(LibraryError) as refused:
            call(*given)
        self.assertEqual(str(refused.exception), told)


class Lending(LibraryTest):
    def test_a_copy_is_lent_for_28_days_and_comes_back_in_time(self) -> None:
        member, copy = self.member(), self.copy(self.title())
        loan = self.library.lend(member, copy)
        with self.app.begin() as manager:
            lent = present(manager, Loan, loan)
            self.assertEqual((lent.lent, lent.due), (NEW_YEAR, date(2026, 1, 29)))
            self.assertEqual((lent.member.id, lent.copy.barcode), (member, copy))
        self.refuses(f"{copy} is on loan", self.library.lend, member, copy)
        self.day = date(2026, 1, 29)
        self.assertEqual(self.library.bring_back(copy), (loan, None, None))
        self.assertIs(self.state(copy), CopyState.ON_SHELF)
        self.refuses(f"{copy} is not on loan", self.library.bring_back, copy)

    def test_a_day_late_costs_20_cents_and_never_more_than_10(self) -> None:
        for late, amount in ((1, "0.20"), (12, "2.40"), (50, "10.00"), (51, "10.00")):
            with self.subTest(late):
                self.day = NEW_YEAR
                copy = self.copy(self.title())
                self.library.lend(self.member(), copy)
                self.day = date(2026, 1, 29) + timedelta(days=late)
                self.assertEqual(self.library.bring_back(copy).fine, Decimal(amount))

    def test_fines_are_paid_in_parts_before_more_is_lent(self) -> None:
        member, copy = self.member(), self.copy(self.title())
        self.library.lend(member, copy)
        self.day = date(2026, 1, 29) + timedelta(days=30)
        self.library.bring_back(copy)
        self.refuses("Ada owes 6.00: fines are paid first", self.library.lend, member, copy)
        with self.app.begin() as manager:
            [fine] = manager.scalars(
                "SELECT f.id FROM Fine f WHERE f.member.id = :member", member=member
            )
        told = "6.00 is left to be paid, and not {}"
        for wrong in (Decimal("6.01"), Decimal("0.00"), Decimal("-1.00")):
            self.refuses(told.format(wrong), self.library.pay, fine, wrong)
        with self.assertRaises(karzhoul.WrongValue):
            self.library.pay(fine, Decimal("1.005"))
        self.assertEqual(self.library.pay(fine, Decimal("1.01")), Decimal("4.99"))
        self.assertTrue(self.library.lend(member, copy))
        self.assertEqual(self.library.pay(fine, Decimal("4.99")), Decimal("0.00"))

    def test_who_may_borrow_how_much(self) -> None:
        title = self.title()
        barred, member = self.member("Eve", barred=True), self.member("Bob")
        self.refuses("Eve is barred", self.library.lend, barred, self.copy(title))
        for _ in range(5):
            self.library.lend(member, self.copy(title))
        sixth = self.copy(title)
        self.refuses("Bob has 5 loans, and may have no more", self.library.lend, member, sixth)
        clerk = self.made(
            lambda manager: Staff(
                name="Cy", email="cy@example.org", joined=NEW_YEAR, role=Role.CLERK,
                branch=present(manager, Branch, 1),
            )
        )
        for _ in range(6):
            self.library.lend(clerk, self.copy(title))

    def test_what_is_never_lent(self) -> None:
        title, member = self.title(), self.member()
        kept = self.copy(title, reading_room=True)
        self.refuses(f"{kept} stays in the reading room", self.library.lend, member, kept)
        lost = self.copy(title, state=CopyState.LOST)
        self.refuses(f"{lost} is lost", self.library.lend, member, lost)
        with self.assertRaisesRegex(NotThere, "^there is no copy B99999$"):
            self.library.lend(member, "B99999")
        with self.assertRaisesRegex(NotThere, "^there is no member 99999$"):
            self.library.lend(99999, kept)

    def test_a_loan_is_extended_twice_at_most_and_not_when_it_is_late(self) -> None:
        copy = self.copy(self.title())
        loan = self.library.lend(self.member(), copy)
        self.assertEqual(self.library.extend(loan), date(2026, 2, 26))
        self.day = date(2026, 2, 27)
        self.refuses(f"{copy} was due on 2026-02-26", self.library.extend, loan)
        self.day = date(2026, 2, 26)
        self.assertEqual(self.library.extend(loan), date(2026, 3, 26))
        self.refuses("a loan is extended 2 times at most", self.library.extend, loan)
        self.library.bring_back(copy)
        self.refuses(f"{copy} was brought back on 2026-02-26", self.library.extend, loan)


class Reserving(LibraryTest):
    def test_a_copy_on_the_shelf_is_held_at_once_for_who_reserves_it(self) -> None:
        ada, eve, title = self.member(), self.member("Eve"), self.title()
        self.copy(title, reading_room=True)
        copy = self.copy(title)
        reservation = self.library.reserve(ada, title)
        self.assertIs(self.state(copy), CopyState.HELD)
        self.refuses("Ada has reserved Emma already", self.library.reserve, ada, title)
        self.refuses(f"{copy} is held for another reader", self.library.lend, eve, copy)
        self.library.lend(ada, copy)
        told = f"reservation {reservation} is collected"
        self.refuses(told, self.library.cancel, reservation)

    def test_readers_wait_in_turn(self) -> None:
        ada, eve, bob, title = self.member(), self.member("Eve"), self.member("Bob"), self.title()
        copy = self.copy(title)
        loan = self.library.lend(ada, copy)
        first, second = self.library.reserve(eve, title), self.library.reserve(bob, title)
        self.refuses("another reader waits for Emma", self.library.extend, loan)
        self.assertEqual(self.library.bring_back(copy).held_for, "Eve")
        with self.app.begin() as manager:
            held = present(manager, Reservation, first)
            self.assertEqual(held.held_until, date(2026, 1, 8))
            self.assertIsNotNone(held.created)
            assert held.held is not None
            self.assertEqual((held.held.barcode, held.state), (copy, ReservationState.READY))
        self.library.cancel(first)
        self.assertIs(self.state(copy), CopyState.HELD)
        self.refuses(f"{copy} is held for another reader", self.library.lend, eve, copy)
        self.library.cancel(second)
        self.assertIs(self.state(copy), CopyState.ON_SHELF)

    def test_a_reservation_and_a_copy_that_comes_back_see_each_other(self) -> None:
        """However they meet, nobody waits while a copy stands on the shelf."""
        for _ in range(8):
            title = self.title()
            copy = self.copy(title)
            self.library.lend(self.member(), copy)
            eve = self.member("Eve")
            with ThreadPoolExecutor(2) as pool:
                back = pool.submit(self.library.bring_back, copy)
                pool.submit(self.library.reserve, eve, title).result()
                back.result()
            self.assertIs(self.state(copy), CopyState.HELD)


class ManyAtATime(LibraryTest):
    def lent(self, calls: List[Tuple[int, str]]) -> int:
        """How many of these are lent, by as many threads."""

        def lend(call: Tuple[int, str]) -> bool:
            barrier.wait()
            try:
                return bool(self.library.lend(*call))
            except LibraryError:
                return False

        barrier = threading.Barrier(len(calls))
        with ThreadPoolExecutor(len(calls)) as pool:
            return sum(pool.map(lend, calls))

    def test_one_copy_is_lent_once(self) -> None:
        copy, members = self.copy(self.title()), [self.member() for _ in range(8)]
        self.assertEqual(self.lent([(member, copy) for member in members]), 1)

    def test_one_member_gets_no_more_than_she_may_have(self) -> None:
        member, title = self.member(), self.title()
        self.assertEqual(self.lent([(member, self.copy(title)) for _ in range(8)]), 5)


class Catalogue(LibraryTest):
    def names(self, text: str) -> List[str]:
        with self.app.begin() as manager:
            return [title.name for title in reports.titles(manager, text)]

    def test_words_are_found_without_case_and_accents(self) -> None:
        self.title("Die Blechtrommel", "Günter Graß")
        self.title("Το μυστήριο της ΟΔΟΣ")
        self.title("  L'Étranger\t1% ", "Albert Camus")
        for text, name in (
            ("blech", "Die Blechtrommel"), ("GRASS die", "Die Blechtrommel"),
            ("günter", "Die Blechtrommel"), ("οδος", "Το μυστήριο της ΟΔΟΣ"),
            ("etranger", "L'Étranger 1%"), ("CAMUS l", "L'Étranger 1%"),
            ("1% é", "L'Étranger 1%"),
        ):
            with self.subTest(text):
                self.assertEqual(self.names(text), [name])
        for text in ("trommel", "bl_ch", "graß camus", "' OR 1 = 1"):
            with self.subTest(text):
                self.assertEqual(self.names(text), [])

    def test_pages_have_20_titles(self) -> None:
        for number in range(41):
            self.title(f"Volume {number:02}")
        with self.app.begin() as manager:
            pages = [reports.titles(manager, "volume", number) for number in (1, 2, 3, 4)]
            self.assertEqual([len(page) for page in pages], [20, 20, 1, 0])
            self.assertEqual((pages[1].total, pages[1].pages), (41, 3))
            self.assertEqual([page.has_next for page in pages], [True, True, False, False])
            self.assertEqual(pages[1][0].name, "Volume 20")

    def test_a_correction_over_an_older_state_is_refused(self) -> None:
        title = self.title("Emna")
        self.library.correct(title, 0, "Emma", 1815, ["novel"])
        with self.assertRaises(ChangedMeanwhile):
            self.library.correct(title, 0, "Anna", None, [])
        with self.app.begin() as manager:
            stored = present(manager, Title, title)
            told = (stored.name, stored.published, stored.subjects, stored.version)
            self.assertEqual(told, ("Emma", 1815, ["novel"], 1))
        self.assertEqual((self.names("emma"), self.names("emna")), (["Emma"], []))

    def test_what_no_entity_takes(self) -> None:
        for name in (" ", "", "?!"):
            with self.subTest(name), self.assertRaisesRegex(ValueError, "^a title needs a name$"):
                Title(name=name, subjects=[])
        for mail in ("ada", "@example.org", "ada@example", ""):
            with self.subTest(mail), self.assertRaisesRegex(ValueError, "no address"):
                Member(name="Ada", email=mail, joined=NEW_YEAR)
        ada = Member(name="Ada", email=" Ada@Example.ORG", joined=NEW_YEAR)
        self.assertEqual(ada.email, "Ada@example.org")


class Overdue(LibraryTest):
    def test_the_longest_overdue_comes_first(self) -> None:
        title = self.title()
        copies = [self.copy(title) for _ in range(4)]
        for days, copy in zip((2, 0, 1, 3), copies):
            self.day = NEW_YEAR + timedelta(days=days)
            self.library.lend(self.member(), copy)
        self.library.bring_back(copies[1])
        day = date(2026, 2, 1)  # The last is due today.
        with self.app.begin() as manager:
            late = reports.overdue(manager, day)
            self.assertEqual([row.copy.barcode for row in late], [copies[2], copies[0]])
            self.assertEqual([row.loan.days_late(day) for row in late], [2, 1])
            self.assertEqual((late.total, late[0].title, late[0].reader.name), (2, "Emma", "Ada"))
            branches = reports.overdue_by_branch(manager, day)
        self.assertEqual(branches, [["Main library", 2, date(2026, 1, 30)]])

    def test_a_member_knows_what_she_owes(self) -> None:
        member = self.member()
        with self.app.begin() as manager:
            self.assertEqual(present(manager, Member, member).owes, Decimal(0))


class Pages(LibraryTest):
    """The pages, asked for over HTTP."""

    def setUp(self) -> None:
        super().setUp()
        self.server = web.LibraryServer(self.library)
        self.addCleanup(self.server.server_close)
        thread = threading.Thread(target=self.server.serve_forever, kwargs={"poll_interval": 0.01})
        thread.start()
        self.addCleanup(thread.join)
        self.addCleanup(self.server.shutdown)

    def ask(self, method: str, path: str, **form: object) -> Tuple[int, str]:
        """The status of a reply, and its page, or where it leads on."""
        connection = http.client.HTTPConnection("127.0.0.1", self.server.server_port, timeout=60)
        try:
            connection.request(method, path, urlencode(form))
            reply = connection.getresponse()
            return reply.status, reply.getheader("Location") or reply.read().decode()
        finally:
            connection.close()

    def test_a_copy_goes_over_the_counter(self) -> None:
        member, title = self.member(), self.title()
        copy = self.copy(title)
        status, place = self.ask("POST", "/lend", member=member, barcode=f" {copy} ")
        self.assertEqual(status, 303)
        status, page = self.ask("GET", place)
        told = f"{copy}, .*Emma.* to .*Ada.*, lent on 2026-01-01, due on 2026-01-29"
        self.assertRegex(page, told)
        loan = place.rpartition("/")[2]
        self.assertEqual(self.ask("POST", "/extend", loan=loan), (303, f"/loan/{loan}"))
        self.day += timedelta(days=60)
        status, page = self.ask("GET", "/overdue")
        self.assertIn("<td>Main library<td>1<td>2026-02-26", page)
        status, page = self.ask("POST", "/bring-back", barcode=copy)
        self.assertIn("It is late, and costs 0.80.", page)
        status, page = self.ask("GET", f"/member/{member}")
        self.assertIn("Fines: 0.80", page)
        fine = re.findall('name="fine" value="([0-9]+)"', page)[0]
        status, page = self.ask("POST", "/pay", fine=fine, amount="0.8")
        self.assertIn("0.00 is left", page)

    def test_a_reservation_over_the_counter(self) -> None:
        member, title = self.member(), self.title()
        self.assertEqual(
            self.ask("POST", "/reserve", member=member, title=title), (303, f"/member/{member}")
        )
        self.assertEqual(self.ask("POST", "/reserve", member=member, title=title)[0], 409)
        self.assertIn("waiting", self.ask("GET", f"/title/{title}")[1])
        page = self.ask("GET", f"/member/{member}")[1]
        number = re.findall('name="reservation" value="([0-9]+)"', page)[0]
        self.assertEqual(self.ask("POST", "/cancel", reservation=number)[0], 200)
        self.assertNotIn("waiting", self.ask("GET", f"/title/{title}")[1])

    def test_two_who_correct_one_title_are_told(self) -> None:
        title = self.title("Emna")
        path = f"/title/{title}/correct"
        self.assertIn('name="version" value="0"', self.ask("GET", path)[1])
        form = {"name": "Emma", "published": "1815", "subjects": "novel, England,", "version": "0"}
        self.assertEqual(self.ask("POST", path, **form), (303, f"/title/{title}"))
        form.update(name="Anna", published="")
        status, page = self.ask("POST", path, **form)
        self.assertEqual(status, 409)
        self.assertIn("Emma was changed by somebody else meanwhile", page)
        self.assertIn("Now it is: Emma, 1815, novel, England.", page)
        for kept in ('name="name" value="Anna"', 'name="published" value=""', 'value="1"'):
            self.assertIn(kept, page)
        self.assertEqual(self.ask("POST", path, **{**form, "version": "1"})[0], 303)

    def test_nothing_that_is_shown_is_html(self) -> None:
        nasty = "<script>alert('1')</script>\""
        title, member = self.title(nasty, nasty), self.member()
        self.library.correct(title, 0, nasty, None, [nasty])
        copy = self.copy(title)
        with self.app.begin() as manager:
            present(manager, Member, member).name = nasty
        self.library.lend(member, copy)
        self.library.reserve(member, title)
        self.day += timedelta(days=60)
        for path in (
            "/search?words=script", f"/search?{urlencode({'words': nasty})}", f"/title/{title}",
            f"/title/{title}/correct", "/members", f"/member/{member}", "/overdue",
            "/loan/1", "/<script>",
        ):
            with self.subTest(path):
                page = self.ask("GET", path)[1]
                self.assertNotIn("<script", page)
                self.assertNotIn('"\'', page)
        page = self.ask("POST", "/lend", member=member, barcode=nasty)[1]
        self.assertIn("there is no copy &lt;script&gt;", page)

    def test_what_no_page_takes(self) -> None:
        member = self.member()
        asked: List[Tuple[int, str, str, Dict[str, object]]] = [
            (404, "GET", "/nowhere", {}), (404, "GET", "/title/99999", {}),
            (404, "GET", f"/title/{10 ** 19}", {}), (400, "GET", "/members?page=x", {}),
            (405, "GET", "/lend", {}), (200, "GET", "/search?page=999999999", {}),
            (400, "POST", "/lend", {"member": "Ada", "barcode": "B1"}),
            (404, "POST", "/lend", {"member": member, "barcode": ""}),
            (400, "POST", "/pay", {"fine": "1", "amount": "1.005"}),
            (400, "POST", "/pay", {"fine": "1", "amount": "NaN"}),
            (400, "POST", f"/title/{self.title()}/correct", {"version": "0", "name": " "}),
            (400, "POST", "/pay", {"fine": "1", "amount": "1e40"}),
            (413, "POST", "/lend", {"member": "1" * 10_000}),
        ]
        for status, method, path, form in asked:
            with self.subTest(f"{method} {path} {str(form)[:60]}"):
                self.assertEqual(self.ask(method, path, **form)[0], status)

    def test_eight_threads_serve(self) -> None:
        with ThreadPoolExecutor(16) as pool:
            replies = list(pool.map(lambda _: self.ask("GET", "/search"), range(48)))
        self.assertEqual({status for status, _ in replies}, {200})
        serving = [it for it in threading.enumerate() if it.name.startswith("library_")]
        self.assertLessEqual(len(serving), 8)


class Demo(unittest.TestCase):
    @needs_program
    def test_it_is_the_same_each_time_and_fills_an_empty_library_alone(self) -> None:
        with karzhoul.open(entities, program=PROGRAM, threads=True) as app:
            self.assertTrue(demo.fill(app, NEW_YEAR))
            self.assertFalse(demo.fill(app, NEW_YEAR))
            with app.begin() as manager:
                counts = {
                    kind.__name__: manager.one(f"SELECT COUNT(x) FROM {kind.__name__} x")
                    for kind in (Branch, Title, Member, Staff, Loan, Fine)
                }
            wanted = {"Branch": 3, "Title": 64, "Member": 80, "Staff": 5, "Loan": 40, "Fine": 0}
            self.assertEqual(counts, wanted)
            self.assertEqual(Library(app, lambda: NEW_YEAR).lend(11, "B00001"), 41)


if __name__ == "__main__":
    unittest.main()
