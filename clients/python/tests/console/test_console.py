"""A console over HTTP: who is answered, what is read, and what is changed in its transaction."""

from __future__ import annotations

import json
import os
import random
import re
import signal
import socket
import subprocess
import sys
import unittest
from pathlib import Path
from typing import Any, List, Tuple, Type
from unittest import mock

import karzhoul
from karzhoul.console.running import browsed
from karzhoul.console.serving import MOST_BYTES

from .consoled import NASTY, SECONDS, ConsoleTest, fill, named, opened
from ..served import Here
from ..support import HERE, ORDERS, PROGRAM, FolderTest, needs_program

_JSON = {"Content-Type": "application/json"}


class _Overdrawn(Exception):
    """What an application's callback raises, and no word of Python or of the client."""


@needs_program
class WhoIsAnswered(ConsoleTest):
    """Whoever isn't the page, by its own address, gets a status alone."""

    def test_the_page_is_there_with_its_policy(self) -> None:
        status, body, headers = self.http("GET", f"/{self.console.token}/")
        self.assertEqual(status, 200)
        self.assertIn(b'<textarea id="text"', body)
        policy = headers["Content-Security-Policy"]
        for part in ("default-src 'none'", "script-src 'sha256-", "frame-ancestors 'none'"):
            self.assertIn(part, policy)
        self.assertNotIn("unsafe", policy)
        self.assertEqual(headers["Referrer-Policy"], "no-referrer")
        self.assertEqual(headers["Cache-Control"], "no-store")
        self.assertNotIn("Server", headers)

    def test_the_page_takes_nothing_from_a_network(self) -> None:
        _, body, _ = self.http("GET", f"/{self.console.token}/")
        text = body.decode().replace("http://www.w3.org/2000/svg", "")
        self.assertEqual(re.findall(r"https?://|//[a-z]+\.|src=|@import|innerHTML", text), [])

    def assert_nothing(self, status: int, method: str, path: str, **headers: str) -> None:
        said = {name.replace("_", "-"): value for name, value in headers.items()}
        body = b"{}" if method == "POST" else None
        found, told, got = self.http(method, path, body, {**_JSON, **said})
        self.assertEqual((found, told), (status, b""), (method, path, headers))
        self.assertNotIn("Access-Control-Allow-Origin", got)

    def test_a_missing_or_another_token_gets_nothing(self) -> None:
        token = self.console.token
        self.assertGreaterEqual(len(token), 43)
        paths = ["/", "/overview", f"/{token[:-1]}/", f"/{token}x/", "/../", "/%00/"]
        for path in [*paths, f"/{token.swapcase()}/"]:
            for method in ("GET", "POST"):
                self.assert_nothing(403, method, path)

    def test_another_origin_or_host_gets_nothing(self) -> None:
        page = f"/{self.console.token}/"
        for origin in ("http://evil.example", "null", "https://" + self.console.hosts[0],
                       "http://127.0.0.1:1", "http://" + self.console.hosts[0] + ".evil.example"):
            for method, path in (("POST", page + "overview"), ("GET", page)):
                self.assert_nothing(403, method, path, Origin=origin)
        for host in ("evil.example", "127.0.0.1", "127.0.0.1:1", "", "0.0.0.0:80"):
            self.assert_nothing(403, "GET", page, Host=host)
            self.assert_nothing(403, "POST", page + "overview", Host=host)
        self.assert_nothing(403, "POST", page + "overview", Sec_Fetch_Site="cross-site")
        other = self.console.hosts[1]
        headers = {**_JSON, "Host": other, "Origin": f"http://{other}"}
        self.assertEqual(self.http("POST", page + "overview", b"{}", headers)[0], 200)

    def test_other_methods_and_kinds_get_nothing(self) -> None:
        page = f"/{self.console.token}/"
        for method in ("PUT", "DELETE", "OPTIONS", "HEAD", "PATCH", "TRACE"):
            self.assert_nothing(403, method, page)
        self.assert_nothing(404, "GET", page + "overview")
        self.assert_nothing(415, "POST", page + "overview", Content_Type="text/plain")
        status, body, _ = self.http("POST", page + "overview", b"{", _JSON)
        self.assertEqual((status, body), (400, b""))

    def test_it_is_on_loopback_alone(self) -> None:
        self.assertEqual(self.console.server_address[0], "127.0.0.1")

    def test_a_question_is_bounded(self) -> None:
        page, size = f"/{self.console.token}/overview", str(MOST_BYTES + 1)
        host, port = self.console.hosts[0].split(":")
        for told, wanted in (
            (f"Content-Length: {size}", b"413"), ("Transfer-Encoding: chunked", b"411"),
            ("Content-Length: -1", b"400"), ("X: y", b"411"),
        ):
            with socket.create_connection((host, int(port)), SECONDS) as made:
                made.sendall(
                    f"POST {page} HTTP/1.1\r\nHost: {host}:{port}\r\n"
                    f"Content-Type: application/json\r\n{told}\r\n\r\n".encode()
                )
                self.assertEqual(made.makefile("rb").readline().split()[1], wanted)

    def test_what_is_handed_in_at_random_never_ends_it(self) -> None:
        chance = random.Random(7)
        host, port = self.console.hosts[0].split(":")
        for _ in range(600):
            with socket.create_connection((host, int(port)), SECONDS) as made:
                try:
                    made.sendall(_request(chance, self.console.token, f"{host}:{port}"))
                    made.shutdown(socket.SHUT_WR)
                    while made.recv(1 << 16):
                        pass
                except ConnectionError:
                    pass  # It had enough.
        for _ in range(3_000):
            name = chance.choice(_NAMES)
            told = self.console.actions.answer(name, _said(chance, 3))
            self.assertIsInstance(json.dumps(told), str)
        self.ask("rollback")
        self.assertEqual(self.ask("overview")["entities"][1]["count"], "7")


_NAMES = ("overview", "query", "object", "check", "csv", "explain", "set", "create", "remove",
          "add", "takeOut", "execute", "rollback", "none", "")
_WORDS = ("SELECT e FROM Person e", "SELECT o FROM Order o WHERE o.amount = :n", "Order", "Person",
          "name", "amount", "orders", "person", "", "\ud800", "\x00", "1", "-9", "9" * 20,
          "(" * 3_000, "SELECT", NASTY)


def _said(chance: random.Random, deep: int) -> Any:
    """Something like a question."""
    if deep == 0 or chance.random() < 0.3:
        return chance.choice([
            None, 1, -1, 2**70, 1.5, True, [], {}, chance.choice(_WORDS), ["int", "1"],
            ["int", chance.choice(_WORDS)], ["bytes", "0a"], ["text", chance.choice(_WORDS)],
            named("Order", 1), named("Person", 1), named("Person", 1, 2),
        ])
    if chance.random() < 0.2:
        return [_said(chance, deep - 1) for _ in range(chance.randrange(3))]
    names = ("text", "params", "first", "max", "object", "entity", "key", "name", "value", "values",
             "member", "n")
    said = {chance.choice(names): _said(chance, deep - 1) for _ in range(chance.randrange(6))}
    if chance.random() < 0.5:
        said.update(text=chance.choice(_WORDS), first=0, max=5, object=named("Order", 1))
    return said


def _request(chance: random.Random, token: str, host: str) -> bytes:
    """Something like a request."""
    body = json.dumps(_said(chance, 3)).encode()
    name = chance.choice(_NAMES)
    whole = bytearray(
        f"POST /{token}/{name} HTTP/1.1\r\nHost: {host}\r\nContent-Type: application/json\r\n"
        f"Content-Length: {len(body)}\r\n\r\n".encode() + body
    )
    for _ in range(chance.choice((0, 1, 3, 30))):
        at, size = chance.randrange(len(whole)), chance.randrange(3)
        whole[at : at + chance.randrange(3)] = chance.randbytes(size)
    return bytes(whole[: chance.choice((len(whole), chance.randrange(len(whole) + 1)))])


@needs_program
class Reading(ConsoleTest):
    """What a console that only reads tells."""

    can_write = False

    def test_entities_have_their_counts(self) -> None:
        told = self.ask("overview")
        self.assertEqual([(it["name"], it["count"]) for it in told["entities"]],
                         [("Person", "2"), ("Order", "7")])
        self.assertIs(told["write"], False)
        self.assertIsNone(told["transaction"])

    def test_rows_come_in_pages(self) -> None:
        text = "SELECT o.number FROM Order o ORDER BY o.number"
        told = self.ask("query", text=text, first=5, max=2)
        self.assertEqual((told["titles"], told["rows"], told["more"]),
                         (["number"], [[["int", "6"]], [["int", "7"]]], False))
        self.assertTrue(self.ask("query", text=text, first=4, max=2)["more"])
        self.assertEqual(self.ask("query", text=text, first=9, max=2)["rows"], [])
        refused = self.refused("query", text=text, first=0, max=501)
        self.assertIn("from 1 to 500", refused["told"][0])

    def test_objects_are_rows_with_their_values_and_links(self) -> None:
        told = self.ask("query", text="SELECT o FROM Order o WHERE o.number = :n",
                        params={"n": ["int", "3"]}, first=0, max=9)
        self.assertEqual(told["titles"], ["", "number", "amount", "person"])
        [[order, number, amount, person]] = told["rows"]
        self.assertEqual((order["name"], number, amount, person["name"]),
                         ("Order 3", ["int", "3"], ["int", "30"], "Person 1"))

    def test_an_object_leads_on(self) -> None:
        told = self.ask("object", object=named("Person", 1))
        members = {it["name"]: it for it in told["members"]}
        self.assertEqual(members["name"]["value"], ["text", "Ada"])
        self.assertEqual((members["orders"]["count"], len(members["orders"]["items"])), (7, 7))
        rows = self.ask("query", text=members["orders"]["text"], params={"k1": ["int", "1"]},
                        first=0, max=9)["rows"]
        self.assertEqual(len(rows), 7)
        other = self.ask("object", object=members["orders"]["items"][0])
        self.assertEqual(other["members"][2]["value"]["name"], "Person 1")
        self.assertEqual(self.refused("object", object=named("Person", 9))["told"],
                         ["there is no Person 9"])
        self.assertEqual(self.refused("object", object=named("Person", 1, 2))["told"],
                         ["the key of Person is id"])

    def test_a_fault_has_its_place(self) -> None:
        found = self.ask("check", text="SELECT o\nFROM Order o WHERE o.amuont > 1")["mistakes"]
        places = [(it["line"], it["column"], it["word"]) for it in found]
        self.assertEqual(places, [(2, 22, "amuont")])
        refused = self.refused("query", text="SELECT o FORM Order o", first=0, max=9)
        self.assertEqual(refused["word"], "IllegalArgument(syntax)")
        self.assertEqual([(it["column"], it["word"]) for it in refused["mistakes"]], [(10, "FORM")])
        self.assertEqual(self.ask("check", text="SELECT o FROM Order o WHERE o.amount IN (:n, :m)")
                         ["parameters"], ["n", "m"])

    def test_a_query_says_how_its_objects_are_found(self) -> None:
        told = self.ask("explain", text="SELECT p FROM Person p JOIN p.orders o WHERE p.id = :n",
                        params={"n": ["int", "1"]})
        self.assertEqual(told["lookups"], ["looks up Person by its key", "goes along Person.orders"])
        refused = self.refused("explain", text="SELECT o FORM Order o")
        self.assertEqual(refused["word"], "IllegalArgument(syntax)")
        self.assertEqual([(it["column"], it["word"]) for it in refused["mistakes"]], [(10, "FORM")])
        refused = self.refused("explain", text="DELETE FROM Order o")
        self.assertIn("no SELECT", refused["told"][0])

    def test_csv_is_the_table(self) -> None:
        told = self.ask("csv", text="SELECT o FROM Order o WHERE o.number < 3 ORDER BY o.number")
        self.assertEqual(told["csv"], "object,number,amount,person\r\nOrder 1,1,10,Person 1\r\n"
                         "Order 2,2,20,Person 1\r\n")
        told = self.ask("csv", text="SELECT p.name AS who FROM Person p WHERE p.id = 2")
        self.assertEqual(told["csv"], f"who\r\n{NASTY}\r\n")

    def test_nothing_is_changed(self) -> None:
        for name in ("set", "create", "remove", "add", "takeOut", "execute", "commit", "rollback"):
            refused = self.refused(name, object=named("Order", 1), text="DELETE FROM Order o")
            self.assertEqual(refused["word"], "ReadOnly", name)
        for text in ("DELETE FROM Order o", " update Order o SET o.amount = 1"):
            told = self.refused("query", text=text, first=0, max=9)["told"]
            self.assertIn("reads alone", told[0])
        self.assertEqual(self.amounts(), [10, 20, 30, 40, 50, 60, 70])

    def test_whole_numbers_keep_their_64_bits(self) -> None:
        with self.app.begin() as manager:
            manager.persist(self.app.new("Order", number=2**63 - 1, amount=-(2**63)))
        told = self.ask("object", object=named("Order", 2**63 - 1))
        self.assertEqual(told["members"][1]["value"], ["int", "-9223372036854775808"])


@needs_program
class LongQueries(ConsoleTest):
    seconds = 0.5

    def test_a_long_query_is_given_up(self) -> None:
        many = ", ".join(f"Order o{place}" for place in range(8))
        text = f"SELECT COUNT(o0) FROM {many} WHERE o0.amount + o7.amount < 0"
        refused = self.refused("query", text=text, first=0, max=9)
        self.assertEqual(refused["word"], "GivenUp")
        self.assertEqual(self.ask("overview")["entities"][1]["count"], "7")


@needs_program
class Changing(ConsoleTest):
    """Changes are the open transaction's until it is committed."""

    def set_amount(self, number: int, amount: int) -> Any:
        return self.ask("set", object=named("Order", number), name="amount",
                        value=["int", str(amount)])

    def test_a_change_is_seen_in_its_transaction_and_stored_by_the_commit(self) -> None:
        told = self.set_amount(3, 77)
        self.assertEqual(told["transaction"], ["Order 3: amount: 30 → 77"])
        text = "SELECT o.number FROM Order o WHERE o.amount = 77"
        self.assertEqual(self.ask("query", text=text, first=0, max=9)["rows"], [[["int", "3"]]])
        self.assertEqual(self.amounts()[2], 30)
        told = self.ask("commit")
        self.assertEqual((told["committed"], told["transaction"]),
                         (["Order 3: amount: 30 → 77"], None))
        self.assertEqual(self.amounts()[2], 77)

    def test_a_rollback_leaves_what_was(self) -> None:
        self.set_amount(3, 77)
        self.ask("remove", object=named("Person", 1))
        self.assertEqual(len(self.ask("rollback")["rolledBack"]), 2)
        self.assertEqual(self.amounts(), [10, 20, 30, 40, 50, 60, 70])
        self.assertEqual(self.refused("commit")["told"], ["no transaction is open"])

    def test_a_refused_change_leaves_those_before_it(self) -> None:
        self.set_amount(1, 11)
        made = self.ask("create", entity="Person", values={"name": ["text", "Eve"]})["made"]
        before = self.ask("create", entity="Order", values={
            "number": ["int", "8"], "person": made})["transaction"]
        refused = self.refused("create", entity="Order", values={"number": ["int", "1"]})
        self.assertEqual(refused["word"], "EntityExists")
        refused = self.refused("set", object=named("Order", 1), name="amount", value=["text", "x"])
        self.assertIn("Order.amount is a whole number", refused["told"][0])
        refused = self.refused("query", text="SELECT o FROM Odrer o", first=0, max=9)
        self.assertEqual(refused["mistakes"][0]["word"], "Odrer")
        refused = self.refused("execute", text="UPDATE Order o SET o.amuont = 1")
        self.assertEqual(refused["mistakes"][0]["word"], "amuont")
        told = self.ask("overview")["transaction"]
        self.assertEqual(len(told), len(before))
        self.ask("object", object=made)  # By the key that it had first.
        self.ask("commit")
        with self.app.begin() as manager:
            eve = manager.one("SELECT o.person.name, o.number FROM Order o WHERE o.number = 8")
            self.assertEqual(list(eve), ["Eve", 8])
        self.assertEqual(self.amounts()[0], 11)

    def test_links_and_statements(self) -> None:
        self.ask("set", object=named("Order", 1), name="person", value=named("Person", 2))
        self.ask("set", object=named("Order", 2), name="person", value=None)
        told = self.ask("execute", text="UPDATE Order o SET o.amount = :n WHERE o.number > 5",
                        params={"n": ["int", "1"]})
        self.assertEqual(told["done"].rpartition(": ")[2], "2 objects")
        person, order = named("Person", 1), named("Order", 1)
        refused = self.refused("add", object=person, name="orders", member=order)
        self.assertIn("set the other one", refused["told"][0])
        self.ask("commit")
        self.assertEqual(self.amounts(), [10, 20, 30, 40, 50, 1, 1])
        with self.app.begin() as manager:
            self.assertEqual(manager.query("SELECT o.person.id FROM Order o WHERE o.number < 4 "
                                           "ORDER BY o.number"), [2, 1])

    def test_a_commit_that_comes_second_tells_what_isnt_stored(self) -> None:
        self.ask("set", object=named("Person", 1), name="name", value=["text", "Bob"])
        with self.app.begin() as manager:
            found = manager.find("Person", 1)
            assert found is not None
            found.name = "Cy"
        told = self.ask("commit")
        self.assertIsNone(told["transaction"])
        self.assertEqual(told["refused"]["told"][0],
                         "The stored version is not the one that was read.")
        self.assertEqual(told["refused"]["told"][-1], "Person 1: name: Ada → Bob")

    def test_whatever_a_callback_raises_is_told_and_its_change_is_undone(self) -> None:
        raised: List[Type[Exception]] = []

        def look(event: karzhoul.Event) -> None:
            if event.object.amount < 0:
                raise raised[-1]("no order is below nothing")

        self.app.listen(look, karzhoul.LifecycleEvent.PRE_UPDATE)
        for error in (_Overdrawn, RuntimeError, ArithmeticError):
            raised.append(error)
            self.set_amount(2, 22)
            told = self.ask("set", object=named("Order", 1), name="amount", value=["int", "-3"])
            self.assertEqual(told["refused"]["word"], error.__name__)
            self.assertEqual(told["refused"]["told"], ["no order is below nothing"])
            self.assertEqual(len(told["transaction"]), 1)
            rows = self.ask("query", text="SELECT o.amount FROM Order o WHERE o.number = 1",
                            first=0, max=9)["rows"]
            self.assertEqual(rows, [[["int", "10"]]])
            self.assertEqual(len(self.ask("commit")["committed"]), 1)
            self.assertEqual(self.amounts()[:2], [10, 22])

    def test_what_a_callback_raises_as_objects_are_loaded_is_told(self) -> None:
        def look(event: karzhoul.Event) -> None:
            raise _Overdrawn("not today")

        self.app.listen(look, karzhoul.LifecycleEvent.POST_LOAD)
        refused = self.refused("object", object=named("Order", 1))
        self.assertEqual(refused["told"], ["not today"])
        self.assertNotIn("refused", self.ask("overview"))

    def test_the_end_of_the_program_loses_the_transaction_and_says_so(self) -> None:
        def by_client() -> None:
            self.app.program.kill()

        def from_outside() -> None:
            os.kill(self.app.program.pid, signal.SIGKILL)

        for end in (by_client, from_outside):
            self.set_amount(3, 77)
            end()
            told = self.ask("set", object=named("Order", 4), name="amount", value=["int", "1"])
            self.assertEqual(told["refused"]["told"][-2:], [
                "the transaction is rolled back, and this isn't stored:",
                "Order 3: amount: 30 → 77",
            ])
            self.assertIsNone(told["transaction"])
            self.assertEqual(self.ask("overview")["entities"][1]["count"], "7")
            self.assertEqual(self.amounts()[2], 30)


class Command(FolderTest):
    """The command itself, as a process."""

    def begun(self, *words: str) -> "subprocess.Popen[str]":
        made = subprocess.Popen(
            [sys.executable, "-m", "karzhoul", "console", "--no-browser", *words], cwd=HERE.parent,
            stdin=subprocess.DEVNULL, stdout=subprocess.PIPE, stderr=subprocess.PIPE, text=True,
            env={**os.environ, "KARZHOUL_PROGRAM": str(PROGRAM)},
        )
        self.addCleanup(made.communicate)
        self.addCleanup(made.kill)
        return made

    def asked(self, made: "subprocess.Popen[str]", name: str, said: Any) -> Any:
        if not hasattr(self, "url"):
            assert made.stdout is not None
            self.lines: List[str] = [made.stdout.readline(), made.stdout.readline()]
            self.url = self.lines[1].strip()
        from urllib.request import Request, urlopen

        asked = Request(self.url + name, json.dumps(said).encode(), _JSON)
        with urlopen(asked, timeout=SECONDS) as answer:
            return json.load(answer)

    @needs_program
    def test_it_shows_a_file_until_it_is_ended(self) -> None:
        db = self.place / "app.db"
        with opened(db) as app:
            fill(app)
        made = self.begun(str(db), "--mapping", str(ORDERS), "--write")
        said = {"object": named("Order", 3), "name": "amount", "value": ["int", "77"]}
        self.assertIsNone(self.asked(made, "set", said).get("refused"))
        self.assertRegex(self.url, r"^http://127\.0\.0\.1:\d+/[\w-]{43}/$")
        made.send_signal(signal.SIGINT)
        _, told = made.communicate(timeout=SECONDS)
        self.assertEqual((made.returncode, told), (0, (
            "karzhoul: the transaction was open, and is rolled back:\n  Order 3: amount: 30 → 77\n"
        )))
        with opened(db) as app, app.begin() as manager:
            found = manager.find("Order", 3)
            assert found is not None
            self.assertEqual(found.amount, 30)

    @needs_program
    def test_it_shows_what_a_server_serves(self) -> None:
        db, path = self.place / "app.db", self.place / "app.sock"
        with opened(db) as app:
            fill(app)
        server = Here(ORDERS, db, listen=path)
        self.addCleanup(server.close)
        made = self.begun("--connect", f"unix:{path}", "--write")
        self.assertEqual(self.asked(made, "overview", {})["entities"][1]["count"], "7")
        self.asked(made, "remove", {"object": named("Order", 7)})
        self.assertEqual(self.asked(made, "commit", {})["committed"], ["Order 7: removed"])
        with karzhoul.connect(f"unix:{path}") as app, app.begin() as manager:
            self.assertIsNone(manager.find("Order", 7))

    @needs_program
    def test_classes_look_at_what_is_written(self) -> None:
        db, module = self.place / "app.db", self.place / "shelf_console.py"
        module.write_text(
            "from __future__ import annotations\nfrom datetime import date\n"
            "from karzhoul import Entity, field, generated\n\n"
            "class Card(Entity):\n    id: int = generated()\n    email: str = field(unique=True)\n"
            "    since: date\n", encoding="utf-8",
        )
        made_by = (
            "import datetime, karzhoul, shelf_console as s\n"
            f"with karzhoul.open(s, {str(db)!r}) as app, app.begin() as m:\n"
            "    for e in ('a', 'b'):\n"
            "        m.persist(s.Card(email=e, since=datetime.date(2026, 1, 5)))\n"
        )
        env = {**os.environ, "KARZHOUL_PROGRAM": str(PROGRAM),
               "PYTHONPATH": f"{HERE.parent}{os.pathsep}{self.place}"}
        subprocess.run([sys.executable, "-c", made_by], env=env, check=True, timeout=SECONDS)
        made = self.begun(str(db), "--mapping", str(module), "--write")
        card = named("Card", 2)
        said = {"object": card, "name": "email", "value": ["text", "a"]}
        refused = self.asked(made, "set", said)["refused"]
        self.assertIn("Card.email is unique", refused["told"][0])
        said = {"object": card, "name": "since", "value": ["text", "2026-13-45"]}
        self.assertIn("is no date", self.asked(made, "set", said)["refused"]["told"][0])
        said["value"] = ["text", "2026-02-03"]
        self.assertEqual(self.asked(made, "set", said)["transaction"],
                         ["Card 2: since: 2026-01-05 → 2026-02-03"])
        entities = self.asked(made, "overview", {})["entities"]
        self.assertEqual([it["name"] for it in entities], ["Card"])
        self.asked(made, "commit", {})
        text = "SELECT c.since FROM Card c WHERE c.id = 2"
        rows = self.asked(made, "query", {"text": text, "first": 0, "max": 5})["rows"]
        self.assertEqual(rows, [[["text", "2026-02-03"]]])

    def test_the_browser_is_told_the_address_by_a_file_of_its_users_own(self) -> None:
        seen: List[Tuple[int, str]] = []

        def see(uri: str) -> None:
            path = Path(uri[len("file://"):])
            seen.append((path.stat().st_mode & 0o777, path.read_text(encoding="utf-8")))

        with mock.patch("webbrowser.open", see), browsed("http://127.0.0.1:1/token/"):
            self.assertEqual([mode for mode, _ in seen], [0o600])
        self.assertIn("url=http://127.0.0.1:1/token/", seen[0][1])

    def test_what_is_missing_is_said(self) -> None:
        asked: List[Tuple[List[str], str]] = [
            ([], "takes a database file"), (["none.db"], "there is no file none.db"),
            (["none.db", "--connect", "unix:/none"], "no database file beside it"),
            (["--connect", "unix:/none/app.sock"], "nobody serves"),
        ]
        for words, wanted in asked:
            _, told = self.begun(*words).communicate(timeout=SECONDS)
            self.assertIn(wanted, told)


if __name__ == "__main__":
    unittest.main()
