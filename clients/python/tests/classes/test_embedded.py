"""Embedded values: several attributes as one value of an object."""

from __future__ import annotations

import copy
import pickle
from typing import Any, Callable, Dict, List, Tuple, Type

import karzhoul
from karzhoul import DeclarationError, NotBroughtOver, NotUnique, WrongValue
from karzhoul.classes.changes import make

from ..classed import ClassesTest
from ..support import needs_program

MODULE = """
class Kind(Enum):
    HOUSE = 1
    FLAT = 2

class Geo(Embedded):
    lat: Decimal = money(4)
    lon: Decimal = money(4)

class Address(Embedded):
    street: str | None = None
    city: str = field(index=True)
    since: date | None = None
    kind: Kind = Kind.HOUSE
    geo: Geo | None = embedded(default=None)

    def line(self) -> str:
        return f"{self.street}, {self.city}"

class Size(Embedded):
    width: int | None = None
    height: int | None = None

class Member(Entity, unique=("name", "home.city")):
    id: int = generated()
    version: int = version()
    name: str
    home: Address = embedded()
    work: Address | None = embedded(default=None)
    size: Size = embedded(default=Size())
    heard: ClassVar[list[str]] = []

    @validates("work")
    def not_nowhere(self, value: Address | None) -> Address | None:
        return None if value is not None and value.city == "nowhere" else value

    def pre_update(self) -> None:
        self.heard.append(self.home.city)

class Company(Member):
    seat: Address | None = None
"""


@needs_program
class Values(ClassesTest):
    def setUp(self) -> None:
        super().setUp()
        self.it = self.module(MODULE)
        self.app = self.open(self.it)

    def address(self, city: str = "Ghent", **more: Any) -> Any:
        return self.it.Address(city=city, **more)

    def stored(self, **values: Any) -> Any:
        with self.app.begin() as manager:
            made = self.it.Member(**{"name": "Ada", "home": self.address(), **values})
            manager.persist(made)
        return made

    def found(self, key: int = 1) -> Any:
        with self.app.create_entity_manager() as manager:
            found = manager.get_reference("Member", key)
            found.home, found.work  # It is read before it is detached.
        return found

    def test_it_comes_back_as_it_was(self) -> None:
        geo = self.it.Geo(lat=self.it.Decimal("51.05"), lon=self.it.Decimal("-3.7"))
        home = self.address(street="Veldstraat 1", since=self.it.date(2026, 1, 5), geo=geo,
                            kind=self.it.Kind.FLAT)
        self.stored(home=home)
        found = self.found()
        self.assertEqual(found.home, home)
        self.assertEqual(hash(found.home), hash(home))
        self.assertEqual((found.work, found.size), (None, self.it.Size()))
        self.assertEqual(found.home.line(), "Veldstraat 1, Ghent")
        self.assertEqual(repr(found.home.geo),
                         "Geo(lat=Decimal('51.0500'), lon=Decimal('-3.7000'))")
        self.assertEqual(pickle.loads(pickle.dumps(geo)), geo)
        self.assertEqual((copy.copy(geo), copy.deepcopy(home)), (geo, home))

    def test_it_takes_no_change_in_place(self) -> None:
        self.stored()
        with self.app.begin() as manager:
            member = manager.get_reference("Member", 1)
            with self.assertRaisesRegex(AttributeError, r"replace\(city=..\)"):
                member.home.city = "Bruges"
            with self.assertRaisesRegex(AttributeError, "no change in place"):
                del member.home.city
            member.home = member.home.replace(city="Bruges")
            member.work = member.home
        self.assertEqual((self.found().home.city, self.found().work.city), ("Bruges", "Bruges"))
        self.assertEqual(self.it.Member.heard, ["Bruges"])
        with self.app.begin() as manager:
            manager.get_reference("Member", 1).work = None
        self.assertIsNone(self.found().work)
        self.assertEqual(self.found().version, 2)

    def test_what_is_wrong_is_refused_as_it_is_made_and_assigned(self) -> None:
        self.stored()
        member = self.found()
        Address = self.it.Address
        wrong: List[Tuple[Callable[[], object], Type[Exception], str]] = [
            (lambda: Address(city=5), WrongValue, "Address.city is a text, and 5 is no str"),
            (lambda: Address(city=None), WrongValue, "Address.city is a text, and never None"),
            (lambda: Address(), TypeError, "Address takes city, and none is given"),
            (lambda: Address(citty="a"), AttributeError, "did you mean 'city'"),
            (lambda: Address(city="a", geo=5), WrongValue, "Address.geo is of Geo, and 5 is none"),
            (lambda: setattr(member, "home", None), WrongValue, "Member.home is of Address, and"),
            (lambda: setattr(member, "home", "Ghent"), WrongValue, "and 'Ghent' is none"),
            (lambda: self.it.Member(name="a"), TypeError, "Member takes home"),
            (lambda: self.app.set(member, "home", 5), WrongValue, "and 5 is none"),
        ]
        for make_one, kind, words in wrong:
            with self.subTest(words=words), self.assertRaisesRegex(kind, words):
                make_one()
        self.assertEqual(self.found().home, member.home)

    def test_a_validator_sees_it(self) -> None:
        self.stored(work=self.address("nowhere"))
        self.assertIsNone(self.found().work)

    def test_the_other_ways_to_read_and_to_write(self) -> None:
        home = self.address("Aalst")
        made = self.app.new_many("Member", [{"name": name, "home": home} for name in "ab"])
        with self.app.begin() as manager:
            manager.persist_all(made)
            self.app.set(made[0], "work", home)
            self.assertEqual(self.app.get(made[0], "work"), home)
            self.assertEqual(manager.fetch(made, "work"), [home, None])
        with self.app.begin() as manager:
            made[0].home = self.address("Bruges")
            self.assertEqual(manager.merge(made[0]).home.city, "Bruges")
        self.assertEqual((self.found().home.city, self.found().work), ("Bruges", home))

    def test_subclasses(self) -> None:
        with self.app.begin() as manager:
            manager.persist(self.it.Company(name="a", home=self.address(), seat=self.address("B")))
        with self.app.begin() as manager:
            [company] = manager.query("SELECT m FROM Member m")
            self.assertEqual((company.home.city, company.seat.city), ("Ghent", "B"))
            self.assertEqual(manager.query("SELECT c.seat.city FROM Company c"), ["B"])

    def test_a_whole_one_is_not_unique(self) -> None:
        with self.assertRaisesRegex(DeclarationError, "name its parts, as home.street"):
            self.open(MODULE.replace('"home.city"', '"home"'))

    def test_part_of_what_is_unique(self) -> None:
        self.stored()
        self.stored(home=self.address("Bruges"))
        with self.assertRaisesRegex(NotUnique, "Member.name and home.city .* 'Ada' and 'Ghent'"):
            self.stored()
        with self.app.begin() as manager, self.assertRaisesRegex(ValueError, "Member.home.city"):
            manager.execute_update("UPDATE Member m SET m.home.city = 'a'")


@needs_program
class Asked(ClassesTest):
    """Queries by parts."""

    def setUp(self) -> None:
        super().setUp()
        self.it = self.module(MODULE)
        self.app = self.open(self.it)
        day, some = self.it.date, self.it.Address
        self.homes = [some(city="Ghent", since=day(2026, 1, 5)), some(city="Bruges"),
                      some(city="Ghent", kind=self.it.Kind.FLAT, street="a")]
        with self.app.begin() as manager:
            for number, home in enumerate(self.homes):
                work = some(city="Aalst") if number == 1 else None
                manager.persist(self.it.Member(name=f"m{number}", home=home, work=work))

    def ask(self, text: str, **params: Any) -> List[Any]:
        with self.app.begin() as manager:
            return list(manager.query(text, **params))

    def test_conditions_orders_and_items(self) -> None:
        day, front = self.it.date(2026, 1, 1), "SELECT m.name FROM Member m WHERE "
        asked: List[Tuple[str, Dict[str, Any], List[str]]] = [
            ("m.home.city = 'Ghent' AND m.home.since IS NULL", {}, ["m2"]),
            ("m.home.since > :day", {"day": day}, ["m0"]),
            ("m.home.since > '2026-01-01'", {}, ["m0"]),
            ("m.home.kind = :kind", {"kind": self.it.Kind.FLAT}, ["m2"]),
            ("m.home.city IN :cities", {"cities": ["Bruges", "x"]}, ["m1"]),
            ("UPPER(m.home.city) LIKE 'GH%' AND NOT m.home.kind = 'FLAT'", {}, ["m0"]),
            ("m.work IS NULL", {}, ["m0", "m2"]),
            ("m.work IS NOT NULL", {}, ["m1"]),
            ("EXISTS (SELECT n FROM Member n WHERE n.work.city < m.home.city)", {},
             ["m0", "m1", "m2"]),
        ]
        for condition, params, names in asked:
            with self.subTest(condition=condition):
                self.assertEqual(self.ask(f"{front}{condition} ORDER BY m.name", **params), names)
        self.assertEqual(self.ask("SELECT m.name FROM Member m ORDER BY m.home.city, m.name DESC"),
                         ["m1", "m2", "m0"])
        self.assertEqual(self.ask("SELECT m.home.city, COUNT(m.work), MIN(m.home.since) "
                                  "FROM Member m GROUP BY m.home.city ORDER BY m.home.city"),
                         [["Bruges", 1, None], ["Ghent", 0, self.it.date(2026, 1, 5)]])

    def test_whole_ones_as_items(self) -> None:
        self.assertEqual(self.ask("SELECT m.home FROM Member m ORDER BY m.name"), self.homes)
        rows = self.ask("SELECT m.work AS w, m.name, m.home.geo FROM Member m ORDER BY m.name")
        self.assertEqual([list(row) for row in rows], [
            [None, "m0", None], [self.it.Address(city="Aalst"), "m1", None], [None, "m2", None]])
        self.assertEqual((rows[1].w.city, rows[1].geo), ("Aalst", None))
        none = self.ask("SELECT DISTINCT m.work FROM Member m WHERE m.work IS NULL")
        self.assertEqual(none, [None])
        self.assertEqual(
            len(self.ask("SELECT m.home, COUNT(m) FROM Member m GROUP BY m.home")), 3)
        with self.app.begin() as manager:
            page = manager.page("SELECT m.home FROM Member m", 1, 2, total=True)
            self.assertEqual((list(page), page.total), (self.homes[:2], 3))
            self.assertEqual(list(manager.iterate("SELECT m.home FROM Member m", 2)), self.homes)

    def test_updates(self) -> None:
        with self.app.begin() as manager:
            self.assertEqual(manager.execute_update(
                "UPDATE Member AS m SET m.home.since = :day, m.home.street = NULL "
                "WHERE m.home.city = :city", day=self.it.date(2027, 1, 1), city="Ghent"), 2)
        self.assertEqual(self.ask("SELECT m.home.since, m.home.street FROM Member m "
                                  "WHERE m.home.city = 'Ghent'"),
                         [[self.it.date(2027, 1, 1), None]] * 2)
        with self.assertRaisesRegex(WrongValue, r"sets Member\.home\.since, a date, to Member\.home\.city"):
            with self.app.begin() as manager:
                manager.execute_update("UPDATE Member m SET m.home.since = m.home.city")

    def test_an_update_sets_no_part_of_one_that_may_be_none(self) -> None:
        for said in ("m.work.city = NULL", "m.work.city = :it", "m.work.street = 'a'",
                     "m.home.geo.lat = 1", "m.home.geo.lat = NULL", "m.work.geo.lat = 1"):
            with self.subTest(said), self.app.begin() as manager:
                whole = said.split(" ")[0].rpartition(".")[0].replace("work.geo", "work")
                with self.assertRaisesRegex(ValueError, rf"{whole[2:]} may be None, .* a whole"):
                    given = {"it": "a"} if ":it" in said else None
                    manager.execute_update(f"UPDATE Member m SET {said}", params=given)
        works = self.ask("SELECT m.work FROM Member m ORDER BY m.id")
        with self.app.begin() as manager:
            manager.execute_update("UPDATE Member m SET m.work.street = NULL, m.size.width = 1")
        self.assertEqual(self.ask("SELECT m.work FROM Member m ORDER BY m.id"), [
            None if each is None else each.replace(street=None) for each in works])
        self.assertTrue(any(works))

    def test_what_can_not_be_asked_is_told(self) -> None:
        front = "SELECT m FROM Member m WHERE "
        for text, words in (
            (f"{front}m.home = :it", "name its parts, as m.home.street"),
            (f"{front}m.size IS NULL", "Member.size is never None"),
            ("SELECT m FROM Member m ORDER BY m.home", "name its parts"),
            ("SELECT m.home AS h FROM Member m ORDER BY h", "which has no order"),
            (f"{front}m.home.since = 'x'", "Member.home.since is a date"),
        ):
            with self.subTest(text=text), self.assertRaisesRegex(WrongValue, words):
                self.ask(text, **({"it": self.homes[0]} if ":it" in text else {}))
        with self.assertRaises(WrongValue), self.app.begin() as manager:
            manager.execute_update("UPDATE Member m SET m.home = NULL")

    def test_a_part_that_there_is_not_is_told_with_the_one_that_is_meant(self) -> None:
        for path, near in (("home.ctiy", "home.city"), ("hmoe.city", "home.city"), ("home.geo.lta", "home.geo.lat"), ("home.city.x", "home.city")):
            with self.subTest(path), self.assertRaises(karzhoul.IllegalArgument) as raised:
                self.ask(f"SELECT m.name FROM Member m WHERE m.{path} = 'a'")
            words = f"1:37: {path}: Member has no member {path}: did you mean '{near}'? [IllegalArgument(typing)]"
            self.assertEqual(str(raised.exception), words)
        words = "27: .: SET takes members of the object itself, as p.name, and parts of its embedded values"
        with self.assertRaisesRegex(karzhoul.IllegalArgument, words), self.app.begin() as manager:
            manager.execute_update("UPDATE Member m SET m.home.ctiy = 'a'")

    def test_its_parts_are_looked_up(self) -> None:
        with self.assertLogs("karzhoul", "DEBUG") as logs:
            self.app.close()
            self.app = self.open(self.it)
        told = [it.getMessage() for it in logs.records if '"index"' in it.getMessage()]
        self.assertEqual(len(told), 3)
        self.assertTrue(all('"ok":null' in each for each in told), told)


STORED = """
class Address(Embedded):
    street: str | None = None
    city: str

class Member(Entity):
    id: int = generated()
    home: Address = embedded()
    work: Address | None = None
"""


@needs_program
class Changed(ClassesTest):
    def setUp(self) -> None:
        super().setUp()
        it = self.module(STORED)
        with self.open(it) as app, app.begin() as manager:
            manager.persist(it.Member(home=it.Address(city="Ghent", street="a")))

    def home(self, *changes: str) -> Any:
        text = STORED
        for old, new in zip(changes[::2], changes[1::2]):
            self.assertIn(old, text)
            text = text.replace(old, new)
        with self.open(text) as app, app.begin() as manager:
            return [getattr(manager.get_reference("Member", 1), name)
                    for name in ("home", "lives") if hasattr(app.entity("Member"), name)][0]

    def test_other_names(self) -> None:
        changes = ("city: str", 'town: str = field(was="city")',
                   "home: Address = embedded()", 'lives: Address = embedded(was="home")')
        with self.assertRaisesRegex(DeclarationError, r"Member.home.town is new, and home.city is "
                                    r'gone: where it is renamed write was="city"'):
            self.home("city: str", "town: str")
        with self.assertRaisesRegex(DeclarationError, r"Member.lives.city is new, and home.city is "
                                    r'gone: where it is renamed write was="home"'):
            self.home("home: Address", "lives: Address")
        self.assertEqual(repr(self.home(*changes)), "Address(street='a', town='Ghent')")

    def test_new_parts(self) -> None:
        self.assertEqual(self.home("city: str", "city: str\n    zip: str | None = None").zip, None)
        more = "city: str\n    zip: str | None = None\n    "
        self.assertEqual(self.home("city: str", f"{more}land: str = 'BE'").land, "BE")
        with self.assertRaisesRegex(NotBroughtOver, "Member.home.post may not be None"):
            self.home("city: str", f"{more}land: str = 'BE'\n    post: str")

    def test_one_that_is_required_now(self) -> None:
        with self.assertRaisesRegex(NotBroughtOver, "Member.work.city may not be None"):
            self.home("work: Address | None = None", "work: Address = embedded()")
        kept = 'work: Address = embedded(default=Address(city="none"))'
        self.home("work: Address | None = None", kept)

    def test_parts_that_are_required_now_of_one_that_may_be_none(self) -> None:
        optional = STORED.replace("home: Address = embedded()", "home: Address | None = None")
        it = self.module(optional)
        with self.open(it) as app, app.begin() as manager:
            manager.persist_all([it.Member(home=it.Address(city="Lier")), it.Member()])

        def homes(*changes: str) -> List[Any]:
            text = optional
            for old, new in zip(changes[::2], changes[1::2]):
                text = text.replace(old, new)
            with self.open(text) as app, app.begin() as manager:
                return [str(each.home) for each in manager.query("SELECT m FROM Member m")]

        street = "street: str | None = None"
        for said in ("street: str", "street: str | None = None\n    zip: int"):
            refused = rf"Member.home.{said.split()[-2][:-1]} may not be None where home is there, "
            with self.assertRaisesRegex(NotBroughtOver, f"{refused}and is in . stored: Member id="):
                homes(street, said)
        self.assertEqual(homes()[0], "Address(street='a', city='Ghent')")
        self.assertEqual(homes(street, "street: str = '?'"), [
            "Address(street='a', city='Ghent')", "Address(street='?', city='Lier')", "None"])
        numbered = "street: str = '?'\n    zip: int = field(default_factory=iter([7, 9]).__next__)"
        self.assertEqual(homes(street, numbered), [
            "Address(street='a', zip=7, city='Ghent')", "Address(street='?', zip=9, city='Lier')",
            "None"])

    def test_a_part_within_another_one_that_is_required_now(self) -> None:
        inner = "class Geo(Embedded):\n    east: int\n    north: int{}\n"
        text = STORED.replace("    city: str\n", "    city: str\n    geo: Geo | None = None\n")
        it = self.module(inner.format(" | None = None") + text)
        with self.open(it) as app, app.begin() as manager:
            manager.persist(it.Member(home=it.Address(city="Lier", geo=it.Geo(east=4))))
        with self.assertRaisesRegex(NotBroughtOver, "Member.home.geo.north .* where home.geo is"):
            self.open(inner.format("") + text)
        with self.open(inner.format(" = 51") + text) as app, app.begin() as manager:
            found = [str(each.home.geo) for each in manager.query("SELECT m FROM Member m")]
        self.assertEqual(found, ["None", "Geo(east=4, north=51)"])

    def test_one_that_is_taken_out_and_comes_back_or_is_let_go(self) -> None:
        self.home("    work: Address | None = None\n", "")
        with self.open("class Member(Entity):\n    id: int = generated()\n") as app:
            self.assertFalse(hasattr(app.entity("Member"), "home"))
        self.assertEqual(self.home().city, "Ghent")
        with self.open("class Member(Entity, dropped=('home',)):\n    id: int = generated()\n"):
            pass
        with self.assertRaises(NotBroughtOver):
            self.home()

    def test_the_mapping(self) -> None:
        made = make(self.module(STORED), self.lock)
        [member] = [it for it in made.mapping["entities"] if it["name"] == "Member"]
        self.assertEqual(member["attributes"], [
            {"name": "home__street", "type": "text", "column": 1},
            {"name": "home__city", "type": "text", "column": 2, "required": True},
            {"name": "work__street", "type": "text", "column": 3},
            {"name": "work__city", "type": "text", "column": 4},
        ])

    def test_wrong_ones_are_told_with_their_lines(self) -> None:
        head, tail = "class Part(Embedded):\n", "class It(Entity):\n    id: int = generated()\n"
        for part, use, words in (
            ("    a: float\n", "    it: Part = embedded()\n", "9: Part.a is a float"),
            ("    a: str | None\n", "    it: Part | None = None\n", "can't be told apart"),
            ("    a: It = many_to_one()\n", "    it: Part = embedded()\n", "has values alone"),
            ("    pass\n", "    it: Part = embedded()\n", "has no attributes"),
            ("    a: int\n", "    it: int = embedded()\n", "It.it is embedded: its class extends"),
            ("    a: int\n", "    it: Part = embedded(default=5)\n", "5 is none"),
            ("    a: int\n", "    it: Part = embedded()\n    it__a: int\n", "there is already"),
            ("    a: int\n", "    it: Part = field(unique=True)\n", "write it as embedded()"),
            ("    replace: int\n", "    it: Part = embedded()\n", "a method of embedded values"),
            ("    a: int = 'x'\n", "    it: Part = embedded()\n", "has the default 'x'"),
        ):
            with self.subTest(words=words):
                with self.assertRaises(DeclarationError) as raised:
                    self.open(head + part + tail + use)
                self.assertIn(words, str(raised.exception))


