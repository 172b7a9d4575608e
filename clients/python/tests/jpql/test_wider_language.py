"""Queries in the wider language: UPPER, LOWER, TRIM, lists as parameters of IN, and ORDER BY values."""

from __future__ import annotations

import json
import re
import subprocess
import unittest
from datetime import date
from decimal import Decimal
from typing import Any, Dict, List

import karzhoul
from karzhoul.jpql import statements as jpql
from karzhoul.jpql.check import INT, TEXT, Kinds, check
from karzhoul.explain.line_check import faults_of_line
from karzhoul.queries.rewriting import counting
from karzhoul.mapping.unit import entities_of

from ..classed import ClassesTest
from ..support import PERSONS, PROGRAM, TOP, FolderTest, counted, needs_program

NAMED = "SELECT p.name FROM Person p WHERE p.id {} ORDER BY p.id"
LIBRARY = '''
class State(Enum):
    OPEN = 1
    BACK = 2
    LOST = 3

class Member(Entity):
    id: int = generated()
    name: str
    email: str | None = None
    loans: List["Loan"] = one_to_many("member", cascade="all")

class Loan(Entity):
    id: int = generated()
    member: Member = many_to_one()
    state: State
    due: date | None = None
    fee: Decimal = money(2)
    is_lost: bool = False
'''


def _serves_wide() -> bool:
    """Whether the program serves the wider language in its calls."""
    if PROGRAM is None:
        return False
    words = [str(PROGRAM), "--language", "wide"]
    line = b'{"call":"pending","em":0}\n'
    return subprocess.run(words, input=line, capture_output=True).returncode == 0


needs_wide = unittest.skipUnless(
    _serves_wide(), "the program serves the wider language in no calls: it is an older one"
)


@needs_wide
class Grammar(unittest.TestCase):
    """The client's table of words and functions is the program's."""

    def test_the_words_and_functions_are_those_that_the_program_tells(self) -> None:
        for name, language in jpql.LANGUAGES.items():
            words = [str(PROGRAM), "--grammar", "--language", name]
            told = json.loads(subprocess.run(words, capture_output=True, check=True).stdout)
            self.assertEqual(told["language"], name)
            self.assertEqual(language.keywords, set(told["keywords"]))
            most = jpql.MOST_BYTES
            functions = {it["name"]: (it["least"], it["most"] or most) for it in told["functions"]}
            self.assertEqual(language.functions, functions)
            self.assertEqual(list(jpql.AGGREGATES), told["aggregates"])
            limits = {
                "bytes": most, "parentheses": jpql.MOST_NESTED, "variables": jpql.MOST_VARIABLES,
                "list": jpql.MOST_LISTED, "listsTogether": jpql.MOST_LISTED_TOGETHER,
            }
            if name == "wide":
                limits["cases"] = 64
            self.assertEqual(told["limits"], limits)


class Wide(unittest.TestCase):
    """A manager over persons by a mapping, in the wider language."""

    def setUp(self) -> None:
        self.app = karzhoul.open(PERSONS, program=PROGRAM, language="wide")
        self.addCleanup(self.app.close)
        self.em = self.app.create_entity_manager()
        person = self.app.entity("Person")
        with self.em.transaction():
            for name in ("Ada", "straße", "  Bob ", None):
                self.em.persist(person(name=name))

    def asked(self, test: str, **params: Any) -> List[Any]:
        """The names of the persons whose number passes a test."""
        return list(self.em.query(NAMED.format(test), params=params))

    def one(self, value: str, **params: Any) -> Any:
        """A value, as a query tells it."""
        return self.em.one(f"SELECT {value} FROM Person p WHERE p.id = 1", params=params)


@needs_wide
class Functions(Wide):
    """UPPER, LOWER and TRIM, with the values of docs/QUERIES.md."""

    def test_upper_and_lower(self) -> None:
        rows = self.em.query("SELECT UPPER(p.name), LOWER(p.name) FROM Person p ORDER BY p.id")
        names = ["Ada", "straße", "  Bob "]
        wanted = [[name.upper(), name.lower()] for name in names]
        self.assertEqual(list(map(list, rows)), [*wanted, [None, None]])
        self.assertEqual(rows[0]["UPPER(p.name)"], "ADA")
        self.assertEqual(self.one("LENGTH(UPPER('ŉ'))"), 2)
        self.assertEqual(self.one("LOWER(:none)", none=None), None)

    def test_trim(self) -> None:
        for value, wanted in (
            ("TRIM('  Ada ')", "Ada"),
            ("TRIM(LEADING FROM '  Ada ')", "Ada "),
            ("TRIM(TRAILING 'x' FROM 'xAdaxx')", "xAda"),
            ("trim(both 'x' from 'xAdaxx')", "Ada"),
            ("TRIM('aba' FROM 'ababa')", "ba"),
            ("TRIM('' FROM ' a ')", " a "),
            ("LOWER(TRIM('B' FROM UPPER('abb')))", "a"),
        ):
            self.assertEqual(self.one(value), wanted, value)
        self.assertEqual(self.one("TRIM(:x FROM p.name)", x="A"), "da")
        self.assertEqual(self.one("TRIM(:x FROM p.name)", x=None), None)

    def test_they_stand_wherever_a_value_may(self) -> None:
        text = "SELECT p FROM Person p WHERE UPPER(TRIM(p.name)) = UPPER(:name)"
        self.assertEqual(self.em.one(text, name="boB").name, "  Bob ")
        named = "SELECT LOWER(p.name) AS n, p.id FROM Person p WHERE p.id < 3 ORDER BY n"
        self.assertEqual([row.n for row in self.em.query(named)], ["ada", "straße"])
        found = self.em.page("SELECT p FROM Person p WHERE UPPER(p.name) LIKE '%A%'", 1, 1, total=True)
        self.assertEqual((len(found), found.total), (1, 2))
        walked = self.em.iterate("SELECT UPPER(p.name) FROM Person p WHERE p.name IS NOT NULL", 2)
        self.assertEqual(list(walked), ["ADA", "STRASSE", "  BOB "])
        with self.em.transaction():
            said = "UPDATE Person p SET p.name = TRIM(p.name) WHERE p.id IN :ids"
            self.assertEqual(self.em.execute_update(said, ids=[3, 4]), 2)
        self.assertEqual(self.asked("= 3"), ["Bob"])

    def test_a_new_run_and_another_program_have_the_language_too(self) -> None:
        for again in (self.app.restart, self.app._start_again):
            again()
            self.assertEqual(self.app.create_entity_manager().one("SELECT COUNT(p) FROM Person p WHERE TRIM('x') = 'x'"), 4)


@needs_wide
class Lists(Wide):
    """Lists are handed on as they are."""

    def test_each_form(self) -> None:
        for test, wanted in (
            ("IN :ids", ["Ada", "  Bob "]),
            ("IN (:ids)", ["Ada", "  Bob "]),
            ("NOT IN :ids", ["straße", None]),
            ("NOT IN (:ids)", ["straße", None]),
        ):
            for given in ([1, 3], (1, 3), {1, 3}):
                with counted(self.app) as sent:
                    self.assertEqual(self.asked(test, ids=given), wanted, test)
                self.assertIn(f'"text":"{NAMED.format(test)}"', sent[-1].decode())
                self.assertIn('"params":{"ids":[1,3]}', sent[-1].decode())

    def test_an_empty_list(self) -> None:
        everybody = ["Ada", "straße", "  Bob ", None]
        for test, wanted in (("IN :ids", []), ("NOT IN :ids", everybody), ("IN (:ids)", [])):
            self.assertEqual(self.asked(test, ids=()), wanted)

    def test_values_of_every_kind_and_objects(self) -> None:
        ada, other = self.em.query("SELECT p FROM Person p WHERE p.id < 3 ORDER BY p.id")
        text = "SELECT p.id FROM Person p WHERE {} IN :all ORDER BY p.id"
        for path, given, wanted in (
            ("p.name", ["Ada", "it's", None], [1]),
            ("p", [other, ada], [1, 2]),
            ("p.id", [1, 2**63 - 1], [1]),
        ):
            self.assertEqual(list(self.em.query(text.format(path), all=given)), wanted)
        self.assertEqual(list(self.em.query(text.format("p.id").replace(":all", "?1"), params={1: [2]})), [2])

    def test_lists_that_a_text_could_not_spell(self) -> None:
        self.assertEqual(self.asked("IN :ids", ids=range(3, 3 + 4_096)), ["  Bob ", None])
        with self.assertRaisesRegex(karzhoul.QueryLimit, "'ids' has 4,097 values, and 4,096 are"):
            self.asked("IN :ids", ids=range(4_097))
        with self.assertRaises(karzhoul.TextLimit):
            self.asked("IN :ids", ids=["a" * 65_536])
        most = "IN :ids" + " OR p.id IN :ids" * 15
        self.assertEqual(self.asked(most, ids=range(3, 3 + 4_096)), ["  Bob ", None])
        told = "have 65,537 values together, and 65,536 are the most"
        with self.assertRaisesRegex(karzhoul.QueryLimit, told):
            self.asked(f"{most} OR p.id IN :one", ids=range(4_096), one=[1])

    def test_beside_other_values_its_values_are_written_out(self) -> None:
        self.assertEqual(self.asked("IN (:ids, 2)", ids=[1]), ["Ada", "straße"])
        self.assertEqual(self.asked("IN ((:ids))", ids=[1]), ["Ada"])
        both = "IN (:ids, :more) AND p.id IN :other"
        self.assertEqual(self.asked(both, ids=[1], more=[3, 4], other=[3, 1]), ["Ada", "  Bob "])

    def test_pages_and_parts(self) -> None:
        text = "SELECT p.id FROM Person p WHERE p.id IN :ids"
        self.assertEqual(list(self.em.iterate(text, 1, ids=[1, 2, 4])), [1, 2, 4])
        found = self.em.page(text, 1, 2, total=True, ids=[1, 2, 4])
        self.assertEqual((list(found), found.total), ([1, 2], 3))

    def test_what_is_refused(self) -> None:
        for test, ids in (
            ("= :ids", [1]), ("IN :idz", [1]), ("IN :ids", [1.5]), ("IN :ids", [[1]]),
            ("IN (:ids, 2)", [[1]]),
        ):
            with self.assertRaises(TypeError) as caught:
                self.asked(test, ids=ids)
            self.assertIn("'ids'", str(caught.exception))
        with self.assertRaises(karzhoul.IllegalArgument) as refused:
            self.asked("IN :ids", ids=["a"])
        self.assertIn("p.id is a whole number, and :ids is a text", refused.exception.explain())
        with self.assertRaises(karzhoul.IllegalArgument) as refused:
            self.asked("IN :ids", ids=1)
        self.assertIn("IN (:ids) takes one value", refused.exception.explain())


@needs_wide
class Ordered(Wide):
    """ORDER BY takes values: by chapter 4.10 rows come in the order of what they are, nulls first."""

    # Of persons named "Ada", "straße", "  Bob " and nobody.
    BY_LOWER, BY_LENGTH = [4, 3, 1, 2], [4, 1, 2, 3]

    def ids(self, keys: str, **params: Any) -> List[Any]:
        """The numbers of the persons, ordered by these keys."""
        return list(self.em.query(f"SELECT p.id FROM Person p ORDER BY {keys}", params=params))

    def test_functions_and_arithmetic(self) -> None:
        self.assertEqual(self.ids("LOWER(p.name)"), self.BY_LOWER)
        self.assertEqual(self.ids("LENGTH(p.name), p.id"), self.BY_LENGTH)
        self.assertEqual(self.ids("LENGTH(p.name) DESC, p.id DESC"), [3, 2, 1, 4])
        self.assertEqual(self.ids("p.id * -1"), [4, 3, 2, 1])
        self.assertEqual(self.ids("COALESCE(p.name, :last)", last="zz"), [3, 1, 2, 4])
        self.assertEqual(self.ids("MOD(p.id, ?1), p.id", **{"1": 2}), [2, 4, 1, 3])

    def test_groups(self) -> None:
        with self.em.transaction():
            self.em.persist(self.app.entity("Person")(name="Ada"))
        text = "SELECT p.name FROM Person p GROUP BY p.name ORDER BY COUNT(p) DESC, LENGTH(p.name)"
        self.assertEqual(list(self.em.query(text)), ["Ada", None, "straße", "  Bob "])
        self.assertEqual(self.em.page(text, 1, 3, total=True).total, 4)

    def test_pages(self) -> None:
        text = "SELECT p.id FROM Person p WHERE p.id < :n ORDER BY LOWER(p.name)"
        pages = [self.em.page(text, number, 3, total=True, n=9) for number in (1, 2)]
        self.assertEqual([list(page) for page in pages], [self.BY_LOWER[:3], self.BY_LOWER[3:]])
        self.assertEqual([page.total for page in pages], [4, 4])
        by_parameter = "SELECT p.id FROM Person p ORDER BY MOD(p.id, :n), p.id"
        found = self.em.page(by_parameter, 1, 2, total=True, n=2)
        self.assertEqual((list(found), found.total), ([2, 4], 4))
        self.assertEqual(self.em.page("SELECT 1 FROM Person p ORDER BY COUNT(p)", 1, 2, total=True).total, 1)
        with self.assertRaises(ValueError):
            list(self.em.iterate("SELECT p.id FROM Person p ORDER BY LOWER(p.name)"))

    def test_rows_are_counted_as_their_keys_leave_them(self) -> None:
        text = "SELECT o.number FROM Order o ORDER BY {}"
        there = "(o.person.name IS NULL OR o.person.name IS NOT NULL)"
        wanted = f"SELECT COUNT(o) FROM Order o WHERE {there}"
        self.assertEqual(counting(text.format("LENGTH(o.person.name)")), wanted)
        self.assertEqual(counting(text.format("LENGTH(o.name)")), "SELECT COUNT(o) FROM Order o")
        for key in ("COUNT(o)", "o.number + :n"):
            self.assertIsNone(counting(text.format(key)), key)

    def test_what_is_refused(self) -> None:
        for text, told in (
            ("SELECT DISTINCT p.name FROM Person p ORDER BY LOWER(p.name)", "select LOWER(p.name) under a name behind AS"),
            ("SELECT p.id FROM Person p ORDER BY 1 + 1", "1 + 1 is the same for each row"),
            ("SELECT p.id FROM Person p ORDER BY (p)", "objects have no order"),
            ("SELECT p.id FROM Person p ORDER BY COUNT(p)", "stands neither in GROUP BY nor within COUNT"),
        ):
            with self.assertRaises(karzhoul.IllegalArgument) as refused:
                self.em.query(text)
            self.assertEqual(refused.exception.word, "IllegalArgument(typing)", text)
            self.assertIn(told, refused.exception.explain())
        with self.assertRaises(karzhoul.Overflow):
            self.ids("p.id + 9223372036854775807")


class Paper(unittest.TestCase):
    """What docs/QUERIES.md says of ORDER BY."""

    @needs_wide
    def test_its_table_is_so(self) -> None:
        page = (TOP / "docs" / "QUERIES.md").read_text(encoding="utf-8")
        rows = re.findall(r"^\| `((?:GROUP BY .+)?ORDER BY .+)` \| `(.+)` \|$", page, re.MULTILINE)
        self.assertGreater(len(rows), 10)
        with karzhoul.open(PERSONS, program=PROGRAM, language="wide") as app:
            manager = app.create_entity_manager()
            with manager.transaction():
                for name in ("Ada", "bob", None, "Zoe", "ada"):
                    manager.persist(app.entity("Person")(name=name))
            for keys, wanted in rows:
                try:
                    found = json.dumps(list(manager.query(f"SELECT p.id FROM Person p {keys}")))
                except karzhoul.Refused as refused:
                    found = refused.word
                self.assertEqual(found, wanted, keys)


@needs_wide
class Judged(Wide):
    """The client's own check refuses what the program refuses, with its word."""

    def judges(self, text: str, given: Kinds, values: Dict[str, Any]) -> None:
        """Holds what the check finds in a text against the word of the program."""
        found = check(text, entities_of(PERSONS), given, "wide")
        line = json.dumps({"call": "query", "em": self.em.number, "text": text, "params": values})
        words = set()
        try:
            self.app.send_line(line)
        except karzhoul.Refused as refused:
            words.add(refused.word)
        self.assertEqual({each.refusal for each in found}, words, (text, found))

    def test_it_judges_keys_as_the_program_does(self) -> None:
        for keys in (
            "LOWER(p.name)", "(p.name)", "(p)", "p", "p.id + 1 DESC, p.name", "p.id +", "1", "'a'", "-1", ":n",
            ":n + p.id", "COUNT(p)", "COUNT(1)", "SIZE(p.orders)", "(p.orders)", "p.orders", "n", "(n)", "LENGTH(n)",
            "LENGTH(p.id)", "p.name + 1", "COALESCE(p, p)", "NULLIF(p.name, 'a') ASC", "LOWER(p.name) DESC ASC",
            "LOWER(x.name)", "LOWER(p.name), 1", "p.id > 1", "NULL", "", "LOWER(p.name) NULLS LAST", "TRIM(BOTH FROM p.name)",
            "MAX(p.id) - MIN(p.id)", "SUM(COUNT(p))", "SUM(p.name)", "CASE",
        ):
            given = {"n": 1} if ":n" in keys else {}
            kinds: Kinds = {name: INT for name in given}
            for head, groups in (
                ("SELECT p.name AS n", ""), ("SELECT DISTINCT p.name AS n", ""), ("SELECT 1 AS n", ""),
                ("SELECT COUNT(p) AS n", ""), ("SELECT p.name AS n", " GROUP BY p.name"),
                ("SELECT p.id", " GROUP BY p.id HAVING COUNT(p) > 0"), ("SELECT COUNT(p)", " GROUP BY p"),
            ):
                self.judges(f"{head} FROM Person p{groups} ORDER BY {keys}", kinds, given)

    def test_it_judges_as_the_program_does(self) -> None:
        kinds: Kinds = {"n": INT, "t": TEXT, "ns": [INT, None], "ts": [TEXT], "none": [], "mix": [INT, TEXT]}
        values = {"n": 1, "t": "a", "ns": [1, None], "ts": ["a"], "none": [], "mix": [1, "a"]}
        for test, names in (
            ("UPPER(p.name) = :t", "t"), ("LOWER(p.id) = :t", "t"), ("UPPER(p.name, p.name) = :t", "t"),
            ("UPPER(p.name) = 1", ""), ("TRIM() = 'a'", ""), ("TRIM(p.name) = 'a'", ""),
            ("TRIM(FROM p.name) = 'a'", ""), ("TRIM(BOTH FROM p.name) = 'a'", ""),
            ("TRIM(BOTH p.name) = 'a'", ""), ("TRIM(LEADING :t FROM p.name) = 'a'", "t"),
            ("TRIM(:n FROM p.name) = 'a'", "n"), ("TRIM(1 FROM p.name) = 'a'", ""),
            ("TRIM(p.name FROM p.name) = 'a'", ""), ("TRIM(:t) = 'a'", "t"), ("TRIM('a' FROM p.id) = 'a'", ""),
            ("p.id IN :ns", "ns"), ("p.id IN (:ns)", "ns"), ("p.id NOT IN :ns", "ns"),
            ("p.id IN :ts", "ts"), ("p.id IN :mix", "mix"), ("p.id IN :none", "none"),
            ("p.id IN :n", "n"), ("p.id IN (:n)", "n"), ("p.id IN (:ns, 3)", "ns"), ("p.id IN ((:ns))", "ns"),
            ("p.id = :ns", "ns"), ("p.id IN :ns AND p.id = :ns", "ns"), ("p.id IN :ns", ""),
            ("p.id = 1", "ns"), ("p.id IN ()", ""), ("p.id IN :ns, 3", "ns"), ("UPPER(:ts) = 'a'", "ts"),
            ("p.id = CASE", ""), ("end.id = 1", ""),
        ):
            given = [name for name in names.split() if name]
            told = {name: kinds[name] for name in given}
            self.judges(f"SELECT p FROM Person p WHERE {test}", told, {name: values[name] for name in given})


@needs_wide
class OfClasses(ClassesTest):
    """Classes have the wider language, and values are of the types of attributes."""

    def setUp(self) -> None:
        super().setUp()
        self.models = self.module(LIBRARY)
        self.app = self.open(self.models, in_memory=True)
        Member, Loan, self.State = self.models.Member, self.models.Loan, self.models.State
        self.em = self.app.create_entity_manager()
        with self.em.transaction():
            self.ada, self.bob = Member(name="Ada", email="ADA@x.org"), Member(name=" bob ")
            for number, (member, state) in enumerate(zip([self.ada, self.bob, self.bob], self.State), 1):
                due = date(2026, 1, number)
                self.em.persist(Loan(member=member, state=state, due=due, fee=Decimal(number)))
            self.em.persist(self.ada)
            self.em.persist(self.bob)

    def loans(self, test: str, **params: Any) -> List[int]:
        """The numbers of the loans that pass a test."""
        return list(self.em.query(f"SELECT l.id FROM Loan l WHERE {test} ORDER BY l.id", params=params))

    def test_lists_of_enums_dates_and_the_like(self) -> None:
        State = self.State
        with counted(self.app) as sent:
            self.assertEqual(self.loans("l.state IN :states", states=[State.OPEN, State.LOST]), [1, 3])
        self.assertIn('"params":{"states":[', sent[-1].decode())
        self.assertEqual(self.loans("l.state NOT IN (:states)", states=(State.OPEN, State.LOST)), [2])
        self.assertEqual(self.loans("l.due IN :days", days={date(2026, 1, 2), date(2027, 1, 1)}), [2])
        self.assertEqual(self.loans("l.due IN :days", days=[date(2026, 1, 3), None]), [3])
        self.assertEqual(self.loans("l.is_lost IN :all", all=[True]), [])
        self.assertEqual(self.loans("l.member IN :members", members=[self.bob]), [2, 3])
        for test, wanted in (("l.state IN :states", []), ("l.state NOT IN :states", [1, 2, 3])):
            self.assertEqual(self.loans(test, states=[]), wanted)

    def test_a_value_of_another_type_is_named(self) -> None:
        with self.assertRaises(karzhoul.WrongValue) as caught:
            self.loans("l.state IN :states", states=[self.State.OPEN, "LOST"])
        self.assertIn("'states'", str(caught.exception))
        self.assertIn("'LOST'", str(caught.exception))

    def test_a_search_without_case(self) -> None:
        text = "SELECT m FROM Member m WHERE LOWER(TRIM(m.name)) = LOWER(:name)"
        self.assertIs(self.em.one(text, name="BOB"), self.bob)
        row = self.em.one("SELECT LOWER(m.email) AS mail, l.state FROM Loan l JOIN l.member m WHERE l.id = 1")
        self.assertEqual((row.mail, row.state), ("ada@x.org", self.State.OPEN))

    def test_keys_are_of_the_types_of_attributes(self) -> None:
        def ordered(keys: str, **params: Any) -> List[int]:
            return list(self.em.query(f"SELECT l.id FROM Loan l ORDER BY {keys}", params=params))

        with self.em.transaction():
            self.em.persist(self.models.Loan(member=self.ada, state=self.State.OPEN, fee=Decimal("2.50")))
        self.assertEqual(ordered("(l.due) DESC"), [3, 2, 1, 4])
        self.assertEqual(ordered("COALESCE(l.due, :day)", day=date(2026, 1, 2)), [1, 2, 4, 3])
        self.assertEqual(ordered("ABS(l.fee - :fee), l.id", fee=Decimal("2.25")), [2, 4, 3, 1])
        self.assertEqual(ordered("LOWER(TRIM(l.member.name)), l.fee * -1"), [4, 1, 3, 2])
        grouped = "SELECT m.name FROM Loan l JOIN l.member m GROUP BY m, m.name ORDER BY {}"
        self.assertEqual(list(self.em.query(grouped.format("SUM(l.fee) DESC"))), [" bob ", "Ada"])
        self.assertEqual(list(self.em.query(grouped.format("MIN(l.due)"))), ["Ada", " bob "])
        with self.assertRaises(karzhoul.WrongValue) as caught:
            ordered("COALESCE(l.due, :day)", day="today")
        self.assertIn("'day'", str(caught.exception))

    def test_the_profile_can_be_asked_for(self) -> None:
        with karzhoul.open(self.models, program=PROGRAM, lock=self.lock, language="profile") as app:
            manager = app.create_entity_manager()
            with self.assertRaises(karzhoul.IllegalArgument) as refused:
                manager.query("SELECT UPPER(m.name) FROM Member m")
            self.assertIn("language='wide'", refused.exception.explain())
            text = "SELECT l FROM Loan l WHERE l.state IN :states"
            self.assertEqual(list(manager.query(text, states=[self.State.OPEN])), [])
        self.assertEqual((app.language, self.app.language), ("profile", "wide"))


class Started(FolderTest):
    """With which words the program is started."""

    @needs_program
    def test_a_mapping_starts_a_program_without_the_word(self) -> None:
        with karzhoul.open(PERSONS, program=PROGRAM) as app:
            self.assertNotIn("--language", app.program.words)
            self.assertEqual(app.language, "profile")
            with self.assertRaises(karzhoul.IllegalArgument) as refused:
                app.create_entity_manager().query("SELECT TRIM(p.name) FROM Person p")
            self.assertIn("language='wide'", refused.exception.explain())

    def test_a_line_with_a_list_is_no_call_in_the_profile(self) -> None:
        line = '{"call":"query","em":1,"text":"","params":{"p":[1,"a",{"hex":"0a"},null]}}'
        self.assertEqual(list(faults_of_line(line, "wide")), [])
        self.assertEqual(len(list(faults_of_line(line))), 1)
        for wrong in ("[1.5]", "[[1]]", "true"):
            told = f'{{"call":"query","em":1,"text":"","params":{{"p":{wrong}}}}}'
            self.assertEqual(len(list(faults_of_line(told, "wide"))), 1)

    def test_another_language_is_none(self) -> None:
        with self.assertRaisesRegex(ValueError, '"profile" or "wide", and not \'broad\''):
            karzhoul.open(PERSONS, language="broad")  # type: ignore[arg-type]

    def test_an_older_program_says_so(self) -> None:
        older = self.place / "older"
        older.write_text("#!/bin/sh\necho \"error: '--language <NAME>' needs '--query <TEXT>'\" >&2\nexit 2\n")
        older.chmod(0o755)
        with self.assertRaisesRegex(karzhoul.ProgramNotFound, 'Open with language="profile"'):
            karzhoul.open(PERSONS, program=str(older), language="wide")


if __name__ == "__main__":
    unittest.main()
