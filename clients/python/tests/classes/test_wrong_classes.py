"""Classes that make no mapping: each fault has its line, and says what to write."""

from __future__ import annotations

import re

import karzhoul
from karzhoul import DeclarationError
from karzhoul.classes.changes import make

from ..classed import ClassesTest


class Wrong(ClassesTest):
    """Classes whose first line is the 8th of their file."""

    def refused(self, text: str, line: int, words: str) -> None:
        """The classes of a text are refused, with this line, in these words."""
        module = self.module(text)
        with self.assertRaises(DeclarationError) as raised:
            make(module, self.lock)
        [fault] = raised.exception.faults
        said = re.sub(r"^karzhoul_models_\d+\.py", "models.py", fault)
        self.assertEqual(said, f"models.py:{line}: {words}")

    def test_a_float(self) -> None:
        self.refused(
            "class A(Entity):\n    id: int = generated()\n    fee: float\n", 10,
            "A.fee is a float, which is near a number and not exact: write Decimal = money(2), or "
            "typed(..) with a form of your own",
        )

    def test_a_decimal_without_a_scale(self) -> None:
        self.refused(
            "class A(Entity):\n    id: int = generated()\n    fee: Optional[Decimal] = None\n", 10,
            "A.fee is a Decimal without a scale: write it as Decimal = money(2)",
        )

    def test_no_key(self) -> None:
        self.refused(
            "class A(Entity):\n    name: str\n", 8,
            "A has no key: write id: int = generated(), or give the word key() to the attribute by "
            "which an object is found",
        )

    def test_two_keys(self) -> None:
        self.refused(
            "class A(Entity):\n    a: int = key()\n    b: int = generated()\n", 10,
            "A.b is generated, and so the whole key: take the other key() away",
        )

    def test_a_link_without_its_word(self) -> None:
        self.refused(
            "class A(Entity):\n    id: int = generated()\n    up: 'A | None' = None\n", 10,
            "A.up leads to an object: write it as A = many_to_one()",
        )

    def test_a_list_without_its_word(self) -> None:
        self.refused(
            "class A(Entity):\n    id: int = generated()\n    all: list[str] = []\n", 10,
            "A.all is a list: write list = json_text(), or of objects one_to_many(..)",
        )

    def test_an_inverse_side_of_nothing(self) -> None:
        self.refused(
            "class A(Entity):\n    id: int = generated()\n"
            "    all: list['B'] = one_to_many('of')\n"
            "class B(Entity):\n    id: int = generated()\n", 10,
            "A.all is mapped by B.of, which is no many_to_one: write of: \"A\" = many_to_one() in B",
        )

    def test_a_name_that_is_not_known(self) -> None:
        module = self.module("class A(Entity):\n    id: int = generated()\n    at: Moment\n")
        with self.assertRaisesRegex(
            DeclarationError, r":10: A.at has the annotation Moment, which isn't known in .*: "
            "import it there"
        ):
            make(module, self.lock)

    def test_a_default_of_another_type(self) -> None:
        self.refused(
            "class A(Entity):\n    id: int = generated()\n\n    day: date = '2026-01-05'\n", 11,
            "A.day has the default '2026-01-05', which is no date",
        )

    def test_a_default_that_is_none(self) -> None:
        self.refused(
            "class A(Entity):\n    id: int = generated()\n    day: date = None\n", 10,
            "A.day has the default None, and is never None: write it as .. | None = None",
        )

    def test_several_types(self) -> None:
        self.refused(
            "class A(Entity):\n    id: int = generated()\n    it: int | str\n", 10,
            "A.it is of several types: an attribute has one, or one and None",
        )

    def test_no_annotation(self) -> None:
        self.refused(
            "class A(Entity):\n    id: int = generated()\n    name = field()\n", 10,
            "A.name has no annotation: write it as name: str = ..",
        )

    def test_a_generated_text(self) -> None:
        self.refused(
            "class A(Entity):\n    id: str = generated()\n", 9,
            "A.id is generated, and so a number: write it as int",
        )

    def test_an_attribute_that_stands_above_too(self) -> None:
        self.refused(
            "class A(Entity):\n    id: int = generated()\n    name: str\n"
            "class B(A):\n    name: str\n", 12,
            "B.name is in A already, which it extends: take it away here",
        )

    def test_money_of_a_date(self) -> None:
        self.refused(
            "class A(Entity):\n    id: int = generated()\n    fee: int = money(2)\n", 10,
            "A.fee is of int, and money() is for Decimal",
        )

    def test_a_type_of_no_form(self) -> None:
        self.refused(
            "class A(Entity):\n    id: int = generated()\n    it: complex\n", 10,
            "A.it is of complex, which has no stored form: write complex = typed(to, back)",
        )

    def test_a_link_to_what_is_none_of_the_entities(self) -> None:
        self.refused(
            "class A(Entity):\n    id: int = generated()\n    up: int = many_to_one()\n", 10,
            "A.up leads to int, which is none of the entities: annotate it by an entity's class, "
            "and hand that to karzhoul.open too",
        )

    def test_a_cascade_that_there_is_not(self) -> None:
        self.refused(
            "class A(Entity):\n    id: int = generated()\n"
            "    up: 'A' = many_to_one(cascade='every')\n", 10,
            "A.up cascades 'every': what it may be is all, persist, remove, refresh, detach or "
            "merge",
        )

    def test_all_that_is_wrong_is_told_together(self) -> None:
        module = self.module(
            "class A(Entity):\n    id: int = generated()\n    a: float\n    b: float\n"
        )
        with self.assertRaises(DeclarationError) as raised:
            make(module, self.lock)
        self.assertEqual(len(raised.exception.faults), 2)

    def test_a_class_alone_and_classes_of_no_entity(self) -> None:
        module = self.module("class A(Entity):\n    id: int = generated()\n")
        with self.assertRaisesRegex(TypeError, r"in a list, as \[A\]"):
            karzhoul.open(module.A)
        with self.assertRaisesRegex(TypeError, "extends karzhoul.Entity, and <class 'int'> doesn't"):
            karzhoul.open([int])  # type: ignore[list-item]
        with self.assertRaisesRegex(TypeError, "has no entity"):
            karzhoul.open([])
