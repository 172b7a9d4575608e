"""Typed classes: the module that is written, and its classes in the place of their entities."""

from __future__ import annotations

import contextlib
import copy
import importlib.util
import io
import json
import tempfile
import types
import unittest
from pathlib import Path
from typing import Any, Tuple

from karzhoul.cli.command import main
from karzhoul.mapping.typed import module_of

from .support import PERSONS, ProgramTest, needs_program

ODD = copy.deepcopy(PERSONS)
ODD["entities"] += [
    {
        "name": "View",
        "extends": "Person",
        "attributes": [
            {"name": name, "type": "bytes", "column": 10 + place}
            for place, name in enumerate(("bytes", "class", "View", "self"))
        ],
        "relations": [{"name": "Place", "kind": "manyToOne", "target": "Place", "column": 20}],
    },
    {"name": "None", "table": 9, "key": [{"name": "int", "type": "int"}]},
]
"""Names that Python has too, and members of the names of entities."""


def written(mapping: Any) -> Tuple[types.ModuleType, str]:
    """The module of a mapping, as it is imported, and its text."""
    with tempfile.TemporaryDirectory() as place:
        path = Path(place, "typed.py")
        path.write_text(module_of(mapping, "mapping.json"), encoding="utf-8")
        spec = importlib.util.spec_from_file_location("typed", path)
        assert spec is not None and spec.loader is not None
        module = importlib.util.module_from_spec(spec)
        spec.loader.exec_module(module)
        return module, path.read_text(encoding="utf-8")


class Written(unittest.TestCase):
    def test_one_class_for_each_entity(self) -> None:
        module, text = written(PERSONS)
        for name in ("Person", "Place", "Order"):
            self.assertTrue(isinstance(getattr(module, name), type), name)
        for line in (
            "    name: Optional[str]\n", "    label: str\n", "    scan: Optional[bytes]\n",
            "    shelf: str\n",
        ):
            self.assertIn(line, text)
        self.assertIn(
            "    at: View[Place_at, Union[Place_at, Tuple[int, str, bytes], Mapping[str, Any]]]\n",
            text,
        )

    def test_subclasses_are_subclasses_wherever_they_stand(self) -> None:
        mapping = copy.deepcopy(PERSONS)
        mapping["entities"].insert(0, {"name": "Clerk", "extends": "Manager"})
        mapping["entities"].insert(0, {"name": "Manager", "extends": "Person"})
        module, _ = written(mapping)
        self.assertEqual(
            [kind.__name__ for kind in module.Clerk.__mro__[:3]], ["Clerk", "Manager", "Person"]
        )

    def test_odd_names(self) -> None:
        module, text = written(ODD)
        self.assertIn("    bytes: Optional[bytes_]\n    # class: Optional[bytes_]\n", text)
        self.assertIn("    Place: Optional[Place_entity]\n", text)
        self.assertIs(module.Place_entity, module.Place)
        self.assertNotIn("class None", text)

    def test_a_class_alone_makes_no_object(self) -> None:
        module, _ = written(PERSONS)
        with self.assertRaisesRegex(TypeError, r"app\.entity\(Person\)"):
            module.Person(name="Ada")


class Command(unittest.TestCase):
    def setUp(self) -> None:
        place = tempfile.TemporaryDirectory()
        self.addCleanup(place.cleanup)
        self.place = Path(place.name)
        self.mapping = self.place / "mapping.json"

    def ran(self, *words: str, mapping: Any = PERSONS) -> Tuple[int, str, str]:
        self.mapping.write_text(json.dumps(mapping), encoding="utf-8")
        out, err = io.StringIO(), io.StringIO()
        with contextlib.redirect_stdout(out), contextlib.redirect_stderr(err):
            status = main(["stubs", str(self.mapping), *words])
        return status, out.getvalue(), err.getvalue()

    def test_to_standard_output_or_to_a_file(self) -> None:
        wanted, file = module_of(PERSONS, "mapping.json"), self.place / "entities.py"
        self.assertEqual(self.ran(), (0, wanted, ""))
        self.assertEqual(self.ran("-o", str(file)), (0, "", ""))
        self.assertEqual(file.read_text(encoding="utf-8"), wanted)

    def test_a_wrong_mapping_writes_nothing(self) -> None:
        file = self.place / "entities.py"
        status, out, err = self.ran("-o", str(file), mapping={**PERSONS, "revision": 3})
        self.assertEqual((status, out, file.exists()), (1, "", False))
        self.assertIn("$.revision: the revision is 1 or 2", err)


@needs_program
class Used(ProgramTest):
    def test_classes_stand_for_their_entities(self) -> None:
        typed, _ = written(PERSONS)
        self.assertIs(self.app.entity(typed.Person), self.Person)
        person = self.app.new(typed.Person, name="Ada")
        with self.em.transaction():
            self.em.persist(person)
        self.assertIs(self.em.find(typed.Person, 1), person)
        self.assertIs(self.em.get_reference(typed.Person, 1), person)
        self.assertEqual(self.em.query("SELECT p FROM Person p", typed.Person), [person])
        self.assertEqual(
            [type(each) for each in self.app.new_many(typed.Order, [{"number": 1}])], [self.Order]
        )

    def test_objects_are_instances(self) -> None:
        typed, _ = written(PERSONS)
        self.assertIsInstance(self.Person(), typed.Person)
        self.assertNotIsInstance(self.Order(), typed.Person)
        self.assertNotIsInstance("Person", typed.Person)


if __name__ == "__main__":
    unittest.main()
