"""`karzhoul new` and `karzhoul schema`: a first mapping and program, and the schema of mappings."""

from __future__ import annotations

import contextlib
import importlib.util
import io
import json
import os
import re
import shlex
import subprocess
import sys
import unittest
from typing import Any, Iterator, Tuple

from karzhoul.cli import beginnings
from karzhoul.cli.command import main
from karzhoul.mapping.linter import Fault, lint
from karzhoul.mapping.schema import mapping_schema

from ..support import PROGRAM, TOP, FolderTest, needs_program, package_elsewhere
from ..mapping.test_linter import worked_mappings

TYPES = {"object": dict, "array": list, "string": str, "integer": int, "boolean": bool}
# What JSON says twice the schema sees once, as the last that stands there.
TWICE = ("a member that stands twice",)


def printed(*words: str) -> Tuple[int, str, str]:
    out, err = io.StringIO(), io.StringIO()
    with contextlib.redirect_stdout(out), contextlib.redirect_stderr(err):
        status = main(list(words))
    return status, out.getvalue(), err.getvalue()


def takes(schema: Any, value: Any, top: Any) -> bool:
    """Whether a schema takes a value, as far as the words of `mapping_schema` go."""
    if "$ref" in schema:
        return takes(top["definitions"][schema["$ref"].rpartition("/")[2]], value, top)
    kind = schema.get("type")
    is_number = isinstance(value, float) and value.is_integer() and kind == "integer"
    if kind and not is_number and type(value) is not TYPES[kind]:
        return False
    return all(
        (
            *_of_plain(schema, value),
            *_of_list(schema, value, top),
            *_of_object(schema, value, top),
            *_of_choices(schema, value, top),
        )
    )


def _of_plain(schema: Any, value: Any) -> Iterator[bool]:
    if "enum" in schema:
        yield any(value == each and type(value) is type(each) for each in schema["enum"])
    if isinstance(value, str) and "pattern" in schema:
        yield bool(re.search(schema["pattern"].replace("$", r"\Z"), value))
    if isinstance(value, (int, float)):
        yield schema.get("minimum", value) <= value <= schema.get("maximum", value)


def _of_list(schema: Any, value: Any, top: Any) -> Iterator[bool]:
    if isinstance(value, list):
        yield schema.get("minItems", 0) <= len(value) <= schema.get("maxItems", len(value))
        yield not schema.get("uniqueItems") or len(set(map(str, value))) == len(value)
        yield all(takes(schema.get("items", {}), each, top) for each in value)


def _of_object(schema: Any, value: Any, top: Any) -> Iterator[bool]:
    if isinstance(value, dict):
        known = schema.get("properties", {})
        yield set(schema.get("required", ())) <= set(value)
        yield schema.get("additionalProperties", True) or set(value) <= set(known)
        yield all(takes(known[name], value[name], top) for name in value if name in known)
        for name, needed in schema.get("dependencies", {}).items():
            yield name not in value or set(needed) <= set(value)


def _of_choices(schema: Any, value: Any, top: Any) -> Iterator[bool]:
    yield all(takes(each, value, top) for each in schema.get("allOf", ()))
    if "anyOf" in schema:
        yield any(takes(each, value, top) for each in schema["anyOf"])
    if "oneOf" in schema:
        yield sum(takes(each, value, top) for each in schema["oneOf"]) == 1
    if "if" in schema:
        way = "then" if takes(schema["if"], value, top) else "else"
        yield takes(schema.get(way, {}), value, top)


class Schema(unittest.TestCase):
    def test_it_takes_good_mappings_and_refuses_other_forms(self) -> None:
        schema = mapping_schema()
        good = wrong = 0
        for title, text in worked_mappings():
            report = lint(text.encode())
            told = {finding.fault for finding in report.findings}
            if Fault.JSON in told or title.partition(": ")[2] in TWICE:
                continue
            with self.subTest(title):
                is_taken = takes(schema, json.loads(text), schema)
                if not told:
                    self.assertTrue(is_taken)
                    good += 1
                elif Fault.SHAPE in told:
                    self.assertFalse(is_taken)
                    wrong += 1
        self.assertGreater(good, 30)
        self.assertGreater(wrong, 20)

    def test_it_takes_the_mappings_of_the_repository(self) -> None:
        schema = mapping_schema()
        paths = TOP.glob("tests/**/*.json")
        mappings = [path for path in paths if lint(path.read_bytes()).verdict is None]
        self.assertGreater(len(mappings), 5)
        for path in mappings:
            self.assertTrue(takes(schema, json.loads(path.read_bytes()), schema), path)

    @unittest.skipUnless(importlib.util.find_spec("jsonschema"), "there is no package jsonschema")
    def test_it_is_a_schema_of_draft_7_and_takes_what_it_takes_here(self) -> None:
        jsonschema = importlib.import_module("jsonschema")

        schema = mapping_schema()
        jsonschema.Draft7Validator.check_schema(schema)
        validator = jsonschema.Draft7Validator(schema)
        for title, text in worked_mappings():
            try:
                mapping = json.loads(text)
            except ValueError:
                continue
            with self.subTest(title):
                self.assertEqual(validator.is_valid(mapping), takes(schema, mapping, schema))

    def test_each_member_is_told_of(self) -> None:
        for form in mapping_schema()["definitions"].values():
            for name, member in form.get("properties", {}).items():
                if "make" not in form["properties"] and name != "hex":
                    self.assertTrue(member["description"].endswith("."), name)

    def test_the_command_prints_it(self) -> None:
        status, out, _ = printed("schema")
        self.assertEqual((status, json.loads(out)), (0, mapping_schema()))


class New(FolderTest):
    def setUp(self) -> None:
        super().setUp()
        self.folder = self.place / "first"

    def test_the_files(self) -> None:
        status, out, _ = printed("new", str(self.folder))
        self.assertEqual((status, str(self.folder) in out), (0, True))
        paths = [path for path in self.folder.rglob("*") if path.is_file()]
        names = sorted(str(path.relative_to(self.folder)) for path in paths)
        self.assertEqual(names, sorted(beginnings.files()))
        self.assertIsNone(lint((self.folder / "mapping.json").read_bytes()).verdict)
        page = (self.folder / "README.md").read_text(encoding="utf-8")
        commented = page.partition("```jsonc\n")[2].partition("```")[0]
        plain = re.sub(r"^ *//.*\n", "", commented, flags=re.MULTILINE)
        self.assertEqual(json.loads(plain), beginnings.first_mapping())
        schema = json.loads((self.folder / "mapping.schema.json").read_text(encoding="utf-8"))
        self.assertTrue(takes(schema, json.loads(plain), schema))

    def test_a_folder_that_has_something(self) -> None:
        self.folder.mkdir()
        (self.folder / "mine").touch()
        status, _, err = printed("new", str(self.folder))
        self.assertEqual((status, "there is something in" in err), (4, True))
        self.assertEqual([path.name for path in self.folder.iterdir()], ["mine"])

    @needs_program
    def test_what_the_page_says_to_try(self) -> None:
        package = package_elsewhere(str(self.place))
        own = {"KARZHOUL_PROGRAM": str(PROGRAM), "PYTHONPATH": str(package)}
        env = {**os.environ, **own, "PYTHONDONTWRITEBYTECODE": "1"}
        words = [sys.executable, "-m", "karzhoul", "new", str(self.folder)]
        subprocess.run(words, cwd=self.place, env=env, check=True, capture_output=True)
        page = (self.folder / "README.md").read_text(encoding="utf-8")
        tried = page.partition("##")[2].partition("## The")[0]
        lines = re.findall("^    (?!#)(.*)$", tried, re.MULTILINE)
        self.assertEqual(len(lines), 8)
        told = []
        for line in lines:
            given = [sys.executable if word == "python3" else word for word in shlex.split(line)]
            ran = subprocess.run(given, cwd=self.folder, env=env, input=b"", capture_output=True)
            self.assertEqual((ran.returncode, ran.stderr), (0, b""), line)
            told.append(ran.stdout.decode())
        wanted = ["stored: <Book id=1> with [<Loan number=1>]", "version 1 has copies: 1"]
        told_of = "the new Book 2: title is null, and is required"
        wanted += ["Emma was lent 1 times", f"refused: Rollback(Persistence(null)) - {told_of}"]
        self.assertEqual(told[0].splitlines(), wanted)
        self.assertEqual(told[1], "mapping.json: good\n")
        self.assertIn("Book: 1 object (all that are stored)", told[2])
        self.assertEqual(told[-1], "4 rows are stored\n")


if __name__ == "__main__":
    unittest.main()
