"""The check of mappings, against the worked mappings, and against the program's verdict on these
and on mutated ones."""

from __future__ import annotations

import copy
import json
import random
import re
import subprocess
import tempfile
import unittest
from pathlib import Path
from typing import Any, Callable, Dict, Iterator, List, Optional, Sequence, Set, Tuple

from karzhoul.mapping.linter import Fault, Report, lint

from ..support import (
    HERE, PERSONS, PROGRAM, SERVES_REVISION_2, TOP, examples, long_text, needs_program,
    needs_revision_2,
)

MUTATIONS = 160
# What stands in mappings that the program doesn't serve yet.
UNSERVED = (
    () if SERVES_REVISION_2 else ('"revision":2', '"since":', '"was":', '"default":', '"dropped":')
)


def worked_mappings() -> Iterator[Tuple[str, str]]:
    """The mappings of the worked examples, by title: mappings, limits and functions."""
    for name in ("mappings", "functions", "limits", "revisions"):
        for example in examples(name):
            text = long_text(example.given) if example.kind == "limit" else "\n".join(example.given)
            if example.kind != "members" and not any(word in text for word in UNSERVED):
                yield f"{name}: {example.title}", text


def verdict(text: str) -> Optional[str]:
    found = lint(text.encode()).verdict
    return found.value if found else None


# A change of a mapping.
Change = Callable[[Any], object]


class Examples(unittest.TestCase):
    def test_mappings_and_limits(self) -> None:
        count = 0
        for name in ("mappings", "limits", "revisions"):
            for example in examples(name):
                if example.kind == "members":
                    continue
                text = (
                    long_text(example.given)
                    if example.kind == "limit"
                    else "\n".join(example.given)
                )
                found, (wanted,) = verdict(text), example.wanted
                with self.subTest(example.title):
                    # These examples are of mappings without a look at their functions.
                    self.assertEqual("read" if found in (None, "function") else found, wanted)
                count += 1
        self.assertGreater(count, 150)

    def test_functions(self) -> None:
        for example in examples("functions"):
            report = lint("\n".join(example.given).encode())
            (wanted,) = example.wanted
            with self.subTest(example.title):
                # These are read by themselves, of what need be no mapping.
                if wanted == "json":
                    self.assertEqual(report.verdict, Fault.JSON)
                elif report.verdict in (None, Fault.FUNCTION, Fault.MODEL):
                    told = {finding.fault for finding in report.findings}
                    self.assertEqual(Fault.FUNCTION in told, wanted == "function")

    def test_members(self) -> None:
        count = 0
        for example in [
            *examples("members"),
            *(each for each in examples("revisions") if each.kind == "members"),
        ]:
            frame, values = example.rows
            for line, wanted in zip(example.given, example.wanted):
                for value, word in zip(
                    values.split(" ") if "#" in line else [""], wanted.split(" ")
                ):
                    text = frame.replace("@", line).replace("#", value)
                    if (verdict(text) == "shape") != (word == "shape"):
                        self.fail(
                            f"{example.title}: {line} with {value}: {verdict(text)}, and not {word}"
                        )
                    count += 1
        self.assertGreater(count, 2000)


class Places(unittest.TestCase):
    def told(self, change: Change) -> List[Tuple[str, str]]:
        mapping = copy.deepcopy(PERSONS)
        change(mapping)
        return [
            (finding.fault.value if finding.fault else "", finding.path)
            for finding in lint(json.dumps(mapping).encode()).findings
        ]

    def test_each_rule_names_its_place(self) -> None:
        changes: List[Tuple[str, Change, str, str]] = [
            ("revision", lambda m: m.update(revision=3), "model", "$.revision"),
            (
                "a member too many",
                lambda m: m["entities"][0].update(colour=1),
                "shape",
                "$.entities[0].colour",
            ),
            ("a member too few", lambda m: m["entities"][0].pop("table"), "shape", "$.entities[0]"),
            (
                "a wrong type",
                lambda m: m["entities"][0].update(table="1"),
                "shape",
                "$.entities[0].table",
            ),
            (
                "a table twice",
                lambda m: m["entities"][1].update(table=1),
                "model",
                "$.entities[1].table",
            ),
            (
                "a column twice",
                lambda m: m["entities"][0]["attributes"][0].update(column=1),
                "model",
                "$.entities[0].attributes[0].column",
            ),
            (
                "a name twice",
                lambda m: m["entities"][2].update(name="Person"),
                "model",
                "$.entities[2].name",
            ),
            (
                "a member twice",
                lambda m: m["entities"][0]["attributes"][0].update(name="id"),
                "model",
                "$.entities[0].attributes[0].name",
            ),
            (
                "no name",
                lambda m: m["entities"][0].update(name="1st"),
                "model",
                "$.entities[0].name",
            ),
            (
                "no embedded id",
                lambda m: m["entities"][1].pop("embedded"),
                "model",
                "$.entities[1].key",
            ),
            (
                "a generated text",
                lambda m: m["entities"][0]["key"][0].update(type="text"),
                "model",
                "$.entities[0].generated",
            ),
            (
                "no function", lambda m: m.update(functions=[]), "function",
                "$.entities[1].attributes[2].converter",
            ),
            (
                "an unknown make",
                lambda m: m["functions"][0].update(make="x"),
                "function",
                "$.functions[0].make",
            ),
            (
                "a pair twice",
                lambda m: m["functions"][0]["pairs"].append(["glad", 3]),
                "function",
                "$.functions[0].pairs[2]",
            ),
            (
                "an unknown event",
                lambda m: m.update(listeners=[{"name": "l", "events": ["Load"]}]),
                "model",
                "$.listeners[0].events[0]",
            ),
        ]
        for title, change, fault, path in changes:
            with self.subTest(title):
                self.assertIn((fault, path), self.told(change))
        self.assertEqual(self.told(lambda m: None), [])

    def test_each_rule_of_revision_2_names_its_place(self) -> None:
        def new(**members: Any) -> Change:
            """A change that adds an attribute to persons, of which column 2 is taken."""
            return lambda m: (
                m.update(revision=2),
                m["entities"][0]["attributes"].append(
                    {"name": "hits", "type": "int", "column": 9, **members}
                ),
            )

        def dropped(*columns: Any) -> Change:
            return lambda m: (m.update(revision=2), m["entities"][0].update(dropped=list(columns)))

        def converted(default: Any) -> Change:
            return lambda m: (
                m.update(revision=2),
                m["entities"][1]["attributes"][2].update(since=2, default=default),
            )

        place, root = "$.entities[0].attributes[1]", "$.entities[0].dropped"
        rules: List[Tuple[Change, List[Tuple[str, str]]]] = [
            (new(), []),
            (new(since=2), []),
            (new(since=2, default=0, required=True), []),
            (new(was=3), []), (dropped(3, 4), []), (dropped(), []), (converted("glad"), []),
            (new(since=1), [("model", f"{place}.since")]),
            (new(since="2"), [("shape", f"{place}.since")]),
            (new(since=2, default=None), [("model", f"{place}.default")]),
            (new(since=2, default=1.5), [("shape", f"{place}.default")]),
            (new(since=2, default={"object": 1}), [("shape", f"{place}.default")]),
            (new(since=2, default="0"), [("model", f"{place}.default")]),
            (new(since=2, type="text", default="a" * 65_536), [("model", f"{place}.default")]),
            (new(default=0), [("model", f"{place}.default")]),
            (new(since=2, required=True), [("model", f"{place}.since")]),
            (new(since=2, was=3), [("model", f"{place}.was")]),
            (new(was=9), [("model", f"{place}.was")]),
            (new(was=2), [("model", f"{place}.was")]),
            (new(was=0), [("model", f"{place}.was")]),
            (dropped(2), [("model", f"{root}[0]")]),
            (dropped(3, 3), [("model", f"{root}[1]")]),
            (dropped(3, 1_000_001), [("model", f"{root}[1]")]),
            (dropped(3, "4"), [("shape", f"{root}[1]")]),
            (converted("cross"), [("function", "$.entities[1].attributes[2].default")]),
            (converted(1), [("model", "$.entities[1].attributes[2].default")]),
            (
                lambda m: (new(since=2, default=0)(m), m.update(revision=1)),
                [("model", f"{place}.since"), ("model", f"{place}.default")],
            ),
            (lambda m: (dropped()(m), m.update(revision=1)), [("model", root)]),
        ]
        for number, (change, wanted) in enumerate(rules):
            with self.subTest(number):
                self.assertEqual(self.told(change), wanted)

    def test_an_attribute_that_no_entity_has_is_warned_of(self) -> None:
        mapping = copy.deepcopy(PERSONS)
        mapping["functions"] += [
            {"name": "fill", "make": "set_text", "attribute": "nmae", "value": "x"},
            {"name": "twice", "make": "copy", "from": "label", "to": "colour"},
            {"name": "sure", "make": "require", "attribute": "name"},
        ]
        report = lint(json.dumps(mapping).encode())
        self.assertEqual((report.findings, report.verdict), ([], None))
        told = [(finding.path, finding.message) for finding in report.warnings]
        self.assertEqual(
            told,
            [
                (
                    "$.functions[1].attribute",
                    "no entity has an attribute 'nmae': did you mean 'name'?",
                ),
                ("$.functions[2].to", "no entity has an attribute 'colour'"),
            ],
        )
        self.assertTrue(str(report.warnings[0]).endswith("[warning]"))

    def test_lines_and_columns(self) -> None:
        report = lint('{"revision":1,\n "entities":[\n  {"name":"é","table":0}]}'.encode())
        self.assertEqual([(finding.line, finding.column) for finding in report.findings], [(3, 3)])
        (finding,) = lint(b'{"revision":1,\n  "entities":[}').findings
        self.assertEqual((finding.line, finding.column), (2, 15))
        self.assertEqual(str(finding), "2:15: $: a value is missing [Mapping(json)]")
        attribute = '{"name":"n","type":"int","column":1,"nam":2}'
        entity = '{"name":"A","table":1,"key":[{"name":"i","type":"int"}],"attributes":'
        entity += f"[{attribute}]}}"
        (finding,) = lint(f'{{"revision":1,"entities":[{entity}]}}'.encode()).findings
        self.assertIn("an attribute has no member 'nam'", str(finding))


# ---- against the program


def answer(text: bytes) -> Optional[str]:
    """What the program says of a mapping; None where it takes it."""
    with tempfile.TemporaryDirectory() as place:
        path = Path(place, "mapping.json")
        path.write_bytes(text)
        ran = subprocess.run(
            [str(PROGRAM), "--mapping", str(path)], input=b"", capture_output=True, timeout=60
        )
    if ran.returncode == 0:
        return None
    found = re.fullmatch(r"jpa: Mapping\((\w+)\)\n", ran.stderr.decode())
    if ran.returncode != 2 or not found:
        raise AssertionError(f"status {ran.returncode}: {ran.stderr!r}")
    return found[1]


def agrees(report: Report, said: Optional[str]) -> bool:
    """Whether the program says so of a mapping."""
    return said == (report.verdict.value if report.verdict else None)


RICH: Dict[str, Any] = json.loads((HERE / "data" / "relations.json").read_text(encoding="utf-8"))
"""Relations of each kind but one."""

REVISED: Dict[str, Any] = {
    "revision": 2,
    "entities": [
        {
            "name": "Person", "table": 1, "key": [{"name": "id", "type": "int"}],
            "version": {"name": "version", "column": 1},
            "dropped": [3, 4],
            "attributes": [
                {"name": "name", "type": "text", "column": 5, "was": 2},
                {
                    "name": "hits", "type": "int", "column": 6, "since": 2, "default": 0,
                    "required": True,
                },
                {
                    "name": "mood", "type": "text", "column": 7, "converter": "mood", "since": 2,
                    "default": "glad",
                },
            ],
        },
        {
            "name": "Clerk",
            "extends": "Person",
            "attributes": [
                {"name": "room", "type": "int", "column": 8, "was": 9},
                {
                    "name": "seal", "type": "bytes", "column": 10, "since": 2,
                    "default": {"hex": "0a"},
                },
                {"name": "note", "type": "text", "column": 11, "since": 2},
            ],
        },
    ],
    "functions": [{"name": "mood", "make": "table", "pairs": [["glad", 1], ["sad", 2]]}],
}
"""All that is said of a first revision."""

WORDS: List[Any] = [None, True, 0, 1, 2, -1, 1_000_000, 1_000_001, 1.5, [], {}, [{}]]
WORDS += ["", "x", "id", "Person", "int", "PERSIST", "PrePersist", "a" * 65]


class Mutator:
    """Makes a mapping out of another one by a few small changes."""

    def __init__(self, seed: int) -> None:
        self.random = random.Random(seed)

    def mutated(self, mapping: Any) -> Any:
        mapping = copy.deepcopy(mapping)
        for _ in range(self.random.choice((1, 1, 1, 2))):
            places = list(self.places(mapping))
            if places:
                self.change(*self.random.choice(places))
        return mapping

    def places(self, value: Any) -> Iterator[Tuple[Any, Any]]:
        """Each object and list with each of its names or places."""
        names = (
            list(value)
            if isinstance(value, dict)
            else range(len(value))
            if isinstance(value, list)
            else ()
        )
        for name in names:
            yield value, name
            yield from self.places(value[name])

    def change(self, holder: Any, name: Any) -> None:
        roll = self.random.random()
        if roll < 0.2:
            del holder[name]
        elif roll < 0.3 and isinstance(holder, list):
            holder.append(copy.deepcopy(holder[name]))
        elif roll < 0.4 and isinstance(holder, dict):
            holder[
                self.random.choice(
                    [
                        "name", "column", "required", "extends", "embedded", "events", "mappedBy",
                        "since", "was", "dropped", "default", "x",
                    ]
                )
            ] = holder[name]
        elif (
            roll < 0.6
            and isinstance(holder[name], (int, str))
            and not isinstance(holder[name], bool)
        ):
            holder[name] = holder[name] + (
                self.random.choice([1, -1]) if isinstance(holder[name], int) else "x"
            )
        else:
            holder[name] = copy.deepcopy(self.random.choice(WORDS))


@needs_program
class AgainstTheProgram(unittest.TestCase):
    def test_worked_mappings(self) -> None:
        count = 0
        for title, text in worked_mappings():
            with self.subTest(title):
                self.assertTrue(
                    agrees(lint(text.encode()), answer(text.encode())), lint(text.encode())
                )
            count += 1
        self.assertGreater(count, 120)

    def test_files_of_the_repository(self) -> None:
        for path in [
            *TOP.glob("tests/mappings/*.json"), *TOP.glob("tests/runs/*/mapping.json"),
            *HERE.glob("data/*.json"),
        ]:
            if not SERVES_REVISION_2 and (path.parent / "stage").exists():
                continue
            data = path.read_bytes()
            with self.subTest(str(path)):
                self.assertTrue(agrees(lint(data), answer(data)), lint(data))

    @needs_revision_2
    def test_mutated_mappings_of_revision_2(self) -> None:
        self.mutated((REVISED,), {None, "shape", "model", "function"})

    def test_mutated_mappings(self) -> None:
        wide = json.loads((TOP / "tests" / "mappings" / "wide.json").read_text(encoding="utf-8"))
        self.mutated((PERSONS, wide, RICH), {None, "shape", "model", "function"})

    def mutated(self, mappings: Sequence[Any], wanted: Set[Optional[str]]) -> None:
        found = set()
        for seed in range(MUTATIONS):
            mapping = Mutator(seed).mutated(mappings[seed % len(mappings)])
            text = json.dumps(mapping).encode()
            if mapping.get("revision") == 2 and not SERVES_REVISION_2:
                continue
            said = answer(text)
            found.add(said)
            if not agrees(lint(text), said):
                self.fail(
                    f"seed {seed}: the program says {said} of {text.decode()}, and the check "
                    f"{lint(text)}"
                )
        self.assertEqual(found, wanted)

    def test_mutated_texts(self) -> None:
        text = json.dumps(PERSONS, indent=1)
        refused = set()
        for seed in range(MUTATIONS // 4):
            chosen = random.Random(seed)
            at = chosen.randrange(len(text))
            by = chosen.choice(
                [
                    "", '"', "{", "}", "[", "]", ",", ":", "0", "-", "\\", "\t", "\x01", "1e400",
                    "\\ud800", "\u00e9", "true",
                ]
            )
            mutated = (text[:at] + by + text[at + chosen.randrange(2) :]).encode()
            said = answer(mutated)
            refused.add(said)
            if not agrees(lint(mutated), said):
                self.fail(
                    f"seed {seed}: the program says {said} of {mutated.decode()}, and the check "
                    f"{lint(mutated)}"
                )
        self.assertIn("json", refused)

    def test_texts_that_readers_differ_on(self) -> None:
        good = json.dumps(PERSONS)
        start = (
            '{"revision":1,"entities":[{"name":"E","table":1,"key":[{"name":"id","type":"int"}]}]'
        )
        texts = [
            b"",
            b"\xef\xbb\xbf" + good.encode(),
            good.encode() + b" \n\r\t ",
            good.encode() + b"x",
            good.replace("Ada", "x").encode("utf-16"),
            start.encode() + b',"functions":NaN}',
            start.encode() + b',"functions":[]}',
            start.encode() + b',"functions":' + b"[" * 126 + b"]" * 126 + b"}",
            start.encode() + b',"functions":' + b"[" * 127 + b"]" * 127 + b"}",
            (start + ',"functions":[],"functions":1}').encode(),
            (start + ',"functions":1,"functions":[]}').encode(),
            (start + ',"revision":1.0}').encode(),
            (start + ',"revision":-0}').encode(),
            (start + ',"revision":9223372036854775808}').encode(),
            (start + ',"functions":' + "9" * 400 + "}").encode(),
            (start + ',"functions":0e99999}').encode(),
            (start + ',"functions":[{"name":"\\ud83d\\ude00","make":"note"}]}').encode(),
            (start + ',"functions":[{"name":"\\ud83d","make":"note"}]}').encode(),
            (start + ',"functions":[{"name":"\\udc00\\ud800","make":"note"}]}').encode(),
            (start + ',"functions":[{"name":"\\ud83dx","make":"note"}]}').encode(),
            (start + ',"functions":[{"name":"\\ud83d\\u0041","make":"note"}]}').encode(),
            (start + ',"functions":[{"name":"\x7f","make":"note"}]}').encode(),
            (start + ',"functions":[{"name":"\x1f","make":"note"}]}').encode(),
            start.encode() + b',"functions":[{"name":"\xff","make":"note"}]}',
            start.encode() + b',"functions":[{"name":"\xed\xa0\x80","make":"note"}]}',
        ]
        for text in texts:
            with self.subTest(text[:200]):
                self.assertTrue(agrees(lint(text), answer(text)), (answer(text), lint(text)))


if __name__ == "__main__":
    unittest.main()
