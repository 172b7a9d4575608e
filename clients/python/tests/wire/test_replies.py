"""What is told of replies without reading each is what reading them tells."""

from __future__ import annotations

import json
import random
import unittest
from typing import Any, Dict, List

from karzhoul.wire.replies import is_reply, loaded_in, rows_of_values_in

TEXTS = [
    "", "Ada", 'a"b', "a\\", '\\"', "é\n", ']},{"entity":"Item","values":[', '"values":[', "]}]}",
    '{"hex":"00"}', '{"hex"',
]
RELATIONS: List[Any] = [
    None, {"object": 7}, {"key": [1, "a"]}, {"unread": True}, [], [{"object": 1}],
]


def spelled(said: object) -> bytes:
    """As the program spells it."""
    return json.dumps(said, separators=(",", ":"), ensure_ascii=False).encode()


def shown(r: random.Random, alike: bool) -> Dict[str, Any]:
    """What a reply tells of an object."""
    values: List[Any] = [
        r.choice([None, r.randrange(-(2**63), 2**63), r.choice(TEXTS)]) for _ in range(3)
    ]
    if not alike and r.random() < 0.02:
        values[0] = {"hex": "00ff"}
    relations = [{"unread": True}] if alike else r.choices(RELATIONS, k=2)
    entity = "Item" if alike or r.random() < 0.98 else "Other"
    return {"entity": entity, "relations": relations, "values": values}


class Values(unittest.TestCase):
    def test_those_of_rows(self) -> None:
        r, found = random.Random(1), 0
        for _ in range(3_000):
            is_alike = r.random() < 0.4
            told = [[shown(r, is_alike) for _ in range(r.randint(1, 6))] for _ in range(2)]
            replies = [spelled({"events": [], "ok": each}) for each in told[: r.randint(1, 2)]]
            rows = [row for each in told[: len(replies)] for row in each]
            has_bytes = any(isinstance(it, dict) for row in rows for it in row["values"])
            is_one = len({row["entity"] for row in rows}) == 1
            wanted = None
            if is_one and not has_bytes:
                wanted = rows[0]["entity"], [row["values"] for row in rows]
                found += 1
            self.assertEqual(rows_of_values_in(replies, len(rows)), wanted, replies)
            self.assertIsNone(rows_of_values_in(replies, len(rows) + 1))
        self.assertGreater(found, 1_000)

    def test_none_of_what_is_no_such_reply(self) -> None:
        for said in (
            {"events": [], "ok": []}, {"events": [], "ok": None},
            {"error": {"NoSuchObject": None}, "events": []},
            {"events": [["PostLoad", 1]], "ok": [shown(random.Random(1), True)]},
        ):
            self.assertIsNone(rows_of_values_in([spelled(said)], 1))


class Loaded(unittest.TestCase):
    def test_rows_that_were_loaded(self) -> None:
        r, found = random.Random(2), 0
        for _ in range(3_000):
            first, count = r.choice([1, 9, 99_998]), r.randint(1, 5)
            loaded = list(range(first, first + count))
            rows = loaded[:]
            change = r.randrange(6)
            if change == 0:
                r.shuffle(rows)
            elif change == 1:
                rows.append(r.choice(rows))
            elif change == 2:
                loaded = [number + (number > first) for number in loaded]
                rows = loaded[:]
            elif change == 3:
                rows.pop()
            reply = spelled({
                "events": [["PostLoad", number] for number in loaded],
                "ok": [{"object": number} for number in rows],
            })
            is_whole = sorted(rows) == loaded == list(range(first, first + count))
            listed = ",".join(map(str, rows)).encode()
            self.assertEqual(loaded_in(reply), (rows, listed) if is_whole else None, reply)
            found += is_whole
        self.assertGreater(found, 1_000)

    def test_none_of_what_is_no_such_reply(self) -> None:
        for said in (
            {"events": [], "ok": [{"object": 1}]}, {"events": [["PostLoad", 1]], "ok": None},
            {"events": [["PostLoad", 1]], "ok": [[{"object": 1}]]},
            {"events": [["PostLoad", 1]], "ok": [{"object": 1}, {"hex": "00"}]},
            {"events": [["PostLoad", 1], ["PrePersist", 2]], "ok": [{"object": 1}]},
        ):
            self.assertIsNone(loaded_in(spelled(said)), said)


class Shape(unittest.TestCase):
    def test_what_is_a_reply(self) -> None:
        for said in (
            {"events": [], "ok": None}, {"events": [], "error": {"name": "Limit"}},
            {"events": [["PreUpdate", 3]], "ok": [[1, "a"], {"hex": "00fF"}]},
            {"events": [["PostLoad", 1, "own"]], "ok": {}},
        ):
            self.assertTrue(is_reply(spelled(said)), said)

    def test_what_is_none(self) -> None:
        for said in (
            7, [], {"ok": None}, {"events": []}, {"events": {}, "ok": 1}, {"events": [], "error": {}},
            {"events": [["PostFoo", 1]], "ok": None}, {"events": [["PostLoad"]], "ok": None},
            {"events": [["PostLoad", "1"]], "ok": None}, {"events": [], "ok": [{"object": "1"}]},
            {"events": [], "ok": {"hex": "0"}},
        ):
            self.assertFalse(is_reply(spelled(said)), said)
        self.assertFalse(is_reply(b'{"events":[],"ok":'))
