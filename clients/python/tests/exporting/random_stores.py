"""Mappings and stores at random, and what their tables are to have."""

from __future__ import annotations

import contextlib
import json
import random
import sqlite3
import unittest
from pathlib import Path
from typing import Any, Callable, Dict, List, Mapping, Optional, Sequence, Tuple

Ran = Callable[..., Tuple[int, str, str]]
Key = Tuple[Any, ...]
NAMES = ["user", "table", "Column", "grantTo", "limit", "References", "value", "x", "lineOf", "n2"]
TYPES = ("int", "text", "bytes")
TEXTS = ["", "a", "é", "\0", "it's", "\\N", "a\tb\r\n", '"', "\U0001f600", "null", "1e5", "x" * 900]
FUNCTIONS = [
    {"name": "turned", "make": "flip"}, {"name": "digits", "make": "hextext"},
    {"name": "mood", "make": "table", "pairs": [["a", 1], ["é", 2]]},
]
CONVERTED = {"int": "turned", "bytes": "digits", "text": "mood"}


def value(r: random.Random, kind: str) -> Any:
    """A value of a type."""
    if kind == "int":
        return r.choice([0, 1, -1, 2**63 - 1, -(2**63), r.randrange(-999, 999)])
    if kind == "text":
        return r.choice(TEXTS)
    return bytes(r.randrange(256) for _ in range(r.randrange(5)))


def said(it: Any) -> Any:
    """A value as JSON."""
    return {"hex": it.hex()} if isinstance(it, bytes) else it


class Store:
    """A mapping, and objects of it, in a folder of its own."""

    def __init__(self, r: random.Random, folder: Path, ran: Ran) -> None:
        self._r, self._ran = r, ran
        folder.mkdir()
        self.mapping, self.db = folder / "mapping.json", folder / "app.db"
        self.out, self.back = folder / "out.db", folder / "back.db"
        self._lines = folder / "rows.jsonl"
        self._tables, self._single = 0, 0
        self.entities: List[Dict[str, Any]] = []
        self._columns: Dict[str, int] = {}
        for number in range(r.randrange(1, 5)):
            self._root(number)
        for entity in self.entities:
            self._relate(entity)
        self.keys: Dict[str, List[Key]] = {}
        self.objects: List[Dict[str, Any]] = []
        self.mapping.write_text(json.dumps({
            "revision": 1, "entities": [
                {name: it for name, it in each.items() if name != "top"} for each in self.entities
            ], "functions": FUNCTIONS,
        }))

    # ---- mappings

    def _number(self) -> int:
        self._tables += 1
        return self._tables

    def _column(self, top: str) -> int:
        self._columns[top] = self._columns.get(top, 0) + 1
        return self._columns[top]

    def _root(self, number: int) -> None:
        r, name = self._r, f"{self._r.choice(('Order', 'Group', 'HTTPLog'))}{number}"
        entity: Dict[str, Any] = {"name": name, "table": self._number(), "top": name}
        if r.random() < 0.4:
            entity.update(key=[{"name": "id", "type": "int"}], generated=True)
        elif r.random() < 0.5:
            parts = r.sample(["row", "shelfNo", "tag"], r.randrange(2, 4))
            entity.update(embedded="at",
                          key=[{"name": it, "type": r.choice(TYPES)} for it in parts])
        else:
            entity["key"] = [{"name": "code", "type": r.choice(TYPES)}]
        if r.random() < 0.5:
            entity["version"] = {"name": "version", "column": self._column(name)}
        self.entities.append(entity)
        names = r.sample(NAMES, r.randrange(1, 6))
        entity["attributes"] = [self._attribute(name, it) for it in names]
        left = [it for it in NAMES if it not in names]
        for count in range(r.choice((0, 0, 1, 2))):
            own = r.sample(left, r.randrange(1, 3))
            self.entities.append({
                "name": f"Sub{number}{'AB'[count]}", "extends": name, "top": name,
                "discriminator": f"s{count}",
                "attributes": [self._attribute(name, it) for it in own],
            })

    def _attribute(self, top: str, name: str) -> Dict[str, Any]:
        kind = self._r.choice(TYPES)
        made = {"name": name, "type": kind, "column": self._column(top)}
        if self._r.random() < 0.3:
            made["required"] = True
        if self._r.random() < 0.3:
            made["converter"] = CONVERTED[kind]
        return made

    def _relate(self, entity: Dict[str, Any]) -> None:
        r = self._r
        entity["relations"] = []
        for number in range(r.randrange(4)):
            kind = r.choice(("manyToOne", "oneToOne", "manyToMany"))
            target = r.choice(self.entities)["name"]
            self._single += 1
            made = {"name": f"led{self._single}", "kind": kind, "target": target}
            if kind == "manyToMany":
                made["joinTable"] = self._number()
            else:
                made["column"] = self._column(entity["top"])
            entity["relations"].append(made)

    def _chain(self, name: str) -> List[Dict[str, Any]]:
        entity = self._named(name)
        return [*(self._chain(entity["extends"]) if "extends" in entity else []), entity]

    def _named(self, name: str) -> Dict[str, Any]:
        return next(it for it in self.entities if it["name"] == name)

    def _of(self, name: str, sort: str) -> List[Dict[str, Any]]:
        return [it for each in self._chain(name) for it in each.get(sort, ())]

    # ---- objects

    def load(self, r: Optional[random.Random] = None) -> None:
        """Makes objects, others of the same mapping where these random numbers are given, and
        loads them."""
        self._r = r or self._r
        tops = [it for it in self.entities if "extends" not in it]
        for top in tops:
            self._make_keys(top)
        for name, keys in self.keys.items():
            self.objects += [self._object(name, key) for key in keys]
        self._link()
        generated = [it for it in self.objects if self._named(it["entity"])["top"] == ""]
        rows = [{**it, **{
            "key": [said(part) for part in it["key"]],
            "values": {name: said(each) for name, each in it["values"].items()},
            "links": {name: key and [said(part) for part in key]
                      for name, key in it["links"].items()},
            "pairs": {name: [[said(part) for part in key] for key in keys]
                      for name, keys in it["pairs"].items()},
        }} for it in sorted(self.objects, key=self._order) + generated]
        nexts = [{"entity": top["name"], "next": self._highest(top["name"]) + 3}
                 for top in tops if top.get("generated")]
        lines = [{"dump": 1}, *rows, *nexts, {"rows": len(rows)}]
        self._lines.write_text("".join(json.dumps(it) + "\n" for it in lines))
        self._done("load", self.db, self._lines)

    def _order(self, it: Mapping[str, Any]) -> Tuple[str, int]:
        top = self._named(self._named(it["entity"])["top"])
        return top["name"], it["key"][0] if top.get("generated") else 0

    def _highest(self, top: str) -> int:
        return max((it["key"][0] for it in self.objects
                    if self._named(it["entity"])["top"] == top), default=0)

    def _make_keys(self, top: Dict[str, Any]) -> None:
        r = self._r
        wanted = r.randrange(9)
        if top.get("generated"):
            found: Sequence[Key] = [(it,) for it in sorted(r.sample(range(1, 30), wanted))]
        else:
            found = list(dict.fromkeys(
                tuple(value(r, part["type"]) for part in top["key"]) for _ in range(wanted)
            ))
        classes = [it["name"] for it in self.entities if it["top"] == top["name"]]
        for key in found:
            self.keys.setdefault(r.choice(classes), []).append(key)

    def _object(self, name: str, key: Key) -> Dict[str, Any]:
        r = self._r
        values = {}
        for it in self._of(name, "attributes"):
            some = r.choice(["a", "é"]) if it.get("converter") == "mood" else value(r, it["type"])
            values[it["name"]] = some if it.get("required") or r.random() < 0.7 else None
        made: Dict[str, Any] = {"entity": name, "key": key, "values": values, "links": {},
                                "pairs": {}}
        if "version" in self._chain(name)[0]:
            made["version"] = r.choice([0, 1, 40])
        return made

    def _targets(self, name: str) -> List[Key]:
        """The keys of an entity's objects, with those of its subclasses."""
        names = [it["name"] for it in self.entities
                 if name in [each["name"] for each in self._chain(it["name"])]]
        return [key for each in names for key in self.keys.get(each, ())]

    def _link(self) -> None:
        r = self._r
        taken: Dict[str, List[Key]] = {}
        for it in self.objects:
            for relation in self._of(it["entity"], "relations"):
                found, name = self._targets(relation["target"]), relation["name"]
                if relation["kind"] == "manyToMany":
                    it["pairs"][name] = r.sample(found, r.randrange(min(len(found), 4) + 1))
                    continue
                if relation["kind"] == "oneToOne":
                    found = [key for key in found if key not in taken.get(name, [])]
                key: Optional[Key] = r.choice(found) if found and r.random() < 0.7 else None
                it["links"][name] = key
                if key is not None:
                    taken.setdefault(name, []).append(key)

    # ---- commands

    def _done(self, *words: Any) -> None:
        status, _, err = self._ran(*words, "--mapping", self.mapping)
        assert (status, err) == (0, ""), f"{words}: {status} {err}"

    def export(self, *words: str) -> None:
        """Writes the tables."""
        self.out.unlink(missing_ok=True)
        self._done("export", self.db, "--sqlite", self.out, *words)

    def bring_back(self, *words: str) -> None:
        """Makes a store of the tables."""
        self.back.unlink(missing_ok=True)
        self._done("import", "--sqlite", self.out, self.back, *words)

    # ---- tables

    def compare_rows(self, test: unittest.TestCase) -> None:
        """Holds the tables, whose names are the mapping's, against the objects."""
        with contextlib.closing(sqlite3.connect(self.out)) as store:
            store.row_factory = sqlite3.Row
            for top in (it["name"] for it in self.entities if "extends" not in it):
                mine = [it for it in self.objects if self._named(it["entity"])["top"] == top]
                rows = [dict(row) for row in store.execute(f'SELECT * FROM "{top}"')]
                found = {tuple(row[name] for name in self._key_names(top)): row for row in rows}
                test.assertEqual(len(rows), len(mine))
                for it in mine:
                    row, wanted = found[it["key"]], self._row(it)
                    test.assertEqual({name: row.pop(name) for name in wanted}, wanted)
                    test.assertEqual([each for each in row.values() if each is not None], [])
            for entity in self.entities:
                for relation in entity["relations"]:
                    if relation["kind"] == "manyToMany":
                        self._compare_list(test, store, entity["name"], relation["name"])

    def _key_names(self, entity: str) -> List[str]:
        root = self._chain(entity)[0]
        front = f"{root['embedded']}_" if "embedded" in root else ""
        return [front + part["name"] for part in root["key"]]

    def _row(self, it: Mapping[str, Any]) -> Dict[str, Any]:
        """The row that an object is to be."""
        top = self._chain(it["entity"])[0]["name"]
        wanted = dict(zip(self._key_names(top), it["key"]))
        own = [each for each in self.entities if each["top"] == top]
        if len(own) > 1:
            wanted["DTYPE"] = self._named(it["entity"]).get("discriminator", it["entity"])
        if "version" in it:
            wanted["version"] = it["version"]
        names = [each["name"] for entity in own for each in entity["attributes"]]
        for entity in self._chain(it["entity"]):
            for each in entity["attributes"]:
                is_twice = names.count(each["name"]) > 1
                title = f"{entity['name']}_{each['name']}" if is_twice else each["name"]
                wanted[title] = it["values"][each["name"]]
            for each in entity["relations"]:
                if each["kind"] != "manyToMany":
                    parts = self._key_names(each["target"])
                    key = it["links"][each["name"]] or (None,) * len(parts)
                    wanted.update({f"{each['name']}_{part}": led for part, led in zip(parts, key)})
        return wanted

    def _compare_list(
        self, test: unittest.TestCase, store: sqlite3.Connection, entity: str, name: str
    ) -> None:
        found = {tuple(row) for row in store.execute(f'SELECT * FROM "{entity}_{name}"')}
        wanted = {(*it["key"], *key) for it in self.objects for key in it["pairs"].get(name, ())}
        test.assertEqual(found, wanted)
