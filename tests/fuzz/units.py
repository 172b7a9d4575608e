"""Random mappings for tests/fuzz/hostile-lines and tests/fuzz/hostile-stores: hierarchies whose
classes lead to one another along all kinds of relations."""
from __future__ import annotations

from typing import TYPE_CHECKING, Any


if TYPE_CHECKING:
    from model.kinds import Part
    from random import Random

EVENTS = [
    "PrePersist", "PostPersist", "PreRemove", "PostRemove", "PreUpdate", "PostUpdate", "PostLoad",
]
CASCADES = ["PERSIST", "MERGE", "REMOVE", "REFRESH", "DETACH"]
OPPOSITE = {"manyToOne": "oneToMany", "oneToOne": "oneToOne", "manyToMany": "manyToMany"}
CONVERTERS = {"int": ["turned"], "bytes": ["digits"], "text": ["mood"]}
FUNCTIONS = [
    {"name": "turned", "make": "flip"},
    {"name": "digits", "make": "hextext"},
    {
        "name": "mood",
        "make": "table",
        "pairs": [
            ["", 0], ["a", 1], ["Ada", {"hex": "00ff"}], ["Bob", "Ada"], ["glad", "glad"],
            ["sad", 2],
        ],
    },
]


class RandomMapping:
    """A mapping that is well formed, as JSON says it, with entities by their names."""

    def __init__(self, random: Random) -> None:
        self.random, self.count, self.functions = random, 0, list(FUNCTIONS)
        self.classes, self.roots = {}, {}

    def chance(self, most: float) -> bool:
        return self.random.random() < most

    def next(self) -> int:
        self.count += 1
        return self.count

    def described(self) -> dict[str, int | list[dict[str, Any]]]:
        for _ in range(self.random.choice([1, 2, 2, 3])):
            self.hierarchy()
        for _ in range(self.random.randint(2, 6)):
            self.relation()
        for described in self.classes.values():
            self.listeners(described)
        entities = list(self.classes.values())
        self.random.shuffle(entities)
        mapping = {"revision": 1, "entities": entities, "functions": self.functions}
        if self.chance(0.3):
            mapping["listeners"] = [
                {"name": self.function({"make": "note"}), "events": self.random.sample(EVENTS, 3)}
            ]
        return mapping

    # -- classes

    def hierarchy(self) -> None:
        name = f"E{self.next()}"
        kinds = self.random.choice(
            [
                ["int"], ["int"], ["int"], ["text"], ["bytes"], ["int", "text"],
                ["bytes", "int", "text"],
            ]
        )
        root = {
            "name": name,
            "table": self.next(),
            "key": [{"name": f"k{at}", "type": kind} for at, kind in enumerate(kinds)],
        }
        if len(kinds) > 1 or self.chance(0.1):
            root["embedded"] = "at"
        if kinds == ["int"] and self.chance(0.5):
            root["generated"] = True
        if self.chance(0.4):
            root["version"] = {"name": "version", "column": self.next()}
        self.entity(root, name)
        names = [name]
        for _ in range(self.random.choice([0, 0, 1, 2, 3])):
            below = {"name": f"E{self.next()}", "extends": self.random.choice(names)}
            if self.chance(0.3):
                below["discriminator"] = f"d{self.next()}"
            names.append(below["name"])
            self.entity(below, name)

    def entity(self, described: dict[str, Any], root: str) -> None:
        described["attributes"] = [
            self.attribute() for _ in range(self.random.choice([0, 1, 1, 2]))
        ]
        described["relations"] = []
        self.classes[described["name"]], self.roots[described["name"]] = described, root

    def attribute(self) -> dict[str, Part | bool]:
        kind = self.random.choice(["int", "int", "text", "bytes"])
        attribute = {"name": f"a{self.next()}", "type": kind, "column": self.next()}
        if self.chance(0.15):
            attribute["converter"] = self.random.choice(CONVERTERS[kind])
        if self.chance(0.1):
            attribute["required"] = True
        return attribute

    # -- relations

    def relation(self) -> None:
        """An owning relation, and mostly its inverse side in the target's entity, perhaps of a
        subclass of the owner alone."""
        owner, target = (self.random.choice(list(self.classes.values())) for _ in range(2))
        kind = self.random.choice(["manyToOne", "manyToOne", "oneToOne", "manyToMany"])
        name = f"r{self.next()}"
        relation = {"name": name, "kind": kind, "target": target["name"], **self.cascades(kind)}
        relation["joinTable" if kind == "manyToMany" else "column"] = self.next()
        is_earlier = list(self.roots.values()).index(self.roots[target["name"]]) < list(
            self.roots.values()
        ).index(self.roots[owner["name"]])
        if kind != "manyToMany" and is_earlier and self.chance(0.2):
            relation["required"] = True
        owner["relations"].append(relation)
        if self.chance(0.75):
            members = self.random.choice(
                [each for each in self.classes.values() if owner["name"] in self.chain(each)]
            )
            other = {
                "name": f"i{self.next()}", "kind": OPPOSITE[kind], "target": members["name"],
                "mappedBy": name, **self.cascades(OPPOSITE[kind]),
            }
            target["relations"].append(other)

    def chain(self, described: dict[str, Any]) -> list[str]:
        above = described.get("extends")
        return [described["name"], *(self.chain(self.classes[above]) if above else [])]

    def cascades(self, kind: str) -> dict[str, bool | list[str]]:
        some = self.random.sample(CASCADES, self.random.choice([0, 1, 2, 3]))
        found = {"cascade": ["ALL"] if self.chance(0.25) else some}
        if kind in ("oneToOne", "oneToMany") and self.chance(0.35):
            found["orphanRemoval"] = True
        return found

    # -- who hears

    def function(self, made: dict[str, str]) -> str:
        self.functions.append({"name": f"f{self.next()}", **made})
        return self.functions[-1]["name"]

    def listeners(self, described: dict[str, Any]) -> None:
        """Mostly such as notice events, and some that assign attributes, or throw."""
        along = [
            attribute
            for name in self.chain(described)
            for attribute in self.classes[name]["attributes"]
        ]
        for sort in ("listeners", "callbacks"):
            if self.chance(0.25):
                described[sort] = [
                    {
                        "name": self.function(self.made(along)),
                        "events": self.random.sample(EVENTS, self.random.randint(1, 4)),
                    }
                ]
        for flag in ("excludeDefault", "excludeSuper"):
            if self.chance(0.1):
                described[flag] = True

    def made(self, along: list[dict[str, Part | bool]]) -> dict[str, str]:
        integers = [
            attribute["name"]
            for attribute in along
            if attribute["type"] == "int" and "converter" not in attribute
        ]
        texts = [
            attribute["name"]
            for attribute in along
            if attribute["type"] == "text" and "converter" not in attribute
        ]
        choices = [{"make": "note"}]
        choices += [{"make": "count", "attribute": name} for name in integers] + [
            {"make": "set_text", "attribute": name, "value": "heard"} for name in texts
        ]
        choices += [
            {"make": "copy", "from": here, "to": there} for here in integers for there in integers
        ]
        if self.chance(0.15):
            choices = [
                {"make": "require", "attribute": attribute["name"]} for attribute in along
            ] or choices
        elif self.chance(0.03):
            choices = [{"make": "set_text", "attribute": "nothing", "value": ""}]
        return self.random.choice(choices)


def random_mapping(random: Random) -> dict[str, int | list[dict[str, Any]]]:
    return RandomMapping(random).described()
