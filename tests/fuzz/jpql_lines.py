"""Texts of queries for tests/fuzz/hostile-lines: statements over the entities of a unit that are
well typed, in words and blanks that vary, and damaged ones; and the parameters that they take."""
from __future__ import annotations

from typing import TYPE_CHECKING, Any, Callable

from fuzz.cases import Cases
from fuzz.equations import Equations
from fuzz.limits import Limits
from fuzz.rows import Rows

if TYPE_CHECKING:
    from fuzz.lines import Calls
    from model.kinds import Objects, Part, Value, Values
    from model.unit import Entity, Relation

KINDS = {int: "int", str: "text", bytes: "bytes"}
BLANKS = [" ", " ", " ", " ", "  ", "\t", "\n", "\r\n", " \t "]
WIDEST = 8
PATTERNS = [
    "%", "_", "a%", "%a", "%a%", "A_a", "a_", "__", "", "%%", "\\%", "Ada", "a%a%", "_%", "é%",
    "%é",
]
ODD = [
    "(", ")", ",", ".", "=", "<>", "<", "*", "-", "+", "'", "''", ":", "?", "?0", "?01", ":x", "?1",
    "9223372036854775807", "9223372036854775808", "007", "1", "0", "x", "p", "\u00a0", "\0", "ALL",
    "TRUE", ";", "!=",
    *"""NULL NOT AND OR SELECT FROM IS IN AS ON DISTINCT ORDER BY GROUP HAVING COUNT MIN SUM EMPTY
       MEMBER OF TYPE EXISTS LIKE ESCAPE BETWEEN JOIN LEFT SET UPDATE DELETE WHERE""".split(),
]
NAMES = ["a", "n", "X", "x", "select", "name", "p1", "1", "2", "10", "99999999999999999999"]
JOINS = [["JOIN"], ["INNER", "JOIN"], ["LEFT", "JOIN"], ["LEFT", "JOIN"], ["LEFT", "OUTER", "JOIN"]]
TESTS = {
    "compare": 10, "entity": 4, "between": 3, "in": 4, "like": 4, "null": 4, "empty": 3,
    "member": 4, "type": 3, "exists": 4,
}
# Those of the wider language; the profile has a few of these too, and refuses them.
WIDE_TESTS, TESTS = {**TESTS, "rows": 6}, {**TESTS, "rows": 0.15}
# How often a value is a CASE in the wider language.
CASES = 0.08


class Block:
    """The variables in scope, and what may stand here."""

    def __init__(
        self,
        variables: dict[str, Entity],
        steps: int = 3,
        takes_aggregates: bool = False,
        groups: list[tuple[list[str], Entity | type | None]] | None = None,
        depth: int = 0,
    ) -> None:
        self.variables, self.steps, self.takes_aggregates, self.groups, self.depth = (
            variables, steps, takes_aggregates, groups, depth,
        )

    def but(self, **others: bool | list[tuple[list[Any], Entity | type | None]] | None) -> Block:
        return Block(**{**vars(self), **others})


class Texts(Equations, Rows, Cases, Limits):
    """Makes statements by chance over a unit. Values come from the maker of calls; objects that a
    manager sees are counted, so that a query has no more tuples than it should."""

    def __init__(self, calls: Calls, objects: Objects, takes_lists: bool = False) -> None:
        self.calls, self.random, self.unit, self.objects = (
            calls, calls.random, calls.machine.unit, objects,
        )
        self.parameters, self.names, self.product = {}, [], 1
        self.nested_names: list[str] = []
        self.is_wide, self.takes_lists = calls.machine.is_wide, takes_lists
        self.inside = 0  # How many CASEs are open.

    def chance(self, most: float) -> bool:
        return self.random.random() < most

    def some(self, choices: list[Any] | str) -> Any:
        return self.random.choice(choices)

    # -- statements: lists of tokens

    def statement(self, is_bulk: bool) -> list[str]:
        self.equating(self.calls.equated_share)
        tokens = (
            self.select() if not is_bulk else self.update() if self.chance(0.65) else self.delete()
        )
        self.parameters = {
            name: given
            for name, given in self.parameters.items()
            if f"?{name}" in tokens or f":{name}" in tokens
        }
        return tokens

    def select(self) -> list[str]:
        variables, sources = self.sources({}, 0)
        block = Block(variables)
        where = self.where(block, self.some([1, 2, 2, 3]), 0.55)
        self.is_calm = False
        form = self.random.random()
        if form < 0.25:
            return self.grouped(block, sources, where)
        is_distinct = self.chance(0.2)
        if form < 0.35:
            items = [
                self.item(self.aggregate(int, block), block) for _ in range(self.some([1, 1, 2]))
            ]
            inner = block.but(takes_aggregates=True, groups=[])
            ordering = self.ordering([], self.value_keys(inner, is_distinct))
            return self.whole(is_distinct, items, sources, where, [], [], ordering)
        items, keys = [], []
        for _ in range(self.some([1, 1, 1, 2, 3])):
            tokens, kind = (
                ([self.cased(self.some(list(variables)))], None)
                if self.chance(0.4)
                else self.any_value(block)
            )
            name = self.variable() if self.chance(0.2) else None
            items.append(self.item(tokens, block, name))
            if name and kind in KINDS:
                keys.append([name])
            if kind in KINDS and self.is_path(tokens):
                keys.append(tokens)
        if not is_distinct:
            keys += [tokens for tokens in (self.path(kind, block) for kind in KINDS) if tokens]
        ordering = self.ordering(keys, self.value_keys(block, is_distinct))
        return self.whole(is_distinct, items, sources, where, [], [], ordering)

    def grouped(self, block: Block, sources: list[str], where: list[str]) -> list[str]:
        found = [
            (path, kind)
            for kind in (*KINDS, *self.roots())
            for path in [self.path(kind, block)]
            if path
        ]
        chosen = self.random.sample(found, min(len(found), self.some([1, 1, 2])))
        if self.chance(0.05):
            chosen.append(([self.cased(self.some(list(block.variables)))], None))
        inner = block.but(takes_aggregates=True, groups=chosen)
        items = [self.item(path, inner) for path, _ in chosen if self.chance(0.8)]
        items += [
            self.item(self.aggregate(self.some(list(KINDS)), inner), inner)
            for _ in range(self.some([0, 1, 1, 2]))
        ]
        items = items or [self.item(["COUNT", "(", *self.any_value(block)[0], ")"], inner)]
        having = ["HAVING", *self.condition(inner, 1)] if self.chance(0.4) else []
        groups = (
            [["GROUP", "BY", *self.listed([path for path, _ in chosen])]]
            if chosen and self.chance(0.93)
            else [[]]
        )
        keys, is_distinct = [path for path, kind in chosen if kind in KINDS], self.chance(0.1)
        ordering = self.ordering(keys, self.value_keys(inner, is_distinct))
        return self.whole(is_distinct, items, sources, where, groups[0], having, ordering)

    def whole(
        self,
        is_distinct: bool,
        items: list[list[str]],
        sources: list[str],
        where: list[str],
        groups: list[str],
        having: list[str],
        ordering: list[str],
    ) -> list[str]:
        return [
            "SELECT", *(["DISTINCT"] if is_distinct else []), *self.listed(items), "FROM", *sources,
            *where, *groups, *having, *ordering,
        ]

    def item(self, tokens: list[str], block: Block, name: str | None = None) -> list[str]:
        if name is None and self.chance(0.05):
            name = self.variable()
        return [*tokens, *([*(["AS"] if self.chance(0.5) else []), name] if name else [])]

    def value_keys(self, block: Block, is_distinct: bool) -> list[list[str]]:
        """Values to order by, which the wider language has, and not under DISTINCT; rarely where they
        are refused."""
        if not self.chance(0.03 if is_distinct or not self.is_wide else 0.5):
            return []
        return [self.value_key(block) for _ in range(self.some([1, 1, 2]))]

    def value_key(self, block: Block) -> list[str]:
        """A value to order by: of ten one that may be none, as it is an object or names no variable."""
        if self.chance(0.1):
            return self.odd_key(block)
        for _ in range(8):
            kind = self.some([int, int, str, bytes])
            is_aggregate = block.takes_aggregates and self.chance(0.5)
            found = self.aggregate(kind, block) if is_aggregate else self.value(kind, block, 2)
            if "." in found:
                break
        return ["(", *found, ")"] if self.is_path(found) or self.chance(0.1) else found

    def odd_key(self, block: Block) -> list[str]:
        """A key that is mostly refused: an object, a name in parentheses, an aggregate where nothing
        groups, or what names no variable."""
        variable = self.cased(self.some(list(block.variables)))
        kind = self.some(list(KINDS))
        return self.some([
            ["(", variable, ")"], ["(", self.some(self.names), ")"], ["COUNT", "(", variable, ")"],
            ["COUNT", "(", "1", ")"], self.literal(kind), self.parameter(kind), ["1", "+", "1"],
            self.value(self.some(self.roots()), block, 1), ["(", *self.literal(kind), ")"],
        ])

    def ordering(self, keys: list[list[str]], values: list[list[str]]) -> list[str]:
        if values:
            keys = [*values, *self.random.sample(keys, min(len(keys), self.some([0, 0, 1])))]
            self.random.shuffle(keys)
        else:
            keys = self.random.sample(keys, min(len(keys), self.some([0, 1, 1, 2])))
        return (
            [
                "ORDER",
                "BY",
                *self.listed(
                    [[*key, *self.some([[], [], ["ASC"], ["DESC"], ["DESC"]])] for key in keys]
                ),
            ]
            if keys
            else []
        )

    def listed(self, parts: list[list[str]]) -> list[str]:
        return [
            token
            for place, part in enumerate(parts)
            for token in ([","] if place else []) + list(part)
        ]

    def update(self) -> list[str]:
        entity = self.some_entity()
        variable = self.variable()
        block = Block({variable: entity})
        where = self.where(block, 2, 0.75)
        self.is_calm = False
        sets = []
        links = [relation.name for relation in entity.owned if not relation.is_many]
        names = [*entity.attributes, *([entity.version["name"]] if entity.version else []), *links]
        for name in self.random.sample(names, min(len(names), self.some([1, 1, 2]))):
            sets.append([self.cased(variable), ".", name, "=", *self.assigned(entity, name, block)])
        sets = sets or [[variable, ".", self.some(list(entity.key)), "=", "1"]]
        return [
            "UPDATE", entity.name, *(["AS"] if self.chance(0.3) else []), variable, "SET",
            *self.listed(sets), *where,
        ]

    def assigned(self, entity: Entity, name: str, block: Block) -> list[str]:
        if name in entity.relations:
            return (
                ["NULL"] if self.chance(0.3) else self.parameter(entity.relations[name].target.root)
            )
        if self.chance(0.12) and name in entity.attributes:
            return ["NULL"]
        return self.value(entity.kind(name), block, 2)

    def delete(self) -> list[str]:
        entity = self.some_entity()
        variable = self.variable() if self.chance(0.85) else None
        block = Block({variable: entity} if variable else {})
        where = self.where(block, 2, 0.85)
        return [
            "DELETE", "FROM", entity.name,
            *([*(["AS"] if self.chance(0.3) else []), variable] if variable else []),
            *where,
        ]

    # -- FROM

    def roots(self) -> list[Entity]:
        return list(
            {entity.root.name: entity.root for entity in self.unit.entities.values()}.values()
        )

    def some_entity(self) -> Entity:
        """An entity, mostly one that has objects."""
        entities = list(self.unit.entities.values())
        full = [entity for entity in entities if self.count(entity)]
        return self.some(full if full and self.chance(0.85) else entities)

    def count(self, entity: Entity) -> int:
        return sum(stored.entity.is_a(entity) for stored in self.objects.values())

    def variable(self) -> str:
        """A name that nothing has yet, ignoring case."""
        for _ in range(50):
            name = self.some("pqrxyzabnov") + self.some(["", "", "1", "_", "2x"])
            name = name.upper() if self.chance(0.15) else name
            if name.lower() not in self.names:
                break
        self.names.append(name.lower())
        return name

    def nested_variable(self, here: dict[str, Entity]) -> str:
        """A name for a variable of a nested SELECT: in the wider language at times one that another nested
        SELECT has, and rarely one that can be used here."""
        lower = {name.lower() for name in here}
        again = [name for name in self.nested_names if name not in lower or self.chance(0.05)]
        if self.is_wide and again and self.chance(0.3):
            name = self.some(again)
            self.names.append(name)
            return self.cased(name)
        name = self.variable()
        self.nested_names.append(name.lower())
        return name

    def cased(self, variable: str) -> str:
        return variable.swapcase() if self.chance(0.08) else variable

    def sources(self, outer: dict[str, Entity], depth: int) -> tuple[dict[str, Entity], list[str]]:
        """What FROM has, and the variables that are in scope then."""
        variables, tokens, count = dict(outer), [], 0
        more = 0.7 if self.equates and not depth else 0.3
        while count == 0 or count < 3 and self.chance(more) and len(self.names) < WIDEST - 1:
            related = [
                (variable, relation)
                for variable, entity in outer.items()
                for relation in entity.relations.values()
            ]
            if depth and related and self.chance(0.5):
                start, relation = self.some(related)
                range_, entity = [self.cased(start), ".", relation.name], relation.target
                self.product *= 2
            else:
                entity = self.some_entity()
                most = self.calls.most_tuples
                if count and self.product * max(1, self.count(entity)) > most:
                    break
                range_ = [entity.name]
                self.product *= max(1, self.count(entity))
            variable = self.nested_variable(variables) if depth else self.variable()
            tokens += [
                *([","] if count else []), *range_, *(["AS"] if self.chance(0.3) else []), variable,
            ]
            variables[variable] = entity
            count += 1
            while self.chance(0.35) and len(self.names) < WIDEST:
                tokens += self.join(variables)
        return variables, tokens

    def join(self, variables: dict[str, Entity]) -> list[str]:
        related = [
            (variable, relation)
            for variable, entity in variables.items()
            for relation in entity.relations.values()
        ]
        if not related:
            return []
        start, relation = self.some(related)
        variable = self.variable()
        variables[variable] = relation.target
        self.product *= 2
        tokens = [
            *self.some(JOINS), self.cased(start), ".", relation.name,
            *(["AS"] if self.chance(0.3) else []), variable,
        ]
        return [
            *tokens,
            *self.on(Block(dict(variables), steps=1)),
        ]

    def on(self, block: Block) -> list[str]:
        if self.equates and self.chance(0.5):
            return ["ON", *self.equated(block)]
        return ["ON", *self.condition(block, 1)] if self.chance(0.3) else []

    # -- conditions

    def condition(self, block: Block, depth: int) -> list[str]:
        if depth and self.chance(0.4):
            word = self.some(["AND", "AND", "OR"])
            parts = [self.part(block, depth - 1) for _ in range(self.some([2, 2, 3]))]
            return [
                token
                for place, part in enumerate(parts)
                for token in ([word] if place else []) + part
            ]
        return self.part(block, depth)

    def part(self, block: Block, depth: int) -> list[str]:
        """A condition that AND and OR may join: a test, or one in parentheses; NOT may stand
        before."""
        within = depth and self.chance(0.3)
        found = ["(", *self.condition(block, depth - 1), ")"] if within else self.test(block, depth)
        return ["NOT", *found] if self.chance(0.15) else found

    def test(self, block: Block, depth: int) -> list[str]:
        kind = self.some([int, int, int, str, str, bytes])
        negation = self.some([[], [], [], ["NOT"]])
        tests = WIDE_TESTS if self.is_wide else TESTS
        word = self.random.choices(list(tests), tests.values())[0]
        if word == "exists" and self.nests(block):
            return self.exists(block)
        is_in_having = block.groups is not None and self.chance(0.05)
        if word == "rows" and (is_in_having or self.nests(block)):
            return self.rows(block, negation)
        if word in ("empty", "member") and block.groups is None:
            found = self.collection(block)
            if found:
                path, relation = found
                member = [
                    *self.value(relation.target.root, block, 1),
                    *negation, "MEMBER", *self.some([[], ["OF"]]), *path,
                ]
                return member if word == "member" else [*path, "IS", *negation, "EMPTY"]
        if word == "type" and block.variables:
            return self.type_test(block, negation)
        if word == "entity" and block.groups is None and self.roots():
            root = self.some(self.roots())
            return [
                *self.value(root, block, 1), self.some(["=", "<>"]), *self.value(root, block, 1),
            ]
        return self.value_test(word, kind, negation, block, depth)

    def type_test(self, block: Block, negation: list[str]) -> list[str]:
        grouped = [path[0] for path, _ in block.groups or [] if len(path) == 1]
        if block.groups is not None and not grouped:
            return self.value_test("compare", int, negation, block, 0)
        variable = self.some(grouped or list(block.variables))
        entity = next(
            (entity for name, entity in block.variables.items() if name.lower() == variable.lower())
        )
        classes = [[each.name] for each in self.unit.entities.values() if each.root is entity.root]
        if self.chance(0.5):
            return [
                "TYPE", "(", self.cased(variable), ")", self.some(["=", "<>"]), *self.some(classes),
            ]
        some = self.random.sample(classes, self.random.randint(1, len(classes)))
        return [
            "TYPE", "(", self.cased(variable), ")", *negation, "IN", "(", *self.listed(some), ")",
        ]

    def value_test(
        self, word: str, kind: type, negation: list[str], block: Block, depth: int
    ) -> list[str]:
        left = self.value(kind, block, 2)
        if word == "between":
            return [
                *left, *negation, "BETWEEN", *self.value(kind, block, 1), "AND",
                *self.value(kind, block, 1),
            ]
        if word == "in" and self.takes_lists and self.chance(0.5):
            listed = self.list_parameter(kind)
            return [
                *left, *negation, "IN", *(listed if self.chance(0.5) else ["(", *listed, ")"]),
            ]
        if word == "in":
            return [
                *left, *negation, "IN", "(",
                *self.listed([self.value(kind, block, 1) for _ in range(self.some([1, 2, 3]))]),
                ")",
            ]
        if word == "like":
            pattern = (
                self.quoted(self.some(PATTERNS)) if self.chance(0.8) else self.value(str, block, 1)
            )
            escape = (
                ["ESCAPE", *self.quoted(self.some(["\\", "a", "%", "_", "é", "'"]))]
                if self.chance(0.3)
                else []
            )
            return [*self.value(str, block, 2), *negation, "LIKE", *pattern, *escape]
        if word == "null":
            return [*left, "IS", *negation, "NULL"]
        return [
            *left,
            self.some(["=", "=", "<>", "<", "<=", ">", ">="]),
            *self.value(kind, block, 1),
        ]

    # -- values

    def any_value(self, block: Block) -> tuple[list[str], Entity | type]:
        kind = self.some([int, int, str, bytes])
        if self.chance(0.25):
            kind = self.some(self.roots() or [int])
        return self.value(kind, block, 2), kind

    def value(self, kind: Entity | type, block: Block, depth: int) -> list[str]:
        """The tokens of a value of a kind, or the root of entities."""
        if kind not in KINDS:
            path = self.path(kind, block)
            return path if path and self.chance(0.75) else self.parameter(kind)
        if depth and self.inside < 2 and self.chance(CASES if self.is_wide else 0.001):
            return self.case(kind, block, depth - 1)
        roll = self.random.random()
        path = self.path(kind, block) if roll < (0.25 if self.is_wide and kind is str else 0.5) else None
        if path:
            return path
        if depth and roll < 0.78:
            made = (
                self.int_value(block, depth - 1)
                if kind is int
                else self.call(kind, block, depth - 1)
            )
            if made:
                return made
        return self.literal(kind)

    def int_value(self, block: Block, depth: int) -> list[str]:
        word = self.random.choices(
            ["arithmetic", "signed", "LENGTH", "LOCATE", "ABS", "MOD", "SIZE", "call"],
            [0, 0, 2, 2, 0, 0, 2, 4] if self.is_calm else [6, 2, 2, 2, 1, 2, 2, 4],
        )[0]
        if word == "SIZE" and block.groups is None:
            found = self.collection(block)
            if found:
                return ["SIZE", "(", *found[0], ")"]
        if word == "arithmetic":
            return self.arithmetic(block, depth)
        if word == "signed":
            found = self.value(int, block, depth)
            return [self.some("+--"), *(found if len(found) == 1 else ["(", *found, ")"])]
        if word == "LENGTH":
            return ["LENGTH", "(", *self.value(str, block, depth), ")"]
        if word == "LOCATE":
            start = [self.value(int, block, 0)] if self.chance(0.4) else []
            return [
                "LOCATE",
                "(",
                *self.listed([self.value(str, block, 0), self.value(str, block, depth), *start]),
                ")",
            ]
        if word in ("ABS", "MOD"):
            return [
                word, "(", *self.value(int, block, depth),
                *([",", *self.value(int, block, 0)] if word == "MOD" else []),
                ")",
            ]
        return self.call(int, block, depth)

    def arithmetic(self, block: Block, depth: int) -> list[str]:
        parts = [self.value(int, block, depth) for _ in range(self.some([2, 2, 3]))]
        parts = [
            part if len(part) == 1 or "." in part and len(part) < 6 else ["(", *part, ")"]
            for part in parts
        ]
        return [
            token
            for place, part in enumerate(parts)
            for token in ([self.some("+-*")] if place else []) + part
        ]

    def call(self, kind: type, block: Block, depth: int) -> list[str]:
        if block.takes_aggregates and self.chance(0.5):
            return self.aggregate(kind, block)
        word = self.some(
            ["COALESCE", "NULLIF"]
            if kind is not str
            else ["COALESCE", "NULLIF", "CONCAT", "CONCAT", "SUBSTRING", "SUBSTRING"]
        )
        if kind is str and self.is_wide and self.chance(0.75):
            return self.wide_call(block, depth)
        if word == "SUBSTRING":
            places = [self.value(int, block, 0) for _ in range(self.some([1, 2, 2]))]
            return [word, "(", *self.listed([self.value(str, block, depth), *places]), ")"]
        count = 2 if word == "NULLIF" or self.chance(0.7) else 3
        return [
            word,
            "(",
            *self.listed([self.value(kind, block, depth) for _ in range(count)]),
            ")",
        ]

    def wide_call(self, block: Block, depth: int) -> list[str]:
        """UPPER, LOWER, or TRIM with what it may have before its value."""
        word, value = self.some(["UPPER", "LOWER", "TRIM", "TRIM"]), self.value(str, block, depth)
        before: list[str] = []
        if word == "TRIM":
            before += [self.some(["LEADING", "TRAILING", "BOTH"])] if self.chance(0.6) else []
            before += self.literal(str) if self.chance(0.6) else []
            before += ["FROM"] if before else []
        return [word, "(", *before, *value, ")"]

    def aggregate(self, kind: type, block: Block) -> list[str]:
        inner = block.but(takes_aggregates=False, groups=None)
        word = self.some(["COUNT", "SUM", "MIN", "MAX"] if kind is int else ["MIN", "MAX"])
        value = self.any_value(inner)[0] if word == "COUNT" else self.value(kind, inner, 1)
        return [word, "(", *(["DISTINCT"] if self.chance(0.25) else []), *value, ")"]

    def literal(self, kind: type) -> list[str]:
        value = self.calls.value(kind)
        if (
            kind is bytes
            or self.chance(0.3)
            or not isinstance(value, kind)
            or isinstance(value, str)
            and len(value) > 100
            or self.is_calm
            and kind is int
            and value < 0
        ):
            return self.parameter(kind)
        if isinstance(value, str):
            return self.quoted(value)
        return [str(value)] if value >= 0 else ["-", str(min(-value, 2**63 - 1))]

    def quoted(self, text: str) -> list[str]:
        return ["'" + text.replace("'", "''") + "'"]

    def parameter(self, kind: Entity | type) -> list[str]:
        """A parameter of a kind: one that is there, or another one."""
        same = [name for name, (other, _) in self.parameters.items() if other is kind]
        if same and self.chance(0.25):
            name = self.some(same)
        else:
            name = self.new_name()
            self.parameters[name] = (kind, self.handed(kind))
        return [("?" if name[0].isdigit() else ":") + name]

    def new_name(self) -> str:
        """A name that no parameter has yet."""
        name = self.some(NAMES) + self.some(["", "", "_", "0", "0", "0"])
        name = name.replace("_", "") if name[0].isdigit() else name
        while name in self.parameters:
            name += self.some("0123456789")
        return name

    def list_parameter(self, kind: Entity | type) -> list[str]:
        """A parameter that a collection of values of a kind is handed in for."""
        same = [name for name, (other, _) in self.parameters.items() if other == ("list", kind)]
        if same and self.chance(0.4):
            name = self.some(same)
        else:
            name = self.new_name()
            count = self.some([0, 1, 1, 2, 2, 3, 5, self.some([8, 20, 60])])
            self.parameters[name] = (("list", kind), [self.handed(kind) for _ in range(count)])
        return [("?" if name[0].isdigit() else ":") + name]

    def handed(self, kind: Entity | type) -> Value | Values:
        """The value that a call hands in for a parameter of a kind, as JSON says it."""
        if self.chance(0.06):
            return None
        if kind in KINDS:
            value = self.calls.value(kind)
            return self.calls.given(
                value
                if isinstance(value, kind)
                else 1
                if kind is int
                else "a"
                if kind is str
                else b"a"
            )
        fitting = [
            live.number
            for live in self.calls.machine.objects[-30:]
            if live.entity.root is kind and None not in live.key()
        ]
        return {
            "object": self.some(fitting) if fitting and self.chance(0.97) else self.calls.object()
        }

    # -- paths

    def is_path(self, tokens: list[str]) -> bool:
        return "." in tokens and not {"(", ",", "+", "-", "*", "CASE"} & set(tokens)

    def path(self, kind: Entity | type, block: Block) -> list[str] | None:
        """The tokens of some path of a kind, if there is one."""
        if block.groups is not None:
            found = [path for path, other in block.groups if other is kind]
            return list(self.some(found)) if found else None
        names = list(block.variables)
        self.random.shuffle(names)
        for variable in names:
            entity = block.variables[variable]
            if entity.root is kind and self.chance(0.7):
                return [self.cased(variable)]
            steps = self.steps(entity, block.steps, lambda entity: self.ends(entity, kind))
            if steps:
                return [self.cased(variable), *steps]
        return None

    def ends(self, entity: Entity, kind: Entity | type) -> list[str]:
        """The members of an entity that are of a kind."""
        if kind in KINDS:
            members = [
                *entity.key,
                *entity.attributes,
                *([entity.version["name"]] if entity.version else []),
            ]
            return [name for name in members if entity.kind(name) is kind]
        return [
            relation.name
            for relation in entity.relations.values()
            if not relation.is_many and relation.target.root is kind
        ]

    def steps(self, entity: Entity, most: int, ends: Callable[..., Any]) -> list[str] | None:
        """Steps along to-one relations to one of the ends that the last entity has, or none."""
        tokens = []
        for left in reversed(range(most)):
            found, onward = ends(entity), [
                relation for relation in entity.relations.values() if not relation.is_many
            ]
            if found and (not left or not onward or self.chance(0.7)):
                return [
                    *tokens,
                    *[token for name in self.some(found).split(".") for token in (".", name)],
                ]
            if not left or not onward:
                return None
            relation = self.some(onward)
            tokens += [".", relation.name]
            entity = relation.target
        return None

    def collection(self, block: Block) -> tuple[list[str], Relation] | None:
        """The tokens of a path to a collection, and the relation, if there is one."""
        names = list(block.variables)
        self.random.shuffle(names)
        for variable in names:
            entity = block.variables[variable]
            steps = self.steps(
                entity,
                block.steps,
                lambda entity: [
                    relation.name for relation in entity.relations.values() if relation.is_many
                ],
            )
            if steps:
                for name in steps[1::2]:
                    relation = entity.relations[name]
                    entity = relation.target
                return [self.cased(variable), *steps], relation
        return None

    # -- texts

    def text(self, tokens: list[str]) -> str:
        """The tokens as a text: keywords in either case, with blanks of any sort, none where there
        need be none."""
        parts = []
        for token in tokens:
            token = (
                token.lower() if token.isupper() and token.isalpha() and self.chance(0.1) else token
            )
            before = parts[-1][-1:] if parts else ""
            is_of_word = [
                character.isalnum() or character == "_" for character in (before, token[:1])
            ]
            is_needed = all(is_of_word) or before + token[:1] in ("''", "<=", ">=", "<>")
            if parts and parts[-1].strip().isdigit() and token[:1].isalpha():
                is_needed = False
            parts.append(
                (
                    self.some(BLANKS)
                    if is_needed or self.chance(0.03 if "." in (token, before) else 0.5)
                    else ""
                )
                + token
            )
        return "".join(parts) + (self.some(BLANKS) if self.chance(0.05) else "")

    def damaged(self, tokens: list[str]) -> list[str]:
        """The tokens with something left out, doubled, moved or put in."""
        tokens = list(tokens)
        for _ in range(self.some([1, 1, 1, 2])):
            at = self.random.randrange(len(tokens))
            word = self.some(["drop", "drop", "double", "swap", "odd", "odd", "put", "name"])
            if word == "drop" and len(tokens) > 1:
                tokens.pop(at)
            elif word == "double":
                tokens.insert(at, tokens[at])
            elif word == "swap" and at:
                tokens[at - 1], tokens[at] = tokens[at], tokens[at - 1]
            elif word == "name":
                names = [
                    place
                    for place, token in enumerate(tokens)
                    if token[0].isalpha() and not token.isupper()
                ]
                if names:
                    one, other = self.some(names), self.some(names)
                    tokens[one] = self.some(
                        [
                            tokens[other], tokens[other], "nothing", tokens[one].upper(),
                            *self.unit.entities,
                        ]
                    )
            else:
                tokens[at:at + (word == "odd")] = [self.some(ODD)]
        return tokens
