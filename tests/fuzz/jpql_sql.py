#!/usr/bin/env python3
"""tests/fuzz/jpql_sql.py [--units N] [--seed S] [--rows]: holds the queries of the model against SQL.

Over random units (20, or N, each with a random sound set of objects) random SELECTs are asked of
the model (tests/model/jpql_run.py) and, written as SQL, of sqlite3: joins, null links, conditions
with unknown, groups, DISTINCT and ORDER BY come so from a second hand, in half of the units in the
wider language, so by values, beside rows and with collections too. Left out are SUBSTRING, LOCATE,
UPPER, TRIM of a text that is given, LIKE with ESCAPE and what overflows, which SQL has otherwise,
and what is too deep for sqlite3. With --rows all units are in the wider language, and a quarter of
the statements have values beside rows. No program is run. Exit status 0 where nothing differs.
"""
from __future__ import annotations

import argparse, os, random, sqlite3, sys
from typing import TYPE_CHECKING, Any, Callable, Iterator

sys.dont_write_bytecode = True
sys.path[0] = os.path.dirname(os.path.dirname(os.path.abspath(__file__)))
from model.cells import State, Stored
from fuzz.jpql_lines import WIDE_TESTS, Texts
from model.jpql_run import Meaning, block_paths
from model.jpql_text import Node, parts_of, statement_of
from model.jpql_types import IllTyped, Typing
from fuzz.lines import MAPPINGS, Calls, some_mapping, unit_of
from model.machine import Machine
from model.queries import Given
from model.reading import Refused, handed

if TYPE_CHECKING:
    from model.kinds import Datum, Identity, Key, Objects, Part
    from model.unit import Entity, Relation, Unit
    from random import Random

TEXTS, BYTES, INTEGERS = (
    ["", "a", "Ada", "Bob", "é", "glad", 'a"b', "it's", "AdA"],
    [b"", b"\0", b"\x01", b"a"],
    [0, 1, 2, 3, 5, 7, -1, -2],
)
STATEMENTS = 40
TRIMS = {"TRIM BOTH": "TRIM", "TRIM LEADING": "LTRIM", "TRIM TRAILING": "RTRIM"}


class NoSql(Exception):
    """A part of a statement that SQL has otherwise."""


class FewValues(Calls):
    """A maker of calls whose values are few, so that they meet, and don't overflow."""

    def value(self, kind: type) -> Part:
        return self.random.choice({int: INTEGERS, str: TEXTS, bytes: BYTES}[kind])


def column(name: str) -> str:
    return f'"c {name}"'


def table(entity: Entity) -> str:
    return f"t{entity.root.table}"


class Tables:
    """The objects of a set as rows: a table for each hierarchy, with a number for each object that
    rises as identities do, and one of pairs."""

    def __init__(self, unit: Unit, objects: Objects) -> None:
        self.unit, self.store = unit, sqlite3.connect(":memory:")
        self.numbers = {
            identity: n
            for n, identity in enumerate(
                sorted(objects, key=lambda each: (unit.entities[each[0]].table, each[1])), 1
            )
        }
        self.store.execute("PRAGMA case_sensitive_like = ON")
        self.store.execute("CREATE TABLE pair (relation TEXT, owner INT, member INT)")
        for entity in unit.entities.values():
            if entity.root is entity:
                columns = "".join(f", {column(name)}" for name in self.members(entity))
                columns = f"number INTEGER PRIMARY KEY, class TEXT{columns}"
                self.store.execute(f"CREATE TABLE {table(entity)} ({columns})")
        for identity, stored in objects.items():
            self.fill(identity, stored)

    def members(self, root: Entity) -> list[str]:
        """What objects of a hierarchy have in their own rows."""
        names = dict.fromkeys([*root.key, *([root.version["name"]] if root.version else [])])
        for entity in self.unit.entities.values():
            if entity.root is root:
                names.update(
                    dict.fromkeys(
                        [
                            *entity.attributes,
                            *[each.name for each in entity.owned if not each.is_many],
                        ]
                    )
                )
        return list(names)

    def fill(self, identity: Identity, stored: Stored) -> None:
        entity, number = stored.entity, self.numbers[identity]
        row = {
            "number": number,
            "class": entity.name,
            **{column(name): part for name, part in zip(entity.key, identity[1])},
        }
        row.update({column(name): stored.values[name] for name in entity.attributes})
        if entity.version:
            row[column(entity.version["name"])] = stored.version
        for relation in entity.owned:
            targets = [self.numbers[target] for target in stored.linked(relation)]
            if relation.is_many:
                self.store.executemany(
                    "INSERT INTO pair VALUES (?, ?, ?)",
                    [(relation.table, number, target) for target in targets],
                )
            elif targets:
                row[column(relation.name)] = targets[0]
        self.store.execute(
            f"INSERT INTO {table(entity)} ({', '.join(row)}) VALUES ({', '.join('?' * len(row))})",
            list(row.values()),
        )

    def classes(self, entity: Entity) -> str:
        return (
            "("
            + ", ".join(
                f"'{each.name}'" for each in self.unit.entities.values() if each.is_a(entity)
            )
            + ")"
        )


class Sql:
    """A SELECT as SQL over such tables. A variable is the number of its object, with its entity."""

    def __init__(self, tables: Tables, parameters: dict[str, Datum]) -> None:
        self.tables, self.parameters, self.count = tables, parameters, 0

    def alias(self) -> str:
        self.count += 1
        return f"a{self.count}"

    # -- paths

    def step(self, start: tuple[str, Entity], name: str) -> tuple[str, Entity | None]:
        """What an object has under a name, and of which entity it is where it is an object."""
        (number, entity), row = start, self.alias()
        relation = entity.relations.get(name)
        if relation and not relation.owns:
            classes = self.tables.classes(relation.target)
            where = f"{row}.{column(relation.owner.name)} = {number} AND {row}.class IN {classes}"
            return (
                f"(SELECT {row}.number FROM {table(relation.target)} {row} WHERE {where})",
                relation.target,
            )
        where = f"{row}.number = {number}"
        found = f"(SELECT {row}.{column(name)} FROM {table(entity)} {row} WHERE {where})"
        return found, relation and relation.target

    def walk(
        self, path: Node, variables: dict[str, tuple[str, Entity]], steps: list[str] | None = None
    ) -> tuple[str, Entity | None]:
        found = variables[path.variable.lower()]
        for name in path.steps if steps is None else steps:
            found = self.step(found, name)
        return found

    def members(
        self, path: Node, variables: dict[str, tuple[str, Entity]]
    ) -> tuple[tuple[str, Entity], Relation]:
        """Whose collection a path leads to, and the collection's relation."""
        start = self.walk(path, variables, path.steps[:-1])
        return start, start[1].relations[path.steps[-1]]

    def related(self, start: tuple[str, Entity], relation: Relation, row: str) -> str:
        """The condition that a row is a member of what an object leads to."""
        number, of_class = start[0], f" AND {row}.class IN {self.tables.classes(relation.target)}"
        if relation.kind == "manyToMany":
            owner, member = number, f"{row}.number"
            if not relation.owns:
                owner, member = member, owner
            found = relation if relation.owns else relation.owner
            where = f"relation = {found.table} AND owner = {owner} AND member = {member}"
            return f"EXISTS (SELECT 1 FROM pair WHERE {where}){of_class}"
        if relation.owns:
            return f"{row}.number = {self.step(start, relation.name)[0]}"
        return f"{row}.{column(relation.owner.name)} = {number}{of_class}"

    def without_null_steps(
        self, paths: Iterator[Any], variables: dict[str, tuple[str, Entity]]
    ) -> list[str]:
        return [
            f"{self.walk(path, variables, path.steps[:-1])[0]} IS NOT NULL"
            for path in paths
            if len(path.steps) > 1
        ]

    # -- blocks

    def sources(self, block: Node, variables: dict[str, tuple[str, Entity]]) -> Any:
        variables, text, conditions, numbers = dict(variables), "", [], []
        for source in block.sources:
            row, name = self.alias(), source.variable.lower()
            if source.sort == "range":
                entity = self.tables.unit.entities[source.entity]
                where = f"class IN {self.tables.classes(entity)}"
                text += " CROSS JOIN " if text else ""
                text += f"(SELECT * FROM {table(entity)} WHERE {where}) {row}"
            else:
                start = variables[source.start.lower()]
                relation = start[1].relations[source.relation]
                entity, condition = relation.target, self.related(start, relation, row)
                if source.on:
                    inner = {**variables, name: (f"{row}.number", entity)}
                    condition += f" AND {self.condition(source.on, inner)}"
                conditions += [] if text else [condition]
                join = "LEFT" if source.is_left else "INNER"
                named = f"{table(entity)} {row}"
                text += f" {join} JOIN {named} ON {condition}" if text else named
            variables[name] = (f"{row}.number", entity)
            numbers.append(f"{row}.number")
        return variables, text, conditions, numbers

    def select(self, block: Node) -> str:
        variables, sources, conditions, numbers = self.sources(block, {})
        keys = block.keys or []
        heads = [
            *[item.value for item in block.items],
            block.having,
            *[key.value for key in keys if key.value.sort != "name"],
        ]
        conditions += self.without_null_steps(
            block_paths(*heads, block.where, *(block.groups or [])), variables
        )
        conditions += [self.condition(block.where, variables)] if block.where else []
        items = [
            f"{self.value(item.value, variables)} AS i{place}"
            for place, item in enumerate(block.items)
        ]
        text = f"SELECT {'DISTINCT ' if block.is_distinct else ''}{', '.join(items)}"
        text += f" FROM {sources} WHERE {' AND '.join(conditions or ['1'])}"
        if block.groups:
            text += " GROUP BY " + ", ".join(self.value(path, variables) for path in block.groups)
        elif block.is_grouped and not any(
            part.sort == "aggregate"
            for head in heads
            if head is not None
            for part in parts_of(head)
        ):
            raise NoSql("HAVING alone")
        if block.having:
            text += f" HAVING {self.condition(block.having, variables)}"
        if not block.is_distinct:
            text += self.ordering(keys, variables, [] if block.is_grouped else numbers)
        return text

    def ordering(
        self, keys: list[Node], variables: dict[str, tuple[str, Entity]], numbers: list[str]
    ) -> str:
        """ORDER BY these keys, then the objects as FROM has them."""
        spelled = [
            (f"i{key.value.place}" if key.value.sort == "name" else self.value(key.value, variables))
            + (" DESC" if key.is_falling else "")
            for key in keys
        ]
        return " ORDER BY " + ", ".join(spelled + numbers) if spelled or numbers else ""

    # -- conditions

    def condition(self, node: Node, variables: dict[str, tuple[str, Entity]]) -> str:
        return "(" + getattr(self, f"{node.sort}_condition")(node, variables) + ")"

    def or_condition(self, node: Node, variables: dict[str, tuple[str, Entity]]) -> str:
        return f" {node.sort.upper()} ".join(self.condition(part, variables) for part in node.parts)

    and_condition = or_condition

    def not_condition(self, node: Node, variables: dict[str, tuple[str, Entity]]) -> str:
        return f"NOT {self.condition(node.part, variables)}"

    def compare_condition(self, node: Node, variables: dict[str, tuple[str, Entity]]) -> str:
        left, right = self.value(node.left, variables), self.value(node.right, variables)
        return f"{left} {node.operator} {right}"

    def null_condition(self, node: Node, variables: dict[str, tuple[str, Entity]]) -> str:
        return f"{self.value(node.value, variables)} IS NULL"

    def between_condition(self, node: Node, variables: dict[str, tuple[str, Entity]]) -> str:
        value, low, high = (
            self.value(part, variables) for part in (node.value, node.low, node.high)
        )
        return f"{value} BETWEEN {low} AND {high}"

    def in_condition(self, node: Node, variables: dict[str, tuple[str, Entity]]) -> str:
        values = ", ".join(self.value(value, variables) for value in node.values)
        return f"{self.value(node.value, variables)} IN ({values})"

    def like_condition(self, node: Node, variables: dict[str, tuple[str, Entity]]) -> str:
        if node.escape is not None or node.pattern.sort != "literal":
            raise NoSql("LIKE")
        return f"{self.value(node.value, variables)} LIKE {self.value(node.pattern, variables)}"

    def type_condition(self, node: Node, variables: dict[str, tuple[str, Entity]]) -> str:
        (number, entity), row = variables[node.variable.lower()], self.alias()
        names = ", ".join(f"'{name}'" for name in node.entities)
        where = f"{row}.number = {number}"
        return f"(SELECT {row}.class FROM {table(entity)} {row} WHERE {where}) IN ({names})"

    def some(self, start: tuple[str, Entity], relation: Relation, more: str = "") -> str:
        row = self.alias()
        where = self.related(start, relation, row) + more.format(row=row)
        return f"EXISTS (SELECT 1 FROM {table(relation.target)} {row} WHERE {where})"

    def empty_condition(self, node: Node, variables: dict[str, tuple[str, Entity]]) -> str:
        start, relation = self.members(node.path, variables)
        return f"CASE WHEN {start[0]} IS NULL THEN NULL ELSE NOT {self.some(start, relation)} END"

    def member_condition(self, node: Node, variables: dict[str, tuple[str, Entity]]) -> str:
        start, relation = self.members(node.path, variables)
        value = self.value(node.value, variables)
        found = self.some(start, relation, f" AND {{row}}.number = {value}")
        cases = [
            f"WHEN {start[0]} IS NULL THEN NULL",
            f"WHEN NOT {self.some(start, relation)} THEN 0",
            f"WHEN {value} IS NULL THEN NULL",
        ]
        return f"CASE {' '.join(cases)} ELSE {found} END"

    def nested(
        self,
        block: Node,
        variables: dict[str, tuple[str, Entity]],
        test: Callable[[str], str] | None = None,
    ) -> tuple[str, str]:
        """The item of a nested SELECT, and its FROM and WHERE, where a test of the item may stand too."""
        variables, sources, conditions, _ = self.sources(block, variables)
        conditions += self.without_null_steps(
            block_paths(block.items[0].value, block.where), variables
        )
        conditions += [self.condition(block.where, variables)] if block.where else []
        item = self.value(block.items[0].value, variables)
        conditions += [test(item)] if test else []
        return item, f"FROM {sources} WHERE {' AND '.join(conditions or ['1'])}"

    def exists_condition(self, node: Node, variables: dict[str, tuple[str, Entity]]) -> str:
        return f"EXISTS (SELECT 1 {self.nested(node.block, variables)[1]})"

    def rows_condition(self, node: Node, variables: dict[str, tuple[str, Entity]]) -> str:
        """A value beside rows, which SQL has by IN and as a table of one aggregate; other comparisons
        with ANY and ALL, which sqlite lacks, are told by the rows for which they are true, false or
        unknown."""
        value = self.value(node.value, variables)
        if node.against not in ("ANY", "ALL"):
            item, rows = self.nested(node.block, variables)
            distinct = "DISTINCT " if node.is_distinct else ""
            table_of = f"(SELECT {item} AS v {rows})"
            return f"{value} {node.operator} (SELECT {node.against}({distinct}v) FROM {table_of})"
        if node.against == "ANY" and node.operator == "=":
            item, rows = self.nested(node.block, variables)
            return f"{value} IN (SELECT {item} {rows})"
        decides, otherwise = ("IS TRUE", 0) if node.against == "ANY" else ("IS FALSE", 1)
        decided, unknown = (
            self.rows_of(node, value, sign, variables) for sign in (decides, "IS NULL")
        )
        cases = f"WHEN {decided} THEN {1 - otherwise} WHEN {unknown} THEN NULL"
        return f"CASE {cases} ELSE {otherwise} END"

    def rows_of(
        self, node: Node, value: str, sign: str, variables: dict[str, tuple[str, Entity]]
    ) -> str:
        """Whether there is a row of which the comparison with a value is so."""
        def test(item: str) -> str:
            return f"({value} {node.operator} {item}) {sign}"

        return f"EXISTS (SELECT 1 {self.nested(node.block, variables, test)[1]})"

    # -- values

    def value(self, node: Node, variables: dict[str, tuple[str, Entity]]) -> str:
        if node.sort in ("literal", "parameter"):
            return self.literal(
                node.value if node.sort == "literal" else self.parameters[node.name]
            )
        if node.sort == "path":
            return self.walk(node, variables)[0]
        if node.sort == "size":
            (start, relation), row = self.members(node.path, variables), self.alias()
            where = self.related(start, relation, row)
            count = f"(SELECT COUNT(*) FROM {table(relation.target)} {row} WHERE {where})"
            return f"(CASE WHEN {start[0]} IS NULL THEN NULL ELSE {count} END)"
        if node.sort == "arithmetic":
            parts = [f" {mark or ''} {self.value(part, variables)}" for mark, part in node.parts]
            return f"({''.join(parts)})"
        if node.sort == "signed":
            return f"({node.sign} {self.value(node.value, variables)})"
        if node.sort == "aggregate":
            distinct = "DISTINCT " if node.is_distinct else ""
            return f"{node.function}({distinct}{self.value(node.value, variables)})"
        if node.sort == "case":
            return self.case(node, variables)
        return self.call(node.function, [self.value(value, variables) for value in node.values])

    def case(self, node: Node, variables: dict[str, tuple[str, Entity]]) -> str:
        operand = [] if node.operand is None else [self.value(node.operand, variables)]
        judge = self.value if operand else self.condition
        branches = [
            f"WHEN {judge(when, variables)} THEN {self.value(then, variables)}"
            for when, then in zip(node.whens, node.thens)
        ]
        words = " ".join([*operand, *branches])
        return f"(CASE {words} ELSE {self.value(node.otherwise, variables)} END)"

    def literal(self, value: Datum) -> str:
        if isinstance(value, tuple):
            return str(self.tables.numbers.get(value, -1))
        if isinstance(value, bytes):
            return f"x'{value.hex()}'"
        return (
            "NULL"
            if value is None
            else f"({value})"
            if isinstance(value, int)
            else "'" + value.replace("'", "''") + "'"
        )

    def call(self, function: str, values: list[str]) -> str:
        if function in ("SUBSTRING", "LOCATE", "UPPER") or function in TRIMS and len(values) > 1:
            raise NoSql(function)
        function = TRIMS.get(function, function)
        operator = {"CONCAT": " || ", "MOD": " % "}.get(function)
        return f"({operator.join(values)})" if operator else f"{function}({', '.join(values)})"


# ---- sets and statements

def some_objects(chance: Random, unit: Unit) -> Objects:
    """A random set of few objects, each of whose links leads to one of them, and which is sound but
    for what is required."""
    objects, entities, parts = (
        {},
        list(unit.entities.values()),
        {int: range(1, 6), str: TEXTS[1:], bytes: BYTES},
    )
    for _ in range(chance.randint(3, 14)):
        entity = chance.choice(entities)
        identity = entity.root.name, tuple(
            chance.choice(parts[kind]) for kind in entity.key.values()
        )
        kinds = {int: INTEGERS, str: TEXTS, bytes: BYTES}
        values = {
            name: chance.choice([None, chance.choice(kinds[entity.kind(name)])])
            for name in entity.attributes
        }
        objects.setdefault(identity, Stored(entity, 0 if entity.version else None, values))
    taken = set()
    for stored in objects.values():
        for relation in stored.entity.owned:
            fitting = [
                each
                for each, other in objects.items()
                if other.entity.is_a(relation.target) and (relation, each) not in taken
            ]
            chosen = chance.sample(fitting, min(len(fitting), chance.randint(0, 3)))
            stored.links[relation.name] = (
                frozenset(chosen) if relation.is_many else next(iter(chosen), None)
            )
            if relation.kind == "oneToOne":
                taken.update((relation, each) for each in chosen[:1])
    return objects


def some_statement(
    calls: FewValues, machine: Machine, unit: Unit, objects: Objects
) -> tuple[str, Node, dict[str, Datum]] | None:
    """A well-typed SELECT, and what its parameters mean; None where there is none."""
    texts = Texts(calls, objects, machine.is_wide)
    text = texts.text(texts.statement(False))
    try:
        params = Given(
            machine,
            {name: handed(value, machine.is_wide) for name, (_, value) in texts.parameters.items()},
        )
        statement = statement_of(text, machine.is_wide, params.lists)
        if statement is None:  # A value that ORDER BY takes in the wider language alone.
            return None
        Typing(unit, params.kinds(), machine.is_wide).statement(statement)
    except (Refused, IllTyped):
        return None
    return None if params.has_keyless() else (text, statement, params.meant())


def sorted_rows(rows: list[Key]) -> list[Key]:
    return sorted(
        rows,
        key=lambda row: [(value is not None, value if value is not None else 0) for value in row],
    )


def places_of_keys(statement: Node) -> list[int]:
    """The places of the items that a grouped SELECT is ordered by; what is no item becomes one."""
    places = []
    for key in statement.keys or []:
        if key.value.sort != "name":
            statement.items.append(Node("item", value=key.value, name=None))
        places.append(key.value.place if key.value.sort == "name" else len(statement.items) - 1)
    return places


def compared(
    unit: Unit, objects: Objects, tables: Tables, statement: Node, parameters: dict[str, Datum]
) -> tuple[list[Key], list[Key]] | None:
    """What the model says of a statement and what SQL says, or None where SQL says nothing. Of groups
    with equal keys SQL has no order."""
    is_in_order = statement.is_grouped and not statement.is_distinct
    places = places_of_keys(statement) if is_in_order else []
    try:
        text = Sql(tables, parameters).select(statement)
        rows = Meaning(unit, objects, parameters).rows(statement)
    except (NoSql, Refused):
        return None
    mine = [
        tuple(tables.numbers.get(value, -1) if isinstance(value, tuple) else value for value in row)
        for row in rows
    ]
    try:
        theirs = [tuple(row) for row in tables.store.execute(text)]
    except sqlite3.OperationalError as fault:
        if "parser stack overflow" not in str(fault):
            raise
        return None  # It is too deep for sqlite3.
    if not statement.is_grouped and not statement.is_distinct:
        return mine, theirs
    keys = [[tuple(row[place] for place in places) for row in rows] for rows in (mine, theirs)]
    return keys[0] + sorted_rows(mine), keys[1] + sorted_rows(theirs)


def judged(seed: str, at: int, has_rows: bool) -> tuple[int, int, list[Any]]:
    """How many statements over a random unit were compared and gave rows, and those that differ."""
    chance = random.Random(f"{seed}/{at}")
    unit = unit_of(some_mapping(f"{seed}/{at}", MAPPINGS[at % len(MAPPINGS)]))
    objects, count, full, differing = some_objects(chance, unit), 0, 0, []
    is_wide = chance.random() < 0.5 or has_rows
    machine, tables = Machine(unit, State(objects), is_wide), Tables(unit, objects)
    em = machine.createEntityManager([])
    for name, key in list(objects)[:8]:
        try:
            machine.find([], em, name, list(key))
        except Refused:
            pass
    calls = FewValues(chance, machine)
    for _ in range(STATEMENTS):
        made = some_statement(calls, machine, unit, objects)
        found = made and compared(unit, objects, tables, *made[1:])
        if found:
            count, full = count + 1, full + bool(found[0])
            differing += [] if found[0] == found[1] else [(made[0], *found)]
    return count, full, differing


def main() -> int:
    words = argparse.ArgumentParser(
        description=__doc__, formatter_class=argparse.RawDescriptionHelpFormatter
    )
    words.add_argument("--units", type=int, default=20)
    words.add_argument("--seed", default="1")
    words.add_argument("--rows", action="store_true")
    said = words.parse_args()
    if said.rows:
        WIDE_TESTS["rows"] = 60
    total = full = differ = 0
    for at in range(said.units):
        count, some, differing = judged(said.seed, at, said.rows)
        total, full, differ = total + count, full + some, differ + len(differing)
        for text, mine, theirs in differing:
            print(f"differs: {text!r}: {mine[:5]}, and SQL says {theirs[:5]}")
    print(f"{total} statements over {said.units} units, of which {full} have rows; {differ} differ")
    return 1 if differ or not total else 0


if __name__ == "__main__":
    sys.exit(main())
