"""The typing of statements in the model: by the members of a unit's entities and the kinds of
parameters.

A kind is int, str, bytes, the root of a hierarchy (of entities), or None of what is null, which
goes with all. Each path is given its steps here: the names of its members, of which a part of an
embedded id is one.
"""
from __future__ import annotations

from typing import TYPE_CHECKING, Any

from model.jpql_text import SIDES, parts_of, variables_of

if TYPE_CHECKING:
    from model.jpql_text import Node
    from model.kinds import Identity
    from model.unit import Entity, Relation, Unit

ORDERED = (int, str, bytes)


class IllTyped(Exception):
    """The statement is ill-typed."""


def see(is_so: Any, why: str) -> None:
    if not is_so:
        raise IllTyped(why)


def joined(kinds: list[Entity | type | None]) -> Entity | type | None:
    """The kind of what is of all these kinds, which must be one."""
    found = {kind for kind in kinds if kind is not None}
    see(len(found) <= 1, "kinds")
    return next(iter(found), None)


def names_variable(value: Node) -> bool:
    """Whether a value names a variable: one that doesn't is the same for each row."""
    return any(part.sort == "path" for part in parts_of(value))


class Scope:
    """The variables that can be used at a place, with their entities, and what is allowed there."""

    def __init__(
        self,
        variables: dict[str, Entity],
        in_on: bool = False,
        groups: set[Identity] | None = None,
        takes_aggregates: bool = False,
        takes_exists: bool = True,
    ) -> None:
        self.variables, self.in_on, self.groups = variables, in_on, groups
        self.takes_aggregates, self.takes_exists = takes_aggregates, takes_exists

    def within_aggregate(self) -> Scope:
        return Scope(self.variables)


class Typing:
    """The typing of a statement over a unit, with the kinds of the parameters by their names: in the
    profile's language, or in the wider one."""

    def __init__(
        self, unit: Unit, parameters: dict[str, Entity | type | None], is_wide: bool = False
    ) -> None:
        self.unit, self.parameters, self.is_wide = unit, parameters, is_wide

    def statement(self, statement: Node) -> None:
        """In the profile no variable's name stands twice; in the wider language none is declared
        where one of its name can be used."""
        variables = [variable.lower() for variable in variables_of(statement)]
        see(self.is_wide or len(set(variables)) == len(variables), "a variable twice")
        names = [
            node.name
            for node in parts_of(statement)
            if node.sort == "item" and node.name is not None
        ]
        see(
            len(set(names)) == len(names) and not {name.lower() for name in names} & set(variables),
            "an item's name",
        )
        if statement.sort == "select":
            self.select(statement)
        else:
            self.bulk(statement)

    # -- blocks

    def entity(self, name: str) -> Entity:
        see(name in self.unit.entities, "entity")
        return self.unit.entities[name]

    def sources(self, block: Node, outer: dict[str, Entity]) -> dict[str, Entity]:
        """The variables of a block with those around it."""
        variables = dict(outer)
        for source in block.sources:
            name = source.variable.lower()
            see(name not in variables, "a variable twice")
            if source.sort == "range":
                variables[name] = self.entity(source.entity)
                continue
            relation = self.variable(source.start, variables).relations.get(source.relation)
            see(relation, "relation")
            variables[name] = relation.target
            if source.on:
                self.condition(source.on, Scope(dict(variables), in_on=True))
        return variables

    def variable(self, name: str, variables: dict[str, Entity]) -> Entity:
        see(name.lower() in variables, "variable")
        return variables[name.lower()]

    def nested(self, block: Node, outer: dict[str, Entity]) -> Entity | type | None:
        """The kind of what a nested SELECT selects."""
        variables = self.sources(block, outer)
        kind = self.value(block.items[0].value, Scope(variables))
        if block.where:
            self.condition(block.where, Scope(variables))
        return kind

    def select(self, block: Node) -> None:
        variables = self.sources(block, {})
        if block.where:
            self.condition(block.where, Scope(variables))
        for path in block.groups or []:
            self.path(path, Scope(variables))
        heads = [part.value for part in [*block.items, *(block.keys or [])]]
        heads += [block.having] if block.having else []
        has_aggregates = any(part.sort == "aggregate" for head in heads for part in parts_of(head))
        block.is_grouped = block.groups is not None or block.having is not None or has_aggregates
        groups = {self.spelled(path) for path in block.groups or []} if block.is_grouped else None
        scope = Scope(variables, groups=groups, takes_aggregates=True, takes_exists=False)
        kinds = [self.value(item.value, scope) for item in block.items]
        if block.having:
            self.condition(block.having, scope)
        for key in block.keys or []:
            if key.is_value:
                see(not block.is_distinct and names_variable(key.value), "a value as a key")
                kind = self.value(key.value, scope)
                see(kind is None or kind in ORDERED, "key")
            else:
                self.key(block, key.value, kinds, Scope(variables, groups=groups))

    def key(self, block: Node, key: Node, kinds: list[Entity | type | None], scope: Scope) -> None:
        """A key that is a path, or the name of an item."""
        if key.sort == "name":
            places = [place for place, item in enumerate(block.items) if item.name == key.name]
            see(places, "name")
            key.place = places[0]
            kind = kinds[places[0]]
        else:
            kind = self.path(key, scope)
            if block.is_distinct:
                paths = [
                    self.spelled(item.value) for item in block.items if item.value.sort == "path"
                ]
                variable, steps = self.spelled(key)
                see(
                    (variable, steps) in paths or len(steps) == 1 and (variable, ()) in paths,
                    "key of DISTINCT",
                )
        see(kind is None or kind in ORDERED, "key")

    def spelled(self, path: Node) -> Identity:
        return path.variable.lower(), tuple(path.steps)

    # -- UPDATE and DELETE

    def bulk(self, statement: Node) -> None:
        entity, variable = self.entity(statement.source.entity), statement.source.variable
        scope = Scope({variable.lower(): entity} if variable is not None else {})
        if statement.sort == "update":
            names = [assignment.name for assignment in statement.sets]
            see(len(set(names)) == len(names), "a member twice")
            for assignment in statement.sets:
                see(assignment.variable.lower() == variable.lower(), "variable")
                self.assignment(entity, assignment, scope)
        if statement.where:
            self.condition(statement.where, scope)

    def assignment(self, entity: Entity, assignment: Node, scope: Scope) -> None:
        name, value = assignment.name, assignment.value
        relation = entity.relations.get(name)
        kind = None if value is None else self.value(value, scope)
        if relation:
            see(relation.owns and not relation.is_many, "relation")
            see(
                value is None or value.sort == "parameter" and kind in (None, relation.target.root),
                "relation's value",
            )
        elif entity.version and name == entity.version["name"]:
            see(value is not None and kind in (None, int), "version")
        else:
            see(name in entity.attributes, "attribute")
            see(kind in (None, entity.kind(name)), "attribute's value")

    # -- conditions

    def condition(self, node: Node, scope: Scope) -> None:
        getattr(self, f"{node.sort}_condition")(node, scope)

    def or_condition(self, node: Node, scope: Scope) -> None:
        for part in node.parts:
            self.condition(part, scope)

    and_condition = or_condition

    def not_condition(self, node: Node, scope: Scope) -> None:
        self.condition(node.part, scope)

    def exists_condition(self, node: Node, scope: Scope) -> None:
        see(scope.takes_exists, "EXISTS in HAVING")
        self.nested(node.block, scope.variables)

    def rows_condition(self, node: Node, scope: Scope) -> None:
        see(scope.takes_exists, "rows in HAVING")
        kind = self.value(node.value, scope)
        other = self.nested(node.block, scope.variables)
        if node.against not in ("ANY", "ALL"):
            other = self.aggregated(node.against, other)
        self.ordered(node.operator, joined([kind, other]))

    def type_condition(self, node: Node, scope: Scope) -> None:
        entity = self.variable(node.variable, scope.variables)
        see(
            scope.groups is None or (node.variable.lower(), ()) in scope.groups,
            "TYPE of what is no group",
        )
        see(all(self.entity(name).root is entity.root for name in node.entities), "TYPE")

    def compare_condition(self, node: Node, scope: Scope) -> None:
        kind = joined([self.value(node.left, scope), self.value(node.right, scope)])
        self.ordered(node.operator, kind)

    def ordered(self, operator: str, kind: Entity | type | None) -> None:
        """What has no order is equal or not, and no more."""
        see(operator in ("=", "<>") or kind is None or kind in ORDERED, "order")

    def null_condition(self, node: Node, scope: Scope) -> None:
        self.value(node.value, scope)

    def between_condition(self, node: Node, scope: Scope) -> None:
        kind = joined([self.value(part, scope) for part in (node.value, node.low, node.high)])
        see(kind is None or kind in ORDERED, "order")

    def in_condition(self, node: Node, scope: Scope) -> None:
        joined([self.value(part, scope) for part in [node.value, *node.values]])

    def like_condition(self, node: Node, scope: Scope) -> None:
        self.of(str, [node.value, node.pattern], scope)
        see(node.escape is None or len(node.escape) == 1, "ESCAPE")

    def empty_condition(self, node: Node, scope: Scope) -> None:
        self.collection(node.path, scope)

    def member_condition(self, node: Node, scope: Scope) -> None:
        kind = self.value(node.value, scope)
        relation = self.collection(node.path, scope)
        see(kind in (None, relation.target.root), "MEMBER")

    # -- values

    def of(self, kind: type, values: list[Node], scope: Scope) -> None:
        for value in values:
            see(self.value(value, scope) in (None, kind), "kind")

    def value(self, node: Node, scope: Scope) -> Entity | type | None:
        return getattr(self, f"{node.sort}_value")(node, scope)

    def literal_value(self, node: Node, scope: Scope) -> type:
        return type(node.value)

    def parameter_value(self, node: Node, scope: Scope) -> Entity | type | None:
        return self.parameters.get(node.name)

    def path_value(self, node: Node, scope: Scope) -> Entity | type:
        return self.path(node, scope)

    def arithmetic_value(self, node: Node, scope: Scope) -> type[int]:
        self.of(int, [part for _, part in node.parts], scope)
        return int

    def signed_value(self, node: Node, scope: Scope) -> type[int]:
        self.of(int, [node.value], scope)
        return int

    def size_value(self, node: Node, scope: Scope) -> type[int]:
        self.collection(node.path, scope)
        return int

    def aggregate_value(self, node: Node, scope: Scope) -> type | None:
        see(scope.takes_aggregates, "an aggregate")
        return self.aggregated(node.function, self.value(node.value, scope.within_aggregate()))

    def aggregated(self, function: str, kind: Entity | type | None) -> type | None:
        """The kind of what an aggregate gives of values of a kind."""
        if function == "COUNT":
            return int
        see(kind is None or kind in (ORDERED if function != "SUM" else (int,)), function)
        return int if function == "SUM" else kind

    def call_value(self, node: Node, scope: Scope) -> type | None:
        if node.function in ("COALESCE", "NULLIF"):
            kind = joined([self.value(value, scope) for value in node.values])
            see(kind is None or kind in ORDERED, node.function)
            return kind
        taken = {
            "LENGTH": [str], "CONCAT": [str] * len(node.values), "SUBSTRING": [str, int, int],
            "LOCATE": [str, str, int], "ABS": [int], "MOD": [int, int], "UPPER": [str], "LOWER": [str],
            **{f"TRIM {side}": [str, str] for side in SIDES},
        }
        for kind, value in zip(taken[node.function], node.values):
            self.of(kind, [value], scope)
        return int if node.function in ("LENGTH", "LOCATE", "ABS", "MOD") else str

    def case_value(self, node: Node, scope: Scope) -> type | None:
        if node.operand is None:
            for when in node.whens:
                self.condition(when, scope)
        else:
            joined([self.value(part, scope) for part in [node.operand, *node.whens]])
        kind = joined([self.value(part, scope) for part in [*node.thens, node.otherwise]])
        see(kind is None or kind in ORDERED, "CASE")
        return kind

    # -- paths

    def path(self, path: Node, scope: Scope) -> Entity | type:
        """The kind of a path that ends in a value or in one object."""
        entity, last = self.walk(path, scope)
        if last is None:
            return entity.root
        if last in entity.relations:
            relation = entity.relations[last]
            see(not relation.is_many, "a collection")
            return relation.target.root
        see(
            last in entity.key
            or last in entity.attributes
            or entity.version
            and last == entity.version["name"],
            "member",
        )
        return entity.kind(last)

    def collection(self, path: Node, scope: Scope) -> Relation:
        """The relation of a path that ends in a collection."""
        entity, last = self.walk(path, scope)
        relation = entity.relations.get(last)
        see(relation and relation.is_many, "no collection")
        return relation

    def walk(self, path: Node, scope: Scope) -> tuple[Entity, str | None]:
        """The entity that a path's last step is a member of, and this step; the path gets its
        steps."""
        entity = self.variable(path.variable, scope.variables)
        path.steps, names, last = [], list(path.names), None
        while names:
            if last is not None:
                relation = entity.relations.get(last)
                see(relation and not relation.is_many, "a step")
                entity = relation.target
            last = names.pop(0)
            if names and f"{last}.{names[0]}" in entity.key:
                last = f"{last}.{names.pop(0)}"
            path.steps.append(last)
        see(not scope.in_on or len(path.steps) <= 1, "a path in ON")
        see(scope.groups is None or self.spelled(path) in scope.groups, "what is no group")
        return entity, last
