"""A check of queries of the client's own: which rule of docs/QUERIES.md a text breaks, and where.

It refuses exactly what the program refuses for its text, with the same word: `Limit`, `syntax`,
`typing` or `parameter`.
"""

from __future__ import annotations

from dataclasses import dataclass
from typing import (
    Any, Dict, FrozenSet, List, Mapping, NamedTuple, Optional, Sequence, Tuple, Union,
)

from ..mapping.meant import meant
from ..mapping.unit import EntityDescription, Member, MemberKind
from . import statements as jpql
from .statements import Block, Bulk, LanguageName, Node, Source, Statement, Token
from .words import syntax_told, unserved

SYNTAX, TYPING, PARAMETER = (f"IllegalArgument({why})" for why in ("syntax", "typing", "parameter"))
_NO_ORDER = "objects have no order: ORDER BY takes a member of theirs, as p.id"


class Kind(NamedTuple):
    """What a value is: an `int`, a `text` or `bytes`, or an object of the hierarchy of a root."""

    what: str
    is_entity: bool = False

    def __str__(self) -> str:
        words = {"int": "a whole number", "text": "a text", "bytes": "bytes"}
        return f"an object of {self.what}" if self.is_entity else words[self.what]


INT, TEXT, BYTES = Kind("int"), Kind("text"), Kind("bytes")
# The kinds of parameters by their names: None is null, which goes with all. A list of kinds is that
# of a list of values, which the wider language takes.
Kinds = Mapping[str, Union[None, Kind, List[Optional[Kind]]]]


@dataclass(frozen=True)
class QueryFinding:
    """A rule that a query breaks: the refusal that it meets, what is wrong, and where: the line,
    the column and the word that stands there."""

    refusal: str
    message: str
    line: int
    column: int
    word: str

    def __str__(self) -> str:
        return f"{self.line}:{self.column}: {self.word}: {self.message} [{self.refusal}]"


def check(
    text: str, entities: Mapping[str, EntityDescription], given: Optional[Kinds] = None,
    language: LanguageName = "profile",
) -> List[QueryFinding]:
    """What is wrong with a query in a language over these entities, as `mapping.unit.entities_of`
    describes them, and with the parameters that are given; without these, nothing is asked of
    parameters."""
    teller = _Teller(text)
    size = len(text.encode(errors="replace"))
    if size > jpql.MOST_BYTES:
        return teller.limit(f"the text has {size:,} bytes, and {jpql.MOST_BYTES:,} are the most")
    if jpql.nesting(text) > jpql.MOST_NESTED:
        return teller.limit(f"more than {jpql.MOST_NESTED} parentheses stand within one another")
    try:
        cases = jpql.cases_in(jpql.tokens_of(text)) if jpql.LANGUAGES[language].has_cases else 0
        if cases > jpql.MOST_CASES:
            most = f"{jpql.MOST_CASES} are the most: hand in what some give, or ask in several queries"
            return teller.limit(f"the text has {cases} words CASE, and {most}")
        statement = jpql.statement_of(text, language)
    except jpql.Unreadable as fault:
        token, message = syntax_told(fault, _readable_tokens(text), language)
        return teller.tell(SYNTAX, token.at, token.end, message)
    if given is not None and _bare_values(teller, statement, given):
        return teller.findings
    variables = jpql.variables_of(statement)
    if len(variables) > jpql.MOST_VARIABLES:
        return teller.limit(f"{len(variables)} variables are declared, and 8 are the most")
    _Typing(entities, given or {}, teller, language).statement(statement)
    if not teller.findings and given is not None:
        _parameters(teller, statement, given)
    return teller.findings


def _readable_tokens(text: str) -> List[Token]:
    """The tokens of a text, where it has no others."""
    try:
        return jpql.tokens_of(text)[:-1]
    except jpql.Unreadable:
        return []


def _bare_values(teller: _Teller, statement: Statement, given: Kinds) -> bool:
    """Tells the parameters that stand behind IN without parentheses, and are no lists; whether
    there are any."""
    for test in jpql.nodes_of(statement):
        part = test.parts[-1] if test.sort == "in" else None
        if part is not None and part.end == test.end and not isinstance(given.get(part.said), list):
            way = f"IN ({teller.text[part.at : part.end]}) takes one value, and IN alone a list"
            teller.tell(SYNTAX, part.at, part.end, way)
    return bool(teller.findings)


def _parameters(teller: _Teller, statement: Statement, given: Kinds) -> None:
    """Tells the parameters that are missing, those that are too much, and lists that stand where
    none may."""
    tests = [node for node in jpql.nodes_of(statement) if node.sort == "in"]
    placed = [test.parts[1] for test in tests if len(test.parts) == 2]
    for node in jpql.parameters_of(statement):
        is_placed = any(node is each for each in placed) and teller.text[node.at] != "("
        if isinstance(given.get(node.said), list) and not is_placed:
            told = f"{node.said!r} is a list, which stands behind IN alone"
            teller.tell(PARAMETER, node.at, node.end, told)
    named = {node.said: node for node in jpql.parameters_of(statement)[::-1]}
    for name, node in sorted(named.items(), key=lambda pair: pair[1].at):
        if name not in given:
            near = meant(name, set(given) - set(named))
            teller.tell(PARAMETER, node.at, node.end, f"the parameter {name!r} isn't given{near}")
    for name in given:
        if name not in named:
            near = meant(name, set(named) - set(given))
            teller.tell(PARAMETER, 0, 0, f"the query has no parameter {name!r}{near}")


class _Teller:
    """Notes what is found in a text."""

    def __init__(self, text: str) -> None:
        self.text = text
        self.findings: List[QueryFinding] = []

    def tell(self, refusal: str, at: int, end: int, message: str) -> List[QueryFinding]:
        before = self.text[:at]
        line, column = before.count("\n") + 1, at - (before.rfind("\n") + 1) + 1
        word = self.text[at:end] or "the query" if end or at else "the query"
        word = "the end" if at == len(self.text) else word
        self.findings.append(QueryFinding(refusal, message, line, column, word))
        return self.findings

    def limit(self, message: str) -> List[QueryFinding]:
        return self.tell("Limit", 0, 0, message)


# ---- what a place allows


class _Entity:
    """An entity with its members by name."""

    def __init__(self, entity: EntityDescription, root: str) -> None:
        self.name, self.embedded = entity.name, entity.embedded
        self.kind = Kind(root, True)
        self.members = {member.name: member for member in entity.members}

    def relation(self, name: str) -> Optional[Member]:
        member = self.members.get(name)
        is_one = member and member.kind in (MemberKind.TO_ONE, MemberKind.COLLECTION)
        return member if is_one else None


class _Scope(NamedTuple):
    """The variables that can be used at a place, with their entities (None where that isn't known),
    and what is allowed there."""

    variables: Dict[str, Optional[_Entity]]
    in_on: bool = False
    # Of what is grouped, the paths that may stand outside of aggregates.
    groups: Optional[FrozenSet[Tuple[str, ...]]] = None
    takes_aggregates: bool = False
    takes_exists: bool = True


class _Way(NamedTuple):
    """Where a path leads: the entity of its last step, and that step, which is none of a variable
    alone; `length` counts the steps."""

    entity: _Entity
    last: Optional[Member]
    length: int


def _spelled(path: Node) -> Tuple[str, ...]:
    """A path as GROUP BY compares it."""
    variable, *names = path.words
    return (variable.said.lower(), *(name.said for name in names))


_NUMBERS = {"ABS": (INT,), "MOD": (INT, INT)}
_TEXTS = {"LENGTH": (TEXT,), "SUBSTRING": (TEXT, INT, INT), "LOCATE": (TEXT, TEXT, INT)}
_TAKEN: Dict[str, Tuple[Kind, ...]] = {**_NUMBERS, **_TEXTS}
# Functions whose result is a whole number; that of any other one here is a text.
_WHOLE = {*_NUMBERS, "LENGTH", "LOCATE"}


class _Typing:
    """Whether a statement is well typed over entities, with parameters of these kinds."""

    def __init__(
        self, entities: Mapping[str, EntityDescription], kinds: Kinds, teller: _Teller,
        language: LanguageName,
    ) -> None:
        self._kinds, self._teller, self._language = kinds, teller, language
        # Whether a variable may have the name of one that can't be used where it is declared.
        self._names_again = jpql.LANGUAGES[language].names_again
        self._entities: Dict[str, _Entity] = {}
        for name, entity in entities.items():
            root = entity
            while root.superclass is not None:
                root = entities[root.superclass]
            self._entities[name] = _Entity(entity, root.name)

    def statement(self, statement: Statement) -> None:
        """Tells what is wrong in a statement."""
        variables = [variable.said.lower() for variable in jpql.variables_of(statement)]
        if not self._names_again:
            self._declared_once(statement)
        self._items_apart(statement, variables)
        if isinstance(statement, Block):
            self._select(statement)
        else:
            self._bulk(statement)

    # -- telling

    def _wrong(self, part: Any, message: str) -> None:
        """Tells what is wrong with a node or a token."""
        self._teller.tell(TYPING, part.at, part.end, message)

    def _text(self, node: Node) -> str:
        return self._teller.text[node.at : node.end]

    # -- names

    def _declared_once(self, statement: Statement) -> None:
        seen: List[str] = []
        for variable in jpql.variables_of(statement):
            if variable.said.lower() in seen:
                self._second(variable)
            seen.append(variable.said.lower())

    def _second(self, variable: Token) -> None:
        self._wrong(variable, f"a second variable has the name {variable.said}")

    def _items_apart(self, statement: Statement, variables: Sequence[str]) -> None:
        seen: List[str] = []
        named = (item.name for block in jpql.blocks_of(statement) for item in block.items)
        for name in named:
            if name is not None and name.said.lower() in variables:
                self._wrong(name, f"a variable has the name {name.said}")
            elif name is not None and name.said in seen:
                self._wrong(name, f"a second item has the name {name.said}")
            seen += [name.said] if name is not None else []

    def _entity(self, name: Token) -> Optional[_Entity]:
        if name.said not in self._entities:
            near = meant(name.said, self._entities)
            self._wrong(name, f"there is no entity {name.said}{near or self._all_entities()}")
        return self._entities.get(name.said)

    def _all_entities(self) -> str:
        return f"; there are {', '.join(self._entities)}"

    def _variable(self, name: Token, scope: _Scope) -> Optional[_Entity]:
        word = name.said.lower()
        if word not in scope.variables:
            why = unserved(name.said, self._language)
            near = meant(word, scope.variables)
            known = f"; there are {', '.join(scope.variables)}" if scope.variables else ""
            self._wrong(name, why or f"there is no variable {name.said} here{near or known}")
        return scope.variables.get(word)

    def _no_member(self, entity: _Entity, name: Token, what: str, names: Sequence[str]) -> None:
        """Tells that an entity has no member of a name, or none of that sort."""
        below = [each.name for each in self._entities.values() if self._adds(each, entity, name)]
        if below:
            way = f"; its subclass {below[0]} has: let FROM range over {below[0]}"
        else:
            way = meant(name.said, names) or f"; it has {', '.join(names) or 'none'}"
        self._wrong(name, f"{entity.name} has no {what} {name.said}{way}")

    @staticmethod
    def _adds(below: _Entity, entity: _Entity, name: Token) -> bool:
        """Whether an entity of the same hierarchy has a member that this one lacks."""
        lacks = name.said not in entity.members and name.said in below.members
        return lacks and below.kind == entity.kind

    # -- blocks

    def _select(self, block: Block) -> None:
        scope = self._sources(block, {})
        self._where(block.where, scope)
        for path in block.groups or []:
            self._path(path, scope)
        keys = block.keys or []
        heads = [*block.items, *keys, *([block.having] if block.having else [])]
        has_aggregates = any(node.sort == "aggregate" for node in jpql.nodes_of(heads))
        is_grouped = block.groups is not None or block.having is not None or has_aggregates
        groups = frozenset(map(_spelled, block.groups or [])) if is_grouped else None
        head = scope._replace(groups=groups, takes_aggregates=True, takes_exists=False)
        kinds = [self._value(item.value, head) for item in block.items]
        if block.having:
            self._condition(block.having, head)
        for key in keys:
            if key.path is not None:
                self._key(block, key.path, kinds, scope._replace(groups=groups))
            else:
                self._value_key(block, key.value, head)

    def _nested(self, block: Block, outer: _Scope, is_aggregate: bool = False) -> Optional[Kind]:
        """The kind of what a nested SELECT selects."""
        scope = self._sources(block, outer.variables)
        kind = self._value(block.items[0].value, scope._replace(takes_aggregates=is_aggregate))
        self._where(block.where, scope)
        return kind

    def _where(self, where: Optional[Node], scope: _Scope) -> None:
        if where is not None:
            self._condition(where, scope)

    def _sources(self, block: Block, outer: Dict[str, Optional[_Entity]]) -> _Scope:
        """The variables of a block with those around it."""
        variables = dict(outer)
        for source in block.sources:
            scope = _Scope(variables)
            entity = self._entity(source.entity) if source.entity else self._joined(source, scope)
            if source.variable is not None:
                name = source.variable.said.lower()
                if self._names_again and name in variables:
                    self._second(source.variable)
                variables[name] = entity
            if source.on is not None:
                self._condition(source.on, _Scope(dict(variables), in_on=True))
        return _Scope(variables)

    def _joined(self, source: Source, scope: _Scope) -> Optional[_Entity]:
        """What a relation of a variable leads to."""
        if source.start is None or source.relation is None:
            return None
        entity = self._variable(source.start, scope)
        if entity is None:
            return None
        relation = entity.relation(source.relation.said)
        if relation is None:
            names = [name for name in entity.members if entity.relation(name)]
            self._no_member(entity, source.relation, "relation", names)
            return None
        return self._entities[relation.type]

    def _key(
        self, block: Block, path: Node, kinds: Sequence[Optional[Kind]], scope: _Scope
    ) -> None:
        """A key of ORDER BY: an item's name where it is one word, else a path."""
        if len(path.words) > 1:
            way = self._way(path, scope)
            kind = self._kind(path, way) if way else None
            if way and block.is_distinct and not self._is_selected(block, path, way):
                self._wrong(path, "with DISTINCT, ORDER BY takes what is selected alone")
        else:
            names = [item.name.said if item.name else "" for item in block.items]
            name = path.words[0].said
            if name not in names:
                named = [each for each in names if each]
                way_out = meant(name, named) or ": it takes a path, as p.id, or a name behind AS"
                self._wrong(path, f"ORDER BY names no item {name}{way_out}")
                return
            kind = kinds[names.index(name)]
        if kind is not None and kind.is_entity:
            self._wrong(path, _NO_ORDER)

    def _value_key(self, block: Block, value: Node, scope: _Scope) -> None:
        """A key of ORDER BY that is neither an item's name nor a path alone."""
        nodes = [node for node in jpql.nodes_of(value) if node.sort == "path"]
        names = [item.name.said for item in block.items if item.name]
        named = [node for node in nodes if len(node.words) == 1 and node.words[0].said in names]
        if named:
            name = named[0].words[0].said
            way = f"which ORDER BY takes alone, as ORDER BY {name}: write its value here"
            self._wrong(named[0], f"{name} is the name of an item, {way}")
            return
        kind = self._value(value, scope)
        text = self._text(value)
        if block.is_distinct:
            way = f"select {text} under a name behind AS, and order by that name"
            self._wrong(value, f"with DISTINCT, ORDER BY takes what is selected alone: {way}")
        elif not nodes:
            way = "ORDER BY takes what a variable has, as p.id, or a name behind AS"
            self._wrong(value, f"{text} is the same for each row: {way}")
        elif kind is not None and kind.is_entity:
            self._wrong(value, _NO_ORDER)

    @staticmethod
    def _is_selected(block: Block, path: Node, way: _Way) -> bool:
        paths = [_spelled(it.value) for it in block.items if it.value.sort == "path"]
        return _spelled(path) in paths or way.length == 1 and _spelled(path)[:1] in paths

    # -- UPDATE and DELETE

    def _bulk(self, statement: Bulk) -> None:
        source = statement.source
        entity = self._entity(source.entity) if source.entity else None
        scope = _Scope({source.variable.said.lower(): entity} if source.variable else {})
        seen: List[str] = []
        for assignment in statement.sets or []:
            if assignment.name.said in seen:
                self._wrong(assignment.name, f"{assignment.name.said} is assigned twice")
            seen.append(assignment.name.said)
            kind = None
            if assignment.value is not None:
                kind = self._value(assignment.value, scope)
            if self._variable(assignment.variable, scope) is not None and entity is not None:
                self._assignment(entity, assignment, kind)
        self._where(statement.where, scope)

    def _assignment(
        self, entity: _Entity, assignment: jpql.Assignment, kind: Optional[Kind]
    ) -> None:
        name, value = assignment.name, assignment.value
        member = entity.members.get(name.said)
        if member is None or member.kind is MemberKind.KEY:
            members = entity.members.values()
            names = [each.name for each in members if each.kind is not MemberKind.KEY]
            what = "member that SET takes, as a key, is" if member else "member"
            self._no_member(entity, name, what, names)
        elif member.kind is MemberKind.COLLECTION or not member.is_owner and self._is_link(member):
            self._wrong(name, f"{name.said} is no link that {entity.name} owns")
        elif self._is_link(member):
            is_plain = value is None or value.sort == "parameter"
            wanted = self._entities[member.type].kind
            if not is_plain or kind not in (None, wanted):
                self._wrong(name, f"{name.said} becomes NULL, or a parameter that is {wanted}")
        elif member.kind is MemberKind.VERSION and value is None:
            self._wrong(name, f"{name.said} is the version, and never NULL")
        elif kind not in (None, Kind(member.type)):
            self._wrong(name, f"{name.said} is {Kind(member.type)}, and gets {kind}")

    @staticmethod
    def _is_link(member: Member) -> bool:
        return member.kind is MemberKind.TO_ONE

    # -- conditions

    def _condition(self, node: Node, scope: _Scope) -> None:
        if node.sort in ("and", "or", "not"):
            for part in node.parts:
                self._condition(part, scope)
        elif node.sort == "exists":
            if not scope.takes_exists:
                self._wrong(node, "EXISTS isn't served in HAVING")
            self._nested(node.parts[0], scope)
        elif node.sort == "rows":
            self._rows(node, scope)
        elif node.sort == "type":
            self._type(node, scope)
        elif node.sort == "empty":
            self._collection(node.parts[0], scope)
        elif node.sort == "member":
            self._member(node, scope)
        elif node.sort == "like":
            self._of(TEXT, node.parts, scope, "LIKE")
            if node.said and len(node.said) != 3:  # In its quotes.
                self._wrong(node, "the text behind ESCAPE is one character")
        else:
            self._compared(node, scope)

    def _compared(self, node: Node, scope: _Scope) -> None:
        """A comparison, BETWEEN, IN or IS NULL."""
        takes_list = node.sort == "in" and len(node.parts) == 2
        takes_list = takes_list and self._teller.text[node.parts[1].at] != "("
        self._ordered(node, self._one_kind(node.parts, scope, takes_list=takes_list))

    def _ordered(self, node: Node, kind: Optional[Kind]) -> None:
        is_ordered = node.sort == "between" or node.said in ("<", "<=", ">", ">=")
        if is_ordered and kind is not None and kind.is_entity:
            self._wrong(node, "objects are only equal or not: compare members of theirs, as p.id")

    def _rows(self, node: Node, scope: _Scope) -> None:
        """A value beside the rows of a nested SELECT, or beside an aggregate of them."""
        if not scope.takes_exists:
            self._wrong(node, "nested SELECTs aren't served in HAVING")
        value, block = node.parts
        item = block.items[0].value
        if node.words and item.sort == "aggregate":
            way = f"compare with what it gives, as = (SELECT {self._text(item)} FROM ..)"
            told = f"{node.words[0].said.upper()} takes the rows of a nested SELECT, and no {item.said}"
            self._wrong(item, f"{told}: {way}")
        kind, other = self._value(value, scope), self._nested(block, scope, item.sort == "aggregate")
        if kind is not None and other is not None and kind != other:
            told = f"{self._text(value)} is {kind}, and {self._text(item)} is {other}"
            self._wrong(item, told)
        else:
            self._ordered(node, kind or other)

    def _one_kind(
        self, parts: Sequence[Node], scope: _Scope, what: str = "", takes_list: bool = False
    ) -> Optional[Kind]:
        """The one kind of what is compared, or of what stands at such places; with whether the last
        part may be a list."""
        kinds = [(part, self._value(part, scope)) for part in parts]
        if takes_list:
            kinds += [(parts[-1], kind) for kind in self._of_list(parts[-1])]
        known = [(part, kind) for part, kind in kinds if kind is not None]
        for part, kind in known[1:]:
            first, wanted = known[0]
            if kind != wanted:
                words = f"{self._text(first)} is {wanted}, and {self._text(part)} is {kind}"
                self._wrong(part, f"{what}: {words}" if what else words)
                return None
        return known[0][1] if known else None

    def _of_list(self, node: Node) -> Sequence[Optional[Kind]]:
        """The kinds of the values of a list that a parameter is."""
        listed = self._kinds.get(node.said) if node.sort == "parameter" else None
        return listed if isinstance(listed, list) else []

    def _type(self, node: Node, scope: _Scope) -> None:
        variable, *names = node.words
        entity = self._variable(variable, scope)
        if scope.groups is not None and (variable.said.lower(),) not in scope.groups:
            self._ungrouped(node)
        for name in names:
            named = self._entity(name)
            if entity and named and named.kind != entity.kind:
                self._wrong(name, f"{name.said} is no class of the hierarchy of {entity.name}")

    def _member(self, node: Node, scope: _Scope) -> None:
        value, path = node.parts
        kind = self._value(value, scope)
        relation = self._collection(path, scope)
        if kind is not None and relation is not None:
            wanted = self._entities[relation.type].kind
            if kind != wanted:
                told = f"{self._text(path)} has {wanted}, and {self._text(value)} is {kind}"
                self._wrong(value, told)

    # -- values

    def _of(self, kind: Kind, values: Sequence[Node], scope: _Scope, what: str) -> None:
        for value in values:
            found = self._value(value, scope)
            if found is not None and found != kind:
                self._wrong(value, f"{what} takes {kind}, and {self._text(value)} is {found}")

    def _value(self, node: Node, scope: _Scope) -> Optional[Kind]:
        if node.sort == "literal":
            return INT if isinstance(node.value, int) else TEXT
        if node.sort == "parameter":
            kind = self._kinds.get(node.said)
            return None if isinstance(kind, list) else kind
        if node.sort == "path":
            return self._path(node, scope)
        if node.sort == "size":
            self._collection(node.parts[0], scope)
            return INT
        if node.sort in ("arithmetic", "signed"):
            self._of(INT, node.parts, scope, "arithmetic")
            return INT
        if node.sort == "case":
            return self._case(node, scope)
        return self._aggregate(node, scope) if node.sort == "aggregate" else self._call(node, scope)

    def _case(self, node: Node, scope: _Scope) -> Optional[Kind]:
        """The one kind of what a CASE gives."""
        operand, whens, results = jpql.branches_of(node)
        if operand is None:
            for when in whens:
                self._condition(when, scope)
        else:
            what = "behind CASE and its WHENs stand values of one kind"
            self._one_kind([operand, *whens], scope, what)
        what = "behind THEN and ELSE stand values of one kind"
        kind = self._one_kind(results, scope, what)
        if kind is not None and kind.is_entity:
            first = next((it for it in results if it.sort == "path"), results[0])
            way = f"give a member of each, as {self._text(first)}.id"
            self._wrong(first, f"CASE gives values, and no objects: {way}")
            return None
        return kind

    def _aggregate(self, node: Node, scope: _Scope) -> Optional[Kind]:
        if not scope.takes_aggregates:
            is_wide = jpql.LANGUAGES[self._language].orders_by_values
            places = "SELECT, HAVING and ORDER BY" if is_wide else "SELECT and HAVING"
            self._wrong(node, f"{node.said} stands in {places} alone, and in no other one")
        value = node.parts[0]
        kind = self._value(value, _Scope(scope.variables))
        if node.said == "COUNT":
            return INT
        if node.said == "SUM" and kind not in (None, INT):
            self._wrong(value, f"SUM takes whole numbers, and {self._text(value)} is {kind}")
        elif kind is not None and kind.is_entity:
            self._wrong(value, f"objects have no order: {node.said} takes a member of theirs")
        return INT if node.said == "SUM" else kind

    def _call(self, node: Node, scope: _Scope) -> Optional[Kind]:
        if node.said in ("COALESCE", "NULLIF"):
            kind = self._one_kind(node.parts, scope)
            if kind is not None and kind.is_entity:
                self._wrong(node, f"{node.said} takes values, and no objects")
                return None
            return kind
        taken = _TAKEN.get(node.said, (TEXT,) * len(node.parts))
        for kind, value in zip(taken, node.parts):
            self._of(kind, [value], scope, node.said)
        return INT if node.said in _WHOLE else TEXT

    # -- paths

    def _path(self, path: Node, scope: _Scope) -> Optional[Kind]:
        """The kind of a path that ends in a value or in one object."""
        way = self._way(path, scope)
        return self._kind(path, way) if way else None

    def _kind(self, path: Node, way: _Way) -> Optional[Kind]:
        if way.last is None:
            return way.entity.kind
        if way.last.kind is MemberKind.COLLECTION:
            name = way.last.name
            places = "SIZE, IS EMPTY and MEMBER OF alone"
            words = f"{self._text(path)} is a collection, which stands in {places}: JOIN it"
            self._wrong(path, f"{words}, as JOIN {self._text(path)} {name[0].lower()}")
            return None
        if way.last.kind is MemberKind.TO_ONE:
            return self._entities[way.last.type].kind
        return Kind(way.last.type)

    def _collection(self, path: Node, scope: _Scope) -> Optional[Member]:
        """The relation of a path that ends in a collection."""
        way = self._way(path, scope)
        if way is None:
            return None
        if way.last is None or way.last.kind is not MemberKind.COLLECTION:
            self._wrong(path, f"{self._text(path)} is no collection")
            return None
        return way.last

    def _way(self, path: Node, scope: _Scope) -> Optional[_Way]:
        """Where a path leads; None where that is told to be wrong."""
        variable, *names = path.words
        entity = self._variable(variable, scope)
        if scope.groups is not None and _spelled(path) not in scope.groups:
            self._ungrouped(path)
        if entity is None:
            return None
        last: Optional[Member] = None
        length = 0
        while names:
            if last is not None:
                if last.kind is not MemberKind.TO_ONE:
                    self._no_step(path, last)
                    return None
                entity = self._entities[last.type]
            name, *names = names
            if names and name.said == entity.embedded:
                part, *names = names
                name = name._replace(said=f"{name.said}.{part.said}", end=part.end)
            last = entity.members.get(name.said)
            length += 1
            if last is None:
                self._unknown(entity, name, names)
                return None
        if scope.in_on and length > 1:
            way = "JOIN that object under a variable of its own"
            self._wrong(path, f"in ON a path has one step at most: {way}")
        return _Way(entity, last, length)

    def _unknown(self, entity: _Entity, name: Token, rest: Sequence[Token]) -> None:
        if name.said == entity.embedded:
            parts = ", ".join(each for each in entity.members if each.startswith(f"{name.said}."))
            self._wrong(name, f"{name.said} is an embedded id, of which a part is named: {parts}")
            return
        # Of classes a part of an embedded value is one member.
        words = [name, *rest]
        whole = name._replace(said=".".join(each.said for each in words), end=words[-1].end)
        is_part = any(each.startswith(f"{name.said}__") for each in entity.members) or (
            not meant(name.said, entity.members) and meant(whole.said, entity.members)
        )
        self._no_member(entity, whole if is_part else name, "member", list(entity.members))

    def _no_step(self, path: Node, last: Member) -> None:
        if last.kind is MemberKind.COLLECTION:
            words = f"{last.name} is a collection, and a path goes along links to one object alone"
            self._wrong(path, f"{words}: JOIN it under a variable of its own")
        else:
            self._wrong(path, f"{last.name} is {Kind(last.type)}, and no path goes on from it")

    def _ungrouped(self, node: Node) -> None:
        words = "stands neither in GROUP BY nor within COUNT, SUM, MIN or MAX"
        self._wrong(node, f"{self._text(node)} {words}, as what is grouped does")
