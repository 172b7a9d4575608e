"""Queries in the types of attributes: a parameter or a literal is of the type of what it stands
beside, and what is found is of the type of its path."""

from __future__ import annotations

from dataclasses import dataclass, field
from functools import lru_cache
from typing import Any, Dict, Iterable, List, Mapping, NamedTuple, Optional, Sequence, Set, Tuple

from ..jpql import statements as jpql
from ..jpql.statements import Block, Node, Statement, Token, read
from ..told import cut, shown
from ..queries.rewriting import Edits, is_list
from .binding import embedded_of
from .checks import chain, member_of
from .declared import OWN_ID, Member, Model
from .types import Iso, Listed, Money, OwnType, Plainly, Span, StoredType, Truth, Unfit
from .values import WrongValue, from_stored, to_stored

Typed = Optional[Tuple[StoredType, str]]
_BOOLS = {"TRUE": 1, "FALSE": 0}
_SCALED = (Money, Span)
# Calls of what is of one type, which give that type.
_OF_ONE_TYPE = ("COALESCE", "NULLIF", "ABS", "MOD")
_OF_NUMBERS = ("ABS", "MOD")
# Of calls that count characters, the places of what they count by.
_COUNTING = {"SUBSTRING": {1: "a start", 2: "a length"}, "LOCATE": {2: "a start"}}


@dataclass
class Analysis:
    """What a query's text says of types."""

    text: str
    """With literals as they are stored."""
    parameters: Dict[str, Tuple[StoredType, str]] = field(default_factory=dict)
    """The type of each, and the attribute that it is of, in words."""
    items: List[Typed] = field(default_factory=list)
    """Those of the items of a row; nothing where none is to be converted."""
    wholes: List[Optional[Path]] = field(default_factory=list)
    """The items that are embedded values, of which each part is asked for."""


class Conversions:
    """What a factory of classes does to queries."""

    def __init__(self, model: Model) -> None:
        self._model = model
        self._analysed = lru_cache(maxsize=256)(self._analyse)

    def stored(self, text: str, given: Mapping[str, Any]) -> Tuple[str, Dict[str, Any]]:
        """A query with its parameters as they are stored; a `WrongValue` names what isn't of its
        type."""
        found = self._analysed(text)
        values = dict(given)
        for name, value in given.items():
            kind, what = found.parameters.get(name, (None, ""))
            if kind is None or value is None:
                continue
            told = f"the parameter {name!r}, as {what},"
            if is_list(value) and not kind.form.startswith("json"):
                values[name] = [it if it is None else to_stored(kind, it, told) for it in value]
            else:
                values[name] = to_stored(kind, value, told)
        return found.text, values

    def values(self, text: str, rows: List[Any]) -> List[Any]:
        """The rows that a query found, in the types of its items."""
        found = self._analysed(text)
        items = found.items
        if not items:
            return rows
        if any(found.wholes):
            return [_joined(found, row) for row in rows]
        if len(items) == 1:
            return [_value(items[0], row) for row in rows]
        return [list(map(_value, items, row)) for row in rows]

    def flattened(self, text: str) -> str:
        """An UPDATE with the parts of embedded values by their names in the mapping, which alone
        can be set; any other text as it is."""
        return self.flattening(text).text()

    def flattening(self, text: str) -> Edits:
        """What makes an UPDATE so."""
        try:
            tokens = jpql.tokens_of(text)
        except jpql.Unreadable:
            return Edits(text)
        if len(tokens) < 4 or not tokens[0].is_word("UPDATE"):
            return Edits(text)
        variable = tokens[3] if tokens[2].is_word("AS") else tokens[2]
        reader = Reader(self._model, text, Analysis(text))
        for at, token in enumerate(tokens):
            if token.said == variable.said and token.sort == "word":
                words = [token]
                while tokens[at + 1].is_mark(".") and tokens[at + 2].sort == "word":
                    at += 2
                    words.append(tokens[at])
                reader.rename(words, {variable.said: tokens[1].said})
        return reader.edits

    def _analyse(self, text: str) -> Analysis:
        text = self.flattened(text)
        statement = read(text)
        found = Analysis(text)
        if statement is None:
            return found  # The program refuses it, or knows more of queries.
        reader = Reader(self._model, text, found)
        reader.read(statement)
        known = {name: it for name, it in found.parameters.items() if not it[0].is_plain}
        if known:  # A parameter is of its type wherever it stands.
            found = Analysis(text, parameters=found.parameters)
            reader = Reader(self._model, text, found, known)
            reader.read(statement)
        found.text = reader.edits.text()
        if not any(found.items) and not any(found.wholes):
            found.items = []
        return found


class Path(NamedTuple):
    """What a path ends in, in words, and the place of the word where its own name begins."""

    member: Member
    what: str
    start: int


def _value(kind: Optional[Tuple[StoredType, str]], stored: Any) -> Any:
    return stored if kind is None or stored is None else from_stored(kind[0], stored, kind[1])


def _joined(found: Analysis, row: Any) -> Any:
    """A row in which the parts of embedded values are these."""
    values = iter(row if isinstance(row, list) else [row])
    made: List[Any] = []
    for kind, whole in zip(found.items, found.wholes):
        if whole is None:
            made.append(_value(kind, next(values)))
            continue
        parts = {
            leaf.name: None if stored is None else from_stored(leaf.type, stored, whole.what)
            for leaf, stored in zip(whole.member.leaves(), values) if leaf.type is not None
        }
        made.append(embedded_of(whole.member, parts, whole.what))
    return made if len(made) > 1 else made[0]


Scope = Mapping[str, str]


class Reader:
    """Tells the types in a statement."""

    def __init__(
        self, model: Model, text: str, found: Analysis,
        known: Optional[Mapping[str, Tuple[StoredType, str]]] = None,
    ) -> None:
        """With the types of parameters that are known before."""
        self._model, self._text, self._found = model, text, found
        self._known = known or {}
        self.edits = Edits(text)
        # Where literals stand that are of a type already.
        self._done: Set[int] = set()

    def read(self, statement: Statement) -> None:
        """Takes in a statement."""
        if isinstance(statement, Block):
            self._block(statement, {}, is_outer=True)
            return
        scope = self._scope([statement.source], {})
        for each in statement.sets or ():
            words = [each.variable.said, each.name.said]
            found, target = self._walk(words, scope), self._path(words, scope)
            if found is not None and found.member.kind is not None:
                raise self._of_whole(found, words[0])
            if found is not None:
                self._check_part(scope[words[0]], found.member, each.value)
            if each.value is not None:
                self._set(each.value, target, scope)
                self._within(each.value, scope)
        self._within(statement.where, scope)

    def _block(self, block: Block, outer: Scope, is_outer: bool = False) -> None:
        scope = self._scope(block.sources, outer)
        heads = [item.value for item in block.items]
        wholes = [self._whole(each, scope) for each in heads] if is_outer else [None] * len(heads)
        for head, whole in zip(heads, wholes):
            if whole is None:
                self._within(head, scope)
        for group in block.groups or ():
            if self._whole(group, scope) is None:
                self._within(group, scope)
        parts = [*(it.on for it in block.sources), block.where, block.having]
        for part in [*parts, *(it.value for it in block.keys or ())]:
            self._within(part, scope)
        if is_outer:
            self._check_names(block, wholes)
            self._found.wholes = wholes
            kinds = [self._type(each, scope) for each in heads]
            self._found.items = [
                None if kind is None or kind[0].is_plain else kind for kind in kinds
            ]

    def _scope(self, sources: Iterable[jpql.Source], outer: Scope) -> Scope:
        """The entity of each variable."""
        scope = dict(outer)
        for source in sources:
            name = source.entity.said if source.entity else ""
            if source.start is not None and source.relation is not None:
                start = scope.get(source.start.said, "")
                member = (
                    member_of(self._model, start, source.relation.said)
                    if start in self._model else None
                )
                name = member.target if member else ""
            if source.variable is not None:
                scope[source.variable.said] = name
        return scope

    # ---- paths

    def _walk(self, words: Sequence[str], scope: Scope) -> Optional[Path]:
        """What a path ends in, where that is a member of a class."""
        name, *steps = words
        entity, at = scope.get(name, ""), 0
        while at < len(steps) and entity in self._model:
            member, count = self._step(entity, steps[at:])
            if member is None:
                return None
            if at + count == len(steps):
                return Path(member, f"{entity}.{member.said}", at + 1)
            entity, at = member.target, at + count
        return None

    def _step(self, entity: str, steps: Sequence[str]) -> Tuple[Optional[Member], int]:
        """The member that steps begin with, of an embedded value the part that they lead to; and
        how many of them that takes."""
        member, count = member_of(self._model, entity, steps[0]), 1
        if member is None and steps[0] == OWN_ID:
            key = chain(self._model, self._model[entity])[0].key()
            return next((it for it in key if it.name == ".".join(steps[:2])), None), 2
        while member is not None and member.kind is not None and count < len(steps):
            step = steps[count]
            member = next((it for it in member.parts if it.part and it.part.name == step), None)
            count += 1
        return member, count

    def rename(self, words: Sequence[Token], scope: Scope) -> Optional[Path]:
        """Has a path that ends in a value have its name in the mapping; and what it ends in."""
        found = self._walk([word.said for word in words], scope)
        if found is not None and found.member.kind is None:
            self._replace(words[found.start].at, words[-1].end, found.member.name)
        return found

    def _replace(self, at: int, end: int, by: str) -> None:
        if self._text[at:end] != by and at not in self._done:
            self._done.add(at)
            self.edits.replace(at, end, by)

    def _whole(self, node: Node, scope: Scope) -> Optional[Path]:
        """The embedded value that an item is, of which each part is asked for."""
        found = self._walk([it.said for it in node.words], scope) if node.sort == "path" else None
        if found is None or found.member.kind is None:
            return None
        front = self._text[node.at : node.words[found.start].at]
        self._replace(node.at, node.words[-1].end, ", ".join(
            front + leaf.name for leaf in found.member.leaves()))
        return found

    def _check_names(self, block: Block, wholes: Sequence[Optional[Path]]) -> None:
        names = {it.name.said for it, whole in zip(block.items, wholes) if it.name and whole}
        for key in block.keys or ():
            words = key.path.words if key.path else ()
            if len(words) == 1 and words[0].said in names:
                raise WrongValue(f"ORDER BY {words[0].said} is of an embedded value, "
                                 "which has no order: name one of its parts")

    def _of_whole(self, found: Path, front: str) -> WrongValue:
        part = next(found.member.leaves()).said
        return WrongValue(f"{found.what} is an embedded value: name its parts, as {front}.{part}")

    def _check_part(self, entity: str, part: Member, value: Optional[Node]) -> None:
        """Refuses that an UPDATE sets a part of an embedded value that may be None, and so isn't
        there in each object; what may be None there may be set to NULL."""
        steps = part.said.split(".")
        wholes = [self._step(entity, steps[:count])[0] for count in range(1, len(steps))]
        unsure = [it for it in wholes if it is not None and (it.part or it).is_optional]
        if unsure and (value is not None or any(_is_needed(it, part) for it in unsure)):
            whole, name = unsure[0].said, steps[0]
            raise ValueError(
                f"an UPDATE sets {entity}.{part.said}, and {whole} may be None, of which it is no "
                f"part: assign a whole {name} to the objects, as it.{name} = it.{name}.replace(..)"
            )

    def _set(self, value: Node, target: Typed, scope: Scope) -> None:
        """What an UPDATE sets. Refused is what may be none of the attribute's type. What is of a
        scale is whole numbers, which arithmetic of that scale gives too; and any text or number is
        one of an attribute that is stored as it is."""
        kinds = [it[0] for it in (target, self._type(value, scope)) if it is not None]
        if target is not None and not target[0].is_plain and not isinstance(target[0], _SCALED):
            self._check_set(value, target, scope)
        elif target is not None and len(kinds) == 2 and _differ(*kinds) and not any(
            isinstance(it, _SCALED) for it in kinds
        ):
            return
        self._alike([value], scope, target)

    def _check_set(self, value: Node, target: Tuple[StoredType, str], scope: Scope) -> None:
        part = self._unsure(value, target[0], scope)
        if part is None:
            return
        other = self._type(part, scope) if part.sort == "path" else None
        computed = f"{cut(self._text[part.at : part.end])}, which the query computes"
        given = computed if other is None else f"{other[1]}, {other[0].what}"
        raise WrongValue(
            f"an UPDATE sets {target[1]}, {target[0].what}, to {given}: what is stored of that may "
            "be none of its type, so hand it in as a parameter, or take an attribute of its type"
        )

    def _unsure(self, node: Node, kind: StoredType, scope: Scope) -> Optional[Node]:
        """The first part of a value that may be none of a type which has no arithmetic. Literals
        and parameters are converted; a path that ends in no value is the program's to refuse."""
        if node.sort in ("literal", "parameter"):
            return None
        if node.sort == "signed" and node.parts[0].sort == "literal":
            return None
        if node.sort == "path":
            other = self._type(node, scope)
            return None if other is None or kind.reads(other[0]) else node
        results: Sequence[Node] = (
            jpql.branches_of(node).results if node.sort == "case"
            else node.parts if node.sort == "call" and node.said == "COALESCE"
            else node.parts[:1] if node.sort == "call" and node.said == "NULLIF" else ()
        )
        if not results:
            return node
        found = (self._unsure(each, kind, scope) for each in results)
        return next((it for it in found if it is not None), None)

    def _present(self, node: Node, scope: Scope) -> bool:
        """Whether a path is that of an embedded value of which a part is there where it is."""
        found = self._walk([it.said for it in node.words], scope) if node.sort == "path" else None
        if found is None or found.member.kind is None:
            return False
        needed = next((it for it in found.member.leaves() if _is_needed(found.member, it)), None)
        if needed is None:
            raise WrongValue(f"{found.what} is never None: ask for its parts")
        self._replace(node.words[found.start].at, node.words[-1].end, needed.name)
        return True

    # ---- what stands beside what

    def _within(self, node: Any, scope: Scope) -> None:
        if isinstance(node, Block):
            self._block(node, scope)
        if not isinstance(node, Node):
            return
        if node.sort == "path":
            found = self.rename(node.words, scope)
            if found is not None and found.member.kind is not None:
                raise self._of_whole(found, ".".join(it.said for it in node.words[: found.start]))
        if node.sort == "null" or node.sort == "aggregate" and node.said == "COUNT":
            if self._present(node.parts[0], scope):
                return
        if node.sort in ("arithmetic", "signed") or node.said in _OF_NUMBERS:
            self._check_numbers(node, scope)
        if node.said in _COUNTING:
            self._check_counting(node, scope)
        if node.said == "MOD" or node.sort == "arithmetic" and self._is_sum(node):
            self._check_mixed(node, scope)
        if node.sort == "like":
            self._check_like(node, scope)
        if node.sort in ("compare", "between", "in") or (
            node.sort == "arithmetic" and self._is_sum(node)
        ) or (node.sort == "call" and node.said in _OF_ONE_TYPE):
            self._alike([it for it in node.parts if isinstance(it, Node)], scope)
        elif node.sort == "arithmetic":
            self._product(node, scope)
        elif node.sort == "case":
            self._case(node, scope)
        elif node.sort == "rows":
            value, block = node.parts
            inner = self._scope(block.sources, scope)
            self._one_type([(value, scope), (block.items[0].value, inner)])
        for part in node.parts:
            self._within(part, scope)

    def _check_numbers(self, node: Node, scope: Scope) -> None:
        """Refuses to compute with what is stored as a whole number and is none."""
        kinds = [it for it in (self._type(part, scope) for part in node.parts) if it is not None]
        for kind, what in kinds:
            if isinstance(kind, (Truth, Listed)) and kind.stored == "int":
                raise WrongValue(
                    f"{what} is {kind.what}, and no number to compute with: compare it, or let a "
                    "CASE give a number for each, as CASE WHEN .. THEN 1 ELSE 0 END"
                )

    def _check_counting(self, node: Node, scope: Scope) -> None:
        """Refuses to count characters by what is stored as a whole number of something else."""
        for place, part in enumerate(node.parts):
            kind, name = self._type(part, scope), _COUNTING[node.said].get(place)
            if name is not None and kind is not None and not kind[0].is_plain:
                raise WrongValue(
                    f"{node.said} takes {name} in whole numbers, and {kind[1]} is {kind[0].what}, "
                    f"stored as {kind[0].stored}, which it would count by: hand the number in as a "
                    "parameter, or take an attribute that is an int"
                )

    def _check_mixed(self, node: Node, scope: Scope) -> None:
        """Refuses to compute with what is of two types."""
        kinds = [it for it in (self._type(part, scope) for part in node.parts) if it is not None]
        for kind, what in kinds:
            if _differ(kinds[0][0], kind):
                computed = cut(self._text[node.at : node.end])
                raise WrongValue(
                    f"{computed} computes with {kinds[0][1]}, {kinds[0][0].what}, and {what}, "
                    f"{kind.what}, whose stored forms mean different things: hand the one in as a "
                    "parameter, or select each by itself"
                )

    def _check_like(self, node: Node, scope: Scope) -> None:
        """Refuses LIKE of what is of a type of its own, and is stored as no text."""
        kinds = [it for it in (self._type(part, scope) for part in node.parts) if it is not None]
        for kind, what in kinds:
            if kind.stored != "text" and not kind.is_plain:
                raise WrongValue(f"{what} is {kind.what}, and LIKE takes texts: compare it, as by "
                                 "=, BETWEEN or IN")

    def _case(self, node: Node, scope: Scope) -> None:
        """A CASE: a value behind it and those behind its WHENs are of one type, and so is all that
        it gives."""
        operand, whens, results = jpql.branches_of(node)
        if operand is not None:
            self._alike([operand, *whens], scope)
        kinds = [(part, self._type(part, scope)) for part in results]
        typed = [kind for _, kind in kinds if kind is not None and not kind[0].is_plain]
        for _, other in kinds if typed else ():
            if other is not None and not typed[0][0].reads(other[0]):
                raise _mixed(typed[0], f"{other[1]}, {other[0].what}")
        self._alike(results, scope)
        for part, other in kinds if typed else ():
            if other is None and _is_computed(part):
                computed = cut(self._text[part.at : part.end])
                raise _mixed(typed[0], f"{computed}, which the query computes")

    def _alike(self, parts: Sequence[Node], scope: Scope, known: Typed = None) -> None:
        """Values that are of one type."""
        self._one_type([(part, scope) for part in parts], known)

    def _one_type(self, parts: Sequence[Tuple[Node, Scope]], known: Typed = None) -> None:
        """Values that are of one type, each with the variables that it may name."""
        for part, scope in parts:
            other = self._type(part, scope)
            if known is not None and other is not None and _differ(known[0], other[0]):
                raise _apart(known, other)
            known = known or other
        for part, scope in parts if known is not None else ():
            self._give(part, known, scope)

    def _give(self, node: Node, kind: Typed, scope: Scope) -> None:
        """Has a parameter or a literal be of a type."""
        assert kind is not None
        if node.sort == "parameter":
            before = self._found.parameters.setdefault(node.said, kind)
            if not before[0].reads(kind[0]):
                raise WrongValue(
                    f"the parameter {node.said!r} stands beside {before[1]}, {before[0].what}, and "
                    f"{kind[1]}, {kind[0].what}: take two"
                )
        elif node.sort == "literal":
            self._literal(node, node.value, kind)
        elif node.sort == "signed" and node.parts[0].sort == "literal":
            # Parentheses around it are its own.
            is_minus = "-" in self._text[node.at : node.parts[0].at]
            value = node.parts[0].value
            if isinstance(value, int):
                self._literal(node, -value if is_minus else value, kind)
        elif node.sort == "signed":
            self._give(node.parts[0], kind, scope)
        elif node.sort == "path" and len(node.words) == 1 and kind[0].form == "bool":
            word = node.words[0].said.upper()
            if word in _BOOLS and word not in map(str.upper, scope) and node.at not in self._done:
                self._done.add(node.at)
                self.edits.replace(node.at, node.end, str(_BOOLS[word]))
        elif node.sort == "call" and node.said in _OF_ONE_TYPE or (
            node.sort == "arithmetic" and self._is_sum(node)
        ):
            for part in node.parts:
                self._give(part, kind, scope)
        elif node.sort == "case":
            for part in jpql.branches_of(node).results:
                self._give(part, kind, scope)
        elif node.sort == "aggregate" and self._is_given(node, kind, scope):
            self._give(node.parts[0], kind, scope)
        elif node.sort in ("call", "arithmetic", "aggregate", "size"):
            self._check_computed(node, kind, scope)

    def _check_computed(self, node: Node, kind: Typed, scope: Scope) -> None:
        """Refuses what a query computes beside what is stored in a form of its own: a whole number
        beside a scale, and a text beside a date or a time, but for a part of one."""
        assert kind is not None
        if not isinstance(kind[0], (*_SCALED, Iso)) or self._type(node, scope) is not None:
            return
        if node.said == "SUBSTRING" and self._is_iso(node.parts[0], scope):
            return
        computed = cut(self._text[node.at : node.end])
        what = "a whole number" if _is_whole(node) else "a text"
        raise WrongValue(
            f"{kind[1]} is {kind[0].what}, and {computed} is {what} that the query computes: "
            "compute it before, and hand it in as a parameter"
        )

    def _is_iso(self, node: Node, scope: Scope) -> bool:
        kind = self._type(node, scope)
        return kind is not None and isinstance(kind[0], Iso)

    def _literal(self, node: Node, value: Any, kind: Typed) -> None:
        assert kind is not None
        if kind[0].is_plain or node.at in self._done:
            return
        self._done.add(node.at)
        if isinstance(kind[0], Span) and value != 0:
            raise WrongValue(
                f"{kind[1]} is {kind[0].what}, which no literal of a query is: hand it in as a "
                f"parameter, as timedelta(hours=3), in the place of {shown(value)}"
            )
        try:
            stored = kind[0].to_stored(kind[0].from_literal(value))
        except Unfit as why:
            told = f"{shown(value)} {cut(str(why))}"
            raise WrongValue(f"{kind[1]} is {kind[0].what}, and {told}") from None
        said = "'{}'".format(stored.replace("'", "''")) if isinstance(stored, str) else str(stored)
        if self._text[node.at] == "(":
            said = f"({said})"  # A sign may stand before it.
        if said != self._text[node.at : node.end] and not isinstance(stored, bytes):
            self.edits.replace(node.at, node.end, said)

    # ---- types

    def _type(self, node: Node, scope: Scope) -> Typed:
        """The type of a value, where it is that of an attribute."""
        if node.sort == "path":
            return self._path([word.said for word in node.words], scope)
        if node.sort == "parameter" and node.said in self._known:
            kind, what = self._known[node.said]
            return kind, f"the parameter {node.said!r} of {what}"
        if node.sort == "signed":
            return self._type(node.parts[0], scope)
        if node.sort == "aggregate":
            found = self._type(node.parts[0], scope)
            return found if self._keeps(node.said, found) else None
        if node.sort == "call" and node.said in _OF_ONE_TYPE:
            return self._first(node.parts, scope)
        if node.sort == "case":
            return self._first(jpql.branches_of(node).results, scope)
        return self._first(node.parts, scope) if node.sort == "arithmetic" else None

    def _is_given(self, aggregate: Node, kind: Typed, scope: Scope) -> bool:
        """Whether an aggregate is of a type where what it is of may be."""
        own = self._type(aggregate.parts[0], scope)
        is_like = own is None or kind is not None and not _differ(own[0], kind[0])
        return is_like and self._keeps(aggregate.said, kind)

    @staticmethod
    def _keeps(aggregate: str, kind: Typed) -> bool:
        """Whether an aggregate of values of a type is of that type."""
        is_sum = aggregate == "SUM" and kind is not None and isinstance(kind[0], _SCALED)
        return is_sum or aggregate in ("MIN", "MAX")

    def _first(self, parts: Sequence[Any], scope: Scope) -> Typed:
        kinds = [self._type(part, scope) for part in parts if isinstance(part, Node)]
        scaled = [kind for kind in kinds if kind is not None and isinstance(kind[0], _SCALED)]
        return next(iter(scaled or [kind for kind in kinds if kind is not None]), None)

    def _product(self, node: Node, scope: Scope) -> None:
        kinds = [self._type(part, scope) for part in node.parts]
        scaled = [kind for kind in kinds if kind is not None and isinstance(kind[0], _SCALED)]
        if len(scaled) > 1:
            raise WrongValue(
                f"{scaled[0][1]} times {scaled[1][1]}: each is {scaled[0][0].what}, and may be "
                "multiplied by whole numbers alone"
            )

    def _is_sum(self, node: Node) -> bool:
        between = self._text[node.parts[0].end : node.parts[1].at]
        return "*" not in between

    def _path(self, words: Sequence[str], scope: Scope) -> Typed:
        found = self._walk(words, scope)
        if found is None or found.member.type is None:
            return None
        return found.member.type, found.what


def _is_needed(whole: Member, leaf: Member) -> bool:
    """Whether a part of an embedded value is there where that is."""
    for part in whole.parts:
        if leaf is part or leaf in tuple(part.leaves()):
            is_there = part.part is not None and not part.part.is_optional
            return is_there and (leaf is part or _is_needed(part, leaf))
    return False


def _is_computed(node: Node) -> bool:
    """Whether a value of no attribute's type is one that the query computes."""
    if node.sort == "call" and node.said in _OF_ONE_TYPE:
        return any(map(_is_computed, node.parts))
    return node.sort in ("call", "arithmetic", "aggregate", "size")


def _mixed(known: Typed, other: str) -> WrongValue:
    """Why a CASE gives no value of one type."""
    assert known is not None
    return WrongValue(
        f"a CASE gives {known[1]}, {known[0].what}, or {other}: what it gave can't be told, "
        "so let all behind THEN and ELSE be of one type, or select each by itself"
    )


def _is_whole(node: Node) -> bool:
    """Whether what a query computes is a whole number, and no text."""
    is_number = node.sort != "call" or node.said in ("LENGTH", "LOCATE", "ABS", "MOD")
    return is_number and not (node.sort == "aggregate" and node.said in ("MIN", "MAX"))


def _apart(one: Tuple[StoredType, str], other: Tuple[StoredType, str]) -> WrongValue:
    """Why two values aren't compared."""
    if isinstance(one[0], OwnType) and isinstance(other[0], OwnType):
        return WrongValue(
            f"{one[1]} and {other[1]} are typed(..) by different functions: what the ones store may "
            "mean something else to the others, and they can't be compared: let both be typed by "
            "the same two, or select both, and compare their values"
        )
    return WrongValue(
        f"{one[1]} is {one[0].what}, and {other[1]} {other[0].what}: what is stored of the one is "
        "not of the other's kind, and they can't be compared"
    )


def _differ(one: StoredType, other: StoredType) -> bool:
    """Whether what is stored of the two means different things."""
    if one.reads(other):
        return False
    # Of a text beside a whole number the program tells.
    return not (isinstance(one, Plainly) and isinstance(other, Plainly))
