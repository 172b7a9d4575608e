"""Queries that are written anew for the program: with lists as parameters, to count their rows, and
to go on behind a key."""

from __future__ import annotations

from typing import Any, Collection, Dict, Iterable, List, Mapping, NamedTuple, Optional
from typing import Sequence, Set, Tuple

from ..jpql import statements as jpql
from ..jpql.statements import Block, LanguageName, Node, read
from ..mapping.meant import meant
from ..objects.entities import EmbeddedId, Entity

_SINGLE = (str, bytes, bytearray, memoryview, Mapping, Entity, EmbeddedId)


def is_list(value: Any) -> bool:
    """Whether a parameter is a list for IN, and no value."""
    return isinstance(value, Collection) and not isinstance(value, _SINGLE)


class Edits:
    """Changes of a text, by the places of its characters."""

    def __init__(self, text: str) -> None:
        self._text = text
        self._made: List[Tuple[int, int, str]] = []

    def replace(self, at: int, end: int, by: str) -> None:
        self._made.append((at, end, by))

    def text(self) -> str:
        text = self._text
        for at, end, by in sorted(self._made, reverse=True):
            text = text[:at] + by + text[end:]
        return text

    def before(self, at: int, end: int) -> Tuple[int, int]:
        """Where in the text as it was a part of the changed one is; of a part of what was put there,
        what that was put for."""
        return self._before(at, False), self._before(end, True)

    def _before(self, at: int, is_end: bool) -> int:
        grown = 0
        for first, until, by in sorted(self._made):
            here = first + grown
            if at - is_end < here:
                break
            if at - is_end < here + len(by):
                return until if is_end else first
            grown += len(by) - (until - first)
        return at - grown


# ---- lists


def with_lists(
    text: str, given: Mapping[str, Any], language: LanguageName = "profile"
) -> Tuple[str, Dict[str, Any]]:
    """A query whose parameters are lists, as one with a parameter for each of their values; of an
    empty list nothing is IN. The wider language has lists of its own: there they stay as they are,
    but for those beside other values."""
    lists = {name: list(value) for name, value in given.items() if is_list(value)}
    plain = {name: value for name, value in given.items() if name not in lists}
    statement = read(text) if lists else None
    for name, listed in lists.items():
        if any(map(is_list, listed)):
            raise TypeError(f"{name!r} is a list with lists in it, and IN takes one of values")
    if statement is None:  # Nothing is a list, or the program refuses the text.
        return text, dict(given) if language == "wide" else plain
    nodes = jpql.nodes_of(statement)
    tests = [node for node in nodes if node.sort == "in" and _lists_of(node, lists)]
    _must_stand_in(tests, nodes, lists)
    if language == "wide":
        beside = _beside(text, tests, lists)
        plain.update({name: it for name, it in lists.items() if name not in beside})
        lists = {name: it for name, it in lists.items() if name in beside}
        tests = [test for test in tests if _lists_of(test, lists)]
    names = _names_of(lists, {*given, *(node.said for node in nodes if node.sort == "parameter")})
    edits = Edits(text)
    for test in tests:
        edits.replace(*_listed(text, test, names))
    values = {name: value for each in lists for name, value in zip(names[each], lists[each])}
    spread = _must_fit(edits.text(), lists) if lists else text
    return spread, {**plain, **values}


def _beside(text: str, tests: Sequence[Node], lists: Mapping[str, Any]) -> Set[str]:
    """The lists that stand beside another value, or in parentheses of their own."""
    return {
        each.said for test in tests for each in _lists_of(test, lists)
        if len(test.parts) > 2 or text[each.at] == "("
    }


def _lists_of(test: Node, lists: Mapping[str, Any]) -> List[Node]:
    return [each for each in test.parts[1:] if each.sort == "parameter" and each.said in lists]


def _must_stand_in(tests: Sequence[Node], nodes: Sequence[Node], lists: Mapping[str, Any]) -> None:
    """Each list stands behind IN, and nowhere else."""
    placed = [each for test in tests for each in _lists_of(test, lists)]
    for node in nodes:
        if node.sort == "parameter" and node.said in lists and not any(node is it for it in placed):
            raise TypeError(f"{node.said!r} is a list, which stands behind IN alone")
    for name in set(lists) - {node.said for node in placed}:
        near = meant(name, (node.said for node in nodes if node.sort == "parameter"))
        raise TypeError(f"the query has no parameter {name!r}{near}")


def _names_of(lists: Mapping[str, Sequence[Any]], taken: Collection[str]) -> Dict[str, List[str]]:
    """The names of the parameters that the values of each list become."""
    found: Dict[str, List[str]] = {}
    for name, values in lists.items():
        front = f"{name}_" if not name[:1].isdigit() else f"_{name}_"
        while any(each.startswith(front) for each in taken):
            front = f"_{front}"
        found[name] = [f"{front}{place}" for place in range(1, len(values) + 1)]
    return found


def _listed(text: str, test: Node, names: Mapping[str, Sequence[str]]) -> Tuple[int, int, str]:
    """A test by IN with the values of lists, and its place."""
    value, *parts = test.parts
    is_bare = test.end == parts[0].end
    start = parts[0].at if is_bare else text.rindex("(", value.end, parts[0].at)
    pieces: List[str] = []
    for part in parts:
        listed = names.get(part.said) if part.sort == "parameter" else None
        whole = [text[part.at : part.end]]
        pieces += whole if listed is None else [f":{name}" for name in listed]
    if pieces:
        return start, test.end, f"({', '.join(pieces)})"
    # What is in nothing: false, or true behind NOT, and asked of the same value.
    said = text[value.at : value.end]
    is_not = "NOT" in text[value.end : start].upper().split()
    word = "OR" if is_not else "AND"
    return test.at, test.end, f"({said} IS NULL {word} {said} IS NOT NULL)"


def _must_fit(text: str, lists: Mapping[str, Sequence[Any]]) -> str:
    size = len(text.encode(errors="replace"))
    if size > jpql.MOST_BYTES:
        most, told = f"{jpql.MOST_BYTES:,}", max(map(len, lists.values()))
        raise ValueError(
            f"with a list of {told:,} values the text has {size:,} bytes, and {most} are the most:"
            " ask in several queries"
        )
    return text


# ---- counts


def counting(text: str) -> Optional[str]:
    """A query that counts the rows of this one, with the same parameters; None where none does, as of
    groups."""
    block = _plain(text)
    if block is None:
        return None
    heads = jpql.nodes_of([*block.items, *(block.keys or [])])
    counted = [node.said for node in jpql.nodes_of([block.sources, block.where]) if _is_asked(node)]
    if any(_is_asked(node) and node.said not in counted for node in heads):
        return None
    paths = [node for node in heads if node.sort == "path" and len(node.words) > 2]
    # A null link on the way leaves a row out, wherever the path stands.
    said = dict.fromkeys(text[path.at : path.end] for path in paths)
    there = [f"({path} IS NULL OR {path} IS NOT NULL)" for path in said]
    return f"SELECT COUNT({_variable(block)}) FROM {_from(text, block)}{_where(text, block, there)}"


def _is_asked(node: jpql.Node) -> bool:
    return node.sort == "parameter"


def _plain(text: str) -> Optional[Block]:
    """A SELECT whose rows are those of FROM and WHERE."""
    block = read(text)
    if not isinstance(block, Block) or block.is_distinct or block.groups or block.having:
        return None
    heads = [*block.items, *(block.keys or [])]
    is_one = any(node.sort == "aggregate" for node in jpql.nodes_of(heads))
    return None if is_one else block


def _variable(block: Block) -> str:
    """The first variable, which leads to an object in each row."""
    variable = block.sources[0].variable
    return variable.said if variable else ""


def _from(text: str, block: Block) -> str:
    entity = block.sources[0].entity
    return text[entity.at : block.sources_end] if entity else ""


def _where(text: str, block: Block, more: Iterable[str]) -> str:
    """The condition of a query with others."""
    own = [f"({text[block.where.at : block.where.end]})"] if block.where else []
    tests = [*own, *more]
    return f" WHERE {' AND '.join(tests)}" if tests else ""


# ---- by the key


class ByKey(NamedTuple):
    """A query whose rows are asked for in parts, in the order of its first variable's keys."""

    text: str
    block: Block
    key: Sequence[str]

    @property
    def has_groups(self) -> bool:
        """Whether several rows may have one key."""
        return len(self.block.sources) > 1

    def part(self, last: Optional[Sequence[Any]]) -> Tuple[str, Dict[str, Any]]:
        """The text that asks for the rows behind a key, or for the first ones, each with its key
        behind it; and the parameters that this takes beside its own."""
        text, block, variable = self.text, self.block, _variable(self.block)
        end = block.items[-1].name.end if block.items[-1].name else block.items[-1].value.end
        items = text[block.items[0].value.at : end]
        keys = ", ".join(f"{variable}.{part}" for part in self.key)
        names = self._names()
        behind = [] if last is None else [self._behind(variable, list(zip(self.key, names)))]
        where = _where(text, block, behind)
        given = {} if last is None else dict(zip(names, last))
        return f"SELECT {items}, {keys} FROM {_from(text, block)}{where}", given

    def _names(self) -> List[str]:
        taken = {node.said for node in jpql.parameters_of(self.block)}
        front = "key"
        while any(name.startswith(front) for name in taken):
            front = f"_{front}"
        return [f"{front}{place}" for place in range(1, len(self.key) + 1)]

    def _behind(self, variable: str, parts: Sequence[Tuple[str, str]]) -> str:
        """Whether the key of a variable comes behind another one, part by part."""
        (part, name), *rest = parts
        path = f"{variable}.{part}"
        if not rest:
            return f"{path} > :{name}"
        return f"({path} > :{name} OR {path} = :{name} AND {self._behind(variable, rest)})"


def by_key(text: str, keys: Mapping[str, Sequence[str]]) -> ByKey:
    """A query to be asked for in parts, with the members that are each entity's key; a `ValueError`
    where its rows have no key or another order."""
    statement = read(text)
    block = _plain(text)
    if block is None or block.keys is not None:
        if statement is None or not isinstance(statement, Block):
            raise ValueError(f"this is no SELECT that can be read: {text}")
        why = "rows come in the order of the keys, and not with DISTINCT, groups or ORDER BY"
        raise ValueError(f"{why}: page(text, number, size) takes these too")
    entity = block.sources[0].entity
    if entity is None or entity.said not in keys:
        raise KeyError(f"there is no entity {entity.said if entity else ''!r}")
    return ByKey(text, block, keys[entity.said])
