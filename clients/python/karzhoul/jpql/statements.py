"""The texts of queries: the statement that their tokens make by docs/QUERIES.md.

Where a text is outside of its grammar, the reader tells the furthest place that it came to, and
what may stand there.
"""

from __future__ import annotations

import sys
import threading
from contextlib import suppress
from dataclasses import dataclass, field, replace
from functools import lru_cache
from typing import (
    Any, Callable, Dict, FrozenSet, List, Literal, Mapping, NamedTuple, NoReturn, Optional,
    Sequence, Tuple, TypeVar, Union,
)

from .tokens import Token as Token, Unreadable as Unreadable
from .tokens import cases_in as cases_in, nesting as nesting, tokens_of as tokens_of

T = TypeVar("T")

MOST_BYTES = 16_384
MOST_NESTED = 32
MOST_VARIABLES = 8
MOST_CASES = 64
MOST_LISTED = 4_096
MOST_LISTED_TOGETHER = 65_536
AGGREGATES = ("COUNT", "SUM", "MIN", "MAX")


@dataclass(frozen=True)
class Language:
    """A language of queries: its keywords, how many values each function takes, from and to,
    whether a list may be handed in for a parameter that stands behind IN, whether ORDER BY takes
    values that are neither paths nor names of items, whether values are compared with the rows of
    nested SELECTs, whether one variable's name may stand in several of these of which none is
    around another, and whether CASE is a value."""

    keywords: FrozenSet[str]
    functions: Mapping[str, Tuple[int, int]]
    takes_lists: bool
    orders_by_values: bool
    compares_rows: bool
    names_again: bool
    has_cases: bool


_PROFILE = Language(
    frozenset(
        """SELECT DISTINCT FROM WHERE GROUP BY HAVING ORDER AS INNER LEFT OUTER JOIN ON ASC DESC
        UPDATE SET NULL DELETE OR AND NOT BETWEEN IN LIKE ESCAPE IS EMPTY MEMBER OF EXISTS TYPE
        LENGTH CONCAT SUBSTRING LOCATE ABS MOD SIZE COALESCE NULLIF COUNT SUM MIN MAX""".split()
    ),
    {
        "LENGTH": (1, 1),
        "CONCAT": (2, MOST_BYTES),
        "SUBSTRING": (2, 3),
        "LOCATE": (2, 3),
        "ABS": (1, 1),
        "MOD": (2, 2),
        "COALESCE": (2, MOST_BYTES),
        "NULLIF": (2, 2),
    },
    takes_lists=False,
    orders_by_values=False,
    compares_rows=False,
    names_again=False,
    has_cases=False,
)
_WIDE = Language(
    _PROFILE.keywords
    | set("UPPER LOWER TRIM LEADING TRAILING BOTH CASE WHEN THEN ELSE END ALL ANY SOME".split()),
    {**_PROFILE.functions, "UPPER": (1, 1), "LOWER": (1, 1), "TRIM": (1, 2)},
    takes_lists=True,
    orders_by_values=True,
    compares_rows=True,
    names_again=True,
    has_cases=True,
)
LanguageName = Literal["profile", "wide"]
# As `jpa --grammar` tells them.
LANGUAGES: Mapping[LanguageName, Language] = {"profile": _PROFILE, "wide": _WIDE}
_STATEMENTS = ("SELECT", "UPDATE", "DELETE")
COMPARISONS = ("=", "<>", "<", "<=", ">", ">=")
QUANTIFIERS = ("ALL", "ANY", "SOME")

# How many calls deeper a text may be read, by one thread at a time.
_DEEPER, _deepening = 3_000, threading.Lock()
@dataclass
class Node:
    """A condition or a value. Its sort says which, and what its other members are:

    - `and`, `or`, `not`, `exists`: `parts` are conditions, or the block;
    - `compare` (said: the operator), `between`, `in`, `like` (said: the escape), `null`, `member`:
      `parts` are the values, or the path;
    - `rows`: `parts` are a value and the block beside it; said: the operator, which is `=` of IN;
      `words` has IN, ALL, ANY or SOME, and nothing where the block's item is an aggregate that the
      value is compared with, on either side;
    - `empty`, `size`: the path; `type`: `words` are the variable and the entities;
    - `literal` (`value`), `parameter` (said: its name), `path` (`words`), `arithmetic`, `signed`,
      `call` and `aggregate` (said: the function, in capitals);
    - `case`: `parts` are what stands behind CASE, each WHEN, THEN and ELSE, as `branches_of` has it
      (said: `value` where a value stands behind CASE).

    It stands from the character `at` to before the character `end`.
    """

    sort: str
    at: int
    end: int = 0
    said: str = ""
    parts: Tuple[Any, ...] = ()
    words: Tuple[Token, ...] = ()
    value: Union[int, str] = 0


class Branches(NamedTuple):
    """The parts of a CASE: the value behind it, where one is, what stands behind each WHEN, tests
    or what that value may equal, and what it gives, behind each THEN and behind ELSE."""

    operand: Optional[Node]
    whens: Sequence[Node]
    results: Sequence[Node]


def branches_of(case: Node) -> Branches:
    """The parts of a CASE."""
    count = 1 if case.said else 0
    rest = case.parts[count:]
    return Branches(
        case.parts[0] if count else None, rest[:-1:2], (*rest[1::2], rest[-1])
    )


@dataclass
class Item:
    """An item of SELECT, with its AS name."""

    value: Node
    name: Optional[Token]


@dataclass
class Source:
    """What FROM, UPDATE or DELETE ranges over: an `entity`, or, of a JOIN or of a nested SELECT, a
    `relation` of the variable `start`."""

    variable: Optional[Token]
    entity: Optional[Token] = None
    start: Optional[Token] = None
    relation: Optional[Token] = None
    is_left: bool = False
    on: Optional[Node] = None


@dataclass
class Key:
    """What ORDER BY goes by: a path, of which one of the variable alone is an item's name, or in the
    wider language any other value."""

    value: Node
    is_falling: bool

    @property
    def path(self) -> Optional[Node]:
        """The path that it is; None where it is another value, as a path in parentheses is."""
        is_bare = self.value.sort == "path" and self.value.at == self.value.words[0].at
        return self.value if is_bare else None


@dataclass
class Block:
    """A SELECT. The clauses of FROM end before the character `sources_end`."""

    is_distinct: bool
    items: List[Item]
    sources: List[Source]
    sources_end: int
    where: Optional[Node] = None
    groups: Optional[List[Node]] = None
    having: Optional[Node] = None
    keys: Optional[List[Key]] = None


@dataclass
class Assignment:
    """What SET gives to a member; no value is NULL."""

    variable: Token
    name: Token
    value: Optional[Node]


@dataclass
class Bulk:
    """An UPDATE, or a DELETE, which has no assignments."""

    source: Source
    sets: Optional[List[Assignment]]
    where: Optional[Node]


Statement = Union[Block, Bulk]


# ---- statements


class _No(Exception):
    """A rule doesn't fit here."""


def statement_of(text: str, language: LanguageName = "profile") -> Statement:
    """The statement that a text is in a language; an `Unreadable` where it is none."""
    return _read_in(tokens_of(text), LANGUAGES[language])


def _read_in(tokens: List[Token], language: Language) -> Statement:
    """The statement that tokens are. Many CASEs within one another are deeper than the interpreter
    goes by itself."""
    try:
        return _Reader(tokens, language).statement()
    except RecursionError:
        with _deepening:
            limit = sys.getrecursionlimit()
            sys.setrecursionlimit(limit + _DEEPER)
            try:
                return _Reader(tokens, language).statement()
            finally:
                sys.setrecursionlimit(limit)


@lru_cache(maxsize=256)
def read(text: str) -> Optional[Statement]:
    """The statement that a text is in either language, which nobody changes; None where it is none.
    What both languages read is one statement in both."""
    for language in (replace(_PROFILE, takes_lists=True), _WIDE):
        with suppress(Unreadable, RecursionError):
            return _read_in(tokens_of(text), language)
    return None


@dataclass
class _Reader:
    """Reads tokens. Each rule of the grammar is a method that goes on from the place `at`, or is a
    `_No`; `expected` are the words for what may stand at the furthest place that was looked at."""

    tokens: List[Token]
    language: Language
    at: int = 0
    furthest: int = 0
    expected: List[str] = field(default_factory=list)
    # What rules read from a place before, with the place after it.
    known: Dict[Tuple[str, int], Optional[Tuple[Any, int]]] = field(default_factory=dict)

    def statement(self) -> Statement:
        """The whole text as a statement."""
        try:
            found = self._any_statement()
            if self._here.sort != "end":
                self._no("the end")
            return found
        except _No:
            before = self.tokens[self.furthest - 1] if self.furthest else None
            raise Unreadable(self.tokens[self.furthest], before, self.expected) from None

    def _any_statement(self) -> Statement:
        if self._here.is_word("SELECT"):
            return self._select()
        if self._here.is_word("UPDATE"):
            return self._update()
        return self._delete() if self._here.is_word("DELETE") else self._no(*_STATEMENTS)

    # -- tokens

    @property
    def _here(self) -> Token:
        return self.tokens[self.at]

    def _is_keyword(self) -> bool:
        return self._here.said.upper() in self.language.keywords

    def _note(self, *expected: str) -> None:
        if self.at > self.furthest:
            self.furthest, self.expected = self.at, []
        if self.at == self.furthest:
            self.expected += [each for each in expected if each not in self.expected]

    def _no(self, *expected: str) -> NoReturn:
        self._note(*expected)
        raise _No

    def _next(self) -> Token:
        self.at += 1
        return self.tokens[self.at - 1]

    def _may(self, word: str) -> bool:
        """Whether a keyword stands here, which is passed then."""
        if self._here.is_word(word):
            self.at += 1
            return True
        self._note(word)
        return False

    def _may_mark(self, mark: str) -> bool:
        if self._here.is_mark(mark):
            self.at += 1
            return True
        self._note(f"'{mark}'")
        return False

    def _must(self, *words: str) -> None:
        for word in words:
            if not self._may(word):
                raise _No

    def _must_mark(self, mark: str) -> None:
        if not self._may_mark(mark):
            raise _No

    def _word(self, what: str) -> Token:
        """Any word: an entity, or a name after a dot."""
        return self._next() if self._here.sort == "word" else self._no(what)

    def _name(self, what: str) -> Token:
        """A variable or an item's name, which is no keyword."""
        is_name = self._here.sort == "word" and not self._is_keyword()
        return self._next() if is_name else self._no(what)

    def _named(self, what: str) -> Token:
        """A variable or an item's name, which AS may stand before."""
        if self._here.is_word("AS"):
            self.at += 1
        return self._name(what)

    def _end(self) -> int:
        """The place of the character behind what was read last."""
        return self.tokens[self.at - 1].end

    # -- rules

    def _listed(self, rule: Callable[[], T]) -> List[T]:
        """What a rule reads once or more, with commas between."""
        read = [rule()]
        while self._may_mark(","):
            read.append(rule())
        return read

    def _closed(self, rule: Callable[[], T]) -> T:
        """What a rule reads, in parentheses."""
        self._must_mark("(")
        read = rule()
        self._must_mark(")")
        return read

    def _try(self, rule: Callable[[], T]) -> Optional[T]:
        """What a rule reads, or None and nothing is passed."""
        start = self.at
        try:
            return rule()
        except _No:
            self.at = start
            return None

    def _once(self, name: str, rule: Callable[[], T]) -> T:
        """What a rule reads, kept for the next time that it is read here."""
        place = (name, self.at)
        if place not in self.known:
            found = self._try(rule)
            self.known[place] = None if found is None else (found, self.at)
        kept = self.known[place]
        if kept is None:
            raise _No
        self.at = kept[1]
        return kept[0]  # type: ignore[no-any-return]

    # -- SELECT

    def _select(self) -> Block:
        self._must("SELECT")
        is_distinct = self._may("DISTINCT")
        items = self._listed(self._item)
        self._must("FROM")
        block = Block(is_distinct, items, self._sources(self._range), self._end())
        if self._may("WHERE"):
            block.where = self._condition()
        if self._may("GROUP"):
            self._must("BY")
            block.groups = self._listed(self._path)
        if self._may("HAVING"):
            block.having = self._condition()
        if self._may("ORDER"):
            self._must("BY")
            block.keys = self._listed(self._key)
        return block

    def _nested(self) -> Block:
        """A nested SELECT."""
        self._must("SELECT")
        return self._from_nested(self._may("DISTINCT"), self._item())

    def _scalar(self) -> Block:
        """A nested SELECT of an aggregate alone."""
        self._must("SELECT")
        if not any(map(self._here.is_word, AGGREGATES)):
            self._no(*AGGREGATES)
        return self._from_nested(False, Item(self._call(self._here.said.upper()), None))

    def _from_nested(self, is_distinct: bool, item: Item) -> Block:
        """What follows on the item of a nested SELECT."""
        self._must("FROM")
        sources = self._sources(lambda: self._try(self._range) or self._related())
        block = Block(is_distinct, [item], sources, self._end())
        if self._may("WHERE"):
            block.where = self._condition()
        return block

    def _item(self) -> Item:
        value = self._value()
        if self._here.is_word("AS"):
            return Item(value, self._named("a name"))
        return Item(value, self._try(lambda: self._name("a name")))

    def _key(self) -> Key:
        value = self._value() if self.language.orders_by_values else self._path()
        return Key(value, False if self._may("ASC") else self._may("DESC"))

    def _sources(self, rule: Callable[[], Source]) -> List[Source]:
        """Ranges, each with its joins."""
        found: List[Source] = []
        while True:
            found.append(rule())
            while any(map(self._here.is_word, ("JOIN", "INNER", "LEFT"))):
                found.append(self._join())
            self._note("JOIN")
            if not self._may_mark(","):
                return found

    def _range(self) -> Source:
        entity = self._word("an entity")
        return Source(self._named("a variable"), entity)

    def _related(self) -> Source:
        """What a variable leads to along a relation, under a variable."""
        start = self._name("a variable")
        self._must_mark(".")
        relation = self._word("a relation")
        return Source(self._named("a variable"), None, start, relation)

    def _join(self) -> Source:
        is_left = self._may("LEFT")
        if is_left:
            self._may("OUTER")
        else:
            self._may("INNER")
        self._must("JOIN")
        join = self._related()
        join.is_left = is_left
        if self._may("ON"):
            join.on = self._condition()
        return join

    # -- UPDATE and DELETE

    def _update(self) -> Bulk:
        self._must("UPDATE")
        source = self._range()
        self._must("SET")
        sets = self._listed(self._assignment)
        return Bulk(source, sets, self._condition() if self._may("WHERE") else None)

    def _assignment(self) -> Assignment:
        variable = self._name("a variable")
        self._must_mark(".")
        name = self._word("a member")
        self._must_mark("=")
        return Assignment(variable, name, None if self._may("NULL") else self._value())

    def _delete(self) -> Bulk:
        self._must("DELETE", "FROM")
        source = Source(None, self._word("an entity"))
        if self._here.is_word("AS"):
            source.variable = self._named("a variable")
        else:
            source.variable = self._try(lambda: self._name("a variable"))
        return Bulk(source, None, self._condition() if self._may("WHERE") else None)

    # -- conditions

    def _condition(self) -> Node:
        return self._once("condition", lambda: self._joined("OR", "or", self._all))

    def _all(self) -> Node:
        return self._joined("AND", "and", self._negation)

    def _joined(self, word: str, sort: str, rule: Callable[[], Node]) -> Node:
        start, parts = self._here.at, [rule()]
        while self._may(word):
            parts.append(rule())
        return parts[0] if len(parts) == 1 else Node(sort, start, self._end(), parts=tuple(parts))

    def _negation(self) -> Node:
        start = self._here.at
        if not self._may("NOT"):
            return self._test()
        return Node("not", start, parts=(self._test(),), end=self._end())

    def _test(self) -> Node:
        return self._once("test", self._any_test)

    def _any_test(self) -> Node:
        start = self._here.at
        if self._may("EXISTS"):
            return Node("exists", start, parts=(self._closed(self._nested),), end=self._end())
        if self._may("TYPE"):
            return self._type_test(start)
        if self._begins_rows():
            return self._scalar_first()
        closed = None
        if self._here.is_mark("("):
            closed = self._try(lambda: self._closed(self._condition))
        return closed or self._try(self._value_test) or self._empty_test()

    def _type_test(self, start: int) -> Node:
        variable = self._closed(lambda: self._name("a variable"))
        if self._may_mark("=") or self._may_mark("<>"):
            entities = [self._word("an entity")]
        else:
            self._may("NOT")
            self._must("IN")
            entities = self._closed(lambda: self._listed(lambda: self._word("an entity")))
        return Node("type", start, self._end(), words=(variable, *entities))

    def _empty_test(self) -> Node:
        path = self._path()
        self._must("IS")
        self._may("NOT")
        self._must("EMPTY")
        return Node("empty", path.at, self._end(), parts=(path,))

    def _value_test(self, is_inside: bool = False) -> Node:
        """A test of a value; inside a CASE, one of values alone."""
        value = self._value()
        self._note("a comparison")
        if self._here.sort == "mark" and self._here.said in COMPARISONS:
            operator = self._next().said
            if self._begins_rows() and not is_inside:
                return self._beside(value, operator, self._closed(self._scalar))
            takes_rows = self.language.compares_rows and not is_inside
            if takes_rows and any(map(self._may, QUANTIFIERS)):
                word = self.tokens[self.at - 1]
                return self._beside(value, operator, self._closed(self._nested), word)
            return self._of_values("compare", value, self._value(), said=operator)
        if self._here.is_word("IS"):
            self.at += 1
            self._may("NOT")
            self._must("NULL")
            return self._of_values("null", value)
        if self._here.is_word("NOT"):
            self.at += 1
        return self._worded_test(value, is_inside)

    def _worded_test(self, value: Node, is_inside: bool) -> Node:
        """A test of a value by BETWEEN, IN, LIKE or MEMBER."""
        if self._may("BETWEEN"):
            low = self._value()
            self._must("AND")
            return self._of_values("between", value, low, self._value())
        if self._may("IN"):
            if self._begins_rows() and not is_inside:
                word = self.tokens[self.at - 1]
                return self._beside(value, "=", self._closed(self._nested), word)
            if self.language.takes_lists and self._here.sort == "parameter":
                return self._of_values("in", value, self._atom())
            return self._of_values("in", value, *self._closed(lambda: self._listed(self._value)))
        if self._may("LIKE"):
            pattern, escape = self._value(), ""
            if self._may("ESCAPE"):
                escape = self._next().said if self._here.sort == "text" else self._no("a text")
                # Inside a CASE one that isn't one character escapes nothing.
                said = "" if is_inside and len(escape) != 1 else f"'{escape}'"
                return self._of_values("like", value, pattern, said=said)
            return self._of_values("like", value, pattern)
        if is_inside:
            raise _No
        self._must("MEMBER")
        self._may("OF")
        return self._of_values("member", value, self._path())

    def _begins_rows(self) -> bool:
        """Whether a nested SELECT that a value is compared with begins here."""
        is_nested = self._here.is_mark("(") and self.tokens[self.at + 1].is_word("SELECT")
        return is_nested and self.language.compares_rows

    def _beside(self, value: Node, operator: str, block: Block, *words: Token) -> Node:
        return Node("rows", value.at, self._end(), operator, (value, block), words)

    def _scalar_first(self) -> Node:
        """A nested SELECT of an aggregate, and what it is compared with."""
        start, block = self._here.at, self._closed(self._scalar)
        if self._here.said not in COMPARISONS:
            self._no("a comparison")
        operator = self._next().said
        return replace(self._beside(self._value(), operator, block), at=start)

    def _of_values(self, sort: str, *values: Node, said: str = "") -> Node:
        return Node(sort, values[0].at, self._end(), said, values)

    # -- values

    def _value(self) -> Node:
        return self._once("value", lambda: self._folded(("+", "-"), self._product))

    def _product(self) -> Node:
        return self._folded(("*",), self._signed)

    def _folded(self, marks: Tuple[str, ...], rule: Callable[[], Node]) -> Node:
        start, parts = self._here.at, [rule()]
        while self._here.sort == "mark" and self._here.said in marks:
            self.at += 1
            parts.append(rule())
        is_one = len(parts) == 1
        return parts[0] if is_one else Node("arithmetic", start, self._end(), parts=tuple(parts))

    def _signed(self) -> Node:
        start = self._here.at
        if not (self._here.is_mark("+") or self._here.is_mark("-")):
            return self._once("atom", self._atom)
        self.at += 1
        return Node("signed", start, parts=(self._once("atom", self._atom),), end=self._end())

    def _atom(self) -> Node:
        token = self._here
        if token.sort in ("integer", "text"):
            self.at += 1
            said: Union[int, str] = int(token.said) if token.sort == "integer" else token.said
            return Node("literal", token.at, token.end, value=said)
        if token.sort == "parameter":
            self.at += 1
            return Node("parameter", token.at, token.end, token.said)
        if token.is_mark("("):
            value = self._closed(self._value)
            return replace(value, at=token.at, end=self._end())
        if token.sort != "word":
            self._no("a value")
        if self.language.has_cases and token.is_word("CASE"):
            return self._case()
        call = token.said.upper()
        is_call = call in (*self.language.functions, *AGGREGATES, "SIZE")
        return self._call(call) if is_call else self._path()

    # -- CASE

    def _case(self) -> Node:
        start, parts = self._next().at, []
        if not self._here.is_word("WHEN"):
            self._note("WHEN")
            parts.append(self._value())
        said = "value" if parts else ""
        self._must("WHEN")
        while True:
            parts.append(self._value() if said else self._when())
            self._must("THEN")
            parts.append(self._value())
            if not self._may("WHEN"):
                break
        self._must("ELSE")
        parts.append(self._value())
        self._must("END")
        return Node("case", start, self._end(), said, tuple(parts))

    def _when(self) -> Node:
        """What stands behind WHEN: tests of values, with AND, OR, NOT and parentheses."""
        return self._once("when", lambda: self._joined("OR", "or", self._when_all))

    def _when_all(self) -> Node:
        return self._joined("AND", "and", self._when_negation)

    def _when_negation(self) -> Node:
        start = self._here.at
        if not self._may("NOT"):
            return self._when_test()
        return Node("not", start, parts=(self._when_test(),), end=self._end())

    def _when_test(self) -> Node:
        return self._once("when test", self._any_when_test)

    def _any_when_test(self) -> Node:
        closed = None
        if self._here.is_mark("("):
            closed = self._try(lambda: self._closed(self._when))
        return closed or self._value_test(is_inside=True)

    def _path(self) -> Node:
        words = [self._name("a path")]
        while self._here.is_mark("."):
            self.at += 1
            words.append(self._word("a member"))
        return Node("path", words[0].at, words[-1].end, words=tuple(words))

    def _call(self, call: str) -> Node:
        start = self._next().at
        if call == "SIZE":
            return Node("size", start, parts=(self._closed(self._path),), end=self._end())
        if call in AGGREGATES:
            value = self._closed(self._counted)
            return Node("aggregate", start, self._end(), call, (value,))
        if call == "TRIM":
            parts = self._closed(self._trimmed)
            return Node("call", start, self._end(), call, parts)
        values = self._closed(lambda: self._listed(self._value))
        least, most = self.language.functions[call]
        if not least <= len(values) <= most:
            self.at -= 1
            others = "" if least == most else f" or {most if most < 9 else 'more'}"
            self._no(f"the end of {least}{others} value{'s' if most > 1 else ''} of {call}")
        return Node("call", start, self._end(), call, tuple(values))

    def _trimmed(self) -> Tuple[Node, ...]:
        """The value of TRIM, and behind it what is taken off, where that is said before FROM."""
        has_side = any(map(self._may, ("LEADING", "TRAILING", "BOTH")))
        taken = self._try(self._taken_off)
        if has_side and taken is None:
            self._must("FROM")
        return (self._value(),) if taken is None else (self._value(), taken)

    def _taken_off(self) -> Node:
        if self._here.sort not in ("text", "parameter"):
            self._no("a text", "a parameter")
        taken = self._atom()
        self._must("FROM")
        return taken

    def _counted(self) -> Node:
        self._may("DISTINCT")
        return self._value()


# ---- what a statement has


def nodes_of(part: Any) -> List[Node]:
    """The conditions and values of a statement or a part of it, each before those within it."""
    found: List[Node] = []
    _gather(part, found)
    return found


def _gather(part: Any, found: List[Node]) -> None:
    if isinstance(part, Node):
        found.append(part)
        _gather(part.parts, found)
    elif isinstance(part, (list, tuple)):
        for each in part:
            _gather(each, found)
    elif isinstance(part, (Item, Key, Assignment)):
        _gather(part.value, found)
    elif isinstance(part, Source):
        _gather(part.on, found)
    elif isinstance(part, Block):
        _gather([part.items, part.sources, part.where, part.groups, part.having, part.keys], found)
    elif isinstance(part, Bulk):
        _gather([part.sets, part.where], found)


def blocks_of(statement: Statement) -> List[Block]:
    """The SELECTs of a statement, with those within it."""
    parts = (part for node in nodes_of(statement) for part in node.parts)
    nested = [part for part in parts if isinstance(part, Block)]
    return [statement, *nested] if isinstance(statement, Block) else nested


def variables_of(statement: Statement) -> List[Token]:
    """The variables that a statement declares."""
    sources = [source for block in blocks_of(statement) for source in block.sources]
    sources += [statement.source] if isinstance(statement, Bulk) else []
    return [source.variable for source in sources if source.variable is not None]


def parameters_of(statement: Statement) -> List[Node]:
    """The parameters of a statement, where they stand."""
    return [node for node in nodes_of(statement) if node.sort == "parameter"]
