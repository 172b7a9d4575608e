"""The texts of queries, as the model reads them: words, marks and numbers, and the statement that
they make by the grammar, with the limits of a text. A statement is a `Node`; parentheses leave
none.
"""
from __future__ import annotations

import re
from typing import TYPE_CHECKING, Any, Callable, Iterator

from model.reading import GREATEST, Refused

if TYPE_CHECKING:
    from model.kinds import Value

TEXT_LENGTH, NESTING, VARIABLES, TOGETHER, CASES = 16384, 32, 8, 65536, 64
KEYWORDS = set(
    """SELECT DISTINCT FROM WHERE GROUP BY HAVING ORDER AS INNER LEFT OUTER JOIN ON ASC DESC
    UPDATE SET NULL DELETE OR AND NOT BETWEEN IN LIKE ESCAPE IS EMPTY MEMBER OF EXISTS TYPE LENGTH
    CONCAT SUBSTRING LOCATE ABS MOD SIZE COALESCE NULLIF COUNT SUM MIN MAX""".split()
)
# The words that the wider language has besides.
WIDE_KEYWORDS = KEYWORDS | set(
    "UPPER LOWER TRIM LEADING TRAILING BOTH CASE WHEN THEN ELSE END ALL ANY SOME".split()
)
SIDES = ("LEADING", "TRAILING", "BOTH")
COMPARISONS = ("=", "<>", "<", "<=", ">", ">=")
# What a comparison is when its sides change places.
TURNED = {"=": "=", "<>": "<>", "<": ">", "<=": ">=", ">": "<", ">=": "<="}
# How many values a function takes, from and to.
FUNCTIONS = {
    "LENGTH": (1, 1), "CONCAT": (2, None), "SUBSTRING": (2, 3), "LOCATE": (2, 3), "ABS": (1, 1),
    "MOD": (2, 2), "COALESCE": (2, None), "NULLIF": (2, 2),
}
WIDE_FUNCTIONS = {**FUNCTIONS, "UPPER": (1, 1), "LOWER": (1, 1)}
AGGREGATES = {"COUNT", "SUM", "MIN", "MAX"}
TOKEN = re.compile(
    r"[ \t\r\n]*(?:(?P<word>[A-Za-z_][A-Za-z0-9_]*)|(?P<integer>[0-9]+)"
    r"|'(?P<text>(?:[^']|'')*)'|:(?P<named>[A-Za-z_][A-Za-z0-9_]*)"
    r"|\?(?P<numbered>[0-9]+)|(?P<mark><>|<=|>=|[(),.+*=<>-]))"
)
BLANKS = re.compile(r"[ \t\r\n]*")


class Syntax(Exception):
    """The text is outside the grammar."""


class Node:
    """A part of a statement: its sort, and its members by name."""

    def __init__(self, sort: str, **members: Any) -> None:
        self.sort = sort
        self.__dict__.update(members)

    def __repr__(self) -> str:
        members = [f"{name}={value!r}" for name, value in vars(self).items() if name != "sort"]
        return f"{self.sort}({', '.join(members)})"


def tokens_of(text: str) -> list[tuple[str, str]]:
    """The tokens of a text: pairs of a sort and what it says."""
    found, at = [], 0
    while True:
        at = BLANKS.match(text, at).end()
        if at == len(text):
            return found
        token = TOKEN.match(text, at)
        if not token:
            raise Syntax(text[at:at + 20])
        sort, said = token.lastgroup, token.group(token.lastgroup)
        if sort == "integer":
            said = said.lstrip("0") or "0"
            if len(said) > 19 or int(said) > GREATEST:
                raise Syntax(said)
        elif sort == "numbered" and said.startswith("0"):
            raise Syntax(said)
        elif sort == "text":
            said = said.replace("''", "'")
        found.append(("parameter" if sort in ("named", "numbered") else sort, said))
        at = token.end()


def nesting(text: str) -> int:
    """The most parentheses that are open at a place outside quotes."""
    depth = most = 0
    is_quoted = False
    for character in text:
        if character == "'":
            is_quoted = not is_quoted
        elif not is_quoted:
            depth = (
                depth + 1 if character == "(" else max(0, depth - 1) if character == ")" else depth
            )
            most = max(most, depth)
    return most


class Reader:
    """A reader of tokens. Each rule of the grammar is a method from a place to what it reads and
    the place after it, or None."""

    def __init__(
        self, tokens: list[tuple[str, str]], is_wide: bool, lists: dict[str, int]
    ) -> None:
        self.tokens, self.known = tokens, {}
        self.is_wide, self.lists = is_wide, lists
        self.keywords = WIDE_KEYWORDS if is_wide else KEYWORDS
        self.functions = WIDE_FUNCTIONS if is_wide else FUNCTIONS

    # -- tokens

    def is_mark(self, at: int, mark: str) -> bool:
        return at < len(self.tokens) and self.tokens[at] == ("mark", mark)

    def is_word(self, at: int, *words: str) -> bool:
        """Whether these keywords stand here."""
        there = self.tokens[at:at + len(words)]
        return [sort == "word" and said.upper() for sort, said in there] == list(words)

    def word(self, at: int) -> tuple[str, int] | None:
        """Any word: an entity, or a name after a dot."""
        return (
            (self.tokens[at][1], at + 1)
            if at < len(self.tokens) and self.tokens[at][0] == "word"
            else None
        )

    def name(self, at: int) -> tuple[str, int] | None:
        """A variable or an item's name, which is no keyword."""
        found = self.word(at)
        return found if found and found[0].upper() not in self.keywords else None

    def named(self, at: int) -> tuple[str, int] | None:
        """A variable, which AS may stand before."""
        return self.name(at + 1 if self.is_word(at, "AS") else at)

    def listed(self, rule: Callable[..., Any], at: int) -> tuple[list[Any], int] | None:
        """What a rule reads once or more, with commas between."""
        found = rule(at)
        if not found:
            return None
        read = [found[0]]
        while self.is_mark(found[1], ","):
            found = rule(found[1] + 1)
            if not found:
                return None
            read.append(found[0])
        return read, found[1]

    def closed(self, rule: Callable[..., Any], at: int) -> tuple[Any, int] | None:
        """What a rule reads, in parentheses."""
        found = rule(at + 1) if self.is_mark(at, "(") else None
        return (found[0], found[1] + 1) if found and self.is_mark(found[1], ")") else None

    def once(self, rule: str, at: int) -> tuple[Node, int] | None:
        """What a rule reads here, remembered."""
        if (rule, at) not in self.known:
            self.known[rule, at] = getattr(self, rule)(at)
        return self.known[rule, at]

    # -- statements

    def statement(self) -> Node:
        for rule in (self.select, self.update, self.delete):
            found = rule(0)
            if found and found[1] == len(self.tokens):
                return found[0]
        raise Syntax("statement")

    def clause(
        self, words: list[str], rule: Callable[..., Any], at: int
    ) -> tuple[Node | list[Node] | None, int] | None:
        """What a rule reads after these words, or nothing where they don't stand here."""
        return rule(at + len(words)) if self.is_word(at, *words) else (None, at)

    def clauses(
        self, at: int, *clauses: tuple[list[str], Callable[..., Any]]
    ) -> tuple[list[Node | list[Node] | None], int] | None:
        """What clauses read that follow on one another."""
        read = []
        for words, rule in clauses:
            found = self.clause(words, rule, at)
            if not found:
                return None
            read.append(found[0])
            at = found[1]
        return read, at

    def select(self, at: int) -> tuple[Node, int] | None:
        if not self.is_word(at, "SELECT"):
            return None
        is_distinct = self.is_word(at + 1, "DISTINCT")
        items = self.listed(self.item, at + 1 + is_distinct)
        sources = (
            items and self.is_word(items[1], "FROM") and self.sources(self.range, items[1] + 1)
        )
        found = sources and self.clauses(
            sources[1],
            (["WHERE"], self.condition),
            (["GROUP", "BY"], lambda at: self.listed(self.path, at)),
            (["HAVING"], self.condition),
            (["ORDER", "BY"], lambda at: self.listed(self.key, at)),
        )
        if not found:
            return None
        where, groups, having, keys = found[0]
        select = Node(
            "select", is_distinct=is_distinct, items=items[0], sources=sources[0], where=where,
            groups=groups, having=having, keys=keys,
        )
        return select, found[1]

    def nested(self, at: int) -> tuple[Node, int] | None:
        """A nested SELECT."""
        if not self.is_word(at, "SELECT"):
            return None
        is_distinct = self.is_word(at + 1, "DISTINCT")
        item = self.item(at + 1 + is_distinct)
        return self.from_nested(item[0], is_distinct, item[1]) if item else None

    def from_nested(self, item: Node, is_distinct: bool, at: int) -> tuple[Node, int] | None:
        """What follows on the item of a nested SELECT: FROM and WHERE."""
        sources = self.sources(self.nested_range, at + 1) if self.is_word(at, "FROM") else None
        found = sources and self.clauses(sources[1], (["WHERE"], self.condition))
        if not found:
            return None
        nested = Node(
            "select", is_distinct=is_distinct, items=[item], sources=sources[0],
            where=found[0][0], groups=None, having=None, keys=None,
        )
        return nested, found[1]

    def item(self, at: int) -> tuple[Node, int] | None:
        found = self.value(at)
        if not found:
            return None
        value, at = found
        named = self.named(at)
        if self.is_word(at, "AS") and not named:
            return None
        return (
            (Node("item", value=value, name=named[0]), named[1])
            if named
            else (Node("item", value=value, name=None), at)
        )

    def key(self, at: int) -> tuple[Node, int] | None:
        """An ORDER BY key: a path, the name of an item, or in the wider language any other value. A path
        in parentheses is a value too."""
        path = self.path(at)
        value = self.value(at) if self.is_wide else None
        found = value if value and (not path or path[1] < value[1]) else path
        if not found:
            return None
        by, at = found
        is_value = found is not path
        if not is_value and not by.names:
            by = Node("name", name=by.variable)
        direction = next((word for word in ("ASC", "DESC") if self.is_word(at, word)), None)
        key = Node("key", value=by, is_value=is_value, is_falling=direction == "DESC")
        return key, at + (direction is not None)

    # -- FROM

    def sources(self, rule: Callable[..., Any], at: int) -> tuple[list[Node], int] | None:
        """Ranges with their joins, as one list."""
        found = self.listed(lambda at: self.joined(rule, at), at)
        return ([source for sources in found[0] for source in sources], found[1]) if found else None

    def joined(self, rule: Callable[..., Any], at: int) -> tuple[list[Node], int] | None:
        found = rule(at)
        if not found:
            return None
        read, at = [found[0]], found[1]
        while self.is_word(at, "JOIN") or self.is_word(at, "INNER") or self.is_word(at, "LEFT"):
            found = self.join(at)
            if not found:
                return None
            read.append(found[0])
            at = found[1]
        return read, at

    def range(self, at: int) -> tuple[Node, int] | None:
        entity = self.word(at)
        variable = entity and self.named(entity[1])
        return (
            (Node("range", entity=entity[0], variable=variable[0]), variable[1])
            if variable
            else None
        )

    def nested_range(self, at: int) -> tuple[Node, int]:
        return self.range(at) or self.related(at)

    def related(self, at: int) -> tuple[Node, int] | None:
        """What a variable leads to along a relation, under a variable."""
        start = self.name(at)
        relation = start and self.is_mark(start[1], ".") and self.word(start[1] + 1)
        variable = relation and self.named(relation[1])
        return (
            (
                Node(
                    "related", start=start[0], relation=relation[0], variable=variable[0], on=None,
                    is_left=False,
                ),
                variable[1],
            )
            if variable
            else None
        )

    def join(self, at: int) -> tuple[Node, int] | None:
        is_left = self.is_word(at, "LEFT")
        at += is_left or self.is_word(at, "INNER")
        at += is_left and self.is_word(at, "OUTER")
        found = self.related(at + 1) if self.is_word(at, "JOIN") else None
        if not found:
            return None
        join, at = found
        found = self.clause(["ON"], self.condition, at)
        if not found:
            return None
        join.on, join.is_left = found[0], is_left
        return join, found[1]

    # -- UPDATE and DELETE

    def update(self, at: int) -> tuple[Node, int] | None:
        if not self.is_word(at, "UPDATE"):
            return None
        found = self.range(at + 1)
        sets = (
            found and self.is_word(found[1], "SET") and self.listed(self.assignment, found[1] + 1)
        )
        where = sets and self.clauses(sets[1], (["WHERE"], self.condition))
        return (
            (Node("update", source=found[0], sets=sets[0], where=where[0][0]), where[1])
            if where
            else None
        )

    def assignment(self, at: int) -> tuple[Node, int] | None:
        variable = self.name(at)
        name = variable and self.is_mark(variable[1], ".") and self.word(variable[1] + 1)
        if not name or not self.is_mark(name[1], "="):
            return None
        at = name[1] + 1
        found = (None, at + 1) if self.is_word(at, "NULL") else self.value(at)
        return (
            (Node("set", variable=variable[0], name=name[0], value=found[0]), found[1])
            if found
            else None
        )

    def delete(self, at: int) -> tuple[Node, int] | None:
        entity = self.word(at + 2) if self.is_word(at, "DELETE", "FROM") else None
        if not entity:
            return None
        variable = self.named(entity[1])
        if self.is_word(entity[1], "AS") and not variable:
            return None
        source = Node("range", entity=entity[0], variable=variable[0] if variable else None)
        where = self.clauses(variable[1] if variable else entity[1], (["WHERE"], self.condition))
        return (Node("delete", source=source, where=where[0][0]), where[1]) if where else None

    # -- conditions

    def condition(self, at: int) -> tuple[Node, int] | None:
        return self.once("alternatives", at)

    def joined_by(
        self, word: str, rule: Callable[..., Any], sort: str, at: int
    ) -> tuple[Node, int] | None:
        found = rule(at)
        if not found:
            return None
        parts = [found[0]]
        while self.is_word(found[1], word):
            found = rule(found[1] + 1)
            if not found:
                return None
            parts.append(found[0])
        return (parts[0] if len(parts) == 1 else Node(sort, parts=parts)), found[1]

    def alternatives(self, at: int) -> tuple[Node, int] | None:
        return self.joined_by(
            "OR", lambda at: self.joined_by("AND", self.negation, "and", at), "or", at
        )

    def negation(self, at: int) -> tuple[Node, int] | None:
        if not self.is_word(at, "NOT"):
            return self.once("test", at)
        found = self.once("test", at + 1)
        return (Node("not", part=found[0]), found[1]) if found else None

    def test(self, at: int) -> tuple[Node, int] | None:
        if self.is_word(at, "EXISTS"):
            found = self.closed(self.nested, at + 1)
            return (Node("exists", block=found[0]), found[1]) if found else None
        if self.is_word(at, "TYPE"):
            return self.type_test(at + 1)
        if self.is_mark(at, "(") and self.is_word(at + 1, "SELECT"):
            return self.scalar_first(at)
        return self.closed(self.condition, at) or self.value_test(at) or self.empty_test(at)

    def type_test(self, at: int) -> tuple[Node, int] | None:
        variable = self.closed(self.name, at)
        if not variable:
            return None
        at = variable[1]
        if self.is_mark(at, "=") or self.is_mark(at, "<>"):
            entity = self.word(at + 1)
            return entity and (
                self.negated(
                    self.is_mark(at, "<>"), Node("type", variable=variable[0], entities=[entity[0]])
                ),
                entity[1],
            )
        is_not = self.is_word(at, "NOT")
        entities = (
            self.closed(lambda at: self.listed(self.word, at), at + is_not + 1)
            if self.is_word(at + is_not, "IN")
            else None
        )
        return (
            (
                self.negated(is_not, Node("type", variable=variable[0], entities=entities[0])),
                entities[1],
            )
            if entities
            else None
        )

    def negated(self, is_not: bool, test: Node) -> Node:
        return Node("not", part=test) if is_not else test

    def empty_test(self, at: int) -> tuple[Node, int] | None:
        path = self.path(at)
        if not path or not self.is_word(path[1], "IS"):
            return None
        is_not = self.is_word(path[1] + 1, "NOT")
        at = path[1] + 1 + is_not
        return (
            (self.negated(is_not, Node("empty", path=path[0])), at + 1)
            if self.is_word(at, "EMPTY")
            else None
        )

    def value_test(self, at: int, is_inside: bool = False) -> tuple[Node, int] | None:
        """A test of a value; inside a CASE, one of values alone."""
        found = self.value(at)
        if not found:
            return None
        value, at = found
        operator = self.operator(at)
        if operator:
            other = self.value(at + 1)
            return (
                (Node("compare", operator=operator, left=value, right=other[0]), other[1])
                if other
                else None
                if is_inside
                else self.against(operator, value, at + 1)
            )
        if self.is_word(at, "IS"):
            is_not = self.is_word(at + 1, "NOT")
            return (
                (self.negated(is_not, Node("null", value=value)), at + is_not + 2)
                if self.is_word(at + is_not + 1, "NULL")
                else None
            )
        is_not = self.is_word(at, "NOT")
        found = self.worded_test(value, at + is_not, is_inside)
        return (self.negated(is_not, found[0]), found[1]) if found else None

    def worded_test(self, value: Node, at: int, is_inside: bool) -> tuple[Node, int] | None:
        """A test of a value by BETWEEN, IN, LIKE or MEMBER, which NOT may stand before."""
        if self.is_word(at, "BETWEEN"):
            low = self.value(at + 1)
            high = low and self.is_word(low[1], "AND") and self.value(low[1] + 1)
            return (
                (Node("between", value=value, low=low[0], high=high[0]), high[1]) if high else None
            )
        if self.is_word(at, "IN"):
            return self.in_test(value, at + 1, is_inside)
        if self.is_word(at, "LIKE"):
            return self.like_test(value, self.value(at + 1), is_inside)
        if self.is_word(at, "MEMBER") and not is_inside:
            path = self.path(at + 1 + self.is_word(at + 1, "OF"))
            return (Node("member", value=value, path=path[0]), path[1]) if path else None
        return None

    def operator(self, at: int) -> str | None:
        """The comparison that stands here."""
        sort, said = self.tokens[at] if at < len(self.tokens) else ("end", "")
        return said if sort == "mark" and said in COMPARISONS else None

    def in_test(self, value: Node, at: int, is_inside: bool) -> tuple[Node, int] | None:
        """IN of values in parentheses, of the rows of a subquery in the wider language outside of a
        CASE, or of a collection that was handed in for a parameter, with parentheses or without."""
        rows = self.closed(self.nested, at) if self.is_wide and not is_inside else None
        if rows:
            return self.beside("ANY", "=", value, rows)
        found = self.list_name(at) or self.closed(self.list_name, at)
        if found:
            listed, after = found
            values = [Node("parameter", name=(listed, k)) for k in range(self.lists[listed])]
            return Node("in", value=value, values=values, listed=listed), after
        values = self.closed(lambda at: self.listed(self.value, at), at)
        return (
            (Node("in", value=value, values=values[0], listed=None), values[1]) if values else None
        )

    # -- rows of a subquery beside a value, in the wider language

    def beside(
        self, against: str, operator: str, value: Node, block: tuple[Node, int],
        is_distinct: bool = False,
    ) -> tuple[Node, int]:
        """The comparison of a value with any rows of a subquery, with all, or with what an aggregate
        gives of them: the item of the subquery is what that is of."""
        rows = Node(
            "rows", against=against, is_distinct=is_distinct, operator=operator, value=value,
            block=block[0],
        )
        return rows, block[1]

    def against(self, operator: str, value: Node, at: int) -> tuple[Node, int] | None:
        """ALL, ANY or SOME with a subquery, or a subquery of an aggregate, behind a comparison."""
        if not self.is_wide:
            return None
        for word, against in (("ALL", "ALL"), ("ANY", "ANY"), ("SOME", "ANY")):
            if self.is_word(at, word):
                rows = self.closed(self.nested, at + 1)
                return self.beside(against, operator, value, rows) if rows else None
        found = self.closed(self.scalar, at)
        if not found:
            return None
        (aggregate, is_distinct, block), at = found
        return self.beside(aggregate, operator, value, (block, at), is_distinct)

    def scalar_first(self, at: int) -> tuple[Node, int] | None:
        """A subquery of an aggregate, a comparison and a value."""
        found = self.closed(self.scalar, at) if self.is_wide else None
        operator = found and self.operator(found[1])
        value = operator and self.value(found[1] + 1)
        if not value:
            return None
        aggregate, is_distinct, block = found[0]
        return self.beside(
            aggregate, TURNED[operator], value[0], (block, value[1]), is_distinct
        )

    def scalar(self, at: int) -> tuple[tuple[str, bool, Node], int] | None:
        """A nested SELECT of an aggregate, without a name: which it is, whether of distinct values,
        and the SELECT of what it is of."""
        is_one = any(self.is_word(at, "SELECT", word) for word in AGGREGATES)
        called = self.call(at + 1) if is_one else None
        if not called:
            return None
        aggregate, item = called[0], Node("item", value=called[0].value, name=None)
        found = self.from_nested(item, False, called[1])
        return ((aggregate.function, aggregate.is_distinct, found[0]), found[1]) if found else None

    def list_name(self, at: int) -> tuple[str, int] | None:
        """A parameter that a collection was handed in for."""
        sort, said = self.tokens[at] if at < len(self.tokens) else ("end", "")
        return (said, at + 1) if sort == "parameter" and said in self.lists else None

    def like_test(
        self, value: Node, pattern: tuple[Node, int], is_inside: bool
    ) -> tuple[Node, int] | None:
        """LIKE. Inside a CASE an ESCAPE that isn't one character escapes nothing."""
        if not pattern:
            return None
        at, escape = pattern[1], None
        if self.is_word(at, "ESCAPE"):
            if at + 1 >= len(self.tokens) or self.tokens[at + 1][0] != "text":
                return None
            at, escape = at + 2, self.tokens[at + 1][1]
            escape = None if is_inside and len(escape) != 1 else escape
        return Node("like", value=value, pattern=pattern[0], escape=escape), at

    # -- values

    def value(self, at: int) -> tuple[Node, int] | None:
        return self.once("sum", at)

    def folded(self, marks: str, rule: Callable[..., Any], at: int) -> tuple[Node, int] | None:
        """What a rule reads once or more, with these marks between: one node with the marks and
        parts."""
        found = rule(at)
        if not found:
            return None
        parts = [(None, found[0])]
        while any(self.is_mark(found[1], mark) for mark in marks):
            mark = self.tokens[found[1]][1]
            found = rule(found[1] + 1)
            if not found:
                return None
            parts.append((mark, found[0]))
        return (parts[0][1] if len(parts) == 1 else Node("arithmetic", parts=parts)), found[1]

    def sum(self, at: int) -> tuple[Node, int] | None:
        return self.folded("+-", lambda at: self.folded("*", self.signed, at), at)

    def signed(self, at: int) -> tuple[Node, int] | None:
        sign = next((mark for mark in "+-" if self.is_mark(at, mark)), None)
        if not sign:
            return self.once("atom", at)
        found = self.once("atom", at + 1)
        return (Node("signed", sign=sign, value=found[0]), found[1]) if found else None

    def atom(self, at: int) -> tuple[Node, int] | None:
        if at >= len(self.tokens):
            return None
        sort, said = self.tokens[at]
        if sort == "integer":
            return Node("literal", value=int(said)), at + 1
        if sort == "text":
            return Node("literal", value=said), at + 1
        if sort == "parameter":
            return Node("parameter", name=said), at + 1
        if sort == "mark":
            return self.closed(self.value, at)
        if self.is_wide and self.is_word(at, "CASE"):
            return self.case(at + 1)
        return self.path(at) or self.call(at)

    # -- CASE, in the wider language

    def case(self, at: int) -> tuple[Node, int] | None:
        """What stands behind CASE: tests or, behind a value, what that may equal, each with a value,
        and the value behind ELSE."""
        operand, rule = None, self.when
        if not self.is_word(at, "WHEN"):
            found = self.value(at)
            if not found:
                return None
            (operand, at), rule = found, self.value
        whens, thens = [], []
        while self.is_word(at, "WHEN"):
            when = rule(at + 1)
            then = when and self.is_word(when[1], "THEN") and self.value(when[1] + 1)
            if not then:
                return None
            whens.append(when[0])
            thens.append(then[0])
            at = then[1]
        last = self.value(at + 1) if whens and self.is_word(at, "ELSE") else None
        if not last or not self.is_word(last[1], "END"):
            return None
        node = Node("case", operand=operand, whens=whens, thens=thens, otherwise=last[0])
        return node, last[1] + 1

    def when(self, at: int) -> tuple[Node, int] | None:
        """What stands behind WHEN: tests of values, with AND, OR, NOT and parentheses."""
        return self.once("when_alternatives", at)

    def when_alternatives(self, at: int) -> tuple[Node, int] | None:
        return self.joined_by(
            "OR", lambda at: self.joined_by("AND", self.when_negation, "and", at), "or", at
        )

    def when_negation(self, at: int) -> tuple[Node, int] | None:
        if not self.is_word(at, "NOT"):
            return self.once("when_test", at)
        found = self.once("when_test", at + 1)
        return (Node("not", part=found[0]), found[1]) if found else None

    def when_test(self, at: int) -> tuple[Node, int] | None:
        """A test. A parenthesis begins tests where the one that closes it ends a test."""
        found = self.closed(self.when, at)
        value = self.value_test(at, is_inside=True)
        return value if value and (not found or found[1] < value[1]) else found

    def path(self, at: int) -> tuple[Node, int] | None:
        found = self.name(at)
        if not found:
            return None
        variable, at = found
        names = []
        while self.is_mark(at, "."):
            found = self.word(at + 1)
            if not found:
                return None
            names.append(found[0])
            at = found[1]
        return Node("path", variable=variable, names=names), at

    def trim(self, at: int) -> tuple[Node, int] | None:
        """What stands in TRIM: the value alone, or before FROM a side, a text or both."""
        side = next((side for side in SIDES if self.is_word(at, side)), None)
        behind = at + 1 if side else at
        sort, said = self.tokens[behind] if behind < len(self.tokens) else ("end", "")
        off = {
            "text": [Node("literal", value=said)], "parameter": [Node("parameter", name=said)],
        }.get(sort, [])
        behind += len(off)
        has_from = self.is_word(behind, "FROM") and (side or off)
        if side and not has_from:
            return None
        found = self.value(behind + 1 if has_from else at)
        if not found:
            return None
        values = [found[0], *(off if has_from else [])]
        return Node("call", function=f"TRIM {side or 'BOTH'}", values=values), found[1]

    def call(self, at: int) -> tuple[Node, int] | None:
        word = self.tokens[at][1].upper()
        if word == "SIZE":
            path = self.closed(self.path, at + 1)
            return (Node("size", path=path[0]), path[1]) if path else None
        if word in AGGREGATES:
            is_distinct = self.is_word(at + 2, "DISTINCT") and self.is_mark(at + 1, "(")
            found = self.closed(lambda at: self.value(at + is_distinct), at + 1)
            return (
                (
                    Node("aggregate", function=word, is_distinct=is_distinct, value=found[0]),
                    found[1],
                )
                if found
                else None
            )
        if word == "TRIM" and self.is_wide:
            return self.closed(self.trim, at + 1)
        least, most = self.functions.get(word, (0, -1))
        found = (
            self.closed(lambda at: self.listed(self.value, at), at + 1)
            if word in self.functions
            else None
        )
        return (
            (Node("call", function=word, values=found[0]), found[1])
            if found and least <= len(found[0]) <= (most or len(found[0]))
            else None
        )


# ---- statements

def parts_of(node: Node) -> Iterator[Node | None]:
    """A part of a statement with all parts below it."""
    yield node
    for member in vars(node).values():
        for part in member if isinstance(member, list) else [member]:
            part = part[1] if isinstance(part, tuple) else part
            if isinstance(part, Node):
                yield from parts_of(part)


def variables_of(statement: Node) -> list[str]:
    """The variables that a statement declares."""
    return [
        node.variable
        for node in parts_of(statement)
        if node.sort in ("range", "related") and node.variable is not None
    ]


def values_together(tokens: list[tuple[str, str]], lists: dict[str, int]) -> int:
    """How many values the collections become in a text: those of each, wherever it stands alone behind
    IN, with parentheses around it or not."""
    found = 0
    for at, (sort, said) in enumerate(tokens):
        if sort == "word" and said.upper() == "IN":
            behind = tokens[at + 1:at + 4]
            if behind[:1] == [("mark", "(")] and behind[2:] == [("mark", ")")]:
                behind = behind[1:]
            found += sum(lists.get(said, 0) for sort, said in behind[:1] if sort == "parameter")
    return found


def cases(tokens: list[tuple[str, str]]) -> int:
    """How many words CASE stand in a text, of whatever use."""
    return sum(sort == "word" and said.upper() == "CASE" for sort, said in tokens)


def statement_of(
    text: str, is_wide: bool = False, lists: dict[str, int] | None = None
) -> Node | None:
    """The statement that a text is, in the profile's language or the wider one, with how many values
    the collections have that are handed in for its parameters; None where it is outside the grammar,
    and a refusal where it is past a limit."""
    if len(text.encode()) > TEXT_LENGTH or nesting(text) > NESTING:
        raise Refused("Limit")
    try:
        tokens = tokens_of(text)
        if values_together(tokens, lists or {}) > TOGETHER or is_wide and cases(tokens) > CASES:
            raise Refused("Limit")
        statement = Reader(tokens, is_wide, lists or {}).statement()
    except Syntax:
        return None
    if len(variables_of(statement)) > VARIABLES:
        raise Refused("Limit")
    return statement
