"""What to say of a nested SELECT that the wider language can't read beside a value."""

from __future__ import annotations

from typing import Callable, List, NamedTuple, Optional, Sequence, Tuple

from .statements import AGGREGATES, COMPARISONS, LANGUAGES, QUANTIFIERS, LanguageName, Token, Unreadable

Told = Optional[Tuple[Token, str]]


class _Place(NamedTuple):
    """Where a text can't be read on: the token there, those before it, those of them behind the
    innermost parenthesis that is open, and what is expected."""

    token: Token
    before: Sequence[Token]
    within: Sequence[Token]
    expected: Sequence[str]

    @property
    def is_nested(self) -> bool:
        """Whether it is in a nested SELECT, and in no parentheses of that."""
        return bool(self.within) and self.within[0].is_word("SELECT")

    def follows(self, *words: str) -> bool:
        """Whether one of these words or marks stands right before."""
        last = self.before[-1:]
        return any(each.is_word(word) or each.is_mark(word) for each in last for word in words)


def nested_told(fault: Unreadable, tokens: Sequence[Token], language: LanguageName) -> Told:
    """The token to look at and what to say of it, where a nested SELECT or a word before one is why a
    text can't be read in a language that compares values with rows; else None."""
    if not LANGUAGES[language].compares_rows:
        return None
    before = [each for each in tokens if each.end <= fault.token.at]
    place = _Place(fault.token, before, _within(before), fault.expected)
    rules: List[Callable[[_Place], Told]] = [_quantifier, _behind_quantifier, _select, _scalar, _inside]
    return next((told for told in (rule(place) for rule in rules) if told), None)


def _within(before: Sequence[Token]) -> Sequence[Token]:
    """The tokens behind the innermost parenthesis that is open."""
    closed = 0
    for at in range(len(before) - 1, -1, -1):
        if before[at].is_mark(")"):
            closed += 1
        elif before[at].is_mark("("):
            if not closed:
                return before[at + 1 :]
            closed -= 1
    return []


def _is_quantifier(token: Token) -> bool:
    return any(map(token.is_word, QUANTIFIERS))


def _quantifier(place: _Place) -> Told:
    """ANY, SOME or ALL where no comparison stands before."""
    token = place.token
    if not _is_quantifier(token) or not {"a value", "a path", "'('"} & set(place.expected):
        return None
    word = token.said.upper()
    if place.follows("IN"):
        return token, f"IN takes the nested SELECT alone, as IN (SELECT ..): leave {word} out"
    behind = f"{word} stands behind {', '.join(COMPARISONS[:-1])} or {COMPARISONS[-1]}"
    if place.follows("LIKE", "BETWEEN", "MEMBER", "OF"):
        return token, f"{behind} alone, and not behind {place.before[-1].said.upper()}"
    return token, f"{behind}, as in p.id = {word} (SELECT ..), and is no name"


def _behind_quantifier(place: _Place) -> Told:
    """What stands behind ANY, SOME or ALL and is no nested SELECT."""
    before = place.before[:-1] if place.follows("(") else place.before
    if not before or not _is_quantifier(before[-1]) or not {"'('", "SELECT"} & set(place.expected):
        return None
    word = before[-1].said.upper()
    way = f"{word} takes a nested SELECT in parentheses, as {word} (SELECT ..)"
    return place.token, f"{way}; among values IN asks, as IN (1, 2)"


def _select(place: _Place) -> Told:
    """A nested SELECT where none may stand."""
    token = place.token
    if not token.is_word("SELECT") or not place.before:
        return None
    if not place.follows("("):
        return token, "a nested SELECT stands in parentheses, as in IN (SELECT ..)"
    sides = place.before[-3:]
    if len(sides) == 3 and sides[0].is_mark(")") and sides[1].said in COMPARISONS:
        way = "compare each with a value, or ask EXISTS"
        return token, f"a nested SELECT stands on one side of a comparison, and a value on the other: {way}"
    where = "alone on its side of a comparison, behind IN, ANY, SOME or ALL, and in EXISTS"
    return token, f"a nested SELECT stands {where}: it is no part of a value"


def _scalar(place: _Place) -> Told:
    """What a nested SELECT beside a comparison has for an item."""
    token, items = place.token, place.within[1:]
    if not place.is_nested:
        return None
    if not items and "COUNT" in place.expected and "a value" not in place.expected:
        if token.is_word("DISTINCT"):
            return token, "DISTINCT stands within the aggregate here, as in COUNT(DISTINCT p.name)"
        listed = f"{', '.join(AGGREGATES[:-1])} or {AGGREGATES[-1]}"
        way = "of single rows = ANY (SELECT ..) asks, or ALL"
        return token, f"beside a comparison a nested SELECT selects {listed}: {way}"
    is_one = bool(items) and any(map(items[0].is_word, AGGREGATES)) and place.expected == ["FROM"]
    if is_one and (token.is_word("AS") or any(map(token.is_mark, "+-*"))):
        word = items[0].said.upper()
        return token, f"beside a comparison a nested SELECT selects {word}(..) alone, then FROM follows"
    return None


def _inside(place: _Place) -> Told:
    """What stands in a nested SELECT, or is missing there."""
    token = place.token
    if not place.is_nested:
        return None
    has_from = any(each.is_word("FROM") for each in place.within)
    if token.is_mark(",") and not has_from:
        return token, "a nested SELECT has one item: what the value is compared with"
    if any(map(token.is_word, ("GROUP", "HAVING", "ORDER"))) and has_from:
        said = token.said.upper() if token.is_word("HAVING") else f"{token.said.upper()} BY"
        return token, f"a nested SELECT ends behind its WHERE: it has no {said}"
    if (token.is_mark(")") or token.sort == "end") and "FROM" in place.expected:
        return token, "the nested SELECT has no FROM: it is missing here"
    if token.sort == "end" and "')'" in place.expected:
        return place.within[0], "the parenthesis before this SELECT is never closed: ')' is missing"
    return None
