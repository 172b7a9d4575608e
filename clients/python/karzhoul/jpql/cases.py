"""What to say of a CASE that the wider language can't read."""

from __future__ import annotations

from typing import Callable, List, NamedTuple, Optional, Sequence, Tuple

from .statements import COMPARISONS, LANGUAGES, QUANTIFIERS, LanguageName, Token, Unreadable

Told = Optional[Tuple[Token, str]]
WORDS = ("CASE", "WHEN", "THEN", "ELSE", "END")
# What begins or joins tests, beside comparisons.
_OF_TESTS = ("AND", "OR", "NOT", "IN", "IS", "LIKE", "BETWEEN", "MEMBER")
_NULL = "ELSE :none gives null, with None handed in for it"
_ALONE = "behind WHEN stand tests of values alone"


class _Open(NamedTuple):
    """A CASE that is open: its word, whether a value stands behind it, and the last of its words
    with what stands behind that."""

    case: Token
    is_of_value: bool
    last: Token
    behind: Sequence[Token]

    def is_at(self, *words: str) -> bool:
        """Whether one of these words of its own came last."""
        return any(map(self.last.is_word, words))


class _Place(NamedTuple):
    """Where a text can't be read on: the token there, the innermost CASE that is open, whether that
    is in no parentheses within it, and what is expected."""

    token: Token
    open: _Open
    is_level: bool
    expected: Sequence[str]


def case_told(fault: Unreadable, tokens: Sequence[Token], language: LanguageName) -> Told:
    """The token to look at and what to say of it, where a CASE is why a text can't be read in a
    language that has it; else None."""
    if not LANGUAGES[language].has_cases:
        return None
    before = [each for each in tokens if each.end <= fault.token.at]
    found = _innermost(before)
    if found is None:
        return _outside(fault)
    place = _Place(fault.token, *found, fault.expected)
    rules: List[Callable[[_Place], Told]] = [_rows, _worded, _null, _without_when, _test, _missing]
    return next((told for told in (rule(place) for rule in rules) if told), None)


def _innermost(before: Sequence[Token]) -> Optional[Tuple[_Open, bool]]:
    """The innermost CASE that is open, and whether no parenthesis is within it."""
    opened: List[Tuple[str, int]] = []
    for at, each in enumerate(before):
        if each.is_mark("(") or each.is_word("CASE") and not _is_member(before, at):
            opened.append((each.said.upper(), at))
        elif each.is_mark(")") or each.is_word("END"):
            wanted = "(" if each.is_mark(")") else "CASE"
            if opened and opened[-1][0] == wanted:
                opened.pop()
    places = [at for said, at in opened if said == "CASE"]
    if not places:
        return None
    start, is_level = places[-1], opened[-1][0] == "CASE"
    own = _own_words(before, start)
    last = own[-1]
    is_of_value = len(before) > start + 1 and not before[start + 1].is_word("WHEN")
    return _Open(before[start], is_of_value, before[last], before[last + 1 :]), is_level


def _own_words(before: Sequence[Token], start: int) -> List[int]:
    """The places of the words of the CASE that begins there, and of no other one within it."""
    found, depth = [start], 0
    for at in range(start + 1, len(before)):
        each = before[at]
        if each.is_mark("(") or each.is_word("CASE"):
            depth += 1
        elif each.is_mark(")") or each.is_word("END"):
            depth -= 1
        elif not depth and any(map(each.is_word, WORDS)):
            found.append(at)
    return found


def _is_member(before: Sequence[Token], at: int) -> bool:
    """Whether a word is a name behind a dot."""
    return at > 0 and before[at - 1].is_mark(".")


# ---- rules


def _outside(fault: Unreadable) -> Told:
    """A word of CASE where no CASE is open."""
    word = next((each for each in WORDS[1:] if fault.token.is_word(each)), None)
    if word is None:
        return None
    return fault.token, f"{word} belongs to CASE, of which none is open here, and is no name"


def _rows(place: _Place) -> Told:
    """A nested SELECT."""
    token, found = place.token, place.open
    is_select = token.is_word("SELECT")
    if not (is_select or token.is_word("EXISTS") or any(map(token.is_word, QUANTIFIERS))):
        return None
    if token.is_word("EXISTS"):
        way = "of a collection SIZE(p.orders) > 0 asks it, and of anything else WHERE"
        return token, f"{_ALONE}, and no EXISTS: {way}"
    if is_select and not found.is_at("WHEN"):
        return token, "a nested SELECT is no value, and stands in no CASE: ask it in WHERE, or beforehand"
    way = "ask it in WHERE, or hand in what it finds, as IN :found"
    return token, f"{_ALONE}, and no nested SELECT: {way}"


def _worded(place: _Place) -> Told:
    """A test that isn't of values."""
    token, found = place.token, place.open
    if not found.is_at("WHEN") or found.is_of_value:
        return None
    if token.is_word("MEMBER"):
        way = "compare from the other side of the relation, as o.person = p"
        return token, f"{_ALONE}, and no MEMBER: {way}"
    if token.is_word("EMPTY"):
        return token, f"{_ALONE}, and no IS EMPTY: SIZE(p.orders) = 0 asks it"
    if token.is_word("TYPE"):
        return token, f"{_ALONE}, and no TYPE: ask it in WHERE"
    return None


def _null(place: _Place) -> Told:
    """NULL as a value."""
    found = place.open
    if not place.token.is_word("NULL") or found.behind:
        return None
    if found.is_at("THEN", "ELSE"):
        word = found.last.said.upper()
        way = f"{word} :none gives null, with None handed in for it"
        return place.token, f"NULL is no value, and stands behind no {word}: {way}"
    way = "CASE WHEN o.amount IS NULL THEN .. asks for it"
    return place.token, f"nothing is equal to NULL: {way}"


def _without_when(place: _Place) -> Told:
    """ELSE or END before any WHEN."""
    found = place.open
    if not found.is_at("CASE") or "WHEN" not in place.expected:
        return None
    if any(map(place.token.is_word, ("THEN", "ELSE", "END"))):
        way = "CASE WHEN a test THEN a value, or CASE a value WHEN what it may equal THEN a value"
        return place.token, f"a CASE has a WHEN first: {way}"
    return None


def _test(place: _Place) -> Told:
    """A test where a value stands, or a value where a test does."""
    token, found = place.token, place.open
    is_test = token.said in COMPARISONS or any(map(token.is_word, _OF_TESTS))
    if found.is_at("WHEN") and token.is_word("THEN") and "a comparison" in place.expected:
        way = "CASE o.amount WHEN 1 THEN .. compares a value, and o.paid = TRUE a bool of classes"
        return token, f"behind WHEN stands a test, as o.amount > 1, and a value alone is none: {way}"
    if not is_test or not place.is_level:
        return None
    if found.is_at("WHEN") and found.is_of_value and "THEN" in place.expected:
        way = "write CASE WHEN o.amount > 1 THEN .., with nothing before WHEN, for tests"
        return token, f"behind the WHEN of a CASE of a value stands what that may equal: {way}"
    if found.is_at("CASE") and "WHEN" in place.expected:
        return token, "a test stands behind WHEN: write CASE WHEN before it"
    if found.is_at("THEN", "ELSE") and ({"ELSE", "END"} & set(place.expected)):
        word = found.last.said.upper()
        way = "CASE WHEN .. THEN 1 ELSE 0 END gives whether a test is true"
        return token, f"behind {word} stands a value, and no test: {way}"
    return None


def _missing(place: _Place) -> Told:
    """THEN, ELSE or END that isn't there."""
    token, found = place.token, place.open
    is_over = not place.is_level or not found.behind or _is_like_a_word(token)
    if is_over:
        return None
    if found.is_at("WHEN") and "THEN" in place.expected:
        return token, "THEN is missing here, with what this WHEN gives"
    if found.is_at("THEN") and "ELSE" in place.expected:
        if token.is_word("THEN"):
            return token, "a second THEN follows on one WHEN: write WHEN and a test before it"
        return token, f"ELSE is missing here, which each CASE has before its END: {_NULL}"
    if found.is_at("ELSE") and "END" in place.expected:
        if token.is_word("WHEN") or token.is_word("ELSE"):
            return token, "behind ELSE and its value END follows: ELSE stands once, behind each WHEN"
        return token, "END is missing here, which ends CASE"
    return None


def _is_like_a_word(token: Token) -> bool:
    """Whether a name may be one of the words, misspelt."""
    said = token.said.upper()
    return token.sort == "word" and said not in WORDS and any(
        len(set(said) & set(word)) >= 3 and abs(len(said) - len(word)) < 2 for word in WORDS[1:]
    )
