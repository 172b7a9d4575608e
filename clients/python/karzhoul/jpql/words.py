"""What to say of a query's text that can't be read: which word was meant, what of JPQL isn't
served, and else what may stand there."""

from __future__ import annotations

import difflib
from typing import Dict, List, Optional, Sequence, Tuple

from .cases import WORDS, case_told
from .nested import nested_told
from .statements import AGGREGATES, LANGUAGES, QUANTIFIERS, LanguageName, Token, Unreadable

_CASE = "CASE is of the wider language, language='wide'; COALESCE and NULLIF are served here"
_NOW = "the program has no clock: hand the date or the time in as a parameter"
_DATES = "parts of dates and times aren't served: compare whole ones, handed in as parameters"
_FRACTIONS = (
    "numbers with a fraction aren't served: over classes a manager takes a Decimal as a parameter, or "
    "in quotes, as '1.50'; by a mapping alone money is whole hundredths, as 150"
)
_NUMBERS = "this function isn't served: ABS and MOD are the functions of numbers"
_TEXTS = "this function isn't served: those of texts are LENGTH, CONCAT, SUBSTRING and LOCATE"
_WIDER = (
    "this function is of the wider language, language='wide'; those of texts are LENGTH, CONCAT, "
    "SUBSTRING and LOCATE here"
)
_SORTED_BY = (
    "ORDER BY takes values in the wider language, language='wide': here it takes paths, as p.id, and "
    "names behind AS"
)
_QUANTIFIED = (
    "ALL, ANY and SOME are of the wider language, language='wide'; EXISTS (SELECT ..) is served here"
)
_NESTED = (
    "a nested SELECT stands in EXISTS alone; beside values, as IN (SELECT ..), it stands in the wider "
    "language, language='wide'"
)
_TRUTH = (
    "TRUE and FALSE stand beside a bool attribute of classes alone, as p.paid = TRUE, or what a CASE "
    "gives that is compared with one: else write 1 and 0, or select p.paid itself"
)
_SET = (
    "SET takes members of the object itself, as p.name, and parts of its embedded values: this path "
    "is neither"
)
_ROWS = "values are compared one by one: a.x = 1 AND a.y = 2 in the place of (a.x, a.y) = (1, 2)"
_PLACES = "hand in first=.. and max=.. beside the text"
_MAPS = "maps aren't served"
# What follows on such words of JPQL, or of other dialects, is why they aren't served.
UNSERVED: Dict[str, str] = {
    "ALL": _QUANTIFIED,
    "ANY": _QUANTIFIED,
    "SOME": _QUANTIFIED,
    "AVG": "AVG isn't served: ask for SUM and COUNT",
    "CASE": _CASE,
    "WHEN": _CASE,
    "THEN": _CASE,
    "ELSE": _CASE,
    "CAST": "CAST isn't served",
    "CROSS": "CROSS JOIN isn't served: write a comma between the entities",
    "CURRENT_DATE": _NOW,
    "CURRENT_TIME": _NOW,
    "CURRENT_TIMESTAMP": _NOW,
    "LOCAL": _NOW,
    "EXTRACT": _DATES,
    "ENTRY": _MAPS,
    "KEY": _MAPS,
    "VALUE": _MAPS,
    "EXCEPT": "a query is one SELECT: UNION, INTERSECT and EXCEPT aren't served",
    "INTERSECT": "a query is one SELECT: UNION, INTERSECT and EXCEPT aren't served",
    "UNION": "a query is one SELECT: UNION, INTERSECT and EXCEPT aren't served",
    "FALSE": _TRUTH,
    "TRUE": _TRUTH,
    "FETCH": "JOIN FETCH isn't served: manager.fetch(objects, 'relation') reads for all of them",
    "FULL": "FULL and RIGHT JOIN aren't served: JOIN and LEFT JOIN are",
    "RIGHT": "FULL and RIGHT JOIN aren't served: JOIN and LEFT JOIN are",
    "FUNCTION": "functions of the database aren't served",
    "ILIKE": "ILIKE isn't served: LIKE is, with upper and lower case apart",
    "INDEX": "INDEX isn't served: lists have the order of their members' keys",
    "INSERT": "INSERT isn't served: manager.persist_all(..) stores new objects",
    "LIMIT": _PLACES,
    "OFFSET": _PLACES,
    "LOWER": _WIDER,
    "REPLACE": _TEXTS,
    "TRIM": _WIDER,
    "UPPER": _WIDER,
    "NEW": "SELECT NEW isn't served: rows have their items by name",
    "NULLS": "NULLS FIRST and NULLS LAST aren't served: nulls come first, and last with DESC",
    "OBJECT": "OBJECT(..) isn't served: select the variable alone",
    "TREAT": "TREAT isn't served: let FROM range over the subclass, or ask TYPE(variable)",
    "CEILING": _NUMBERS,
    "EXP": _NUMBERS,
    "FLOOR": _NUMBERS,
    "LN": _NUMBERS,
    "POWER": _NUMBERS,
    "ROUND": _NUMBERS,
    "SIGN": _NUMBERS,
    "SQRT": _NUMBERS,
}
_MARKS = {
    "!=": "'<>' is meant",
    "==": "'=' is meant",
    "=>": "'>=' is meant",
    "=<": "'<=' is meant",
    "&&": "AND is meant",
    "&": "AND is meant",
    "!": "NOT is meant",
    "||": "'||' isn't served: CONCAT is",
    '"': "a text stands in single quotes",
    ";": "a statement ends without ';'",
    "/": "division isn't served",
    "%": "MOD(a, b) is meant",
    "{": "literals of dates aren't served, and parameters are :name or ?1",
}


def spelled(token: Token) -> str:
    """A token as a reader sees it."""
    if token.sort == "end":
        return "the end of the text"
    return f"'{token.said}'"


def unserved(word: str, language: LanguageName) -> Optional[str]:
    """Why a word of JPQL, or of other dialects, isn't served in a language; None where it is, or is
    no such word."""
    served = LANGUAGES[language].functions
    is_rows = word.upper() in QUANTIFIERS and LANGUAGES[language].compares_rows
    is_case = word.upper() in WORDS and LANGUAGES[language].has_cases
    return None if is_rows or is_case or word.upper() in served else UNSERVED.get(word.upper())


def syntax_told(
    fault: Unreadable, tokens: Sequence[Token], language: LanguageName
) -> Tuple[Token, str]:
    """The token to look at, of those that were read, and what to say of it."""
    token, before = fault.token, fault.before
    if fault.why:
        return token, fault.why
    if token.sort == "odd":
        return token, _MARKS.get(token.said, f"{spelled(token)} stands in no query")
    read = [each for each in tokens if each.end <= token.at]
    # (What stands behind a point is a member's name.)
    earlier = [each for at, each in enumerate(read) if not at or not read[at - 1].is_mark(".")][-2:]
    return (
        _fraction(token, tokens)
        or _marked(token, before)
        or case_told(fault, tokens, language)
        or nested_told(fault, tokens, language)
        or _unserved([token], language)
        or _row_of_values(token, tokens, language)
        or _misspelt(token, 0.6, fault.expected, language)
        or _unserved(earlier[::-1], language)
        or _sorted_by_value(token, tokens, language)
        or _called(token, before, language)
        or _misplaced(token, before, fault.expected)
        or _misspelt(before, 0.7, fault.expected, language)
        or (token, _expected(token, read, fault.expected, language))
    )


def _unserved(tokens: Sequence[Token], language: LanguageName) -> Optional[Tuple[Token, str]]:
    """The first of these tokens that isn't served."""
    for each in tokens:
        why = unserved(each.said, language) if each.sort == "word" else None
        if why is not None:
            return each, why
    return None


def _row_of_values(
    token: Token, tokens: Sequence[Token], language: LanguageName
) -> Optional[Tuple[Token, str]]:
    """A comma within parentheses that are no function's, and no list's of IN."""
    if not token.is_mark(","):
        return None
    depth, earlier = 1, [each for each in tokens if each.end <= token.at]
    while earlier and depth:
        depth += earlier[-1].is_mark(")") - earlier[-1].is_mark("(")
        opened = earlier.pop()
    if depth or not earlier or earlier[-1].is_word("IN"):
        return None
    is_own = earlier[-1].sort == "mark" or _is_keyword(earlier[-1], language)
    return (opened, _ROWS) if is_own and not _is_function(earlier[-1], language) else None


def _sorted_by_value(
    token: Token, tokens: Sequence[Token], language: LanguageName
) -> Optional[Tuple[Token, str]]:
    """A value in ORDER BY, which takes none in this language."""
    earlier = [each for each in tokens if each.end <= token.at]
    pairs = zip(earlier, earlier[1:])
    is_behind = any(one.is_word("ORDER") and other.is_word("BY") for one, other in pairs)
    if LANGUAGES[language].orders_by_values or not is_behind:
        return None
    begins = earlier[-1].is_word("BY") or earlier[-1].is_mark(",")
    is_value = token.sort in ("integer", "text", "parameter") or _is_function(token, language)
    if begins and (is_value or token.is_mark("(")) or any(map(token.is_mark, "+-*")):
        return token, _SORTED_BY
    return None


def _is_function(token: Token, language: LanguageName) -> bool:
    functions = (*LANGUAGES[language].functions, *AGGREGATES, "SIZE")
    return token.sort == "word" and token.said.upper() in functions


def _called(
    token: Token, before: Optional[Token], language: LanguageName
) -> Optional[Tuple[Token, str]]:
    """A function that there isn't."""
    if before is not None and token.is_mark("(") and before.sort == "word":
        return before, _no_function(before.said, language)
    return None


def _fraction(token: Token, tokens: Sequence[Token]) -> Optional[Tuple[Token, str]]:
    """A number that isn't whole."""
    for one, other in zip(tokens, tokens[1:]):
        if token in (one, other) and one.end == other.at and (
            {one.sort, other.sort} == {"integer", "mark"} and {one.said, other.said} & {"."}
        ):
            return token, _FRACTIONS
    return None


def _marked(token: Token, before: Optional[Token]) -> Optional[Tuple[Token, str]]:
    """Two marks that are one in other languages."""
    if before is None or before.end != token.at or before.said + token.said not in _MARKS:
        return None
    said = before.said + token.said
    return Token("odd", said, before.at, token.end), _MARKS[said]


def _no_function(word: str, language: LanguageName) -> str:
    functions = [*LANGUAGES[language].functions, *AGGREGATES, "SIZE", "TYPE", "EXISTS"]
    near = difflib.get_close_matches(word.upper(), functions, n=1)
    meant = f": did you mean {near[0]}?" if near else f"; there are {', '.join(functions)}"
    return f"there is no function {word}{meant}"


def _misplaced(
    token: Token, before: Optional[Token], expected: List[str]
) -> Optional[Tuple[Token, str]]:
    """Words that stand where they may not."""
    if token.is_word("SELECT"):
        return token, _NESTED
    if token.is_mark(".") and expected == ["'='"]:
        return token, _SET
    if token.is_word("NULL"):
        return token, "nothing is compared with NULL: IS NULL and IS NOT NULL ask for it"
    if token.is_mark("*") and before is not None:
        if before.is_mark("("):
            return token, "COUNT takes a variable or a path, as COUNT(p)"
        if before.is_word("SELECT") or before.is_word("DISTINCT"):
            return token, "SELECT takes variables and paths, as SELECT p FROM Person p"
    return None


def _is_keyword(token: Token, language: LanguageName) -> bool:
    return token.sort == "word" and token.said.upper() in LANGUAGES[language].keywords


def _misspelt(
    token: Optional[Token], cutoff: float, expected: List[str], language: LanguageName
) -> Optional[Tuple[Token, str]]:
    """The keyword that was meant by a token, or by the one before, which was taken for a name."""
    if token is None or token.sort != "word" or _is_keyword(token, language):
        return None
    keywords = [word for word in expected if word in LANGUAGES[language].keywords]
    near = difflib.get_close_matches(token.said.upper(), keywords, n=1, cutoff=cutoff)
    return (token, f"did you mean {near[0]}?") if near else None


def _alone(read: Sequence[Token], language: LanguageName) -> str:
    """The member that stands for a test at the end of what was read; nothing where none does."""
    at, names = len(read), []
    while at and read[at - 1].is_mark(")"):
        at -= 1
    depth = len(read) - at
    while at and read[at - 1].sort == "word":
        at -= 1
        names.append(read[at].said)
        if not at or not read[at - 1].is_mark("."):
            break
        at -= 1
    opened = read[max(0, at - depth) : at]
    at -= depth
    begins = at > 0 and (_is_keyword(read[at - 1], language) or read[at - 1].is_mark("("))
    is_test = begins and not _is_function(read[at - 1], language)
    is_alone = is_test and len(names) > 1 and all(each.is_mark("(") for each in opened)
    return ".".join(reversed(names)) if is_alone else ""


def _expected(
    token: Token, read: Sequence[Token], expected: List[str], language: LanguageName
) -> str:
    """What may stand there."""
    before = read[-1] if read else None
    if "a variable" in expected and before is not None and before.sort == "word":
        if token.sort == "end" or _is_keyword(token, language):
            shown = f"{before.said} {before.said[0].lower()}"
            return f"a variable is missing behind {before.said}, as in {shown}"
    hidden = {"AS", "NOT", "DISTINCT", "OUTER", "OF"}
    hidden |= {"a path"} if "a value" in expected else set()
    words = [each for each in expected if each not in hidden]
    listed = ", ".join(words[:-1]) + f" or {words[-1]}" if len(words) > 1 else "".join(words)
    is_name_wanted = any(word in ("a name", "a variable", "a path") for word in words)
    reserved = ", and it is a keyword" if is_name_wanted and _is_keyword(token, language) else ""
    stands = "the text ends" if token.sort == "end" else f"{spelled(token)} stands"
    alone = _alone(read, language) if "a comparison" in words else ""
    way = f": write {alone} = TRUE where it is a bool of classes, else compare it too" if alone else ""
    return f"{stands} where {listed or 'nothing'} is expected{reserved}{way}"
