"""The tokens of the texts of queries."""

from __future__ import annotations

import re
from typing import List, NamedTuple, Optional

GREATEST = 2**63 - 1
_BLANKS = re.compile(r"[ \t\r\n]*")
_TOKEN = re.compile(
    r"(?P<word>[A-Za-z_][A-Za-z0-9_]*)|(?P<integer>[0-9]+)|(?P<text>'(?:[^']|'')*')"
    r"|:(?P<named>[A-Za-z_][A-Za-z0-9_]*)|\?(?P<numbered>[0-9]+)"
    r"|(?P<mark><>|<=|>=|[(),.+*=<>-])"
)


class Token(NamedTuple):
    """A `word`, an `integer`, a `text` without its quotes, a `parameter` by its name, a `mark`, or
    the `end` of the text, with the places of its first character and behind its last."""

    sort: str
    said: str
    at: int
    end: int

    def is_word(self, word: str) -> bool:
        """Whether it is this keyword."""
        return self.sort == "word" and self.said.upper() == word

    def is_mark(self, mark: str) -> bool:
        """Whether it is this mark."""
        return self.sort == "mark" and self.said == mark


class Unreadable(Exception):
    """A text is outside the grammar: at a token, before which another one stands, where one of
    these is expected. Where no token can be read, `why` says so."""

    def __init__(
        self, token: Token, before: Optional[Token], expected: List[str], why: str = ""
    ) -> None:
        super().__init__(token, before, expected, why)
        self.token, self.before, self.expected, self.why = token, before, expected, why


def tokens_of(text: str) -> List[Token]:
    """The tokens of a text, the end last."""
    found: List[Token] = []
    at = 0
    while True:
        blanks = _BLANKS.match(text, at)
        at = blanks.end() if blanks else at
        if at == len(text):
            return [*found, Token("end", "", at, at)]
        match = _TOKEN.match(text, at)
        if match is None:
            raise Unreadable(_odd(text, at), found[-1] if found else None, [], _why_odd(text, at))
        found.append(_token(match, found))
        at = match.end()


def _token(match: "re.Match[str]", before: List[Token]) -> Token:
    sort = match.lastgroup or ""
    said, at, end = match[sort], match.start(), match.end()
    why = ""
    if sort == "integer":
        said = said.lstrip("0") or "0"
        is_small = len(said) <= 19 and int(said) <= GREATEST
        why = "" if is_small else f"a whole number is at most {GREATEST}"
    elif sort == "numbered" and said.startswith("0"):
        why = "the number of a parameter is 1 or more, with no 0 first"
    elif sort == "text":
        said = said[1:-1].replace("''", "'")
    if sort in ("named", "numbered"):
        sort = "parameter"
    if why:
        raise Unreadable(Token(sort, match[0], at, end), before[-1] if before else None, [], why)
    return Token(sort, said, at, end)


def _odd(text: str, at: int) -> Token:
    """What stands where no token can be read."""
    match = re.compile(r"!=|\|\||&&|'[^']*|[:?]\w*|.", re.DOTALL).match(text, at)
    said = match[0] if match else ""
    return Token("odd", said, at, at + len(said))


def _why_odd(text: str, at: int) -> str:
    if text[at] == "'":
        return "the text that begins here has no end: a quote within it is written twice"
    return "a parameter is :name or ?1" if text[at] in ":?" else ""


def cases_in(tokens: List[Token]) -> int:
    """How many words CASE stand in a text, of whatever use."""
    return sum(token.is_word("CASE") for token in tokens)


def nesting(text: str) -> int:
    """The most parentheses that are open at a place outside of texts."""
    depth = most = 0
    is_quoted = False
    for character in re.findall(r"['()]", text):
        if character == "'":
            is_quoted = not is_quoted
        elif not is_quoted:
            depth = depth + 1 if character == "(" else max(0, depth - 1)
            most = max(most, depth)
    return most
