"""What is wrong with a line that is no call: where, and what was meant."""

from __future__ import annotations

import re
from typing import Dict, Iterator, List, Optional

from ..jpql.statements import LANGUAGES, LanguageName
from ..mapping.meant import meant
from ..wire.lines import CALLS, OPTIONAL, OWN_CALLS, FlushModeType, LockModeType
from ..wire.strict_json import NoJson, Value, read

_KNOWN = {**CALLS, **OWN_CALLS}
_NUMBERS = {"em", "object", "member", "first", "max"}
_MODES = {
    "lock": [mode.value for mode in LockModeType],
    "setFlushMode": [mode.value for mode in FlushModeType],
}
_VALUE = 'null, a whole number, a text, {"hex":"0aff"} or {"object":1}'


def faults_of_line(line: str, language: LanguageName = "profile") -> Iterator[str]:
    """The faults of a line, to a program of this language of queries; none where it is a call."""
    try:
        said = read(line)
    except NoJson as fault:
        yield f"column {fault.at + 1}: {fault.why}" if line.strip() else "the line is empty"
        return
    if not isinstance(said.data, dict):
        yield 'a call is an object of JSON, as {"call":"begin","em":1}'
        return
    call = said.data.get("call")
    if call is None:
        yield f'the member "call" is missing{_near("call", said.data)}'
    elif not isinstance(call.data, str) or call.data not in _KNOWN:
        word = call.plain()
        near = meant(word, CALLS) if isinstance(word, str) else ""
        yield f"column {call.at + 1}: there is no call {word!r}{near}"
    else:
        yield from _faults_of_members(call.data, said.data, LANGUAGES[language].takes_lists)


def _near(name: str, members: Dict[str, Value]) -> str:
    near = meant(name, members)
    return f" ({near[2:].replace('did you mean', 'is it')})" if near else ""


def _faults_of_members(
    call: str, members: Dict[str, Value], takes_lists: bool
) -> Iterator[str]:
    known = _KNOWN[call]
    for name in known:
        if name not in members and name not in OPTIONAL:
            yield f"{call} takes the member {name!r}, which is missing"
    for name, value in members.items():
        place = f"column {value.at + 1}: {name!r}"
        if name != "call" and name not in known:
            left = [each for each in known if each not in members]
            takes = f"; it takes {', '.join(known)}" if known else "; it takes none"
            yield f"{place} is no member of {call}{meant(name, left) or takes}"
        elif name in known:
            wanted = _wanted(call, name, value, takes_lists)
            if wanted is not None:
                yield f"{place} is to be {wanted}"


def _wanted(call: str, name: str, value: Value, takes_lists: bool) -> Optional[str]:
    """What a member is to be, where it is something else."""
    if name in _NUMBERS:
        return None if type(value.data) is int else "a whole number"
    if name == "objects":
        is_list = isinstance(value.data, list) and all(type(it.data) is int for it in value.data)
        return None if is_list else "a list of whole numbers"
    if name == "value":
        return None if _is_value(value) else _VALUE
    if name == "key":
        is_key = isinstance(value.data, list) and all(map(_is_value, value.data))
        return None if is_key else f"a list of the key's parts, each of them {_VALUE}"
    if name == "params":
        given = list(value.data.values()) if isinstance(value.data, dict) else [value]
        if takes_lists:
            given = [it for each in given for it in _each_of(each)]
        more = ", or a list of such" if takes_lists else ""
        is_right = isinstance(value.data, dict) and all(map(_is_value, given))
        return None if is_right else f"an object whose members are each {_VALUE}{more}"
    if name == "mode":
        modes = _MODES[call]
        return None if value.data in modes else f"one of {', '.join(modes)}"
    return None if isinstance(value.data, str) else "a text"


def _each_of(value: Value) -> List[Value]:
    """The values of a list, or the one value."""
    return value.data if isinstance(value.data, list) else [value]


def _is_value(value: Value) -> bool:
    said = value.plain()
    if said is None or isinstance(said, str) or type(said) is int:
        return True
    if not isinstance(said, dict) or len(said) != 1:
        return False
    digits = said.get("hex")
    is_hex = isinstance(digits, str) and re.fullmatch("([0-9a-fA-F]{2})*", digits) is not None
    return is_hex or type(said.get("object")) is int
