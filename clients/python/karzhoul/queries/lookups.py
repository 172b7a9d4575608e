"""How the program finds the objects of a query, as it tells by its own words."""

from __future__ import annotations

import json
import os
from typing import TYPE_CHECKING, Any, Dict, Iterator, List, Mapping, Sequence, Tuple

from ..classes.naming import Naming
from ..objects.entities import Entity
from ..store.finding import find_program
from ..mapping.indexes import index_line
from ..store.printed import mapping_file, printed
from ..store.program import Program
from ..refusals import BadLine, KarzhoulError, ProgramEnded

if TYPE_CHECKING:
    from ..session.factory import EntityManagerFactory

_INDEXES = b'{"serve":"indexes"}'


def lookups_of(factory: EntityManagerFactory, text: str, values: Mapping[str, Any]) -> List[str]:
    """A line for each variable of a SELECT, as the program stores its parameters."""
    own = type(factory.program) is Program  # and no connection to a server
    program = os.fspath(factory.program.words[0] if own else find_program(None))
    with mapping_file(json.dumps(factory.mapping).encode()) as mapping:
        words = [program, "--mapping", mapping, "--query", text, "--explain"]
        words += ["--language", factory.language] if factory.language != "profile" else []
        for entity, name in _indexes(factory.index_lines if own else _served(factory)):
            words += ["--index", f"{entity}.{name}"]
        for parameter, value in values.items():
            words += ["--param", f"{parameter}={_said(value)}"]
        try:
            told = list(printed(words))
        except ProgramEnded as ended:
            if "--db" not in ended.told and "--index" not in ended.told:
                raise
            raise KarzhoulError(
                f"{program} is an older program, which doesn't tell how a manager finds objects"
            ) from ended
    return told if factory.binding is None else list(map(Naming(factory.binding.model).told, told))


def _served(factory: EntityManagerFactory) -> List[bytes]:
    """The lines of the indexes that a server's program was told; of an older server those that this
    connection has asked."""
    try:
        [found] = factory.ask_lines(None, [_INDEXES])
    except BadLine:
        return list(factory.index_lines)
    return [index_line(entity, name) for entity, name in found]


def _indexes(lines: Sequence[bytes]) -> Iterator[Tuple[str, str]]:
    for line in lines:
        said: Dict[str, Any] = json.loads(line)
        yield said["entity"], said["name"]


def _said(value: Any) -> str:
    """A parameter as the words of the program take it: an object's place is taken by null, since
    no store is asked."""
    if isinstance(value, Entity):
        return "null"
    said = {"hex": value.hex()} if isinstance(value, bytes) else value
    return json.dumps(said, ensure_ascii=False, separators=(",", ":"))
