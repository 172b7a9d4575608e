"""Files of records, as they are read to be stored."""

from __future__ import annotations

import os
import shutil
import sys
import tempfile
from contextlib import AbstractContextManager
from typing import BinaryIO, Iterator, List, Mapping, Optional, Tuple, Union, cast

from ..classes.mapping import UNIQUE
from ..refusals import KarzhoulError
from .records import Next, Record, Shape, Unfit
from .spelling import Begun, Column, Ended, Item, UnfitRow, columns_named, item_of_line
from .spelling import record_of_cells, rows_of_lines

_MARK = "\ufeff"


class RowFault(KarzhoulError):
    """A row that can't be stored: the file, the row's first line, and why."""

    def __init__(self, source: str, line: int, why: str) -> None:
        super().__init__(source, line, why)
        self.source, self.line, self.why = source, line, why

    def __str__(self) -> str:
        return f"{self.source}:{self.line}: {self.why}"


class Source(AbstractContextManager["Source"]):
    """A file of JSON lines, or of CSV where its entity is told, which can be read several times."""

    def __init__(
        self, path: str, shapes: Mapping[str, Shape], entity: Optional[str], new_keys: bool = False
    ) -> None:
        """Opens it; `-` is the standard input. Where objects get new keys, the keys of unique
        values, which may be of those, are left out: they are made anew."""
        self.name = "standard input" if path == "-" else path
        self._shapes, self._entity, self._new_keys = shapes, entity, new_keys
        self._file = _seekable(sys.stdin.buffer if path == "-" else open(path, "rb"))

    def __exit__(self, *_: object) -> None:
        self._file.close()

    def fault(self, line: int, why: str) -> RowFault:
        """The fault of a row of it."""
        return RowFault(self.name, line, why)

    def items(self) -> Iterator[Tuple[int, Union[Record, Next]]]:
        """What it says, each with its first line; a `RowFault` at the first that can't be read."""
        self._file.seek(0)
        found = self._said() if self._entity is None else self._tabled(self._shapes[self._entity])
        for line, item in found:
            if self._new_keys and isinstance(item, Record):
                if item.entity == UNIQUE:
                    continue
                for name in list(item.links):
                    if self._shapes[item.entity].links[name].type == UNIQUE:
                        del item.links[name]
            yield line, item

    def _lines(self) -> Iterator[str]:
        for number, data in enumerate(self._file, 1):
            try:
                line = data.decode("utf-8")
            except UnicodeDecodeError:
                raise self.fault(number, "the bytes are no UTF-8") from None
            yield line[1:] if number == 1 and line.startswith(_MARK) else line

    # ---- JSON lines

    def _said(self) -> Iterator[Tuple[int, Union[Record, Next]]]:
        rows, number = 0, 0
        begun: Optional[Begun] = None
        ended: Optional[Ended] = None
        for number, line in enumerate(self._lines(), 1):
            if not line.strip():
                continue
            item = self._item(number, line)
            if ended is not None:
                raise self.fault(number, "a line stands behind the end of the dump")
            if isinstance(item, Begun):
                if number > 1:
                    raise self.fault(number, "another dump begins here: load each by itself")
                begun = item
            elif isinstance(item, Ended):
                ended = item
            else:
                rows += isinstance(item, Record)
                yield number, item
        if begun is None and ended is None:
            return
        if ended is None:
            raise self.fault(number, "the file ends before the dump does: it was cut off")
        if begun is None or ended.rows != rows:
            way = "where that is meant, take its first and its last line out"
            why = f"the dump was of {ended.rows:,} objects, and has {rows:,}: {way}"
            raise self.fault(number, why)

    def _item(self, number: int, line: str) -> Item:
        try:
            return item_of_line(line, self._shapes)
        except Unfit as fault:
            is_other = number == 1 and not line.lstrip().startswith("{")
            way = "; a CSV is loaded by --csv ENTITY" if is_other else ""
            raise self.fault(number, f"{fault}{way}") from None

    # ---- CSV

    def _tabled(self, shape: Shape) -> Iterator[Tuple[int, Record]]:
        number, columns = 1, None  # type: int, Optional[List[Column]]
        try:
            for number, cells in rows_of_lines(self._lines()):
                if columns is None:
                    columns = columns_named(cells, shape, self._shapes)
                else:
                    yield number, record_of_cells(cells, columns, shape, self._shapes)
        except UnfitRow as fault:
            raise self.fault(fault.line, str(fault)) from None
        except Unfit as fault:
            raise self.fault(number, str(fault)) from None
        if columns is None:
            raise self.fault(1, "the first row is to name the columns")


def _seekable(file: BinaryIO) -> BinaryIO:
    """A file that can be read several times: the file itself, or a copy of a pipe's text."""
    if file.seekable() and os.path.isfile(file.fileno()):
        return file
    copy = cast(BinaryIO, tempfile.TemporaryFile())
    with file:
        shutil.copyfileobj(file, copy)
    return copy
