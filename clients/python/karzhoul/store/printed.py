"""The program's own words, beside the calls that it answers: files for them, and what it prints."""

from __future__ import annotations

import subprocess
import tempfile
from contextlib import contextmanager
from pathlib import Path
from typing import Iterator, Sequence

from ..refusals import Limit, ProgramEnded, QueryLimit, refusal_of


def printed(words: Sequence[str]) -> Iterator[str]:
    """The lines that a command prints; the refusal that it tells where it doesn't end well."""
    with tempfile.TemporaryFile() as errors:
        process = subprocess.Popen(
            words, stdin=subprocess.DEVNULL, stdout=subprocess.PIPE, stderr=errors
        )
        assert process.stdout is not None
        try:
            for line in process.stdout:
                yield line.decode().rstrip("\n")
            status = process.wait()
        finally:
            process.stdout.close()
            process.kill()
            process.wait()
        if status:
            errors.seek(0)
            told = errors.read().decode(errors="replace")
            last = told.rstrip().rpartition("\n")[2]
            if not last.startswith("jpa: "):
                raise ProgramEnded(status, told)
            refused = refusal_of(last[len("jpa: ") :])
            # (what is asked by words is a query, and meets no other limit)
            raise QueryLimit() if type(refused) is Limit else refused


@contextmanager
def mapping_file(said: bytes) -> Iterator[str]:
    """A file that says a mapping."""
    with tempfile.NamedTemporaryFile(prefix="karzhoul-", suffix=".json") as file:
        Path(file.name).write_bytes(said)
        yield file.name
