"""What a command tells of work that takes long, as where a store is brought over to other classes."""

from __future__ import annotations

import logging
from contextlib import contextmanager
from typing import Iterator

from ..wire.tally import LOGGER

# Of fewer objects nothing is told, which takes no time.
_MANY = 1_000


@contextmanager
def telling() -> Iterator[None]:
    """Within it each message of the client's logger about many objects is a line on standard error.
    """
    handler, level = logging.StreamHandler(), LOGGER.level
    handler.addFilter(lambda record: getattr(record, "objects", 0) >= _MANY)
    handler.setFormatter(logging.Formatter("karzhoul: %(message)s"))
    try:
        LOGGER.addHandler(handler)
        LOGGER.setLevel(logging.INFO)
        yield
    finally:
        LOGGER.removeHandler(handler)
        LOGGER.setLevel(level)
