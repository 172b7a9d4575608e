"""How work that was refused is done again: how often, after which pauses, and what is said of it.
"""

from __future__ import annotations

import random
import time

from ..refusals import KarzhoulError

# How often work is done at most, where nothing else is said. Of eight threads that change one
# object, each attempt is the first to commit about once in eight times where they are in step, and
# more often where they have waited. So one that is refused 100 times in a row is as good as never
# met (7/8 to the 100th is two in a million), and 100 pauses take five seconds at most.
MOST_ATTEMPTS = 100
# The longest pauses: before the second attempt, and at last.
_SHORTEST, _LONGEST = 0.001, 0.05


def pause(refused: int) -> None:
    """Waits before what was refused so often is done again: for a time at random, so that those
    that collided don't again, the longer the more often it was refused, up to 50 ms."""
    time.sleep(random.uniform(0, min(_LONGEST, _SHORTEST * 2 ** min(refused, 10))))


def note_refusals(fault: BaseException, count: int) -> None:
    """Says on an exception how often work was refused until it was raised."""
    if isinstance(fault, KarzhoulError):
        fault.times_refused = count
    times = "once" if count == 1 else f"{count} times"
    # Which a traceback of Python 3.11 and later tells.
    vars(fault).setdefault("__notes__", []).append(f"the work was refused {times} in all")
