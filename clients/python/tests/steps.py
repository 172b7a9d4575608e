"""Ctrl-C at a step of the package: where one of its functions begins, and where one of C that it
calls has ended. There the interpreter runs the handlers of signals."""

from __future__ import annotations

import contextlib
import inspect
import os
import signal
import sys
import time
from typing import Any, Callable

import karzhoul

_PACKAGE = os.path.dirname(karzhoul.__file__) + os.sep


def interrupted_at_step(number: int, work: Callable[[], object]) -> bool:
    """Does work, interrupted at its step of this number; whether it has as many. Another test
    handles Ctrl-C by the interpreter's own handler."""
    left = number

    def profile(frame: Any, event: str, _: object) -> None:
        nonlocal left
        file = frame.f_code.co_filename
        # (Where a generator is called, a profile's exception would pass by its `finally`, as no
        # interrupt does.)
        is_step = event == "c_return" or (
            event == "call" and not frame.f_code.co_flags & inspect.CO_GENERATOR
        )
        if is_step and (file.startswith(_PACKAGE) or file == contextlib.__file__):
            left -= 1
            if left == 0:
                handler: Any = signal.getsignal(signal.SIGINT)
                handler(signal.SIGINT, frame)

    try:
        sys.setprofile(profile)
        work()
        sys.setprofile(None)
        if left <= 0:
            time.sleep(5)  # It was put off.
    except KeyboardInterrupt:
        return True
    finally:
        sys.setprofile(None)
    assert left > 0, "an interrupt was lost"
    return False
