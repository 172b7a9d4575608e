"""Ctrl-C where a `with` block begins, and where its end begins.

The interpreter may raise a KeyboardInterrupt at the head of an `__exit__`, before its first
instruction, and then the block isn't ended; or at the last one of an `__enter__`, and then neither
is the block run nor its end. So while a block is guarded, the interpreter's own handler of Ctrl-C
gives way to one that looks at what it interrupts: in such places, and within `contextlib`, it comes
again a moment later.
"""

from __future__ import annotations

import _thread
import contextlib
import signal
import threading
import time
from types import CodeType, FrameType
from typing import Callable, Optional, Set, TypeVar

from ..refusals import KarzhoulError

F = TypeVar("F", bound=Callable[..., object])

_begins: Set[CodeType] = set()
_ends: Set[CodeType] = set()
_guarded: Set[object] = set()
# How often an interrupt was put off since one was raised. At last it is raised wherever it is, as
# where `contextlib` waits for a lock.
_put_off = 0
_MOST = 100


def begin_of_block(function: F) -> F:
    """Has a function, which guards a block first, be interrupted in what it calls alone."""
    _begins.add(function.__code__)
    return function


def end_of_block(function: F) -> F:
    """Has a function, which begins with a `try`, be interrupted within that and no sooner."""
    _ends.add(function.__code__)
    return function


def is_guarded(block: object) -> bool:
    """Whether a block is guarded."""
    return block in _guarded


def guard(block: object) -> None:
    """Guards a block that begins, in the main thread alone, since no other one is interrupted."""
    if threading.current_thread() is threading.main_thread():
        if signal.getsignal(signal.SIGINT) is signal.default_int_handler:
            signal.signal(signal.SIGINT, _interrupt)
        _guarded.add(block)


def unguard(block: object) -> None:
    """The block has ended. After the last one the interpreter's own handler is back."""
    if threading.current_thread() is threading.main_thread():
        _guarded.discard(block)
        if not _guarded and signal.getsignal(signal.SIGINT) is _interrupt:
            signal.signal(signal.SIGINT, signal.default_int_handler)


@end_of_block
def carried_out(step: Callable[[], object]) -> None:
    """Does a step that ends something, which may be done twice. Where it is interrupted it may not
    have begun: it is done again, and the interrupt is raised then."""
    try:
        step()
    except Exception:
        raise
    except BaseException:
        with contextlib.suppress(KarzhoulError):  # As one that it was done.
            step()
        raise


def _interrupt(number: int, frame: Optional[FrameType]) -> None:
    global _put_off
    if _put_off < _MOST and _is_too_soon(frame):
        _put_off += 1
        _thread.start_new_thread(_interrupt_again, (number,))
    else:
        _put_off = 0
        signal.default_int_handler(number, frame)


def _is_too_soon(frame: Optional[FrameType]) -> bool:
    if frame is None:
        return False
    code = frame.f_code
    if code in _begins or code.co_filename == contextlib.__file__:
        return True
    if code in _ends and frame.f_lineno == code.co_firstlineno:
        return True
    for _ in range(3):  # The handler itself is changed as a whole.
        if frame is not None and frame.f_code in (guard.__code__, unguard.__code__):
            return True
        frame = frame and frame.f_back
    return False


def _interrupt_again(number: int) -> None:
    time.sleep(0.001)
    main = threading.main_thread().ident
    assert main is not None
    signal.pthread_kill(main, number)
