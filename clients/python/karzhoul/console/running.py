"""A console from its beginning to its end."""

from __future__ import annotations

import argparse
import html
import os
import signal
import sys
import tempfile
import threading
import webbrowser
from contextlib import contextmanager, suppress
from pathlib import Path
from types import FrameType
from typing import Iterator, Optional

from .actions import Actions
from .opening import lines_of, naming_for, opened_for, title_of
from .serving import Console
from .store import Store, require_classes


def serve(said: argparse.Namespace) -> int:
    """Serves the page until Ctrl-C or SIGTERM, which both end it well."""
    with opened_for(said) as app:
        require_classes(app, said.write)
        store = Store(
            app, title_of(said), said.write, said.end_program_after, naming_for(said)
        )
        with Console(Actions(store), said.port) as console:
            threading.Thread(target=console.serve_forever, daemon=True).start()
            try:
                print("\n".join(lines_of(title_of(said), console.url, said.write)), flush=True)
                with browsed(None if said.no_browser else console.url):
                    _wait()
            finally:
                console.shutdown()
                _tell_lost(store)
    return 0


def _wait() -> None:
    """Waits for Ctrl-C or SIGTERM."""
    ended = threading.Event()

    def end(number: int, frame: Optional[FrameType]) -> None:
        ended.set()

    before = {number: signal.signal(number, end) for number in (signal.SIGINT, signal.SIGTERM)}
    try:
        ended.wait()
    finally:
        for number, handler in before.items():
            signal.signal(number, handler)


def _tell_lost(store: Store) -> None:
    lost = store.close()
    if lost:
        told = ["karzhoul: the transaction was open, and is rolled back:", *lost]
        print("\n  ".join(told), file=sys.stderr)


@contextmanager
def browsed(url: Optional[str]) -> Iterator[None]:
    """Opens an address in the browser. It is handed over by a file that its user alone may read,
    since the words of a process are there for all users of the machine."""
    if url is None:
        yield
        return
    with tempfile.TemporaryDirectory(prefix="karzhoul-") as place:
        path = Path(place, "console.html")
        with open(os.open(path, os.O_WRONLY | os.O_CREAT | os.O_EXCL, 0o600), "w") as file:
            file.write(
                '<!DOCTYPE html><meta charset="utf-8"><meta name="referrer" content="no-referrer">'
                f'<meta http-equiv="refresh" content="0; url={html.escape(url)}">'
            )
        with suppress(webbrowser.Error):
            webbrowser.open(path.as_uri())
        yield
