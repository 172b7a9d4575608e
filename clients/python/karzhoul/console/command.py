"""The command `karzhoul console`, with its words."""

from __future__ import annotations

import argparse
from typing import Any

_CONSOLE = """Shows a store in the browser: its entities, objects and their relations, queries, and
with --write changes within a transaction, which a button commits or rolls back. The page is served
on 127.0.0.1 alone, at an address with a token at random. It runs until Ctrl-C, which rolls back
what is open."""
_SECONDS = 60.0


def add_command(commands: Any, common: argparse.ArgumentParser) -> None:
    """Adds the command to those of `karzhoul`."""
    made = commands.add_parser(
        "console", parents=[common], description=_CONSOLE, help="show a store in the browser"
    )
    add = made.add_argument
    add("db", nargs="?", help="the database file")
    add("--mapping", help="the mapping file, or a module of classes, by its name or its file "
        "(mapping.json)")
    add("--connect", metavar="ADDRESS",
        help="a server (karzhoul serve) in place of a file, as unix:/run/app.sock")
    add("--token-file", metavar="FILE", help="the file with the server's token, for tcp")
    add("--tls-ca", metavar="FILE", help="the certificates to trust; without it no TLS is spoken")
    add("--write", action="store_true", help="changes may be made; without it the store is read")
    add("--language", choices=("profile", "wide"),
        help="the language of queries: a mapping has the profile, and classes have the wide one")
    add("--index", action="append", default=[], metavar="CLASS.MEMBER",
        help="keep an index of an attribute, as Title.name, for as long as it runs; classes say "
        "index=True themselves")
    add("--end-program-after", type=_seconds, default=_SECONDS, metavar="SECONDS",
        help="give a query up after so many seconds, where no transaction is open (%(default)g)")
    add("--port", type=int, default=0, help="the port of the page (a free one)")
    add("--no-browser", action="store_true", help="tell the address, and open no browser")
    made.set_defaults(run=run_console)


def _seconds(word: str) -> float:
    seconds = float(word)
    if not 0 < seconds < 1e9:
        raise ValueError(word)
    return seconds


def run_console(said: argparse.Namespace) -> int:
    """Serves the page until Ctrl-C or SIGTERM, which both end it well."""
    from .running import serve

    return serve(said)
