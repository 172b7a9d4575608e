"""The commands `karzhoul serve`, `backup` and `status`, with their words."""

from __future__ import annotations

import argparse
import json
import os
from pathlib import Path
from typing import Any, Optional, Sequence, Tuple

from ..session.opening import open as opened
from ..store.starting import started
from ..store.finding import find_program
from ..mapping.given import WrongMapping, given_of
from ..mapping.indexes import index_lines, named_in_words
from ..jpql.statements import LanguageName
from ..mapping.linter import lint
from ..store.program import Exchange, Program
from ..refusals import Misused
from .address import address_of
from .way import Way
from .settings import LEAST_TOKEN, Listening, Served, Settings

_SERVE = """Holds a database file, and serves it to many processes: each connects, by
karzhoul.connect("unix:..") in Python, or by the lines of docs/CALLS.md in any language. docs/OPERATING.md
tells the rest. It runs until it gets SIGTERM, and tells what it does as lines of JSON on standard
error."""
_BACKUP = """Copies the store that a server serves, as it stands between two commits, while
connections go on, and opens the copy by the server's mapping: so each row of it is looked at, and
FILE alone has it all. Where the copy can't be opened, none is left."""
_METRICS = "127.0.0.1:9117"
Parsers = Sequence[argparse.ArgumentParser]


def add_commands(
    commands: Any, common: argparse.ArgumentParser, over: argparse.ArgumentParser,
    stored: argparse.ArgumentParser,
) -> None:
    """Adds them to the parts of the command."""
    _add_serve(commands, [common, over, stored])
    of_server = of_a_server()
    saved = commands.add_parser(
        "backup", parents=[of_server, common], description=_BACKUP,
        help="copy the store that a server serves, and try the copy",
    )
    saved.add_argument("file", help="the file of the copy, which isn't there yet")
    saved.set_defaults(run=run_backup)
    told = commands.add_parser(
        "status", parents=[of_server], help="tell how a server is, which may be told as JSON"
    )
    told.add_argument("--json", action="store_true", help="as one line of JSON")
    told.set_defaults(run=run_status)


def of_a_server() -> argparse.ArgumentParser:
    """The words that say which server is meant."""
    made = argparse.ArgumentParser(add_help=False)
    add = made.add_argument
    add("--from", dest="address", required=True, metavar="ADDRESS", help="where the server listens")
    add("--token-file", metavar="FILE", help="the file with the server's token, for tcp")
    add("--tls-ca", metavar="FILE", help="the certificates to trust; without it no TLS is spoken")
    return made


def _add_serve(commands: Any, takes: Parsers) -> None:
    made = commands.add_parser(
        "serve", parents=takes, description=_SERVE, help="serve a database file to many processes"
    )
    add, default = made.add_argument, Settings()
    add("--listen", required=True, action="append", metavar="ADDRESS",
        help="unix:/run/app.sock, or tcp:127.0.0.1:7117: one of them")
    add("--mode", default="600", help="the permissions of a unix socket, in octal (%(default)s)")
    add("--token-file", metavar="FILE",
        help=f"a file with the token that tcp connections show, of {LEAST_TOKEN} bytes or more")
    add("--tls-cert", metavar="FILE", help="the certificate, for an address of other machines")
    add("--tls-key", metavar="FILE", help="the key of the certificate")
    add("--language", choices=("profile", "wide"),
        help="the language of queries: a mapping has the profile, and classes have the wide one")
    add("--index", action="append", default=[], metavar="CLASS.MEMBER",
        help="keep an index of an attribute, as Title.name; classes say index=True themselves")
    for name, value, about in (
        ("idle", default.idle, "how long a connection with an open manager may be silent"),
        ("wait", default.wait, "how long one waits for a manager, where 16 are open"),
        ("grace", default.grace, "how long transactions may still take after SIGTERM"),
        ("half-line", default.half_line, "how long a line may take to come, or a reply to be read"),
    ):
        add(f"--{name}", type=seconds, default=value, metavar="SECONDS",
            help=f"{about} (%(default)g)")
    add("--end-program-after", type=seconds, metavar="SECONDS",
        help="end the program, and start it again, where a call takes longer (never)")
    add("--connections", type=int, default=default.most_connections, metavar="N",
        help="how many there may be at a time (%(default)s)")
    add("--metrics", metavar="HOST:PORT",
        help=f"tell metrics there for Prometheus, as {_METRICS}: of this machine alone")
    made.set_defaults(run=run_serve)


def run_serve(said: argparse.Namespace) -> int:
    """Serves a file until it is told to end."""
    from .running import serve

    settings, listening = _settings(said), _listening(said)
    mapping, language, lines = _mapping(said)
    db, word = os.path.abspath(said.db), find_program(said.program)

    def start() -> Program:
        running = started(word, mapping, db, None, language)
        try:
            if lines:
                running.replies(Exchange(lines))  # What is refused costs time alone.
            return running
        except BaseException:
            running.kill()
            raise

    told = json.dumps(json.loads(mapping)).encode()
    return serve(settings, listening, start, Served(told, language, lines))


def run_backup(said: argparse.Namespace) -> int:
    """Writes a copy of the store of a server, and tries it."""
    from .asking import backup

    told = backup(way_of(said), Path(said.file), find_program(said.program))
    print(f"{said.file}: {told:,} bytes, opened and looked at")
    return 0


def run_status(said: argparse.Namespace) -> int:
    """Tells how a server is."""
    from .asking import asked, status_page

    told = asked(way_of(said), "status")
    print(json.dumps(told) if said.json else status_page(told), end="\n" if said.json else "")
    return 0


def way_of(said: argparse.Namespace) -> Way:
    """How the server is reached that these words say."""
    token = Path(said.token_file).read_text().strip() if said.token_file else None
    return Way(said.address, token, said.tls_ca)


def _mapping(said: argparse.Namespace) -> Tuple[bytes, LanguageName, Sequence[bytes]]:
    """What is served, in which language, and the lines that say what will be looked up: of classes
    the store is brought to what they say first, as an opening does."""
    given, indexes = given_of(said.mapping), named_in_words(said.index)
    language: Optional[LanguageName] = said.language
    if isinstance(given, str):
        data = Path(given).read_bytes()
        if findings := lint(data).findings:
            raise WrongMapping("\n".join(f"{given}:{finding}" for finding in findings))
        return data, language or "profile", index_lines(data, indexes)
    with opened(given, said.db, program=said.program, indexes=indexes) as app:
        return json.dumps(app.mapping).encode(), language or "wide", app.index_lines


def _settings(said: argparse.Namespace) -> Settings:
    token: Optional[bytes] = None
    if said.token_file:
        token = Path(said.token_file).read_bytes().strip()
        if len(token) < LEAST_TOKEN:
            raise Misused(f"{said.token_file}: a token has {LEAST_TOKEN} bytes or more")
    return Settings(
        idle=said.idle, wait=said.wait, grace=said.grace, half_line=said.half_line,
        most_connections=said.connections, most_call=said.end_program_after, token=token,
    )


def _listening(said: argparse.Namespace) -> Listening:
    if len(said.listen) > 1:
        raise Misused(f"a server listens at one address, and not at {' and '.join(said.listen)}")
    address, tls = address_of(said.listen[0]), None
    if not address.path and not said.token_file:
        raise Misused("a tcp address needs --token-file")
    if not address.is_loopback and not (said.tls_cert and said.tls_key):
        raise Misused(f"{address} is reached from other machines: it needs --tls-cert and --tls-key")
    if said.tls_cert and said.tls_key:
        import ssl

        tls = ssl.SSLContext(ssl.PROTOCOL_TLS_SERVER)
        tls.minimum_version = ssl.TLSVersion.TLSv1_2
        tls.load_cert_chain(said.tls_cert, said.tls_key)
    elif said.tls_cert or said.tls_key:
        raise Misused("--tls-cert and --tls-key go together")
    metrics = address_of(f"tcp:{said.metrics}") if said.metrics else None
    if metrics is not None and not metrics.is_loopback:
        raise Misused(f"metrics are told to this machine alone, as at {_METRICS}")
    try:
        mode = int(said.mode, 8)
    except ValueError:
        raise Misused(f"--mode {said.mode} is no number in octal, as 660") from None
    return Listening(address, mode, tls, metrics)


def seconds(word: str) -> float:
    """The number of seconds that a word says."""
    try:
        found = float(word)
    except ValueError:
        found = -1.0
    if not 0 < found < 1e9:
        raise argparse.ArgumentTypeError(f"{word!r} is no number of seconds above 0")
    return found
