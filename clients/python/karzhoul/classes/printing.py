"""The command `karzhoul mapping`: the mapping that the classes of a module make."""

from __future__ import annotations

import argparse
import json
import sys
from pathlib import Path
from typing import Any

from ..mapping.given import given_of
from . import lock as locks
from .changes import make
from .faults import DeclarationError

WRONG, MISSAID = 1, 2


def add_command(commands: Any) -> None:
    """Adds it to the others."""
    told = commands.add_parser(
        "mapping", help="print the mapping that the classes of a module make, with their numbers"
    )
    told.add_argument("module", help="the module, as app.models, or its file")
    told.add_argument(
        "-o", "--output", metavar="FILE", help="write to this file, and not to standard output"
    )
    told.add_argument(
        "--lock", metavar="FILE",
        help=f"the file of the numbers ({locks.NAME} beside the module), which is written",
    )
    told.set_defaults(run=run)


def run(said: argparse.Namespace) -> int:
    """Prints it; 1 where the classes are wrong, whose lines are told."""
    try:
        module = given_of(said.module)
    except FileNotFoundError as fault:
        print(f"karzhoul: {fault}", file=sys.stderr)
        return MISSAID
    if isinstance(module, str):
        print(f"karzhoul: {module} is no module of classes", file=sys.stderr)
        return MISSAID
    try:
        made = make(module, said.lock)
    except DeclarationError as fault:
        print(fault, file=sys.stderr)
        return WRONG
    except TypeError as fault:
        print(f"karzhoul: {fault}", file=sys.stderr)
        return WRONG
    text = json.dumps(made.mapping, indent=1, ensure_ascii=False) + "\n"
    if said.output:
        Path(said.output).write_text(text, encoding="utf-8")
    else:
        sys.stdout.write(text)
    if made.file is not None:
        locks.write(made.file, locks.finished(made.lock), made.before)
    return 0
