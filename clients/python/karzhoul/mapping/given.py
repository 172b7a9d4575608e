"""What a command names as its mapping: a file, or a module of classes."""

from __future__ import annotations

import importlib
import json
import os
import sys
from pathlib import Path
from types import ModuleType
from typing import Union

from ..refusals import KarzhoulError

Given = Union[str, ModuleType]


class WrongMapping(KarzhoulError):
    """A mapping or classes that are wrong; the text has a line for each thing that is."""


def given_of(word: str) -> Given:
    """What a word names: the path of a mapping, or a module of classes, by its name or its file. A
    word that names neither is a `FileNotFoundError`."""
    if Path(word).suffix == ".py" and Path(word).is_file():
        sys.path.insert(0, str(Path(word).resolve().parent))
        return importlib.import_module(Path(word).stem)
    if os.path.exists(word):
        return word
    why = "--mapping names another one"
    if all(part.isidentifier() for part in word.split(".")) and Path(word).suffix != ".json":
        if "" not in sys.path:
            sys.path.insert(0, "")
        try:
            return importlib.import_module(word)
        except ImportError as fault:
            why = f"as a module: {fault}"
    raise FileNotFoundError(f"there is no mapping {word}: {why}")


def mapping_data(word: str) -> bytes:
    """The text of the mapping that a word names; of classes the one that they make, by the lock
    beside them. Classes that are wrong are a `WrongMapping`."""
    given = given_of(word)
    if isinstance(given, str):
        return Path(given).read_bytes()
    from ..classes.changes import make
    from ..classes.faults import DeclarationError

    try:
        return json.dumps(make(given).mapping).encode()
    except (DeclarationError, TypeError) as fault:
        raise WrongMapping(str(fault)) from fault
