"""What is wrong with classes, told with the line that has it."""

from __future__ import annotations

import ast
import inspect
from functools import lru_cache
from pathlib import Path
from typing import Dict, List, Optional, Sequence, Tuple

from ..refusals import KarzhoulError


class DeclarationError(KarzhoulError, TypeError):
    """Classes that make no mapping, or not the one of before: each of the `faults` says where, what
    is wrong and what to write."""

    def __init__(self, faults: Sequence[str]) -> None:
        super().__init__("\n".join(faults))
        self.faults = tuple(faults)


class NotBroughtOver(KarzhoulError, ValueError):
    """A store that the classes don't fit any more; each of the `faults` says what stands in it, and
    what to do. The store is as it was."""

    def __init__(self, faults: Sequence[str]) -> None:
        super().__init__("\n".join(faults))
        self.faults = tuple(faults)


class Faults:
    """What is found to be wrong, all of which is told together."""

    def __init__(self) -> None:
        self._found: List[str] = []

    def add(self, kind: type, attribute: Optional[str], why: str) -> None:
        """Something is wrong with a class, or with an attribute that it writes."""
        # A part of an embedded value stands where that is written.
        where, line = _place(kind, attribute and attribute.partition(".")[0])
        of = f".{attribute}" if attribute else ""
        self._found.append(f"{where}{f':{line}' if line else ''}: {kind.__name__}{of} {why}")

    def take(self, wrong: DeclarationError) -> None:
        """What was found of another class is wrong too."""
        self._found += wrong.faults

    def tell(self) -> None:
        """Raises a `DeclarationError` where anything is wrong."""
        if self._found:
            raise DeclarationError(list(dict.fromkeys(self._found)))


def _place(kind: type, attribute: Optional[str]) -> Tuple[str, Optional[int]]:
    """The file and the line of a class, or of an attribute in it."""
    try:
        file = inspect.getsourcefile(kind)
    except (TypeError, OSError):
        file = None
    if not file or not Path(file).is_file():
        return kind.__module__, None
    lines = _lines(file, kind.__qualname__.replace(".<locals>", ""))
    return Path(file).name, lines.get(attribute or "", lines.get(""))


@lru_cache(maxsize=64)
def _lines(file: str, name: str) -> Dict[str, int]:
    """The lines of the attributes of a class, and of itself as ''."""
    tree = ast.parse(Path(file).read_bytes())
    found: Dict[str, int] = {}
    for node, path in _named(tree, ""):
        if path == name and isinstance(node, ast.ClassDef):
            found = {"": node.lineno}
            for part in node.body:
                targets: List[ast.expr] = [part.target] if isinstance(part, ast.AnnAssign) else []
                targets += part.targets if isinstance(part, ast.Assign) else []
                names = [each.id for each in targets if isinstance(each, ast.Name)]
                found.update(dict.fromkeys(names, part.lineno))
                if isinstance(part, ast.FunctionDef):
                    found[part.name] = part.lineno
    return found


def _named(tree: ast.AST, path: str) -> List[Tuple[ast.AST, str]]:
    """The classes and functions in a tree, with their qualified names."""
    found: List[Tuple[ast.AST, str]] = []
    for node in ast.iter_child_nodes(tree):
        is_named = isinstance(node, (ast.ClassDef, ast.FunctionDef, ast.AsyncFunctionDef))
        own = f"{path}.{node.name}".lstrip(".") if is_named else path  # type: ignore[attr-defined]
        found += [(node, own)] if is_named else []
        found += _named(node, own)
    return found
