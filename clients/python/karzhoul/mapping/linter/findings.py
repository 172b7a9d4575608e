"""What a check finds, and where in the file."""

from __future__ import annotations

import enum
import json
import re
from dataclasses import dataclass, field
from typing import List, Optional, Tuple, Union

from ...wire.strict_json import Lines, Value

Path = Tuple[Union[str, int], ...]


class Fault(str, enum.Enum):
    """What the program says of a mapping that it refuses, in the order in which it asks."""

    JSON = "json"
    SHAPE = "shape"
    MODEL = "model"
    FUNCTION = "function"


@dataclass(frozen=True)
class Finding:
    """A rule that is broken, and where: the path of the value in the JSON, its line and its column.
    Without a fault it is a warning."""

    fault: Optional[Fault]
    message: str
    path: str
    line: int
    column: int

    def __str__(self) -> str:
        return (
            f"{self.line}:{self.column}: {self.path}: {self.message} "
            f"[{f'Mapping({self.fault.value})' if self.fault else 'warning'}]"
        )


@dataclass
class Report:
    """What a check found: the broken rules, and warnings of what the program takes and can't do
    later."""

    findings: List[Finding] = field(default_factory=list)
    warnings: List[Finding] = field(default_factory=list)

    @property
    def verdict(self) -> Optional[Fault]:
        """What the program answers to a mapping that is wrong; None where it is well formed."""
        faults = {finding.fault for finding in self.findings}
        return next((fault for fault in Fault if fault in faults), None)


class Teller:
    """Notes what is found."""

    def __init__(self, report: Report, lines: Lines) -> None:
        self._report, self._lines = report, lines

    def tell(self, fault: Fault, path: Path, value: Value, message: str) -> None:
        self._report.findings.append(self._finding(fault, path, value, message))

    def warn(self, path: Path, value: Value, message: str) -> None:
        self._report.warnings.append(self._finding(None, path, value, message))

    def _finding(self, fault: Optional[Fault], path: Path, value: Value, message: str) -> Finding:
        return Finding(fault, message, path_text(path), *self._lines.place(value.at))


def path_text(path: Path) -> str:
    """A path as text: `$.entities[0].name`."""
    steps = (
        f"[{step}]"
        if isinstance(step, int)
        else f".{step}"
        if re.fullmatch(r"\w+", step)
        else f"[{json.dumps(step)}]"
        for step in path
    )
    return "$" + "".join(steps)
