"""A check of mappings of the client's own: which rule of docs/MAPPINGS.md a mapping breaks, and where
in its file.

It refuses exactly what the program refuses, with the same word: `json`, `shape`, `model` or
`function`.
"""

from __future__ import annotations

from ...wire.strict_json import Lines, NoJson, read, text_of
from .findings import Fault, Finding, Path, Report, Teller, path_text
from .functions import made_by, tell_thrown, tell_unknown, warn_of_lost
from .reading import Unit
from .rules import MOST_ENTITIES, MOST_KEY_PARTS, MOST_MEMBERS, MOST_NUMBER, REVISIONS, Model
from .shapes import Shape

__all__ = [
    "MOST_ENTITIES", "MOST_KEY_PARTS", "MOST_MEMBERS", "MOST_NUMBER", "REVISIONS", "Fault",
    "Finding", "Path", "Report", "lint", "path_text",
]


def lint(data: bytes) -> Report:
    """Checks the bytes of a mapping file."""
    report = Report()
    try:
        text = text_of(data)
        root = read(text)
    except NoJson as fault:
        line, column = Lines(data.decode("utf-8", "replace")).place(fault.at)
        report.findings.append(Finding(Fault.JSON, fault.why, "$", line, column))
        return report
    teller = Teller(report, Lines(text))
    Shape(teller).mapping(root)
    if not report.findings:
        unit = Unit(root)
        Model(teller, unit).check()
        is_well_formed = not report.findings
        made = made_by(teller, root)
        if is_well_formed and made is not None:
            tell_unknown(teller, root, made)
            tell_thrown(teller, unit, made)
            warn_of_lost(teller, unit)
    return report
