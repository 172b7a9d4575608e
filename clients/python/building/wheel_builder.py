"""Builds the package for pip (PEP 517 and 660) by Python's own library, and the wheel that brings
the program. Its metadata are those of pyproject.toml."""

from __future__ import annotations

import base64
import hashlib
import re
import tarfile
import zipfile
from pathlib import Path
from typing import Any, Dict, Optional

TOP = Path(__file__).resolve().parents[1]
LINE = re.compile(r'^([a-z-]+) = "([^"]*)"$', re.MULTILINE)
VERSION_LINE = re.compile(r'^__version__ = "([^"]+)"$', re.MULTILINE)


def _read(name: str) -> str:
    return (TOP / name).read_text(encoding="utf-8")


def _table(title: str) -> Dict[str, str]:
    """The lines of a table of pyproject.toml whose values are plain texts: Python reads TOML from
    version 3.11 on, and this builds from 3.9 on."""
    _, _, rest = _read("pyproject.toml").partition(f"[{title}]\n")
    return dict(LINE.findall(rest.partition("\n[")[0]))


PROJECT = _table("project")
NAME = PROJECT["name"]
VERSION = VERSION_LINE.findall(_read(f"{NAME}/__init__.py"))[0]
RELEASE = f"{NAME}-{VERSION}"
INFO = f"{RELEASE}.dist-info"
SCRIPTS = f"{RELEASE}.data/scripts/"
METADATA = f"""Metadata-Version: 2.1
Name: {NAME}
Version: {VERSION}
Summary: {PROJECT["description"]}
Requires-Python: {PROJECT["requires-python"]}
Description-Content-Type: text/markdown

{_read(PROJECT["readme"])}"""
PLAIN_TAG, PROGRAM_TAG = "py3-none-any", "py3-none-manylinux_2_34_x86_64"
COMMANDS = [f"{name} = {place}\n" for name, place in _table("project.scripts").items()]
ENTRY_POINTS = f"[console_scripts]\n{''.join(COMMANDS)}"

Settings = Optional[Dict[str, Any]]


def build_wheel(
    wheel_directory: str, config_settings: Settings = None, metadata_directory: Optional[str] = None
) -> str:
    """Writes a wheel with the package alone, for any system, and gives its name."""
    return _write_wheel(
        wheel_directory, {name: path.read_bytes() for name, path in _modules().items()}
    )


def build_program_wheel(wheel_directory: str, program: bytes, notices: bytes) -> str:
    """Writes a wheel that brings the program with the package, as the command `jpa`, and gives its
    name."""
    files = {name: path.read_bytes() for name, path in _modules().items()}
    files[f"{SCRIPTS}jpa"] = program
    files[f"{INFO}/NOTICES"] = notices
    return _write_wheel(wheel_directory, files, PROGRAM_TAG)


def build_editable(
    wheel_directory: str, config_settings: Settings = None, metadata_directory: Optional[str] = None
) -> str:
    """Writes a wheel that leads to the sources, and gives its name."""
    return _write_wheel(wheel_directory, {f"{NAME}.pth": f"{TOP}\n".encode()})


def build_sdist(sdist_directory: str, config_settings: Settings = None) -> str:
    """Writes an archive of the sources, and gives its name."""
    archive = f"{RELEASE}.tar.gz"
    with tarfile.open(Path(sdist_directory, archive), "w:gz") as out:
        for name in ("pyproject.toml", "README.md", "building/wheel_builder.py"):
            out.add(TOP / name, f"{RELEASE}/{name}")
        for name, path in _modules().items():
            out.add(path, f"{RELEASE}/{name}")
    return archive


def _modules() -> Dict[str, Path]:
    """The files of the package, by their names from its folder on."""
    paths = (path for path in (TOP / NAME).rglob("*") if path.suffix in (".py", ".typed", ".html"))
    return {path.relative_to(TOP).as_posix(): path for path in sorted(paths)}


def _write_wheel(folder: str, files: Dict[str, bytes], tag: str = PLAIN_TAG) -> str:
    is_plain = str(tag == PLAIN_TAG).lower()
    wheel = (
        f"Wheel-Version: 1.0\nGenerator: wheel_builder\nRoot-Is-Purelib: {is_plain}\nTag: {tag}\n"
    )
    told = {"METADATA": METADATA, "WHEEL": wheel, "entry_points.txt": ENTRY_POINTS}
    files = {**files, **{f"{INFO}/{name}": text.encode() for name, text in told.items()}}
    record = (
        "".join(f"{name},sha256={_sum(data)},{len(data)}\n" for name, data in files.items())
        + f"{INFO}/RECORD,,\n"
    )
    archive = f"{RELEASE}-{tag}.whl"
    with zipfile.ZipFile(Path(folder, archive), "w", zipfile.ZIP_DEFLATED, compresslevel=9) as out:
        for name, data in {**files, f"{INFO}/RECORD": record.encode()}.items():
            # Of one time, so that the same files are the same wheel.
            entry = zipfile.ZipInfo(name, (2026, 1, 1, 0, 0, 0))
            entry.compress_type = zipfile.ZIP_DEFLATED
            entry.external_attr = (0o100755 if name.startswith(SCRIPTS) else 0o100644) << 16
            out.writestr(entry, data)
    return archive


def _sum(data: bytes) -> str:
    return base64.urlsafe_b64encode(hashlib.sha256(data).digest()).rstrip(b"=").decode()
