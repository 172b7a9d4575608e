#!/usr/bin/env python3
"""tests/papers.py [--index]: holds the papers against the repository, from whose top it is started.

- Links between papers, into folders and files, and to headings lead somewhere. Files that are
  named as code are there.
- Names behind a link into crates/, in a table of an index, are declared in that file.
- docs/JUDGING.md cites each folder of tests/runs, and no other. Titles of worked examples are
  those of their files. The index of tests/runs/README.md has the same runs by chapter.
- `CRATE: NAME` and `CRATE::MODULE: NAME` in docs/JUDGING.md and among the words of tests/records are
  files of definitions.
- Each file of crates/*/specs says in its head what it defines, as tools/definitions prints it. Each
  public definition there has a comment right above it, and no line has more than 120 columns.
- The table of limits of docs/OPERATING.md has those of crates/jpa_value/specs/Limits.antt.
- Rows of tests/records have the cells of their table, and name files that are there.
- The version of CHANGELOG.md is that of the program and of the client.
- The calls are as many as docs/CALLS.md says, all are in its tables and those of docs/QUERIES.md,
  and no other paper counts them.

It prints what is not so. Exit status 0 where all of it is so. With --index it first writes the
index of tests/runs/README.md.
"""
from __future__ import annotations

import pathlib
import re
import sys
import textwrap
from urllib.parse import unquote
from typing import TYPE_CHECKING, Any, Iterator

if TYPE_CHECKING:
    from pathlib import Path

PAGES = ("*.md", "docs/*.md", "tests/*.md", "tests/*/*.md", "clients/*/*.md",
         "examples/*/*.md", "crates/*/README.md")
RUNS = "tests/runs/README.md"
JUDGING = "docs/JUDGING.md"
RECORDS = "tests/records/*.tsv"
WORDS = "tests/records/words.tsv"
LIMITS = "crates/jpa_value/specs/Limits.antt"
EXAMPLES = ("mappings", "revisions", "limits", "functions", "stores", "migrations", "queries", "typed")
TITLE = re.compile(r"^(?:mapping|limit|functions|store|query|typed|wide) (.+)$", re.MULTILINE)
VERSIONS = {
    "crates/jpa_lines/src/settings/settings.rt": r'\.version\("([^"]+)"\)',
    "clients/python/karzhoul/__init__.py": r'^__version__ = "([^"]+)"',
}
COUNTS = {29: "twenty-nine", 30: "thirty", 31: "thirty-one", 32: "thirty-two"}
TOPS = "bench|clients|crates|dist|docs|examples|planted|tests|tools"
LINK = re.compile(r"\[([^][]*)\]\(([^()\s]+)\)")
CODE = re.compile(r"`([^`]+)`")
DEFINES = re.compile(r" *(?:(?:(?:abbrev|opaque|unfoldable) )+pub (?!mod )|pub (?:record|data) )")
DECLARING = r"(?:(?:abbrev|opaque|unfoldable|record|data|pub)\s+)+"
faults = []


def fault(page: str, words: str) -> None:
    faults.append(f"{page}: {words}")


def read(name: Path | str) -> str:
    return pathlib.Path(name).read_text(encoding="utf-8")


def found_in(pattern: str, text: str) -> list[str]:
    return re.findall(pattern, text, re.MULTILINE)


def pages() -> list[str]:
    paths = [path for pattern in PAGES for path in sorted(pathlib.Path().glob(pattern))]
    return [path.as_posix() for path in paths]


def prose(text: str) -> str:
    """A page without its blocks of code, with as many lines."""
    kept, fenced = [], False
    for line in text.split("\n"):
        if line.startswith("```"):
            fenced = not fenced
            line = ""
        indented = line.startswith("    ") and not line.lstrip().startswith(("-", "["))
        kept.append("" if fenced or indented else line)
    return "\n".join(kept)


def anchors(name: Path) -> set[str]:
    """What a link can name in a page: its headings, as they are spelled in links."""
    found = set()
    for heading in found_in(r"^#+ (.*)$", prose(read(name))):
        plain = LINK.sub(r"\1", heading).replace("`", "").replace("*", "").lower()
        found.add(re.sub(r"[^\w\- ]", "", plain).replace(" ", "-"))
    return found


def check_links(page: str) -> None:
    for text, target in LINK.findall(prose(read(page))):
        if re.match(r"\w+:", target):
            continue
        name, _, anchor = unquote(target).partition("#")
        path = pathlib.Path(page).parent / name if name else pathlib.Path(page)
        if not path.exists():
            fault(page, f"[{text}] leads to {target}, which is not there")
        elif anchor and anchor not in anchors(path):
            fault(page, f"[{text}] leads to {target}, and there is no such heading")


def check_files(page: str) -> None:
    """Papers at the top, in docs/ and in tests/ name files from the top."""
    text = read(page)
    named = [code.split()[0] for code in CODE.findall(prose(text)) if code.strip()]
    for name in named + found_in(r"\b(docs/[A-Z-]+\.md)\b", text):
        name = re.sub(r"^\./", "", name.rstrip(",:;"))
        if not re.match(rf"({TOPS})/", name):
            continue
        # (a name in capitals stands for others, and what is built need not be there)
        if re.search(r"[A-Z]{4,}(/|$)|[*{]|\.\.|/out/", name):
            continue
        if not pathlib.Path(name).exists():
            fault(page, f"{name} is not there")


def is_declared(name: str, path: Path) -> list[str]:
    """Whether a file of definitions or of code declares a name; clauses of contracts count too."""
    text, word = read(path), re.escape(name)
    if path.suffix == ".antt":
        return found_in(rf"^\s*{DECLARING}{word}(?=[\s:(])|^{word} :", text)
    return found_in(rf"\b(?:fn|struct|enum|trait|const|ensures|requires)\s+{word}\b", text)


def rows(page: str) -> Iterator[Any]:
    """The rows of a page's tables, each as its cells by the titles of the table."""
    return rows_in(read(page))


def rows_in(text: str) -> Iterator[dict[str, str]]:
    titles = None
    for line in text.split("\n"):
        if not line.startswith("|"):
            titles = None
            continue
        cells = [cell.strip() for cell in line.strip().strip("|").split("|")]
        if titles is None:
            titles = cells
        elif set(line) - set("|-: "):
            yield dict(zip(titles, cells))


def check_cited(page: str, cell: str) -> None:
    """Names behind a link into crates/ are declared in its file, up to the next link."""
    for part in re.split(r"(?=\[[^][]*\]\()", cell):
        link = LINK.match(part)
        if not link or not link.group(2).endswith((".antt", ".rt")):
            continue
        path = pathlib.Path(page).parent / link.group(2)
        for name in CODE.findall(part):
            if path.exists() and not is_declared(name, path):
                fault(page, f"{link.group(2)} doesn't declare {name}")


def check_index(page: str) -> None:
    for row in rows(page):
        for cell in row.values():
            check_cited(page, cell)


def has_title(word: str, title: str) -> bool:
    titles = TITLE.findall(read(f"crates/jpa_examples/data/{word}"))
    if title.endswith(" .."):
        return any(name.startswith(title[:-3]) for name in titles)
    return title in titles


def check_titles(page: str, cell: str) -> None:
    for word, title in re.findall(r"\b(\w+): \*([^*]+)\*", cell):
        if word not in EXAMPLES:
            fault(page, f"{word} is no file of worked examples")
        elif not has_title(word, title):
            fault(page, f"{word} has no example '{title}'")


def cited_runs(cell: str) -> list[str]:
    """The runs that a cell names: names behind a link are declared in its file instead."""
    return CODE.findall(re.sub(r"\[[^][]*\]\([^()]*\)(?:,? `[^`]+`)*", "", cell))


def run_index(page: str) -> str:
    """The runs that an index of chapters cites, by its sections: the first rule has the title."""
    found: dict[str, set[str]] = {}
    section = ""
    for row in rows(page):
        section = (found_in(r"^\*\*(.*?)\.\*\*", row.get("Rule", "")) or [section])[0]
        names = {f"`{name}`" for name in cited_runs(row.get("Shown by", ""))}
        found[section] = found.get(section, set()) | names
    return "\n".join(
        "\n".join([f"### {section}", "", *wrapped(sorted(names)), ""])
        for section, names in found.items() if names)


def wrapped(names: list[str]) -> list[str]:
    return textwrap.wrap(" ".join(names), 118, break_on_hyphens=False)


def check_run_index(page: str, is_written: bool) -> None:
    head, title, index = read(RUNS).partition("## By chapter\n\n")
    wanted = run_index(page)
    if is_written:
        pathlib.Path(RUNS).write_text(head + title + wanted, encoding="utf-8")
    elif index != wanted:
        fault(RUNS, f"its index is not that of {page}: 'python3 tests/papers.py --index' writes it")


def check_runs(page: str) -> None:
    runs = {path.name for path in pathlib.Path("tests/runs").iterdir() if path.is_dir()}
    cited = set()
    for row in rows(page):
        cell = row.get("Shown by", "")
        check_titles(page, cell)
        cited.update(cited_runs(cell))
    for name in sorted(cited - runs):
        fault(page, f"{name} is no run of tests/runs")
    for name in sorted(runs - cited):
        fault(page, f"no row cites tests/runs/{name}")


def check_words(page: str) -> None:
    for crate, name in re.findall(r"\b(jp[aq]\w*(?:::\w+)?): ([A-Z]\w+)", prose(read(page))):
        folder = crate.replace("::", "/specs/") if "::" in crate else f"{crate}/specs"
        if not pathlib.Path(f"crates/{folder}/{name}.antt").exists():
            fault(page, f"{crate}: {name} is no file of definitions")


def check_definitions(name: Path) -> None:
    above = ""
    if name.stem[0].isupper() and name.name != "Lib.antt" and not read(name).startswith("-- "):
        fault(name.as_posix(), "its head doesn't say what it defines")
    for place, line in enumerate(read(name).splitlines(), 1):
        if len(line) > 120:
            fault(f"{name}:{place}", f"{len(line)} columns")
        if DEFINES.match(line) and not above.lstrip().startswith("--"):
            fault(f"{name}:{place}", "a public definition without a comment")
        above = line


def check_records(name: Path) -> None:
    columns = 0
    for place, line in enumerate(read(name).splitlines(), 1):
        if not line or line.startswith("#"):
            columns = 0
            continue
        cells = len(line.split("\t"))
        columns = columns or cells
        if cells != columns:
            fault(f"{name}:{place}", f"{cells} cells, and not {columns}")


def check_limits(page: str) -> None:
    told = {row.get("What"): row.get("At most", "").split(" ")[0] for row in rows(page)}
    limits = found_in(r"^-- (.*)\nabbrev pub \w+ : ℕ\n\w+ = (\d+)$", read(LIMITS))
    if not limits:
        fault(LIMITS, "no limits are found there")
    for what, most in limits:
        if told.get(what) != f"{int(most):,}":
            fault(page, f"its table of limits doesn't say that '{what}' are {int(most):,} at most")


def check_version(page: str) -> None:
    version = found_in(r"^## (\d+\.\d+\.\d+)", read(page))[:1]
    for name, pattern in VERSIONS.items():
        if not version or found_in(pattern, read(name)) != version:
            fault(page, f"its first version {version} is not that of {name}")


def check_calls(reference: str) -> None:
    words = found_in(r'^ +"(\w+)" => Ok\(Word::', read("crates/jpa_lines/src/lines/reading.rt"))
    tables = read(reference) + read("docs/QUERIES.md")
    for word in sorted(set(words) - set(found_in(r'^\| `\{"call":"(\w+)"', tables))):
        fault(reference, f"neither its table of calls nor that of docs/QUERIES.md has {word}")
    wanted = f"{COUNTS[len(words)]} calls"
    counts = re.compile(rf"\b(?:twenty-\w+|thirty(?:-\w+)?|{len(words)})(?: \w+)? calls\b",
                        re.IGNORECASE)
    for page in pages():
        text = "" if page.startswith("crates/") else " ".join(prose(read(page)).split())
        for count in counts.findall(text):
            if page != reference or count.lower() != wanted:
                fault(page, f"'{count}': {reference} alone counts the calls, as '{wanted}'")


def main(words: list[Any]) -> int:
    if words not in ([], ["--index"]):
        print(__doc__)
        return 2
    found = pages()
    for page in found:
        check_links(page)
        if "/" not in page or page.startswith(("docs/", "tests/")):
            check_files(page)
    check_index(JUDGING)
    check_runs(JUDGING)
    check_run_index(JUDGING, bool(words))
    for name in (JUDGING, WORDS):
        check_words(name)
    for name in sorted(pathlib.Path().glob(RECORDS)):
        check_records(name)
        check_files(name.as_posix())
    for name in sorted(pathlib.Path("crates").glob("*/specs/**/*.antt")):
        check_definitions(name)
    check_limits("docs/OPERATING.md")
    check_version("CHANGELOG.md")
    check_calls("docs/CALLS.md")
    for line in faults:
        print(line)
    print(f"{len(found)} papers, {len(faults)} faults")
    return 1 if faults else 0


if __name__ == "__main__":
    sys.exit(main(sys.argv[1:]))
