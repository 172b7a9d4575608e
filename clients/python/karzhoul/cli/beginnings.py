"""What `karzhoul new` writes: a first mapping, with a comment on each of its parts, and a first
program over it."""

from __future__ import annotations

import json
import re
import sys
from pathlib import Path
from typing import Any, Dict

from ..mapping.schema import mapping_schema

# The mapping with its comments. JSON has none, and so they stand in the page beside it.
COMMENTED = """\
{
  // The revision of the mapping: 1 for a first one.
  "revision": 1,
  "entities": [
    {
      // An entity: the class of objects that are stored in a table of its own. The store knows the
      // table by its number, as it does columns: numbers stay, where names may change.
      "name": "Book",
      "table": 1,
      // The key, by which a book is found. It is generated: a new book gets the next number.
      "key": [{"name": "id", "type": "int"}],
      "generated": true,
      // A number that rises with each change. By it a commit sees that another one came first.
      "version": {"name": "version", "column": 1},
      // The values: an int of 64 bits, a text or bytes; null where that isn't excluded (required).
      "attributes": [
        {"name": "title", "type": "text", "column": 2, "required": true},
        {"name": "copies", "type": "int", "column": 3}
      ],
      // The loans that lead to a book: the other side of "book" below, and not stored itself. What
      // is done to a book (it is stored, removed ..) is done to its loans too: that is a cascade.
      "relations": [
        {"name": "loans", "kind": "oneToMany", "target": "Loan", "mappedBy": "book",
         "cascade": ["ALL"]}
      ]
    },
    {
      // A second entity, whose key is given by the program.
      "name": "Loan",
      "table": 2,
      "key": [{"name": "number", "type": "int"}],
      "attributes": [
        {"name": "reader", "type": "text", "column": 1, "required": true}
      ],
      // A link to a book, which is stored as the book's key. "required": no loan without a book.
      "relations": [
        {"name": "book", "kind": "manyToOne", "target": "Book", "column": 2, "required": true}
      ]
    }
  ]
}
"""
_PROGRAM = '''\
"""A first program: it stores a book with a loan, finds them again, and is refused something."""

from pathlib import Path

import karzhoul

HERE = Path(__file__).resolve().parent

# `open` starts the program of Karzhoul over the file app.db, which is made where there is none. The
# end of the block ends it.
with karzhoul.open(HERE / "mapping.json", HERE / "app.db") as app:
    # The classes of the mapping. An object that is made isn't stored yet.
    Book, Loan = app.entity("Book"), app.entity("Loan")
    # A manager holds the objects that it stored or found.
    manager = app.create_entity_manager()

    # What the block does is stored at its end: all of it, or nothing where the block raises.
    with manager.transaction():
        book = Book(title="Emma", copies=2)
        last = manager.query_single("SELECT MAX(l.number) FROM Loan l") or 0
        book.loans.append(Loan(number=last + 1, reader="Ada", book=book))
        manager.persist(book)  # The loan goes along, since `loans` cascades.
    print("stored:", book, "with", list(book.loans))

    # Found by its key, and changed: the end of the transaction stores that.
    with manager.transaction():
        found = manager.find(Book, book.id)
        found.copies -= 1
    print("version", found.version, "has copies:", found.copies)

    # A query. docs/QUERIES.md of Karzhoul has the language.
    text = "SELECT b.title, COUNT(l) FROM Book b JOIN b.loans l GROUP BY b.title"
    for title, count in manager.query(text):
        print(title, "was lent", count, "times")

    # What breaks the mapping's rules is refused, and nothing of the transaction is stored.
    try:
        with manager.transaction():
            manager.persist(Book(copies=1))
    except karzhoul.Rollback as refused:
        print("refused:", refused, "-", refused.explain())
'''
_PAGE = """\
# A first mapping and program

| File | What it is |
|---|---|
| mapping.json | what is stored: books and their loans |
| first.py | a program over it, with comments |
| mapping.schema.json | what a mapping may say, for editors that complete JSON by a schema |
| .vscode/settings.json | tells Visual Studio Code of the schema, where this folder is opened |
| books.csv | some books, to be loaded |

## What to try

In this folder:

{tries}
`{word} --help` has the commands, and `{word} COMMAND --help` what each takes.

## The mapping, with comments

JSON has no comments. This is mapping.json with one on each of its parts:

```jsonc
{commented}```
"""
_TRIES = (
    ("python3 first.py", "run the program"),
    ("{word} check mapping.json", "is the mapping good, and where not?"),
    ("{word} show app.db", "what is stored, as tables"),
    ('{word} query mapping.json app.db "SELECT b.title FROM Book b"', "what a query finds"),
    ("{word} load app.db books.csv --csv Book", "store the rows of a CSV"),
    ("{word} shell app.db", "a prompt; try: SELECT b FROM Book b"),
    ("{word} dump app.db -o dump.jsonl", "what is stored, as JSON lines"),
    ("{word} load copy.db dump.jsonl", "the same, as another store"),
)
_BOOKS = "title,copies\nUlysses,1\nWalden,3\n"
_SETTINGS = {"json.schemas": [{"fileMatch": ["mapping.json"], "url": "./mapping.schema.json"}]}


def first_mapping() -> Any:
    """The first mapping."""
    return json.loads(_plain())


def _plain() -> str:
    return re.sub(r"^ *//.*\n", "", COMMENTED, flags=re.MULTILINE)


def files() -> Dict[str, str]:
    """The texts of the files, by their names."""
    is_module = Path(sys.argv[0]).name == "__main__.py"
    word = "python3 -m karzhoul" if is_module else "karzhoul"
    tries = "".join(f"    # {why}\n    {command}\n" for command, why in _TRIES)
    page = _PAGE.replace("{tries}", tries).replace("{word}", word)
    return {
        "mapping.json": _plain(),
        "first.py": _PROGRAM,
        "README.md": page.replace("{commented}", COMMENTED),
        "books.csv": _BOOKS,
        "mapping.schema.json": json.dumps(mapping_schema(), indent=1) + "\n",
        ".vscode/settings.json": json.dumps(_SETTINGS, indent=2) + "\n",
    }


def write(folder: Path) -> None:
    """Writes the files to a folder, which is made; a `FileExistsError` where it has something."""
    if folder.exists() and (not folder.is_dir() or any(folder.iterdir())):
        raise FileExistsError(f"there is something in {folder} already: name a new folder")
    for name, text in files().items():
        path = folder / name
        path.parent.mkdir(parents=True, exist_ok=True)
        path.write_text(text, encoding="utf-8")
