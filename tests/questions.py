#!/usr/bin/env python3
"""tests/questions.py PROGRAM: asks stores by the words --query, --param, --explain and --language.

What is printed, told and answered was worked out by hand, from the calls that fill each store. A
question leaves each file as it was, and makes none but the log beside a store, as any opening does.
Exit status 0 where all is as it must be.
"""
from __future__ import annotations

import json, os, sqlite3, subprocess, sys
from contextlib import closing

sys.dont_write_bytecode = True
import wide, wide_cases, wide_lists, wide_rows
from asking import HINT, Asking, made, stored
from runs import HERE, fill, read
from trials import see, tried
from wide_random import random_questions

OLD, NEW = (os.path.join(HERE, *names) for names in (
    ("mappings", "persons.json"), ("runs", "migrate-person-store", "mapping.json"),
))

# Three persons, whose keys 1, 2 and 3 are generated, and three orders, two of which lead to one.
PERSONS = stored([
    made("Person", 1, name="Ada"), made("Person", 2), made("Person", 3, name="7"),
    made("Order", 4, number=10, amount=1, person={"object": 1}), made("Order", 5, number=11, amount=2),
    made("Order", 6, number=12, person={"object": 2}),
])
PLACES = {"revision": 1, "entities": [
    {
        "name": "Place", "table": 3, "embedded": "at",
        "key": [
            {"name": "aisle", "type": "int"}, {"name": "shelf", "type": "text"},
            {"name": "code", "type": "bytes"},
        ],
        "attributes": [{"name": "scan", "type": "bytes", "column": 1}],
    },
    {
        "name": "Depot", "extends": "Place",
        "attributes": [{"name": "label", "type": "text", "column": 2}],
    },
]}
PLACED = stored([
    made("Place", 1, at__aisle=1, at__shelf="a", at__code={"hex": "0A"}, scan={"hex": "ff"}),
    made("Depot", 2, at__aisle=2, at__shelf='"é', at__code={"hex": ""}, label="x\ny"),
])
# A hierarchy of which one class owns pairs: object 2 leads to both.
TAGS = {"revision": 1, "entities": [
    {
        "name": "Base", "table": 1, "key": [{"name": "id", "type": "int"}],
        "attributes": [{"name": "a", "type": "text", "column": 1}],
        "relations": [{"name": "above", "kind": "manyToOne", "target": "Base", "column": 2}],
    },
    {"name": "Plain", "extends": "Base"},
    {
        "name": "Tagged", "extends": "Base",
        "relations": [{"name": "bases", "kind": "manyToMany", "target": "Base", "joinTable": 9}],
    },
]}
TAGGED = stored([
    made("Plain", 1, id=1, a="x"),
    made("Tagged", 2, id=2, a="y", above={"object": 1})
    + [{"call": "add", "object": 2, "name": "bases", "member": member} for member in (1, 2)],
])
BY_NAME = "SELECT o.number, o.amount FROM Order o WHERE o.person.name = :name"
NAMED = "SELECT p.id FROM Person p WHERE p.name = ?1"

# What is asked of the persons, and the lines that answer it.
ASKED: list[tuple[list[str], list[str]]] = [
    (["SELECT o.number FROM Order o WHERE o.number = 11"], ["11"]),
    (["SELECT o FROM Order o WHERE o.number = 11"], ['{"entity":"Order","key":[11]}']),
    (["SELECT o.number FROM Order o WHERE o.number = 99"], []),
    (["SELECT o.number FROM Order o WHERE :n = o.number", "--param", "n=12"], ["12"]),
    (
        ["SELECT p, p.name FROM Person p ORDER BY p.id"],
        [
            '[{"entity":"Person","key":[1]},"Ada"]', '[{"entity":"Person","key":[2]},null]',
            '[{"entity":"Person","key":[3]},"7"]',
        ],
    ),
    (["SELECT p.name FROM Person p ORDER BY p.id"], ['"Ada"', "null", '"7"']),
    ([BY_NAME, "--param", 'name="Ada"'], ["[10,1]"]),
    ([BY_NAME, "--param", "name=null"], []),
    ([NAMED, "--param", '1="7"'], ["3"]),
    ([NAMED, "--param", '1= "7" '], ["3"]),
    (
        [
            "SELECT p.id FROM Person p WHERE p.id > :low AND p.id < :high ORDER BY p.id DESC",
            "--param", "high=4", "--param", "low=1",
        ],
        ["3", "2"],
    ),
    (["SELECT COUNT(o), SUM(o.amount) FROM Order o"], ["[3,3]"]),
    (["SELECT MAX(o.amount) FROM Order o WHERE o.number > 100"], ["null"]),
    (
        ["SELECT COUNT(p.name), SUM(o.amount), MIN(p.name), MAX(p.name) FROM Order o, Person p"],
        ['[6,9,"7","Ada"]'],
    ),
    (["SELECT MIN(o.amount) FROM Order o, Person p WHERE o.number > 100"], ["null"]),
    (
        ["SELECT p FROM Order o JOIN o.person p ORDER BY p.id"],
        ['{"entity":"Person","key":[1]}', '{"entity":"Person","key":[2]}'],
    ),
]

# What is refused of them, by its name.
REFUSED: list[tuple[list[str], str]] = [
    (["SELECT p FORM Person p"], "IllegalArgument(syntax)"),
    ([""], "IllegalArgument(syntax)"),
    (["SELECT p.nothing FROM Person p"], "IllegalArgument(typing)"),
    ([NAMED, "--param", "1=7"], "IllegalArgument(typing)"),
    ([NAMED, "--param", '1={"hex":"37"}'], "IllegalArgument(typing)"),
    ([NAMED], "IllegalArgument(parameter)"),
    ([NAMED, "--param", '1="7"', "--param", "2=7"], "IllegalArgument(parameter)"),
    (["UPDATE Person p SET p.name = 'x'"], "IllegalState(statement)"),
    (["DELETE FROM Person p"], "IllegalState(statement)"),
    (["SELECT p.id * 9223372036854775807 FROM Person p"], "Overflow"),
    (["SELECT p FROM Person p" + " " * 16384], "Limit"),
]

# Words that give no parameter.
MISGIVEN = ["n", "n=", "=1", "n=x", "n=[1]", "n=1.5", "n=true", "n=9223372036854775808", 'n={"hex":"f"}',
            'n={"object":1}', "n=1 2", "n='x'"]

# What is told of how a question is answered.
PLANS: list[tuple[list[str], list[str]]] = [
    (["SELECT o.number FROM Order o WHERE o.number = 11"],
     ['looks up by its key {"entity":"Order","key":[11]}']),
    (["SELECT o.number FROM Order o WHERE o.number = ?1", "--param", "1=12"],
     ['looks up by its key {"entity":"Order","key":[12]}']),
    (["SELECT o.number FROM Order o WHERE o.number > 11"],
     ["reads all rows of Person", "reads all rows of Order"]),
    (["SELECT p FROM Person p"], ["reads all rows of Person", "reads all rows of Order"]),
]


LIBRARY = json.loads("""{"revision":1,"entities":[
 {"name":"Title","table":1,"key":[{"name":"isbn","type":"text"}],
  "attributes":[{"name":"name","type":"text","column":1},{"name":"year","type":"int","column":2}],
  "relations":[{"name":"copies","kind":"oneToMany","target":"Copy","mappedBy":"title"}]},
 {"name":"Copy","table":2,"embedded":"at","key":[{"name":"isbn","type":"text"},{"name":"place","type":"int"}],
  "relations":[{"name":"title","kind":"manyToOne","target":"Title","column":1}]},
 {"name":"Member","table":3,"key":[{"name":"id","type":"int"}]},
 {"name":"Loan","table":4,"key":[{"name":"number","type":"int"}],
  "relations":[{"name":"member","kind":"manyToOne","target":"Member","column":1}]}]}
""")
NAMED = ("--param", 'n="x"')
NAME = ("--index", "Title.name")
MANAGED = [
    ("SELECT t FROM Title t WHERE t.isbn = :n", NAMED, ["looks up Title by its key"]),
    ("SELECT t FROM Title t WHERE t.name = :n", NAMED, ["looks at all of Title"]),
    ("SELECT t FROM Title t WHERE t.name = :n", (*NAMED, *NAME), ["looks up Title by the index of name"]),
    ("SELECT t FROM Title t WHERE t.year > 3 AND :n < t.name", (*NAMED, *NAME), ["looks up Title by the index of name"]),
    ("SELECT t FROM Title t WHERE t.name <> :n", (*NAMED, *NAME), ["looks at all of Title"]),
    ("SELECT t FROM Title t WHERE t.name LIKE 'Abc%'", NAME, ["looks up Title by the index of name"]),
    ("SELECT t FROM Title t WHERE t.name LIKE :n", (*NAMED, *NAME), ["looks up Title by the index of name"]),
    ("SELECT t FROM Title t WHERE t.name LIKE '%c'", NAME, ["looks at all of Title"]),
    ("SELECT t FROM Title t WHERE t.name NOT LIKE 'Abc%'", NAME, ["looks at all of Title"]),
    ("SELECT t FROM Title t WHERE t.name = :n AND t.year + 1 > 0", (*NAMED, *NAME), ["looks at all of Title"]),
    ("SELECT l FROM Loan l WHERE l.member.id = 77", (), ["looks up Loan by member"]),
    ("SELECT l FROM Loan l WHERE l.number > 7", (), ["looks up Loan by a range of keys"]),
    ("SELECT c FROM Copy c WHERE c.at.isbn = :n", NAMED, ["looks up Copy by a range of keys"]),
    ("SELECT c FROM Copy c WHERE c.at.isbn = :n AND c.at.place = 1", NAMED, ["looks up Copy by its key"]),
    ("SELECT t.name FROM Title t LEFT JOIN t.copies c", (), ["looks at all of Title", "goes along Title.copies"]),
    ("SELECT t, u FROM Title t, Title u WHERE t.year = u.year", (),
     ["looks at all of Title", "looks up Title by an index that is made for the query"]),
    ("SELECT l FROM Member m, Loan l WHERE l.member = m AND m.id = 3", (),
     ["looks up Member by its key", "looks up Loan by member"]),
    ("SELECT m FROM Loan l, Member m WHERE m = l.member", (), ["looks at all of Loan", "looks up Member itself"]),
    ("SELECT m FROM Member m WHERE NOT EXISTS (SELECT l FROM Loan l WHERE l.member = m)", (),
     ["looks at all of Member", "in EXISTS: looks up Loan by member"]),
]


def persons(ask: Asking) -> None:
    """Rows, refusals and plans, over the program's own persons and over a mapping of them."""
    ask.filled(PERSONS)
    for words in [(), ("--mapping", OLD)]:
        for question, lines in ASKED:
            ask.answers(question, lines, *words)
        for question, name in REFUSED:
            ask.refuses(question, name, *words)
        for question, lines in PLANS:
            ask.answers([*question, "--explain"], lines, *words)


def places(ask: Asking) -> None:
    """Bytes, texts with what JSON escapes, keys of several parts, and a subclass by its root."""
    words = ("--mapping", ask.mapping(PLACES))
    ask.filled(PLACED, *words)
    first = '{"entity":"Place","key":[1,"a",{"hex":"0a"}]}'
    second = '{"entity":"Place","key":[2,"\\"é",{"hex":""}]}'
    ask.answers(["SELECT e FROM Place e"], [first, second], *words)
    ask.answers(["SELECT d, d.label FROM Depot d"], [f'[{second},"x\\ny"]'], *words)
    scan = "SELECT e.scan, e.at.aisle FROM Place e WHERE e.scan = :scan"
    ask.answers([scan, "--param", 'scan={"hex":"FF"}'], ['[{"hex":"ff"},1]'], *words)
    ask.answers([scan, "--param", 'scan={"hex":"00"}'], [], *words)
    ask.answers(["SELECT e FROM Place e", "--explain"], ["reads all rows of Place"], *words)


def paired(ask: Asking) -> None:
    """One row tells what no collection is asked of, whichever class owns pairs: theirs aren't read."""
    words = ("--mapping", ask.mapping(TAGS))
    ask.filled(TAGGED, *words)
    size = "SELECT SIZE(t.bases) FROM Tagged t WHERE t.id = 2"
    ask.answers([size], ["2"], *words)
    ask.answers([size, "--explain"], ["reads all rows of Base"], *words)
    with closing(sqlite3.connect(ask.store)) as store:
        store.execute("DELETE FROM cell WHERE t = 9 AND r = x'018000000000000002018000000000000001'")
        store.execute("UPDATE cell SET v = x'00' WHERE t = 9")
        store.commit()
    for text, key, lines in [
        ("SELECT s.a FROM Base s WHERE s.id = 1", 1, ['"x"']),
        ("SELECT s.a, s.above FROM Base s WHERE s.id = 2", 2, ['["y",{"entity":"Base","key":[1]}]']),
        ("SELECT t FROM Tagged t WHERE 2 = t.id", 2, ['{"entity":"Base","key":[2]}']),
        ("SELECT t.a FROM Tagged t WHERE t.id = 1", 1, []),
    ]:
        ask.answers([text], lines, *words)
        plan = f'looks up by its key {{"entity":"Base","key":[{key}]}}'
        ask.answers([text, "--explain"], [plan], *words)
    ask.refuses([size], "Damaged(9:018000000000000002018000000000000002)", *words)


def managed(ask: Asking) -> None:
    """How a manager finds objects, without a store."""
    words = ["--mapping", ask.mapping(LIBRARY), "--explain"]
    for text, more, lines in MANAGED:
        told = "".join(f"{line}\n" for line in lines)
        see(ask.ran("--query", text, *more, *words), (0, told, ""), (text, more))
    text = "SELECT t FROM Title t"
    for text, more, name in [
        (text, ("--index", "Titel.name"), "IllegalArgument(entity)"),
        (text, ("--index", "Title.copies"), "IllegalArgument(name)"),
        (text, ("--index", "Title"), "IllegalArgument(name)"),
        (text, ("--index", "Title.name", "--index", "Loan.name"), "IllegalArgument(name)"),
        ("DELETE FROM Title t", (), "IllegalState(statement)"),
        ("SELECT t FROM Title t WHERE t.name = :n", (), "IllegalArgument(parameter)"),
    ]:
        see(ask.ran("--query", text, *more, *words), (3, "", f"jpa: {name}\n"), (text, more))


def words_refused(ask: Asking) -> None:
    """Words that don't go together, and words that give no parameter: told in words, status 2."""
    ask.filled(PERSONS)
    text = "SELECT p FROM Person p"
    for words, said in [
        (("--query", text), "error: '--query <TEXT>' needs '--db <FILE>'"),
        (("--query", text, "--param", "n=1"), "error: '--query <TEXT>' needs '--db <FILE>'"),
        (("--query", text, "--index", "Place.id"), "error: '--query <TEXT>' needs '--db <FILE>'"),
        (("--db", ask.store, "--query", text, "--explain", "--index", "Place.id"),
         "error: '--index <ENTITY.NAME>' needs '--explain' without '--db <FILE>'"),
        (("--index", "Place.id"), "error: '--index <ENTITY.NAME>' needs '--explain' without '--db <FILE>'"),
        (("--param", "n=1"), "error: '--param <NAME=VALUE>' needs '--query <TEXT>'"),
        (("--db", ask.store, "--param", "n=1", "--explain"), "error: '--param <NAME=VALUE>' needs '--query <TEXT>'"),
        (("--db", ask.store, "--explain"), "error: '--explain' needs '--query <TEXT>'"),
    ]:
        see(ask.ran(*words), (2, "", said + HINT), words)
    for words, start in [
        (("--query", text, "--query", text), "error: the argument '--query <TEXT>' cannot be used multiple times"),
        (("--explain", "--explain"), "error: the argument '--explain' cannot be used multiple times"),
        (("--query",), "error: a value is required for '--query <TEXT>' but none was supplied"),
    ]:
        status, out, err = ask.ran(*words, "--db", ask.store)
        see((status, out, err[: len(start)]), (2, "", start), words)
    asked = ["SELECT p FROM Person p WHERE p.id = :n"]
    gives_none = "' gives no parameter as '--param <NAME=VALUE>', with its value as JSON and each name once"
    for word in MISGIVEN:
        ask.asks([*asked, "--param", word], (2, "", f"error: '{word}{gives_none}{HINT}"))
    twice = [*asked, "--param", "n=1", "--param", "m=1", "--param", "n=1"]
    ask.asks(twice, (2, "", f"error: 'n=1{gives_none}{HINT}"))
    ask.asks([*asked, "--param", "n=1"], (2, "", "jpa: Mapping(json)\n"), "--mapping", ask.place)


def no_stores(ask: Asking) -> None:
    """Files that hold no store, and one that isn't there: no file is made, and none is changed."""
    text = ["SELECT p FROM Person p"]
    ask.refuses(text, "StoreFault")
    open(ask.store, "wb").close()
    ask.refuses(text, "StoreFault")
    with open(ask.store, "wb") as file:
        file.write(b"no database at all, in more than a hundred bytes: " * 20)
    ask.refuses(text, "StoreFault")
    os.remove(ask.store)
    with closing(sqlite3.connect(ask.store)) as other:
        other.execute("CREATE TABLE note (id INTEGER PRIMARY KEY) STRICT")
        other.commit()
    words = "jpa: the database has tables, indexes or views, and no table of cells\n"
    ask.asks(text, (3, "", f"{words}jpa: StoreFault\n"))
    os.remove(ask.store)
    os.mkdir(ask.store)
    found = ask.ran("--db", ask.store, "--query", *text)
    see(found, (3, "", "jpa: StoreFault\n"), "a folder for a store")
    os.rmdir(ask.store)


def damaged(ask: Asking) -> None:
    """A damaged row is told where all rows are read. A look-up by another key reads its own alone."""
    ask.filled(PERSONS)
    with closing(sqlite3.connect(ask.store)) as store:
        store.execute("DELETE FROM cell WHERE t = 1 AND r = x'018000000000000002' AND c = 1")
        store.commit()
    place = "Damaged(1:018000000000000002)"
    ask.refuses(["SELECT o.number FROM Order o"], place)
    ask.answers(["SELECT o.number FROM Order o WHERE o.number = 11"], ["11"])


def revisions(ask: Asking) -> None:
    """A mapping of another revision is refused; only an opening brings a store over."""
    revision = "Damaged(0:018000000000000000)"
    hits, names = ["SELECT p.name, p.hits FROM Person p"], ["SELECT p.name FROM Person p"]
    fill(ask.store, read(os.path.dirname(NEW), "cells-before.txt") or b"")
    ask.answers(names, ['"Ada"'], "--mapping", OLD)
    ask.refuses(hits, revision, "--mapping", NEW)
    ask.refuses(["SELECT o FROM Order o WHERE o.number = 1"], revision, "--mapping", NEW)
    ask.filled(b"", "--mapping", NEW)
    ask.answers(hits, ['["Ada",0]'], "--mapping", NEW)
    ask.refuses(names, revision, "--mapping", OLD)
    ask.refuses(["SELECT o FROM Order o WHERE o.number = 1"], revision, "--mapping", OLD)


def in_use(ask: Asking) -> None:
    """A store that another program has is refused."""
    ask.filled(PERSONS)
    words = [ask.program, "--db", ask.store]
    with subprocess.Popen(words, stdin=subprocess.PIPE, stdout=subprocess.PIPE) as other:
        assert other.stdin is not None and other.stdout is not None
        other.stdin.write(b'{"call":"createEntityManager"}\n')
        other.stdin.flush()
        other.stdout.readline()
        found = ask.ran("--db", ask.store, "--query", "SELECT p FROM Person p")
        see(found, (3, "", "jpa: StoreFault\n"), "a store in use")
        other.stdin.close()


def main(given: list[str]) -> int:
    if len(given) != 1:
        sys.exit(__doc__)
    trials = [persons, places, paired, managed, words_refused, no_stores, damaged, revisions, in_use]
    trials += [*wide.TRIALS, *wide_lists.TRIALS, *wide_rows.TRIALS, *wide_cases.TRIALS, random_questions]
    return tried(trials, "questions", lambda trial, place: trial(Asking(given[0], place)))


if __name__ == "__main__":
    sys.exit(main(sys.argv[1:]))
