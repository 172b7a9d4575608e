"""Trials of `--query TEXT --language wide`: UPPER, LOWER and TRIM in each form and in each clause.

Each answer is Python's own: `str.upper`, `str.lower`, and a loop for TRIM (chapter 4.7.2 of Jakarta
Persistence). Characters are those of Unicode 13.0, which every Python that runs this knows. The same
texts without the word are refused, as they always were.
"""
from __future__ import annotations

import json, os, re, sqlite3
from contextlib import closing
from typing import Any, Callable, Optional

from asking import HINT, Asking, made, stored
from runs import HERE
from trials import see

WIDE = ("--language", "wide")
PROFILE: list[list[str]] = [[], ["--language", "profile"]]
ATTRIBUTES = ["t", "u", "upper", "trim", "all", "end", "case", "leading"]
MAPPING = {"revision": 1, "entities": [
    {
        "name": "Note", "table": 5, "key": [{"name": "id", "type": "int"}],
        "attributes": [
            *({"name": name, "type": "text", "column": at} for at, name in enumerate(ATTRIBUTES, 1)),
            {"name": "scan", "type": "bytes", "column": 20}, {"name": "count", "type": "int", "column": 21},
        ],
        "relations": [{"name": "next", "kind": "manyToOne", "target": "Note", "column": 22}],
    },
    {"name": "Case", "extends": "Note"},
]}
# What notes 1 to 9 have as t; each u is "ab", but that of note 9, which is null.
TEXTS: list[Optional[str]] = [
    "straße", "  Ada ", "", None, "ΟΔΟΣ Σ", "xxaxbxx", "ǆ ŉ ﬁ İ ı", "ababa", "É𐐨é",
]


def notes(texts: list[tuple[Optional[str], Optional[str]]]) -> bytes:
    """The lines that store notes of these texts as t and u, numbered from 1."""
    return stored([
        made("Note", at, id=at, t=t, u=u, upper="Up", trim=" tr ", all="All", end="enD", count=at)
        for at, (t, u) in enumerate(texts, 1)
    ])


NOTES = notes([(text, None if at == 9 else "ab") for at, text in enumerate(TEXTS, 1)])


def trimmed(side: str, off: str, text: str) -> str:
    """A text without another at its sides, as often as it stands there, at the front first."""
    while off and side != "TRAILING" and text.startswith(off):
        text = text[len(off):]
    while off and side != "LEADING" and text.endswith(off):
        text = text[:-len(off)]
    return text


def quoted(text: str) -> str:
    return "'" + text.replace("'", "''") + "'"


def lines_of(rows: list[Any]) -> list[str]:
    return [json.dumps(row, ensure_ascii=False, separators=(",", ":")) for row in rows]


class Wide:
    """A store of notes that is asked in the wider language."""

    def __init__(self, ask: Asking, calls: bytes = NOTES) -> None:
        self.ask, self.words = ask, ("--mapping", ask.mapping(MAPPING))
        ask.filled(calls, *self.words)

    def answers(self, question: list[str], rows: list[Any]) -> None:
        """A question is answered so, and isn't one of the profile's."""
        self.ask.answers([*question, *WIDE], lines_of(rows), *self.words)
        self.ask.refuses(question, "IllegalArgument(syntax)", *self.words)

    def refuses(self, text: str, name: str, *params: str) -> None:
        self.ask.refuses([text, *params, *WIDE], name, *self.words)

    def both(self, text: str, rows: list[Any], *params: str) -> None:
        """A question of the profile has the same rows in both languages."""
        for said in [*PROFILE, [*WIDE]]:
            self.ask.answers([text, *params, *said], lines_of(rows), *self.words)


# ---- each form, of each text

FORMS: list[tuple[str, list[str], Callable[[str], Optional[str]]]] = [
    ("UPPER(n.t)", [], str.upper),
    ("lower(n.t)", [], str.lower),
    ("TRIM(n.t)", [], lambda t: trimmed("BOTH", " ", t)),
    ("Trim(Leading From n.t)", [], lambda t: trimmed("LEADING", " ", t)),
    ("TRIM(TRAILING FROM n.t)", [], lambda t: trimmed("TRAILING", " ", t)),
    ("TRIM(BOTH FROM n.t)", [], lambda t: trimmed("BOTH", " ", t)),
    ("TRIM(LEADING 'x' FROM n.t)", [], lambda t: trimmed("LEADING", "x", t)),
    ("TRIM(TRAILING 'xx' FROM n.t)", [], lambda t: trimmed("TRAILING", "xx", t)),
    ("TRIM(BOTH 'aba' FROM n.t)", [], lambda t: trimmed("BOTH", "aba", t)),
    ("TRIM('x' FROM n.t)", [], lambda t: trimmed("BOTH", "x", t)),
    ("TRIM('' FROM n.t)", [], lambda t: t),
    ("TRIM(BOTH '''' FROM n.t)", [], lambda t: t),
    ("TRIM('É' FROM n.t)", [], lambda t: trimmed("BOTH", "É", t)),
    ("TRIM(:off FROM n.t)", ["--param", 'off="ab"'], lambda t: trimmed("BOTH", "ab", t)),
    ("TRIM(LEADING ?1 FROM n.t)", ["--param", '1=" "'], lambda t: trimmed("LEADING", " ", t)),
    ("TRIM(TRAILING :trim FROM n.t)", ["--param", "trim=null"], lambda t: None),
    ("UPPER(TRIM(LOWER(n.t)))", [], lambda t: trimmed("BOTH", " ", t.lower()).upper()),
    ("TRIM('A' FROM TRIM(LEADING FROM UPPER(n.t)))", [],
     lambda t: trimmed("BOTH", "A", trimmed("LEADING", " ", t.upper()))),
    ("CONCAT(UPPER(n.t), TRIM(' b '))", [], lambda t: t.upper() + "b"),
]


def of_text(form: Callable[[str], Optional[str]], text: Optional[str]) -> Optional[str]:
    return None if text is None else form(text)


def forms(ask: Asking) -> None:
    """Each form in SELECT, in WHERE and among what is ordered."""
    asked = Wide(ask)
    for call, params, form in FORMS:
        found = [of_text(form, text) for text in TEXTS]
        asked.answers([f"SELECT {call} FROM Note n ORDER BY n.id", *params], found)
        order = sorted(range(len(found)), key=lambda at: (found[at] is not None, found[at] or "", at))
        asked.answers(
            [f"SELECT {call} AS s, n.id FROM Note n ORDER BY s, n.id", *params],
            [[found[at], at + 1] for at in order],
        )
        by_value = [f"SELECT n.id FROM Note n ORDER BY {call}, n.id", *params]
        asked.answers(by_value, [at + 1 for at in order])
        same = [at for at, text in enumerate(found, 1) if text is not None and text == TEXTS[at - 1]]
        asked.answers([f"SELECT n.id FROM Note n WHERE n.t = {call} ORDER BY n.id", *params], same)
    nulls = "SELECT UPPER(:p), LOWER(:p), TRIM(:p) FROM Note n WHERE n.id = 1"
    asked.answers([nulls, "--param", "p=null"], [[None, None, None]])


CLAUSES: list[tuple[str, list[Any]]] = [
    ("SELECT n.id FROM Note n WHERE UPPER(n.t) = 'STRASSE'", [1]),
    ("SELECT n.id FROM Note n WHERE LOWER(n.t) = 'οδος σ'", [5]),
    ("SELECT n.id FROM Note n WHERE TRIM(n.t) LIKE 'Ad_'", [2]),
    ("SELECT n.id FROM Note n WHERE n.t LIKE UPPER('%xb%') OR LOWER(n.t) LIKE LOWER('X%X')", [6]),
    ("SELECT n.id FROM Note n WHERE TRIM(n.t) IN ('', LOWER('ABABA')) ORDER BY n.id", [3, 8]),
    ("SELECT n.id FROM Note n WHERE UPPER(n.t) BETWEEN 'AB' AND TRIM(' ABB ')", [8]),
    ("SELECT n.id FROM Note n WHERE UPPER(n.u) IS NULL", [9]),
    ("SELECT n.id FROM Note n WHERE NOT UPPER(n.u) = 'AB'", []),
    ("SELECT LENGTH(UPPER(n.t)), LOCATE('S', UPPER(n.t)) FROM Note n WHERE n.id = 1", [[7, 1]]),
    ("SELECT n.id FROM Note n WHERE EXISTS (SELECT o FROM Note o WHERE UPPER(o.u) = 'AB' AND o.id = n.id + 7)", [1]),
    ("SELECT a.id, b.id FROM Note a, Note b WHERE UPPER(a.u) = UPPER(b.u) AND a.id < 2 AND b.id > 7", [[1, 8]]),
    ("SELECT n.id, o.id FROM Note n LEFT JOIN n.next o ON UPPER(o.t) = 'X' WHERE n.id = 1", [[1, None]]),
    ("SELECT DISTINCT UPPER(n.u) AS a FROM Note n ORDER BY a DESC", ["AB", None]),
    ("SELECT COALESCE(UPPER(n.u), TRIM(' none ')) FROM Note n WHERE n.id > 7 ORDER BY n.id", ["AB", "none"]),
    ("SELECT MIN(UPPER(n.t)), UPPER(MIN(n.u)), COUNT(DISTINCT TRIM(n.u)) FROM Note n WHERE n.id > 5",
     [[min(text.upper() for text in TEXTS[5:] if text), "AB", 1]]),
    ("SELECT UPPER(n.u), COUNT(n) FROM Note n GROUP BY n.u", [["AB", 8], [None, 1]]),
    ("SELECT n.u FROM Note n GROUP BY n.u HAVING TRIM(LEADING 'a' FROM n.u) = 'b'", ["ab"]),
    ("SELECT n.u FROM Note n GROUP BY n.u HAVING MAX(UPPER(n.u)) IS NULL", [None]),
    ("SELECT n.id FROM Note n WHERE n.id > 5 ORDER BY LENGTH(n.t) DESC, n.id * -1", [7, 6, 8, 9]),
    ("SELECT n.id FROM Note n WHERE n.id > 5 ORDER BY MOD(n.id, 2), (n.id) DESC", [8, 6, 9, 7]),
    ("SELECT n.u FROM Note n GROUP BY n.u ORDER BY COUNT(n) DESC", ["ab", None]),
    ("SELECT n.u FROM Note n GROUP BY n.u ORDER BY UPPER(n.u)", [None, "ab"]),
    ("SELECT 'all' FROM Note n ORDER BY COUNT(n)", ["all"]),
]


def clauses(ask: Asking) -> None:
    """The functions in each clause where a value may stand."""
    asked = Wide(ask)
    for text, rows in CLAUSES:
        asked.answers([text], rows)


# ---- what is refused

# A text outside the grammar of the wider language.
UNREAD = [
    "UPPER()", "UPPER(n.t, n.t)", "UPPER n.t", "UPPER", "UPPER(DISTINCT n.t)", "LOWER()", "LOWER(*)", "LOWER(n.t",
    "TRIM()", "TRIM(FROM n.t)", "TRIM(LEADING)", "TRIM(LEADING FROM)", "TRIM(LEADING n.t)", "TRIM('x', n.t)",
    "TRIM('x' n.t)", "TRIM('x' FROM)", "TRIM(BOTH LEADING FROM n.t)", "TRIM('x' LEADING FROM n.t)",
    "TRIM(n.u FROM n.t)", "TRIM(LEADING n.u FROM n.t)", "TRIM(7 FROM n.t)", "TRIM(UPPER('x') FROM n.t)",
    "TRIM(('x') FROM n.t)", "TRIM('x' 'y' FROM n.t)", "TRIM(NULL FROM n.t)", "TRIM(:a :b FROM n.t)",
    "TRIM('x' FROM n.t, n.u)", "LEADING(n.t)", "CASE WHEN n.id = 1 THEN 1 END", "n.t AS trim", "n.t end",
]
UNREAD_TEXTS = [
    "SELECT n.id FROM Note n GROUP BY UPPER(n.t)", "SELECT n.id FROM Note n ORDER BY UPPER(n.t",
    "SELECT n.id FROM Note n ORDER BY UPPER(n.t) NULLS LAST", "SELECT n.id FROM Note n ORDER BY n.t = 'a'",
    "SELECT upper.id FROM Note upper", "SELECT case.id FROM Note AS case", "SELECT n.id FROM Note n JOIN n.next all",
    "SELECT n.id FROM Note n WHERE n.id = ALL (1, 2)", "SELECT n.id FROM Note n WHERE n.id = (SELECT o.id FROM Note o)",
    "SELECT n.id FROM Note n WHERE n.id IN ((SELECT o.id FROM Note o))", "SELECT some.id FROM Note n",
]
# A text that is ill typed, with its parameters.
ILL_TYPED: list[tuple[str, list[str]]] = [
    ("UPPER(1)", []), ("LOWER(n.id)", []), ("TRIM(n.count)", []), ("UPPER(n.scan)", []), ("UPPER(n)", []),
    ("UPPER(n.next)", []), ("TRIM(:off FROM n.t)", ["--param", "off=7"]), ("ABS(UPPER(n.t))", []),
    ("TRIM(:off FROM n.t)", ["--param", 'off={"hex":"20"}']), ("1 + TRIM(n.t)", []), ("SUM(UPPER(n.t))", []),
    ("UPPER(n.nothing)", []), ("UPPER(:p)", ["--param", "p=7"]), ("MOD(LOWER(n.t), 2)", []),
]
# A key of ORDER BY that isn't well typed: of an object, of no variable, of a kind, of what is no group.
ILL_TYPED_KEYS: list[tuple[str, list[str]]] = [
    ("(n)", []), ("(n.next)", []), ("1", []), ("'a'", []), ("1 + 1", []), ("LOWER('A')", []), ("COUNT(1)", []),
    (":p", ["--param", "p=7"]), ("LOWER(n.id)", []), ("COUNT(n)", []), ("(s)", []), ("LENGTH(s)", []),
]


def wrong_forms(ask: Asking) -> None:
    """What is no form of these calls is refused, and so is what is ill typed."""
    asked = Wide(ask)
    for value in UNREAD:
        asked.refuses(f"SELECT {value} FROM Note n", "IllegalArgument(syntax)")
    for text in UNREAD_TEXTS:
        asked.refuses(text, "IllegalArgument(syntax)")
    for value, params in ILL_TYPED:
        asked.refuses(f"SELECT {value} FROM Note n", "IllegalArgument(typing)", *params)
    for key, params in ILL_TYPED_KEYS:
        asked.refuses(f"SELECT n.t AS s FROM Note n ORDER BY {key}", "IllegalArgument(typing)", *params)
    asked.refuses("SELECT DISTINCT n.t FROM Note n ORDER BY LOWER(n.t)", "IllegalArgument(typing)")
    asked.refuses("SELECT n.id FROM Note n ORDER BY n.id + :p", "IllegalArgument(parameter)")
    asked.refuses("SELECT n.id FROM Note n ORDER BY n.id + 9223372036854775807", "Overflow")
    asked.refuses("SELECT n.id FROM Note n WHERE UPPER(n.t) = 7", "IllegalArgument(typing)")
    asked.refuses("SELECT n.id FROM Note n WHERE UPPER(MIN(n.t)) = 'A'", "IllegalArgument(typing)")
    asked.refuses("SELECT UPPER(n.t) FROM Note n GROUP BY n.u", "IllegalArgument(typing)")
    asked.refuses("SELECT TRIM(:off FROM n.t) FROM Note n", "IllegalArgument(parameter)")
    asked.refuses("UPDATE Note n SET n.t = UPPER(n.t)", "IllegalState(statement)")
    asked.refuses("DELETE FROM Note n WHERE TRIM(n.t) = ''", "IllegalState(statement)")
    asked.refuses("SELECT n FROM Note n WHERE UPPER(n.t) = ''" + " " * 16384, "Limit")
    asked.refuses("SELECT " + "UPPER(" * 33 + "n.t" + ")" * 33 + " FROM Note n", "Limit")
    deepest = ["SELECT " + "UPPER(" * 32 + "n.t" + ")" * 32 + " FROM Note n WHERE n.id = 6"]
    asked.answers(deepest, ["XXAXBXX"])


# ---- names

def names(ask: Asking) -> None:
    """Words of the wider language are names in the profile. In the wider one they are names of
    entities, of parameters and behind a dot."""
    asked = Wide(ask)
    named: list[tuple[str, list[Any]]] = [
        ("SELECT upper.id FROM Note upper WHERE upper.id = 1", [1]),
        (
            "SELECT trim.t AS all, trim.id FROM Note AS trim WHERE trim.id < 3 ORDER BY all",
            [["  Ada ", 2], ["straße", 1]],
        ),
        ("SELECT n.t end FROM Note n WHERE n.id = 8 ORDER BY end", ["ababa"]),
        (
            "SELECT case.id, leading.id FROM Note case, Note leading WHERE case.id = 1 AND leading.id = case.id + 1",
            [[1, 2]],
        ),
        ("SELECT lower.id FROM Note n LEFT JOIN n.next lower WHERE n.id = 1", [None]),
    ]
    for text, rows in named:
        for said in PROFILE:
            ask.answers([text, *said], lines_of(rows), *asked.words)
        asked.refuses(text, "IllegalArgument(syntax)")
    asked.both("SELECT n.upper, n.trim, n.all, n.end FROM Note n WHERE n.id = 1", [["Up", " tr ", "All", "enD"]])
    asked.both("SELECT n.case, n.leading FROM Note n WHERE n.id = :when", [[None, None]], "--param", "when=1")
    asked.both("SELECT COUNT(c) FROM Case c", [0])
    asked.both("SELECT COUNT(n) FROM Note n WHERE TYPE(n) <> Case", [9])
    asked.both("SELECT n.id FROM Note n WHERE n.t = 'UPPER(n.t)'", [])
    asked.answers(["SELECT UPPER(n.upper), TRIM(n.trim) FROM Note n WHERE n.id = 2"], [["UP", "tr"]])


# ---- the paper

ROW = re.compile(r"^\| `([A-Z]+\(.+\))` \| `(.+)` \|$", re.MULTILINE)


def paper(ask: Asking) -> None:
    """The worked values of docs/QUERIES.md are these."""
    with open(os.path.join(HERE, "..", "docs", "QUERIES.md"), encoding="utf-8") as file:
        section = file.read().partition("\n## The wider language\n")[2].partition("\n## ")[0]
    asked, rows = Wide(ask), ROW.findall(section)
    see(len(rows) > 12, True, f"worked values: {rows}")
    for call, value in rows:
        given = ["--param", "none=null"] if ":none" in call else []
        asked.answers([f"SELECT {call} FROM Note n WHERE n.id = 1", *given], [json.loads(value)])


# ---- the words of the command line

def language_words(ask: Asking) -> None:
    """`--language` names one language, once."""
    asked, text = Wide(ask), "SELECT n.id FROM Note n"
    unknown = "error: '--language <NAME>' is 'profile' or 'wide'" + HINT
    for words, said in [
        (("--language", "another"), unknown),
        (("--db", ask.store, "--language", ""), unknown),
        (("--query", text, *WIDE), "error: '--query <TEXT>' needs '--db <FILE>'" + HINT),
        (("--param", "n=1", *WIDE), "error: '--param <NAME=VALUE>' needs '--query <TEXT>'" + HINT),
        (("--explain", *WIDE), "error: '--explain' needs '--query <TEXT>'" + HINT),
        *((("--db", ask.store, "--query", text, "--language", name), unknown)
          for name in ("another", "Wide", "WIDE", "", "wide ", "profil", "profile,wide")),
    ]:
        see(ask.ran(*words), (2, "", said), words)
    for words, start in [
        ((*WIDE, *WIDE), "error: the argument '--language <NAME>' cannot be used multiple times"),
        (("--language", "profile", *WIDE), "error: the argument '--language <NAME>' cannot be used multiple times"),
        (("--language",), "error: a value is required for '--language <NAME>' but none was supplied"),
    ]:
        status, out, err = ask.ran("--db", ask.store, "--query", text, *words)
        see((status, out, err[: len(start)]), (2, "", start), words)
    upper = "SELECT UPPER(n.u) FROM Note n WHERE n.id = 1"
    ask.answers([upper, "--language=wide"], ['"AB"'], *asked.words)
    found = ask.ran(*WIDE, *asked.words, "--query", upper, "--db", ask.store)
    see(found, (0, '"AB"\n', ""), "the words in another order")
    see("--language <NAME>" in ask.ran("--help")[1], True, "the help")


def serving(ask: Asking) -> None:
    """The calls on standard input are served in the language that is named, and else in the profile's."""
    asked = Wide(ask)
    texts = [
        {"call": "query", "text": "SELECT UPPER(n.u) FROM Note n WHERE n.id = 1"},
        {"call": "querySingle", "text": "SELECT TRIM('x' FROM n.t) FROM Note n WHERE n.id = 6"},
        {"call": "executeUpdate", "text": "UPDATE Note n SET n.u = LOWER('Z') WHERE n.id = 1"},
    ]
    lines = [{"call": "createEntityManager"}, {"call": "begin", "em": 1}, *({**t, "em": 1} for t in texts)]
    calls = "".join(json.dumps(line) + "\n" for line in lines).encode()

    def replies(*words: str) -> list[object]:
        status, out, err = ask.ran(*asked.words, "--db", ask.store, *words, calls=calls)
        see((status, err), (0, ""), "the calls")
        return [json.loads(line) for line in out.splitlines()[2:]]

    refused = {"events": [], "error": {"name": "IllegalArgument", "no": 6, "why": "syntax"}}
    for words in PROFILE:
        see(replies(*words), [refused] * len(texts), "the calls in the profile")
    served = [{"events": [], "ok": ok} for ok in (["AB"], "axb", 1)]
    see(replies(*WIDE), served, "the calls in the wider language")


def longest(ask: Asking) -> None:
    """A collection that is handed in has at most 4,096 values, and those of a text are at most 65,536, counted wherever
    one stands behind IN. More are `Limit`, whatever else is wrong with the text behind it."""
    asked = Wide(ask)

    def answered(word: str, text: str, most: int) -> object:
        line = {"call": word, "em": 1, "text": text, "params": {"ids": list(range(6, most + 6))}}
        calls = b'{"call":"createEntityManager"}\n' + json.dumps(line).encode() + b"\n"
        status, out, err = ask.ran(*asked.words, "--db", ask.store, *WIDE, calls=calls)
        see((status, err), (0, ""), "the collection")
        return json.loads(out.splitlines()[1])

    def refused(name: str, number: int, **why: str) -> object:
        return {"events": [], "error": {"name": name, "no": number, **why}}

    counted, limit = "SELECT COUNT(n) FROM Note n WHERE ", refused("Limit", 19)
    see(answered("query", counted + "n.id IN :ids", 4096), {"events": [], "ok": [4]}, "4,096 values")
    see(answered("query", counted + "n.id IN :ids", 4097), limit, "4,097 values")
    for condition in ("n.id IN :ids", "n.id IN (:ids)", "n.id NOT IN :ids"):
        most, more = (counted + " AND ".join([condition] * times) for times in (16, 17))
        found = 5 if "NOT" in condition else 4
        see(answered("query", most, 4096), {"events": [], "ok": [found]}, "65,536 values")
        for text in (more, more + " AND", more + " AND n.none = 1"):
            see(answered("query", text, 4096), limit, "69,632 values")
    many = " OR ".join(["n.id IN :ids"] * 17)
    see(answered("executeUpdate", "DELETE FROM Note n WHERE " + many, 4096), limit, "what is deleted")
    elsewhere = counted + " OR ".join(["n.id = :ids"] * 17)
    see(answered("query", elsewhere, 4096), refused("IllegalArgument", 6, why="parameter"), "not behind IN")
    see(answered("query", counted + many, 3855), {"events": [], "ok": [4]}, "65,535 values")
    see(answered("query", counted + many, 3856), limit, "65,552 values")


def plans(ask: Asking) -> None:
    """A question by a key reads one row alone in the wider language too."""
    asked = Wide(ask)
    looked_up = ['looks up by its key {"entity":"Note","key":[6]}']
    by_key = ["SELECT UPPER(n.t), TRIM('x' FROM n.t) FROM Note n WHERE n.id = 6"]
    ask.answers([*by_key, *WIDE, "--explain"], looked_up, *asked.words)
    ask.refuses([*by_key, "--explain"], "IllegalArgument(syntax)", *asked.words)
    every = ["SELECT n.id FROM Note n WHERE UPPER(n.t) = 'X'", *WIDE]
    ask.answers([*every, "--explain"], ["reads all rows of Note"], *asked.words)
    with closing(sqlite3.connect(ask.store)) as store:
        store.execute("DELETE FROM cell WHERE t = 5 AND r = x'018000000000000002' AND c = 0")
        store.commit()
    asked.answers(by_key, [["XXAXBXX", "axb"]])
    ask.refuses(every, "Damaged(5:018000000000000002)", *asked.words)


TRIALS = [forms, clauses, wrong_forms, names, language_words, serving, longest, plans, paper]
