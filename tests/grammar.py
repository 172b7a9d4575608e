#!/usr/bin/env python3
"""tests/grammar.py PROGRAM: holds what --grammar prints of each language against docs/QUERIES.md.

Its words are those of the paper's grammar, its functions take and give what the paper's table says
and as many values as the grammar writes, in its order, and its limits are the paper's. Exit status 0
where all is as it must be.
"""
from __future__ import annotations

import json, os, re, subprocess, sys
from typing import Any, Optional

sys.dont_write_bytecode = True
from asking import HINT, Asking
from runs import HERE
from trials import see, tried

WORDS: dict[str, tuple[str, ...]] = {
    "profile": ("--grammar",), "wide": ("--grammar", "--language", "wide"),
}
ROW = re.compile(r"^\| (`[A-Z]+`(?:, `[A-Z]+`)*) \| (\w+(?:, \w+)*) \| (\w+) \|$", re.MULTILINE)
LIMIT = re.compile(r"^\| `([A-Za-z]+)` \| .+ \| ([\d,]+) \|$", re.MULTILINE)
CALL = re.compile(r"\b([A-Z]+)\((v[^()]*)\)")


def section(title: str) -> str:
    """What the paper says under a heading."""
    with open(os.path.join(HERE, "..", "docs", "QUERIES.md"), encoding="utf-8") as file:
        found = file.read().partition(f"\n## {title}\n")[2].partition("\n## ")[0]
    see(bool(found), True, title)
    return found


def block(title: str) -> str:
    """The lines of the grammar under a heading."""
    return section(title).partition("```text\n")[2].partition("```")[0]


def words_of(grammar: str) -> set[str]:
    return set(re.findall(r"\b[A-Z]{2,}\b", grammar))


def told(ask: Asking, *words: str) -> dict[str, Any]:
    """What the program prints of a language: a line of JSON."""
    status, out, err = ask.ran(*words)
    see((status, err, out.count("\n"), out[-1:]), (0, "", 1, "\n"), words)
    found: dict[str, Any] = json.loads(out)
    see(out, json.dumps(found, separators=(",", ":")) + "\n", words)
    return found


def counts(values: str) -> tuple[int, Optional[int]]:
    """How many values stand there at least and at most: `v, v {, v}` are two, and any number more."""
    needed = values.partition("[")[0].partition("{")[0].count("v")
    return needed, None if "{" in values else values.count("v")


# ---- trials

def languages(ask: Asking) -> None:
    """The profile's is told without a word, and its members stand in their order."""
    members = ["language", "keywords", "functions", "aggregates", "limits"]
    for language, words in WORDS.items():
        found = told(ask, *words)
        see((list(found), found["language"]), (members, language), words)
    see(told(ask, "--language", "profile", "--grammar"), told(ask, "--grammar"), "the profile's")


def keywords(ask: Asking) -> None:
    """The words are those of the paper's grammar, and of its sentence on the wider language."""
    profile = words_of(block("What is written"))
    sentence = section("The wider language").partition("are keywords there, and so are")
    wide = words_of(sentence[0].rpartition("\n\n")[2]) | words_of(sentence[2].partition(".")[0])
    see((len(profile), len(wide)), (46, 14), "the paper's words")
    see(words_of(block("The wider language")) - profile - wide, set(), "the wider grammar's words")
    for language, wanted in (("profile", profile), ("wide", profile | wide)):
        found = told(ask, *WORDS[language])["keywords"]
        see((set(found), len(found)), (wanted, len(wanted)), f"the words of {language}")
    see(told(ask, *WORDS["wide"])["keywords"][:46], told(ask, "--grammar")["keywords"], "in their order")


def functions(ask: Asking) -> None:
    """What each function takes and gives is what the paper's table says: its last kind is that of each further value."""
    kinds = {
        name: (takes.split(", "), gives)
        for names, takes, gives in ROW.findall(section("What is well typed"))
        for name in re.findall(r"[A-Z]+", names)
    }
    profile = words_of(block("What is written"))
    for language, words in WORDS.items():
        found = told(ask, *words)["functions"]
        see({each["name"] for each in found},
            {name for name in kinds if language == "wide" or name in profile}, f"the functions of {language}")
        for each in found:
            see(list(each), ["name", "arguments", "least", "most", "result"], words)
            takes, gives = kinds[each["name"]]
            more = len(each["arguments"]) - len(takes)
            see((each["arguments"], each["result"]), (takes + takes[-1:] * more, gives), each["name"])


def calls(ask: Asking) -> None:
    """Each function takes as many values as the paper's grammar writes, TRIM at most two; they stand in its order."""
    written = dict(CALL.findall(block("What is written") + block("The wider language")))
    written["TRIM"] = "v [, v]"
    wide = told(ask, *WORDS["wide"])["functions"]
    found = {each["name"]: (each["least"], each["most"]) for each in wide}
    see(list(found.items()), [(name, counts(values)) for name, values in written.items()], "how many values")
    see(told(ask, "--grammar")["functions"], wide[:8], "those of the profile")


def aggregates(ask: Asking) -> None:
    """The aggregates are those of the paper's grammar."""
    wanted = re.findall(r"([A-Z]+)\(\[DISTINCT\] v\)", block("What is written"))
    for words in WORDS.values():
        see(told(ask, *words)["aggregates"], wanted, words)


def limits(ask: Asking) -> None:
    """The limits are those of the paper's table."""
    paper = section("What the program tells of a language")
    table = {name: int(most.replace(",", "")) for name, most in LIMIT.findall(paper)}
    for language, words in WORDS.items():
        wanted = {name: most for name, most in table.items() if name != "cases" or language == "wide"}
        see(told(ask, *words)["limits"], wanted, words)


def other_words(ask: Asking) -> None:
    """No other word goes with --grammar than a language."""
    alone = "error: '--grammar' stands alone, or with '--language <NAME>'" + HINT
    unknown = "error: '--language <NAME>' is 'profile' or 'wide'" + HINT
    for words, said in [
        (("--db", ask.store), alone),
        (("--mapping", "mapping.json"), alone),
        (("--db", ask.store, "--query", "SELECT p FROM Person p"), alone),
        (("--query", "SELECT p FROM Person p"), alone),
        (("--param", "n=1"), alone),
        (("--explain",), alone),
        (("--db", ask.store, "--language", "wide"), alone),
        (("--db", ask.store, "--language", "another"), alone),
        (("--language", "another"), unknown),
        (("--language", ""), unknown),
    ]:
        see(ask.ran("--grammar", *words), (2, "", said), words)
    see(os.listdir(ask.place), [], "no file is made")
    for words, start in [
        (("--grammar", "--grammar"), "error: the argument '--grammar' cannot be used multiple times"),
        (("--grammar=wide",), "error: unexpected value 'wide' for '--grammar'"),
    ]:
        status, out, err = ask.ran(*words)
        see((status, out, err.startswith(start)), (2, "", True), (words, err))


def full_disk(ask: Asking) -> None:
    """Where it can't be written the status is 4; standard input isn't read."""
    with open("/dev/full", "wb") as full:
        ended = subprocess.run([ask.program, "--grammar"], stdout=full, stderr=subprocess.PIPE, timeout=60)
    see((ended.returncode, ended.stderr), (4, b""), "a disk that is full")
    see(ask.ran("--grammar", calls=b"no call\n")[0], 0, "input")


TRIALS = (languages, keywords, functions, calls, aggregates, limits, other_words, full_disk)

if __name__ == "__main__":
    sys.exit(tried(TRIALS, "the grammar", lambda trial, place: trial(Asking(sys.argv[1], place))))
