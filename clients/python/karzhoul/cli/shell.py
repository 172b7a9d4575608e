"""A prompt: statements of queries as they are typed, and calls in short words, with completion,
history and readable answers."""

from __future__ import annotations

import json
import re
import sys
from contextlib import contextmanager, suppress
from pathlib import Path
from typing import Any, Callable, Dict, Iterable, Iterator, List, Optional, Sequence, Tuple

from ..explain.texts import value_text
from ..mapping.unit import MemberKind, entities_of
from ..objects.concern import Concern
from ..objects.entities import Entity, Event
from ..refusals import (
    KarzhoulError, NoSuchObject, ProgramEnded, Refused, Rollback, TransactionRequired,
)
from ..session.factory import EntityManagerFactory
from ..showing.asked import STATEMENTS, Statement, Teller, mistakes_in, statement_of, words_within
from ..wire.lines import CALLS, FlushModeType, LifecycleEvent, LockModeType, spelled, text_spelled

HISTORY = Path.home() / ".karzhoul_history"
COMMANDS = ("help", "entities", "show", "history", "manager", "quit")
SPEAKING = {
    "createEntityManager", "new", "get", "takeOut", "find", "getReference", "merge", "contains",
}
SPEAKING |= {"query", "querySingle", "executeUpdate"}
"""The calls that answer more than null."""
HELP = """Statements as they are: `SELECT p FROM Person p WHERE p.name = :n :n="Ada"`;
`:name=value`, `first=0` and `max=10` may stand behind them. An UPDATE or a DELETE without an open
transaction gets one of its own, which is committed.
`show Person 1` shows an object with all its members, and `entities` what there is.
Calls, as `new Person`, `set #1 name "Ada"`, `begin`, `persist #1`, `commit`, `find Person 1`,
`get #1 name`: objects are #1, values null, 7, "a text" (or a bare word) and x'0aff'; a key of
several parts is several values. A call is made by the manager at the prompt; `manager 2` changes
it, and `createEntityManager` makes one and goes to it.
A line that begins with { is sent as it is, and one that ends in a backslash goes on in the next.
help [CALL], entities, show ENTITY KEY or show #N, history [N], manager N, quit"""

_TOKEN = re.compile(r'\s*("(?:[^"\\]|\\.)*"|:?\w+="(?:[^"\\]|\\.)*"|\{[^}]*\}|\S+)')
_BYTES = re.compile(r"x'((?:[0-9a-fA-F]{2})*)'")


class Misread(ValueError):
    """What was typed isn't understood."""


class Shell:
    """A prompt over a running unit."""

    def __init__(self, app: EntityManagerFactory, write: Callable[[str], object] = print) -> None:
        self._app, self._write = app, write
        self._described = entities_of(app.mapping)
        self._manager = app.create_entity_manager().number
        self._held: List[Entity] = []
        self._ends = False
        self._is_silent = False
        self._typed: List[str] = []
        self._teller = Teller(app, self._described)
        self._concerns: Dict[int, Concern] = {}
        # How many lines were refused or not understood, and why the program ended.
        self.refused = 0
        self.ended: Optional[ProgramEnded] = None
        app.listen(self._tell)

    # ---- the prompt

    def run(self, stops: bool = False) -> None:
        """Reads and does lines until there are no more, or the program has ended, or, if that is
        wanted, one was refused."""
        is_terminal = sys.stdin.isatty()
        if is_terminal:
            self._write(f"{', '.join(self._described)}. 'help' tells how.")
            self._with_history()
        while not self._ends and not (stops and self.refused):
            try:
                self.do(_whole(lambda: input(f"{self._manager}> ") if is_terminal else _piped()))
            except EOFError:
                return
            except KeyboardInterrupt:
                self._write("")

    def _with_history(self) -> None:
        try:
            import atexit
            import readline
        except ImportError:
            return
        if HISTORY.exists():
            readline.read_history_file(HISTORY)
            self._typed += [
                readline.get_history_item(at + 1)
                for at in range(readline.get_current_history_length())
            ]
        atexit.register(_keep_history, readline)
        readline.set_completer_delims(" \t")
        readline.parse_and_bind("tab: complete")
        readline.set_completer(self._completer(readline))

    def _completer(self, readline: Any) -> Callable[[str, int], Optional[str]]:
        def complete(text: str, state: int) -> Optional[str]:
            before = readline.get_line_buffer()[: readline.get_begidx()]
            return dict(enumerate(self.completions(before, text))).get(state)

        return complete

    def do(self, said: str) -> None:
        """Does one line, and tells its answer or its refusal."""
        if said.strip():
            self._typed.append(said.strip())
        try:
            self._do(said.strip())
        except Refused as refused:
            refused._concern = self._concern
            statement = statement_of(said)
            found = mistakes_in(statement, self._described) if statement is not None else []
            told = found or refused.explain().splitlines()
            self._refuse("\n  ".join([f"refused: {refused.word}", *told]))
            self._end_of(refused)
        except ProgramEnded as ended:
            self._refuse(str(ended))
            self._ends, self.ended = True, ended
        except (KarzhoulError, Misread, TypeError, OverflowError, LookupError) as fault:
            self._refuse(str(fault))

    def _refuse(self, why: str) -> None:
        self.refused += 1
        self._write(why)

    def _do(self, said: str) -> None:
        words, statement = _TOKEN.findall(said), statement_of(said)
        if said.startswith("{"):
            self._answer(self._app.send_line(said), speaks=True)
        elif statement is not None:
            self._ask(statement)
        elif not words:
            return
        elif words[0] == "show":
            self._show(words[1:])
        elif words[0] == "history":
            self._history(words[1:])
        elif words[0] in CALLS:
            self._call(words[0], words[1:])
        elif words[0] == "entities":
            self._entities()
        elif words[0] == "help":
            self._write(
                usage(words[1])
                if words[1:] and words[1] in CALLS
                else f"{HELP}\n{', '.join(CALLS)}"
            )
        elif words[0] == "manager" and len(words) == 2 and words[1].isdecimal():
            self._go_on_as(int(words[1]))
        elif words[0] in ("quit", "exit"):
            self._ends = True
        else:
            raise Misread(f"{words[0]!r} is no call: 'help' lists them")

    def _go_on_as(self, manager: int) -> None:
        """Takes another open manager; a closed one, or none, is refused."""
        with suppress(NoSuchObject):
            self._app.ask("contains", em=str(manager), object="1")
        self._manager = manager

    @property
    def _concern(self) -> Concern:
        """What the manager at the prompt was told since its last transaction."""
        fresh = Concern(self._app._kinds.made)
        return self._concerns.setdefault(self._manager, fresh)

    def _end_of(self, refused: Optional[Refused] = None) -> None:
        """After the end of a transaction: what was told before is over."""
        if refused is None or isinstance(refused, Rollback):
            self._concerns.pop(self._manager, None)

    def _call(self, call: str, words: List[str]) -> None:
        members, concern = members_of(call, words, self._manager), self._concern
        answer = self._app.ask(call, json.loads(members.get("entity", '""')), **members)
        if call in ("persist", "remove", "lock"):
            concern.of(call).append(int(members["object"]))
        elif call in ("commit", "rollback", "clear"):
            self._end_of()
        if call == "createEntityManager":
            self._manager = answer
        self._answer(answer, call in SPEAKING)

    def _ask(self, statement: Statement) -> None:
        """Does a statement, and tells what it found as a table, or how many objects it changed.
        What is loaded for that is not told."""
        words = [json.dumps(statement.text, ensure_ascii=False), *statement.words]
        if not statement.is_select:
            self._change(words)
            return
        with self._silence():
            answer = self._app.ask("query", **members_of("query", words, self._manager))
        self._hold(item for row in answer for item in (row if isinstance(row, list) else [row]))
        self._write("\n".join(self._teller.table(statement.text, answer)))

    def _change(self, words: List[str]) -> None:
        """Does an UPDATE or a DELETE, without an open transaction in one of its own."""
        try:
            count, how = (
                self._app.ask("executeUpdate", **members_of("executeUpdate", words, self._manager)),
                "",
            )
        except TransactionRequired:
            count, how = self._committed(words), ", committed"
        stay = (
            "; objects that were loaded stay as they are: 'clear' lets them go"
            if count and self._held
            else ""
        )
        self._write(f"{count} object{'' if count == 1 else 's'}{how}{stay}")

    @contextmanager
    def _silence(self) -> Iterator[None]:
        """Within it, no load is told."""
        self._is_silent = True
        try:
            yield
        finally:
            self._is_silent = False

    def _committed(self, words: List[str]) -> int:
        """How many objects an UPDATE or a DELETE concerned, in a transaction of its own."""
        with self._app.create_entity_manager() as manager, manager.transaction():
            return int(
                self._app.ask("executeUpdate", **members_of("executeUpdate", words, manager.number))
            )

    def _show(self, words: List[str]) -> None:
        """Shows an object with all its members. What is loaded for that is not told."""
        with self._silence():
            entity = self._named(words)
            if entity is None:
                self._write(f"there is no {' '.join(words)}")
                return
            self._hold([entity])
            self._write("\n".join(self._teller.members(entity)))

    def _named(self, words: List[str]) -> Optional[Entity]:
        """The object of an entity's name and a key, or of a number."""
        if len(words) == 1 and words[0].startswith("#"):
            held = [each for each in self._held if f"#{each._karzhoul_number}" == words[0]]
            if not held:
                raise Misread(f"{words[0]} is no object that was told here")
            return held[0]
        if len(words) < 2:
            raise Misread("what is to be shown? write show ENTITY KEY, or show #N")
        answer = self._app.ask("find", words[0], **members_of("find", words, self._manager))
        return answer if isinstance(answer, Entity) else None

    def _history(self, words: List[str]) -> None:
        """Tells what was typed, this session's lines and on a terminal those that were kept."""
        if words and not words[0].isdigit():
            raise Misread(f"{words[0]!r} is no number of lines")
        typed = self._typed[:-1]
        begin = max(0, len(typed) - int(words[0])) if words else 0
        for number, line in enumerate(typed[begin:], begin + 1):
            self._write(f"{number:>4}  {line}")

    # ---- answers

    def _hold(self, items: Iterable[Any]) -> None:
        self._held += [item for item in items if isinstance(item, Entity)]

    def _answer(self, answer: Any, speaks: bool) -> None:
        self._hold(answer if isinstance(answer, list) else [answer])
        self._write(readable(answer) if speaks else "done")

    def _tell(self, event: Event) -> None:
        is_known = isinstance(event.of, Entity)
        if is_known:
            self._held.append(event.object)
        if self._is_silent and event.kind is LifecycleEvent.POST_LOAD:
            return
        ran = f", which ran {', '.join(event.ran)}" if event.ran else ""
        what = readable(event.object) if is_known else f"#{event.of}"
        self._write(f"  {event.kind.value} {what}{ran}")

    def _entities(self) -> None:
        for entity in self._described.values():
            members = ", ".join(
                f"{member.name}: {member.type}{_mark(member.kind)}" for member in entity.members
            )
            self._write(f"{entity.name}: {members}")

    # ---- completion

    def completions(self, before: str, text: str) -> List[str]:
        """The words that may stand where `text` begins, after what stands before it."""
        words = _TOKEN.findall(before)
        if words and words[0].upper() in STATEMENTS:
            offered: Iterable[str] = words_within(before, text, self._described)
        elif not words:
            offered = (
                *CALLS,
                *COMMANDS,
                *(word if text.isupper() else word.lower() for word in STATEMENTS),
            )
        else:
            offered = self._words_after(words[0], words[1:])
        return [f"{word} " for word in sorted(offered) if word.startswith(text)]

    def _words_after(self, call: str, words: Sequence[str]) -> Iterable[str]:
        names = [name for name in CALLS.get(call, ()) if name != "em"]
        asked = names[len(words)] if len(words) < len(names) else ""
        if call == "help" and not words:
            return CALLS
        if call == "show" and not words:
            return [
                *self._described,
                *(f"#{held._karzhoul_number}" for held in dict.fromkeys(self._held)),
            ]
        if asked == "entity":
            return self._described
        if asked in ("object", "member"):
            return [f"#{held._karzhoul_number}" for held in dict.fromkeys(self._held)]
        if asked == "name":
            return self._members(words[0])
        if asked == "mode":
            return (
                [mode.value for mode in LockModeType]
                if call == "lock"
                else [mode.value for mode in FlushModeType]
            )
        return ()

    def _members(self, word: str) -> Iterable[str]:
        held = [type(each).__name__ for each in self._held if f"#{each._karzhoul_number}" == word]
        known = [self._described[name] for name in held if name in self._described] or list(
            self._described.values()
        )
        return {member.name for entity in known for member in entity.members}


def _piped() -> str:
    line = sys.stdin.readline()
    if not line:
        raise EOFError
    return line


def _whole(read: Callable[[], str]) -> str:
    """A line with those in which it goes on."""
    line = read().rstrip("\n")
    while line.endswith("\\"):
        line = line[:-1]
        with suppress(EOFError):
            line = f"{line} {read()}".rstrip("\n")
    return line


def _keep_history(readline: Any) -> None:
    try:
        readline.set_history_length(1000)
        readline.write_history_file(HISTORY)
    except OSError:
        pass  # A history that can't be kept is no fault of the calls.


def _mark(kind: MemberKind) -> str:
    return "" if kind is MemberKind.ATTRIBUTE else f" ({kind.value})"


def readable(answer: Any) -> str:
    """An answer as a reader sees it."""
    if isinstance(answer, Entity):
        return f"#{answer._karzhoul_number} {type(answer).__name__}"
    if isinstance(answer, bool):
        return "yes" if answer else "no"
    if isinstance(answer, list):
        return "[" + ", ".join(map(readable, answer)) + "]"
    return json.dumps(answer, ensure_ascii=False) if isinstance(answer, str) else value_text(answer)


def usage(call: str) -> str:
    """How a call is written."""
    names = [name for name in CALLS[call] if name != "em"]
    shown = {
        "object": "#N", "member": "#N", "key": "KEY..", "params": "[:NAME=VALUE..]",
        "first": "[first=N]", "max": "[max=N]",
    }
    return " ".join([call, *(shown.get(name, name.upper()) for name in names)])


# ---- words


def members_of(call: str, words: Sequence[str], em: int) -> Dict[str, str]:
    """The members of a call as JSON, from the words after it."""
    members: Dict[str, str] = {}
    left = list(words)
    for name in CALLS[call]:
        if name == "em":
            members["em"] = str(em)
        elif name == "key":
            members[name] = f"[{','.join(map(_value, left))}]"
            left = []
        elif name in ("params", "first", "max"):
            left = _optional(members, name, left)
        elif not left:
            raise Misread(f"{name} is missing: {usage(call)}")
        else:
            members[name] = _member(name, left.pop(0))
    if left:
        raise Misread(f"{left[0]!r} is too much: {usage(call)}")
    return members


def _optional(members: Dict[str, str], name: str, words: List[str]) -> List[str]:
    front = ":" if name == "params" else f"{name}="
    mine = [word[len(front) :] for word in words if word.startswith(front)]
    if name == "params" and mine:
        pairs: List[Tuple[str, str, str]] = [word.partition("=") for word in mine]
        members[name] = (
            "{"
            + ",".join(
                f"{text_spelled(parameter)}:{_value(value)}" for parameter, _, value in pairs
            )
            + "}"
        )
    elif mine:
        members[name] = _member(name, mine[-1])
    return [word for word in words if not word.startswith(front)]


def _member(name: str, word: str) -> str:
    if name == "value":
        return _value(word)
    if name in ("object", "member", "first", "max"):
        if not re.fullmatch(r"#?-?\d+", word):
            raise Misread(f"{word!r} is no number, and no object as #1")
        return str(int(word.lstrip("#")))
    return text_spelled(_text(word))


def _text(word: str) -> str:
    if not word.startswith('"'):
        return word
    try:
        return str(json.loads(word))
    except ValueError:
        raise Misread(f"{word} is no text: it is written as in JSON") from None


def _value(word: str) -> str:
    if word == "null":
        return "null"
    if re.fullmatch(r"#\d+", word):
        return f'{{"object":{word[1:]}}}'
    if re.fullmatch(r"-?\d+", word):
        return spelled(int(word))
    found = _BYTES.fullmatch(word)
    return spelled(bytes.fromhex(found[1])) if found else spelled(_text(word))
