"""What a manager is asked by queries."""

from __future__ import annotations

import warnings
from functools import partial
from typing import TYPE_CHECKING, Any, Callable, Dict, FrozenSet, Iterator, List, Mapping
from typing import NamedTuple, Optional, Tuple, Type, TypeVar, Union

from ..classes.values import WrongValue
from ..jpql.check import check
from ..jpql.statements import branches_of, nodes_of, read
from ..mapping.unit import entities_of
from ..objects.arguments import check_query, item_class, parameter_name, row_limit
from ..objects.concern import Concern
from ..objects.misfits import misfit, misfit_of
from ..refusals import NoResult, Refused
from ..wire.lines import line_of, text_spelled
from .rewriting import ByKey, by_key, counting, is_list, with_lists
from .rows import Names, Page, Row, Rows, as_row, as_rows

if TYPE_CHECKING:
    from ..classes.unique import Keeper
    from ..session.factory import EntityManagerFactory
    from ..session.pending import Due, Pending
    from ..session.runs import Run

T = TypeVar("T")
# By name, or by number for ?1.
Params = Optional[Union[Mapping[str, Any], Mapping[int, Any]]]
Limit = Optional[int]
Result = Union[None, str, Type[Any]]
# Beyond `_seconds` and `_asked`, and the call that the application makes.
_ABOVE = 4
_BESIDE_NONE = (
    "over classes a parameter has the type of the attribute that it stands beside, and this one stands "
    "beside none: compare it with one, or hand in what is stored"
)
_IN_CASE = (
    "; or have a THEN or the ELSE of this CASE give an attribute of its type, as ELSE p.price, or let it "
    "give 1 and 2, and take the values by these"
)
# In the place of a text that isn't the first argument: it is the one by the name `text`, if any is.
_BY_NAME: Any = object()


class Queries:
    """The queries of a manager.

    A parameter is handed in by its name, as `query(text, name="Ada")`, or in `params`, as
    `params={"name": "Ada"}` or `params={1: "Ada"}` for `?1`. A list is a parameter of IN, as in
    "o.number IN :numbers". `query(text="SELECT ..")` says the text by its name, and behind a text
    `text` is a parameter, as any name is but those of the words that a method takes. With a
    `result_class` each row has an item of that class, or a None in its place; else this is a
    `TypeError`.

    With `end_program_after`, a query that isn't answered within so many seconds is `GivenUp`: the
    program is ended, since it serves one call at a time and knows no other way to leave one. So
    what other threads have open is lost too; `EntityManagerFactory.retry` does their work again.
    Its former name `timeout` warns by a `DeprecationWarning`.
    """

    factory: EntityManagerFactory
    _run: Run
    # Its number as JSON.
    _em: str
    _pending: Pending
    _concern: Concern
    keeper: Optional[Keeper]

    def _flushes_before(self) -> bool:
        """Whether a query flushes first."""
        raise NotImplementedError

    def _done(self, call: Callable[[], T], loads: bool = True) -> T:
        """What a call answers, which may be made again where another run began meanwhile."""
        raise NotImplementedError

    def query(
        self,
        text: str = _BY_NAME,
        /,
        result_class: Result = None,
        *,
        params: Params = None,
        first: Limit = None,
        max: Limit = None,
        end_program_after: Optional[float] = None,
        **named: Any,
    ) -> Rows:
        """The rows of a query, from the `first` on and at most `max`: a row of one item is that
        item, any other one a list whose items have names, as `row.name` (`queries.rows.Row`)."""
        return self._asked(text, result_class, params, end_program_after, named).rows(first, max)

    def query_single(
        self,
        text: str = _BY_NAME,
        /,
        result_class: Result = None,
        *,
        params: Params = None,
        first: Limit = None,
        max: Limit = None,
        end_program_after: Optional[float] = None,
        **named: Any,
    ) -> Any:
        """The one row of a query; else `NoResult` or `NonUniqueResult`."""
        return self._asked(text, result_class, params, end_program_after, named).one(first, max)

    one = query_single

    def one_or_none(
        self,
        text: str = _BY_NAME,
        /,
        result_class: Result = None,
        *,
        params: Params = None,
        end_program_after: Optional[float] = None,
        **named: Any,
    ) -> Any:
        """The one row of a query, or None where there is none; else `NonUniqueResult`."""
        asked = self._asked(text, result_class, params, end_program_after, named)
        try:
            return asked.one(None, None)
        except NoResult:
            return None

    def first(
        self,
        text: str = _BY_NAME,
        /,
        result_class: Result = None,
        *,
        params: Params = None,
        end_program_after: Optional[float] = None,
        **named: Any,
    ) -> Any:
        """The first row of a query, or None; no other one is asked for."""
        asked = self._asked(text, result_class, params, end_program_after, named)
        return asked.rows(None, 1).first()

    def scalars(
        self,
        text: str = _BY_NAME,
        /,
        result_class: Result = None,
        *,
        params: Params = None,
        first: Limit = None,
        max: Limit = None,
        end_program_after: Optional[float] = None,
        **named: Any,
    ) -> List[Any]:
        """The first item of each row of a query."""
        asked = self._asked(text, result_class, params, end_program_after, named)
        return asked.rows(first, max).scalars()

    def page(
        self,
        text: str,
        number: int,
        size: int,
        result_class: Result = None,
        /,
        *,
        total: bool = False,
        params: Params = None,
        end_program_after: Optional[float] = None,
        **named: Any,
    ) -> Page:
        """The page of this number, from 1 on, of a query's rows, at most so many on each.

        With `total` it says how many rows there are in all: these are counted by a query beside it,
        of the same moment. Of groups and of DISTINCT all rows are asked for.
        """
        if number < 1 or size < 1:
            told = f"pages have numbers and sizes from 1 on, and not {number} and {size}"
            raise ValueError(told)
        asked = self._asked(text, result_class, params, end_program_after, named)
        counted = counting(text)

        def lines() -> List[bytes]:
            page = [asked.line("query", (number - 1) * size, size + 1)]
            return [*page, asked.line("query", text=counted or text)] if total else page

        found, *more = asked.answers(lines)
        count: Optional[int] = None
        if total:
            count = more[0][0] if counted else len(more[0])
        names = Names(text)
        return Page(as_rows(found, names), names, number, size, count)

    def iterate(
        self,
        text: str,
        size: int = 1000,
        result_class: Result = None,
        /,
        *,
        params: Params = None,
        end_program_after: Optional[float] = None,
        **named: Any,
    ) -> Iterator[Any]:
        """The rows of a query, of which so many are asked for at a time: each time those behind the
        last row, by the key of the first variable's object, whatever was stored meanwhile.

        It takes no DISTINCT, GROUP BY, aggregate or ORDER BY, since the rows come in the order of
        the keys.
        """
        if size < 1:
            raise ValueError(f"{size} rows are asked for at a time, and one is the least")
        keys = {name: kind._karzhoul_key[1] for name, kind in self.factory._classes.items()}
        asked = self._asked(text, result_class, params, end_program_after, named)
        return _iterated(asked, by_key(text, keys), size)

    def explain(
        self, text: str = _BY_NAME, /, *, params: Params = None, **named: Any
    ) -> List[str]:
        """By what the program finds the objects for a SELECT, a line for each of its variables, as
        `looks up Title by the index of name`; indexes are those of `open`. The text is judged as
        `query` judges it, and nothing is asked of the store."""
        return self._asked(text, None, params, None, named).lookups()

    def execute_update(
        self,
        text: str = _BY_NAME,
        /,
        *,
        params: Params = None,
        end_program_after: Optional[float] = None,
        **named: Any,
    ) -> int:
        """Runs an UPDATE or a DELETE, and answers how many objects it concerned. Objects that were
        read before don't see it: refresh them, or read them in another transaction. Nor does it
        raise versions: `SET p.version = p.version + 1` does, so that who read an object before and
        changes it is refused."""
        asked = self._asked(text, None, params, end_program_after, named)
        if self.keeper is not None:
            self.keeper.check_statement(asked.text)
        return int(asked.answers(lambda: [asked.line("executeUpdate")], is_one=True)[0])

    def _asked(
        self,
        text: str,
        result_class: Result,
        params: Params,
        seconds: Optional[float],
        named: Dict[str, Any],
    ) -> _Asked:
        """A query that is asked so, which is refused here where it is none. Who calls this is
        called by the application, whose line a warning names."""
        if text is _BY_NAME:
            if "text" not in named:
                raise TypeError("a query is a text, as 'SELECT p FROM Person p', and none is given")
            text = named.pop("text")
        seconds = _seconds(seconds, named)
        check_query(text, result_class, params)
        given = _given(params, named) if named or params is not None else None
        wanted = None if result_class is None else self._wanted(text, result_class)
        return _Asked(self, text, wanted, given, seconds)

    def _wanted(self, text: str, result_class: Union[str, Type[Any]]) -> Type[Any]:
        """The class of an item of each row; a `TypeError` where it was handed in as a parameter."""
        try:
            return item_class(self.factory._classes, result_class)
        except KeyError:
            if ":result_class" not in text:
                raise
        raise TypeError(
            f"result_class= is the class of an item, and {result_class!r} is no entity: a "
            "parameter :result_class is handed in by params={'result_class': ..}"
        )


class _Asked(NamedTuple):
    """A query with its parameters, the class of an item of each row, and after how many seconds the
    program is ended."""

    manager: Queries
    text: str
    wanted: Optional[Type[Any]]
    given: Optional[Mapping[str, Any]]
    seconds: Optional[float]

    def line(
        self,
        call: str,
        first: Limit = None,
        most: Limit = None,
        text: str = "",
        more: Optional[Mapping[str, Any]] = None,
    ) -> bytes:
        """The line that asks it, by another text where one is given, and with more parameters."""
        has_params = self.given is not None or bool(more)
        said, values = self.stored(text or self.text, {**(self.given or {}), **(more or {})})
        members = {"em": self.manager._em, "text": text_spelled(said)}
        if has_params:
            members["params"] = self._listed(said, values)
        limits = (("first", first), ("max", most))
        members.update({name: row_limit(name, it) for name, it in limits if it is not None})
        try:
            return line_of(call, members)
        except UnicodeEncodeError as fault:
            told = {f"the parameter {name!r}": value for name, value in values.items()}
            raise misfit_of(fault, {**told, "the query": said}) from None

    def stored(self, text: str, values: Mapping[str, Any]) -> Tuple[str, Mapping[str, Any]]:
        """A text with its parameters as the program knows them."""
        factory = self.manager.factory
        if factory.conversions is not None:
            text, values = factory.conversions.stored(text, values)
        return with_lists(text, values, factory.language)

    def lookups(self) -> List[str]:
        """By what the program finds the objects for it; a refusal as `query` tells it."""
        from ..explain.refusing import refusal_of_words
        from .lookups import lookups_of

        try:
            return lookups_of(self.manager.factory, *self.stored(self.text, self.given or {}))
        except Refused as refused:
            raise refusal_of_words(refused, self.manager._run, self.line("query")) from None

    def _listed(self, text: str, values: Mapping[str, Any]) -> str:
        """Parameters as JSON. One that can't be told is a fault that also says what is wrong with
        the text: a date has a stored form where it stands beside an attribute alone."""
        try:
            return f"{{{','.join(_listed(self.manager._run, values))}}}"
        except TypeError as fault:
            factory = self.manager.factory
            wrong = check(text, entities_of(factory.mapping), language=factory.language)
            if wrong:
                raise TypeError(f"{fault}; and the query is wrong: {wrong[0]}") from None
            if factory.conversions is None:
                raise
            more = _IN_CASE if _gives_given(text) else ""
            raise WrongValue(f"{fault}: {_BESIDE_NONE}{more}") from None

    def answers(
        self, lines: Callable[[], List[bytes]], is_one: bool = False, text: str = ""
    ) -> List[Any]:
        """The answers to its lines as they are spelled for the manager's run: the first has rows,
        or one, with an item of its class. With the text, where it is another one."""
        answers = self.manager._done(lambda: self._asked(lines()))
        conversions = self.manager.factory.conversions
        if conversions is not None:
            rows = conversions.values(text or self.text, answers[:1] if is_one else answers[0])
            answers[0] = rows[0] if is_one else rows
        if self.wanted is not None:
            for row in [answers[0]] if is_one else answers[0]:
                _require_class(row, self.wanted)
        return answers

    def _asked(self, lines: List[bytes]) -> List[Any]:
        """The answers to lines, before which callbacks run where the first flushes."""
        manager, timeout = self.manager, self.seconds

        def ask(ran: FrozenSet[Due] = frozenset()) -> List[Any]:
            try:
                return manager.factory.ask_lines(manager._run, lines, timeout=timeout, ran=ran)
            except Refused as refused:  # It may be that of the flush before a query.
                refused._concern = manager._concern
                raise

        return manager._pending.before(ask, timeout) if manager._flushes_before() else ask()

    def one(self, first: Limit, most: Limit) -> Any:
        """Its one row."""
        row = self.answers(lambda: [self.line("querySingle", first, most)], is_one=True)[0]
        return as_row(row, Names(self.text))

    def rows(self, first: Limit, most: Limit) -> Rows:
        """Its rows, from the first on and at most so many."""
        names = Names(self.text)
        found = self.answers(lambda: [self.line("query", first, most)])[0]
        return Rows(as_rows(found, names), names)


def _listed(run: Run, values: Mapping[str, Any]) -> Iterator[str]:
    """Parameters as JSON; a fault of what can't be one names it."""
    for name, value in values.items():
        try:
            is_many = isinstance(value, list)
            said = f"[{','.join(map(run.given, value))}]" if is_many else run.given(value)
            yield f"{text_spelled(name)}:{said}"
        except (TypeError, ValueError, OverflowError) as fault:
            raise misfit(fault, f"the parameter {name!r}", value) from None


def _gives_given(text: str) -> bool:
    """Whether a CASE of a query gives a parameter."""
    cases = (node for node in nodes_of(read(text)) if node.sort == "case")
    return any(part.sort == "parameter" for case in cases for part in branches_of(case).results)


def _part_lines(asked: _Asked, most: int, text: str, more: Mapping[str, Any]) -> List[bytes]:
    return [asked.line("query", None, most, text, more)]


def _iterated(asked: _Asked, query: ByKey, size: int) -> Iterator[Any]:
    """The rows of a query, asked for by the key."""
    names, width, most = Names(asked.text), len(query.key), size
    last: Optional[List[Any]] = None
    is_end = False
    while not is_end:
        text, more = query.part(last)
        found = asked.answers(partial(_part_lines, asked, most, text, more), text=text)[0]
        is_end = len(found) < most
        if query.has_groups and not is_end:
            # The rows of an object come together, and the last one's may go on.
            whole = [row for row in found if row[-width:] != found[-1][-width:]]
            found, most = whole, size if whole else 2 * most
        for row in found:
            last = row[-width:]
            items = row[:-width]
            yield items[0] if len(items) == 1 else Row(items, names)


def _seconds(given: Optional[float], named: Dict[str, Any]) -> Optional[float]:
    """After how many seconds the program is ended, by that word or by its former name."""
    word, former = "end_program_after", named.pop("timeout", None)
    if former is not None:
        if given is not None:
            raise TypeError("timeout is the former name of end_program_after: both are given")
        word, given = "timeout", former
    if given is None:
        return None
    try:
        is_above = given > 0
    except TypeError:
        raise TypeError(
            f"{word}= is a number of seconds, and no {type(given).__name__}: a parameter :{word} "
            f"is handed in by params={{{word!r}: ..}}"
        ) from None
    if not is_above:
        raise ValueError(f"{word}={given!r} is no number of seconds above 0")
    if former is not None:
        told = "timeout ends the program for all threads, and is called end_program_after now"
        warnings.warn(told, DeprecationWarning, stacklevel=_ABOVE)
    return given


def _given(params: Params, named: Mapping[str, Any]) -> Dict[str, Any]:
    """The parameters by name."""
    given = {parameter_name(name): value for name, value in (params or {}).items()}
    for name, value in named.items():
        if name in given:
            raise TypeError(f"the parameter {name!r} is given twice")
        if isinstance(value, Mapping):
            raise TypeError(f"parameters are handed in by params={{..}}, and not by {name}={{..}}")
        given[name] = value
    # As it is now, whatever becomes of a list while its query is asked for in parts.
    return {name: list(value) if is_list(value) else value for name, value in given.items()}


def _require_class(row: Any, wanted: Type[Any]) -> None:
    """Refuses a row that has no item of a class, and no None in its place."""
    items = row if isinstance(row, list) else [row]
    if not any(item is None or isinstance(item, wanted) for item in items):
        where = f"where nothing is of the result class {wanted.__name__}"
        raise TypeError(f"the query found {row!r}, {where}")
