"""How new objects are told to the program: many to a commit, whatever leads to what.

They are written by a mapping of the same rows, in which nothing is required, nothing is cascaded
and a version is a number like others: whether all of it goes together, the mapping itself tells
when it opens the file.
"""

from __future__ import annotations

from typing import Any, Callable, Dict, Iterator, List, Mapping, NamedTuple, Protocol
from typing import Set, Tuple, Union

from ..wire.lines import spelled, text_spelled
from ..records.loading import MOST_UNUSED
from ..records.records import GREATEST, Key, bare, named
from ..wire.tally import MOST_OBJECTS
from ..mapping.unit import Member
from .bringing import Brought
from .feeding import About, Feed
from .plans import Led
from .sides import Side

# How many objects are written by one commit; and a run that has fewer left than the others begins
# anew, since what an object leads to may have to be found again.
_TOGETHER, _LEFT = 5_000, 60_000
_SPARE = 2
"""The manager that takes the numbers which no object has."""


def carrying(mapping: Mapping[str, Any]) -> Dict[str, Any]:
    """The mapping by which objects are written."""
    entities = []
    for entity in bare(mapping)["entities"]:
        kept = {name: each for name, each in entity.items() if name != "version"}
        if "version" in entity:
            number = {**entity["version"], "type": "int"}
            kept["attributes"] = [number, *kept.get("attributes", ())]
        for sort in ("attributes", "relations"):
            if sort in kept:
                kept[sort] = [_free(each) for each in kept[sort]]
        entities.append(kept)
    return {**bare(mapping), "entities": entities}


def _free(member: Mapping[str, Any]) -> Dict[str, Any]:
    return {name: each for name, each in member.items() if name != "required"}


class _Spelled(Dict[str, str]):
    """Names as JSON."""

    def __missing__(self, name: str) -> str:
        said = self[name] = text_spelled(name)
        return said


class Leads(Protocol):
    """What knows which objects relations lead to."""

    def now(self, led: Led) -> Union[None, bool, Tuple[str, Key]]:
        """The hierarchy and the key of what a relation leads to; False where that object is gone,
        and None where it isn't known yet."""


class _Late(NamedTuple):
    """A relation whose target wasn't there yet."""

    owner: Brought
    member: Member
    led: Any


class NewStore:
    """The store that is made. `counts` are its objects by their classes, and `faults` what can't
    stand in it."""

    def __init__(
        self, feed: Feed, side: Side, bringer: Leads, told: Callable[[int], None]
    ) -> None:
        shapes = side.shapes
        self.counts: Dict[str, int] = {}
        self.faults: List[str] = []
        self._feed, self._bringer, self._told = feed, bringer, told
        self._tops = {name: shape.top for name, shape in shapes.items()}
        self._single = _unique_relations(side.mapping)
        # The number of each object, 0 where it is of before a restart; and its class.
        self._held: Dict[str, Dict[Key, int]] = {shape.top: {} for shape in shapes.values()}
        # What was found since the last commit.
        self._found: Dict[Tuple[str, Key], int] = {}
        self._owners: Dict[Tuple[str, str, Key], str] = {}
        self._nexts = {it.top: 1 for it in shapes.values() if it.is_generated}
        self._unused = 0
        self._waiting: Dict[str, List[Brought]] = {}
        self._late: List[_Late] = []
        self._lines: List[str] = []
        self._about: List[About] = []
        self._names = _Spelled()
        self._made, self._together, self.done = 0, 0, 0
        self._begin_run()

    def _begin_run(self) -> None:
        self._tell("createEntityManager", "")
        self._tell("createEntityManager", "")
        self._tell("setFlushMode", '"em":1,"mode":"COMMIT"')
        self._tell("begin", '"em":1')

    def _tell(self, call: str, members: str) -> None:
        self._lines.append(f'{{"call":"{call}"{"," if members else ""}{members}}}')

    # ---- commits

    def _commit(self) -> None:
        """Has what was told be stored."""
        self._tell("commit", '"em":1')
        self._tell("clear", '"em":1')
        self._tell("clear", f'"em":{_SPARE}')
        if self._made > MOST_OBJECTS - _LEFT:
            self._tell("restart", "")
            self._made = 0
            for held in self._held.values():
                held.update(dict.fromkeys(held, 0))
            self._begin_run()
        else:
            self._tell("begin", '"em":1')
        self._feed.tell(self._lines, self._about)
        self._lines, self._about, self._together = [], [], 0
        self._found = {}
        self._told(self.done)

    def _count_one(self) -> int:
        """The number of an object that is made now."""
        self._made, self._together = self._made + 1, self._together + 1
        return self._made

    # ---- objects

    def add(self, each: Brought) -> None:
        """Takes a new object. Where keys are generated those that are added rise behind the
        others."""
        if each.shape.is_generated and each.is_added:
            self._waiting.setdefault(each.shape.top, []).append(each)
        else:
            self._write(each)

    def _write(self, each: Brought) -> None:
        shape, top = each.shape, each.shape.top
        if each.key in self._held[top]:
            self.faults.append(f"{each}: this key is another object's already")
            return
        if shape.is_generated and not self._give_out(top, each.key[0], each):
            return
        self._about.append((len(self._lines), shape.name, each.key))
        number = self._count_one()
        self._tell("new", f'"entity":"{shape.name}"')
        if shape.is_generated:
            self._nexts[top] += 1
        else:
            for part, value in zip(shape.key, each.key):
                self._set(number, part.name, spelled(value))
        if shape.version:
            self._set(number, shape.version, str(each.version))
        front, names = f'{{"call":"set","object":{number},"name":', self._names
        self._lines += [
            f'{front}{names[name]},"value":{spelled(value)}}}'
            for name, value in each.values.items() if value is not None
        ]
        self._held[top][each.key] = number
        self._relate(each, number)
        self._tell("persist", f'"em":1,"object":{number}')
        self.counts[shape.name] = self.counts.get(shape.name, 0) + 1
        self.done += not each.is_added
        if self._together >= _TOGETHER:
            self._commit()

    def _set(self, number: int, name: str, value: str) -> None:
        self._lines.append(
            f'{{"call":"set","object":{number},"name":{self._names[name]},"value":{value}}}'
        )

    def _relate(self, each: Brought, number: int) -> None:
        """Has an object lead to what is there; what isn't comes late."""
        for name, led in each.links.items():
            if led is not None:
                self._lead(_Late(each, each.shape.links[name], led), number, True)
        for name, several in each.pairs.items():
            pairs = [_Late(each, each.shape.pairs[name], led) for led in dict.fromkeys(several)]
            if any(map(self._is_late, pairs)):
                # All of them come late: what is added to a list that is stored loads its members,
                # and these would take numbers that nobody counts.
                self._late += pairs
            else:
                for pair in pairs:
                    self._lead(pair, number, True)

    def _is_late(self, late: _Late) -> bool:
        """Whether what a relation leads to isn't there yet."""
        now = self._bringer.now(late.led)
        return now is None or (isinstance(now, tuple) and now[1] not in self._held[now[0]])

    def _lead(self, late: _Late, number: int, may_wait: bool) -> None:
        now = self._bringer.now(late.led)
        found = self._held[now[0]].get(now[1]) if isinstance(now, tuple) else None
        if found is None:
            if may_wait and now is not False:
                self._late.append(late)
            else:
                self._miss(late, now is False)
            return
        assert isinstance(now, tuple)
        if now[0] != self._tops[late.member.type]:
            what = named(late.led.entity, late.led.key)
            self.faults.append(f"{late.owner}: {late.member.name} leads to {what}, which is no "
                               f"{late.member.type} now")
            return
        name, is_link = late.member.name, late.member.name in late.owner.shape.links
        if is_link and not self._is_alone(late, now[1]):
            return
        target = found or self._find(now[0], now[1])
        if is_link:
            self._set(number, name, f'{{"object":{target}}}')
        else:
            self._tell("add", f'"object":{number},"name":{self._names[name]},"member":{target}')

    def _miss(self, late: _Late, is_gone: bool) -> None:
        name, target = late.member.name, named(late.led.entity, late.led.key)
        if is_gone and not late.member.is_required:
            return  # It led to what goes.
        why = "goes" if is_gone else "isn't there"
        self.faults.append(f"{late.owner}: {name} leads to {target}, which {why}")

    def _is_alone(self, late: _Late, key: Key) -> bool:
        """Whether no other object leads to the same along a relation of one to one."""
        if (late.member.declarer, late.member.name) not in self._single:
            return True
        place = (late.member.declarer, late.member.name, key)
        other = self._owners.setdefault(place, str(late.owner))
        if other != str(late.owner):
            target = named(late.member.type, key)
            self.faults.append(f"{late.owner} and {other} lead to {target} by {late.member.name}, "
                               "and only one may")
            return False
        return True

    def _find(self, entity: str, key: Key) -> int:
        """The number of an object that is stored, and is managed from now on."""
        if (entity, key) in self._found:
            return self._found[entity, key]
        number = self._held[entity][key] = self._found[entity, key] = self._count_one()
        parts = ",".join(map(spelled, key))
        self._tell("find", f'"em":1,"entity":"{entity}","key":[{parts}]')
        return number

    # ---- generated keys

    def _give_out(self, top: str, number: Any, what: Any) -> bool:
        """Gives out the numbers of a hierarchy below this one; whether that can be. What it is for
        is named where it can't."""
        left = number - self._nexts[top]
        if left < 0 or number >= GREATEST:
            why = "can't be given" if number < 1 or number >= GREATEST else (
                f"comes behind {self._nexts[top] - 1:,}, and generated keys rise")
            self.faults.append(f"{what}: its key {number:,} {why}")
            return False
        self._unused += left
        if self._unused > MOST_UNUSED:
            self.faults.append(f"{what}: {self._unused:,} numbers before its key are no object's, "
                               "and each takes a call to give out")
            return False
        for _ in range(left):
            unused = self._count_one()
            self._tell("new", f'"entity":"{top}"')
            self._tell("persist", f'"em":{_SPARE},"object":{unused}')
            if self._together >= _TOGETHER:
                self._commit()
        self._nexts[top] += left
        return True

    # ---- the end

    def finish(self, nexts: Mapping[str, int]) -> None:
        """Writes what was kept, gives out numbers up to the next ones of before, and stores it
        all."""
        for waiting in self._waiting.values():
            for each in sorted(waiting, key=lambda it: it.key):
                self._write(each)
        for top, following in nexts.items():
            if top in self._nexts and following > self._nexts[top]:
                self._give_out(top, following, top)
        self._commit()
        for owner, several in _by_owner(self._late):
            self._about.append((len(self._lines), owner.shape.name, owner.key))
            number = self._find(owner.shape.top, owner.key)
            for late in several:
                self._lead(late, number, False)
            if self._together >= _TOGETHER:
                self._commit()
        self._commit()


def _by_owner(late: List[_Late]) -> Iterator[Tuple[Brought, List[_Late]]]:
    owners: Dict[int, List[_Late]] = {}
    for each in late:
        owners.setdefault(id(each.owner), []).append(each)
    for several in owners.values():
        yield several[0].owner, several


def _unique_relations(mapping: Mapping[str, Any]) -> Set[Tuple[str, str]]:
    """The relations of one to one that are stored, by the class that declares them."""
    return {
        (entity["name"], each["name"])
        for entity in mapping["entities"] for each in entity.get("relations", ())
        if each["kind"] == "oneToOne" and "mappedBy" not in each
    }
