"""The parts of keys in a lock, which stay in their places for good: only their names change, by
was=."""

from __future__ import annotations

from typing import Any, Dict, List, Sequence

from .declared import Member
from .faults import Faults
from .renaming import Claim, words_of

Record = Dict[str, Any]
_MIGRATE = "or bring the store over by karzhoul migrate (docs/OPERATING.md)"


def lock_key(record: Record, key: Sequence[Member], faults: Faults) -> None:
    """Has the record of an entity know its key, with the names of the parts in their order."""
    kinds = [part.type for part in key if part.type is not None]
    said = {"form": ", ".join(it.form for it in kinds),
            "type": ", ".join(it.stored for it in kinds),
            "generated": key[0].field.sort == "generated"}
    before = record.setdefault("key", dict(said))
    if any(before[word] != told for word, told in said.items()):
        faults.add(key[0].writer, key[0].said, f"is a key of {_words(said)}, and was one of "
                   f"{_words(before)}: a key stays as it is. Take the change back, {_MIGRATE}")
        return
    if len(key) == 1:  # It can be no other one, and so its name may change unsaid.
        return
    known = before.get("parts") or [{"name": _name(part)} for part in key]
    claims = [_claim(part, each) for part, each in zip(key, known)]
    _refuse(key, claims, [each["name"] for each in known], faults)
    before["parts"] = [{"name": it.name, **it.remembered()} for it in claims]


def _words(said: Record) -> str:
    return f"{said['form']}{', generated' if said['generated'] else ''}"


def _name(part: Member) -> str:
    return part.said.replace(".", "__")


def _claim(part: Member, known: Record) -> Claim:
    """What a part goes on with: what the lock has in its place, by its name or by its was=."""
    name, was = _name(part), (part.field.was or "").replace(".", "__")
    was = "" if was == name else was
    own, other = (known if known["name"] == it else None for it in (name, was))
    return Claim(name, was, own, other)


def _refuse(
    key: Sequence[Member], claims: List[Claim], before: List[str], faults: Faults
) -> None:
    now = [it.name for it in claims]
    told = f"the lock has {', '.join(map(words_of, before))}"
    lost = [at for at, it in enumerate(claims) if it.record is None]
    if lost and sorted(now) == sorted(before):
        first = words_of(before[lost[0]])
        faults.add(key[0].writer, None, f"has the key {', '.join(map(words_of, now))}, and {told}: "
                   f"the parts of a key stay in their order: write {first} first, before "
                   f"{words_of(now[lost[0]])}")
        return
    for part, claim, old in zip(key, claims, before):
        if claim.record is None:
            faults.add(part.writer, part.said, f"is in the place of {words_of(old)} in the key "
                       f"({told}): where it is renamed write was=\"{_was(claim.name, old)}\" in "
                       f"its word, else write the parts as they were, {_MIGRATE}")
        elif claim.own is not None and not claim.is_done and claim.was in before:
            faults.add(part.writer, part.said, f"has was=\"{_was(claim.name, claim.was)}\", which "
                       f"is another part of the key ({told}): the parts of a key stay in their "
                       "places, with their values. Take was= away")


def _was(name: str, before: str) -> str:
    """What was= says of a part: in an embedded id the name of the part, or that of the id."""
    (front, _, _), (old, _, part) = name.rpartition("__"), before.rpartition("__")
    return words_of(before) if not front else part if front == old else old or part
