"""What classes and attributes go on with, whatever they are called: each with the numbers of its own
name, or of the one that its was= says; nothing with what another one has, and nothing is left
without a name."""

from __future__ import annotations

from dataclasses import dataclass
from typing import Any, Callable, Dict, List, Optional

Record = Dict[str, Any]


@dataclass(frozen=True)
class Claim:
    """What a class or an attribute goes on with: what the lock has by its name, or by the other one
    that it was. A renaming that is done stays so, though its was= still stands."""

    name: str
    was: str
    own: Optional[Record]
    other: Optional[Record]

    @property
    def is_done(self) -> bool:
        """Whether it is known to have been renamed so before."""
        return self.own is not None and self.was in self.own.get("was", ())

    @property
    def record(self) -> Optional[Record]:
        """What it goes on with; None where it is new."""
        return self.own if self.other is None or self.is_done else self.other

    def remembered(self) -> Record:
        """What the lock is to know of its names: those that it had, and what its was= says."""
        record = self.record or {}
        was = [*record.get("was", ()), *([self.was] if self.was else [])]
        told: Record = {}
        if names := [name for name in dict.fromkeys(was) if name != self.name]:
            told["was"] = names
        if self.was:
            told["says"] = self.was
        if self.is_done and self.other is not None and record.get("says") != self.was:
            told["again"] = True  # It may be meant anew, which the names in the store tell.
        return told


def refuse(
    claims: List[Claim], add: Callable[[str, str], None], let_go: str = ""
) -> None:
    """Has each claim that can't be met told by its name, with what its was= says, and what to do;
    `let_go` is how values go for good."""
    unmet = _unmet(claims)
    for each in claims:
        name = words_of(each.name)
        if each.name in unmet:
            add(each.name, unmet[each.name])
        elif each.record is not each.own and each.own is not None and (
            not each.own.get("cleared") and all(it.record is not each.own for it in claims)
        ):
            add(each.name, _says(each) + _OWN.format(
                name=name, let_go=let_go.format(name=name)))


def refused(claims: List[Claim]) -> Dict[str, str]:
    """Why claims can't be met, by their names, where no store is opened that could tell that a
    renaming is meant anew, and what goes is said elsewhere."""
    again = {it.name: _says(it, " again") + AGAIN.format(where="") for it in claims
             if it.remembered().get("again")}
    return {**again, **_unmet(claims)}


def _unmet(claims: List[Claim]) -> Dict[str, str]:
    """Why claims can't be met whose was= says what another one goes on with."""
    found: Dict[str, str] = {}
    for each in claims:
        rival = None if each.record is each.own else next(
            (it for it in claims if it is not each and it.record is each.other), None)
        if rival is not None:
            found[each.name] = _says(each) + _shared(rival).format(
                name=words_of(each.name), was=words_of(each.was), rival=words_of(rival.name))
    return found


def _says(claim: Claim, word: str = "") -> str:
    return f"has was=\"{written(claim.name, claim.was)}\"{word}, and "


AGAIN = (
    "was renamed so before{where}: take was= away. Two that are to change their names once more do "
    "so by a third name, in three openings"
)
_OWN = (
    "what is stored as {name} itself would have no name then: keep it under another one, by "
    "was=\"{name}\" there in the same opening{let_go}; where this renaming is done, take was= away"
)


def _shared(rival: Claim) -> str:
    """Why something can't go on with what a rival goes on with, and what to do."""
    if rival.record is not rival.own:
        return "so has {rival}: take it away from one of them"
    if rival.is_done:
        return (
            "{was} stays where it is, since its own was= was carried out before: rename {was} to a "
            "third name, {name} to {was}, and the third to {name}, in three openings, each with its "
            "was= alone"
        )
    return (
        "{was} is still there, with its values: where the renaming is done or not meant take was= "
        "away, else take {was} out, open the store, and write {was} anew then"
    )


def words_of(name: str) -> str:
    """The name of an attribute as a user writes it."""
    return name.replace("__", ".")


def written(name: str, before: str) -> str:
    """What was= says of what had another name: of a part of an embedded value that of the part, or
    where the value has another name, that one."""
    (front, _, _), (old, _, part) = name.rpartition("__"), before.rpartition("__")
    return part if front == old else old.partition("__")[0] or part
