"""What each refusal means, in a sentence, where nothing more is known of it."""

from __future__ import annotations

from typing import Dict, Optional, Type

from ..refusals import Damaged, IllegalArgument, IllegalState, Limit, Persistence, Refused

# By the detail.
_MEANINGS: Dict[Type[Refused], Dict[str, str]] = {
    IllegalArgument: {
        "entity": "The mapping has no entity of this name.",
        "name": "The object has no member of this name that the call takes: a collection is "
        "changed by add and takeOut, and what is none is set.",
        "type": "The value is of another type than the member, or the object is none of the "
        "relation's target. Of a merge: what is stored under its key is of another class.",
        "key": "What was handed in is no whole key of the entity, or a key was set of an object "
        "that is not new any more.",
        "version": "The version of an object that is not new any more can't be set.",
        "state": "The object is not in a state for this call: it is new, detached, removed, or "
        "another manager's. One that is stored is found again, or merged, and what that answers is "
        "handed in.",
        "range": "The first row or the number of rows is negative.",
        "syntax": "The text of the query can't be read.",
        "typing": "The query compares or computes what doesn't go together, or names what isn't "
        "there.",
        "parameter": "A parameter of the query is missing or one too many, or an object that was "
        "given for one has no whole key.",
    },
    IllegalState: {
        "active": "The manager's transaction is open already: commit it or roll it back first.",
        "inactive": "The manager's transaction is not open: begin one first.",
        "unfetched": "The object was detached before this relation was read: read it while it is "
        "managed, or find the object again.",
        "reference": "An object that is to be stored leads to one that is new or removed, along "
        "what doesn't cascade PERSIST: persist it too. Of a merge: it leads to one that is not "
        "merged along, and that the manager neither has nor sees.",
        "statement": "The text is no statement for this call: a SELECT is asked by query, an "
        "UPDATE or DELETE is done by execute_update.",
    },
    Persistence: {
        "key": "A part of the key is not set; or the entity's keys are generated, and one was set.",
        "null": "A required member is null.",
        "reference": "An object leads to one that is removed or not stored.",
        "unique": "Two objects lead to one target of a oneToOne.",
        "generator": "No number is left for a generated key.",
        "version": "The entity has no version, which this lock needs; or a version can't rise any "
        "more.",
        "converter": "A converter refused a value that is to be stored.",
        "callback": "A listener or callback assigned what is no attribute, or a value that doesn't "
        "fit it.",
    },
}
_OTHER_REVISION = "0:" + (b"\x01\x80" + bytes(7)).hex()


def meaning(refused: Refused) -> str:
    """A sentence that tells what a refusal means."""
    if isinstance(refused, Limit):
        return refused.told()
    if isinstance(refused, Damaged):
        return _damage(refused.detail)
    told = _MEANINGS.get(type(refused), {}).get(refused.detail or "")
    return told or " ".join((type(refused).__doc__ or "").split())


def _damage(detail: Optional[str]) -> str:
    compares = "'karzhoul migrate DB --mapping FILE --dry-run' compares them"
    if detail == _OTHER_REVISION:
        return f"The store is of another revision than the mapping: {compares}."
    is_row = detail is not None and not detail.endswith(":")
    what = "one of its rows is none" if is_row else "its rows together are none"
    return (
        f"The store is not one of this mapping: {what} that it writes. The store may be another "
        f"mapping's, the mapping may have changed since, or a row was changed by other means: "
        f"{compares}. Where classes are opened, the lock beside them may be one of before: take "
        "karzhoul.lock.json as the newest classes left it, also for older classes."
    )
