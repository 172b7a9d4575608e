"""What a file of records has, and whether it can be stored whatever the store has."""

from __future__ import annotations

from dataclasses import dataclass, field
from typing import Dict, Mapping, Optional, Tuple

from .records import Key, Next, Record, Shape, named
from .sources import Source


@dataclass(frozen=True)
class Terms:
    """How records are stored: so many to a transaction; whether none is in the end; whether a row
    whose key is stored gives that object its values; whether generated keys are given anew; and
    whether listeners hear of it."""

    size: int = 1_000
    is_dry: bool = False
    updates: bool = False
    new_keys: bool = False
    hears: bool = False


@dataclass
class Plan:
    """What a file has, by the hierarchies' names."""

    rows: int = 0
    held: Dict[str, Dict[Key, Tuple[int, str]]] = field(default_factory=dict)
    """The line and the class of each object."""
    keyless: Dict[str, int] = field(default_factory=dict)
    """The first line that has no key."""
    abroad: Dict[str, Dict[Key, Tuple[int, str]]] = field(default_factory=dict)
    """The line and the relation that lead to what the file doesn't have, by the target."""
    nexts: Dict[str, int] = field(default_factory=dict)


def checked(source: Source, shapes: Mapping[str, Shape], terms: Terms) -> Plan:
    """Reads a file whole; a `RowFault` at a row that can't be stored whatever the store has."""
    plan = Plan()
    led: Dict[str, Dict[Key, Tuple[int, str]]] = {}
    for line, item in source.items():
        if isinstance(item, Next):
            plan.nexts[item.entity] = max(item.number, plan.nexts.get(item.entity, 1))
            continue
        plan.rows += 1
        shape = shapes[item.entity]
        why = _hold(plan, line, item, shape) or _missing(item, shape, terms)
        if why:
            raise source.fault(line, f"{item}: {why}")
        for member, key in item.targets(shape):
            led.setdefault(member.type, {}).setdefault(key, (line, member.name))
    for target, keys in led.items():
        held = plan.held.get(shapes[target].top, {})
        for key, (line, name) in keys.items():
            if key not in held:
                plan.abroad.setdefault(target, {})[key] = (line, name)
            elif target not in shapes[held[key][1]].chain:
                other = f"{named(held[key][1], key)}, which is no {target}"
                raise source.fault(line, f"{name} leads to {other}")
    return plan


def _hold(plan: Plan, line: int, record: Record, shape: Shape) -> Optional[str]:
    """Takes note of a row's key; why it can't stand."""
    held = plan.held.setdefault(shape.top, {})
    if record.key is None:
        if not shape.is_generated:
            return "the key is missing"
        plan.keyless.setdefault(shape.top, line)
    elif record.key in held:
        return f"this key stands in line {held[record.key][0]} already"
    else:
        held[record.key] = (line, record.entity)
    is_mixed = bool(held) and shape.top in plan.keyless
    return f"some rows of {shape.top} have keys, and others have none" if is_mixed else None


def _missing(record: Record, shape: Shape, terms: Terms) -> Optional[str]:
    """What a row needs and hasn't. Listeners may still assign it, and an object may have it."""
    if terms.hears:
        return None
    told: Dict[str, object] = {**record.values, **record.links}
    for member in (*shape.values.values(), *shape.links.values()):
        is_left = member.name not in told and terms.updates
        if member.is_required and not is_left and told.get(member.name) is None:
            return f"{member.name} is required, and null"
    return None
