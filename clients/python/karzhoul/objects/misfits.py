"""What can't be handed in, told by the attribute or the parameter that it was for, with what to do.
"""

from __future__ import annotations

from typing import Any, Iterable, Iterator, Mapping

from ..classes.values import WrongValue
from ..told import shown

_HALF = (
    "surrogates not allowed: {what} takes a text of Unicode, and this is half a character: decode "
    "the text anew where it came from, or by errors='replace', or store it as bytes"
)


def misfit(fault: Exception, what: str, value: Any) -> Exception:
    """A fault of a value that was handed in for this, or of a list of values: of the same kind, and
    it says for what they were."""
    if not isinstance(fault, UnicodeEncodeError):
        return type(fault)(f"{what}: {fault}")
    for text in _texts(value):
        try:
            text.encode()
        except UnicodeEncodeError as found:
            why = _HALF.format(what=what)
            return UnicodeEncodeError(found.encoding, text, found.start, found.end, why)
    return fault


def misfit_of(fault: UnicodeEncodeError, values: Mapping[str, Any]) -> Exception:
    """A text that isn't Unicode, told by the name of the value that has it."""
    told = (misfit(fault, what, value) for what, value in values.items())
    return next((found for found in told if found is not fault), fault)


def _texts(value: Any) -> Iterator[str]:
    if isinstance(value, str):
        yield value
    elif isinstance(value, (tuple, list)):
        for each in value:
            yield from _texts(each)


def no_member(entity: object, name: str, value: object, is_list: bool = False) -> WrongValue:
    """What is no member of a list of this name, or no list of members."""
    kind = type(entity)
    target = getattr(getattr(kind, name, None), "target", "") or "object"
    wanted = "list" if is_list else target
    told = f"{kind.__name__}.{name} is a list of {target}, and {shown(value)} is no {wanted}"
    return WrongValue(told)


def stranger(value: object) -> ValueError:
    """What is no object of a factory, where one is to be."""
    return ValueError(f"{value!r} is no object of this factory: hand in one that a class of it "
                      "makes, or that it finds")


def unknown(
    kind: str, name: str, known: Iterable[str], sort: str = "attribute"
) -> AttributeError:
    """A name that is no attribute of a class, with the one that is meant."""
    from ..mapping.meant import meant

    names = list(known)
    near = meant(name, names) or f"; it has {', '.join(names)}"
    return AttributeError(f"{kind} has no {sort} {name!r}{near}")
