"""What hints name: the values, keys and cells of the model."""
from __future__ import annotations

from typing import TYPE_CHECKING, Any, Dict, List, Tuple

if TYPE_CHECKING:
    from model.cells import Stored

# A part of a key: an int, str or bytes. A value of an attribute: one of these, or None.
Part = Any
Value = Any
Values = Dict[str, Value]

# The parts of a key; those of a new object may still be None.
Key = Tuple[Part, ...]

# An object by the name of its root entity and its key.
Identity = Tuple[str, Key]
Objects = Dict[Identity, "Stored"]

# What an expression of a query gives: a value, or an identity.
Datum = Any

# A cell of a store: its table, row, column and value.
Cell = Tuple[int, bytes, int, bytes]

# The events of a call so far, each with its object and what a listener notes.
Events = List[List[Any]]

# An event that a flush would tell, and the number of its object.
Due = List[Any]

# A mapping as JSON has it.
Mapping = Dict[str, Any]
