"""What hints name: calls by their words and members, and plots of them."""
from __future__ import annotations

from typing import Any, Dict, Generator, Optional, Tuple

Members = Dict[str, Any]
Call = Tuple[str, Members]

# A plot gives its calls one by one, None where it waits, and takes what each was answered.
Plot = Generator[Optional[Call], Any, Any]
