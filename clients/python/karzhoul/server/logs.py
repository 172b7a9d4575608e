"""What a server tells of itself while it runs: a line of JSON for each event, on standard error."""

from __future__ import annotations

import json
import sys
from datetime import datetime, timezone
from typing import Dict


def log(event: str, **members: object) -> None:
    """Tells an event, with its time in UTC and these members."""
    now = datetime.now(timezone.utc).isoformat(timespec="milliseconds")
    said: Dict[str, object] = {"time": now, "event": event, **members}
    try:
        print(json.dumps(said, ensure_ascii=False, default=str), file=sys.stderr, flush=True)
    except OSError:  # Nobody reads it, which is no reason to end.
        pass
