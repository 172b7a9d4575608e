"""What a server counts, for its status and its metrics."""

from __future__ import annotations

import re
import time
from collections import Counter
from typing import Dict, Optional

_NAME = re.compile(rb'\{"error":\{"name":"([A-Za-z]+)"')


class Counts:
    """What a server has done since it was started."""

    def __init__(self) -> None:
        self.started = time.time()
        # How many connections, lines, commits, and objects there were; and programs, and runs of
        # them, that were begun again.
        self.connections = self.lines = self.commits = self.objects = 0
        self.programs, self.restarts = 1, 0
        self.refusals: Counter[str] = Counter()

    def refused(self, reply: bytes) -> str:
        """Counts a refusal, and answers its name; none where a reply is an answer."""
        found = _NAME.match(reply)
        if found is None:
            return ""
        name = found[1].decode()
        self.refusals[name] += 1
        return name


def memory_of(pid: int) -> Optional[int]:
    """How many bytes of memory a process has; None where the system doesn't tell."""
    try:
        with open(f"/proc/{pid}/status", encoding="ascii", errors="replace") as file:
            told: Dict[str, str] = dict(line.split(":", 1) for line in file if ":" in line)
        return int(told["VmRSS"].split()[0]) * 1024
    except (OSError, LookupError, ValueError):
        return None
