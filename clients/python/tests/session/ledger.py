#!/usr/bin/env python3
"""Plays a program that holds objects with values, and one transaction: enough of it to interrupt
its callers. Each line that comes is written to the file KARZHOUL_LEDGER. A query's text is how
many seconds it takes; `persist` tells an event."""

import json
import os
import sys
import time
from typing import Any, Dict, List, Tuple

IDLE = {"error": {"name": "IllegalState", "no": 7, "why": "inactive"}, "events": []}
OPEN = {"error": {"name": "IllegalState", "no": 7, "why": "active"}, "events": []}
NO_MANAGER = {"error": {"name": "NoSuchManager", "no": 4}, "events": []}
# Of the entities of support.py, in the order of `values`.
MEMBERS = {
    "Order": ["number", "amount"], "Person": ["id", "version", "name"],
    "Place": ["at.row", "at.shelf", "at.tag", "label", "scan", "mood"],
}


class Ledger:
    def __init__(self) -> None:
        self.objects, self.managers, self.is_open = 0, 0, False
        self.values: Dict[Tuple[int, str], Any] = {}
        self.entities: Dict[int, str] = {}

    def reply(self, said: Dict[str, Any]) -> Dict[str, Any]:
        call = said["call"]
        answer: Any = None
        events: List[Any] = []
        if call == "begin" and self.is_open or call in ("commit", "rollback") and not self.is_open:
            return OPEN if self.is_open else IDLE
        if call == "close" and self.is_open:
            return OPEN
        if call in ("begin", "commit", "rollback"):
            self.is_open = call == "begin"
        elif call == "createEntityManager":
            self.managers += 1
            answer = self.managers
        elif call == "new":
            self.objects += 1
            self.entities[self.objects] = said["entity"]
            answer = {"object": self.objects}
        elif call == "set":
            self.values[said["object"], said["name"]] = said["value"]
        elif call == "get":
            answer = self.values.get((said["object"], said["name"]))
        elif call == "values":
            answer = list(map(self.shown, said["objects"]))
        elif call == "find":
            answer = {"object": said["key"][0]}
        elif call == "query":
            time.sleep(float(said["text"]))
            answer = [said["text"]]
        elif call == "persist":
            events = [["PrePersist", said["object"]]]
        return {"events": events, "ok": answer}


    def shown(self, number: int) -> Dict[str, Any]:
        entity = self.entities.get(number, "Order")
        values = [self.values.get((number, name)) for name in MEMBERS[entity]]
        return {"entity": entity, "relations": [], "values": values}


def main() -> None:
    ledger, log = Ledger(), open(os.environ["KARZHOUL_LEDGER"], "a", encoding="utf-8", buffering=1)
    for line in sys.stdin:
        said = json.loads(line)
        is_hello = said["call"] == "pending"  # Which this plays no further.
        if not is_hello and said.get("objects") != []:
            log.write(line)
        reply = NO_MANAGER if is_hello else ledger.reply(said)
        print(json.dumps(reply, separators=(",", ":")), flush=True)


if __name__ == "__main__":
    main()
