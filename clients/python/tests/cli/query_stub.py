#!/usr/bin/env python3
"""Plays a program that takes a query in its words, by the file KARZHOUL_QUERIES: of each case the
words behind the mapping and the database, and what is printed, told and answered then."""

import json
import os
import sys
from typing import List


def main(words: List[str]) -> int:
    if words == ["--help"]:
        print("Usage: jpa [OPTIONS]\n\n      --query <TEXT>  Print the rows of a SELECT")
        if "KARZHOUL_OLDER" not in os.environ:
            print("      --language <NAME>  The language of the SELECT")
        return 0
    with open(os.environ["KARZHOUL_QUERIES"], encoding="utf-8") as file:
        cases = json.load(file)
    if words[:1] != ["--mapping"] or words[2:3] != ["--db"] or not os.path.isfile(words[3]):
        return 9
    with open(words[1], encoding="utf-8") as file:
        json.load(file)
    for case in cases:
        if case["words"] == words[4:]:
            for line in case.get("lines", []):
                print(line)
            if "told" in case:
                print(case["told"], file=sys.stderr)
            return int(case.get("status", 0))
    print(f"no case: {words[4:]}", file=sys.stderr)
    return 9


if __name__ == "__main__":
    sys.exit(main(sys.argv[1:]))
