#!/usr/bin/env python3
"""Plays a program: takes the lines after `> ` of the file KARZHOUL_TRANSCRIPT in their order and
answers those after `< `; what a client asks first is answered as the program does, and any other
line ends it with status 9. `! N` in the place of an answer ends it with status N, `! kill` by a
signal, and `! TEXT` writes the text on standard error and ends it with 3."""

import json
import os
import signal
import sys

HELLO = {
    '{"call":"values","objects":[]}': '{"events":[],"ok":[]}',
    '{"call":"pending","em":0}': '{"error":{"name":"NoSuchManager","no":4},"events":[]}',
}


def stop(how: str) -> None:
    sys.stdout.flush()
    if how == "kill":
        os.kill(os.getpid(), signal.SIGKILL)
    if how.isdigit():
        sys.exit(int(how))
    print(how, file=sys.stderr)
    sys.exit(3)


def main() -> None:
    with open(os.environ["KARZHOUL_TRANSCRIPT"], encoding="utf-8") as file:
        script = [line.rstrip("\n") for line in file if line.strip()]
    while script and script[0][0] == "!":
        stop(script[0][2:])
    for line in sys.stdin:
        line = line.rstrip("\n")
        if line in HELLO:
            print(HELLO[line], flush=True)
            continue
        wanted = script.pop(0) if script else "nothing"
        if wanted[:2] != "> " or json.loads(line) != json.loads(wanted[2:]):
            print(f"{line} came, and not {wanted}", file=sys.stderr)
            sys.exit(9)
        answer = script.pop(0)
        if answer[0] == "!":
            stop(answer[2:])
        print(answer[2:], flush=True)


if __name__ == "__main__":
    main()
