"""python3 -m lending --db library.db: serves the library until Ctrl-C."""

from __future__ import annotations

import argparse
import sys
from datetime import date

import karzhoul

from . import demo, entities
from .service import Library
from .web import LibraryServer


def main() -> None:
    parser = argparse.ArgumentParser(prog="lending", description="A lending library in a browser.")
    parser.add_argument("--db", required=True, help="the file that it is kept in")
    parser.add_argument("--port", type=int, default=8000, help="8000; 0 takes a free one")
    parser.add_argument("--demo", action="store_true", help="fill an empty library first")
    words = parser.parse_args()
    with karzhoul.open(entities, words.db, threads=True) as app:
        if words.demo and not demo.fill(app, date.today()):
            print("the library isn't empty, so it stays as it is", file=sys.stderr)
        with LibraryServer(Library(app), words.port) as server:
            print(f"http://127.0.0.1:{server.server_port}/", flush=True)
            try:
                server.serve_forever()
            except KeyboardInterrupt:
                pass


if __name__ == "__main__":
    main()
