#!/usr/bin/env bash
# Each edit that must be refused, of must-fail/ and of planted/, is held against the text that it
# changes: what it replaces stands there once, so that it can be laid when its turn comes. And the
# turns of the planted ones are walked: each comes in a round. Nothing is proved.
set -u
cd "$(dirname "$0")/.." || exit 1
. tests/shared.bash || exit 1
needs python3 "the edits were not held against the text"
python3 tools/edits-compile --laid
status=$?
python3 tests/turns.py || status=1
exit "$status"
