#!/usr/bin/env bash
# What ./test counts: edits that can't be compiled, skipped scripts and parts, a run under CI; and
# what tools/packages does. All over stand-ins, in some seconds.
set -u
cd "$(dirname "$0")/.." || exit 1
. tests/shared.bash || exit 1
needs python3 "what ./test counts was not tried"
python3 tests/gate.py 2>&1
