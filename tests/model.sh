#!/usr/bin/env bash
# The plain model, tests/model, is held against the runs of tests/runs, which were worked by hand, and
# what its `pending` tells against its flushes. No program is run.
set -u
cd "$(dirname "$0")/.." || exit 1
. tests/shared.bash || exit 1
needs python3 "the model was not tried"
python3 tests/model/against_runs.py tests/runs || exit 1
tests/fuzz/hostile-pending --lines 4000
