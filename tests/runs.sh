#!/usr/bin/env bash
# The runs of tests/runs, over the program that the gate has built, as each of the two compilers
# makes it.
set -u
cd "$(dirname "$0")/.." || exit 1
. tests/shared.bash || exit 1
needs python3 "no run was tried"
try_runs() { python3 tests/runs.py "$1" tests/runs; }
over_each_program try_runs
