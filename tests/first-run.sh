#!/usr/bin/env bash
# What ./jpa runs, and what tools/dist takes and tells, tried with a stand-in for the program; and
# where dist/jpa fits, that it runs at once. No toolchain is needed, and nothing is built.
set -u
cd "$(dirname "$0")/.." || exit 1
. tests/shared.bash || exit 1
needs python3 "the first run was not tried"
python3 tests/first_run.py 2>&1
