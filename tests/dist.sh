#!/usr/bin/env bash
# dist/jpa is, byte for byte, the program that the gate, which ran before, has proved and built. In
# `./test --quick` nothing is built: there it is the program of these sources by its sums alone. One
# of other sources is skipped, but has failed under CI.
set -u
cd "$(dirname "$0")/.." || exit 1
. tests/shared.bash || exit 1
if [ -n "${KARZHOUL_QUICK-}" ]; then
    tools/dist fits && exit 0
    is_ci && exit 1
    exit 77
elif is_ci; then
    exec tools/dist check --fit
fi
exec tools/dist check
