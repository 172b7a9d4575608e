#!/usr/bin/env bash
# The words --query, --param, --explain and --language: one SELECT off a store's file, over the program that the
# gate has built, as each of the two compilers makes it.
set -u
cd "$(dirname "$0")/.." || exit 1
. tests/shared.bash || exit 1
needs python3 "no question was tried"
ask() {
    local failed=0
    python3 tests/questions.py "$1" || failed=1
    python3 tests/fuzz/hostile-questions --stores 12 --texts 120 --program "$1" || failed=1
    python3 tests/fuzz/hostile-questions --stores 9 --texts 90 --language wide --program "$1" || failed=1
    return "$failed"
}
over_each_program ask
