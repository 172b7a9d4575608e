#!/usr/bin/env bash
# The words --grammar and --language: what the program tells of each language's grammar, beside docs/QUERIES.md, over
# the program that the gate has built, as each of the two compilers makes it.
set -u
cd "$(dirname "$0")/.." || exit 1
. tests/shared.bash || exit 1
needs python3 "no grammar was held against its paper"
over_each_program python3 tests/grammar.py
