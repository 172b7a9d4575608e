#!/usr/bin/env bash
# Input that ends anywhere, streams and a disk that fail, and words of the command line, over the
# program that the gate has built, as each of the two compilers makes it.
set -u
cd "$(dirname "$0")/.." || exit 1
. tests/shared.bash || exit 1
needs python3 "no input was tried"
over_each_program python3 tests/input.py
