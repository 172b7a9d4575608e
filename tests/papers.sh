#!/usr/bin/env bash
# The papers are held against the repository: links lead somewhere, and what is cited is there.
# Their examples are run over the program that the gate has built, as each compiler makes it.
set -u
cd "$(dirname "$0")/.." || exit 1
. tests/shared.bash || exit 1
needs python3 "the papers were not held against the repository"
python3 tests/papers.py || exit 1
over_each_program python3 tests/paper_examples.py
