#!/usr/bin/env bash
# Faults of tests/faults, over the program that the gate has built: each so manyth growth of memory
# of each run refused; the test of calls that are made again, with each of its growths refused; the
# program killed at each write of an opening that migrates, and of two managers of which the first
# to commit wins; and each write of one run failing. It takes some 60 s of one processor.
set -u
cd "$(dirname "$0")/.." || exit 1
. tests/shared.bash || exit 1
needs python3 "no faults were put in"
tests/faults/refused-growths --every 10 || exit $?
tests/faults/stopped-disks migrate-person-store || exit $?
tests/faults/stopped-disks first-committer-wins || exit $?
tests/faults/failing-disks first-run || exit $?
# (`./test --quick` has no tests of crates)
[ -n "${KARZHOUL_QUICK-}" ] && exit 0
tests/faults/refused-growths --built jpa_program_tests 400 calls_made_again
status=$?
[ "$status" -eq 77 ] || exit "$status"
leaves_out calls_made_again "the tests of jpa_program_tests don't stand built"
