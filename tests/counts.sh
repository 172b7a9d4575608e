#!/usr/bin/env bash
# The instructions of calls are counted, beside few objects and beside many: what looks up what it
# asks takes about as many beside many. Over the program that the gate has built, as LLVM makes it.
# Without valgrind the processor time is taken, which tells less.
set -u
cd "$(dirname "$0")/.." || exit 1
. tests/shared.bash || exit 1
needs python3 "no instructions were counted"
find_programs
program=${programs%%$'\n'*}
if command -v valgrind >/dev/null 2>&1 && command -v setarch >/dev/null 2>&1 &&
    echo '#include <valgrind/callgrind.h>' | cc -fsyntax-only -xc - 2>/dev/null; then
    exec timeout 600 python3 tests/counts.py "$program"
fi
leaves_out counts "there is no valgrind with its headers, or no C compiler, so times are taken"
exec timeout 600 python3 tests/counts.py --time "$program"
