#!/usr/bin/env bash
# The tests of the Python client, clients/python: over the program that stands built, or in `./test
# --quick` the one that ./jpa runs, or the one that KARZHOUL_PROGRAM names. The program is not built
# here. Where mypy is on the PATH, the package and programs that use it are checked by it too
# (clients/python/tests/test_types.py); else these tests are skipped. Modules of tests run side by
# side, as tests/modules.py says. Their folders are those of the packages that they test: `python3
# ../../tests/modules.py tests/jpql` runs those of one, in clients/python, and `python3 -m unittest
# tests.jpql.test_nested_rows` one module.
set -u
cd "$(dirname "$0")/.." || exit 1
later='import sys; sys.exit(sys.version_info < (3, 9))'
if ! command -v python3 >/dev/null 2>&1 || ! python3 -c "$later"; then
    echo "there is no python3 of version 3.9 or later on this machine, so the client isn't tried"
    exit 77
fi
program=${KARZHOUL_PROGRAM-}
if [ -z "$program" ]; then
    programs=$(bash tools/built) || exit $?
    program=${programs%%$'\n'*}
fi
cd clients/python || exit 1
longest="test_types migrating.test_migrate session.test_runs classes.test_entity_classes papers.test_tutorial"
longest="$longest session.test_threads examples.test_lending_service console.test_console"
longest="$longest console.test_console_page cli.test_beginnings papers.test_pages examples.test_order_desk"
longest="$longest migrating.test_migrate_classes objects.test_values cli.test_selecting"
export KARZHOUL_PROGRAM=$program PYTHONDONTWRITEBYTECODE=1
# shellcheck disable=SC2086
timeout 2400 python3 ../../tests/modules.py tests $longest 2>&1
