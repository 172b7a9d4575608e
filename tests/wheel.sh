#!/usr/bin/env bash
# The wheel that tools/wheel writes is installed into an empty environment, without a network, and
# the tutorial is followed there.
set -u
cd "$(dirname "$0")/.." || exit 1
later='import ensurepip, sys, venv; sys.exit(sys.version_info < (3, 9))'
if ! command -v python3 >/dev/null 2>&1 || ! python3 -c "$later" 2>/dev/null; then
    echo "there is no python3 of version 3.9 or later with venv and pip here, so no wheel was tried"
    exit 77
fi
if ! tools/dist fits || ! dist/jpa --version >/dev/null 2>&1; then
    echo "dist/jpa doesn't fit these sources, or doesn't run on this machine, so no wheel was tried"
    exit 77
fi
cd clients/python && PYTHONDONTWRITEBYTECODE=1 timeout 600 python3 ../../tests/unit.py tests.wheel 2>&1
