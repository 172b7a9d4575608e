#!/usr/bin/env python3
"""tests/unit.py WORDS..: unittest by its own words, over what the current folder has. Each test
that is skipped is told at the end, in the words that ./test counts: 'skipped: NAME: WHY'.
"""
from __future__ import annotations

import os
import signal
import sys
import unittest
from typing import Any


class Runner(unittest.TextTestRunner):
    """Tells each test that was skipped."""

    def run(self, test: Any) -> unittest.TestResult:
        result = super().run(test)
        for skipped, why in result.skipped:
            print(f"skipped: {skipped.id()}: {why}", flush=True)
        return result


if __name__ == "__main__":
    sys.path[0] = os.getcwd()
    # A script has what it starts by & ignore these, as nohup does the third, and that would go on to
    # what a test starts.
    signal.signal(signal.SIGINT, signal.default_int_handler)
    for number in (signal.SIGQUIT, signal.SIGHUP):
        signal.signal(number, signal.SIG_DFL)
    unittest.main(module=None, testRunner=Runner)
