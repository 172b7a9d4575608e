#!/usr/bin/env python3
"""Plays a program of before: each line is answered `BadLine`, as a call that it doesn't serve."""

import sys

for _ in sys.stdin:
    print('{"error":{"name":"BadLine","no":3},"events":[]}', flush=True)
