#!/usr/bin/env python3
"""Plays a program that is none of these: it answers each line by itself."""

import sys

for line in sys.stdin:
    print(line, end="", flush=True)
