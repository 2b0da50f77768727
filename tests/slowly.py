#!/usr/bin/env python3
"""Writes a file to standard output in pieces, as a slow line would: slowly.py FILE SIZE.., the sizes taken in turn, with a pause after each piece."""
import sys
import time

content = open(sys.argv[1], 'rb').read()
sizes = [int(s) for s in sys.argv[2:]]
at, turn = 0, 0
while at < len(content):
    size = sizes[turn % len(sizes)]
    sys.stdout.buffer.write(content[at:at + size])
    sys.stdout.buffer.flush()
    time.sleep(0.01)
    at, turn = at + size, turn + 1
