"""Writes and syncs as a put makes them, and nothing else: python3 bench/synced.py FILE COUNT BYTES."""

import os
import sys

path, count, length = sys.argv[1], int(sys.argv[2]), int(sys.argv[3])
file = os.open(path, os.O_RDWR | os.O_CREAT)
place = 9
entry = bytes(length)
for _ in range(count):
    os.pwrite(file, entry, place)
    os.fdatasync(file)
    os.pwrite(file, b"\1", place - 1)
    os.fdatasync(file)
    place += length
