"""Writes a .wtns file with one value changed: change.py WTNS WIRE VALUE OUT."""

import struct
import sys

path, wire, value, out = sys.argv[1:]
with open(path, "rb") as file:
    data = bytearray(file.read())
# The values are the last section: 8 bytes each, behind 52 bytes (docs/file-formats.md).
struct.pack_into("<Q", data, 52 + 8 * int(wire), int(value) % (2**64 - 2**32 + 1))
with open(out, "wb") as file:
    file.write(data)
