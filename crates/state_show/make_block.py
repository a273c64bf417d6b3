#!/usr/bin/env python3
"""Writes a state block (stdin) and what must be printed for it (stdout): python3 make_block.py

The lines come from the state that the block is made of, and not from the block.
"""
import os
import struct

HERE = os.path.dirname(os.path.abspath(__file__))
PCR_COUNT = 24
ENTRY_COUNT = 8
VALUE_LIMIT = 64

PCRS = {0: bytes(range(32)), 7: bytes([0xA5] * 32)}
COUNT = 5
TIME, CLOCK, RESETS, RESTARTS, SAFE = 1000, 2000, 3, 4, 1
LOCALITY = 3
PRESENCE = 1
NAME = b"\x00\x0b" + bytes(range(0x40, 0x60))
OTHER_NAME = b"\x00\x0b" + bytes([0xEE] * 32)
# The third entry has the Name of the first, so that it means nothing.
ENTRIES = [(NAME, b"\xde\xad\xbe\xef"), (OTHER_NAME, b""), (NAME, b"\x01\x02")]


def entry(name, value):
    # What lies behind the value is free.
    return name + bytes([len(value)]) + value + b"\xff" * (VALUE_LIMIT - len(value))


def block():
    pcrs = b"".join(PCRS.get(i, bytes(32)) for i in range(PCR_COUNT))
    time = struct.pack(">QQIIB", TIME, CLOCK, RESETS, RESTARTS, SAFE)
    used = b"".join(entry(name, value) for name, value in ENTRIES)
    # A free entry may hold any bytes.
    free = b"\xff" * ((ENTRY_COUNT - len(ENTRIES)) * len(entry(NAME, b"")))
    tail = bytes([LOCALITY, PRESENCE, len(ENTRIES)])
    return pcrs + struct.pack(">Q", COUNT) + time + tail + used + free


def lines():
    for i, value in sorted(PCRS.items()):
        yield f"pcr\t{i}\t{value.hex()}"
    yield f"count\t{COUNT}"
    seen = set()
    for name, value in ENTRIES:
        if name not in seen:
            yield f"value\t{name.hex()}\t{value.hex()}"
        seen.add(name)
    yield f"time\t{TIME}"
    yield f"clock\t{CLOCK}"
    yield f"resets\t{RESETS}"
    yield f"restarts\t{RESTARTS}"
    yield f"safe\t{SAFE}"
    yield f"locality\t{LOCALITY}"
    yield "presence\t" + ("yes" if PRESENCE else "no")


def main():
    with open(os.path.join(HERE, "stdin"), "wb") as f:
        f.write(block())
    with open(os.path.join(HERE, "stdout"), "w", newline="\n") as f:
        f.writelines(line + "\n" for line in lines())


if __name__ == "__main__":
    main()
