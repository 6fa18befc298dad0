"""Finishes a WebAssembly module: drops a table that nothing is put into, and states how large its memory may grow.

The linker writes such a table where the compiler only named it. A module that used its table would no longer be valid.
"""
import sys

TABLES, MEMORIES, ELEMENTS = 4, 5, 9
MOST = 1024  # pages of 65,536 bytes: 64 MiB
HAS_MOST = 1  # in the flags of a memory


def number(data, at):
    value = shift = 0
    while True:
        byte = data[at]
        at += 1
        value |= (byte & 127) << shift
        shift += 7
        if byte < 128:
            return value, at


def written(value):
    parts = []
    while value >= 128:
        parts.append(value & 127 | 128)
        value >>= 7
    return bytes([*parts, value])


def limited(body):
    """The section of the one memory, with its most."""
    flags, least = body[1], number(body, 2)[0]
    if body[0] != 1 or flags & HAS_MOST or least > MOST:
        sys.exit("page/finish.py: the module has another memory than one of at most 64 MiB with no stated most")
    section = bytes([1, flags | HAS_MOST]) + written(least) + written(MOST)
    return bytes([MEMORIES]) + written(len(section)) + section


data = open(sys.argv[1], "rb").read()
sections, at = [], 8
while at < len(data):
    size, body = number(data, at + 1)
    sections.append((data[at], data[at : body + size], data[body : body + size]))
    at = body + size
kinds = [kind for kind, _, _ in sections]
sections = [section for section in sections if section[0] != TABLES or ELEMENTS in kinds]
kept = [limited(body) if kind == MEMORIES else whole for kind, whole, body in sections]
open(sys.argv[1], "wb").write(data[:8] + b"".join(kept))
