#!/usr/bin/env python3
"""large_finished.py words|alike|numbers [BYTES]: writes a finished image of at most 65,536 bytes, or as many as are named, on standard output.

    words     256 words with two bindings each, of which one is used; as many identifiers as go in, of all words in turn
    alike     one word with 512 bindings, nearly none of them used; as many identifiers of it as go in
    numbers   as many numbers without scopes as go in
"""
import sys

sys.dont_write_bytecode = True
from image import head, number, scope_set

LARGEST = 65536
WORDS = 256
PAIRS = [[low, high] for low in range(1, 33) for high in range(low + 1, 33)]  # 496
SINGLES = [[k] for k in range(1, 17)]


def binding(symbol, scopes):
    return number(symbol) + number(4) + scope_set(scopes)


def identifier(symbol, scopes):
    return b"\0" + scope_set(scopes) + b"\0\0" + number(symbol)


def words():
    """Word i is bound with scope i, which its identifiers have, and with 256, which they have not."""
    rows = b"".join(binding(4 + i, [i + 1]) + binding(4 + i, [256]) for i in range(WORDS - 1))
    front = head(1, [f"w{i}" for i in range(WORDS)], 0, 256) + number(2 * (WORDS - 1)) + rows
    return front, lambda i: identifier(4 + i % (WORDS - 1), [i % (WORDS - 1) + 1])


def alike():
    """The identifiers have scope 200, which no binding has."""
    rows = sorted(PAIRS + SINGLES)
    front = head(1, ["x"], 0, 256) + number(len(rows)) + b"".join(binding(4, row) for row in rows)
    return front, lambda i: identifier(4, [33 + i % 200])


def numbers():
    return head(1, [], 0, 0) + b"\0", lambda i: b"\1\0\0\0" + number(i % 128)


SHAPES = {"words": words, "alike": alike, "numbers": numbers}


def large_finished(shape, size=LARGEST):
    front, part = SHAPES[shape]()
    parts, room = [], size - len(front) - 7  # the list's own bytes
    while len(part(len(parts))) <= room:
        parts.append(part(len(parts)))
        room -= len(parts[-1])
    return front + b"\5\0\0\0" + number(len(parts)) + b"".join(parts)


def main(arguments):
    if len(arguments) not in (1, 2) or arguments[0] not in SHAPES:
        print(__doc__, file=sys.stderr)
        return 2
    sys.stdout.buffer.write(large_finished(arguments[0], *map(int, arguments[1:])))
    return 0


if __name__ == "__main__":
    sys.exit(main(sys.argv[1:]))
