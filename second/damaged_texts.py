#!/usr/bin/env python3
"""damaged_texts.py: calls that read a few small texts, damaged at every byte.

Each byte is left out, doubled, and replaced by others that tell; some are put
before it; and the text is cut there. The calls go to standard output; every
text stands there once.
"""
import sys

from image import call

TEXTS = (b"(lambda x (m 10 @12))", b"'and", b"('6 #0 (a;b\n) ())", b"; c\r(quote\t'15)")
TELLING = b"()';#@ \n\r0a\x7f"
PUT_BEFORE = b"();'0"


def damaged(text):
    yield text
    for place in range(len(text)):
        before, byte, behind = text[:place], text[place:place + 1], text[place + 1:]
        yield before
        yield before + behind
        yield before + byte + byte + behind
        for other in TELLING:
            yield before + bytes([other]) + behind
        for other in PUT_BEFORE:
            yield before + bytes([other]) + byte + behind


if __name__ == "__main__":
    for given in dict.fromkeys(one for text in TEXTS for one in damaged(text)):
        sys.stdout.buffer.write(call("read", given, budget=0, output=200))
