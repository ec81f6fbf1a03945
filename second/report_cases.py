"""Cases of the term report (request T-13), worked out by hand.

Each case is a reason, a file of images with their lengths and what is printed. The
notation of images is the one of image.py. The budget is 400, the phase 0.
"""
import subprocess

from image import number, syntax_image, tree_image

CASES = []  # (reason, file, printed)
CUT = b"cut\n"


def with_length(image):
    return number(len(image)) + image


def report(codes, units, mean):
    """codes are (code, count) in order, mean is quotient and remainder."""
    lines = [f"code {code} {count}" for code, count in codes] + [f"units {units}", f"mean {mean}"]
    return "".join(line + "\n" for line in lines).encode()


def case(reason, images, codes, units, mean):
    CASES.append((reason, b"".join(map(with_length, images)), report(codes, units, mean)))


def file(reason, given, printed):
    CASES.append((reason, given, printed))


IDENTITY = syntax_image("(lambda x x)")  # 0 after 8 units
ONE = syntax_image("1")  # 0 after 2 units
NO_MEANING = syntax_image("x")  # 7 after 2 units
EMPTY_LIST = syntax_image("()")  # 8 after 2 units
TREE = tree_image("1")  # 4
# 199 numbers: loading 200, an entry for the list and 199 for its parts.
ALL_UNITS = syntax_image("(" + "1 " * 199 + ")")
# 200 numbers: loading 201, an entry for the list, 198 for parts; the next one is refused.
TOO_MANY = syntax_image("(" + "1 " * 200 + ")")
AMBIGUOUS = syntax_image("x{1,2}", scopes=2, bindings=[("x", [1], 4), ("x", [2], 4)])  # 6 after 2 units
# Loading 13; an entry and a binder each for m, n and k; k is at phase 2.
NO_PHASE = syntax_image("(let-syntax m (let-syntax n (let-syntax k 1 1) 1) 1)")
LONG = bytes(65537)  # over 65,536 bytes

# ==== counts, units, mean ====

case("no images", [], [], 0, "none")
case("the image that document 01 shows whole", [IDENTITY], [(0, 1)], 8, "8 0")
case("a refused image", [NO_MEANING], [(7, 1)], 2, "2 0")
case("an image of no bytes", [b""], [(1, 1)], 0, "0 0")
case("three images of no bytes", [b""] * 3, [(1, 3)], 0, "0 0")
case("two of a code", [IDENTITY, IDENTITY], [(0, 2)], 16, "8 0")
case("two of a code with other units", [IDENTITY, ONE], [(0, 2)], 10, "5 0")
case("a mean with a remainder", [IDENTITY, NO_MEANING, b""], [(0, 1), (1, 1), (7, 1)], 10, "3 1")
case("a mean of 0 with a remainder", [ONE, b"", b""], [(0, 1), (1, 2)], 2, "0 2")
case("a mean of seven without a remainder", [IDENTITY, IDENTITY, IDENTITY, ONE, ONE, b"", b""], [(0, 5), (1, 2)], 28, "4 0")
case("a remainder one short of the images", [ONE, ONE, ONE, b"", b"", b"", b""], [(0, 3), (1, 4)], 6, "0 6")
# Loading 7, an entry, the binder, three to expand and three to parse, the application and its head.
NO_INTRODUCTION = syntax_image("(let-syntax m (#7 0) 1)")  # 28 after 17 units
case("28 has a line", [NO_INTRODUCTION], [(28, 1)], 17, "17 0")
case("28 behind others", [NO_INTRODUCTION, ONE, NO_INTRODUCTION, b""], [(0, 1), (1, 1), (28, 2)], 36, "9 0")
case("codes ascend as numbers, in whatever order they are met",
     [TOO_MANY, NO_PHASE, EMPTY_LIST, NO_MEANING, AMBIGUOUS, TREE, LONG, b"", ONE],
     [(0, 1), (1, 1), (2, 1), (4, 1), (6, 1), (7, 1), (8, 1), (12, 1), (19, 1)], 400 + 19 + 2 + 2 + 2 + 2, "47 4")
case("all of the budget", [ALL_UNITS], [(0, 1)], 400, "400 0")
case("more than the budget", [TOO_MANY], [(19, 1)], 400, "400 0")
case("the budget is for each image alone", [ALL_UNITS] * 3 + [TOO_MANY] * 2, [(0, 3), (19, 2)], 2000, "400 0")
case("a thousand images", [IDENTITY, NO_MEANING] * 500, [(0, 500), (7, 500)], 5000, "5 0")
case("ten and a thousand of a code", [b""] * 1010, [(1, 1010)], 0, "0 0")
case("what one image binds the next one does not see", [IDENTITY, syntax_image("(lambda y y)"), NO_MEANING],
     [(0, 2), (7, 1)], 18, "6 0")
case("phase 0", [syntax_image("x{|1}", scopes=1, bindings=[("x", [1], 2)])], [(7, 1)], 2, "2 0")
case("the image is expanded, not parsed", [syntax_image("(let-syntax m 1 1)")], [(0, 1)], 12, "12 0")

# ==== lengths ====

case("127 bytes", [b"\3" + bytes(126)], [(1, 1)], 0, "0 0")
case("128 bytes: the length has two groups", [b"\3" + bytes(127)], [(1, 1)], 0, "0 0")
case("16,384 bytes: three groups", [bytes(16384), IDENTITY], [(0, 1), (1, 1)], 8, "4 0")
case("65,536 bytes are read: they break the layout", [bytes(65536), IDENTITY], [(0, 1), (1, 1)], 8, "4 0")
case("65,537 bytes are passed over", [LONG, IDENTITY], [(0, 1), (2, 1)], 8, "4 0")
case("65,537 bytes of another kind are 2", [b"\2" + bytes(65536)], [(2, 1)], 0, "0 0")
case("a million bytes are passed over", [IDENTITY, bytes(1000000), IDENTITY], [(0, 2), (2, 1)], 16, "5 1")
case("2,097,152 bytes: four groups", [bytes(2097152), ONE], [(0, 1), (2, 1)], 2, "1 0")
case("what is passed over is no image", [b"\x1b" * 65537 + with_length(IDENTITY)], [(2, 1)], 0, "0 0")
case("a byte behind the root is the image's own fault", [IDENTITY + b"\0", IDENTITY], [(0, 1), (1, 1)], 8, "4 0")
file("a length of 0 at the end", with_length(IDENTITY) + b"\0", report([(0, 1), (1, 1)], 8, "4 0"))

# ==== cut ====

SMALL = [IDENTITY, b"", NO_MEANING, b"\3" + bytes(129)]
WHOLE = b"".join(map(with_length, SMALL))
# What the file prints where it ends behind 0, 1, 2, 3 or 4 of its images.
AFTER = [report([], 0, "none"), report([(0, 1)], 8, "8 0"), report([(0, 1), (1, 1)], 8, "4 0"),
         report([(0, 1), (1, 1), (7, 1)], 10, "3 1"), report([(0, 1), (1, 2), (7, 1)], 10, "2 2")]
ENDS = [len(b"".join(map(with_length, SMALL[:count]))) for count in range(5)]
for end in range(len(WHOLE) + 1):
    file(f"a small file cut after {end} of {len(WHOLE)} bytes", WHOLE[:end], AFTER[ENDS.index(end)] if end in ENDS else CUT)
for reason, length in (("0 in two bytes", b"\x80\0"), ("0 in five bytes", b"\x80\x80\x80\x80\0"), ("27 in two bytes", b"\x9b\0"),
                       ("27 in three bytes", b"\x9b\x80\0"), ("128 in three bytes", b"\x80\x81\0")):
    file(f"a length not in its shortest form: {reason}", length + IDENTITY, CUT)
    file(f"behind a good image, {reason}", with_length(IDENTITY) + length + IDENTITY, CUT)
for reason, length in (("a fifth byte of 16", b"\x80\x80\x80\x80\x10"), ("a fifth byte of 31", b"\xff\xff\xff\xff\x1f"),
                       ("a fifth byte that goes on", b"\x80\x80\x80\x80\x80\0"), ("a fifth byte of 143", b"\xff\xff\xff\xff\x8f\0")):
    file(f"a length over 4,294,967,295: {reason}", length + bytes(100), CUT)
    file(f"behind a good image, {reason}", with_length(IDENTITY) + length + bytes(100), CUT)
file("4,294,967,295 bytes, of which 100 are there", b"\xff\xff\xff\xff\x0f" + bytes(100), CUT)
file("4,294,967,295 bytes, of which none is there", b"\xff\xff\xff\xff\x0f", CUT)
file("268,435,456 bytes, of which 200,000 are there", b"\x80\x80\x80\x80\1" + bytes(200000), CUT)
file("65,537 bytes, of which one is missing", number(65537) + bytes(65536), CUT)
file("65,536 bytes, of which one is missing", number(65536) + bytes(65535), CUT)
file("131,072 bytes, of which one is missing", number(131072) + bytes(131071), CUT)
file("cut behind an image that is passed over", number(70000) + bytes(70000) + b"\x80", CUT)
file("cut behind a thousand images", with_length(IDENTITY) * 1000 + b"\x05abcd", CUT)


def failures(program):
    """The reasons of the cases that the program prints otherwise."""
    def printed(given):
        try:
            return subprocess.run([program], input=given, stdout=subprocess.PIPE, timeout=60).stdout
        except subprocess.TimeoutExpired:
            return None
    return [reason for reason, given, expected in CASES if printed(given) != expected]
