"""Edge cases of document 01, as requests T-01 to T-05 and T-07 to T-11 amend it, worked out by hand.

Each case is a reason, a call and the answer that document 01 asks for. The
notation is the one of image.py. `steps` walks through the charges of a call
one after another: with a budget just short of a charge the answer is code 19
with the units charged before it, and with the whole budget the call ends. The
cases of the panel check (T-01) are in panel_cases.py, those of the scan runner
(T-02) in scan_cases.py, those of who competes (T-04) in rival_cases.py, those of
text in and text out (T-05) in text_cases.py, those of where a bit is used (T-10) in
uses_cases.py, those of the smaller image (T-11) in shrink_cases.py, those of local expansion
(T-08) in local_cases.py.
"""
import local_cases
import panel_cases
import rival_cases
import scan_cases
import shrink_cases
import text_cases
import uses_cases
from image import (call, head, number, scope_set, sets, syntax_image, tree_image)

CASES = []  # (reason, call bytes, job, code, units, name, rivals, output or None, table)
UNKNOWN = object()  # an output or name that the case does not settle


def case(reason, job, image, code=0, units=UNKNOWN, name=0, result=None, phase=0, budget=1024,
         table=None, output=65536, rivals=(0, 0)):
    """result is the written image, needed when code is 0 and the job writes; rivals are the places of
    the two bindings that compete, needed when code is 6."""
    assert (code == 6) == (0 < rivals[0] < rivals[1])
    column = "kept" if code == 5 or budget == 0 else "clear"
    CASES.append((reason, call(job, image, phase, budget, table, output), job, code, units, name,
                  rivals, result, column))


def steps(reason, job, image, charges, code=0, result=None, phase=0, name=0, rivals=(0, 0)):
    """Every charge refused once, then the end of the call at its exact budget."""
    spent = 0
    for index, charge in enumerate(charges):
        if charge > 0:
            case(f"{reason}: charge {index + 1} of {len(charges)} is refused", job, image, 19,
                 spent, phase=phase, budget=spent + charge - 1)
        spent += charge
    case(f"{reason}: {spent} units", job, image, code, spent, name, result, phase, budget=spent,
         rivals=rivals)


# ==== the samples of document 01 ====

XY = dict(words=["x", "y"], made=3, scopes=2)


def sample(number_, reason, *given, **named):
    case(f"sample {number_}: {reason}", *given, **named)


sample(1, "no candidate", "resolve", syntax_image("x", **XY), 0, 1, 4)
sample(2, "the larger set wins", "resolve",
       syntax_image("x{1,2}", bindings=[("x", [], 6), ("x", [1], 7)], **XY), 0, 1, 7)
sample(3, "neither contains the other", "resolve",
       syntax_image("x{1,2}", bindings=[("x", [1], 6), ("x", [2], 7)], **XY), 6, 1, rivals=(1, 2))
sample(4, "one contains both", "resolve",
       syntax_image("x{1,2}", bindings=[("x", [1], 6), ("x", [2], 7), ("x", [1, 2], 8)], **XY),
       0, 1, 8)
sample(5, "the only binding is no candidate", "resolve",
       syntax_image("x{2}", bindings=[("x", [1], 6)], **XY), 0, 1, 4)
SIX = syntax_image("x{|1,2}", bindings=[("x", [1], 6)], **XY)
sample(6, "phase 0", "resolve", SIX, 0, 1, 4, phase=0)
sample(6, "phase 1", "resolve", SIX, 0, 1, 6, phase=1)

IDENTITY = syntax_image("(lambda x x)")
assert IDENTITY == bytes.fromhex("010101780000000500000003000000000000000000040000000004")
IDENTITY_EXPANDED = syntax_image("(lambda x{1} x{1})", made=1, scopes=1, bindings=[("x", [1], 5)])
IDENTITY_PARSED = tree_image("[5 $5]", words=["x"], made=1, scopes=1)
sample(7, "expanded", "expand", IDENTITY, 0, 8, result=IDENTITY_EXPANDED)
sample(7, "parsed", "parse", IDENTITY_EXPANDED, 0, 6, result=IDENTITY_PARSED)
sample(8, "no meaning", "expand", syntax_image("x"), 7, 2)
sample(9, "the empty list", "expand", syntax_image("()"), 8, 2)
LAMBDAS = syntax_image("(lambda lambda{1} lambda{1})", made=1, scopes=1,
                       bindings=[("lambda", [1], 4)])
sample(10, "expanded", "expand", syntax_image("(lambda lambda lambda)"), 0, 8, result=LAMBDAS)
sample(10, "parsed", "parse", LAMBDAS, 0, 6, result=tree_image("[4 $4]", made=1, scopes=1))
sample(11, "the x of the template is not the x of the use", "expand",
       syntax_image("(let-syntax m (lambda z (syntax x)) (lambda x (m)))"), 7, 47)
# Scopes: 1 of the outer x, 2 of m, 3 of z (phase 1), 4 of the inner x, 5 use, 6 introduction.
TWELVE = dict(words=["x", "m", "z"], made=4, scopes=6)
TWELVE_EXPANDED = syntax_image(
    "(lambda x{1} (lambda{1,2} x{1,2,4} x{1}){1,2}){}",
    bindings=[("x", [1], 7), ("m", [1, 2], 8), ("z", [3], 9), ("x", [1, 2, 4], 10)], **TWELVE)
sample(12, "expanded", "expand",
       syntax_image("(lambda x (let-syntax m (lambda z (syntax x)) (lambda x (m))))",
                    words=["x", "m", "z"]),
       0, 66, result=TWELVE_EXPANDED)
sample(12, "parsed", "parse", TWELVE_EXPANDED, 0, 7 + 3, result=tree_image("[7 [10 $7]]", **TWELVE))
THIRTEEN = tree_image("([4 $4] 9)", made=1)
sample(13, "nine", "evaluate", THIRTEEN, 0, 9, result=tree_image("9", made=1), budget=9)
sample(13, "one unit short", "evaluate", THIRTEEN, 19, 8, budget=8)


def nested(times, inner="1", opening="(", closing=")"):
    return opening * times + inner + closing * times


sample(14, "256 scopes are read", "resolve", syntax_image("x", scopes=256), 0, 1, 4)
sample(14, "257 scopes are not", "resolve", syntax_image("x", scopes=257), 2, 0)
sample(14, "nesting 64 is read", "resolve", syntax_image(nested(63)), 8, 64)
sample(14, "nesting 65 is not", "resolve", syntax_image(nested(64)), 2, 0)
case("wrong turn: the candidate with the most scopes", "resolve",
     syntax_image("x{1,2,3}", words=["x", "y"], made=2, scopes=3,
                  bindings=[("x", [1, 2], 6), ("x", [3], 7)]), 6, 1, rivals=(1, 2))

# ==== budget, table, phase: 5, then 12, then the image ====

ONE = syntax_image("1")
case("budget 4,096 is the largest", "expand", ONE, 0, 2, result=ONE, budget=4096)
for job in ("resolve", "expand", "parse", "evaluate"):
    case(f"{job}: budget 4,097 with a table for it", job, ONE, 5, 0, budget=4097, table=163880)
    case(f"{job}: one table word short", job, ONE, 5, 0, budget=1024, table=40959)
    case(f"{job}: 5 before everything else", job, b"", 5, 0, budget=1, table=39, phase=9)
    case(f"{job}: an empty image breaks the layout", job, b"", 1, 0)
    case(f"{job}: an empty image with no budget at all", job, b"", 1, 0, budget=0, table=0)
    case(f"{job}: the largest budget there is", job, ONE, 5, 0, budget=4294967295, table=170000)
# 40 times this budget is 4,294,967,320, which is 24 where only 32 bits are kept.
case("a budget whose table words are more than 32 bits hold", "expand", ONE, 5, 0,
     budget=107374183, table=170000)
case("a budget of 1 with 40 table words", "resolve", syntax_image("x"), 0, 1, 4, budget=1, table=40)
case("a budget of 1 with 39 table words", "resolve", syntax_image("x"), 5, 0, budget=1, table=39)
case("16 table words a unit were enough once", "expand", ONE, 5, 0, budget=1024, table=16384)
case("budget 4,096 with 163,840 table words", "expand", ONE, 0, 2, result=ONE, budget=4096,
     table=163840)
case("budget 4,096 with 163,839 table words", "expand", ONE, 5, 0, budget=4096, table=163839)
case("the program's budget and table", "expand", IDENTITY, 0, 8, result=IDENTITY_EXPANDED,
     budget=400, table=16000)
case("the program's budget, one table word short", "expand", IDENTITY, 5, 0, budget=400,
     table=15999)
case("a table larger than needed", "resolve", syntax_image("x"), 0, 1, 4, budget=1, table=170000)
case("a table larger than needed, no budget", "resolve", syntax_image("x"), 19, 0, budget=0,
     table=40)
for job in ("resolve", "expand"):
    case(f"{job}: phase 3", job, ONE, 12, 0, phase=3)
    case(f"{job}: the largest phase there is", job, ONE, 12, 0, phase=4294967295)
    case(f"{job}: 12 before the image", job, b"", 12, 0, phase=3)
    case(f"{job}: 12 before a long image", job, bytes(65537), 12, 0, phase=3)
    case(f"{job}: 12 with no budget", job, ONE, 12, 0, phase=3, budget=0)
case("resolve: phase 2 is the last", "resolve", syntax_image("x{||1}", made=1, scopes=1,
     bindings=[("x", [1], 5)]), 0, 1, 5, phase=2)
case("expand: phase 2 is the last", "expand", ONE, 0, 2, result=ONE, phase=2)
case("parse takes no phase", "parse", ONE, 0, 2, result=tree_image("1"), phase=7)
case("evaluate takes no phase", "evaluate", tree_image("1"), 0, 2, result=tree_image("1"), phase=7)

# ==== kinds and numbers ====

for job in ("resolve", "expand", "parse"):
    case(f"{job}: kind 2 is not its kind", job, tree_image("1"), 4, 0)
    case(f"{job}: kind 2 and no more", job, b"\x02", 4, 0)
case("evaluate: kind 1 is not its kind", "evaluate", ONE, 4, 0)
case("evaluate: kind 1 and no more", "evaluate", b"\x01", 4, 0)
case("kind 0", "expand", b"\0", 1, 0)
case("kind 3", "expand", b"\3", 1, 0)
case("kind 1 and no more", "expand", b"\1", 1, 0)
case("kind 2 not in its shortest form is 1, not 4", "expand", b"\x82\0", 1, 0)
case("kind: a fifth byte of 16 comes before 4 or 1", "expand", b"\x82\x80\x80\x80\x10", 2, 0)
case("kind: a fifth byte of 15 is read, and unknown", "expand", b"\x82\x80\x80\x80\x0f", 1, 0)
case("kind: a number that does not end", "expand", b"\x81", 1, 0)
case("kind: four bytes that do not end", "expand", b"\x81\x80\x80\x80", 1, 0)


def atom_image(tag, content):
    """A syntax image whose root is one atom with the bytes of its content given."""
    return syntax_image(number(tag) + sets([]) + content)


for content, value in ((b"\x7f", 127), (b"\x80\x01", 128), (b"\xff\x7f", 16383),
                       (b"\x80\x80\x01", 16384), (b"\xff\xff\x7f", 2097151),
                       (b"\x80\x80\x80\x01", 2097152), (b"\xff\xff\xff\x7f", 268435455),
                       (b"\x80\x80\x80\x80\x01", 268435456), (b"\xff\xff\xff\xff\x0f", 4294967295)):
    case(f"the number {value}", "parse", atom_image(1, content), 0, 2,
         result=tree_image(b"\3\1" + content))
case("a number whose fifth byte is 16", "parse", atom_image(1, b"\xff\xff\xff\xff\x10"), 2, 0)
case("a number whose fifth byte goes on", "parse", atom_image(1, b"\xff\xff\xff\xff\x8f\0"), 2, 0)
case("a number whose fifth byte is 128", "parse", atom_image(1, b"\x80\x80\x80\x80\x80"), 2, 0)
for length in range(1, 5):
    case(f"zero in {length + 1} bytes", "parse", atom_image(1, b"\x80" * length + b"\0"), 1, 0)
    case(f"a number cut after {length} bytes", "parse", atom_image(1, b"\x80" * length), 1, 0)
case("a number with a byte over its limit and a cut after it", "parse",
     atom_image(1, b"\xff\xff\xff\xff\xff"), 2, 0)

# ==== words ====


def one_word(word, root="1"):
    word = word if isinstance(word, bytes) else word.encode()
    reader = syntax_image(root)[5:]
    return b"\1\1" + number(len(word)) + word + b"\0\0\0" + reader


def word_case(reason, word, good):
    image = one_word(word)
    if good:
        case(reason, "expand", image, 0, 2, result=image)
    else:
        case(reason, "expand", image, 1, 0)


word_case("a word of 32 bytes", "a" * 32, True)
case("a word of 33 bytes", "expand", one_word("a" * 33), 2, 0)
case("a word of 33 bytes is judged at its length", "expand", b"\1\1\x21", 2, 0)
case("a word of no bytes", "expand", one_word(""), 1, 0)
case("a word of no bytes comes before a fault after it", "expand", b"\1\1\0\x80\x80\x80\x80\x10", 1, 0)
case("a word cut off", "expand", b"\1\1\3ab", 1, 0)
case("a word length not in its shortest form", "expand", b"\1\1\x81\0a", 1, 0)
for byte in (32, 127, 128, 255, 0, 10):
    word_case(f"byte {byte} in a word", bytes([97, byte]), False)
for byte in (33, 126, ord("0"), ord("9"), ord("@"), ord('"'), ord("*"), ord(":"), ord("$")):
    word_case(f"byte {byte} inside a word", bytes([97, byte]), True)
for char in "();'#":
    word_case(f"{char} first in a word", char, False)
    word_case(f"{char} inside a word", "a" + char, False)
for char in "0123456789@":
    word_case(f"{char} first in a word", char + "a", False)
for char in "!~/:?A\"$%&*+,-.<=>[]^_`{|}":
    word_case(f"{char} first in a word", char, True)
for word in ("lambda", "let-syntax", "quote", "syntax"):
    word_case(f"the core word {word}", word, False)
    word_case(f"nearly the core word {word}", word + "s", True)
    word_case(f"the beginning of {word}", word[:-1], True)
    word_case(f"{word} with a capital", word.capitalize(), True)
case("two words the same", "expand", head(1, ["x", "y", "x"], 0, 0) + b"\0" + b"\1\0\0\0\1", 1, 0)
case("words that begin the same", "expand", head(1, ["x", "xx", "y"], 0, 0) + b"\0\1\0\0\0\1", 0, 2,
     result=head(1, ["x", "xx", "y"], 0, 0) + b"\0\1\0\0\0\1")
case("a bad word comes before a bad length after it", "expand", b"\1\2\1(\x21", 1, 0)
case("a doubled word comes before a bad length after it", "expand", b"\1\3\1x\1x\x21", 1, 0)

# ==== counts ====

MANY = ["w%04d" % i for i in range(1020)]
ROOT = b"\1\0\0\0\1"


def counted(words, made, scopes, after=b"\0" + ROOT):
    return head(1, MANY[:words], made, scopes) + after


case("1,020 words", "resolve", counted(1020, 0, 0), 8, 1)
case("1,021 words are judged at their count", "resolve", b"\1" + number(1021), 2, 0)
case("1,020 words, and then the image ends", "resolve", b"\1" + number(1020), 1, 0)
case("1,020 words and a made name", "resolve", counted(1020, 1, 0), 2, 0)
case("1,020 made names", "resolve", counted(0, 1020, 0), 8, 1)
case("1,021 made names are judged at their count", "resolve", b"\1\0" + number(1021), 2, 0)
case("words and made names fill the names", "resolve", counted(100, 920, 0), 8, 1)
case("words and made names, one too many", "resolve", counted(100, 921, 0), 2, 0)
case("a very large count of made names", "resolve", counted(3, 4294967295, 0), 2, 0)
case("the last of 1,020 words is symbol 1,023", "resolve",
     counted(1020, 0, 0, b"\0" + b"\0\0\0\0" + b"\xff\x07"), 0, 1, 1023)
case("symbol 1,024 is undeclared", "resolve",
     counted(1020, 0, 0, b"\0" + b"\0\0\0\0" + b"\x80\x08"), 1, 0)
# 64 was the most once; from 128 on the count takes two groups.
for scopes, bytes_ in ((64, b"\x40"), (65, b"\x41"), (127, b"\x7f"), (128, b"\x80\1"),
                       (129, b"\x81\1"), (255, b"\xff\1"), (256, b"\x80\2")):
    case(f"{scopes} scopes", "resolve", b"\1\0\0" + bytes_ + b"\0" + ROOT, 8, 1)
    case(f"evaluate: {scopes} scopes", "evaluate", b"\2\0\0" + bytes_ + b"\3\1\1", 0, 2,
         result=b"\2\0\0" + bytes_ + b"\3\1\1")
case("257 scopes are judged at their count", "resolve", b"\1\0\0\x81\2", 2, 0)
case("evaluate: 257 scopes", "evaluate", b"\2\0\0\x81\2", 2, 0)
case("256 scopes, not in the shortest form", "resolve", b"\1\0\0\x80\x82\0", 1, 0)
case("evaluate: 1,025 names", "evaluate", b"\2\0" + number(1021), 2, 0)
# What was over the limit once is read.
case("509 words", "resolve", counted(509, 0, 0), 8, 1)
case("509 made names", "resolve", counted(0, 509, 0), 8, 1)

# 32 sets of one scope and 496 of two.
PAIRS = sorted([[a] for a in range(1, 33)] + [[a, b] for a in range(1, 33) for b in range(a + 1, 33)])


def many_bindings(count, **named):
    return dict(scopes=32, bindings=[("x", s, 4) for s in PAIRS[:count]], **named)


case("129 bindings, once one too many", "resolve", syntax_image("x{1}", **many_bindings(129)), 0, 1, 4)
case("512 bindings", "resolve", syntax_image("x{1}", **many_bindings(512)), 0, 1, 4)
case("513 bindings", "resolve", syntax_image("x{1}", **many_bindings(513)), 2, 0)
case("513 bindings are judged at their count", "resolve", b"\1\0\0\0" + number(513), 2, 0)
case("512 bindings, and then the image ends", "resolve", b"\1\0\0\0" + number(512), 1, 0)

# ==== sets and bindings ====


def with_set(bytes_, scopes=2):
    return head(1, ["x"], 1, scopes) + b"\0\0" + bytes_ + b"\0\0\4"


case("a set of all scopes", "resolve", with_set(b"\2\1\2"), 0, 1, 4)
for reason, bytes_ in (("scope 0", b"\1\0"), ("an undeclared scope", b"\1\3"),
                       ("scopes that fall", b"\2\2\1"), ("a scope twice", b"\2\1\1"),
                       ("a count longer than the set", b"\3\1\2"),
                       ("a very large count", b"\xff\xff\xff\xff\x0f\1\2")):
    case(f"set: {reason}", "resolve", with_set(bytes_), 1, 0)
case("set: the first fault decides, a fifth byte of 16", "resolve",
     with_set(b"\4\1\x80\x80\x80\x80\x10"), 2, 0)
case("set: a falling scope before a fifth byte of 16", "resolve",
     with_set(b"\4\2\1\x80\x80\x80\x80\x10"), 1, 0)
case("set: scope 64", "resolve", with_set(b"\1\x40", 64), 0, 1, 4)
case("set: all 64 scopes", "resolve", with_set(b"\x40" + bytes(range(1, 65)), 64), 0, 1, 4)
for scope, bytes_ in ((65, b"\x41"), (127, b"\x7f"), (128, b"\x80\1"), (129, b"\x81\1"),
                      (192, b"\xc0\1"), (193, b"\xc1\1"), (255, b"\xff\1"), (256, b"\x80\2")):
    case(f"set: scope {scope}, the last one", "resolve", with_set(b"\1" + bytes_, scope), 0, 1, 4)
    case(f"set: scope {scope} with one fewer declared", "resolve",
         with_set(b"\1" + bytes_, scope - 1), 1, 0)
case("set: scope 257 is undeclared: 1, not 2", "resolve", with_set(b"\1\x81\2", 256), 1, 0)
case("set: scope 512 is undeclared", "resolve", with_set(b"\1\x80\4", 256), 1, 0)
case("set: scope 127 not in its shortest form", "resolve", with_set(b"\1\xff\0", 256), 1, 0)
case("set: scope 128 cut after its first group", "resolve",
     head(1, ["x"], 1, 256) + b"\0\0\1\x80", 1, 0)
case("set: all 256 scopes", "resolve", with_set(b"\x80\2" + b"".join(map(number, range(1, 257))), 256),
     0, 1, 4)
case("set: 257 scopes of 256", "resolve",
     with_set(b"\x81\2" + b"".join(map(number, range(1, 258))), 256), 1, 0)
for one, other in ((65, 64), (65, 1), (128, 127), (129, 128), (129, 1), (193, 192), (193, 129),
                   (256, 255), (256, 1)):
    case(f"set: {one}, then {other}", "resolve",
         with_set(b"\2" + number(one) + number(other), 256), 1, 0)
    case(f"set: {other}, then {one}", "resolve",
         with_set(b"\2" + number(other) + number(one), 256), 0, 1, 4)
for scope in (64, 65, 128, 129, 192, 193, 256):
    case(f"set: scope {scope} twice", "resolve", with_set(b"\2" + number(scope) * 2, 256), 1, 0)


def bound(rows, root="x", made=3, scopes=3, words=("x", "y")):
    """rows are (symbol, target, scopes), left in the order given."""
    body = b"".join(number(s) + number(t) + scope_set(z) for s, t, z in rows)
    root = syntax_image(root, words=words, scopes=scopes)
    return head(1, list(words), made, scopes) + number(len(rows)) + body + \
        root[len(head(1, list(words), 0, scopes)) + 1:]


case("bindings ascend by symbol, then by set, a prefix first", "resolve",
     bound([(0, 6, [3]), (4, 6, []), (4, 6, [1]), (4, 6, [1, 2]), (4, 6, [1, 2, 3]), (4, 6, [1, 3]),
            (4, 7, [2]), (4, 6, [2, 3]), (4, 6, [3]), (5, 6, [])], "x{2}"), 0, 1, 7)
for reason, rows in (("symbols that fall", [(5, 6, []), (4, 6, [])]),
                     ("a binding twice", [(4, 6, [1]), (4, 6, [1])]),
                     ("a binding twice with another target", [(4, 6, [1]), (4, 7, [1])]),
                     ("the empty set after another", [(4, 6, [1]), (4, 6, [])]),
                     ("a longer set before its prefix", [(4, 6, [1, 2]), (4, 6, [1])]),
                     ("{2} before {1,3}", [(4, 6, [2]), (4, 6, [1, 3])]),
                     ("{1,3} before {1,2,3}", [(4, 6, [1, 3]), (4, 6, [1, 2, 3])]),
                     ("an undeclared symbol", [(6, 6, [])]),
                     ("a made name as symbol", [(7, 6, [])]),
                     ("an undeclared target", [(4, 9, [])]),
                     ("an undeclared scope", [(4, 6, [4])])):
    case(f"bindings: {reason}", "resolve", bound(rows), 1, 0)
# A set is four words: scopes 1 to 64, 65 to 128, 129 to 192 and 193 to 256. The order knows nothing of
# that: each of these sets comes before the next, whichever word they differ in or end in.
ASCENDING = [[], [1], [1, 64], [1, 64, 65], [1, 64, 256], [1, 65], [1, 128], [1, 129], [1, 193],
             [2, 193], [2, 194], [64], [64, 65], [64, 65, 129], [64, 65, 193], [64, 128], [64, 129],
             [64, 193], [65], [65, 128], [65, 128, 256], [65, 129], [65, 192], [65, 193], [66, 193],
             [128], [128, 129], [129], [129, 192], [129, 192, 193], [129, 193], [129, 256], [130, 256],
             [192], [192, 193], [193], [193, 194], [193, 256], [194], [256]]
assert all(a < b for a, b in zip(ASCENDING, ASCENDING[1:]))
FOUR_WORDS = [(4, 6 + (z in ([129, 192], [64, 65, 129])), z) for z in ASCENDING]
case("bindings: sets ascend over all four words", "resolve",
     bound(FOUR_WORDS, "x{129,192}", scopes=256), 0, 1, 7)
case("bindings: of eight sets over three words the largest", "resolve",
     bound(FOUR_WORDS, "x{64,65,129}", scopes=256), 0, 1, 7)
case("bindings: {64,65,193} does not contain {194}", "resolve",
     bound(FOUR_WORDS, "x{64,65,193,194}", scopes=256), 6, 1,
     rivals=(1 + ASCENDING.index([64, 65, 193]), 1 + ASCENDING.index([193, 194])))
for before, after in zip(ASCENDING, ASCENDING[1:]):
    case(f"bindings: {before}, then {after}", "resolve",
         bound([(4, 6, before), (4, 6, after)], "y", scopes=256), 0, 1, 5)
    case(f"bindings: {after}, then {before}", "resolve",
         bound([(4, 6, after), (4, 6, before)], "y", scopes=256), 1, 0)
for scope in (64, 65, 128, 129, 192, 193, 256):
    case(f"bindings: {[scope]} twice", "resolve",
         bound([(4, 6, [scope]), (4, 7, [scope])], "y", scopes=256), 1, 0)
case("bindings: scope 256 is undeclared", "resolve", bound([(4, 6, [256])], scopes=255), 1, 0)
case("bindings: the last name as target", "resolve", bound([(4, 8, [])]), 0, 1, 8)
case("bindings: name 1,023 as target", "resolve", bound([(4, 1023, [])], made=1018), 0, 1, 1023)
case("bindings: name 1,024 as target", "resolve", bound([(4, 1024, [])], made=1018), 1, 0)
case("bindings: a core name as target", "resolve", bound([(4, 3, [])]), 0, 1, 3)
case("bindings: order waits until the binding is whole", "resolve",
     head(1, ["x", "y"], 3, 3) + b"\2\5\6\0\4\x80\x80\x80\x80\x10", 2, 0)
case("bindings: an undeclared symbol does not wait", "resolve",
     head(1, ["x", "y"], 3, 3) + b"\1\x06\x80\x80\x80\x80\x10", 1, 0)
case("bindings: an undeclared target does not wait", "resolve",
     head(1, ["x", "y"], 3, 3) + b"\1\4\x09\x80\x80\x80\x80\x10", 1, 0)

# ==== objects ====

for reason, image in (("tag 6", atom_image(6, b"\0")),
                      ("a tag is judged before the sets", syntax_image(b"\6\x80\x80\x80\x80\x10")),
                      ("no sets", syntax_image(b"\0")), ("no content", syntax_image(b"\0\0\0\0")),
                      ("an undeclared symbol", atom_image(0, b"\4")),
                      ("a byte after the root", ONE + b"\0"),
                      ("a list longer than the image", syntax_image(b"\5\0\0\0\2" + ROOT)),
                      ("a list of very many", syntax_image(b"\5\0\0\0\xff\xff\xff\xff\x0f" + ROOT)),
                      ("no root", syntax_image(b""))):
    case(f"object: {reason}", "parse", image, 1, 0)
case("object: the last core symbol", "resolve", atom_image(0, b"\3"), 0, 1, 3)
case("object: a made name is no symbol", "resolve", head(1, [], 1, 0) + b"\0\0\0\0\0\4", 1, 0)
for reason, tag, largest in (("point", 2, 1023), ("primitive", 3, 9), ("rung word", 4, 15)):
    case(f"object: {reason} {largest}", "parse", atom_image(tag, number(largest)), 0, 2,
         result=tree_image(b"\3" + number(tag) + number(largest)))
    case(f"object: {reason} {largest + 1}", "parse", atom_image(tag, number(largest + 1)), 2, 0)
    case(f"tree: {reason} {largest}", "evaluate",
         tree_image(b"\3" + number(tag) + number(largest)), 0, 2,
         result=tree_image(b"\3" + number(tag) + number(largest)))
    case(f"tree: {reason} {largest + 1}", "evaluate",
         tree_image(b"\3" + number(tag) + number(largest + 1)), 2, 0)
for primitive in (6, 7, 8):  # 6 was the last once
    case(f"object: primitive {primitive}", "parse", atom_image(3, number(primitive)), 0, 2,
         result=tree_image(b"\3\3" + number(primitive)))
    case(f"tree: primitive {primitive}", "evaluate", tree_image(b"\3\3" + number(primitive)), 0, 2,
         result=tree_image(b"\3\3" + number(primitive)))
case("level 64 may hold an empty list", "resolve", syntax_image(nested(63, "()")), 8, 64)
LISTS = b"\5\0\0\0\1"
case("level 65 where the image ends", "resolve", syntax_image(LISTS * 64), 2, 0)
case("level 65 comes before an unknown tag", "resolve", syntax_image(LISTS * 64 + b"\x09"), 2, 0)
case("level 64 with an unknown tag", "resolve", syntax_image(LISTS * 63 + b"\x09"), 1, 0)
case("level 64 where the image ends", "resolve", syntax_image(LISTS * 63), 1, 0)
case("level 65 comes before a tag with a fifth byte of 16", "resolve",
     syntax_image(LISTS * 64 + b"\x80\x80\x80\x80\x10"), 2, 0)

# ==== trees ====

for reason, root in (("tag 6", b"\6"), ("an application of nothing", b"\1\0"),
                     ("an application of nothing, judged at once", b"\1\0\x80\x80\x80\x80\x10"),
                     ("an atom of tag 5", b"\3\5\0"), ("an undeclared name", b"\0\5"),
                     ("a function with an undeclared name", b"\2\5\0\4"),
                     ("a function with an undeclared name, judged at once",
                      b"\2\5\x80\x80\x80\x80\x10"),
                     ("a variable in a list value", b"\2\4\4\1\0\4"),
                     ("an application in a list value", b"\4\1\1\1\3\1\1"),
                     ("an application in a list value, judged at its tag",
                      b"\4\1\1\x80\x80\x80\x80\x10"),
                     ("a symbol that is a made name", b"\3\0\4"),
                     ("a byte after the root", b"\3\1\1\0"),
                     ("a syntax value with an unknown tag", b"\5\6"),
                     ("a function with no body", b"\2\4"), ("no root", b"")):
    case(f"tree: {reason}", "evaluate", tree_image(root, made=1), 1, 0)
case("tree: a function in a list value may hold a variable", "evaluate",
     tree_image("<[4 $4]>", made=1), 0, 4, result=tree_image("<[4 $4]>", made=1))
case("tree: names 0 to 3 are names like any other", "evaluate", tree_image("([0 $0] 9)"), 0, 9,
     result=tree_image("9"))
case("tree: the last name", "evaluate", tree_image("[1023 $1023]", made=1020), 0, 3,
     result=tree_image("[1023 $1023]", made=1020))
case("tree: name 1,024 is undeclared", "evaluate", tree_image("[1024 $1024]", made=1020), 1, 0)
case("tree: name 1,023 with one fewer declared", "evaluate", tree_image("[1023 $1023]", made=1019), 1, 0)
for reason, opening, closing in (("list values", "<", ">"), ("functions", "[0 ", "]")):
    case(f"tree: 64 levels of {reason}", "evaluate", tree_image(nested(63, "1", opening, closing)),
         0, 65, result=tree_image(nested(63, "1", opening, closing)))
    case(f"tree: 65 levels of {reason}", "evaluate", tree_image(nested(64, "1", opening, closing)),
         2, 0)
case("tree: 64 levels of applications, the innermost applied to nothing", "evaluate",
     tree_image(nested(63)), 10, 64 + 64)
case("tree: 65 levels of applications", "evaluate", tree_image(nested(64)), 2, 0)
case("tree: level 65 where the image ends", "evaluate", tree_image(b"\4\1" * 64), 2, 0)
case("tree: level 65 comes before an unknown tag", "evaluate", tree_image(b"\4\1" * 64 + b"\7"), 2, 0)
case("tree: level 65 comes before a part that is no value", "evaluate",
     tree_image(b"\4\1" * 64 + b"\0\0"), 2, 0)
case("tree: at level 64 a function's name is judged before its body's level", "evaluate",
     tree_image(b"\2\0" * 63 + b"\2\4"), 1, 0)
case("tree: at level 64 an application of nothing", "evaluate", tree_image(b"\2\0" * 63 + b"\1\0"), 1, 0)
case("tree: at level 64 an application of one", "evaluate", tree_image(b"\2\0" * 63 + b"\1\1"), 2, 0)
case("tree: a syntax value's object stands at its level", "evaluate",
     tree_image(nested(63, "`1", "<", ">")), 0, 65, result=tree_image(nested(63, "`1", "<", ">")))
case("tree: a syntax value at level 64 with a part", "evaluate",
     tree_image(nested(63, "`(1)", "<", ">")), 2, 0)
case("tree: a syntax value at level 63 with a part", "evaluate",
     tree_image(nested(62, "`(1)", "<", ">")), 0, 65,
     result=tree_image(nested(62, "`(1)", "<", ">")))
case("tree: a syntax value of 64 levels", "evaluate", tree_image("`" + nested(63)), 0, 65,
     result=tree_image("`" + nested(63)))
case("tree: a syntax value of 65 levels", "evaluate", tree_image("`" + nested(64)), 2, 0)

# ==== code 3 ====

case("3: a free variable", "evaluate", tree_image("$0"), 3, 0)
case("3: the function has another name", "evaluate", tree_image("[0 $1]"), 3, 0)
case("3: beside the function, not inside", "evaluate", tree_image("([0 $0] $0)"), 3, 0)
case("3: deep in a list value", "evaluate", tree_image("<1 <[0 [1 $2]]>>"), 3, 0)
case("3: an outer function will do", "evaluate", tree_image("[0 [1 ($0 $1)]]"), 0, 6,
     result=tree_image("[0 [1 ($0 $1)]]"))
case("3: not in syntax values", "evaluate", tree_image("`x"), 0, 2, result=tree_image("`x"))
case("3: before the charge for loading", "evaluate", tree_image("$0"), 3, 0, budget=0)
case("3: after the layout", "evaluate", tree_image("$0") + b"\0", 1, 0)
case("3: a variable that would never be met", "evaluate", tree_image("(#pick 1 2 [0 $1])"), 3, 0)

# ==== loading ====

case("loading is the first charge", "expand", syntax_image("(1 (2 ()) x)"), 19, 0, budget=5)
steps("resolve pays for loading only", "resolve", syntax_image("x"), [1], name=4)
steps("resolve: no identifier is 8 after the charge", "resolve", syntax_image("(1 2)"), [3], 8)
steps("resolve: a number is no identifier", "resolve", syntax_image("1"), [1], 8)
steps("resolve: 6 after the charge", "resolve",
      syntax_image("x{1,2}", scopes=2, bindings=[("x", [1], 4), ("x", [2], 4)]), [1], 6, rivals=(1, 2))
steps("loading counts a syntax value as its object", "evaluate",
      tree_image("<`(1 (2 3)) 4>"), [7, 1], result=tree_image("<`(1 (2 3)) 4>"))
steps("loading counts every part of a tree", "evaluate", tree_image("[0 (<1 [1 $0]> $0)]"),
      [7, 1], result=tree_image("[0 (<1 [1 $0]> $0)]"))
case("a root of size 4,097 is never loaded", "resolve",
     syntax_image("(" + " ".join(["1"] * 4096) + ")"), 19, 0, budget=4096)
case("a root of size 4,096 is loaded", "resolve",
     syntax_image("(" + " ".join(["1"] * 4095) + ")"), 8, 4096, budget=4096)

# ==== resolving ====

def resolving(reason, text, rows, code, name=0, phase=0, scopes=4, rivals=(0, 0)):
    case(f"resolve: {reason}", "resolve",
         syntax_image(text, words=["x", "y"], made=6, scopes=scopes, bindings=rows), code, 1, name,
         phase=phase, rivals=rivals)


resolving("another symbol's binding is no candidate", "x{1}", [("y", [1], 6)], 0, 4)
resolving("the empty set is always contained", "x", [("x", [], 6)], 0, 6)
resolving("the sets may be equal", "x{1,2}", [("x", [1, 2], 6)], 0, 6)
resolving("a set that is larger is no candidate", "x{1,2}", [("x", [1, 2, 3], 6), ("x", [1], 7)], 0, 7)
resolving("a chain of candidates", "x{1,2,3}",
          [("x", [], 6), ("x", [1], 7), ("x", [1, 2], 8), ("x", [1, 2, 3], 9)], 0, 9)
resolving("two pairs that share a scope", "x{1,2,3}", [("x", [1, 2], 6), ("x", [2, 3], 7)], 6,
          rivals=(1, 2))
resolving("the union of two pairs settles it", "x{1,2,3}",
          [("x", [1, 2], 6), ("x", [2, 3], 7), ("x", [1, 2, 3], 8)], 0, 8)
resolving("larger than the union is no candidate", "x{1,2,3}",
          [("x", [1, 2], 6), ("x", [1, 2, 3, 4], 8), ("x", [2, 3], 7)], 6, rivals=(1, 3))
resolving("three that meet nowhere", "x{1,2,3}", [("x", [1], 6), ("x", [2], 7), ("x", [3], 8)], 6,
          rivals=(1, 2))
resolving("one contains another, the third neither", "x{1,2,3}",
          [("x", [1], 6), ("x", [1, 2], 7), ("x", [3], 8)], 6, rivals=(2, 3))
resolving("the same target does not help", "x{1,2}", [("x", [1], 6), ("x", [2], 6)], 6, rivals=(1, 2))
resolving("a core symbol may be bound", "lambda{1}", [("lambda", [1], 6)], 0, 6)
resolving("a core symbol not bound here", "lambda", [("lambda", [1], 6)], 0, 0)
resolving("only the phase's own set counts", "x{1|2|3}", [("x", [1], 6), ("x", [2], 7), ("x", [3], 8)],
          0, 7, phase=1)
resolving("only the phase's own set counts", "x{1|2|3}", [("x", [1], 6), ("x", [2], 7), ("x", [3], 8)],
          0, 8, phase=2)

# Candidates whose sets differ in the second, third or fourth word.
for h in (65, 128, 129, 192, 193, 256):
    resolving(f"with scope {h}: the larger set wins", f"x{{1,{h}}}", [("x", [1], 6), ("x", [1, h], 7)],
              0, 7, scopes=256)
    resolving(f"with scope {h}: neither contains the other", f"x{{1,{h}}}",
              [("x", [1], 6), ("x", [h], 7)], 6, scopes=256, rivals=(1, 2))
    resolving(f"with scope {h}: one contains both", f"x{{1,{h}}}",
              [("x", [1], 6), ("x", [1, h], 8), ("x", [h], 7)], 0, 8, scopes=256)
    resolving(f"with scope {h}: it is not in the identifier's set", "x{1}",
              [("x", [1], 6), ("x", [1, h], 7)], 0, 6, scopes=256)
    resolving(f"with scope {h}: the only binding is no candidate", "x{1,64}", [("x", [h], 6)], 0, 4,
              scopes=256)
    resolving(f"with scope {h}: at phase 2", f"x{{1||{h}}}", [("x", [1], 6), ("x", [h], 7)], 0, 7,
              phase=2, scopes=256)
# 1, 65, 129 and 193 stand in the same place, each of another word.
for one in (1, 65, 129, 193):
    others = [[s] for s in (1, 65, 129, 193) if s != one]
    resolving(f"scope {one} is none of {others}", f"x{{{one}}}", [("x", s, 6) for s in others], 0, 4,
              scopes=256)
    resolving(f"scope {one} is found among four", f"x{{{one}}}",
              [("x", [s], 6 + (s == one)) for s in (1, 65, 129, 193)], 0, 7, scopes=256)
    resolving(f"all four but scope {one}", "x{1,65,129,193}",
              [("x", [one], 6), ("x", sum(others, []), 7)], 6, scopes=256, rivals=(1, 2))
resolving("four scopes, a word for each", "x{1,65,129,193}",
          [("x", [1], 6), ("x", [1, 65], 7), ("x", [1, 65, 129], 8), ("x", [1, 65, 129, 193], 9)],
          0, 9, scopes=256)
resolving("two sets, each over two words", "x{64,65,192,193}",
          [("x", [64, 65], 6), ("x", [192, 193], 7)], 6, scopes=256, rivals=(1, 2))
resolving("their union over all four words settles it", "x{64,65,192,193}",
          [("x", [64, 65], 6), ("x", [64, 65, 192, 193], 8), ("x", [192, 193], 7)], 0, 8, scopes=256)
resolving("the most scopes do not win over a word's end", "x{64,65,66,256}",
          [("x", [64, 65, 66], 6), ("x", [256], 7)], 6, scopes=256, rivals=(1, 2))
EVERY = list(range(1, 257))
EVERY_SCOPE = "{" + ",".join(map(str, EVERY)) + "}"
resolving("all 256 scopes", "x" + EVERY_SCOPE, [("x", EVERY[:-1], 6), ("x", EVERY, 7)], 0, 7,
          scopes=256)
resolving("all but one on each side", "x" + EVERY_SCOPE,
          [("x", EVERY[:-1], 6), ("x", EVERY[1:], 7)], 6, scopes=256, rivals=(1, 2))

# ==== expanding: identifiers, atoms, applications ====

steps("expand: a number stays", "expand", ONE, [1, 1], result=ONE)
for text in ("@1023", "#6", "#9", "'15", "4294967295"):
    case(f"expand: {text} stays", "expand", syntax_image(text + "{1|1|1}", scopes=1), 0, 2,
         result=syntax_image(text + "{1|1|1}", scopes=1))
steps("expand: an identifier without meaning", "expand", syntax_image("x"), [1, 1], 7)
steps("expand: an ambiguous identifier", "expand",
      syntax_image("x{1,2}", scopes=2, bindings=[("x", [1], 4), ("x", [2], 4)]), [1, 1], 6,
      rivals=(1, 2))
for word in ("lambda", "let-syntax", "quote", "syntax"):
    steps(f"expand: {word} alone", "expand", syntax_image(word), [1, 1], 8)
case("expand: a word bound to a core form alone", "expand",
     syntax_image("x{1}", scopes=1, bindings=[("x", [1], 2)]), 8, 2)
case("expand: a core word bound to a word has no meaning", "expand",
     syntax_image("lambda{1}", words=["x"], scopes=1, bindings=[("lambda", [1], 4)]), 7, 2)
steps("expand: the empty list", "expand", syntax_image("()"), [1, 1], 8)
steps("expand: 7 comes with the head's own entry", "expand", syntax_image("(x)"), [2, 1, 1], 7)
steps("expand: an ambiguous head", "expand",
      syntax_image("(x{1,2} ())", scopes=2, bindings=[("x", [1], 4), ("x", [2], 4)]), [3, 1], 6,
      rivals=(1, 2))
steps("expand: parts left to right", "expand", syntax_image("(1 () x)"), [4, 1, 1, 1], 8)
steps("expand: parts left to right, the other way", "expand", syntax_image("(1 x ())"),
      [4, 1, 1, 1], 7)
steps("expand: every part of an application", "expand", syntax_image("(1 (2 3){1|2|3} 'and){2}",
      scopes=3), [6, 1, 1, 1, 1, 1, 1], result=syntax_image("(1 (2 3){1|2|3} 'and){2}", scopes=3))
case("expand: the last part is expanded too", "expand",
     syntax_image("(1 (lambda x x))"), 0, 6 + 1 + 1 + 4,
     result=syntax_image("(1 (lambda x{1} x{1}))", made=1, scopes=1, bindings=[("x", [1], 5)]))

# ==== expanding: lambda ====

steps("expand: lambda", "expand", IDENTITY, [4, 1, 1, 1, 1], result=IDENTITY_EXPANDED)
steps("expand: lambda's body is charged whole", "expand", syntax_image("(lambda x (1 (2 x)))"),
      [8, 1, 1, 5, 1, 1, 1, 1, 1], result=syntax_image("(lambda x{1} (1{1} (2{1} x{1}){1}){1})",
      made=1, scopes=1, bindings=[("x", [1], 5)]))
for text in ("(lambda)", "(lambda x)", "(lambda x x x)", "(lambda (x) x)", "(lambda 1 x)",
             "(lambda () x)", "(lambda @1 1)"):
    case(f"expand: the shape {text}", "expand", syntax_image(text), 8)
case("expand: the shape is tested before a name is taken", "expand",
     syntax_image("(lambda x)", made=1019), 8, 4)
FULL = dict(words=["x"], made=1019)
case("expand: no name left", "expand", syntax_image("(lambda x x)", **FULL), 13, 5)
case("expand: one made name more is over the limit", "expand",
     syntax_image("(lambda x x)", words=["x"], made=1020), 2, 0)
case("expand: the last name", "expand", syntax_image("(lambda x x)", words=["x"], made=1018), 0, 8,
     result=syntax_image("(lambda x{1} x{1})", words=["x"], made=1019, scopes=1,
                         bindings=[("x", [1], 1023)]))
case("expand: name 512, once one too many", "expand",
     syntax_image("(lambda x x)", words=["x"], made=507), 0, 8,
     result=syntax_image("(lambda x{1} x{1})", words=["x"], made=508, scopes=1,
                         bindings=[("x", [1], 512)]))
case("expand: no scope left", "expand", syntax_image("(lambda x x)", scopes=256), 14, 5)


def identity_behind(scopes):
    """(lambda x x) expanded in an image that has so many scopes already."""
    fresh = scopes + 1
    return syntax_image(f"(lambda x{{{fresh}}} x{{{fresh}}})", made=1, scopes=fresh,
                        bindings=[("x", [fresh], 5)])


for scopes, fresh in ((126, "7f"), (127, "8001"), (255, "8002")):  # from 128 on two groups
    assert identity_behind(scopes) == bytes.fromhex(
        "0101017801" + fresh + "01040501" + fresh + "0500000003" + "0000000000" +
        "0001" + fresh + "000004" + "0001" + fresh + "000004")
for scopes in (63, 64, 65, 126, 127, 128, 190, 191, 192, 193, 253, 254):
    case(f"expand: {scopes} scopes and a fresh one", "expand",
         syntax_image("(lambda x x)", scopes=scopes), 0, 8, result=identity_behind(scopes))
    case(f"parse: a binder with scope {scopes + 1}", "parse", identity_behind(scopes), 0, 6,
         result=tree_image("[5 $5]", words=["x"], made=1, scopes=scopes + 1))
case("expand: the last scope", "expand", syntax_image("(lambda x x)", scopes=255), 0, 8,
     result=identity_behind(255))
case("parse: a binder with the last scope", "parse", identity_behind(255), 0, 6,
     result=tree_image("[5 $5]", words=["x"], made=1, scopes=256))
case("expand: 257 scopes", "expand", syntax_image("(lambda x x)", scopes=257), 2, 0)
case("expand: a fresh scope of two groups fits just so", "expand",
     syntax_image("(lambda x x)", scopes=127), 0, 8, result=identity_behind(127), output=37)
case("expand: a fresh scope of two groups, one byte short", "expand",
     syntax_image("(lambda x x)", scopes=127), 20, 8, output=36)
case("expand: the same again, where no scope is left", "expand", identity_behind(255), 14, 5)
case("expand: no name comes before no scope", "expand",
     syntax_image("(lambda x x)", scopes=256, **FULL), 13, 5)
case("expand: no name comes before the charge", "expand",
     syntax_image("(lambda x x)", **FULL), 13, 5, budget=5)
case("expand: no scope comes before the charge", "expand",
     syntax_image("(lambda x x)", scopes=256), 14, 5, budget=5)
case("expand: no binding room", "expand", syntax_image("(lambda x x)", **many_bindings(512)), 15, 6)
case("expand: the charge comes before no binding room", "expand",
     syntax_image("(lambda x x)", **many_bindings(512)), 19, 5, budget=5)
case("expand: no scope comes before no binding room", "expand",
     syntax_image("(lambda x x)", words=["x"], scopes=256,
                  bindings=[("x", s, 4) for s in PAIRS[:512]]), 14, 5)
for room, reason in ((127, "the 128th binding"), (128, "the 129th binding, once one too many"),
                     (511, "the last binding room")):
    BEFORE = many_bindings(room)
    case(f"expand: {reason}", "expand", syntax_image("(lambda x x)", **BEFORE), 0, 8,
         result=syntax_image("(lambda x{33} x{33})", made=1, scopes=33,
                             bindings=BEFORE["bindings"] + [("x", [33], 5)]))
case("expand: the new binding is put in order", "expand",
     syntax_image("(lambda x{1,3} x{1,3})", words=["w", "x", "y"], scopes=4,
                  bindings=[("w", [1], 4), ("x", [1], 4), ("x", [1, 4], 4), ("x", [2], 4),
                            ("y", [], 4)]), 0, 8,
     result=syntax_image("(lambda x{1,3,5} x{1,3,5})", words=["w", "x", "y"], made=1, scopes=5,
                         bindings=[("w", [1], 4), ("x", [1], 4), ("x", [1, 3, 5], 7),
                                   ("x", [1, 4], 4), ("x", [2], 4), ("y", [], 4)]))
case("expand: the new binding is put in order, its set over three words", "expand",
     syntax_image("(lambda x{1,129} x{1,129})", words=["x"], scopes=193,
                  bindings=[("x", [1], 4), ("x", [1, 64], 4), ("x", [1, 193], 4), ("x", [2], 4),
                            ("x", [65], 4)]), 0, 8,
     result=syntax_image("(lambda x{1,129,194} x{1,129,194})", words=["x"], made=1, scopes=194,
                         bindings=[("x", [1], 4), ("x", [1, 64], 4), ("x", [1, 129, 194], 5),
                                   ("x", [1, 193], 4), ("x", [2], 4), ("x", [65], 4)]))
case("expand: a word bound to lambda's name is lambda", "expand",
     syntax_image("(x{1} y y)", words=["x", "y"], scopes=1, bindings=[("x", [1], 0)]), 0, 8,
     result=syntax_image("(x{1} y{2} y{2})", words=["x", "y"], made=1, scopes=2,
                         bindings=[("x", [1], 0), ("y", [2], 6)]))
case("expand: lambda bound to a word is no core form", "expand",
     syntax_image("(lambda{1} 1 2)", words=["x"], scopes=1, bindings=[("lambda", [1], 4)]), 7, 6)
case("expand: lambda means what is bound, not what is spelled", "expand",
     syntax_image("(lambda lambda (lambda lambda lambda))"), 0, 17,
     result=syntax_image("(lambda lambda{1} (lambda{1} lambda{1} lambda{1}){1})", made=1, scopes=1,
                         bindings=[("lambda", [1], 4)]))
case("expand: a variable gives its binder, with the binder's sets", "expand",
     syntax_image("(lambda x{|1} x{2|2})", scopes=2), 0, 8,
     result=syntax_image("(lambda x{3|1} x{3|1})", made=1, scopes=3, bindings=[("x", [3], 5)]))
case("expand: scopes go to the phase at hand", "expand", IDENTITY, 0, 8, phase=1,
     result=syntax_image("(lambda x{|1} x{|1})", made=1, scopes=1, bindings=[("x", [1], 5)]))
case("expand: scopes go to the phase at hand", "expand", IDENTITY, 0, 8, phase=2,
     result=syntax_image("(lambda x{||1} x{||1})", made=1, scopes=1, bindings=[("x", [1], 5)]))
for phase, text in ((1, "(lambda x{|193} x{|193})"), (2, "(lambda x{||193} x{||193})")):
    case(f"expand: the first scope of the fourth word goes to phase {phase}", "expand",
         syntax_image("(lambda x x)", scopes=192), 0, 8, phase=phase,
         result=syntax_image(text, made=1, scopes=193, bindings=[("x", [193], 5)]))
case("expand: the inner of two binders", "expand", syntax_image("(lambda x (lambda x x))"), 0,
     7 + 1 + 1 + 4 + 1 + 1 + 1 + 1,
     result=syntax_image("(lambda x{1} (lambda{1} x{1,2} x{1,2}){1})", made=2, scopes=2,
                         bindings=[("x", [1], 5), ("x", [1, 2], 6)]))
case("expand: a variable has no meaning outside its lambda", "expand",
     syntax_image("((lambda x x) x)"), 7, 6 + 1 + 4 + 1)

# A binder is never bound already: the image may bind its symbol and set, but not with the fresh scope
# that the binder gets first (request T-07).
case("expand: what was expanded is expanded again", "expand", IDENTITY_EXPANDED, 0, 8,
     result=syntax_image("(lambda x{1,2} x{1,2})", made=2, scopes=2,
                         bindings=[("x", [1], 5), ("x", [1, 2], 6)]))
case("expand: what was expanded is expanded again, at phase 1", "expand",
     syntax_image("(lambda x{|1} x{|1})", made=1, scopes=1, bindings=[("x", [1], 5)]), 0, 8, phase=1,
     result=syntax_image("(lambda x{|1,2} x{|1,2})", made=2, scopes=2,
                         bindings=[("x", [1], 5), ("x", [1, 2], 6)]))
case("expand: a let-syntax whose word and set are bound in the image", "expand",
     syntax_image("(let-syntax m{1} 1 1)", scopes=1, bindings=[("m", [1], 4)]), 0, 5 + 1 + 1 + 3 + 1 + 1,
     result=syntax_image("1{2}", words=["m"], made=1, scopes=2,
                         bindings=[("m", [1], 4), ("m", [1, 2], 5)]))
SUBSETS = [("x", s, 4) for s in ([], [1], [1, 2], [1, 2, 3], [1, 3], [2], [2, 3], [3])]
case("expand: the image binds the binder's symbol with every set there is", "expand",
     syntax_image("(lambda x{1,2,3} x{1,2,3})", scopes=3, bindings=SUBSETS), 0, 8,
     result=syntax_image("(lambda x{1,2,3,4} x{1,2,3,4})", made=1, scopes=4,
                         bindings=SUBSETS + [("x", [1, 2, 3, 4], 5)]))
ALL_BUT_LAST = "{" + ",".join(map(str, EVERY[:-1])) + "}"
case("expand: the binder has all scopes but the last, and is bound with them", "expand",
     syntax_image(f"(lambda x{ALL_BUT_LAST} x{ALL_BUT_LAST})", scopes=255,
                  bindings=[("x", EVERY[:-1], 4)]), 0, 8,
     result=syntax_image(f"(lambda x{EVERY_SCOPE} x{EVERY_SCOPE})", made=1, scopes=256,
                         bindings=[("x", EVERY[:-1], 4), ("x", EVERY, 5)]))
case("expand: two binders the same, side by side", "expand",
     syntax_image("((lambda x x) (lambda x x))"), 0, 9 + 1 + 4 + 4,
     result=syntax_image("((lambda x{1} x{1}) (lambda x{2} x{2}))", made=2, scopes=2,
                         bindings=[("x", [1], 5), ("x", [2], 6)]))

# ==== expanding: quote and syntax ====

steps("expand: quote stays as it is", "expand", syntax_image("(quote (x{1} () (lambda)))", scopes=1),
      [7, 1], result=syntax_image("(quote (x{1} () (lambda)))", scopes=1))
for text, size in (("(quote)", 2), ("(quote x x)", 4), ("(syntax)", 2), ("(syntax x x)", 4)):
    steps(f"expand: the shape {text}", "expand", syntax_image(text), [size, 1], 8)
steps("expand: syntax is charged, though nothing is prunable", "expand",
      syntax_image("(syntax (x{1} 1))", scopes=1), [5, 1, 3],
      result=syntax_image("(syntax (x{1} 1))", scopes=1))
case("expand: syntax prunes the scope of lambda, and no other", "expand",
     syntax_image("(lambda x (syntax (x{1|1} y){1}))", words=["x", "y"], scopes=1), 0,
     8 + 1 + 1 + 5 + 1 + 3,
     result=syntax_image("(lambda x{2} (syntax{2} (x{1|1} y){1}){2})", words=["x", "y"], made=1,
                         scopes=2, bindings=[("x", [2], 6)]))
case("expand: syntax prunes the scopes of both binders around it", "expand",
     syntax_image("(lambda x (lambda y (syntax (x y))))", words=["x", "y"]), 0,
     11 + 2 + 8 + 2 + 5 + 1 + 3,
     result=syntax_image("(lambda x{1} (lambda{1} y{1,2} (syntax{1,2} (x y)){1,2}){1})",
                         words=["x", "y"], made=2, scopes=2,
                         bindings=[("x", [1], 6), ("y", [1, 2], 7)]))
for x in (64, 128, 192):  # the outer scope ends a word, the inner one begins the next
    both = f"{x},{x + 1}"
    case(f"expand: syntax prunes scopes {x} and {x + 1}", "expand",
         syntax_image("(lambda x (lambda y (syntax (x y))))", words=["x", "y"], scopes=x - 1), 0,
         11 + 2 + 8 + 2 + 5 + 1 + 3,
         result=syntax_image(f"(lambda x{{{x}}} (lambda{{{x}}} y{{{both}}} (syntax{{{both}}} (x y))"
                             f"{{{both}}}){{{x}}})", words=["x", "y"], made=2, scopes=x + 1,
                             bindings=[("x", [x], 6), ("y", [x, x + 1], 7)]))
case("expand: syntax prunes the last scope, and none in another word", "expand",
     syntax_image("(lambda x (syntax x{1,64,65,128,129,192,193,255}))", scopes=255), 0,
     6 + 1 + 1 + 3 + 1 + 1,
     result=syntax_image("(lambda x{256} (syntax{256} x{1,64,65,128,129,192,193,255}){256})", made=1,
                         scopes=256, bindings=[("x", [256], 5)]))
case("expand: a lambda beside it is not prunable", "expand",
     syntax_image("((lambda x x) (syntax x{1}))", scopes=1), 0, 8 + 1 + 4 + 1 + 1,
     result=syntax_image("((lambda x{2} x{2}) (syntax x{1}))", made=1, scopes=2,
                         bindings=[("x", [2], 5)]))

# ==== expanding: let-syntax and macro uses ====

for text in ("(let-syntax)", "(let-syntax m)", "(let-syntax m 1)", "(let-syntax m 1 1 1)",
             "(let-syntax 1 1 1)", "(let-syntax (m) 1 1)", "(let-syntax () 1 1)"):
    case(f"expand: the shape {text}", "expand", syntax_image(text), 8)
case("expand: let-syntax, no name left", "expand", syntax_image("(let-syntax m 1 1)", made=1019), 13, 6)
case("expand: let-syntax, no scope left", "expand", syntax_image("(let-syntax m 1 1)", scopes=256), 14, 6)
case("expand: let-syntax, no binding room", "expand",
     syntax_image("(let-syntax x 1 1)", **many_bindings(512)), 15, 7)
case("expand: a let-syntax whose macro is not used", "expand", syntax_image("(let-syntax m 1 1)"), 0,
     5 + 1 + 1 + 3 + 1 + 1, result=syntax_image("1{1}", words=["m"], made=1, scopes=1,
                                                bindings=[("m", [1], 5)]))
steps("expand: no phase above phase 2", "expand", syntax_image("(let-syntax m 1 1)"), [5, 1, 1], 12,
      phase=2)
case("expand: no binding room comes before no phase", "expand",
     syntax_image("(let-syntax x 1 1)", **many_bindings(512)), 15, 7, phase=2)
case("expand: a right-hand side inside a right-hand side", "expand",
     syntax_image("(let-syntax m (let-syntax n (let-syntax k 1 1) 1) 1)"), 12,
     13 + 1 + 1 + 1 + 1 + 1 + 1)
case("expand: two phases up is as far as it goes", "expand",
     syntax_image("(let-syntax m (let-syntax n 1 2) 3)", words=["m", "n"]), 0,
     9 + 1 + 1 + (1 + 1 + 3 + 1 + 1) + 2 + 1 + 1,
     result=syntax_image("3{1}", words=["m", "n"], made=2, scopes=2,
                         bindings=[("m", [1], 6), ("n", [2], 7)]))
case("expand: a macro alone", "expand", syntax_image("(let-syntax m 1 m)"), 8, 5 + 2 + 3 + 1 + 1)
case("expand: the right-hand side does not get the scope", "expand",
     syntax_image("(let-syntax m (syntax m) (quote m))"), 0, 9 + 2 + (1 + 1) + 1 + 1 + 3 + 1,
     result=syntax_image("(quote{1} m{1}){1}", words=["m"], made=1, scopes=1,
                         bindings=[("m", [1], 5)]))
case("expand: the words around have no meaning in a right-hand side", "expand",
     syntax_image("(lambda x (let-syntax m x 1))"), 7, 8 + 1 + 1 + 5 + 1 + 1 + 1)
CONSTANT = "(let-syntax m (lambda z (syntax 1)) (m))"
steps("expand: a macro use, charge by charge", "expand", syntax_image(CONSTANT),
      [11, 1, 1, 1, 1, 3, 1, 1, 1, 1, 1, 2, 1, 2, 2, 1, 1, 1, 1, 1, 1, 1],
      result=syntax_image("1{4}", words=["m", "z"], made=2, scopes=4,
                          bindings=[("m", [1], 6), ("z", [2], 7)]))
steps("expand: a macro that gives its argument back", "expand",
      syntax_image("(lambda x (let-syntax m (lambda z (#first (#rest (#stx-e z)))) (m x)))",
                   words=["x", "m", "z"]),
      [19, 1, 1, 16, 1, 1] + [1, 1, 7, 1, 1, 1, 1, 1, 1, 1] + [1, 1] + [1] * 6 + [1] +
      [3, 1, 3, 3] + [1, 1, 1, 7] + [1, 1, 1, 1, 1, 1, 1, 1, 1, 1] + [1, 1],
      result=syntax_image(
          "(lambda x{1} x{1})", words=["x", "m", "z"], made=3, scopes=5,
          bindings=[("x", [1], 7), ("m", [1, 2], 8), ("z", [3], 9)]))
case("expand: a macro's words are its own", "expand",
     syntax_image("(lambda t (let-syntax m (lambda z (#mk-stx (#link (syntax lambda) (#link "
                  "(syntax t) (#link (#first (#rest (#stx-e z))) (quote ())))) z)) (m t)))",
                  words=["t", "m", "z"]), 0, result=syntax_image(
         "(lambda t{1} (lambda{1,5} t{1,5,6} t{1}){1,2,4})", words=["t", "m", "z"], made=4, scopes=6,
         bindings=[("t", [1], 7), ("m", [1, 2], 8), ("z", [3], 9), ("t", [1, 5, 6], 10)]))
case("expand: a macro that gives no syntax object", "expand",
     syntax_image("(let-syntax m (lambda z 1) (m))"), 9,
     9 + 2 + (1 + 1 + 1 + 1) + 2 + 1 + 2 + 1 + 2 + 2 + 3 + 1 + 1)
case("expand: a macro that gives a list", "expand", syntax_image("(let-syntax m #stx-e (m))"), 9,
     6 + 2 + 3 + 2 + 1 + 2 + 2 + 3 + 1)
case("expand: a macro that gives a function", "expand",
     syntax_image("(let-syntax m (lambda z (lambda z z)) (m))"), 9)
case("expand: a macro that is a number", "expand", syntax_image("(let-syntax m 1 (m))"), 10,
     6 + 2 + 3 + 2 + 1 + 2 + 2 + 2)
case("expand: a macro that is a rung word", "expand", syntax_image("(let-syntax m 'and (m))"), 10, 20)
case("expand: a macro that is syntax", "expand", syntax_image("(let-syntax m (syntax 1) (m))"), 10)
case("expand: a macro that is a primitive of two arguments", "expand",
     syntax_image("(let-syntax m #link (m))"), 10, 20)
case("expand: a macro that is a primitive of one argument", "expand",
     syntax_image("(let-syntax m #first (m))"), 11, 22)
case("expand: the primitive's charge comes before 11", "expand",
     syntax_image("(let-syntax m #first (m))"), 19, 21, budget=21)
# The binding of m, which is made first, stands before those of x.
case("expand: an ambiguous word in a right-hand side", "expand",
     syntax_image("(let-syntax m x{|1,2} 1)", words=["m", "x"], scopes=2,
                  bindings=[("x", [1], 4), ("x", [2], 4)]), 6, 5 + 2 + 1, rivals=(2, 3))
# Scopes of m, of z (phase 1), of the use and of the introduction follow those that are there; what the
# template brings has the last one alone.
for scopes in (60, 61, 62, 63, 64, 124, 125, 126, 127, 188, 189, 190, 191, 251):
    case(f"expand: a macro use behind {scopes} scopes", "expand", syntax_image(CONSTANT, scopes=scopes),
         0, 37, result=syntax_image(f"1{{{scopes + 4}}}", words=["m", "z"], made=2, scopes=scopes + 4,
                                    bindings=[("m", [scopes + 1], 6), ("z", [scopes + 2], 7)]))
# What the use brings has m's scope and the use's; the introduction's is flipped in and out again.
GIVE_BACK = "(let-syntax m (lambda z (#first (#rest (#stx-e z)))) (m 1))"
for scopes in (0, 60, 61, 62, 63, 125, 126, 127, 189, 190, 191, 252):
    case(f"expand: an argument given back behind {scopes} scopes", "expand",
         syntax_image(GIVE_BACK, scopes=scopes), 0,
         16 + 2 + (2 + 7 + 7) + 8 + 1 + 3 + (1 + 3 + 3) + (3 + 7 + 10) + 1 + 1,
         result=syntax_image(f"1{{{scopes + 1},{scopes + 3}}}", words=["m", "z"], made=2,
                             scopes=scopes + 4,
                             bindings=[("m", [scopes + 1], 6), ("z", [scopes + 2], 7)]))
case("expand: the use's two scopes are the last", "expand", syntax_image(CONSTANT, scopes=252), 0, 37,
     result=syntax_image("1{256}", words=["m", "z"], made=2, scopes=256,
                         bindings=[("m", [253], 6), ("z", [254], 7)]))
case("expand: one scope left for the use", "expand", syntax_image(CONSTANT, scopes=253), 14, 26)
case("expand: no scope left for the use", "expand", syntax_image(CONSTANT, scopes=254), 14, 26)
case("expand: no scope for the use comes before the charge", "expand",
     syntax_image(CONSTANT, scopes=253), 14, 26, budget=26)
# (m) gives (m) again, for 12 units and two scopes each time. 64 scopes are enough for the let-syntax and
# 31 uses. All 256 would be enough for 127, but the 126th use is the 127th entry in progress, applying
# the macro the 128th, and its head one too many.
ROUND = "(let-syntax m (lambda z z) (m))"
case("expand: a macro that gives its own use runs out of scopes", "expand",
     syntax_image(ROUND, scopes=192), 14, 9 + 2 + 4 + 2 + 1 + 2 + 31 * (1 + 4 + 3 + 1 + 1 + 2) + 1)
case("expand: a macro that gives its own use runs out of entries before scopes", "expand",
     syntax_image(ROUND), 18, 9 + 2 + 4 + 2 + 1 + 2 + 125 * (1 + 4 + 3 + 1 + 1 + 2) + 1 + 4 + 1,
     budget=4096)


def plant(macros):
    """So many macros side by side, each used once."""
    return "(" + " ".join([CONSTANT] * macros) + ")"


def planted(macros):
    """The same expanded: a macro takes four scopes and two names."""
    return syntax_image("(" + " ".join(f"1{{{4 * i + 4}}}" for i in range(macros)) + ")",
                        words=["m", "z"], made=2 * macros, scopes=4 * macros,
                        bindings=[("m", [4 * i + 1], 6 + 2 * i) for i in range(macros)] +
                                 [("z", [4 * i + 2], 7 + 2 * i) for i in range(macros)])


for macros in (16, 19, 32, 33, 64):
    case(f"expand: {macros} macros, each with its use", "expand", syntax_image(plant(macros)), 0,
         1 + 11 * macros + 1 + 26 * macros, result=planted(macros), budget=4096)
case("expand: of 65 macros the last has no scope left", "expand", syntax_image(plant(65)), 14,
     1 + 11 * 65 + 1 + 26 * 64 + 1, budget=4096)
case("expand: shadowed core words stay shadowed in a template", "expand",
     syntax_image("(let-syntax lambda (lambda z (syntax 1)) (lambda x x))"), 0,
     result=syntax_image("1{4}", words=["z", "x"], made=2, scopes=4,
                         bindings=[("lambda", [1], 6), ("z", [2], 7)]))
case("expand: a macro's core words are not the user's", "expand",
     syntax_image("(let-syntax m (lambda z (syntax (lambda x x))) (lambda lambda (m)))",
                  words=["m", "z", "x"]), 0,
     result=syntax_image("(lambda{1} lambda{1,3} (lambda{5} x{5,6} x{5,6}){5}){1}",
                         words=["m", "z", "x"], made=4, scopes=6,
                         bindings=[("m", [1], 7), ("z", [2], 8), ("lambda", [1, 3], 9),
                                   ("x", [5, 6], 10)]))


def wrapped(code):
    return f"(#mk-stx (#link {code} (quote ())) (syntax 1))"


# m wraps its argument, of nesting 56, seven times and gives (n ARGUMENT), of nesting 64. The
# application of n's function to that form is nested 65 deep, and is not tested.
WRAPPING = wrapped("p")
for _ in range(6):
    WRAPPING = f"((lambda p {WRAPPING}) {wrapped('p')})"
WRAPPING = f"((lambda p {WRAPPING}) (#first (#rest (#stx-e z))))"
case("expand: the application of a macro use is not tested for 17", "expand",
     syntax_image("(let-syntax n (lambda z (syntax 1)) (let-syntax m (lambda z (#mk-stx (#link "
                  "(syntax n) (#link %s (quote ()))) (syntax n))) (m %s)))" % (WRAPPING, nested(55))),
     0, result=UNKNOWN, budget=4096)
GROWING = "(syntax 1)"
for _ in range(13):
    GROWING = f"((lambda s (#mk-stx (#link s (#link s (quote ()))) s)) {GROWING})"
case("expand: a macro gives an object larger than every budget", "expand",
     syntax_image(f"(let-syntax m (lambda z {GROWING}) (m))"), 19, budget=4096)
case("expand: what a macro gives is nested too deep where it stands", "expand",
     syntax_image("(let-syntax m (lambda z (syntax %s)) %s)" % (nested(40), nested(25, "m"))), 17)
case("expand: and one level less", "expand",
     syntax_image("(let-syntax m (lambda z (syntax %s)) %s)" % (nested(40), nested(24, "m"))), 0,
     result=UNKNOWN)
case("expand: a lambda around it is tested as well", "expand",
     syntax_image("(let-syntax m (lambda z (syntax %s)) (lambda x %s))"
                  % (nested(40), nested(24, "m"))), 17)
case("expand: a macro's own text is nested too deep after substitution", "expand",
     syntax_image("(let-syntax m (lambda z %s) (m %s))" % (nested(32, "z"), nested(32))), 17)

# Entries: a loop in a right-hand side, one entry deeper each time round.
case("expand: the 129th entry in progress", "expand",
     syntax_image("(let-syntax m ((lambda f (f f)) (lambda f (f f))) 1)"), 18, 802, budget=4096)
case("expand: 18 comes before the charge of the entry", "expand",
     syntax_image("(let-syntax m ((lambda f (f f)) (lambda f (f f))) 1)"), 18, 802, budget=802)
case("expand: and a unit less is 19", "expand",
     syntax_image("(let-syntax m ((lambda f (f f)) (lambda f (f f))) 1)"), 19, 801, budget=801)

LOOP = "((lambda f (f f)) (lambda f (f f)))"
case("expand: what a macro gives is expanded inside the entry of its use", "expand",
     syntax_image(f"(let-syntax n (lambda z {LOOP}) (let-syntax m (lambda z (syntax (n))) (m)))"),
     18, 866, budget=4096)

# ==== expanding: the use scope is prunable in what a macro use becomes (request T-03) ====

# BACK gives the first argument of its use back. It has size 10. Its value takes 25: the entry, the
# binder, the body of 7 and its 7 entries to expand; 8 entries to parse; 1 to evaluate. Applying it takes
# 20: three entries for the application, the body of 7, then 7 entries and 3 primitives.
BACK = "(lambda z (#first (#rest (#stx-e z))))"
BACK_VALUE, BACK_APPLIED = 1 + 1 + 7 + 7 + 8 + 1, 3 + 7 + 7 + 3


def back(argument, words=("m", "z", "x"), **named):
    """m gives its argument back. Scopes: 1 of m, 2 of z (phase 1), 3 use, 4 introduction."""
    return syntax_image(f"(let-syntax m {BACK} (m {argument}))", words=words, **named)


def back_units(size):
    """Loading, entry, m, its value and the body; the use, until its argument is expanded."""
    return (15 + size) + 1 + 1 + BACK_VALUE + (2 + size) + (1 + 2 * (2 + size) + BACK_APPLIED + size)


def given_back(text, made=2, scopes=4, bindings=()):
    """What back becomes, with the bindings of m and z."""
    return syntax_image(text, words=["m", "z", "x"], made=made, scopes=scopes,
                        bindings=[("m", [1], 7), ("z", [2], 8), *bindings])


SYNTAX_BACK = given_back("(syntax{1,3} x){1,3}")
steps("expand: a macro that takes (syntax x)", "expand", back("(syntax x)"),
      [18, 1, 1] + [1, 1, 7] + [1] * 7 + [1] * 8 + [1] + [5, 1, 5, 5] + [1, 1, 1, 7] + [1] * 10 +
      [3, 1, 1], result=SYNTAX_BACK)
assert back_units(3) + 1 + 1 == 86
case("expand: (syntax x) given back, an output just long enough", "expand", back("(syntax x)"), 0, 86,
     result=SYNTAX_BACK, output=len(SYNTAX_BACK))
case("expand: (syntax x) given back, an output one byte short", "expand", back("(syntax x)"), 20, 86,
     output=len(SYNTAX_BACK) - 1)
case("expand: every part of what syntax holds loses the use scope", "expand", back("(syntax (x (1)))"),
     0, back_units(6) + 1 + 4, result=given_back("(syntax{1,3} (x (1))){1,3}"))
case("expand: a quoted argument keeps the use scope", "expand", back("(quote x)"), 0,
     back_units(3) + 1, result=given_back("(quote{1,3} x{1,3}){1,3}"))
case("expand: the use scope is prunable in every part of an application", "expand",
     back("((syntax x) (syntax x))"), 0, back_units(7) + 1 + 2 + 2,
     result=given_back("((syntax{1,3} x){1,3} (syntax{1,3} x){1,3}){1,3}"))
case("expand: the use scope is prunable in the body of a lambda", "expand",  # whose scope is 5
     back("(lambda x (syntax x))"), 0, back_units(6) + 1 + 1 + 3 + 1 + 1,
     result=given_back("(lambda{1,3} x{1,3,5} (syntax{1,3,5} x){1,3,5}){1,3}", 3, 5,
                       [("x", [1, 3, 5], 9)]))
case("expand: the use scope is prunable in the body of a let-syntax", "expand",
     back("(let-syntax k 1 (syntax x))", words=["m", "z", "k", "x"]), 0,
     back_units(7) + 1 + 1 + 3 + 3 + 1 + 1,
     result=syntax_image("(syntax{1,3,5} x){1,3,5}", words=["m", "z", "k", "x"], made=3, scopes=5,
                         bindings=[("m", [1], 8), ("z", [2], 9), ("k", [1, 3, 5], 10)]))
# The right-hand side of k is expanded one phase up, where the use scope 3 is not pruned. So the x that
# k's use brings has it still, and loses it now. It keeps 8, the introduction scope of k's use.
case("expand: the use scope is prunable in what a macro defined inside gives", "expand",
     back("(let-syntax k (lambda w (syntax (syntax x))) (k))", words=["m", "z", "k", "w", "x"]), 0,
     back_units(13) + 1 + 1 + (1 + 1 + 5 + 1 + 3 + 2 + 1) + 2 + (1 + 2 + 2 + 5 + 3) + 1 + 1,
     result=syntax_image("(syntax{1,3,8} x{8}){1,3,8}", words=["m", "z", "k", "w", "x"], made=4,
                         scopes=8, bindings=[("m", [1], 9), ("z", [2], 10), ("k", [1, 3, 5], 11),
                                             ("w", [6], 12)]))
# Scopes: 1 of n, 2 of its z, 3 of m, 4 of its z, 5 and 6 of m's use, 7 and 8 of n's use.
M_AND_N = dict(words=["n", "z", "m", "x"], made=4, scopes=8,
               bindings=[("n", [1], 8), ("z", [2], 9), ("m", [1, 3], 10), ("z", [4], 11)])
N_USE = 1 + 5 + 5 + BACK_APPLIED + 3
case("expand: the use scope is prunable through a further macro use", "expand",
     syntax_image(f"(let-syntax n {BACK} (let-syntax m {BACK} (m (n (syntax x)))))",
                  words=["n", "z", "m", "x"]), 0,
     33 + 1 + 1 + BACK_VALUE + 20 + 1 + 1 + BACK_VALUE + 7 + (1 + 7 + 7 + BACK_APPLIED + 5) + N_USE +
     1 + 1, result=syntax_image("(syntax{1,3,5,7} x){1,3,5,7}", **M_AND_N))
# What m's template brings has 6, the introduction scope of m's use, which is not prunable, and not 5.
case("expand: a template's text loses the scope of a further use only", "expand",
     syntax_image(f"(let-syntax n {BACK} (let-syntax m (lambda z (syntax (n (syntax x)))) (m)))",
                  words=["n", "z", "m", "x"]), 0,
     28 + 1 + 1 + BACK_VALUE + 15 + 1 + 1 + (1 + 1 + 7 + 1 + 5 + 2 + 1) + 2 + (1 + 2 + 2 + 5 + 5) +
     N_USE + 1 + 1, result=syntax_image("(syntax{1,6,7} x{6}){1,6,7}", **M_AND_N))
case("expand: the introduction scope is not prunable", "expand",
     syntax_image("(let-syntax m (lambda z (syntax (syntax x))) (m))"), 0,
     13 + 1 + 1 + (1 + 1 + 5 + 1 + 3 + 2 + 1) + 2 + (1 + 2 + 2 + 5 + 3) + 1 + 1,
     result=given_back("(syntax{4} x{4}){4}"))
# The macro's value: entry, binder, body of 13, 11 entries and a prune to expand; 12 to parse; 1 to
# evaluate. Applied: three entries, the body of 11, 11 entries and 4 primitives.
case("expand: the word syntax comes from the macro, what it holds from the use", "expand",
     syntax_image("(let-syntax m (lambda z (#mk-stx (#link (syntax syntax) (#rest (#stx-e z))) z)) "
                  "(m x))"), 0,
     22 + 1 + 1 + (1 + 1 + 13 + 12 + 12 + 1) + 3 + (1 + 3 + 3 + (3 + 11 + 15) + 3) + 1 + 1,
     result=given_back("(syntax{4} x){1,3}"))
# What is around a use keeps its own set: here 1 of m and 3 of the lambda; 4 and 5 are the use's.
case("expand: beside a macro use the set around it is still prunable", "expand",
     syntax_image(f"(let-syntax m {BACK} (lambda x ((m (syntax x)) (syntax x))))"), 0,
     25 + 1 + 1 + BACK_VALUE + 12 + 1 + 1 + 9 + 1 + (1 + 5 + 5 + BACK_APPLIED + 3) + 2 + 2,
     result=given_back("(lambda{1} x{1,3} ((syntax{1,3,4} x){1,3,4} (syntax{1,3} x){1,3}){1,3}){1}",
                       3, 5, [("x", [1, 3], 9)]))
case("expand: two macro uses side by side, each with its use scope", "expand",
     syntax_image(f"(let-syntax m {BACK} ((m (syntax x)) (m (syntax x))))"), 0,
     24 + 1 + 1 + BACK_VALUE + 11 + 1 + 2 * ((1 + 5 + 5 + BACK_APPLIED + 3) + 2),
     result=given_back("((syntax{1,3} x){1,3} (syntax{1,5} x){1,5}){1}", scopes=6))
case("expand: a use scope at phase 1, where the image's own scopes stay", "expand",
     back("(syntax x{1|1|1})", scopes=1), 0, 86, phase=1,
     result=syntax_image("(syntax{|2,4} x{1|1|1}){|2,4}", words=["m", "z", "x"], made=2, scopes=5,
                         bindings=[("m", [2], 7), ("z", [3], 8)]))
for use in (63, 64, 65, 127, 128, 129, 191, 192, 193, 255):
    both = f"{use - 2},{use}"
    case(f"expand: the use scope is {use}", "expand", back("(syntax x)", scopes=use - 3), 0, 86,
         result=syntax_image(f"(syntax{{{both}}} x){{{both}}}", words=["m", "z", "x"], made=2,
                             scopes=use + 1, bindings=[("m", [use - 2], 7), ("z", [use - 1], 8)]))

# A use at phase 1, in the right-hand side of m, tells by the code: m gives (let-syntax j (lambda X x) 1),
# where X is what (k (syntax x)) gave. Were 5, the use scope of k's use, still on X, then X would not bind
# the x beside it: 7 after 362 units. Scopes: 1 of m, 2 of k (phase 1), 3 of z (phase
# 2), 4 of w, 5 and 6 of k's use (phase 1), 7 and 8 of m's use, 9 of j, 10 of X (phase 1).
INNER = "(#mk-stx (#link (syntax lambda) (#link (k (syntax x)) (#stx-e (syntax (x))))) w)"  # size 21
OUTER = ("(#mk-stx (#link (syntax let-syntax) (#link (syntax j) "
         f"(#link {INNER} (#stx-e (syntax (1)))))) w)")  # size 42
BY_CODE = syntax_image(f"(let-syntax m (let-syntax k {BACK} (lambda w {OUTER})) (m))",
                       words=["m", "k", "z", "w", "j", "x"])
BY_CODE_UNITS = sum([
    63, 1, 1,  # loading, entry, m
    1, 1, BACK_VALUE, 45,  # the inner let-syntax: entry, k, its value, body
    1, 1, 42,  # the lambda: entry, w, body
    20 + 5 + 7,  # expanding it without k's use: lists and atoms, syntax forms, what these hold
    1 + 5 + 5 + BACK_APPLIED + 3 + 1 + 1,  # k's use and its (syntax x)
    1 + 26, 1,  # parsing and evaluating the right-hand side of m
    2, 1, 2, 2,  # the body, then m's use: entry, use scope, introduction scope
    3, 26, 26 + 9,  # its application, the body, the body's entries and 9 primitives
    8, 1, 1,  # what m gives: introduction scope, entry, j
    4, 2, 1,  # its right-hand side: entry, X, body, entry; parsing; evaluating
    1, 1])  # its body
assert BY_CODE_UNITS == 367
case("expand: without the use scope of its use a binder binds", "expand", BY_CODE, 0, 367, budget=367,
     result=syntax_image("1{8,9}", words=["m", "k", "z", "w", "j", "x"], made=6, scopes=10,
                         bindings=[("m", [1], 10), ("k", [2], 11), ("z", [3], 12), ("w", [2, 4], 13),
                                   ("j", [8, 9], 14), ("x", [10], 15)]))
case("expand: the same with a unit less", "expand", BY_CODE, 19, 366, budget=366)

# ==== parsing ====

for text, tree in (("1", "1"), ("@3", "@3"), ("#2", "#2"), ("'7", "'7"), ("x", "$4"),
                   ("lambda", "$0"), ("syntax", "$3")):
    steps(f"parse: {text}", "parse", syntax_image(text, words=["x"]), [1, 1],
          result=tree_image(tree, words=["x"]))
steps("parse: lambda", "parse", IDENTITY, [4, 1, 1], result=tree_image("[4 $4]", words=["x"]))
steps("parse: an application", "parse", syntax_image("(x 1 (y))", words=["x", "y"]),
      [5, 1, 1, 1, 1, 1], result=tree_image("($4 1 ($5))", words=["x", "y"]))
steps("parse: an application with a head that is no identifier", "parse",
      syntax_image("(1 (2))"), [4, 1, 1, 1, 1], result=tree_image("(1 (2))"))
steps("parse: quote", "parse", syntax_image("(quote (x{1} () (1 @2) #3 'and lambda))", scopes=1),
      [11, 1, 9], result=tree_image("<x <> <1 @2> #3 'and lambda>", scopes=1))
steps("parse: quote an atom", "parse", syntax_image("(quote x)"), [3, 1, 1],
      result=tree_image("x"))
steps("parse: syntax keeps the object", "parse", syntax_image("(syntax (x{1|2|3} y){2})", scopes=3),
      [5, 1], result=tree_image("`(x{1|2|3} y){2}", scopes=3))
for text in ("()", "(let-syntax m 1 1)", "(let-syntax)", "(lambda)", "(lambda x)", "(lambda x x x)",
             "(lambda 1 x)", "(lambda (x) x)", "(quote)", "(quote x x)", "(syntax)", "(syntax x x)"):
    case(f"parse: the shape {text}", "parse", syntax_image(text), 8)
AMBIGUOUS = dict(words=["x"], scopes=2, bindings=[("x", [1], 4), ("x", [2], 4)])
steps("parse: an ambiguous identifier", "parse", syntax_image("x{1,2}", **AMBIGUOUS), [1, 1], 6,
      rivals=(1, 2))
steps("parse: an ambiguous binder comes before the body", "parse",
      syntax_image("(lambda x{1,2} ())", **AMBIGUOUS), [4, 1], 6, rivals=(1, 2))
steps("parse: an ambiguous head comes before its parts", "parse",
      syntax_image("(x{1,2} ())", **AMBIGUOUS), [3, 1], 6, rivals=(1, 2))
case("parse: the shape comes before the binder is resolved", "parse",
     syntax_image("(lambda x{1,2})", **AMBIGUOUS), 8, 4)
case("parse: an ambiguous quoted word does no harm", "parse",
     syntax_image("(quote x{1,2})", **AMBIGUOUS), 0, 5, result=tree_image("x", scopes=2))
case("parse: parts left to right", "parse", syntax_image("(1 () x{1,2})", **AMBIGUOUS), 8, 7)
case("parse: parts left to right, the other way", "parse",
     syntax_image("(1 x{1,2} ())", **AMBIGUOUS), 6, 7, rivals=(1, 2))
case("parse: a binder gives the name it resolves to", "parse",
     syntax_image("(lambda x{1} x{2})", words=["x"], made=2, scopes=2,
                  bindings=[("x", [1], 5), ("x", [2], 6)]), 0, 6,
     result=tree_image("[5 $6]", words=["x"], made=2, scopes=2))
case("parse: phase 0 only", "parse",
     syntax_image("x{1|2}", words=["x"], made=2, scopes=2, bindings=[("x", [1], 5), ("x", [2], 6)]),
     0, 2, result=tree_image("$5", words=["x"], made=2, scopes=2), phase=1)
case("parse: a word bound to quote's name is quote", "parse",
     syntax_image("(x{1} y)", words=["x", "y"], scopes=1, bindings=[("x", [1], 2)]), 0, 5,
     result=tree_image("y", words=["x", "y"], scopes=1))
case("parse: quote bound to a word is an application", "parse",
     syntax_image("(quote{1} y)", words=["y"], scopes=1, bindings=[("quote", [1], 4)]), 0, 6,
     result=tree_image("($4 $4)", words=["y"], scopes=1))
case("parse: 64 levels", "parse", syntax_image(nested(63)), 0, 128, result=tree_image(nested(63)))

# ==== evaluating ====


def value(reason, text, result, units=UNKNOWN, code=0, **named):
    """Evaluates a tree in notation; scopes 1 to 3 and three made names are there."""
    case(f"evaluate: {reason}", "evaluate", tree_image(text, words=["x"], made=3, scopes=3), code,
         units, result=None if result is None
         else tree_image(result, words=["x"], made=3, scopes=3), **named)


def value_steps(reason, text, result, charges, code=0):
    steps(f"evaluate: {reason}", "evaluate", tree_image(text, words=["x"], made=3, scopes=3),
          charges, code, None if result is None
          else tree_image(result, words=["x"], made=3, scopes=3))


for text in ("1", "x", "@4", "#0", "'3", "<>", "<1 <x> `x>", "`x{1|2|3}", "`()", "[4 $4]", "[4 (1)]"):
    value("a value gives itself: " + text, text, text)
value_steps("a function", "([4 $4] 9)", "9", [4, 1, 1, 1, 1, 1])
value_steps("the body is charged whole", "([4 (#link $4 <1 2>)] 9)", "<9 1 2>",
            [9, 1, 1, 1, 6, 1, 1, 1, 1, 1])
value_steps("a syntax value in a body counts one", "([4 `(1 2 (3))] 9)", "`(1 2 (3))",
            [1 + 1 + 5 + 1, 1, 1, 1, 1, 1])
value_steps("a syntax value that was an argument counts one", "([4 ([5 $4] 1)] `(1 2 3))",
            "`(1 2 3)", [1 + 5 + 4, 1, 1, 1, 4, 1, 1, 1, 1, 1])
value("substitution reaches functions in list values", "([4 <[5 $4] [4 $4]>] 9)", "<[5 9] [4 $4]>")
value("substitution reaches functions of other names", "([4 [5 ($4 $5)]] 9)", "[5 (9 $5)]")
value("a function of the same name keeps its own", "([4 [4 $4]] 9)", "[4 $4]",
      5 + 1 + 1 + 1 + 2 + 1)
value("a function of the same name inside another", "([4 [5 [4 ($4 $5)]]] 9)", "[5 [4 ($4 $5)]]")
value("the argument is a function of the same name", "([4 ($4 1)] [4 $4])", "1")
value("syntax values are left alone", "([4 `x] 9)", "`x")
value("two functions, one after the other", "(([4 [5 $4]] 1) 2)", "1")
value("the head is evaluated", "((#pick 1 #first #rest) <1 2>)", "1")
value_steps("10 comes before any argument", "(9 (1))", None, [4, 1, 1], 10)
for text in ("(9)", "(x 1)", "(@1 1)", "('and 1)", "('not 1)", "(<> 1)", "(`x 1)", "(<#first> <1>)"):
    value("cannot be applied: " + text, text, None, code=10)
for text in ("([4 $4])", "([4 $4] 1 2)"):
    value("a function takes one: " + text, text, None, code=10)
COUNTS = [1, 2, 1, 1, 2, 2, 3, 1, 2, 1]  # of 7 to 9 too: 10 comes before 28
for primitive, count in enumerate(COUNTS):
    for given in range(5):
        if given != count:
            value(f"primitive {primitive} with {given} arguments",
                  f"(#{primitive}{' (1)' * given})", None, 1 + 1 + 2 * given + 2, code=10)
value_steps("arguments left to right", "(#link (1) (2 3))", None, [7, 1, 1, 1, 1], 10)
value_steps("the second argument after the first", "(#link 1 (2))", None, [5, 1, 1, 1, 1, 1], 10)
value_steps("arguments come before 11", "(#first (1))", None, [4, 1, 1, 1, 1], 10)
value_steps("the charge comes before 11", "(#first 1)", None, [3, 1, 1, 1, 1], 11)

value_steps("stx-e of an atom", "(#stx-e `x{1})", "x", [3, 1, 1, 1, 1])
value_steps("stx-e of a list", "(#stx-e `(x{1} (1)){2})", "<`x{1} `(1)>", [6, 1, 1, 1, 1])
value("stx-e of the empty list", "(#stx-e `())", "<>")
for text in ("1", "x", "<>", "<`x>", "[4 $4]", "#stx-e"):
    value("stx-e takes syntax: " + text, f"(#stx-e {text})", None, code=11)
value_steps("mk-stx of an atom", "(#mk-stx x `(1 2){1|2|3})", "`x{1|2|3}", [6, 1, 1, 1, 1, 1])
WIDE = "{64,65|128,129|192,193,256}"
case("evaluate: mk-stx gives sets over all four words", "evaluate",
     tree_image("(#mk-stx x `(1 2)%s)" % WIDE, scopes=256), 0, 6 + 5,
     result=tree_image("`x" + WIDE, scopes=256))
case("evaluate: stx-e keeps the sets of the parts", "evaluate",
     tree_image("(#stx-e `(x%s 1{255}){1})" % WIDE, scopes=256), 0, 5 + 4,
     result=tree_image("<`x%s `1{255}>" % WIDE, scopes=256))
value_steps("mk-stx of a list", "(#mk-stx <`x{1} `(1)> `1{2})", "`(x{1} (1)){2}",
            [7, 1, 1, 1, 1, 1])
value("mk-stx of the empty list", "(#mk-stx <> `1{1})", "`(){1}")
for text in ("1", "@1", "#1", "'1"):
    value("mk-stx of " + text, f"(#mk-stx {text} `x{{|3}})", f"`{text}{{|3}}")
for text in ("`x `x", "<1> `x", "<`x <`x>> `x", "<`x 1> `x", "[4 $4] `x", "1 1", "1 <`x>", "<> <>"):
    value("mk-stx takes an atom or a list of syntax, and syntax: " + text, f"(#mk-stx {text})", None,
          code=11)
value_steps("first", "(#first <1 2>)", "1", [5, 1, 1, 1, 1])
value_steps("rest", "(#rest <1 2 3>)", "<2 3>", [6, 1, 1, 1, 1])
value("rest of one", "(#rest <1>)", "<>")
for primitive in ("first", "rest"):
    for text in ("<>", "1", "`(1 2)", "[4 $4]"):
        value(f"{primitive} takes a list with a part: {text}", f"(#{primitive} {text})", None, code=11)
value_steps("link", "(#link 1 <2 3>)", "<1 2 3>", [6, 1, 1, 1, 1, 1])
value("link a list", "(#link <1> <2>)", "<<1> 2>")
value("link a function", "(#link [4 $4] <>)", "<[4 $4]>")
value("link syntax", "(#link `x <>)", "<`x>")
for text in ("1 2", "<> 1", "1 `()", "1 [4 $4]"):
    value("link takes a list: " + text, f"(#link {text})", None, code=11)
for a, b, answer in (("1", "1", 1), ("1", "2", 0), ("x", "x", 1), ("x", "lambda", 0), ("@1", "@1", 1),
                     ("1", "@1", 0), ("#1", "'1", 0), ("#1", "#1", 1), ("'2", "'2", 1), ("0", "lambda", 0),
                     ("4", "x", 0), ("4294967295", "4294967295", 1)):
    value(f"same of {a} and {b}", f"(#same {a} {b})", str(answer))
value_steps("same", "(#same 1 @1)", "0", [4, 1, 1, 1, 1, 1])
for text in ("<> <>", "1 <>", "`x x", "x `x", "[4 $4] [4 $4]"):
    value("same takes atoms: " + text, f"(#same {text})", None, code=11)
value_steps("pick at 0", "(#pick 0 1 2)", "2", [5, 1, 1, 1, 1, 1, 1])
value("pick at 1", "(#pick 1 1 2)", "1")
value("pick at the largest number", "(#pick 4294967295 1 2)", "1")
value("pick evaluates both", "(#pick 1 1 (2))", None, code=10)
value("pick any values", "(#pick 0 [4 $4] <`x>)", "<`x>")
for text in ("@0", "x", "#0", "<>", "`0", "[4 0]"):
    value("pick takes a number: " + text, f"(#pick {text} 1 2)", None, code=11)
value("the first of two faults in the arguments", "(#mk-stx [4 $4] 1)", None, code=11)

# ==== nesting over 64 ====

value("link makes nesting 64", "(#link %s <>)" % nested(62, "1", "<", ">"), nested(63, "1", "<", ">"))
value("an empty list has nesting 1", "(#link %s <>)" % nested(62, "<>", "<", ">"),
      nested(63, "<>", "<", ">"))
value("an empty list in syntax has nesting 1", "(#link `%s <>)" % nested(62, "()"),
      "<`%s>" % nested(62, "()"))
DEEP = nested(62, "1", "<", ">")
# Two links, one after the other, so that no substitution is nested over 64.
TWO_LINKS = "([4 ([4 (#link $4 <>)] (#link $4 <>))] %s)" % nested(61, "1", "<", ">")
value("two links make nesting 64", TWO_LINKS, nested(63, "1", "<", ">"), 74 + 29)
value("a third makes nesting 65, after its charge", f"(#link {TWO_LINKS} <>)", None,
      77 + 2 + 29 + 1 + 1, code=17)
value("and a unit less is 19", f"(#link {TWO_LINKS} <>)", None, 109, code=19, budget=109)
value("substitution makes nesting 65", "([4 (1 (2 $4))] %s)" % nested(62, "1", "<", ">"), None,
      (1 + 1 + 5 + 63) + 3 + 5, code=17)
value("substitution makes nesting 64, and the head is tested", "([4 (1 (2 $4))] %s)"
      % nested(61, "1", "<", ">"), None, (1 + 1 + 5 + 62) + 3 + 5 + 2, code=10)
value("the argument's syntax counts with its nesting", "([4 (1 (2 $4))] `%s)" % nested(62), None,
      (1 + 1 + 5 + 63) + 3 + 5, code=17)
value("substitution where the variable is not met", "([4 (1 (2 3))] %s)" % DEEP, None,
      (1 + 1 + 5 + 63) + 3 + 5 + 2, code=10)
value("mk-stx keeps the nesting", "(#mk-stx (#link `%s <>) `x)" % nested(61), "`" + nested(62))
value("link over mk-stx", "(#link (#mk-stx (#link `%s <>) `x) <>)" % nested(60), "<`%s>" % nested(61))
value("stx-e keeps the nesting", "(#stx-e `%s)" % nested(62), "<`%s>" % nested(61))

# ==== entries ====

value("the 129th entry in progress", "([4 ($4 $4)] [4 ($4 $4)])", None, 772, code=18, budget=4096)
value("18 comes before the charge of the entry", "([4 ($4 $4)] [4 ($4 $4)])", None, 772, code=18,
      budget=772)
value("and a unit less is 19", "([4 ($4 $4)] [4 ($4 $4)])", None, 771, code=19, budget=771)
# Each function takes the list of those after it and applies the first to the rest.
NEXT = "[4 ((#first $4) (#rest $4))]"


def chain(count):
    return f"({NEXT} <{(NEXT + ' ') * count}[4 7]>)"


value("128 entries in progress", chain(124), "7", 33 + 24 * 124, budget=4096)
value("129 entries in progress", chain(125), None, 3024, code=18, budget=4096)

# ==== sizes that grow ====

DOUBLE = "[4 (#link $4 (#link $4 <>))]"


def doubled(times, inner):
    return f"({DOUBLE} " * times + inner + ")" * times


value("a value doubled three times", doubled(3, "1"),
      "<<<1 1> <1 1>> <<1 1> <1 1>>>", 9 * 3 + 1 + 18 * 3 + 1)
value("a value doubled sixty times is too long to write", doubled(60, "1"), None, 1622, code=20,
      budget=4096)
value("a doubled value can be taken apart", "(#first (#rest %s))" % doubled(2, "1"), "<1 1>")
value("a function may hold a value that grew beyond every budget", "([5 ([6 [4 $6]] $5)] %s)"
      % doubled(40, "1"), None, code=20, budget=4096)
value("but it cannot be applied", "(([5 [6 $5]] %s) 1)" % doubled(40, "1"),
      None, code=19, budget=4096)
value("nor when it is larger by one", "(([5 [6 $5]] (#link %s <>)) 1)" % doubled(40, "1"), None,
      code=19, budget=4096)
value("a function that holds syntax that grew may be applied: syntax counts one",
      "(([5 [6 $5]] %s) 1)" % ("([4 (#mk-stx (#link $4 (#link $4 <>)) `1)] " * 40 + "`x" + ")" * 40),
      None, code=20, budget=4096)

# ==== the output ====

for job, image, result in (("expand", IDENTITY, IDENTITY_EXPANDED),
                           ("parse", IDENTITY_EXPANDED, IDENTITY_PARSED),
                           ("evaluate", THIRTEEN, tree_image("9", made=1))):
    units = {"expand": 8, "parse": 6, "evaluate": 9}[job]
    case(f"{job}: an output just long enough", job, image, 0, units, result=result,
         output=len(result))
    case(f"{job}: an output one byte short", job, image, 20, units, output=len(result) - 1)
    case(f"{job}: no output", job, image, 20, units, output=0)
    case(f"{job}: an output longer than needed", job, image, 0, units, result=result,
         output=len(result) + 1)
    case(f"{job}: a refusal comes before 20", job, image, 19, 0, output=0, budget=1)
case("resolve writes nothing and needs no output", "resolve", syntax_image("x"), 0, 1, 4, output=0)
case("the counts reached are written", "evaluate", tree_image("1", words=["x", "y"], made=9, scopes=9),
     0, 2, result=tree_image("1", words=["x", "y"], made=9, scopes=9))

# Syntax values with all scopes in all sets are long: a set takes 2 + 127 + 2 * 129 bytes, a number three
# sets and 3 bytes, 1,164 in all.
ALL = "{" + "|".join([",".join(map(str, EVERY))] * 3) + "}"


def padded(length, make):
    """make(words) is an image; words are found so that it has the length."""
    left = length - len(make([]))
    words = []
    while left > 0:
        chunk = left if left <= 33 else min(33, left - 2)
        words.append("abcdefghijklmnopqrstuvwyz"[len(words)] + "-" * (chunk - 2))
        left -= chunk
    image = make(words)
    assert len(image) == length, (length, len(image))
    return image


def long_list(words):
    return tree_image("<" + ("`1" + ALL + " ") * 56 + ">", words=words, scopes=256)


LONGEST = padded(65536, long_list)
case("an image of 65,536 bytes", "evaluate", LONGEST, 0, 57 + 1, result=LONGEST)
case("a result of 65,536 bytes, the output a byte shorter", "evaluate", LONGEST, 20, 57 + 1,
     output=65535)
case("an image of 65,537 bytes", "evaluate", LONGEST + b"\0", 2, 0)
case("an image of 65,536 bytes with a fault at its front", "evaluate", bytes(65536), 1, 0)
case("an image of 65,537 bytes with a fault at its front", "evaluate", bytes(65537), 2, 0)
case("an image of 65,537 bytes of another kind", "resolve", b"\2" + bytes(65536), 2, 0)


HALF = "<" + ("`1" + ALL + " ") * 28 + ">"


def twice(words):
    return tree_image(f"<{HALF} {HALF}>", words=words, scopes=256)


def words_of(image):
    """The bytes of an image's words, with their count before them."""
    place = 2
    for _ in range(image[1]):
        place += 1 + image[place]
    return image[1:place]


# Loading 38, of which HALF is 29; the application, its head and its argument; 7 for the body; then 9
# for the two links.
for length in (65536, 65537):
    written = padded(length, twice)
    doubling = tree_image(f"([0 (#link $0 (#link $0 <>))] {HALF})", scopes=256)
    image = doubling[:1] + words_of(written) + doubling[2:]
    if length == 65536:
        case("a result of 65,536 bytes in a longer output", "evaluate", image, 0, 38 + 3 + 7 + 9,
             result=written, output=70000)
    else:
        case("a result of 65,537 bytes in a longer output", "evaluate", image, 20, 38 + 3 + 7 + 9,
             output=70000)

# ==== the panel check, the scan runner, who competes, text, where a bit is used, the smaller image, local expansion ====

CASES += panel_cases.CASES + scan_cases.CASES + rival_cases.CASES + text_cases.CASES + uses_cases.CASES + shrink_cases.CASES
CASES += local_cases.CASES
