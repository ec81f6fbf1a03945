"""Edge cases of the smaller image (request T-11), worked out by hand.

A binding is dropped where no identifier of its symbol contains its set at some
phase, then every scope that is in no remaining set; the rest are renumbered in
order. As in edge_cases.py, which takes these in, each case is a reason, a call
and the answer asked for, and the notation is the one of image.py.
"""
from image import call, head, number, scope_set, syntax_image, tree_image

CASES = []  # as in edge_cases.py
LAYOUT, OVER, KIND, LONG = 1, 2, 4, 20
WORDS = ["x", "y"]


def case(reason, given, code, result, phase=0, budget=0, table=0, output=65536):
    CASES.append((f"smaller: {reason}", call("shrink", given, phase, budget, table, output), "shrink", code, 0, 0,
                  (0, 0), result, "kept"))


def image_of(text, bindings=(), scopes=0, words=WORDS, made=0):
    return syntax_image(text, words=words, made=made, scopes=scopes, bindings=bindings)


def shrunk(reason, before, after, **sizes):
    """before and after are what image_of takes, text and bindings and scopes; words and made names stay."""
    case(reason, image_of(*before), 0, image_of(*after), **sizes)


def unchanged(reason, *given, **sizes):
    case(reason, image_of(*given), 0, image_of(*given), **sizes)


def refused(code, reason, given, **sizes):
    case(reason, given, code, None, **sizes)


# ==== which bindings are kept ====

shrunk("a binding that no identifier is for", ("1", [("x", [], 4)]), ("1", []))
unchanged("an identifier with the binding's own set", "x{1}", [("x", [1], 5)], 1)
unchanged("an identifier with more scopes", "x{1,2}", [("x", [1], 5)], 2)
unchanged("the empty set is in every set", "x{1}", [("x", [], 5)], 1)
unchanged("the empty set is in the empty set", "x", [("x", [], 5)])
shrunk("an identifier with fewer scopes", ("x{1}", [("x", [1, 2], 5)], 2), ("x{1}", [], 1))
shrunk("an identifier beside the set", ("x{1}", [("x", [2], 5)], 2), ("x{1}", [], 1))
shrunk("an identifier without scopes", ("x", [("x", [1], 5)], 1), ("x", []))
shrunk("an identifier of another symbol", ("y{1}", [("x", [1], 4)], 1), ("y{1}", [], 1))
shrunk("a number with the set is no identifier", ("(1{1} @4{1} #0{1} 'and{1})", [("x", [1], 4)], 1),
       ("(1{1} @4{1} #0{1} 'and{1})", [], 1))
shrunk("a number with the symbol's number is no identifier", ("4", [("x", [], 4)]), ("4", []))
shrunk("a list with the set is no identifier", ("(){1}", [("x", [1], 4)], 1), ("(){1}", [], 1))
unchanged("contained at phase 1 alone", "x{|1}", [("x", [1], 4)], 1)
unchanged("contained at phase 2 alone", "x{||1}", [("x", [1], 4)], 1)
unchanged("contained at phase 1, beside it at the others", "x{2|1|2}", [("x", [1], 4)], 2)
shrunk("in all phases together, in none alone", ("x{1|2|3}", [("x", [1, 2], 4), ("x", [1, 3], 4), ("x", [2, 3], 4)], 3),
       ("x{1|2|3}", [], 3))
unchanged("by one of two identifiers", "(x{1} x{2})", [("x", [1], 4), ("x", [2], 5)], 2)
unchanged("one identifier keeps all that it contains", "x{1,2}", [("x", [], 4), ("x", [1], 4), ("x", [1, 2], 5), ("x", [2], 4)], 2)
unchanged("in quoted text", "(quote x{1})", [("x", [1], 4)], 1)
unchanged("in syntax text", "(syntax x{1})", [("x", [1], 4)], 1)
unchanged("deep in quoted text", "(quote (1 (2 (x{|1}))))", [("x", [1], 4)], 1)
unchanged("a binder keeps what it contains", "(lambda x{1} x{1})", [("x", [1], 5)], 1)
unchanged("a core word that is bound", "(quote{1} y)", [("quote", [1], 5)], 1)
shrunk("a core word's binding that nothing uses", ("(quote y)", [("quote", [1], 5)], 1), ("(quote y)", []))
unchanged("bindings that compete both stay", "x{1,2}", [("x", [1], 4), ("x", [2], 5)], 2)
shrunk("the middle one of three", ("(x{1} x{3})", [("x", [1], 4), ("x", [2], 5), ("x", [3], 4)], 3),
       ("(x{1} x{2})", [("x", [1], 4), ("x", [2], 4)], 2))
shrunk("the first and the last of three", ("x{2}", [("x", [1], 4), ("x", [2], 5), ("y", [2], 4)], 2), ("x{1}", [("x", [1], 5)], 1))
shrunk("of one symbol and not of the other", ("(x{1} y{2})", [("x", [1], 4), ("x", [2], 5), ("y", [1], 4), ("y", [2], 5)], 2),
       ("(x{1} y{2})", [("x", [1], 4), ("y", [2], 5)], 2))

# ==== which scopes are left, and their numbers ====

shrunk("scopes that are in no set", ("x", [], 256), ("x", []))
shrunk("a scope of a dropped binding alone", ("x{2}", [("x", [1], 4)], 2), ("x{1}", [], 1))
shrunk("a gap is closed", ("(x{1} x{3})", [], 3), ("(x{1} x{2})", [], 2))
shrunk("gaps before, between and behind", ("(x{2,5} y{7})", [("x", [2], 4), ("x", [5], 5), ("y", [7], 4)], 9),
       ("(x{1,2} y{3})", [("x", [1], 4), ("x", [2], 5), ("y", [3], 4)], 3))
unchanged("the scopes of a list stay", "(1){1}", [], 1)
unchanged("the scopes of an atom stay", "1{1}", [], 1)
unchanged("the scopes of the empty list stay", "(){1,2|3|1}", [], 3)
unchanged("scopes at phase 1 and 2 alone stay", "x{|1|2}", [], 2)
shrunk("each phase is renumbered alike", ("x{2|4|2,6}", [], 6), ("x{1|2|1,3}", [], 3))
shrunk("bindings are renumbered alike", ("x{3,5,9}", [("x", [], 4), ("x", [3, 9], 5), ("x", [5], 4)], 9),
       ("x{1,2,3}", [("x", [], 4), ("x", [1, 3], 5), ("x", [2], 4)], 3))
shrunk("the order of bindings stays", ("(x{1,4,9} x{4,9})", [("x", [1, 4], 4), ("x", [4], 5), ("x", [4, 9], 4), ("x", [9], 5)], 9),
       ("(x{1,2,3} x{2,3})", [("x", [1, 2], 4), ("x", [2], 5), ("x", [2, 3], 4), ("x", [3], 5)], 3))
shrunk("a list's own set is renumbered", ("(1){2}", [], 2), ("(1){1}", [], 1))
shrunk("a number's own set is renumbered", ("(1{3}){2}", [], 4), ("(1{2}){1}", [], 2))
unchanged("the last scope alone is in use", "x{1}", [], 1)
shrunk("scope 256 alone", ("x{256}", [("x", [256], 4)], 256), ("x{1}", [("x", [1], 4)], 1))
shrunk("scopes 128 and 129, of two groups, get numbers of one", ("x{127,128,129}", [], 256), ("x{1,2,3}", [], 3))
shrunk("one of each word of a set", ("x{1,64,65,128,129,192,193,256}", [("x", [64, 65], 4), ("x", [192, 256], 5)], 256),
       ("x{1,2,3,4,5,6,7,8}", [("x", [2, 3], 4), ("x", [6, 8], 5)], 8))

ALL = ",".join(map(str, range(1, 257)))
EVEN = list(range(2, 257, 2))
unchanged("256 scopes in one set", "x{" + ALL + "}", [("x", [], 4)], 256)
unchanged("256 scopes, one in each object", "(" + " ".join(f"x{{{k}}}" for k in range(1, 257)) + ")", [], 256)
shrunk("every second of 256 scopes", ("x{" + ",".join(map(str, EVEN)) + "}", [("x", EVEN, 4)], 256),
       ("x{" + ",".join(map(str, range(1, 129))) + "}", [("x", list(range(1, 129)), 4)], 128))

# ==== 512 bindings ====

PAIRS = [[low, high] for low in range(1, 33) for high in range(low + 1, 33)]  # 496
SETS = [[], *PAIRS, *([k] for k in range(1, 16))]
assert len(SETS) == 512
FULL = [("x", s, 4) for s in SETS]
unchanged("512 bindings, all used by one identifier", "x{" + ",".join(map(str, range(1, 33))) + "}", FULL, 32)
shrunk("512 bindings, none used", ("y{3}", FULL, 32), ("y{1}", [], 1))
shrunk("512 bindings, of which one set holds four", ("x{3,7}", FULL, 32), ("x{1,2}", [("x", [], 4), ("x", [1], 4), ("x", [1, 2], 4), ("x", [2], 4)], 2))
MANY = [f"w{i}" for i in range(512)]
shrunk("512 words with a binding each, every second used",
       ("(" + " ".join(f"w{i}{{{i % 256 + 1}}}" for i in range(0, 512, 2)) + ")",
        [(w, [i % 256 + 1], 4) for i, w in enumerate(MANY)], 256, MANY),
       ("(" + " ".join(f"w{i}{{{i % 256 // 2 + 1}}}" for i in range(0, 512, 2)) + ")",
        [(f"w{i}", [i % 256 // 2 + 1], 4) for i in range(0, 512, 2)], 128, MANY))

# ==== names and words stay ====

shrunk("words that nothing uses stay, and made names", ("1", [("x", [], 9)], 1, ["x", "y", "z"], 3), ("1", [], 0, ["x", "y", "z"], 3))
unchanged("the target of a kept binding is a made name", "x{1}", [("x", [1], 1023)], 1, ["x"], 1019)
shrunk("the target of a dropped binding is a made name", ("y", [("x", [1], 1023)], 1, ["x", "y"], 1018), ("y", [], 0, ["x", "y"], 1018))
unchanged("1,020 words", "x", [], 0, ["x", *(f"w{i}" for i in range(1019))], 0)

# ==== doing it twice, and what comes of it ====

BEFORE = image_of("(lambda x{3} (x{3} (syntax x{5})))", [("x", [2], 5), ("x", [3], 6), ("x", [5], 4)], 7, WORDS, 1)
AFTER = image_of("(lambda x{1} (x{1} (syntax x{2})))", [("x", [1], 6), ("x", [2], 4)], 2, WORDS, 1)
case("once", BEFORE, 0, AFTER)
case("twice changes nothing more", AFTER, 0, AFTER)


def then(reason, job, given, code, units, result, **sizes):
    CASES.append((f"smaller: {reason}", call(job, given, **sizes), job, code, units, 0, (0, 0), result, "clear"))


# Loading 8, of which the lists are 3, and an entry each for the function, its body, the variable and the syntax text.
then("parsed before", "parse", BEFORE, 0, 12, tree_image("[6 ($6 `x{5})]", words=WORDS, made=1, scopes=7))
then("parsed after, for the same units", "parse", AFTER, 0, 12, tree_image("[6 ($6 `x{2})]", words=WORDS, made=1, scopes=2))

# A full image has no scope left for a lambda; made smaller, it has 256. Loading 4, an entry.
CROWDED = image_of("(lambda x x)", [], 256, ["x"])
then("256 scopes leave none for a lambda", "expand", CROWDED, 14, 5, None)
case("they are in no set", CROWDED, 0, image_of("(lambda x x)", [], 0, ["x"]))
then("what is freed is room for a lambda", "expand", image_of("(lambda x x)", [], 0, ["x"]), 0, 8,
     image_of("(lambda x{1} x{1})", [("x", [1], 5)], 1, ["x"], 1))

# ==== refusals ====

refused(LAYOUT, "no bytes", b"")
refused(LAYOUT, "a kind that is not there", b"\3")
refused(KIND, "a tree", tree_image("1"))
refused(OVER, "257 scopes", head(1, [], 0, 0)[:-1] + number(257))
refused(OVER, "513 bindings", head(1, [], 0, 0) + number(513))
refused(LAYOUT, "a scope that is not declared", image_of("x{2}", [], 1))
refused(LAYOUT, "a set that does not ascend", head(1, ["x"], 0, 2) + b"\0" + b"\0\2\2\1\0\0\4")
refused(LAYOUT, "bindings out of order", head(1, ["x"], 0, 2) + b"\2" + b"\4\4" + scope_set([2]) + b"\4\4" + scope_set([1]) + b"\1\0\0\0\0")
refused(LAYOUT, "a byte left over", BEFORE + b"\0")
refused(LAYOUT, "the last byte is missing", BEFORE[:-1])
refused(OVER, "65,537 bytes with a fault at their front", bytes(65537))
refused(OVER, "65,537 bytes of another kind", b"\2" + bytes(65536))
refused(LAYOUT, "65,536 bytes with a fault at their front", bytes(65536))
case("an output just long enough for the smaller image", BEFORE, 0, AFTER, output=len(AFTER))
case("an output one byte longer", BEFORE, 0, AFTER, output=len(AFTER) + 1)
refused(LONG, "an output one byte short", BEFORE, output=len(AFTER) - 1)
refused(LONG, "no output", BEFORE, output=0)
refused(LAYOUT, "a fault comes before a short output", BEFORE[:-1], output=0)
case("phase, budget and table are not used", BEFORE, 0, AFTER, phase=4294967295, budget=4294967295, table=3)


def padded(length):
    """An image of so many bytes, whose last scopes and bindings are in use."""
    root = b"\5" + scope_set(range(1, 257)) + b"\0\0"
    words = [f"{chr(97 + i % 26)}{i}" for i in range(3)]
    start = head(1, words, 0, 256) + b"\0" + root
    atom = b"\1\0\0\0\0"
    left = length - len(start) - 2  # those of the count
    count, more = divmod(left, len(atom))
    # a number of two groups is a byte longer
    body = b"".join(b"\1\0\0\0" + number(128 if i < more else 0) for i in range(count))
    made = start + number(count) + body
    assert len(made) == length, (length, len(made))
    return made


LONGEST = padded(65536)
case("an image of 65,536 bytes that stays as it is", LONGEST, 0, LONGEST)
case("the same in a longer output", LONGEST, 0, LONGEST, output=70000)
refused(LONG, "the same in an output one byte short", LONGEST, output=65535)
refused(OVER, "an image of 65,537 bytes", padded(65537), output=70000)
WIDE = head(1, ["x"], 0, 256) + b"\0\5\0\0\0" + number(8191) + (b"\0" + scope_set([256]) + b"\0\0\4") * 8191
NARROW = head(1, ["x"], 0, 1) + b"\0\5\0\0\0" + number(8191) + (b"\0" + scope_set([1]) + b"\0\0\4") * 8191
case("8,191 identifiers, each a byte shorter", WIDE, 0, NARROW)
