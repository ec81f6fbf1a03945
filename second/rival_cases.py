"""Edge cases of who competes (request T-04), worked out by hand.

With code 6 the answer has the places, from 1 and in image order, of two bindings:
the first two of those candidates that no other candidate contains. As in
edge_cases.py, which takes these in, each case is a reason, a call and the answer
asked for, and the notation is the one of image.py.

A set that stands behind a smaller one that it contains begins with all of that one's
scopes, and so does every set between the two. So a candidate that another one behind it
contains is contained in the next candidate too.
"""
from image import call, syntax_image

CASES = []  # as in edge_cases.py


def rivals(reason, places, job, text, rows, units, phase=0, scopes=4, words=("x", "y")):
    """rows are bindings as (word, set), in any order; their targets do not matter."""
    image = syntax_image(text, words=words, made=1, scopes=scopes, bindings=[(w, s, 4) for w, s in rows])
    CASES.append((f"who competes: {job}: {reason}", call(job, image, phase), job, 6, units, 0, places, None, "clear"))


def resolve(reason, places, text, rows, **named):
    rivals(reason, places, "resolve", text, rows, 1, **named)


def of_x(*sets):
    return [("x", s) for s in sets]


# ==== which of the candidates ====

resolve("the wrong turn of document 01", (1, 2), "x{1,2,3}", of_x([1, 2], [3]))
resolve("two that share a scope", (1, 2), "x{1,2,3}", of_x([1, 3], [2, 3]))
resolve("the empty set is in all others", (2, 3), "x{1,2}", of_x([], [1], [2]))
resolve("the first is in the third, and so in the second", (2, 3), "x{1,2,3}", of_x([1], [1, 2], [1, 3]))
resolve("the first is in the second, not in the third", (2, 3), "x{1,2,3}", of_x([1], [1, 2], [3]))
resolve("the second is in the first", (1, 3), "x{1,2,3}", of_x([1, 2], [2], [3]))
resolve("the second is in the first and in the third", (1, 3), "x{1,2,3}", of_x([1, 2], [2], [2, 3]))
resolve("the second is in the third, not in the first", (1, 3), "x{1,2,3}", of_x([1], [2], [2, 3]))
resolve("the third is in the first", (1, 2), "x{1,2,3}", of_x([1, 3], [2], [3]))
resolve("the third is in the second", (1, 2), "x{1,2,3}", of_x([1], [2, 3], [3]))
resolve("of three apart the first two", (1, 2), "x{1,2,3}", of_x([1], [2], [3]))
resolve("of four apart the first two", (1, 2), "x{1,2,3,4}", of_x([1], [2], [3], [4]))
resolve("two chains, of each the end", (3, 6), "x{1,2,3,4,5,6}",
        of_x([1], [1, 2], [1, 2, 3], [4], [4, 5], [4, 5, 6]), scopes=6)
resolve("two chains that begin with the largest", (1, 2), "x{1,2,3,4}", of_x([1, 2, 3], [1, 4], [2, 3], [3], [4]))
resolve("a chain, and what is beside it comes last", (4, 8), "x{1,2,3,4,5}",
        of_x([], [1], [1, 2], [1, 2, 3, 4], [2], [3], [4], [5]), scopes=5)
resolve("one contains all but the last", (2, 9), "x{1,2,3,4,5,6,7,8}",
        of_x([1], [1, 2, 3, 4, 5, 6, 7], [2], [3], [4], [5], [6], [7], [8]), scopes=8)
resolve("one contains all but the first", (1, 2), "x{1,2,3,4}", of_x([1], [2, 3, 4], [3], [4]))
resolve("all pairs of four: the first two", (1, 2), "x{1,2,3,4}",
        of_x([1, 2], [1, 3], [1, 4], [2, 3], [2, 4], [3, 4]))
resolve("all pairs of four and their scopes alone", (2, 3), "x{1,2,3,4}",
        of_x([1], [1, 2], [1, 3], [1, 4], [2], [2, 3], [2, 4], [3], [3, 4], [4]))
resolve("pairs and one of three", (1, 4), "x{1,2,3,4}", of_x([1, 2, 3], [1, 3], [2, 3], [2, 4]))
resolve("more scopes do not come first", (1, 3), "x{1,2,3,4}", of_x([1], [2, 3], [2, 3, 4]))

# ==== places among all bindings ====

resolve("a binding between them is no candidate", (1, 3), "x{1,2}", of_x([1], [1, 3], [2]))
resolve("a binding before them is no candidate", (2, 3), "x{2,3}", of_x([1], [2], [3]))
resolve("bindings around them are no candidates", (3, 7), "x{2,4}",
        of_x([1], [1, 2], [2], [2, 3], [2, 3, 4], [3], [4]))
resolve("what is no candidate contains nothing: {1,2,3} does not count", (1, 3), "x{1,2}", of_x([1], [1, 2, 3], [2]))
resolve("another word's bindings stand before", (4, 5), "x{1,2}",
        [("w", []), ("w", [1]), ("w", [1, 2]), *of_x([1], [2])], words=["w", "x"])
resolve("another word's bindings stand behind", (1, 2), "x{1,2}", [*of_x([1], [2]), ("y", [1, 2])])
resolve("bindings of core words stand before", (3, 4), "x{1,2}",
        [("lambda", [1]), ("syntax", [1, 2]), *of_x([1], [2])])
resolve("bindings on all sides", (4, 6), "x{1,2}",
        [("quote", [1, 2]), ("w", [1, 2]), *of_x([], [1], [1, 4], [2]), ("y", [1, 2])], words=["w", "x", "y"])
resolve("another word's binding does not contain them", (2, 3), "x{1,2}",
        [("w", [1, 2]), *of_x([1], [2])], words=["w", "x"])
resolve("a core word is ambiguous", (1, 2), "let-syntax{1,2}",
        [("let-syntax", [1]), ("let-syntax", [2]), ("x", [1, 2])])
resolve("at phase 1 other bindings compete than at phase 0", (3, 4), "x{1,2|3,4}", of_x([1], [2], [3], [4]), phase=1)
resolve("at phase 2", (1, 4), "x{1,2|3,4|1,4}", of_x([1], [2], [3], [4]), phase=2)
resolve("at phase 0, the same", (1, 2), "x{1,2|3,4|1,4}", of_x([1], [2], [3], [4]))

# Sets of one scope and of two out of 32, in order: behind [a] stand the pairs [a,b]. Up to 26 these are
# 33 * 26 - 26 * 27 / 2 = 507, then come [27], [27,28], [27,29], [27,30] and [27,31].
PAIRS = sorted([[a] for a in range(1, 33)] + [[a, b] for a in range(1, 33) for b in range(a + 1, 33)])[:512]
assert PAIRS[507] == [27] and PAIRS[-1] == [27, 31]
ALL_32 = list(range(1, 33))
SHOWN_32 = "{" + ",".join(map(str, ALL_32)) + "}"
resolve("of 512 bindings the last two", (511, 512), "x{27,30,31}", of_x(*PAIRS), scopes=32)
resolve("512 bindings, all of them candidates: the first two pairs", (2, 3), "x" + SHOWN_32, of_x(*PAIRS), scopes=32)
resolve("of 512 bindings the third contains all but the last", (3, 512), "x{" + SHOWN_32[1:-1] + ",33}",
        of_x(*PAIRS[:510], ALL_32, [33]), scopes=33)
resolve("of 512 bindings the first and the last", (1, 512), "x{1,40}",
        of_x([1], *([a + 1 for a in s] for s in PAIRS[:510]), [40]), scopes=40)
resolve("of 512 bindings the first one is too small", (2, 512), "x{1,2,40}",
        of_x([1], [1, 2], *([a + 2 for a in s] for s in PAIRS[:509]), [40]), scopes=40)

# ==== sets of four words ====

for h in (65, 128, 129, 192, 193, 256):
    resolve(f"scope {h} stands alone", (1, 2), f"x{{1,{h}}}", of_x([1], [h]), scopes=256)
    resolve(f"with scope {h} the second contains the first", (2, 3), f"x{{1,2,{h}}}", of_x([1], [1, h], [2]), scopes=256)
    resolve(f"with scope {h} the first contains the last", (1, 2), f"x{{1,2,{h}}}", of_x([1, h], [2], [h]), scopes=256)
    resolve(f"without scope {h} it is no candidate", (1, 3), "x{1,2}", of_x([1], [1, h], [2]), scopes=256)
    resolve(f"beside scope {h} none contains another", (1, 2), f"x{{1,2,3,{h}}}", of_x([1, h], [2, h], [3, h]), scopes=256)
resolve("1, 65, 129 and 193 alone", (1, 2), "x{1,65,129,193}", of_x([1], [65], [129], [193]), scopes=256)
resolve("a chain over the words, and 256", (4, 5), "x{1,65,129,193,256}",
        of_x([1], [1, 65], [1, 65, 129], [1, 65, 129, 193], [256]), scopes=256)
resolve("the first is in the third, over the words", (2, 3), "x{129,193,256}",
        of_x([129], [129, 193], [129, 256]), scopes=256)
resolve("the second is in both, over the words", (1, 3), "x{1,200,256}",
        of_x([1, 200], [200], [200, 256], [256]), scopes=256)
EVERY = list(range(1, 257))
resolve("all scopes but one, three ways", (1, 2), "x{" + ",".join(map(str, EVERY)) + "}",
        of_x(EVERY[:-1], EVERY[:128] + EVERY[129:], EVERY[1:]), scopes=256)

# ==== expanding: the store at that moment ====


def expand(reason, places, text, rows, units, **named):
    rivals(reason, places, "expand", text, rows, units, **named)


# Fresh scopes begin at 5. `(lambda x{1} x{1,2})` binds x{1,5}, and then x{1,2,5} is looked for: loading 4,
# an entry, the binder, the body and its entry.
MADE = "(lambda x{1} x{1,2})"
expand("a binding just made stands before the image's own", (1, 2), MADE, [("x", [2]), ("y", [])], 8)
expand("a binding just made stands before, and others before it", (3, 4), MADE,
       [("w", [1]), ("w", [2]), ("x", [2]), ("y", [])], 8, words=["w", "x", "y"])
expand("a binding just made stands between", (2, 3), MADE, of_x([1, 3], [2], [2, 3]), 8)
expand("a binding just made stands behind", (1, 2), "(lambda x{2} x{1,2})", [("x", [1]), ("y", [])], 8)
expand("a binding just made contains the first one", (2, 3), MADE, [*of_x([1], [2]), ("y", [])], 8)
expand("a binding just made, and two behind it", (1, 2), "(lambda x{1} x{1,2,3})", of_x([2], [3], [3, 4]), 8)
expand("a binding just made, and one behind it in another", (1, 3), "(lambda x{1} x{1,2,3})", of_x([2], [2, 3]), 8)
expand("the 512th binding is made", (511, 512), "(lambda x{1} x{1,40})",
       [*(("w", s) for s in PAIRS[:510]), ("x", [40])], 8, words=["w", "x"], scopes=40)
expand("a binding just made with a scope over 128 stands before", (1, 2), "(lambda x{1,130} x{1,130,200})",
       [("x", [200]), ("y", [])], 8, scopes=254)
# The outer lambda binds x{1,5}, the inner one x{2,5,6}; x{1,2,5,6} is looked for.
TWICE = "(lambda x{1} (lambda x{2} x{1,2}))"
TWICE_UNITS = 7 + (1 + 1 + 4) + (1 + 1 + 1) + 1
expand("two bindings just made", (1, 2), TWICE, [("y", [])], TWICE_UNITS)
expand("two bindings just made, behind one of the image", (2, 3), TWICE, [("x", []), ("y", [])], TWICE_UNITS)
expand("two bindings just made, one of the image between", (1, 3), TWICE, of_x([2]), TWICE_UNITS)
expand("two bindings just made, those of the image around the first", (2, 4), TWICE, of_x([1, 4], [2]), TWICE_UNITS)
# The parts are expanded from left to right: the binding of w is there behind its lambda, not before.
LEFT_RIGHT = dict(words=["w", "x"])
expand("before the binding of another word is made", (1, 2), "(1 x{1,2} (lambda w w))", of_x([1], [2]), 7 + 1 + 1 + 1,
       **LEFT_RIGHT)
expand("after the binding of another word is made", (2, 3), "(1 (lambda w w) x{1,2})", of_x([1], [2]),
       7 + 1 + 1 + 4 + 1, **LEFT_RIGHT)
expand("inside the lambda of another word", (2, 3), "(lambda w x{1,2})", of_x([1], [2]), 8, **LEFT_RIGHT)
expand("inside the lambda of a later word", (1, 2), "(lambda y x{1,2})", of_x([1], [2]), 8)
expand("a head", (1, 2), "(x{1,2} (lambda x x))", of_x([1], [2]), 6 + 1)
expand("a core word as head", (2, 3), "(lambda{1,2} x x)",
       [("lambda", []), ("lambda", [1]), ("lambda", [2]), ("x", [1, 2])], 4 + 1)
expand("phase 1", (1, 3), "x{1|2,3}", of_x([2], [2, 4], [3]), 2, phase=1)
expand("phase 2", (2, 4), "x{||2,4}", of_x([1], [2], [3], [4]), 2, phase=2)
expand("the body of a let-syntax", (2, 3), "(let-syntax m 1 x{1,2})", of_x([1], [2]), 5 + 1 + 1 + 3 + 1 + 1,
       words=["m", "x"])
# Right-hand sides are expanded one phase up, after the binder of their macro is bound.
expand("a right-hand side", (2, 3), "(let-syntax m x{|1,2} 1)", of_x([1], [2]), 5 + 1 + 1 + 1, words=["m", "x"])
expand("a right-hand side, the macro's word behind", (1, 2), "(let-syntax m x{|1,2} 1)", of_x([1], [2]), 5 + 1 + 1 + 1,
       words=["x", "m"])
expand("a head in a right-hand side", (2, 3), "(let-syntax m (x{|1,2} 1) 1)", of_x([1], [2]), 7 + 1 + 1 + 1,
       words=["m", "x"])
expand("a binding just made in a right-hand side stands before the image's own", (1, 2),
       "(let-syntax m (lambda x{|1} x{|1,2}) 1)", of_x([2]), 8 + 1 + 1 + 1 + 1 + 1 + 1, words=["x", "m"])
expand("a right-hand side two phases up", (3, 4), "(let-syntax m (let-syntax n x{||1,2} 1) 1)", of_x([1], [2]),
       9 + 1 + 1 + 1 + 1 + 1, words=["m", "n", "x"])
# m gives x with its own set and the introduction scope; the bindings of m and z stand before those of x.
expand("what a macro gives", (3, 4), "(let-syntax m (lambda z (syntax x{1,2})) (m))", of_x([1], [2]), 37,
       words=["m", "z", "x"])

# ==== parsing ====


def parse(reason, places, text, rows, units, **named):
    rivals(reason, places, "parse", text, rows, units, **named)


BETWEEN = [("w", [1, 2]), *of_x([], [1], [1, 3], [2]), ("y", [])]  # x{1,2}: 3 and 5
for what, text, units in (("a variable", "x{1,2}", 2), ("a binder", "(lambda x{1,2} x{1,2})", 5),
                          ("a head", "(x{1,2} y)", 4), ("the body of a lambda", "(lambda y x{1,2})", 6),
                          ("the last part of an application", "(1 y x{1,2})", 8),
                          ("phase 0, whatever the others", "x{1,2|1|2}", 2),
                          ("inside an application that is a head", "((x{1,2}) ())", 4 + 1 + 1)):
    parse(what, (3, 5), text, BETWEEN, units, words=["w", "x", "y"])
parse("the first of two ambiguous words", (1, 2), "(1 x{1,2} y{1,2})", of_x([1], [2]) + [("y", [1]), ("y", [2])],
      4 + 1 + 1 + 1)
parse("the first of two ambiguous words, the other way", (3, 4), "(1 y{1,2} x{1,2})",
      of_x([1], [2]) + [("y", [1]), ("y", [2])], 4 + 1 + 1 + 1)
