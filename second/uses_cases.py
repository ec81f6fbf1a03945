"""Edge cases of where a bit is used (request T-10), worked out by hand.

As in edge_cases.py, which takes these in, each case is a reason, a call and the
answer asked for, and the notation is the one of image.py. A summary is a size and
what is used: {4: (2, 7)} where name 4 has two uses, the first of them at place 7. Places
count from 0, a whole before its parts, left to right; where they are not plain, a
line under the tree has the last digit of each.
"""
from image import call, in_words, number, summary, syntax_image, tree_image, tree_part

CASES = []  # as in edge_cases.py
MADE = 4  # made names 4 to 7, so there are 8 names, where a case says nothing else
LARGEST = 4294967295


def case(job, reason, code, result, image, output=65536, phase=0, budget=0, table=0, **behind):
    CASES.append((f"{job}: {reason}", call(job, image, phase, budget, table, output, **behind), job, code, 0, 0, (0, 0),
                  result, "kept"))


def in_image(given, **counts):
    """given is an image, or the notation of a tree."""
    return given if isinstance(given, bytes) else tree_image(given, **{"made": MADE} | counts)


def names_of(words=(), made=MADE, scopes=0):
    return 4 + len(words) + made


def lent(sum_, **counts):
    """sum_ is a summary in bytes, or a size and what is used."""
    return sum_ if isinstance(sum_, bytes) else summary(sum_[0], names_of(**counts), sum_[1])


def part_of(part, words=()):
    return part if isinstance(part, bytes) else tree_part(part, words)


# ==== the summary of a tree ====

def summed(reason, tree, size, used, numbers=None, **counts):
    case("summary", reason, 0, lent((size, used), **counts), in_image(tree, **counts), **numbers or {})


def not_summed(reason, code, image, **numbers):
    case("summary", reason, code, None, in_image(image), **numbers)


summed("a number", "9", 1, {})
summed("a variable alone: one use, its place is 0", "$4", 1, {4: (1, 0)})
summed("a whole before its parts", "($4)", 2, {4: (1, 1)})
summed("left to right", "($6 $5 $4)", 4, {6: (1, 1), 5: (1, 2), 4: (1, 3)})
summed("the first of several", "(1 $5 $4 $5 $4 $4)", 7, {5: (2, 2), 4: (3, 3)})
summed("a function's own name is no use", "[4 9]", 2, {})
summed("a function is one, its body follows", "[4 $4]", 2, {4: (1, 1)})
summed("a function of the name around it makes no difference", "[4 [4 $4]]", 3, {4: (1, 2)})
summed("sample 13", "([4 $4] 9)", 4, {4: (1, 2)})
summed("the empty list value", "<>", 1, {})
summed("a list value is one more than its parts", "<1 2 3>", 4, {})
summed("variables in functions in list values", "(<[4 $5] <> [5 $5]> $5)", 8, {5: (3, 3)})
#                                               0 12  3  4  5  6   7
summed("lists in lists", "(<<1> <<>>> $4)", 7, {4: (1, 6)})
summed("an application in an application", "(($4 $5) ($5 $4))", 7, {4: (2, 2), 5: (2, 3)})
for tree in ("x", "@3", "#0", "'and", "lambda"):
    summed(f"the atom {tree} is no use", f"({tree} $4)", 3, {4: (1, 2)}, words=["x"])
summed("a syntax value is one and no use", "`x", 1, {}, words=["x"])
summed("a syntax value hides what it holds", "($4 `(x (y 1) () x) $4)", 4, {4: (2, 1)}, words=["x", "y"], made=0)
summed("a syntax value in a list value", "(<`(x x) 1> $4)", 5, {4: (1, 4)}, words=["x"])
summed("syntax values with scopes", "(`x{1,2|3} $4 `(){1})", 4, {4: (1, 2)}, words=["x"], scopes=3)
summed("names of core forms are names", "($3 $0 $3)", 4, {0: (1, 2), 3: (2, 1)})
summed("no names but the core ones", "$0", 1, {0: (1, 0)}, made=0)
summed("words are names", "($4 $5)", 3, {4: (1, 1), 5: (1, 2)}, words=["x", "y"], made=0)
summed("words and made names", "($4 $6 $8)", 4, {4: (1, 1), 6: (1, 2), 8: (1, 3)}, words=["x", "y"], made=3)
summed("scopes are no names", "$4", 1, {4: (1, 0)}, scopes=256)
summed("1,024 names", "($1023 $4)", 3, {1023: (1, 1), 4: (1, 2)}, made=1020)
summed("a bit of a panel: two contacts and the coil that sets it",
       "([4 ('all ('set $4 ('or @1 $4)) ('out @10 $4))] 0)", 16, {4: (3, 6)})
#       01  2 3    45    6  78   9  0   12    3   4     5
summed("two bits of one name are counted together", "('all ([4 ('set $4 @1)] 0) ([4 ('set $4 @1)] 1))", 16, {4: (2, 6)})
summed("an open tree has a summary too", "($7 [4 $5])", 4, {7: (1, 1), 5: (1, 3)})
summed("nesting 64", "(" * 63 + "$4" + ")" * 63, 64, {4: (1, 63)})
not_summed("nesting 65", 2, "(" * 64 + "$4" + ")" * 64)

# 8 bytes, and 2 for each variable.
LONGEST = tree_image("(" + "$4 " * 32764 + ")", made=1)
assert len(LONGEST) == 65536
summed("an image of 65,536 bytes", LONGEST, 32765, {4: (32764, 1)}, made=1)
not_summed("an image of 65,537 bytes", 2, LONGEST + b"\0")
not_summed("65,537 bytes that break the layout", 2, bytes(65537))
not_summed("no image", 1, b"")
not_summed("a syntax image", 4, syntax_image("x"))
not_summed("a byte left over", 1, in_image("9") + b"\0")
not_summed("a variable that is not declared", 1, "$8")
not_summed("an application of nothing", 1, tree_image(b"\1\0"))
not_summed("a variable in a list value", 1, "<$4>")
not_summed("point 1,024", 2, "@1024")

# Eight names take 18 words, 72 bytes.
for room in (72, 73, 75, 76, 70000):
    summed(f"{room} bytes lent", "$4", 1, {4: (1, 0)}, dict(output=room))
for room in (0, 1, 68, 71):
    not_summed(f"{room} bytes lent are too few", 20, "$4", output=room)
not_summed("one word too few for 1,024 names", 20, tree_image("1", made=1020), output=8196)
not_summed("1 before 20", 1, b"", output=0)
not_summed("2 before 20", 2, "@1024", output=0)
not_summed("4 before 20", 4, syntax_image("x"), output=0)
summed("phase, budget and table are not used", "$4", 1, {4: (1, 0)}, dict(phase=LARGEST, budget=LARGEST, table=9))

# ==== a question ====

def asked(reason, tree, given, name, count, first, numbers=None, **counts):
    case("uses", reason, 0, in_words([count, first]), in_image(tree, **counts), phase=name, summary=lent(given, **counts),
         **numbers or {})


def not_asked(reason, code, tree, given, name, numbers=None, **counts):
    case("uses", reason, code, None, in_image(tree, **counts), phase=name, summary=lent(given, **counts), **numbers or {})


PANEL = "([4 ('all ('set $4 ('or @1 $4)) ('out @10 $5))] 0)"  # places as above, so 5 is used at 14
PANEL_SUM = 16, {4: (2, 6), 5: (1, 14)}
for name in range(8):
    asked(f"name {name}", PANEL, PANEL_SUM, name, *PANEL_SUM[1].get(name, (0, 0)))
for name in (8, 9, 127, 128, 256 + 4, 1023, 1024, 65536 + 4, LARGEST):
    not_asked(f"name {name} of 8", 30, PANEL, PANEL_SUM, name)
asked("the last of 1,024 names", "($1023 1)", (3, {1023: (1, 1)}), 1023, 1, 1, made=1020)
not_asked("name 1,024", 30, "($1023 1)", (3, {1023: (1, 1)}), 1024, made=1020)
asked("the last core name, no others", "$3", (1, {3: (1, 0)}), 3, 1, 0, made=0)
not_asked("the first name behind the core names", 30, "$3", (1, {3: (1, 0)}), 4, made=0)
asked("a word is a name", "($5)", (2, {5: (1, 1)}), 5, 1, 1, words=["x", "y"], made=0)
not_asked("one behind the words", 30, "($5)", (2, {5: (1, 1)}), 6, words=["x", "y"], made=0)
asked("an open tree", "$7", (1, {7: (1, 0)}), 7, 1, 0)
asked("the longest image", LONGEST, (32765, {4: (32764, 1)}), 4, 32764, 1, made=1)

asked("entries are not looked into", PANEL, (16, {4: (LARGEST, LARGEST)}), 4, LARGEST, LARGEST)
asked("the summary of another tree of this size, with so many names", PANEL, (16, {7: (3, 9)}), 7, 3, 9)
for size in (0, 15, 17, 16 + 65536, LARGEST):
    not_asked(f"size {size} in place of 16", 29, PANEL, (size, PANEL_SUM[1]), 4)
for names in (0, 7, 9, 8 + 256, LARGEST):
    not_asked(f"{names} names in place of 8", 29, PANEL, in_words([16, names] + [0] * 16), 4)
WHOLE = lent(PANEL_SUM)  # 18 words
not_asked("no summary", 29, PANEL, b"", 4)
not_asked("a summary of one word", 29, PANEL, WHOLE[:4], 4)
not_asked("a summary of two words", 29, PANEL, WHOLE[:8], 4)
not_asked("a summary one word too short", 29, PANEL, WHOLE[:-4], 4)
not_asked("a summary one byte too short", 29, PANEL, WHOLE[:-1], 4)
not_asked("too short, though the entry is there", 29, PANEL, WHOLE[:-4], 0)
asked("bytes behind the summary that are no word", PANEL, WHOLE + b"\1\2\3", 4, 2, 6)
asked("words behind the summary", PANEL, WHOLE + in_words([1, 2, 3]), 7, 0, 0)
not_asked("words behind the summary are no entries", 30, PANEL, WHOLE + in_words([1, 2, 3, 4]), 8)
not_asked("29 before 30, for the size", 29, PANEL, (15, {}), 8)
not_asked("29 before 30, for the length", 29, PANEL, WHOLE[:-4], 8)
not_asked("the size is that of the tree, not of what a syntax value holds", 29, "`(x x)", (3, {}), 4, words=["x"])
asked("a syntax value has size one", "`(x x)", (1, {}), 4, 0, 0, words=["x"])
not_asked("1 before 29 and 30", 1, b"", b"", LARGEST)
not_asked("2 before 29 and 30", 2, "@1024", b"", LARGEST)
not_asked("4 before 29 and 30", 4, syntax_image("x"), b"", LARGEST)
not_asked("an image of 65,537 bytes", 2, LONGEST + b"\0", (32765, {4: (32764, 1)}), 4)
not_asked("a byte left over behind the tree", 1, in_image(PANEL) + b"\0", PANEL_SUM, 4)
for room in (0, 7, 8, 70000):
    asked(f"the output length is not used: {room}", PANEL, PANEL_SUM, 4, 2, 6, dict(output=room))
asked("budget and table are not used", PANEL, PANEL_SUM, 4, 2, 6, dict(budget=LARGEST, table=9))

# ==== a replacement ====

def replaced(reason, tree, before, place, part, new, after, numbers=None, **counts):
    """tree, part and new are notations; before and after are summaries."""
    given, made = in_image(tree, **counts), in_image(new, **counts)
    case("replace", reason, 0, (made, lent(after, **counts)), given, phase=place, summary=lent(before, **counts),
         part=part_of(part, counts.get("words", ())), **numbers or {})


def not_replaced(reason, code, tree, before, place, part, numbers=None, **counts):
    case("replace", reason, code, None, in_image(tree, **counts), phase=place, summary=lent(before, **counts),
         part=part_of(part, counts.get("words", ())), **numbers or {})


# ---- at the root ----
replaced("a number by a number", "9", (1, {}), 0, "8", "8", (1, {}))
replaced("a number by a variable", "9", (1, {}), 0, "$4", "$4", (1, {4: (1, 0)}))
replaced("a variable by a number", "$4", (1, {4: (1, 0)}), 0, "9", "9", (1, {}))
replaced("a variable by itself", "$4", (1, {4: (1, 0)}), 0, "$4", "$4", (1, {4: (1, 0)}))
replaced("a variable by another", "$4", (1, {4: (1, 0)}), 0, "$5", "$5", (1, {5: (1, 0)}))
replaced("the whole by one more", "($4 $5)", (3, {4: (1, 1), 5: (1, 2)}), 0, "($5 $4 $4)", "($5 $4 $4)",
         (4, {4: (2, 2), 5: (1, 1)}))
replaced("the whole by one fewer", "($4 $5)", (3, {4: (1, 1), 5: (1, 2)}), 0, "$5", "$5", (1, {5: (1, 0)}))
replaced("the root may be any tree", "<1>", (2, {}), 0, "($4)", "($4)", (2, {4: (1, 1)}))

# ---- in a function's body ----
replaced("the body of a function", "[4 $4]", (2, {4: (1, 1)}), 1, "($4 $4)", "[4 ($4 $4)]", (4, {4: (2, 2)}))
replaced("a part of the body", "([4 ($4 $5)] $5)", (6, {4: (1, 3), 5: (2, 4)}), 4, "$4", "([4 ($4 $4)] $5)",
         (6, {4: (2, 3), 5: (1, 5)}))
#                               01  23  4   5
replaced("the function itself", "([4 $4] $4)", (4, {4: (2, 2)}), 1, "9", "(9 $4)", (3, {4: (1, 2)}))
replaced("a function by one of another name, which is no use", "([4 $4] 9)", (4, {4: (1, 2)}), 1, "[5 $4]", "([5 $4] 9)",
         (4, {4: (1, 2)}))

# ---- in list values ----
replaced("a value in a list value", "<1 2 3>", (4, {}), 2, "@5", "<1 @5 3>", (4, {}))
replaced("a value by a list value", "(<1 2> $4)", (5, {4: (1, 4)}), 3, "<7 8>", "(<1 <7 8>> $4)", (7, {4: (1, 6)}))
#                                    012 3  4                                    012 34 5    6
replaced("a value by the empty list value", "(<<1> 2> $4)", (6, {4: (1, 5)}), 2, "<>", "(<<> 2> $4)", (5, {4: (1, 4)}))
replaced("a value by a function, whose body is any tree", "<1 2>", (3, {}), 1, "[4 ($4)]", "<[4 ($4)] 2>", (5, {4: (1, 3)}))
replaced("the body of a function in a list value may be a variable", "<[4 9]>", (3, {}), 2, "$4", "<[4 $4]>", (3, {4: (1, 2)}))
replaced("a list value itself may become a variable", "(<1> 2)", (4, {}), 1, "$4", "($4 2)", (3, {4: (1, 1)}))
replaced("a list in a list", "<<1 2>>", (4, {}), 3, "9", "<<1 9>>", (4, {}))
for part in ("$4", "(1)", "($4 $4)"):
    not_replaced(f"{part} is no value in a list value", 1, "<1 2>", (3, {}), 1, part)
    not_replaced(f"{part} is no value in a list in a list", 1, "<1 <2>>", (4, {}), 3, part)
    not_replaced(f"a list value with {part} in it", 1, "(1 2)", (3, {}), 1, tree_part(f"<{part}>"))

# ---- syntax values ----
replaced("a syntax value counts one when it goes", "(`(x (x)) $4)", (3, {4: (1, 2)}), 1, "$4", "($4 $4)", (3, {4: (2, 1)}),
         words=["x"])
replaced("a syntax value counts one when it comes", "($5 $4)", (3, {5: (1, 1), 4: (1, 2)}), 1, "`(x (x) x)", "(`(x (x) x) $4)",
         (3, {4: (1, 2)}), words=["x"])
replaced("a syntax value in a list value", "<1 2>", (3, {}), 1, "`(x)", "<`(x) 2>", (3, {}), words=["x"])
replaced("a syntax value with scopes of the image", "(1 2)", (3, {}), 2, "`x{1|3}", "(1 `x{1|3})", (3, {}), words=["x"], scopes=3)
replaced("a symbol of the image", "(1 2)", (3, {}), 2, "y", "(1 y)", (3, {}), words=["x", "y"])
not_replaced("no place is inside a syntax value", 29, "`(x x)", (1, {}), 1, "9", words=["x"])

# ---- counts, and first places that stay, move or are searched for ----
FOUR = "($4 $5 $4 $6)"  # places 0, 1 to 4
FOUR_SUM = 5, {4: (2, 1), 5: (1, 2), 6: (1, 4)}
replaced("equal size, a name that is not there: the first place is searched for", FOUR, FOUR_SUM, 1, "$7", "($7 $5 $4 $6)",
         (5, {7: (1, 1), 5: (1, 2), 4: (1, 3), 6: (1, 4)}))
replaced("equal size, a name that comes earlier than it was", FOUR, FOUR_SUM, 1, "$6", "($6 $5 $4 $6)",
         (5, {6: (2, 1), 5: (1, 2), 4: (1, 3)}))
replaced("a name whose first place is before stays", FOUR, FOUR_SUM, 3, "$5", "($4 $5 $5 $6)", (5, {4: (1, 1), 5: (2, 2), 6: (1, 4)}))
replaced("a name whose first place is before, once more", FOUR, FOUR_SUM, 4, "$4", "($4 $5 $4 $4)", (5, {4: (3, 1), 5: (1, 2)}))
replaced("the last use goes", FOUR, FOUR_SUM, 2, "9", "($4 9 $4 $6)", (5, {4: (2, 1), 6: (1, 4)}))
replaced("a larger part: first places move up", FOUR, FOUR_SUM, 1, "(9 9)", "((9 9) $5 $4 $6)", (7, {5: (1, 4), 4: (1, 5), 6: (1, 6)}))
replaced("a larger part with the name: its first place is in it", FOUR, FOUR_SUM, 1, "(9 $4 $4)", "((9 $4 $4) $5 $4 $6)",
         (8, {4: (3, 3), 5: (1, 5), 6: (1, 7)}))
replaced("a smaller part: first places move down", "((9 9 $4) $5 $4)", (7, {4: (2, 4), 5: (1, 5)}), 1, "9", "(9 $5 $4)",
         (4, {5: (1, 2), 4: (1, 3)}))
replaced("a smaller part with the name", "((9 9 $4) $5 $4)", (7, {4: (2, 4), 5: (1, 5)}), 1, "$4", "($4 $5 $4)",
         (4, {4: (2, 1), 5: (1, 2)}))
replaced("a part of equal size, the name later in it", "(($4 9) $5)", (5, {4: (1, 2), 5: (1, 4)}), 1, "(9 $4)", "((9 $4) $5)",
         (5, {4: (1, 3), 5: (1, 4)}))
replaced("a part of equal size, the name earlier in it", "((9 $4) $5)", (5, {4: (1, 3), 5: (1, 4)}), 1, "($4 9)", "(($4 9) $5)",
         (5, {4: (1, 2), 5: (1, 4)}))
replaced("a name only behind comes in the part", "(9 9 $5)", (4, {5: (1, 3)}), 1, "$5", "($5 9 $5)", (4, {5: (2, 1)}))
replaced("two names are searched for, a third is not", "(($4 $5 $6) 9 $5 $6 $4)", (9, {4: (2, 2), 5: (2, 3), 6: (2, 4)}), 1, "$6",
         "($6 9 $5 $6 $4)", (6, {6: (2, 1), 5: (1, 3), 4: (1, 5)}))
#                                                  01  2  3  4  5  6  7  8
replaced("searched for in what is nested behind", "($4 [5 <[6 (9 $4)]>] $4)", (9, {4: (3, 1)}), 1, "9", "(9 [5 <[6 (9 $4)]>] $4)",
         (9, {4: (2, 7)}))
#                                                  01  2  34  56 7     8
replaced("searched for behind, not in a syntax value", "($4 `(x x) $4)", (4, {4: (2, 1)}), 1, "(1)", "((1) `(x x) $4)", (5, {4: (1, 4)}),
         words=["x"], made=0)
replaced("all uses are in the old part, and some in the new", "(1 ($4 $4 $4) 2)", (7, {4: (3, 3)}), 2, "(9 (9 $4))", "(1 (9 (9 $4)) 2)",
         (8, {4: (1, 6)}))
replaced("all uses are in the old part, and none in the new", "(1 ($4 $4 $4) 2)", (7, {4: (3, 3)}), 2, "5", "(1 5 2)", (4, {}))
replaced("a use before and one in the old part", "($4 ($4 9) $4)", (6, {4: (3, 1)}), 2, "(9 9)", "($4 (9 9) $4)", (6, {4: (2, 1)}))
replaced("the head of an application", "($4 $4)", (3, {4: (2, 1)}), 1, "'and", "('and $4)", (3, {4: (1, 2)}))
replaced("the last place", "(($4))", (3, {4: (1, 2)}), 2, "$5", "(($5))", (3, {5: (1, 2)}))
replaced("a part in the middle by one deeper", "(1 2 $4)", (4, {4: (1, 3)}), 2, "[4 [5 ($4 $5)]]", "(1 [4 [5 ($4 $5)]] $4)",
         (8, {4: (2, 5), 5: (1, 6)}))
replaced("core names are brought up to date", "($0 $3)", (3, {0: (1, 1), 3: (1, 2)}), 1, "$3", "($3 $3)", (3, {3: (2, 1)}), made=0)
replaced("1,024 names", "($1023 $4)", (3, {1023: (1, 1), 4: (1, 2)}), 1, "($4)", "(($4) $4)", (4, {4: (2, 2)}), made=1020)
replaced("words and made names", "($4 $6)", (3, {4: (1, 1), 6: (1, 2)}), 2, "($7 $5)", "($4 ($7 $5))", (5, {4: (1, 1), 7: (1, 3), 5: (1, 4)}),
         words=["x", "y"], made=2)
replaced("an open tree, and a part that opens more", "[4 $7]", (2, {7: (1, 1)}), 1, "($6 $5)", "[4 ($6 $5)]", (4, {6: (1, 2), 5: (1, 3)}))
replaced("a contact of a panel is taken out", PANEL, PANEL_SUM, 7, "@1", "([4 ('all ('set $4 @1) ('out @10 $5))] 0)",
         (13, {4: (1, 6), 5: (1, 11)}))

# ---- faults of the part ----
def bad_part(reason, code, part, tree="(1 2)", before=(3, {}), place=1, **counts):
    not_replaced(f"the part: {reason}", code, tree, before, place, part, **counts)


bad_part("no bytes", 1, b"")
bad_part("a tag that is not there", 1, b"\6\0")
bad_part("a byte left over", 1, tree_part("9") + b"\0")
bad_part("a second tree", 1, tree_part("9") + tree_part("9"))
bad_part("it ends too early", 1, tree_part("9")[:-1])
bad_part("a whole image, with its head", 1, in_image("9"))
bad_part("a name that is not declared", 1, "$8")
bad_part("a function of a name that is not declared", 1, "[8 1]")
bad_part("a symbol that is not declared, though the name is", 1, b"\3\0\4")
bad_part("a scope that is not declared", 1, "`1{1}")
bad_part("an application of nothing", 1, b"\1\0")
bad_part("an application with fewer parts than it says", 1, b"\1\2" + tree_part("9"))
bad_part("a number in a longer form", 1, b"\3\1\x80\0")
bad_part("a tag in a longer form", 1, b"\x83\0\1\1")
bad_part("a number over 4,294,967,295", 2, b"\3\1\xff\xff\xff\xff\x1f")
bad_part("point 1,024", 2, "@1024")
bad_part("primitive 10", 2, "#10")
for primitive in (7, 8, 9):  # once too large
    replaced(f"the part: primitive {primitive}", "(1 2)", (3, {}), 1, f"#{primitive}", f"(#{primitive} 2)", (3, {}))
bad_part("rung word 16", 2, "'16")
bad_part("the first fault decides: 1 before 2", 1, b"\1\2\6" + tree_part("@1024"))
bad_part("the first fault decides: 2 before 1", 2, b"\1\2" + tree_part("@1024") + b"\6")
bad_part("2 before a byte left over", 2, tree_part("@1024") + b"\0")
bad_part("65,536 bytes that break the layout", 1, b"\6" * 65536)
bad_part("65,537 bytes that break the layout", 2, b"\6" * 65537)
bad_part("a byte left over at the root", 1, tree_part("9") + b"\0", "9", (1, {}), 0)
bad_part("no bytes at the root", 1, b"", "9", (1, {}), 0)

# ---- a part at its level ----
def deep(times, inmost, opening="(", closing=")"):
    return opening * times + inmost + closing * times


# So many applications around place 63, which stands at level 64.
replaced("an atom at level 64", deep(63, "9"), (64, {}), 63, "8", deep(63, "8"), (64, {}))
replaced("a variable at level 64", deep(63, "9"), (64, {}), 63, "$4", deep(63, "$4"), (64, {4: (1, 63)}))
replaced("an empty list value at level 64", deep(63, "9"), (64, {}), 63, "<>", deep(63, "<>"), (64, {}))
replaced("a syntax value at level 64, its object too", deep(63, "9"), (64, {}), 63, "`1", deep(63, "`1"), (64, {}))
replaced("an empty list of syntax at level 64", deep(63, "9"), (64, {}), 63, "`()", deep(63, "`()"), (64, {}))
for part in ("(1)", "<1>", "[4 1]", "`(1)"):
    not_replaced(f"{part} at level 64", 2, deep(63, "9"), (64, {}), 63, part)
    replaced(f"{part} at level 63", deep(63, "9"), (64, {}), 62, part, deep(62, part), (63 if part[0] == "`" else 64, {}))
not_replaced("nesting 3 at level 63", 2, deep(63, "9"), (64, {}), 62, "((1))")
replaced("nesting 64 at the root", "9", (1, {}), 0, deep(63, "$4"), deep(63, "$4"), (64, {4: (1, 63)}))
not_replaced("nesting 65 at the root", 2, "9", (1, {}), 0, deep(64, "$4"))
replaced("nesting 63 at level 2", "(9)", (2, {}), 1, deep(62, "$4"), deep(63, "$4"), (64, {4: (1, 63)}))
not_replaced("nesting 64 at level 2", 2, "(9)", (2, {}), 1, deep(63, "$4"))
replaced("nesting 63 in a function's body", "[4 9]", (2, {}), 1, deep(62, "$4"), "[4 " + deep(62, "$4") + "]", (64, {4: (1, 63)}))
not_replaced("nesting 64 in a function's body", 2, "[4 9]", (2, {}), 1, deep(63, "$4"))
replaced("nesting 63 in a list value", "<9>", (2, {}), 1, deep(62, "1", "<", ">"), deep(63, "1", "<", ">"), (64, {}))
not_replaced("nesting 64 in a list value", 2, "<9>", (2, {}), 1, deep(63, "1", "<", ">"))
not_replaced("a part at level 65, before its tag", 2, deep(63, "9"), (64, {}), 63, b"\1\1\6")
not_replaced("a variable in a list value below level 64", 2, deep(63, "9"), (64, {}), 63, b"\4\1\0\4")

# ---- 29 ----
for place in (3, 4, 128, 256 + 1, 65536 + 1, LARGEST):
    not_replaced(f"place {place} of 3", 29, "(1 2)", (3, {}), place, "9")
not_replaced("place 1 of a tree of size 1", 29, "9", (1, {}), 1, "9")
for size in (0, 4, 6, 5 + 65536, LARGEST):
    not_replaced(f"size {size} in place of 5", 29, FOUR, (size, FOUR_SUM[1]), 1, "9")
for names in (0, 7, 9, 8 + 256, LARGEST):
    not_replaced(f"{names} names in place of 8", 29, FOUR, in_words([5, names] + [0] * 16), 1, "9")
FOUR_WHOLE = lent(FOUR_SUM)
for cut in (0, 4, 8, len(FOUR_WHOLE) - 4, len(FOUR_WHOLE) - 1):
    not_replaced(f"a summary of {cut} bytes", 29, FOUR, FOUR_WHOLE[:cut], 1, "9")
for more in (b"\1", b"\1\2\3", in_words([7]), in_words([1, 2, 3, 4, 5])):
    replaced(f"{len(more)} bytes behind the summary", FOUR, FOUR_WHOLE + more, 1, "$7", "($7 $5 $4 $6)",
             (5, {7: (1, 1), 5: (1, 2), 4: (1, 3), 6: (1, 4)}))

# ---- orders ----
BAD_PARTS = ((1, b""), (2, tree_part("@1024")))
for _, part in BAD_PARTS:
    not_replaced(f"1 of the image before all else, a part of {len(part)} bytes", 1, b"", b"", 9, part, dict(output=0))
    not_replaced(f"2 of the image before all else, a part of {len(part)} bytes", 2, "@1024", b"", 9, part, dict(output=0))
    not_replaced(f"4 before all else, a part of {len(part)} bytes", 4, syntax_image("x"), b"", 9, part, dict(output=0))
    not_replaced(f"29 for the summary before a part of {len(part)} bytes", 29, "(1 2)", (4, {}), 1, part, dict(output=0))
    not_replaced(f"29 for the place before a part of {len(part)} bytes", 29, "(1 2)", (3, {}), 3, part, dict(output=0))
not_replaced("29 before a part of 65,537 bytes", 29, "(1 2)", (4, {}), 1, bytes(65537))
for code, part in (*BAD_PARTS, (2, bytes(65537))):
    not_replaced(f"{code} of a part of {len(part)} bytes before 20", code, "(1 2)", (3, {}), 1, part, dict(output=0))
not_replaced("no value before 20", 1, "<1 2>", (3, {}), 1, "$4", dict(output=0))
not_replaced("nesting before 20", 2, deep(63, "9"), (64, {}), 63, "(1)", dict(output=0))
not_replaced("an image of 65,537 bytes", 2, LONGEST + b"\0", (32765, {4: (32764, 1)}), 1, "9", made=1)
not_replaced("a byte left over behind the tree", 1, in_image("9") + b"\0", (1, {}), 0, "9")

# ---- 20 ----
NEW = len(in_image("($7 $5 $4 $6)"))
for room in (NEW, NEW + 1, 70000):
    replaced(f"an output of {room} bytes", FOUR, FOUR_SUM, 1, "$7", "($7 $5 $4 $6)", (5, {7: (1, 1), 5: (1, 2), 4: (1, 3), 6: (1, 4)}),
             dict(output=room))
for room in (0, 1, NEW - 1):
    not_replaced(f"an output of {room} bytes is too short", 20, FOUR, FOUR_SUM, 1, "$7", dict(output=room))
replaced("a smaller image goes into a smaller output", FOUR, FOUR_SUM, 0, "9", "9", (1, {}), dict(output=len(in_image("9"))))
not_replaced("the new image is measured, not the old one", 20, "9", (1, {}), 0, FOUR, dict(output=len(in_image("9"))))
# An image of 65,536 bytes, in which a variable of two bytes becomes one, or an atom of three.
LONGEST_SUM = 32765, {4: (32764, 1)}
replaced("a new image of 65,536 bytes", LONGEST, LONGEST_SUM, 32764, "$0", LONGEST[:-1] + b"\0", (32765, {4: (32763, 1), 0: (1, 32764)}),
         dict(output=70000), made=1)
not_replaced("a new image of 65,537 bytes", 20, LONGEST, LONGEST_SUM, 1, "9", dict(output=70000), made=1)
not_replaced("a new image of 65,536 bytes, the output a byte shorter", 20, LONGEST, LONGEST_SUM, 1, "$0", dict(output=65535), made=1)
replaced("the first of very many", LONGEST, LONGEST_SUM, 1, "$0", LONGEST[:8] + b"\0\0" + LONGEST[10:],
         (32765, {0: (1, 1), 4: (32763, 2)}), made=1)
replaced("a long tree becomes a short one", LONGEST, LONGEST_SUM, 0, "9", "9", (1, {}), made=1)
# As a part: a list of 32,765 variables has a count of three bytes, and 65,534 bytes in all; the image's head has four.
MANY = b"\1" + number(32765) + b"\0\0" * 32765
assert len(MANY) == 65534
not_replaced("a part of 65,534 bytes, a new image of 65,538", 20, "9", (1, {}), 0, MANY, dict(output=70000))
SHORTER = b"\1" + number(32764) + b"\0\0" * 32764
replaced("a part of 65,532 bytes, a new image of 65,536", "9", (1, {}), 0, SHORTER, in_image("9")[:4] + SHORTER, (32765, {0: (32764, 1)}))
not_replaced("a part of 65,536 bytes is read", 20, "9", (1, {}), 0, b"\1" + number(32766) + b"\0\0" * 32766, dict(output=70000))
replaced("budget and table are not used", FOUR, FOUR_SUM, 2, "9", "($4 9 $4 $6)", (5, {4: (2, 1), 6: (1, 4)}),
         dict(budget=LARGEST, table=9))

# ---- entries that were invented: nothing is tested of them, and each gives some number ----
def invented(reason, entry, place, part, new, after, size=5, tree=FOUR):
    """Name 4 has this entry before, and that one after; the others are as they are."""
    true_before = {name: entry_ for name, entry_ in FOUR_SUM[1].items() if name != 4}
    others = dict(OTHERS[new])
    replaced(f"invented: {reason}", tree, (5, true_before | {4: entry}), place, part, new, (size, others | {4: after}))


OTHERS = {"($7 $5 $4 $6)": {7: (1, 1), 5: (1, 2), 6: (1, 4)}, "($4 $5 9 $6)": {5: (1, 2), 6: (1, 4)},
          "($4 $5 (9 9) $6)": {5: (1, 2), 6: (1, 6)}, "($4 $5 $4 $4)": {5: (1, 2)}, "($4 9 $4 $6)": {6: (1, 4)},
          "($4 $5 ($4 $4) $6)": {5: (1, 2), 6: (1, 6)}, "($4 $5 $4 (9 9 9))": {5: (1, 2)}}
invented("no uses counted, one goes: none is left", (0, 0), 1, "$7", "($7 $5 $4 $6)", (0, 0))
invented("no uses counted, with a place: none is left", (0, 3), 1, "$7", "($7 $5 $4 $6)", (0, 0))
invented("one counted of two, which goes: none is left", (1, 1), 1, "$7", "($7 $5 $4 $6)", (0, 0))
invented("three counted of two: two are left", (3, 1), 1, "$7", "($7 $5 $4 $6)", (2, 3))
invented("as many as a word holds", (LARGEST, 1), 1, "$7", "($7 $5 $4 $6)", (LARGEST - 1, 3))
invented("one more than a word holds stays the largest", (LARGEST, 1), 4, "$4", "($4 $5 $4 $4)", (LARGEST, 1))
invented("two come for one that goes", (LARGEST, 1), 3, "($4 $4)", "($4 $5 ($4 $4) $6)", (LARGEST, 1), size=7)
invented("none counted, one comes: its place is the new part's", (0, 1), 4, "$4", "($4 $5 $4 $4)", (1, 4))
invented("none counted, the place before it is not believed", (0, 0), 4, "$4", "($4 $5 $4 $4)", (1, 4))
invented("a first place before that is none stays", (2, 0), 2, "9", "($4 9 $4 $6)", (2, 0))
invented("a first place before, though all are gone, stays where one comes", (1, 0), 3, "($4 $4)", "($4 $5 ($4 $4) $6)", (2, 0), size=7)
invented("a first place in the old part, and none behind: 0", (5, 3), 3, "9", "($4 $5 9 $6)", (4, 0))
invented("a first place in the old part, which has none: searched for", (2, 2), 2, "9", "($4 9 $4 $6)", (2, 3))
invented("a first place just behind the old part moves", (2, 4), 3, "(9 9)", "($4 $5 (9 9) $6)", (1, 6), size=7)
invented("a first place behind the tree moves", (2, 100), 3, "(9 9)", "($4 $5 (9 9) $6)", (1, 102), size=7)
invented("the largest first place, an equal size", (2, LARGEST), 3, "9", "($4 $5 9 $6)", (1, LARGEST))
invented("the largest first place, a larger part: it stays the largest", (2, LARGEST), 3, "(9 9)", "($4 $5 (9 9) $6)", (1, LARGEST), size=7)
invented("nearly the largest first place moves to it", (2, LARGEST - 2), 3, "(9 9)", "($4 $5 (9 9) $6)", (1, LARGEST), size=7)
invented("nearly the largest first place moves over it", (2, LARGEST - 1), 3, "(9 9)", "($4 $5 (9 9) $6)", (1, LARGEST), size=7)
invented("a first place behind, and the new part has it", (9, 4), 3, "($4 $4)", "($4 $5 ($4 $4) $6)", (10, 4), size=7)
invented("at the last place nothing is behind", (2, 4), 4, "(9 9 9)", "($4 $5 $4 (9 9 9))", (2, 0), size=8)
