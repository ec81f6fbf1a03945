"""Edge cases of the panel check (request T-01), worked out by hand.

As in edge_cases.py, which takes these in, each case is a reason, a call and the
answer asked for, and the notation is the one of image.py. A bit with its start
value is ([4 body] 0), a rung ('out @1 expression) or ('set $4 expression).
"""
from image import bits, call, syntax_image, tree_image
from large_panel import large_panel

CASES = []  # as in edge_cases.py


def panel(reason, given, code=0, names=(), made=8, phase=0, budget=0, table=0, output=1024):
    """given is an image, or a tree with made names from 4; names are those of the bits by address."""
    image = given if isinstance(given, bytes) else tree_image(given, made=made)
    result = bits(names) if code == 0 else None
    CASES.append((f"panel: {reason}", call("panel", image, phase, budget, table, output), "panel",
                  code, 0, 0, (0, 0), result, "kept"))


RUNG = "('out @1 @2)"

# ==== what the profile takes ====

panel("an output that a point drives", RUNG)
panel("the same point drives itself", "('out @1 @1)")
panel("the first and the last point", "('all ('out @0 @1023) ('out @1023 @0))")
for start in (0, 1):
    panel(f"a bit that starts at {start}", f"([4 ('out @1 $4)] {start})", names=[4])
    panel(f"a bit that starts at {start} and is not used", f"([4 {RUNG}] {start})", names=[4])
panel("a bit that is set", "([4 ('set $4 @1)] 0)", names=[4])
panel("a bit that is set to itself", "([4 ('set $4 $4)] 0)", names=[4])
panel("a bit that is set twice", "([4 ('all ('set $4 @1) ('set $4 @1))] 0)", names=[4])
panel("a bit in a bit", "([4 ([5 ('set $4 $5)] 1)] 0)", names=[4, 5])
for parts in (1, 2, 3, 130):
    panel(f"`all` of {parts}", "('all " + " ".join(f"('out @{i} @1)" for i in range(parts)) + ")")
panel("`all` of `all` of one", f"('all ('all {RUNG}))")
panel("bits in `all` in a bit", "([4 ('all ([5 ('set $4 $5)] 0) ([6 ('set $6 $4)] 1))] 1)", names=[4, 5, 6])
for word in ("and", "or"):
    for parts in (2, 3, 130):
        panel(f"`{word}` of {parts}", f"('out @1 ('{word}" + " @2" * parts + "))")
panel("`not` of a point", "('out @1 ('not @2))")
panel("`not` of a bit", "([4 ('set $4 ('not $4))] 0)", names=[4])
panel("`not` of `not`", "('out @1 ('not ('not @2)))")
panel("expressions of all kinds in each other",
      "([4 ('out @1 ('and ('or @1 $4) ('not ('or @2 $4 ('and @3 @3))) $4))] 1)", names=[4])
panel("start and stop: the output holds itself, read by its own rung", "('out @20 ('and ('not @11) ('or @10 @20)))")
panel("a point driven is read before and after",
      "('all ('out @2 @1) ('out @1 ('or @1 @1)) ('out @3 ('and @1 @1 @1)))")
panel("the words of the image are no part of the program", tree_image(RUNG, words=["x", "motor-1"], made=2, scopes=3))

# ==== addresses: outermost and leftmost first ====

panel("outer before inner", "([7 ([6 ([5 ('out @1 $6)] 0)] 0)] 0)", names=[7, 6, 5])
panel("left before right", "('all ([7 ('set $7 @1)] 0) ([4 ('set $4 @1)] 0) ([5 ('set $5 @1)] 0))", names=[7, 4, 5])
panel("a bit's body before what stands right of it",
      "('all ([6 ('all ([5 ('set $6 @1)] 0) ([7 ('set $7 @1)] 0))] 0) ([4 ('set $4 @1)] 1))", names=[6, 5, 7, 4])
panel("rungs before a bit do not count", "('all ('out @1 @2) ('out @2 @1) ([9 ('set $9 @1)] 0))", names=[9])
panel("the start value is no part of the address", "([5 ([4 ('set $4 $5)] 0)] 1)", names=[5, 4])
panel("two bits of one name, one in the other: the inner one is read", "([4 ([4 ('out @1 $4)] 0)] 1)", names=[4, 4])
panel("two bits of one name side by side", "('all ([4 ('set $4 @1)] 0) ([4 ('set $4 @1)] 1))", names=[4, 4])
panel("behind the inner bit the name is the outer one's again",
      "([4 ('all ([4 ('set $4 @1)] 0) ('set $4 @2))] 0)", names=[4, 4])
panel("one name three times between others",
      "([5 ('all ([4 ([5 ('set $5 $4)] 0)] 0) ([5 ('set $5 @1)] 0))] 0)", names=[5, 4, 5, 5])
for name in range(4):
    panel(f"the name {name} of a core form", f"([{name} ('out @1 ${name})] 0)", names=[name])
panel("the name of a word", tree_image("([5 ('out @1 $5)] 0)", words=["x", "y"]), names=[5])
for name in (127, 128, 255, 256, 257, 1023):
    panel(f"name {name}", f"([{name} ('out @1 ${name})] 0)", names=[name], made=1020)

# ==== outside the profile: 21 ====

# Everything here is closed where bit 4 is around it. Each is no program, wherever a program is wanted.
NO_PROGRAM = [
    ("a bare bit", "$4"), ("a bare point", "@1"), ("number 0", "0"), ("number 1", "1"), ("a symbol", "lambda"),
    ("a primitive", "#0"), ("a bare rung word", "'out"), ("a bare `all`", "'all"), ("the empty list value", "<>"),
    ("a list value", "<@1>"), ("a list value that looks like a rung", "<'out @1 @2>"),
    ("a syntax value", "`x"), ("a syntax value that looks like a rung", "`('out @1 @2)"),
    ("a bare function", f"[5 {RUNG}]"), ("a function of the bit's own name", f"[4 {RUNG}]"),
    ("a list value of a bit", f"<[5 {RUNG}] 0>"),
    ("a program alone in an application", f"({RUNG})"), ("a program applied to a number", f"({RUNG} 0)"),
    ("a bit applied", f"(([5 {RUNG}] 0) 0)"), ("a bit's name applied", "($4 0)"), ("a number applied", "(0 @1 @2)"),
    ("a point applied", "(@1 @2)"), ("point 3 applied, where rung word 3 is `out`", "(@3 @1 @2)"), ("a symbol applied", "(lambda @1 @2)"),
    ("a list value applied", "(<'out> @1 @2)"), ("a syntax value applied", "(`'out @1 @2)"),
    ("a function applied to nothing", f"([5 {RUNG}])"), ("a function applied to 0 twice", f"([5 {RUNG}] 0 0)"),
    ("a function applied to 0 and a rung", f"([5 {RUNG}] 0 {RUNG})"),
    ("a function applied to 2", f"([5 {RUNG}] 2)"), ("a function applied to 128", f"([5 {RUNG}] 128)"),
    ("a function applied to 256", f"([5 {RUNG}] 256)"),
    ("a function applied to the largest number", f"([5 {RUNG}] 4294967295)"),
    ("a function applied to a point", f"([5 {RUNG}] @1)"), ("a function applied to point 0", f"([5 {RUNG}] @0)"),
    ("a function applied to a primitive", f"([5 {RUNG}] #0)"), ("a function applied to `and`", f"([5 {RUNG}] 'and)"),
    ("a function applied to `or`", f"([5 {RUNG}] 'or)"), ("a function applied to a symbol", f"([5 {RUNG}] lambda)"),
    ("a function applied to a bit", f"([5 {RUNG}] $4)"), ("a function applied to a list value", f"([5 {RUNG}] <>)"),
    ("a function applied to a syntax value", f"([5 {RUNG}] `0)"),
    ("a function applied to an expression", f"([5 {RUNG}] ('not @1))"),
    ("a function applied to a rung", f"([5 {RUNG}] {RUNG})"), ("a function applied to a function", f"([5 {RUNG}] [6 {RUNG}])"),
    ("two functions around a rung, one start value", f"([5 [6 {RUNG}]] 0)"),
    ("number first, function second", f"(0 [5 {RUNG}])"),
    ("`all` of none", "('all)"),
    ("`out` of none", "('out)"), ("`out` of a point alone", "('out @1)"), ("`out` of three", "('out @1 @2 @3)"),
    ("`out` on a bit", "('out $4 @1)"), ("`out` on a number", "('out 1 @1)"), ("`out` on a primitive", "('out #1 @1)"),
    ("`out` on a rung word", "('out 'or @1)"), ("`out` on a symbol", "('out let-syntax @1)"),
    ("`out` on a list value", "('out <@1> @1)"), ("`out` on a syntax value", "('out `@1 @1)"),
    ("`out` on an expression", "('out ('not @1) @2)"), ("`out` on a function", f"('out [5 {RUNG}] @1)"),
    ("`set` of none", "('set)"), ("`set` of a bit alone", "('set $4)"), ("`set` of three", "('set $4 @1 @2)"),
    ("`set` on a point", "('set @1 @2)"), ("`set` on a number", "('set 4 @1)"),
    ("`set` on a symbol", "('set lambda @1)"), ("`set` on a rung word", "('set 'set @1)"),
    ("`set` on a list value", "('set <> @1)"), ("`set` on a syntax value", "('set `x @1)"),
    ("`set` on an expression", "('set ('not $4) @1)"), ("`set` on a function", f"('set [5 {RUNG}] @1)"),
    ("`and` as a program", "('and @1 @2)"), ("`or` as a program", "('or @1 @2)"), ("`not` as a program", "('not @1)"),
    ("`and` of two programs", "('and ('out @8 @2) ('out @9 @2))"),
]
NO_PROGRAM += [(f"primitive {number_} applied", f"(#{number_} @1 @2)") for number_ in range(7)]
NO_PROGRAM += [(f"rung word {word} of a point and a point", f"('{word} @1 @2)") for word in range(6, 16)]
NO_PROGRAM += [(f"rung word {word} of a program", f"('{word} {RUNG})") for word in (6, 15)]

for what, text in NO_PROGRAM:
    if "$4" not in text:
        panel(f"{what} is no program", text, 21)
    panel(f"{what} is no program, as the body of a bit", f"([4 {text}] 0)", 21)
    panel(f"{what} is no program, last in `all`", f"([4 ('all ('out @5 @2) {text})] 0)", 21)
for place, around in (("as the body of an inner bit", "([4 ([6 %s] 1)] 0)"), ("first in `all`", "('all %s ('out @5 @2))"),
                      ("between others in `all`", "('all ('out @5 @2) %s ('out @6 @2))"),
                      ("in an inner `all`", "('all ('out @5 @2) ('all ('all %s)))"),
                      ("in the first of two bits", "('all ([4 %s] 0) ([5 ('set $5 @1)] 0))")):
    panel(f"a bare point is no program, {place}", around % "@1", 21)
    panel(f"`out` of a point alone is no program, {place}", around % "('out @1)", 21)

# Each is no expression, wherever one is wanted.
NO_EXPRESSION = [
    ("number 0", "0"), ("number 1", "1"), ("a symbol", "lambda"), ("a primitive", "#0"), ("a bare rung word", "'and"),
    ("the empty list value", "<>"), ("a list value of a point", "<@1>"), ("a syntax value", "`x"),
    ("a syntax value of a point", "`@1"), ("a bare function", "[5 @1]"), ("a function of the bit's name", "[4 $4]"),
    ("a point alone in an application", "(@1)"), ("a bit alone in an application", "($4)"),
    ("a point applied", "(@1 @2)"), ("a bit applied", "($4 @1 @2)"), ("a number applied", "(0 @1 @2)"),
    ("a symbol applied", "(lambda @1 @2)"), ("an expression applied", "(('not @1) @2)"),
    ("a list value applied", "(<'and> @1 @2)"), ("a syntax value applied", "(`'and @1 @2)"),
    ("a function applied to 0", "([5 $5] 0)"), ("a function applied to 0 with a program as body", "([5 ('out @9 $5)] 0)"),
    ("`and` of none", "('and)"), ("`and` of one", "('and @1)"), ("`and` of a bit alone", "('and $4)"),
    ("`or` of none", "('or)"), ("`or` of one", "('or @1)"), ("`or` of a bit alone", "('or $4)"),
    ("`not` of none", "('not)"), ("`not` of two", "('not @1 @2)"), ("`not` of three", "('not @1 @2 @3)"),
    ("`out` as an expression", "('out @9 @2)"), ("`set` as an expression", "('set $4 @2)"),
    ("`all` of one point", "('all @1)"), ("`all` of two points", "('all @1 @2)"), ("`all` of a rung", "('all ('out @9 @2))"),
]
NO_EXPRESSION += [(f"primitive {number_} applied", f"(#{number_} @1 @2)") for number_ in range(7)]
NO_EXPRESSION += [(f"rung word {word} of two", f"('{word} @1 @2)") for word in range(6, 16)]
NO_EXPRESSION += [(f"rung word {word} of one", f"('{word} @1)") for word in (6, 8, 15)]

for what, text in NO_EXPRESSION:
    panel(f"{what} is no expression, driving a point", f"([4 ('out @1 {text})] 0)", 21)
    panel(f"{what} is no expression, setting a bit", f"([4 ('set $4 {text})] 0)", 21)
    panel(f"{what} is no expression, last in `and`", f"([4 ('out @1 ('and @2 $4 {text}))] 0)", 21)
for place, around in (("in `not`", "('out @1 ('not %s))"), ("first in `and`", "('out @1 ('and %s @2))"),
                      ("first in `or`", "('out @1 ('or %s @2))"), ("between others in `or`", "('out @1 ('or @2 %s @3))"),
                      ("last in `or`", "('out @1 ('or @2 %s))"),
                      ("deep", "('out @1 ('or @2 ('not ('and @3 ('not ('or %s @3))))))"),
                      ("in the first rung", "('all ('out @1 %s) ('out @2 @1))"),
                      ("in the last rung", "('all ('out @2 @1) ('out @1 %s))"),
                      ("in an inner bit", "([4 ('all ([5 ('set $5 %s)] 0) ('out @1 $4))] 0)")):
    panel(f"a number is no expression, {place}", around % "1", 21)
    panel(f"`and` of one is no expression, {place}", around % "('and @1)", 21)
    panel(f"rung word 6 makes no expression, {place}", around % "('6 @1 @2)", 21)

# ==== a point driven twice: 22 ====

TWICE = [
    ("side by side", "('all ('out @1 @2) ('out @1 @3))"),
    ("the same rung twice", "('all ('out @1 @2) ('out @1 @2))"),
    ("three times", "('all ('out @1 @2) ('out @1 @3) ('out @1 @4))"),
    ("first and last of three", "('all ('out @1 @2) ('out @2 @3) ('out @1 @4))"),
    ("the last two of three", "('all ('out @2 @2) ('out @1 @3) ('out @1 @4))"),
    ("each driving itself", "('all ('out @1 @1) ('out @1 @1))"),
    ("in two inner `all`", "('all ('all ('out @1 @2)) ('all ('out @1 @3)))"),
    ("in `all` and in an inner one", "('all ('out @1 @2) ('all ('out @2 @3) ('out @1 @3)))"),
    ("in an inner `all` and behind it", "('all ('all ('all ('out @1 @2))) ('out @1 @3))"),
    ("in a bit's body", "([4 ('all ('out @1 $4) ('out @1 @2))] 0)"),
    ("before a bit and in its body", "('all ('out @1 @2) ([4 ('out @1 $4)] 0))"),
    ("in a bit's body and behind it", "('all ([4 ('out @1 $4)] 0) ('out @1 @2))"),
    ("in the bodies of two bits", "('all ([4 ('out @1 $4)] 0) ([5 ('out @1 $5)] 0))"),
    ("in the bodies of two bits of one name", "('all ([4 ('out @1 $4)] 0) ([4 ('out @1 $4)] 0))"),
    ("in an inner bit and the outer one", "([4 ('all ([5 ('out @1 $5)] 0) ('out @1 $4))] 0)"),
]
for what, text in TWICE:
    panel(f"a point is driven twice, {what}", text, 22)
for point in (0, 63, 64, 127, 128, 255, 256, 512, 1023):
    panel(f"point {point} is driven twice", f"('all ('out @{point} @2) ('out @{point} @3))", 22)
for other in (0, 2, 17, 33, 65, 129, 257, 513, 1023):
    panel(f"points 1 and {other} are two", f"('all ('out @1 @2) ('out @{other} @3))")
ALL_DRIVEN = " ".join(f"('out @{point} @{1023 - point})" for point in range(1024))
panel("every point is driven", f"('all {ALL_DRIVEN})")
panel("every point is driven, and the last one twice", f"('all {ALL_DRIVEN} ('out @1023 @1))", 22)
panel("every point is driven, and the first one twice", f"('all {ALL_DRIVEN} ('out @0 @1))", 22)
panel("a point driven once and read in many rungs", "('all ('out @2 @1) ('out @3 @1) ('out @1 @1) ('out @4 @1))")
panel("a bit and a point of one number", "([4 ('all ('out @4 $4) ('set $4 @4))] 0)", names=[4])


# ==== 256 bits are accepted, 257 are 23 ====

def side_by_side(count, name=lambda index: 4, last="('set $4 @1)"):
    """So many bits in `all`, and a bit around it that counts too."""
    inner = " ".join(f"([{name(i)} ('set ${name(i)} @1)] {i % 2})" for i in range(1, count))
    return f"([{name(0)} ('all {inner} {last})] 0)"


def different(index):
    return 4 + index


for count in (127, 128, 129, 255, 256):
    panel(f"{count} bits of one name", side_by_side(count), names=[4] * count)
    panel(f"{count} bits, all names different", side_by_side(count, different), made=count,
          names=range(4, 4 + count))
for count in (257, 258, 511, 512, 513, 1000):
    panel(f"{count} bits of one name", side_by_side(count), 23)
panel("257 bits, all names different", side_by_side(257, different), 23, made=257)
panel("257 bits of 256 names", side_by_side(257, lambda index: 4 + index % 256), 23, made=256)
panel("names by address, descending", side_by_side(256, lambda index: 259 - index, "('set $259 @1)"), made=256,
      names=range(259, 3, -1))


def towers(sizes):
    """Bits in each other, so many in each of the towers."""
    return "('all " + " ".join("([5 " * size + "('set $5 @1)" + "] 1)" * size for size in sizes) + ")"


panel("256 bits in towers of 16", towers([16] * 16), names=[5] * 256)
panel("257 bits, the last one at the top of a tower", towers([16] * 15 + [17]), 23)
panel("257 bits, one tower more", towers([16] * 16 + [1]), 23)
panel("257 bits, the first tower is one higher", towers([17] + [16] * 15), 23)

# ==== between faults the smallest number counts ====

MANY = side_by_side(257)


def with_bits(rung):
    """257 bits and a rung behind them."""
    return side_by_side(257, last=rung)


panel("21 before 22: a fault behind the two", "('all ('out @1 @2) ('out @1 @3) @4)", 21)
panel("21 before 22: a fault before the two", "('all @4 ('out @1 @2) ('out @1 @3))", 21)
panel("21 before 22: a fault between the two", "('all ('out @1 @2) ('out @2 1) ('out @1 @3))", 21)
panel("21 before 22: the second one has the fault", "('all ('out @1 @2) ('out @1 1))", 21)
panel("21 before 22: the second one is of three", "('all ('out @1 @2) ('out @1 @2 @3))", 21)
panel("21 before 22: the fault is around both", "('6 ('out @1 @2) ('out @1 @3))", 21)
panel("21 before 22: the two stand in an expression", "('out @1 ('out @1 @2))", 21)
panel("an `out` outside the profile drives nothing", "('all ('out @1 @2) ('out 1 @3))", 21)
panel("21 before 23: a fault behind 257 bits", with_bits("@4"), 21)
panel("21 before 23: a fault in the last expression", with_bits("('set $4 0)"), 21)
panel("21 before 23: a fault before 257 bits", f"('all ('out @1) {MANY})", 21)
panel("21 before 23: the 257th bit is the fault", f"('all {side_by_side(256)} ([4 {RUNG}] 2))", 21)
panel("22 before 23: the two behind 257 bits", with_bits("('all ('out @1 @2) ('out @1 @3))"), 22)
panel("22 before 23: the two before 257 bits", f"('all ('out @1 @2) ('out @1 @3) {MANY})", 22)
panel("22 before 23: one before and one behind", f"('all ('out @1 @2) {MANY} ('out @1 @3))", 22)
panel("22 before 23: the second in the 257th bit", f"('all ('out @1 @2) {side_by_side(256)} ([4 ('out @1 $4)] 0))", 22)
panel("21 before 22 and 23", f"('all ('out @1 @2) {MANY} ('out @1 @3) 1)", 21)
panel("21, and neither 22 nor 23, before a short output", "('all)", 21, output=0)
panel("22 before a short output", "([4 ('all ('out @1 @2) ('out @1 @3))] 0)", 22, output=0)
panel("23 before a short output", MANY, 23, output=0)
panel("23 with an output for them all", MANY, 23, output=1028)

# ==== 3, over the whole tree, before 21 ====

OPEN = [
    ("a bare variable", "$4"), ("a variable in an expression", "('out @1 $4)"), ("a variable that is set", "('set $4 @1)"),
    ("a variable deep in an expression", "('out @1 ('or @1 ('not ('and @2 $4))))"),
    ("a variable beside the function of its name", "('all ([4 ('set $4 @1)] 0) ('set $4 @1))"),
    ("a variable before the function of its name", "('all ('out @1 $4) ([4 ('set $4 @1)] 0))"),
    ("another name is around", "([5 ('set $4 @1)] 0)"),
    ("a variable as start value of its own function", "([4 ('out @1 @2)] $4)"),
    ("the head is a variable", "($4 @1 @2)"), ("`out` on a variable", "('out $4 @1)"),
    ("a variable in a list value's function", "<[5 $4]>"), ("a variable in a function that nothing is applied to", "[5 $4]"),
    ("a variable behind a fault", "('all @1 ('out @1 $4))"), ("a variable before a fault", "('all ('out @1 $4) @1)"),
    ("a variable in a part that has no place in the profile", "('not @1 @2 $4)"),
    ("a variable behind a rung word without meaning", "('15 $4)"),
    ("a point driven twice, and a variable", "('all ('out @1 @2) ('out @1 $4))"),
]
for what, text in OPEN:
    panel(f"3: {what}", text, 3)
panel("3 before 23", f"('all {MANY} ('set $4 @1))", 3)
panel("3 before 21, 22 and 23", f"('all ('out @1 @2) {MANY} ('out @1 @3) 1 $5)", 3)
panel("3 before a short output", "([4 ('out @1 $5)] 0)", 3, output=0)
panel("a symbol in a syntax value is no variable", "`x", 21)

# ==== the output holds whole words ====

ONE_BIT = "([4 ('out @1 $4)] 0)"
TWO_BITS = "([4 ([5 ('out @1 $4)] 0)] 0)"
panel("no bits and no output", RUNG, output=0)
panel("no bits and an output of three bytes", RUNG, output=3)
for output in range(4):
    panel(f"one bit, an output of {output} bytes", ONE_BIT, 20, output=output)
for output in range(4, 9):
    panel(f"one bit, an output of {output} bytes", ONE_BIT, names=[4], output=output)
for output in range(4, 8):
    panel(f"two bits, an output of {output} bytes: not even the first is written", TWO_BITS, 20, output=output)
for output in (8, 9, 11, 12):
    panel(f"two bits, an output of {output} bytes", TWO_BITS, names=[4, 5], output=output)
for output in (0, 1020, 1021, 1022, 1023):
    panel(f"256 bits, an output of {output} bytes", side_by_side(256), 20, output=output)
for output in (1024, 1025, 1027, 1028, 65535, 65536, 65537, 70000):
    panel(f"256 bits, an output of {output} bytes", side_by_side(256), names=[4] * 256, output=output)

# ==== phase, budget and table are read and not used ====

for given, code, names in ((ONE_BIT, 0, [4]), ("@1", 21, ()), ("$4", 3, ())):
    for numbers in (dict(phase=3), dict(phase=4294967295), dict(budget=1, table=0), dict(budget=4096, table=163840),
                    dict(budget=4097, table=170000), dict(budget=4294967295, table=40), dict(budget=0, table=40),
                    dict(phase=9, budget=1, table=39)):
        shown = ", ".join(f"{what} {value}" for what, value in numbers.items())
        panel(f"{shown}: code {code} all the same, and the table is kept", given, code, names, **numbers)

# ==== the image from the front: 1, 2, 4 ====

panel("an empty image", b"", 1)
panel("an empty image, and no output", b"", 1, output=0)
panel("a syntax image", syntax_image("('out @1 @2)"), 4)
panel("kind 1 and no more", b"\1", 4)
panel("kind 2 and no more", b"\2", 1)
panel("kind 0", b"\0", 1)
panel("kind 3", b"\3", 1)
panel("kind 1 not in its shortest form", b"\x81\0", 1)
panel("kind: a fifth byte of 16", b"\x82\x80\x80\x80\x10", 2)
GOOD = tree_image(ONE_BIT, made=1)
for length in range(len(GOOD)):
    panel(f"an image that ends after {length} of {len(GOOD)} bytes", GOOD[:length], 1)
panel("a byte behind the root", GOOD + b"\0", 1)
panel("an application of count 0", tree_image(b"\1\0"), 1)
panel("an application of count 0 in `all`", tree_image(b"\1\2\3\4\5" + b"\1\0"), 1)
panel("a tag that is not there", tree_image(b"\6"), 1)
panel("an atom tag that is not there", tree_image(b"\3\5\0"), 1)
panel("a name that is not declared", tree_image("([5 ('out @1 @2)] 0)", made=1), 1)
panel("a variable that is not declared", tree_image("([4 ('out @1 $5)] 0)", made=1), 1)
panel("a variable in a list value", tree_image("([4 <$4>] 0)", made=1), 1)
panel("point 1,024", "('out @1024 @1)", 2)
panel("point 1,024 in an expression", "('out @1 @1024)", 2)
panel("rung word 16", "('16 @1 @2)", 2)
panel("primitive 10", "(#10 @1)", 2)
for primitive in (7, 8, 9):  # once too large
    panel(f"primitive {primitive}", f"(#{primitive} @1)", 21)
    panel(f"primitive {primitive} applied to two", f"(#{primitive} @1 @2)", 21)
    panel(f"primitive {primitive} in an expression", f"('out @1 (#{primitive} @2))", 21)
panel("257 scopes", tree_image(RUNG, scopes=257), 2)
panel("1,021 made names", tree_image(RUNG, made=1021), 2)
panel("the first fault decides: 1 before 2", tree_image(b"\1\0" + b"\3\4\20"), 1)
panel("the first fault decides: 2 before 1", tree_image(b"\1\2\3\4\20\6"), 2)
panel("a fault of the layout before an open tree", tree_image("('all $4 $9)", made=1), 1)
panel("a limit before an open tree", "('all $4 @1024)", 2)
panel("a fault of the layout before 21", tree_image("@1") + b"\0", 1)

# ==== nesting ====

# The application stands at level 1, its expression at 2; so `not` 62 times has its point at level 64.
for times, code in ((61, 0), (62, 0), (63, 2)):
    panel(f"`not` {times} times", "('out @1 " + "('not " * times + "@2" + ")" * times + ")", code)
# `all` so many times has the rung one level below, and the rung's parts one more.
for times, code in ((61, 0), (62, 0), (63, 2)):
    panel(f"`all` {times} times", "('all " * times + RUNG + ")" * times, code)
# A bit takes two levels.
for times, code in ((30, 0), (31, 0), (32, 2)):
    panel(f"{times} bits in each other", "([4 " * times + "('out @1 $4)" + "] 0)" * times, code,
          names=[4] * times)
panel("a fault at level 64", "('out @1 " + "('not " * 62 + "1" + ")" * 62 + ")", 21)
panel("an open variable at level 64", "('out @1 " + "('not " * 62 + "$4" + ")" * 62 + ")", 3)
panel("a point driven twice at level 64", "('all ('out @1 @2) " + "('all " * 61 + RUNG + ")" * 61 + ")", 22)

# ==== the longest images ====

LARGE = large_panel("rungs")
panel("an image of 65,536 bytes: many rungs", LARGE, names=[4])
panel("an image of 65,536 bytes: many points in one rung", large_panel("points"), names=[4])
panel("an image of 65,537 bytes", LARGE + b"\0", 2)
panel("an image of 65,536 bytes of another kind", b"\1" + LARGE[1:], 4)
panel("65,537 bytes that break the layout", bytes(65537), 2)
