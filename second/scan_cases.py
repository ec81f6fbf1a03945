"""Edge cases of the scan runner (request T-02), worked out by hand.

As in edge_cases.py, which takes these in, each case is a reason, a call and the
answer asked for, and the notation is the one of image.py: a recording is a text
for each scan, and so is what is shown. Here that text is without the number
of the scan: `shown` puts it in front.
"""
from image import call, number, recording, syntax_image, tree_image
from large_panel import large_panel
from large_recording import large_recording
from panel_cases import NO_PROGRAM, side_by_side

CASES = []  # as in edge_cases.py


def shown(values):
    """The lines of scans, from the values of the driven points in each."""
    return "".join(f"{i} {text}".rstrip() + "\n" for i, text in enumerate(values, 1)).encode()


def scan(reason, given, scans, values=(), code=0, made=8, output=1024, **numbers):
    """given is an image, or a tree with made names from 4; scans is a recording or its texts."""
    image = given if isinstance(given, bytes) else tree_image(given, made=made)
    recorded = scans if isinstance(scans, bytes) else recording(scans)
    numbers = dict(phase=0, budget=0, table=0) | numbers
    CASES.append((f"scan: {reason}", call("scan", image, output=output, recording=recorded, **numbers), "scan",
                  code, 0, 0, (0, 0), shown(values) if code == 0 else None, "kept"))


def refused(reason, code, given, scans, **numbers):
    scan(reason, given, scans, code=code, **numbers)


LAMP = "('out @20 @10)"
BIT = "([4 ('set $4 @1)] 0)"  # drives no point

# ==== what a person sees ====

scan("start and stop: the output holds itself after the button is let go",
     "('out @20 ('and ('not @11) ('or @10 @20)))", ["", "@10=1", "@10=0", "", "@11=1", "@11=0", ""],
     ["@20=0", "@20=1", "@20=1", "@20=1", "@20=0", "@20=0", "@20=0"])
scan("stop wins where both buttons are pushed", "('out @20 ('and ('not @11) ('or @10 @20)))",
     ["@10=1 @11=1", "@11=0", "@10=0"], ["@20=0", "@20=1", "@20=1"])
scan("two contactors that lock each other: the first one stays alone",
     "('all ('out @1 ('and @11 ('not @2))) ('out @2 ('and @12 ('not @1))))",
     ["@12=1", "@11=1", "@12=0", "@12=1", "@11=0"],
     ["@1=0 @2=1", "@1=0 @2=1", "@1=0 @2=0", "@1=1 @2=0", "@1=0 @2=1"])
scan("both buttons at once: the left rung comes first",
     "('all ('out @1 ('and @11 ('not @2))) ('out @2 ('and @12 ('not @1))))", ["@11=1 @12=1"], ["@1=1 @2=0"])
scan("a bit holds a push", "([4 ('all ('set $4 ('or $4 @1)) ('out @10 $4))] 0)", ["", "@1=1", "@1=0", ""],
     ["@10=0", "@10=1", "@10=1", "@10=1"])

# ==== and, or, not ====

scan("`and`, `or` and `not` of points, all four ways",
     "('all ('out @10 ('and @1 @2)) ('out @11 ('or @1 @2)) ('out @12 ('not @1)))", ["", "@2=1", "@1=1 @2=0", "@2=1"],
     ["@10=0 @11=0 @12=1", "@10=0 @11=1 @12=1", "@10=0 @11=1 @12=0", "@10=1 @11=1 @12=0"])
scan("`and` and `or` of three, all eight ways", "('all ('out @10 ('and @1 @2 @3)) ('out @11 ('or @1 @2 @3)))",
     ["", "@3=1", "@2=1 @3=0", "@3=1", "@1=1 @2=0 @3=0", "@3=1", "@2=1 @3=0", "@3=1"],
     ["@10=0 @11=0"] + ["@10=0 @11=1"] * 6 + ["@10=1 @11=1"])
scan("`and` and `or` of bits", "([4 ([5 ('all ('out @1 ('and $4 $5)) ('out @2 ('or $4 $5)) ('out @3 ('not $4)))] 0)] 1)",
     [""], ["@1=0 @2=1 @3=0"])
scan("`not` of `not`", "('out @1 ('not ('not @2)))", ["", "@2=1"], ["@1=0", "@1=1"])
scan("`not` of `and` and of `or`", "('all ('out @10 ('not ('and @1 @2))) ('out @11 ('not ('or @1 @2))))",
     ["", "@1=1", "@2=1"], ["@10=1 @11=1", "@10=1 @11=0", "@10=0 @11=0"])
scan("expressions in each other: (1 or not 2) and not (3 and 1)",
     "('out @10 ('and ('or @1 ('not @2)) ('not ('and @3 @1))))", ["", "@2=1", "@1=1", "@3=1", "@2=0", "@1=0"],
     ["@10=1", "@10=0", "@10=1", "@10=0", "@10=0", "@10=1"])
MANY = " ".join(f"@{i}" for i in range(130))
scan("`and` of 130: the first and the last count", f"('out @200 ('and {MANY}))",
     [" ".join(f"@{i}=1" for i in range(129)), "@129=1", "@0=0", "@0=1", "@64=0"],
     ["@200=0", "@200=1", "@200=0", "@200=1", "@200=0"])
scan("`or` of 130: the first and the last count", f"('out @200 ('or {MANY}))",
     ["", "@129=1", "@0=1 @129=0", "@0=0", "@64=1"], ["@200=0", "@200=1", "@200=1", "@200=0", "@200=1"])
scan("one point twice in `and`", "('out @1 ('and @2 @2))", ["@2=1"], ["@1=1"])
# The application stands at level 1 and `not` 62 times has its point at level 64.
scan("`not` 62 times", "('out @1 " + "('not " * 62 + "@2" + ")" * 62 + ")", ["", "@2=1"], ["@1=0", "@1=1"])
scan("`not` 61 times", "('out @1 " + "('not " * 61 + "@2" + ")" * 61 + ")", ["", "@2=1"], ["@1=1", "@1=0"])

# ==== points ====

scan("points start at 0, driven or not", "('all ('out @1 @1) ('out @2 @3))", [""], ["@1=0 @2=0"])
scan("a point stays as it was changed last", LAMP, ["@10=1", "", "", "@10=0", ""],
     ["@20=1", "@20=1", "@20=1", "@20=0", "@20=0"])
scan("a point is changed to what it is", LAMP, ["@10=0", "@10=1", "@10=1", "@10=0", "@10=0"],
     ["@20=0", "@20=1", "@20=1", "@20=0", "@20=0"])
scan("a point that no rung drives and nothing changes is 0", "('out @20 ('or @10 ('not @11)))", ["", "@11=1"],
     ["@20=1", "@20=0"])
scan("a point that nobody reads changes", LAMP, ["@9=1 @11=1", "@10=1"], ["@20=0", "@20=1"])
scan("the changes come before the rungs", "('out @20 ('not @10))", ["@10=1", "@10=0"], ["@20=0", "@20=1"])
scan("several points change at once", "('out @20 ('and @0 @127 @128 @1023))",
     ["@0=1 @127=1 @128=1 @1023=1", "@127=0", "@127=1", "@1023=0"], ["@20=1", "@20=0", "@20=1", "@20=0"])
scan("the next scan may begin with a smaller point", LAMP, ["@10=1 @11=1", "@9=1", "@8=1 @10=0"],
     ["@20=1", "@20=1", "@20=0"])
for point in (0, 127, 128, 255, 256, 1022, 1023):
    scan(f"point {point} is read", f"('out @20 @{point})", [f"@{point}=1", f"@{point}=0"], ["@20=1", "@20=0"])
    scan(f"point {point} is driven", f"('out @{point} @20)", ["@20=1", "@20=0"], [f"@{point}=1", f"@{point}=0"])
for other in (0, 2, 65, 129, 257, 513):
    scan(f"points 1 and {other} are two", "('out @20 @1)", [f"@{other}=1"], ["@20=0"])
scan("a driven point stays in the next scan until its rung", "('all ('out @2 @1) ('out @1 ('not @1)))", [""] * 4,
     ["@1=1 @2=0", "@1=0 @2=1", "@1=1 @2=0", "@1=0 @2=1"])
scan("all 1,024 points change in one scan", BIT, [" ".join(f"@{i}=1" for i in range(1024))], [""])
scan("every second point changes, and the sum is seen",
     "('all ('out @1 ('and " + " ".join(f"@{i}" for i in range(2, 200, 2)) + ")) ('out @3 ('or " +
     " ".join(f"@{i}" for i in range(5, 200, 2)) + ")))", [" ".join(f"@{i}=1" for i in range(2, 200, 2))], ["@1=1 @3=0"])

# ==== rungs from left to right ====

scan("an `out` is seen by every later rung at once", "('all ('out @10 @1) ('out @11 @10) ('out @12 @11))",
     ["@1=1", "@1=0"], ["@10=1 @11=1 @12=1", "@10=0 @11=0 @12=0"])
scan("an `out` is seen by earlier rungs in the next scan", "('all ('out @12 @11) ('out @11 @10) ('out @10 @1))",
     ["@1=1", "", "", "@1=0"],
     ["@10=1 @11=0 @12=0", "@10=1 @11=1 @12=0", "@10=1 @11=1 @12=1", "@10=0 @11=1 @12=1"])
scan("a `set` is seen by a later rung in the same scan", "([4 ('all ('set $4 @1) ('out @10 $4))] 0)", ["@1=1", "@1=0"],
     ["@10=1", "@10=0"])
scan("a `set` is seen by an earlier rung in the next scan only", "([4 ('all ('out @10 $4) ('set $4 @1))] 0)",
     ["@1=1", "", "@1=0", ""], ["@10=0", "@10=1", "@10=1", "@10=0"])
scan("a rung between: before the `set` the old value, behind it the new one",
     "([4 ('all ('out @10 $4) ('set $4 @1) ('out @11 $4))] 0)", ["@1=1", "@1=0", ""],
     ["@10=0 @11=1", "@10=1 @11=0", "@10=0 @11=0"])
scan("a bit set twice in a scan: the later one counts", "([4 ('all ('set $4 @1) ('set $4 @2) ('out @10 $4))] 0)",
     ["@1=1", "@1=0 @2=1"], ["@10=0", "@10=1"])
scan("a bit set twice in a scan, the second time from itself",
     "([4 ('all ('set $4 @1) ('set $4 ('not $4)) ('out @10 $4))] 0)", ["@1=1", "@1=0"], ["@10=0", "@10=1"])
scan("between two `set` of a bit the first one is seen",
     "([4 ('all ('set $4 @1) ('out @10 $4) ('set $4 @2) ('out @11 $4))] 0)", ["@1=1", "@1=0 @2=1"],
     ["@10=1 @11=0", "@10=0 @11=1"])
SHIFT = "([4 ([5 ([6 ('all %s ('out @10 $4) ('out @11 $5) ('out @12 $6))] 0)] 0)] 0)"
scan("a push runs through three bits, a scan for each", SHIFT % "('set $6 $5) ('set $5 $4) ('set $4 @1)",
     ["@1=1", "@1=0", "", ""], ["@10=1 @11=0 @12=0", "@10=0 @11=1 @12=0", "@10=0 @11=0 @12=1", "@10=0 @11=0 @12=0"])
scan("the same rungs the other way round: in one scan", SHIFT % "('set $4 @1) ('set $5 $4) ('set $6 $5)",
     ["@1=1", "@1=0"], ["@10=1 @11=1 @12=1", "@10=0 @11=0 @12=0"])
scan("inner `all` and bits stand in their place among the rungs",
     "('all ('all ('out @1 @5)) ([4 ('all ('out @2 @1) ('set $4 @2) ('all ('out @3 $4)))] 0) ('out @4 @3))", ["@5=1"],
     ["@1=1 @2=1 @3=1 @4=1"])
scan("the same from right to left: each sees the one behind it a scan later",
     "('all ('out @4 @3) ([4 ('all ('all ('out @3 $4)) ('set $4 @2) ('out @2 @1))] 0) ('all ('out @1 @5)))",
     ["@5=1"] + [""] * 4,
     ["@1=1 @2=0 @3=0 @4=0", "@1=1 @2=1 @3=0 @4=0", "@1=1 @2=1 @3=0 @4=0", "@1=1 @2=1 @3=1 @4=0", "@1=1 @2=1 @3=1 @4=1"])
scan("an output that turns itself round", "('out @1 ('not @1))", [""] * 5, ["@1=1", "@1=0", "@1=1", "@1=0", "@1=1"])
scan("200 rungs, each seen by the next", "('all " + " ".join(f"('out @{i + 1} @{i})" for i in range(200)) + ")",
     ["@0=1"], [" ".join(f"@{i}=1" for i in range(1, 201))], output=4096)

# ==== bits ====

for start in (0, 1):
    scan(f"a bit that starts at {start} and is never set stays", f"([4 ('out @1 $4)] {start})", [""] * 3, [f"@1={start}"] * 3)
    scan(f"a bit that starts at {start} turns round before it is shown",
         f"([4 ('all ('set $4 ('not $4)) ('out @1 $4))] {start})", [""] * 3, [f"@1={(start + i) % 2}" for i in (1, 2, 3)])
scan("the start value is gone with the first `set`", "([4 ('all ('out @10 $4) ('set $4 @1))] 1)", ["", "", ""],
     ["@10=1", "@10=0", "@10=0"])
scan("a bit is kept between scans in which its rung writes the same", "([4 ('all ('set $4 $4) ('out @10 $4))] 1)",
     ["", "", ""], ["@10=1", "@10=1", "@10=1"])
scan("start values of bits in each other", "([4 ([5 ([6 ('all ('out @1 $4) ('out @2 $5) ('out @3 $6))] 1)] 0)] 1)", [""],
     ["@1=1 @2=0 @3=1"])
scan("start values of bits side by side", "('all ([4 ('out @1 $4)] 1) ([5 ('out @2 $5)] 0) ([6 ('out @3 $6)] 1))", [""],
     ["@1=1 @2=0 @3=1"])
scan("two bits of one name: the inner one is read, 0 in 1", "([4 ([4 ('out @10 $4)] 0)] 1)", [""], ["@10=0"])
scan("two bits of one name: the inner one is read, 1 in 0", "([4 ([4 ('out @10 $4)] 1)] 0)", [""], ["@10=1"])
scan("behind the inner bit the name is the outer one's again",
     "([4 ('all ([4 ('all ('set $4 @1) ('out @10 $4))] 0) ('out @11 $4))] 0)", ["@1=1", "@1=0"],
     ["@10=1 @11=0", "@10=0 @11=0"])
scan("the outer one is set behind the inner one", "([4 ('all ([4 ('out @10 $4)] 1) ('set $4 @1) ('out @11 $4))] 0)",
     ["@1=1", ""], ["@10=1 @11=1", "@10=1 @11=1"])
scan("the outer one is set before the inner one", "([4 ('all ('set $4 @1) ([4 ('out @10 $4)] 0) ('out @11 $4))] 0)",
     ["@1=1", ""], ["@10=0 @11=1", "@10=0 @11=1"])
scan("two bits of one name side by side are two",
     "('all ([4 ('all ('set $4 @1) ('out @10 $4))] 0) ([4 ('out @11 $4)] 0))", ["@1=1", ""], ["@10=1 @11=0", "@10=1 @11=0"])
scan("one name three times, each with its own value",
     "([4 ('all ([4 ('all ([4 ('all ('set $4 @3) ('out @13 $4))] 0) ('set $4 @2) ('out @12 $4))] 0) ('set $4 @1)"
     " ('out @11 $4))] 0)", ["@1=1", "@1=0 @2=1", "@2=0 @3=1"],
     ["@11=1 @12=0 @13=0", "@11=0 @12=1 @13=0", "@11=0 @12=0 @13=1"])
scan("an outer bit is set in the body of an inner one", "([4 ('all ([5 ('set $4 @1)] 1) ('out @10 $4))] 0)", ["@1=1"],
     ["@10=1"])
scan("a bit and a point of one number are two", "([4 ('all ('out @10 @4) ('out @11 $4))] 1)", ["", "@4=1", "@4=0"],
     ["@10=0 @11=1", "@10=1 @11=1", "@10=0 @11=1"])
scan("a bit is set and the point of its number is driven", "([4 ('all ('set $4 @1) ('out @4 ('not $4)))] 0)", ["@1=1", "@1=0"],
     ["@4=0", "@4=1"])
scan("the first bit is no point", "([4 ('all ('set $4 @1) ('out @10 ('or @0 @1023)))] 0)", ["@1=1"], ["@10=0"])
scan("the last point is no bit", "([4 ('all ('out @1023 @1) ('out @10 $4))] 0)", ["@1=1"], ["@10=0 @1023=1"])
scan("names of core forms are bits", "([0 ([3 ('all ('set $0 @1) ('out @10 $0) ('out @11 $3))] 1)] 0)", ["@1=1"], ["@10=1 @11=1"])
EACH = " ".join(f"([{4 + i} ('out @{i} ${4 + i})] {i % 7 % 2})" for i in range(256))
scan("256 bits, of seven the second, fourth and sixth start at 1", f"('all {EACH})", [""],
     [" ".join(f"@{i}={i % 7 % 2}" for i in range(256))], made=256, output=4096)
# A bit takes two levels: `all` stands at level 61, a rung's parts at 63.
PASSED_ON = " ".join(f"('set ${5 + i} ${4 + i})" for i in range(29))
scan("30 bits in each other, a push goes through all of them",
     "".join(f"([{4 + i} " for i in range(30)) + f"('all ('set $4 @1) {PASSED_ON} ('out @10 $33))" + "] 0)" * 30,
     ["@1=1", "@1=0"], ["@10=1", "@10=0"], made=30)

# ==== the lines ====

scan("no scans", LAMP, [])
scan("no scans and no output", LAMP, [], output=0)
scan("no scans, and no point is driven", BIT, [])
scan("no point is driven: the number alone", BIT, ["", "@1=1", ""], [""] * 3)
scan("points ascend in the line whatever the order of the rungs",
     "('all " + " ".join(f"('out @{i} @500)" for i in (1023, 0, 99, 100, 9, 10, 1000, 999)) + ")", ["@500=1"],
     ["@0=1 @9=1 @10=1 @99=1 @100=1 @999=1 @1000=1 @1023=1"])
scan("points ascend by number, bits around them or not",
     "('all ('out @7 @500) ([4 ('all ('out @3 $4) ('all ('out @5 @500)))] 1) ('out @1 ('not @7)))", ["@500=1"],
     ["@1=0 @3=1 @5=1 @7=1"])
scan("a driven point is shown once, however often it is read", "('all ('out @2 @1) ('out @3 ('and @2 @2 @2)))", ["@1=1"],
     ["@2=1 @3=1"])
scan("a recorded point is not shown", LAMP, ["@10=1 @11=1"], ["@20=1"])
for count in (1, 9, 10, 11, 99, 100, 101, 128):
    scan(f"{count} scans are numbered", LAMP, [""] * count, ["@20=0"] * count, output=4096)
scan("1,001 scans are numbered", BIT, [""] * 1001, [""] * 1001, output=4096)
ALL_DRIVEN = "('all " + " ".join(f"('out @{i} {'@0' if i % 2 else f'@{i}'})" for i in range(1023, 0, -1)) + ")"
scan("all points but one are driven", ALL_DRIVEN, ["@0=1"], [" ".join(f"@{i}={i % 2}" for i in range(1, 1024))], output=8192)
EVERY = "('all " + " ".join(f"('out @{i} ('not @{i}))" for i in range(1024)) + ")"
# Digits: 10 of one, 90 of two, 900 of three, 24 of four, 2,986 in all; and 4 bytes for each point; a digit and a line end.
scan("every point is driven, the longest line of one digit", EVERY, [""], [" ".join(f"@{i}=1" for i in range(1024))],
     output=2986 + 4 * 1024 + 2)
refused("every point is driven, and the output is a byte shorter", 20, EVERY, [""], output=2986 + 4 * 1024 + 1)

# ==== 20: the output ====

# `1 @20=0` and a line end are 8 bytes.
for output in (0, 1, 6, 7):
    refused(f"a line of 8 bytes, an output of {output}", 20, LAMP, [""], output=output)
for output in (8, 9, 100):
    scan(f"a line of 8 bytes, an output of {output}", LAMP, [""], ["@20=0"], output=output)
for output in (8, 9, 15, 16):
    refused(f"two lines and an output of {output} bytes: nothing is written, also not the first", 20, LAMP, ["", "", ""],
            output=output)
scan("three lines, an output just long enough", LAMP, [""] * 3, ["@20=0"] * 3, output=24)
refused("three lines, an output a byte shorter", 20, LAMP, [""] * 3, output=23)
for output in (72, 79, 80):
    refused(f"ten scans, of which the tenth line has 9 bytes: an output of {output}", 20, LAMP, [""] * 10, output=output)
scan("ten scans, an output of 81 bytes", LAMP, [""] * 10, ["@20=0"] * 10, output=81)
refused("one scan, no point driven, an output of one byte", 20, BIT, [""], output=1)
scan("one scan, no point driven, an output of two bytes", BIT, [""], [""], output=2)
scan("the output need not hold the bits: 256 of them", side_by_side(256), [""], [""], output=2)

# ==== 24: faults of the recording, one by one ====

NUMBERS = [3, 2, 3, 1, 200, 0, 0, 1, 10, 1]
PLACES = ["the count of scans", "the first count of changes", "the first point", "the first value", "the second point",
          "a value of 0", "a count of no changes", "the last count of changes", "the last point", "the last value"]
GOOD = b"".join(map(number, NUMBERS))
assert GOOD == recording(["@3=1 @200=0", "", "@10=1"])
scan("a good recording", LAMP, GOOD, ["@20=0", "@20=0", "@20=1"])


def with_bytes(place, written):
    """The good recording with other bytes for the number at a place."""
    return b"".join(written if i == place else number(n) for i, n in enumerate(NUMBERS))


def lengthened(value, length):
    """A number in so many bytes."""
    groups = [128 | value >> 7 * i & 127 for i in range(length)]
    return bytes(groups[:-1] + [groups[-1] & 127])


for index, place in enumerate(PLACES):
    value = NUMBERS[index]
    refused(f"{place} is a byte longer than needed", 24, LAMP, with_bytes(index, lengthened(value, len(number(value)) + 1)))
    refused(f"{place} is in five bytes", 24, LAMP, with_bytes(index, lengthened(value, 5)))
    refused(f"{place} is in six bytes", 24, LAMP, with_bytes(index, lengthened(value, 6)))
    refused(f"{place} is larger by 4,294,967,296", 24, LAMP, with_bytes(index, number(value + 2 ** 32)))
    refused(f"{place} is 4,294,967,295", 24, LAMP, with_bytes(index, number(2 ** 32 - 1)))
    refused(f"{place} is left out", 24, LAMP, with_bytes(index, b""))
for length in range(len(GOOD)):
    refused(f"a recording that ends after {length} of {len(GOOD)} bytes", 24, LAMP, GOOD[:length])
for behind in (b"\0", b"\1", b"\0\0", GOOD):
    refused(f"{len(behind)} bytes left over, {behind[0]} the first", 24, LAMP, GOOD + behind)
refused("no scans and a byte left over", 24, LAMP, b"\0\0")
refused("no scans and a scan left over", 24, LAMP, b"\0" + recording(["@1=1"])[1:])
refused("a scan less than there are", 24, LAMP, with_bytes(0, b"\2"))
refused("a scan more than there are", 24, LAMP, with_bytes(0, b"\4"))
refused("a change less than there are", 24, LAMP, with_bytes(1, b"\1"))
refused("a change more than there are", 24, LAMP, with_bytes(1, b"\3"))
refused("a change more than there are, at the end", 24, LAMP, with_bytes(7, b"\2"))
refused("the last number goes on", 24, LAMP, GOOD[:-1] + b"\x81")
for count in (2 ** 14, 2 ** 16, 2 ** 30, 2 ** 31, 2 ** 32 - 1, 2 ** 32):
    refused(f"{count} scans and no more", 24, LAMP, number(count))
    refused(f"a scan of {count} changes and no more", 24, LAMP, b"\1" + number(count))
    refused(f"{count} scans, and one is there", 24, LAMP, number(count) + b"\0")
for point in (1024, 1025, 1024 + 10, 2048 + 10, 65536 + 10, 2 ** 31, 2 ** 32 - 1):
    refused(f"point {point}", 24, LAMP, [f"@{point}=1"])
    refused(f"point {point} behind others, in the last scan", 24, LAMP, ["@10=1", f"@3=1 @1023=1 @{point}=0"])
for value in (2, 3, 127, 128, 129, 255, 256, 257, 2 ** 31, 2 ** 32 - 1):
    refused(f"value {value}", 24, LAMP, [f"@10={value}"])
    refused(f"value {value} behind others, in the last scan", 24, LAMP, ["@10=1", f"@3=1 @9=0 @10={value}"])
for what, changes in (("equal, with one value", "@3=1 @3=1"), ("equal, with two values", "@3=1 @3=0"),
                      ("equal, the first ones", "@0=1 @0=1 @5=1"), ("equal, the last ones", "@5=1 @1023=1 @1023=1"),
                      ("descending", "@4=1 @3=1"), ("descending to 0", "@1=1 @0=1"),
                      ("descending at the end", "@3=1 @200=1 @100=1"), ("descending at the front", "@200=1 @3=1 @300=1"),
                      ("descending from two bytes to one", "@128=1 @127=1"), ("the first one again", "@3=1 @4=1 @3=0")):
    refused(f"points that are {what}", 24, LAMP, [changes])
    refused(f"points that are {what}, in the last scan", 24, LAMP, ["", "@10=1", changes])
scan("points that ascend by one, from one byte to two", LAMP, ["@9=1 @10=1 @11=1 @127=1 @128=1 @129=1"], ["@20=1"])
refused("1,025 changes in a scan", 24, BIT, [" ".join(f"@{i}=1" for i in range(1025))])
refused("1,024 changes and the last one again", 24, BIT, [" ".join(f"@{i}=1" for i in [*range(1024), 1023])])
refused("the fault is behind 100 good scans: not a line is shown", 24, LAMP, ["@10=1", "@10=0"] * 50 + ["@10=2"])
refused("a recording of zeros", 24, LAMP, bytes(3))
refused("a text in place of a recording", 24, LAMP, b"@10=1\n")

# ==== 25: a change names a driven point ====

for value in (0, 1):
    refused(f"a driven point changes to {value}", 25, LAMP, [f"@20={value}"])
for what, scans in (("in the last scan", ["@10=1", "", "@20=1"]), ("first among others", ["@20=1 @21=1 @22=0"]),
                    ("between others", ["@10=1 @20=1 @21=1"]), ("last among others", ["@10=1 @11=1 @20=0"]),
                    ("behind 100 good scans", ["@10=1", "@10=0"] * 50 + ["@20=0"])):
    refused(f"a driven point changes, {what}", 25, LAMP, scans)
for what, program in (("by the last rung", "('all ('out @5 @1) ('out @6 @5) ('out @20 @6))"),
                      ("by the first rung", "('all ('out @20 @1) ('out @6 @5))"), ("by its own rung", "('out @20 ('not @20))"),
                      ("in an inner `all`", "('all ('out @5 @1) ('all ('all ('out @20 @6))))"),
                      ("in a bit's body", "([4 ('all ('set $4 @1) ('out @20 $4))] 0)"),
                      ("in an inner bit's body", "([4 ('all ([5 ('out @20 $5)] 1) ('set $4 @1))] 0)"),
                      ("and is read before it", "('all ('out @5 @20) ('out @20 @1))")):
    refused(f"a point that is driven {what} changes", 25, program, ["@1=1 @20=1"])
for point in (0, 1, 63, 64, 127, 128, 255, 256, 511, 512, 1022, 1023):
    refused(f"point {point} is driven and changes", 25, f"('out @{point} @20)", [f"@{point}=1"])
for other in (0, 19, 21, 20 + 32, 20 + 64, 20 + 128, 20 + 256, 20 + 512, 1023):
    scan(f"point {other} changes, point 20 is driven", LAMP, [f"@{other}=1"], ["@20=0"])
scan("the number of a bit is no driven point", "([4 ('all ('set $4 @1) ('out @20 $4))] 0)", ["@4=1", "@1=1"], ["@20=0", "@20=1"])
scan("the address of a bit is no driven point", "([4 ('all ('set $4 @1) ('out @20 $4))] 0)", ["@0=1", "@1=1"], ["@20=0", "@20=1"])
refused("every point is driven, and one changes", 25, EVERY, ["@512=1"])

# ==== the order: T-01's, 24, 25, 20 ====

refused("24 before 25: a byte left over behind the driven point", 24, LAMP, recording(["@20=1"]) + b"\0")
refused("24 before 25: the end comes too early", 24, LAMP, recording(["@20=1", ""])[:-1])
refused("24 before 25: a fault in a later scan", 24, LAMP, ["@20=1", "@10=2"])
refused("24 before 25: a fault in the same scan", 24, LAMP, ["@20=1 @20=1"])
refused("24 before 25: a fault in the same change", 24, LAMP, ["@20=2"])
refused("24 before 25: a fault in an earlier scan", 24, LAMP, ["@10=2", "@20=1"])
refused("24 before 20", 24, LAMP, b"", output=0)
refused("25 before 20", 25, LAMP, ["@20=1"], output=0)
refused("25 before 20: the lines before it are too long already", 25, LAMP, [""] * 50 + ["@20=1"], output=100)
refused("24 before 20: the lines before it are too long already", 24, LAMP, [""] * 50 + ["@10=2"], output=100)
refused("20 after all of these", 20, LAMP, ["@10=1"], output=0)

PANEL_REFUSALS = [
    (1, "an empty image", b""), (1, "a byte behind the root", tree_image(LAMP) + b"\0"),
    (1, "an undeclared name", tree_image("([4 ('out @20 $4)] 0)")), (2, "point 1,024", "('out @20 @1024)"),
    (2, "65 levels", "('out @20 " + "('not " * 63 + "@2" + ")" * 63 + ")"),
    (4, "a syntax image", syntax_image("('out @20 @10)")), (3, "an open variable", "('out @20 $4)"),
    (21, "a bare point", "@1"), (21, "`out` of one", "('out @20)"), (21, "a bit that starts at 2", "([4 ('out @20 $4)] 2)"),
    (22, "a point driven twice", "('all ('out @20 @10) ('out @20 @11))"),
    (23, "257 bits", side_by_side(257, last="('out @20 @10)")),
    (21, "a bare point behind a rung", "('all ('out @20 @10) @1)"),
    (3, "an open variable and a bare point", "('all @1 ('out @20 $4))"),
    (21, "a bare point and a point driven twice", "('all @1 ('out @20 @10) ('out @20 @11))"),
]
for code, what, program in PANEL_REFUSALS:
    for recorded, scans in (("a good recording", ["@10=1"]), ("no scans", []), ("an empty recording", b""),
                            ("a driven point that changes", ["@20=1"])):
        refused(f"{code}: {what}, with {recorded}", code, program, scans)
    refused(f"{code}: {what}, without output", code, program, ["@10=1"], output=0)
for what, text in NO_PROGRAM[::6]:
    refused(f"21: {what}", 21, f"([4 ('all ('out @5 @2) {text})] 0)", ["@2=1"])

# ==== phase, budget and table are read and not used ====

for scans, code in ((["@10=1"], 0), (b"", 24), (["@20=0"], 25)):
    for numbers in (dict(phase=3), dict(phase=4294967295), dict(budget=1, table=0), dict(budget=4096, table=163840),
                    dict(budget=4097, table=170000), dict(budget=4294967295, table=40), dict(budget=0, table=40),
                    dict(phase=9, budget=1, table=39)):
        given = ", ".join(f"{what} {value}" for what, value in numbers.items())
        scan(f"{given}: code {code} all the same, and the table is kept", LAMP, scans, ["@20=1"], code, **numbers)

# ==== the longest ====

# Lines of no driven point: 9 of 2 bytes, 90 of 3, 900 of 4, 9,000 of 5 are 48,888; 3,518 of 6 more are 69,996.
LINES, TEXT = 13517, 69996
# The count takes 2 bytes and each scan one; 26,007 changes of points under 128 take 2 each, and one of point 200 takes 3.
LONG = ["@1=1 @2=0"] * 12491 + ["@1=0"] * 1025 + ["@200=1"]
assert len(LONG) == LINES and len(recording(LONG)) == 2 + LINES + 2 * 2 * 12491 + 2 * 1025 + 3 == 65536
scan("a recording of 65,536 bytes, and lines longer than an image may be", BIT, LONG, [""] * LINES, output=70000)
refused("a recording of 65,536 bytes, the output a byte too short", 20, BIT, LONG, output=TEXT - 1)
refused("a recording of 65,536 bytes with 32,001 scans", 20, LAMP, large_recording("button"), output=70000)
refused("a recording of 65,537 bytes", 24, BIT, [""] * 65534, output=70000)
refused("an image of 65,537 bytes, and a recording that breaks its layout", 2, bytes(65537), b"")
scan("an image of 65,536 bytes", large_panel("rungs"), ["", ""], [" ".join(f"@{i}=0" for i in range(1024))] * 2, output=70000)
