"""Edge cases of text in and text out (request T-05), worked out by hand.

As in edge_cases.py, which takes these in, each case is a reason, a call and the
answer asked for, and the notation is the one of image.py. It is close to the text
itself, and numbers words as they are first met; where it will not do, images
are put together from bytes.
"""
from image import call, head, number, syntax_image, tree_image

CASES = []  # as in edge_cases.py
BAD, UNBALANCED, OVER, LONG = 26, 27, 2, 20


def case(reason, job, given, code, result, phase=0, budget=0, table=0, output=65536):
    CASES.append((f"{job}: {reason}", call(job, given, phase, budget, table, output), job, code, 0, 0, (0, 0),
                  result, "kept"))


def in_bytes(text):
    return text if isinstance(text, bytes) else text.encode("latin-1")


def read(reason, text, meant, **sizes):
    """meant is the notation of what is read, or an image."""
    case(reason, "read", in_bytes(text), 0, meant if isinstance(meant, bytes) else syntax_image(meant), **sizes)


def refused(code, reason, text, **sizes):
    case(reason, "read", in_bytes(text), code, None, **sizes)


def printed(reason, image, text, **sizes):
    """image is its bytes or the notation of its object."""
    image = image if isinstance(image, bytes) else syntax_image(image)
    case(reason, "print", image, 0, in_bytes(text), **sizes)


def no_print(code, reason, image, **sizes):
    case(reason, "print", image, code, None, **sizes)


def both(reason, text):
    """The text is read as its own notation, and printed again the same."""
    read(reason, text, text)
    printed(reason, text, text)


def image_of(words, root):
    """A syntax image with no scopes, its words and its root given as they are."""
    return head(1, words, 0, 0) + b"\0" + root


def leaf(tag, content):
    return bytes([tag, 0, 0, 0]) + number(content)


def listed(*parts):
    return b"\5\0\0\0" + number(len(parts)) + b"".join(parts)


# ==== every kind of token ====

SHOWN_WHOLE = bytes.fromhex("010101780000000500000003000000000000000000040000000004")  # in document 01
read("the image that document 01 shows whole", "(lambda x x)", SHOWN_WHOLE)
printed("the image that document 01 shows whole", SHOWN_WHOLE, "(lambda x x)")
for text in ("0", "1", "9", "10", "127", "128", "16383", "16384", "4294967295"):
    both(f"the number {text}", text)
for text in ("@0", "@1", "@127", "@128", "@1023"):
    both(f"the point {text}", text)
for i in range(10):
    both(f"the primitive {i}", f"#{i}")
for i, name in enumerate(("and", "or", "not", "out", "set", "all")):
    read(f"the rung word {name}", f"'{name}", image_of([], leaf(4, i)))
    printed(f"rung word {i}", f"'{i}", f"'{name}")
for i in range(6, 16):
    both(f"the free rung word {i}", f"'{i}")
for i, word in enumerate(("lambda", "let-syntax", "quote", "syntax")):
    read(f"the core word {word} is name {i}", word, image_of([], leaf(0, i)))
    printed(f"name {i}", image_of([], leaf(0, i)), word)
    for nearly in (word + "s", word[:-1], word.capitalize(), word + "-", "-" + word):
        read(f"nearly the core word {word}", nearly, image_of([nearly], leaf(0, 4)))
for word in ("x", "motor-1", "a0", "a@", "!", "~", '"', "$", "%", "&", "*", "+", ",", "-", ".", "/", ":", "<", "=", ">",
             "?", "A", "[", "\\", "]", "^", "_", "`", "z", "{", "|", "}", "a@1", "-1", "+0", "and", "or", "all", "a,b", "x{1}"):
    read(f"the word {word}", word, image_of([word], leaf(0, 4)))
    printed(f"the word {word}", image_of([word], leaf(0, 4)), word)
both("the empty list", "()")
both("a list of all kinds", "(x 9 @12 #0 'and '6 lambda ())")
both("lists in lists", "(() (()) ((x) y (x)) ((())))")
both("a program", "(let-syntax m (lambda z (syntax x)) (lambda x (m)))")

# ==== what is no token ====

for text in ("00", "01", "007", "0x", "1a", "12a", "1-", "1.5", "1@", "1'", "9#", "4294967296a", "0a", "1\x7f", "1:", "1/"):
    refused(BAD, f"{text!r} is no number", text)
for text in ("@", "@a", "@-1", "@00", "@01", "@1a", "@@1", "@'1", "@1@", "@#1", "@1023a", "@01024", "@x", "@:", "@1:", "@/", "@1/"):
    refused(BAD, f"{text!r} is no point", text)
for text in ("#", "#a", "#-1", "#00", "#01", "#06", "#010", "#0a", "##0", "#@0", "#0#", "#first", "#stx-e", "#:", "#0:", "#/", "#9/"):
    refused(BAD, f"{text!r} is no primitive", text)
for text in ("'", "''", "'0", "'1", "'5", "'06", "'6a", "'16", "'17", "'015", "'100", "'4294967302", "'18446744073709551622", "'an",
             "'andy", "'And", "'AND", "'x", "'lambda", "'and'", "'@1", "'-6", "'nor", "'al", "'alls", "'no", "'ou", "'sets"):
    refused(BAD, f"{text!r} is no rung word", text)
for byte in (0, 1, 8, 11, 12, 14, 27, 31, 127, 128, 133, 160, 192, 200, 254, 255):
    refused(BAD, f"byte {byte} alone", bytes([byte]))
    refused(BAD, f"byte {byte} in a word", b"a" + bytes([byte]) + b"b")
    refused(BAD, f"byte {byte} behind a word", b"a " + bytes([byte]))
    refused(BAD, f"byte {byte} in a list", b"(" + bytes([byte]) + b")")
for text in ("a'b", "a'", "a#b", "a#", "x'and", "lambda'", "a#0"):
    refused(BAD, f"{text!r} is no word", text)
refused(BAD, "a mark of the order of bytes", b"\xef\xbb\xbfx")
refused(BAD, "a letter of two bytes", "x\xc3\xa4")

# ==== spaces and comments ====

for name, space in (("a space", " "), ("a tab", "\t"), ("a line feed", "\n"), ("a carriage return", "\r"), ("CR LF", "\r\n"),
                    ("spaces and tabs", "  \t\t "), ("lines", "\n\n\r\r\n")):
    read(f"{name} around a word", f"{space}x{space}", "x")
    read(f"{name} between words", f"(x{space}y)", "(x y)")
    read(f"{name} around parentheses", f"{space}({space}({space}){space}x{space}){space}", "(() x)")
    read(f"{name} in an empty list", f"({space})", "()")
read("no space beside parentheses", "(x(y)z()1(2)@3('and)#4(lambda)5)", "(x (y) z () 1 (2) @3 ('and) #4 (lambda) 5)")
read("no space at all", "((())(()))", "((()) (()))")
for end in ("\n", "\r", "\r\n"):
    read(f"a comment ends with {end!r}", f"; a comment{end}x", "x")
    read(f"a comment behind a word ends with {end!r}", f"(x;a comment{end}y)", "(x y)")
    read(f"an empty comment ends with {end!r}", f";{end}x;{end}", "x")
read("a comment ends with the text", "x ; a comment", "x")
read("a comment of one byte ends with the text", "x;", "x")
read("; ends a word: a;b is a and a comment", "a;b", "a")
read("; ends a number", "12;3", "12")
read("; ends a point", "@12;@", "@12")
read("; ends a primitive", "#1;2", "#1")
read("; ends a rung word", "'and;y", "'and")
read("a comment of comments", ";;;;\nx;;(;;)", "x")
read("parentheses in a comment do not count", "(x ; ) (\n y) ; )", "(x y)")
read("bad tokens in a comment do not count", "x ; '99 007 \x00\x7f\xff a#b", "x")
read("a tab does not end a comment", "x ; a\ty z", "x")
read("other control bytes do not end a comment", "x ; a\x0by \x0cz", "x")
read("a comment between parentheses", "(;one\n(;two\n);three\n);four", "(())")
refused(BAD, "what follows the end of a comment counts", "x ; a\n y")
refused(BAD, "what follows a carriage return counts", "x ; a\r y")

# ==== 26 and 27, the first from the front ====

refused(BAD, "an empty text", "")
refused(BAD, "spaces alone", " \t\r\n")
refused(BAD, "a comment alone", "; x")
refused(BAD, "a comment alone, with its line end", "; x\n")
for text in ("a b", "a (", "a ()", "() a", "()(", "() ()", "()()", "(a) b", "1 2", "a;\nb", "a\nb", "@1 @2", "a a)"):
    refused(BAD, f"a second object: {text!r}", text)
for text in (")", "))", ") (", "a )", "a)", "())", "(a))", "() )", "(()))", ") a b", ")'99", "a);", ";\n)"):
    refused(UNBALANCED, f"nothing is open: {text!r}", text)
for text in ("(", "((", "(a", "(()", "(a b", "(()(", "( ; )", "(a;)", "((a) (b)", "(4294967296", "(@1024"):
    refused(UNBALANCED, f"something stays open: {text!r}", text)
refused(BAD, "26 before 27: a bad token in a list that stays open", "(a '99")
refused(BAD, "26 before 27: a second object, then a parenthesis too many", "a b )")
refused(BAD, "26 before 27: a second list that stays open", "a (b")
refused(UNBALANCED, "27 before 26: a parenthesis too many, then a bad token", "a ) '99")
refused(UNBALANCED, "27 before 26: a parenthesis too many, then a second object", "(a)) b")
refused(BAD, "26 at once: a bad token, then a parenthesis too many", "'99 )")
refused(BAD, "a bad token is 26 where a second object is", "a '99")
refused(BAD, "a list is open: what follows the bad token does not matter", "(a#b))))")

# ==== 26 and 27 over the whole text before 2 ====

def refused_around(what, text):
    """What stands beside a token decides, whether the token is taken or too large."""
    refused(BAD, f"{what}, and then a bad token", f"({text} '99)")
    refused(BAD, f"{what}, and then a second object", f"{text} x")
    refused(UNBALANCED, f"{what}, and then a parenthesis too many", f"{text})")
    refused(UNBALANCED, f"{what} in a list that stays open", f"({text}")
    refused(BAD, f"{what} behind a bad token", f"('99 {text})")


TOO_LARGE = [("a number over 32 bits", "4294967296"), ("a very long number", "9" * 100), ("a number over 64 bits", "18446744073709551617"),
             ("point 1,024", "@1024"), ("a point over 32 bits", "@4294967297"), ("a very long point", "@1" + "0" * 60),
             ("primitive 10", "#10"), ("primitive 99", "#99"), ("a primitive over 32 bits", "#4294967296"),
             ("a word of 33 bytes", "a" * 33), ("a word of 300 bytes", "b" * 300)]
for what, text in TOO_LARGE:
    refused(OVER, what, text)
    refused(OVER, f"{what} in a list", f"(x ({text}) y)")
    refused_around(what, text)
    refused(OVER, f"{what}, and no output", text, output=0)
for text in ("#7", "#9"):  # once too large
    read(f"{text} in a list", f"(x ({text}) y)", f"(x ({text}) y)")
    refused_around(text, text)
    refused(LONG, f"{text}, and no output", text, output=0)
both("a word of 32 bytes", "a" * 32)
read("a word of 32 bytes, and a comment", "a" * 32 + ";aaa", "a" * 32)
refused(OVER, "a core word is not looked for in a word of 33 bytes", "lambda" + "a" * 27)
refused(BAD, "a word of 33 bytes, one of them no word's", "a" * 32 + "#")
refused(BAD, "4294967296 with a zero in front", "04294967296")


def nested(times, inner=""):
    return "(" * times + inner + ")" * times


both("63 lists around an atom: nesting 64", nested(63, "1"))
both("64 lists around nothing: nesting 64", nested(64))
refused(OVER, "64 lists around an atom: nesting 65", nested(64, "1"))
refused(OVER, "65 lists around nothing: nesting 65", nested(65))
refused(OVER, "64 lists around two lists", nested(63, "() (())"))
both("62 lists around two lists", nested(62, "() (x)"))
refused(OVER, "nesting 65 in a later part", "(1 (2) " + nested(64) + " 3)")
both("nesting 64 in a later part", "(1 (2) " + nested(63) + " 3)")
refused(UNBALANCED, "64 lists around an atom, and one parenthesis too many", nested(64, "1") + ")")
refused(UNBALANCED, "65 lists that stay open", "(" * 65)
refused(BAD, "65 lists and a bad token", nested(65, "'99"))
refused(UNBALANCED, "69,000 open parentheses", "(" * 69000)
refused(OVER, "35,000 lists in each other", nested(35000))
refused(UNBALANCED, "3,000 lists in each other, and one parenthesis too many", nested(3000) + ")")
refused(UNBALANCED, "300 closing parentheses", ")" * 300)
refused(BAD, "6,000 open parentheses and a bad token", "(" * 6000 + "'")
refused(BAD, "300 empty lists", "()" * 300)

MANY = [f"w{i}" for i in range(1021)]
ALL_BUT_ONE = "(" + " ".join(MANY[:1020]) + ")"
read("1,020 words", ALL_BUT_ONE, image_of(MANY[:1020], listed(*(leaf(0, 4 + i) for i in range(1020)))))
printed("1,020 words", image_of(MANY[:1020], listed(*(leaf(0, 4 + i) for i in range(1020)))), ALL_BUT_ONE)
read("1,020 words, core words and each of them twice", ALL_BUT_ONE[:-1] + " lambda quote syntax let-syntax " + " ".join(MANY[:1020]) + ")",
     image_of(MANY[:1020], listed(*(leaf(0, 4 + i) for i in range(1020)), leaf(0, 0), leaf(0, 2), leaf(0, 3), leaf(0, 1),
                                  *(leaf(0, 4 + i) for i in range(1020)))))
refused(OVER, "1,021 words", "(" + " ".join(MANY) + ")")
refused(UNBALANCED, "1,021 words, and then 27", "(" + " ".join(MANY) + "))")
refused(BAD, "1,021 words, and then 26", "(" + " ".join(MANY) + " a#)")
read("509 words, once one too many", "(" + " ".join(MANY[:509]) + ")",
     image_of(MANY[:509], listed(*(leaf(0, 4 + i) for i in range(509)))))

# ==== words as first met ====

read("words are numbered as first met, not by their order", "(z a (m z) lambda a b)",
     image_of(["z", "a", "m", "b"], listed(leaf(0, 4), leaf(0, 5), listed(leaf(0, 6), leaf(0, 4)), leaf(0, 0), leaf(0, 5), leaf(0, 7))))
read("words that begin the same are different", "(xx x xxx x xx)",
     image_of(["xx", "x", "xxx"], listed(leaf(0, 4), leaf(0, 5), leaf(0, 6), leaf(0, 5), leaf(0, 4))))
read("words of capitals are different", "(a A a)", image_of(["a", "A"], listed(leaf(0, 4), leaf(0, 5), leaf(0, 4))))
read("rung words and core words take no number", "(quote 'and x 'or y)",
     image_of(["x", "y"], listed(leaf(0, 2), leaf(4, 0), leaf(0, 4), leaf(4, 1), leaf(0, 5))))
read("words in comments take no number", "(;a\nx;b\ny)", image_of(["x", "y"], listed(leaf(0, 4), leaf(0, 5))))

# ==== the output, and what is not used ====

size = len(SHOWN_WHOLE)
read("an output just long enough", "(lambda x x)", SHOWN_WHOLE, output=size)
read("an output longer than needed", "(lambda x x)", SHOWN_WHOLE, output=size + 1)
refused(LONG, "an output one byte short", "(lambda x x)", output=size - 1)
refused(LONG, "no output", "(lambda x x)", output=0)
refused(BAD, "26 comes before 20", "a b", output=0)
refused(UNBALANCED, "27 comes before 20", "(", output=0)
for budget, table in ((0, 0), (1, 0), (4097, 5), (4294967295, 170000)):
    read(f"a budget of {budget} and a table of {table} are not used", "x", "x", budget=budget, table=table, phase=9)
    refused(BAD, f"26 with a budget of {budget} and a table of {table}", "x y", budget=budget, table=table, phase=4294967295)
    printed(f"a budget of {budget} and a table of {table} are not used", "x", "x", budget=budget, table=table, phase=9)
# In a list 0 takes two bytes as text and five in the image. There are eleven more: five of the head, tag and
# sets of the list, and two of its count.
NUMBERS = (65536 - 11) // 5
MOST_NUMBERS = image_of([], listed(*[leaf(1, 0)] * NUMBERS))
assert len(MOST_NUMBERS) == 65536
read("an image of 65,536 bytes", "(" + "0 " * NUMBERS + ")", MOST_NUMBERS, output=70000)
refused(LONG, "an image of 65,536 bytes, the output a byte shorter", "(" + "0 " * NUMBERS + ")", output=65535)
refused(LONG, "an image of 65,537 bytes", "(" + "0 " * (NUMBERS - 1) + "128)", output=70000)
refused(LONG, "an image that would be far longer", "(" + "0 " * 20000 + ")", output=70000)
read("a text of 70,000 bytes, nearly all a comment", "x;" + "(" * 69998, "x")
read("a text of 5,000 bytes, nearly all spaces", " " * 4999 + "x", "x")
refused(OVER, "a number of 70,000 digits", "1" * 70000)
refused(OVER, "a word of 5,000 bytes", "a" * 5000)
refused(BAD, "a number of 5,000 digits, zero first", "0" * 5000)

# ==== image to text ====

for code, reason, image in ((1, "an empty image", b""), (1, "kind 0", b"\0"), (1, "kind 3", b"\3"), (4, "a tree", tree_image("1")),
                            (4, "kind 2 and no more", b"\2"), (1, "a byte behind the root", syntax_image("x") + b"\0"),
                            (1, "a cut image", SHOWN_WHOLE[:-1]), (2, "257 scopes", syntax_image("x", scopes=257)),
                            (2, "primitive 10", syntax_image("#10")), (2, "point 1,024", syntax_image("@1024")),
                            (2, "rung word 16", syntax_image("'16")), (2, "nesting 65", syntax_image(nested(64, "1"))),
                            (1, "an undeclared symbol", image_of([], leaf(0, 4))), (1, "a made name as symbol", head(1, [], 1, 0) + b"\0" + leaf(0, 4)),
                            (1, "a core word among the words", image_of(["quote"], leaf(0, 4))), (2, "a word of 33 bytes", image_of(["a" * 33], leaf(0, 4)))):
    no_print(code, reason, image)
    no_print(code, f"{reason}, with no output", image, output=0)
no_print(2, "65,537 bytes", bytes(65537))
no_print(LONG, "primitive 7, with no output", syntax_image("#7"), output=0)
printed("scopes, bindings and made names are not shown",
        syntax_image("(lambda{1} x{1,2|3} (x{2} 1{1} @2{2} #3{3} 'and{1|2|3}){3}){1,2,3|1|2}", words=["y", "x"], made=5, scopes=3,
                     bindings=[("x", [1], 7), ("x", [2], 8), ("lambda", [1], 6)]), "(lambda x (x 1 @2 #3 'and))")
printed("a word that is bound to a core form is shown as it is spelled",
        syntax_image("(x{1} y y)", scopes=1, bindings=[("x", [1], 0)]), "(x y y)")
printed("a core word that is bound is shown as it is spelled",
        syntax_image("(lambda{1} 1 2)", words=["x"], scopes=1, bindings=[("lambda", [1], 4)]), "(lambda 1 2)")
printed("words that nothing uses are not shown", syntax_image("y", words=["x", "y", "z"]), "y")
printed("words are shown by their own numbers", image_of(["b", "a"], listed(leaf(0, 5), leaf(0, 4), leaf(0, 5))), "(a b a)")
printed("1,020 made names", syntax_image("()", made=1020), "()")
printed("256 scopes in every set", syntax_image("x{" + "|".join([",".join(map(str, range(1, 257)))] * 3) + "}", scopes=256), "x")
printed("the empty list among others", "(() 1 ())", "(() 1 ())")
printed("an output just long enough", "(lambda x x)", "(lambda x x)", output=12)
printed("an output longer than needed", "(lambda x x)", "(lambda x x)", output=13)
no_print(LONG, "an output one byte short", SHOWN_WHOLE, output=11)
no_print(LONG, "no output", SHOWN_WHOLE, output=0)
for text in ("0", "7", "4294967295", "@0", "@1023", "#6", "#9", "'and", "'15", "x", "lambda", "()", "(x)"):
    printed(f"{text} in an output just long enough", text, text, output=len(text))
    no_print(LONG, f"{text} in an output one byte short", syntax_image(text), output=len(text) - 1)
# A word of 32 bytes takes 33 in a list as text and five in the image.
WORD = "w" * 32
assert 33 * 1985 + 1 + 30 == 65536
for last, fits in (("w" * 29, True), ("w" * 30, False)):
    words = [WORD, last]
    wide = image_of(words, listed(*[leaf(0, 4)] * 1985, leaf(0, 5)))
    text = "(" + " ".join([WORD] * 1985 + [last]) + ")"
    assert len(text) == (65536 if fits else 65537)
    if fits:
        printed("a text of 65,536 bytes", wide, text, output=70000)
        no_print(LONG, "a text of 65,536 bytes, the output a byte shorter", wide, output=65535)
        read("a text of 65,536 bytes", text, wide)
    else:
        no_print(LONG, "a text of 65,537 bytes", wide, output=70000)
        read("a text of 65,537 bytes", text, wide)
