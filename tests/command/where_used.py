"""The word `uses`, with programs that the panel's compiler takes and with others. What is expected is the second program's answer, or was counted by
hand: places count from 0, a whole before its parts, left to right. Under some trees a line has the last digit of each place."""
import calls
import image
import refusals
from bad import tree_of_bits
from calls import Case, second
from good import forms

HEADING = ("address", "name", "word", "contacts", "first")
WORDS = {"accident": ["run", "run"], "flasher": ["pulse", "half", "half"], "interlock": [], "start-stop": ["run"]}
MADE = 4  # made names 4 to 7, where a case says nothing else
TAKEN = ("summary: code 0", "panel: code 0", "uses: code 0")


def not_taken(code):
    return ("summary: code 0", f"panel: code {code}: {refusals.meaning(code)}, so no bit has an address", "uses: code 0")


def table(rows):
    """Words may be wider than their heading."""
    lines = [tuple(map(str, row)) for row in (HEADING, *rows)]
    wide = max(len(word) for _, _, word, _, _ in lines) + 2
    return "".join(f"{address:9}{name:6}{word:{wide}}{contacts:10}{first}\n" for address, name, word, contacts, first in lines).encode()


# ---- the examples

def rows_of(tree, words=None):
    """By the second program. Every bit of an example is used."""
    names = [name for name, _ in calls.answers.bits_of(second("panel", tree))]
    bits = zip(names, words or ["-"] * len(names), calls.second_uses(tree, names))
    return [(address, name, word, *uses) for address, (name, word, uses) in enumerate(bits)]


def of_example(name):
    found = calls.example(name)
    yield Case(f"uses {name}, a tree", ["uses", "-"], found.tree, out=table(rows_of(found.tree)), said=TAKEN)
    for form, given, said in forms(found) if name in WORDS else ():
        yield Case(f"uses {name}, {form}", ["uses", "-"], given, out=table(rows_of(found.tree, WORDS[name])), said=(*said, *TAKEN))


def of_a_file():
    """Counted by hand, in the tree that examples/README.md has."""
    said = ("read: code 0", "expand: code 0 units 297", "parse: code 0 units 70", *TAKEN)
    yield Case("uses, a file", ["uses", "examples/accident.text"], out=table([(0, 12, "run", 2, 8), (1, 13, "run", 2, 26)]), said=said)


# ---- trees: the rows have name, contacts and first place

def of_tree(reason, tree, code, *rows, **counts):
    given = tree if isinstance(tree, bytes) else image.tree_image(tree, **{"made": MADE} | counts)
    wanted = ((address if code == 0 else "-", name, "-", *uses) for address, (name, *uses) in enumerate(rows))
    return Case(f"uses, {reason}", ["uses", "-"], given, out=table(wanted), said=not_taken(code) if code else TAKEN)


def of_panels():
    yield of_tree("a bit without contacts has no first place", "([4 ('out @1 @2)] 0)", 0, (4, 0, "-"))
    yield of_tree("bits of one name are counted together", "('all ([4 ('set $4 @1)] 0) ([4 ('set $4 @1)] 1))", 0, (4, 2, 6), (4, 2, 6))
    yield of_tree("a bit in a bit", "([4 ('all ('set $4 @1) ([5 ('out @2 ('and $4 $5))] 1))] 0)", 0, (4, 2, 6), (5, 1, 16))
    #                                01  23    45    6  7   89  01    2  34    5  6     7    8
    yield of_tree("256 bits", tree_of_bits(256), 0, *((4 + bit, 1, 6 + 7 * bit) for bit in range(256)))


def of_open_trees():
    yield of_tree("a variable alone, whose place is 0", "$4", 3, (4, 1, 0))
    yield of_tree("functions, then names without one", "($7 [4 $5])", 3, (4, 0, "-"), (5, 1, 3), (7, 1, 1))
    yield of_tree("a variable outside the function of its name", "([4 1] $4)", 3, (4, 1, 3))
    yield of_tree("names of core forms", "($3 $0 $3)", 3, (0, 1, 2), (3, 2, 1))
    every = "(" + " ".join(f"${name}" for name in range(1024)) + ")"
    yield of_tree("1,024 names", every, 3, *((name, 1, 1 + name) for name in range(1024)), made=1020)
    yield of_tree("65,536 bytes", "(" + "$4 " * 32764 + ")", 3, (4, 32764, 1), made=1)


def of_other_trees():
    yield of_tree("no function and no variable", "9", 21)
    yield of_tree("a function without contacts", "[4 9]", 21, (4, 0, "-"))
    yield of_tree("functions of one name", "([4 $4] [4 $4])", 21, (4, 2, 2), (4, 2, 2))
    yield of_tree("functions in every place", "([4 $4] <[5 $5] `(x x) 1> [6 [7 $6]])", 21, (4, 1, 2), (5, 1, 5), (6, 1, 10), (7, 0, "-"), words=["x"])
    #                                          01  2   34  5   6      7  8  9  0
    yield of_tree("257 bits", tree_of_bits(257), 23, *((4 + bit, 1, 6 + 7 * bit) for bit in range(257)))


# ---- texts that the panel's compiler does not take: the rows have name, word, contacts and first place

def of_text(text, code, *rows):
    for form, given, said in forms(calls.stages(text.encode())):
        yield Case(f"uses, {form} of {text}", ["uses", "-"], given, out=table(("-", *row) for row in rows), said=(*said, *not_taken(code)))


def of_texts():
    yield from of_text("((lambda x (x x)) (lambda y 9))", 21, (6, "x", 2, 3), (7, "y", 0, "-"))
    yield from of_text("(lambda x (quote (x (x))))", 21, (5, "x", 0, "-"))
    yield from of_text("(lambda x (x (syntax (x x)) x))", 21, (5, "x", 2, 2))
    yield from of_text("('all ((lambda x ('out @1 x)) 0) ((lambda motor ('out @1 motor)) 1))", 22, (6, "x", 1, 7), (7, "motor", 1, 14))


def cases():
    for name in calls.EXAMPLES:
        yield from of_example(name)
    yield from (*of_a_file(), *of_panels(), *of_open_trees(), *of_other_trees(), *of_texts())
