"""Edge cases of local expansion (request T-08), worked out by hand.

Primitive 7 gives the value of the macro that an identifier means, 8 expands a piece with a list of stops, 9 makes an
identifier fit to bind. As in edge_cases.py, which takes these in, each case is a reason, a call and the answer asked
for, and the notation is the one of image.py.

`local` takes a program and the charges that are made from the moment on in which the macro's code has been put together
and is evaluated. What comes before is document 01's and follows from the text alone: `before` adds it up.

In most of these programs the macro is `m`, its form `z` and the fresh scopes are

    1 of m, 2 of z (one phase up), 3 of the use, 4 its introduction scope

and where a lambda or a macro stands around, its scopes come first.
"""
import re

from image import Text, Words, call, syntax_image, tree_image

CASES = []  # as in edge_cases.py
CORE_FORMS = ("lambda", "let-syntax", "quote", "syntax")


def put(reason, job, image, code, units, result=None, phase=0, budget=1024, rivals=(0, 0)):
    assert (code == 6) == (0 < rivals[0] < rivals[1])
    CASES.append((f"local: {reason}", call(job, image, phase, budget), job, code, units, 0, rivals, result,
                  "kept" if budget == 0 else "clear"))


def put_steps(reason, job, image, spent, charges, code, result=None, phase=0, rivals=(0, 0)):
    """Every charge refused once, then the end of the call at its exact budget."""
    for index, charge in enumerate(charges):
        put(f"{reason}: charge {index + 1} of {len(charges)} is refused", job, image, 19, spent, None, phase, spent + charge - 1)
        spent += charge
    put(f"{reason}: {spent} units", job, image, code, spent, result, phase, spent, rivals)


# ==== what comes before the macro's code is evaluated ====


def read(text):
    """A text as words and lists of them, without their scopes."""
    tokens = re.findall(r"[()]|[^\s()]+", re.sub(r"\{[^}]*\}", "", text))

    def one():
        token = tokens.pop(0)
        if token != "(":
            return token
        parts = []
        while tokens[0] != ")":
            parts.append(one())
        tokens.pop(0)
        return parts

    return one()


def size(thing):
    return 1 if isinstance(thing, str) else 1 + sum(map(size, thing))


def head_of(thing):
    return thing[0] if isinstance(thing, list) and thing and isinstance(thing[0], str) else None


def expanding(code):
    """Code of core forms and applications: an entry each; a binder, its body, and what `syntax` prunes."""
    head = head_of(code)
    if head == "syntax":
        return 1 + size(code[1])
    if head == "quote" or isinstance(code, str):
        return 1
    if head == "lambda":
        return 1 + 1 + size(code[2]) + expanding(code[2])
    return 1 + sum(map(expanding, code))


def parsing(code):
    head = head_of(code)
    if head == "quote":
        return 1 + size(code[1])
    if head == "syntax" or isinstance(code, str):
        return 1
    return 1 + (parsing(code[2]) if head == "lambda" else sum(map(parsing, code)))


def tree_size(code):
    head = head_of(code)
    if head == "quote":
        return size(code[1])
    if head == "syntax" or isinstance(code, str):
        return 1
    return 1 + (tree_size(code[2]) if head == "lambda" else sum(map(tree_size, code)))


def until(thing, macros):
    """From the entry of a form to the moment in which the first macro's code is to be evaluated."""
    if thing[0] == "lambda":
        return 1 + 1 + size(thing[2]) + until(thing[2], macros)
    if thing[0] == "let-syntax":
        value, body = thing[2:]
        made = expanding(value) + parsing(value) + 1
        return 1 + 1 + made + size(body) + until(body, {**macros, thing[1]: value})
    # A use: its entry, add and flip, the application, its head and its argument; the code, where it is a function's.
    value = macros[thing[0]]
    return 1 + 2 * size(thing) + 3 + (tree_size(value[2]) if head_of(value) == "lambda" else 0)


def before(program):
    thing = read(program)
    return size(thing) + until(thing, {})


def words_of(program, given=()):
    known = Words(given)
    Text(program, known).object()
    return known.words


def local(reason, program, charges, code=0, result=None, phase=0, rivals=(0, 0), made=0, scopes=0, bindings=(), words=(), stepwise=True):
    """The result is a root, and how many names and scopes have been made and what has been bound since, as (word, set, name)."""
    words = words_of(program, words)
    image = syntax_image(program, words=words, made=made, scopes=scopes, bindings=bindings)
    if result is not None:
        root, more_names, more_scopes, *bound = result
        result = syntax_image(root, words=words, made=made + more_names, scopes=scopes + more_scopes, bindings=[*bindings, *bound])
    spent = before(program)
    if stepwise:
        put_steps(reason, "expand", image, spent, charges, code, result, phase, rivals)
    else:
        put(reason, "expand", image, code, spent + sum(charges), result, phase, 4096, rivals)


def macro(code, use="(m)"):
    return f"(let-syntax m (lambda z {code}) {use})"


def given(times):
    """So many entries or primitives, one unit each."""
    return [1] * times


# (#2 (#3 (#0 z))): three applications, three heads, z and three primitives.
ARGUMENT = "(#2 (#3 (#0 z)))"
OF_ARGUMENT = given(10)
NO_STOPS = "(quote ())"
OF_NO_STOPS = given(1)


def stops(names):
    """The list value of a few identifiers: an application, #0, the syntax and the primitive."""
    return f"(#0 (syntax ({names})))"


OF_STOPS = given(4)


def expanded(piece, stops_=NO_STOPS):
    return f"(#8 {piece} {stops_})"


def of_expanded(piece, stops_, inside):
    """The application, #8, the arguments, the primitive; then what the expansion takes, both flips included."""
    return [1, 1, *piece, *stops_, 1, *inside]


SYNTAX = given(1)  # (syntax s), evaluated


def of_syntax(inside, stops_=OF_NO_STOPS):
    return of_expanded(SYNTAX, stops_, inside)


# ==== 28: no introduction scope ====

ARGUMENTS = {7: 1, 8: 2, 9: 1}
for primitive, count in ARGUMENTS.items():
    good = " `x `x"[:3 * count]
    put_steps(f"evaluate: {primitive} is 28", "evaluate", tree_image(f"(#{primitive}{good})"), 0, [2 + count, 1, 1], 28)
    put_steps(f"evaluate: 28 of {primitive} comes before an argument that is refused", "evaluate",
              tree_image(f"(#{primitive}{' (1)' * count})"), 0, [2 + 2 * count, 1, 1], 28)
    put_steps(f"evaluate: 28 of {primitive} comes before its kinds", "evaluate", tree_image(f"(#{primitive}{' 1' * count})"), 0,
              [2 + count, 1, 1], 28)
    put(f"evaluate: 10 of {primitive} comes before 28", "evaluate", tree_image(f"(#{primitive}{good} 1)"), 10, 3 + count + 2)
    put(f"evaluate: 10 of {primitive} with nothing comes before 28", "evaluate", tree_image(f"(#{primitive})"), 10, 2 + 2)
    put(f"evaluate: 28 of {primitive} in a function's body", "evaluate", tree_image(f"([4 (#{primitive}{' $4' * count})] `x)", made=1), 28,
        (1 + 1 + 2 + count + 1) + 3 + (2 + count) + 2)
    put(f"evaluate: {primitive} itself is a value", "evaluate", tree_image(f"#{primitive}"), 0, 2, tree_image(f"#{primitive}"))
    put(f"evaluate: {primitive} in a list", "evaluate", tree_image(f"(#link #{primitive} <>)"), 0, 4 + 4 + 1, tree_image(f"<#{primitive}>"))
    put(f"evaluate: {primitive} is an atom", "evaluate", tree_image(f"(#same #{primitive} #{primitive})"), 0, 4 + 4 + 1, tree_image("1"))
    # Loading, an entry, the binder; the right-hand side expanded and parsed; its application and head.
    text = f"(let-syntax m (#{primitive}{' 0' * count}) 1)"
    put_steps(f"a right-hand side: {primitive} is 28", "expand", syntax_image(text), 0,
              [size(read(text)), 1, 1, *given(2 + count), *given(2 + count), 1, 1], 28)
    text = f"(let-syntax m (#{primitive}{' (1)' * count}) 1)"
    put(f"a right-hand side: 28 of {primitive} comes before an argument that is refused", "expand", syntax_image(text), 28,
        size(read(text)) + 2 + 2 * (2 + 2 * count) + 2)
    text = f"(let-syntax m (#{primitive}{' 0' * count} 0) 1)"
    put(f"a right-hand side: 10 of {primitive} comes before 28", "expand", syntax_image(text), 10, size(read(text)) + 2 + 2 * (3 + count) + 2)
    text = f"(let-syntax m (let-syntax n (#{primitive}{' 0' * count}) 1) 1)"
    put(f"a right-hand side two phases up: {primitive} is 28", "expand", syntax_image(text), 28,
        size(read(text)) + 2 + 2 + 2 * (2 + count) + 2)
    # What a right-hand side makes may hold the primitive; it works where the macro is used.
    if count == 1:
        local(f"a right-hand side may be {primitive} itself, and a form is no identifier", f"(let-syntax m #{primitive} (m))", [1], 11)
# 10 comes before the argument: loading 6, an entry, the binder, three for #8; 2, an entry, 2 and 2; the application and its head.
put("a right-hand side may be 8 itself, which takes two", "expand", syntax_image("(let-syntax m #8 (m))"), 10, 6 + 2 + 3 + 2 + 1 + 4 + 2)
put("evaluate: the head decides, 10", "evaluate", tree_image("((#pick 1 #8 #7) `x)"), 10, (1 + 5 + 1) + 1 + 1 + 4 + 1)
put("evaluate: the head decides, 28", "evaluate", tree_image("((#pick 0 #8 #7) `x)"), 28, (1 + 5 + 1) + 1 + 1 + 4 + 1)
# 28 of a right-hand side inside a local expansion. `(let-syntax k (#9 (1)) 2)` has size 8.
for primitive, count in ARGUMENTS.items():
    piece = f"(let-syntax k (#{primitive}{' (1)' * count}) 2)"
    code = 2 + 2 * count  # of the right-hand side, in entries as in size
    local(f"a right-hand side in a local expansion: {primitive} is 28", macro(expanded(f"(syntax {piece})")),
          of_syntax([4 + code, 1, 1, *given(code), *given(code), 1, 1]), 28)
# The same in what a macro gives: size 4 + 4 again.
local("a right-hand side in what a macro gives is 28", macro("(syntax (let-syntax k (#9 (1)) 2))"),
      [1, 8, 1, 1, *given(4), *given(4), 1, 1], 28)

# ==== 10 and the arguments, in a macro use ====

for primitive, count in ARGUMENTS.items():
    local(f"{primitive} with one argument more", macro(f"(#{primitive}{' (1)' * (count + 1)})"), [1, 1], 10)
    local(f"{primitive} with nothing", macro(f"(#{primitive})"), [1, 1], 10)
    # The first argument is (1): its entry, its head, 10.
    local(f"the arguments of {primitive} are evaluated, left to right", macro(f"(#{primitive}{' (1)' * count})"), [1, 1, 1, 1], 10)
local("the second argument of 8 after the first", macro("(#8 0 (1))"), [1, 1, 1, 1, 1], 10)

# ==== 11: kinds ====

NO_IDENTIFIERS = [("a number", "5", 1), ("a symbol", "(#0 (syntax x))", 4), ("an empty list value", "(quote ())", 1),
                  ("a list value of an identifier", "(#0 (syntax (x)))", 4), ("a function", "(lambda y y)", 1), ("a primitive", "#7", 1),
                  ("a point", "@1", 1), ("a rung word", "'and", 1),
                  ("a number as syntax", "(syntax 5)", 1), ("a point as syntax", "(syntax @1)", 1), ("a primitive as syntax", "(syntax #7)", 1),
                  ("a rung word as syntax", "(syntax 'and)", 1),
                  ("a list as syntax", "(syntax (x))", 1), ("the empty list as syntax", "(syntax ())", 1), ("the form", "z", 1)]
for what, code, units in NO_IDENTIFIERS:
    for primitive in (7, 9):
        local(f"{primitive} takes an identifier, not {what}", macro(f"(#{primitive} {code})"), [1, 1, *given(units), 1], 11, stepwise=False)
for what, code, units in NO_IDENTIFIERS[:8]:
    local(f"8 takes a piece, not {what}", macro(f"(#8 {code} (quote ()))"), [1, 1, *given(units), 1, 1], 11, stepwise=False)
for what, code, units in NO_IDENTIFIERS:
    if "list value" in what:
        continue
    local(f"8 takes a list of stops, not {what}", macro(f"(#8 (syntax 5) {code})"), [1, 1, 1, *given(units), 1], 11, stepwise=False)
local("8 takes a list of stops, not an identifier", macro("(#8 (syntax 5) (syntax lambda))"), [1, 1, 1, 1, 1], 11)
for what, names in (("a number", "5"), ("a list", "(lambda)"), ("a number behind an identifier", "lambda 5"),
                    ("the empty list before an identifier", "() lambda"), ("a point between", "lambda @1 quote")):
    local(f"8: among the stops is {what}", macro(expanded("(syntax 5)", stops(names))), of_syntax([], OF_STOPS), 11, stepwise=False)
local("8: among the stops is a number that is no syntax", macro("(#8 (syntax 5) (quote (1)))"), of_syntax([]), 11)
local("8: among the stops is a symbol that is no syntax", macro("(#8 (syntax 5) (quote (lambda)))"), of_syntax([]), 11)

# ==== 7: the meaning of an identifier ====

# n is 1, its z 2, m 3, its z 4, use 5, introduction 6. The function of n is applied to z: head, argument, its body's 1, an entry.
N_AND_M = "(let-syntax n (lambda z {}) (let-syntax m (lambda z {}) {}))"
BOUND_N_AND_M = [("n", [1], 8), ("z", [2], 9), ("m", [1, 3], 10), ("z", [4], 11)]  # with words n, z, m and x


def n_and_m(n, m, use="(m)"):
    return N_AND_M.format(n, m, use)


local("7 gives a macro's value, which is applied", n_and_m("(syntax 5)", "((#7 (syntax n)) z)"),
      [1, *given(4), 1, 1, 1, 1, 1], result=("5{6}", 4, 6, ("n", [1], 7), ("z", [2], 8), ("m", [1, 3], 9), ("z", [4], 10)))
local("7 gives a value that is no function", "(let-syntax n 7 (let-syntax m (lambda z (#1 (#7 (syntax n)) z)) (m)))",
      [1, 1, *given(4), 1, 1, 1, 1],
      result=("7{1,2,4}", 3, 5, ("n", [1], 7), ("m", [1, 2], 8), ("z", [3], 9)))
local("7 gives a list value", "(let-syntax n (quote (1 2)) (let-syntax m (lambda z (#1 (#2 (#7 (syntax n))) z)) (m)))",
      [1, 1, 1, 1, *given(4), 1, 1, 1, 1, 1],
      result=("1{1,2,4}", 3, 5, ("n", [1], 7), ("m", [1, 2], 8), ("z", [3], 9)))
local("7 of the macro itself, by its form: a function is no syntax", macro("(#7 (#2 (#0 z)))"), [1, 1, *given(7), 1], 9)
local("7: the macro's name in its own right-hand side has no meaning", macro("(#7 (syntax m))"), [1, 1, 1, 1], 11)
local("7: no meaning", macro("(#7 (syntax q))"), [1, 1, 1, 1], 11)
for form in CORE_FORMS:
    local(f"7: {form} is no macro", macro(f"(#7 (syntax {form}))"), [1, 1, 1, 1], 11, stepwise=False)
local("7: a variable is no macro", f"(lambda x {macro('(#7 (syntax x))')})", [1, 1, 1, 1], 11)
local("7: a variable of the use is no macro", f"(lambda x {macro('(#7 ' + ARGUMENT + ')', '(m x)')})", [1, 1, *OF_ARGUMENT, 1], 11)
local("7: a word bound to a core form is no macro", macro("(#7 (syntax x))"), [1, 1, 1, 1], 11, bindings=[("x", [], 0)])
local("7: a core word bound to a macro's name is that macro", "(let-syntax quote 7 (let-syntax m (lambda z (#1 (#7 (syntax quote)) z)) (m)))",
      [1, 1, *given(4), 1, 1, 1, 1],
      result=("7{1,2,4}", 3, 5, ("quote", [1], 6), ("m", [1, 2], 7), ("z", [3], 8)))
# An image of its own: x{1,2} is ambiguous. m and z are bound before, in the order of the words.
AMBIGUOUS = dict(scopes=2, bindings=[("x", [1], 4), ("x", [2], 4)])
local("7: an ambiguous identifier", macro("(#7 (syntax x{1,2}))"), [1, 1, 1, 1], 6, rivals=(3, 4), **AMBIGUOUS)
local("7: an ambiguous identifier, its word first", macro("(#7 (syntax x{1,2}))"), [1, 1, 1, 1], 6, rivals=(1, 2), words=["x"], **AMBIGUOUS)
local("7: ambiguous at phase 1 only", macro("(#7 (syntax x{1|1,2}))"), [1, 1, 1, 1], 11, **AMBIGUOUS)
local("7: at phase 1 the sets of phase 1 count", macro("(#7 (syntax x{|1,2}))"), [1, 1, 1, 1], 6, phase=1, rivals=(3, 4), **AMBIGUOUS)
local("7: at phase 1 those of phase 0 do not", macro("(#7 (syntax x{1,2|1}))"), [1, 1, 1, 1], 11, phase=1, **AMBIGUOUS)
local("7: the kind comes before the meaning", macro("(#7 (syntax (x{1,2})))"), [1, 1, 1, 1], 11, **AMBIGUOUS)
local("7: an ambiguous word of the use", macro(f"(#7 {ARGUMENT})", "(m x{1,2})"), [1, 1, *OF_ARGUMENT, 1], 6, rivals=(3, 4), **AMBIGUOUS)

# ==== 8: without stops ====

# Inside: the flip, what expanding takes, the flip. Then the macro's result is flipped and expanded.
LAMBDA = given(4)  # (lambda x x): its entry, the binder, the body and its entry
BOUND_MZ = [("m", [1], 7), ("z", [2], 8)]  # with words m, z and x
local("8: a lambda, expanded inside and again outside", macro(expanded("(syntax (lambda x x))")),
      [*of_syntax([4, *LAMBDA, 4]), 4, *LAMBDA],
      result=("(lambda{4} x{4,5,6} x{4,5,6}){4}", 4, 6, *BOUND_MZ, ("x", [4, 5], 9), ("x", [4, 5, 6], 10)))
local("8 at phase 1", macro(expanded("(syntax (lambda x x))")),
      [*of_syntax([4, *LAMBDA, 4]), 4, *LAMBDA], phase=1, stepwise=False,
      result=("(lambda{|4} x{|4,5,6} x{|4,5,6}){|4}", 4, 6, *BOUND_MZ, ("x", [4, 5], 9), ("x", [4, 5, 6], 10)))
local("8: a variable of the use", f"(lambda x {macro(expanded(ARGUMENT), '(m x)')})",
      [*of_expanded(OF_ARGUMENT, OF_NO_STOPS, [1, 1, 1]), 1, 1],
      result=("(lambda x{1} x{1})", 3, 5, ("x", [1], 7), ("m", [1, 2], 8), ("z", [3], 9)))
# (lambda y (x y)) has size 6: entry, binder, body of 3, its entry and two parts.
local("8: a piece of the use with a variable", f"(lambda x {macro(expanded(ARGUMENT), '(m (lambda y (x y)))')})",
      [*of_expanded(OF_ARGUMENT, OF_NO_STOPS, [6, 1, 1, 3, 1, 1, 1, 6]), 6, 1, 1, 3, 1, 1, 1], stepwise=False,
      result=("(lambda x{1} (lambda{1,2,4} y{1,2,4,6,7} (x{1} y{1,2,4,6,7}){1,2,4,6,7}){1,2,4})", 5, 7, ("x", [1], 8), ("m", [1, 2], 9),
              ("z", [3], 10), ("y", [1, 2, 4, 6], 11), ("y", [1, 2, 4, 6, 7], 12)))
for text in ("5", "@1", "#9", "'and"):
    local(f"8: {text} stays", macro(expanded(f"(syntax {text})")), [*of_syntax([1, 1, 1]), 1, 1],
          result=(text + "{4}", 2, 4, ("m", [1], 6), ("z", [2], 7)))
local("8: no meaning", macro(expanded("(syntax q)")), of_syntax([1, 1]), 7)
local("8: the empty list", macro(expanded("(syntax ())")), of_syntax([1, 1]), 8)
local("8: a core form alone", macro(expanded("(syntax quote)")), of_syntax([1, 1]), 8)
local("8: a wrong shape", macro(expanded("(syntax (lambda x))")), of_syntax([3, 1]), 8)
local("8: an ambiguous word", macro(expanded("(syntax x{1,2})")), of_syntax([1, 1]), 6, rivals=(3, 4), **AMBIGUOUS)
# What is not of the text is flipped out again: the macro looks at the parts of what was expanded and gives one of them.
local("8: the macro takes a part of what was expanded", macro(f"(#2 (#3 (#0 {expanded('(syntax (quote x))')})))"),
      [*given(6), *of_syntax([3, 1, 3]), *given(3), 1, 1], 7)
# same(content of the head, 'quote): 1 where the piece has become a quotation, so 10 and not 20.
LOOK = "(#6 (#5 (#0 (#2 (#0 {}))) (quote quote)) (syntax 10) (syntax 20))"


def of_look(inside):
    """pick, same, #0, #2, #0 and what they take; the quotation; three primitives behind it, same, two syntaxes, pick."""
    return [1, 1, 1, 1, 1, 1, 1, 1, 1, 1, *inside, 1, 1, 1, 1, 1, 1, 1, 1]


local("8: a macro looks at what its argument becomes: a quotation", macro(LOOK.format(expanded(ARGUMENT)), "(m (quote x))"),
      [*of_look(of_expanded(OF_ARGUMENT, OF_NO_STOPS, [3, 1, 3])), 1, 1], result=("10{4}", 2, 4, ("m", [1], 7), ("z", [2], 8)))
local("8: a macro looks at what its argument becomes: an application", macro(LOOK.format(expanded(ARGUMENT)), "(m ('and x))"),
      of_look(of_expanded(OF_ARGUMENT, OF_NO_STOPS, [3, 1, 1, 1]))[:10 + 2 + 10 + 1 + 1 + 4], 7)
local("8: a macro looks at what its argument becomes: no quotation", macro(LOOK.format(expanded(ARGUMENT)), "(m ('and 1))"),
      [*of_look(of_expanded(OF_ARGUMENT, OF_NO_STOPS, [3, 1, 1, 1, 3])), 1, 1], result=("20{4}", 2, 4, ("m", [1], 6), ("z", [2], 7)))
# The macro n gives (quote 5): the use of n is expanded before m looks. n's use is 7 and 8; it takes entry, add, flip, three, its body's
# 1, an entry, the flip of its result and an entry.
USE_OF_N = [1, 2, 2, 1, 1, 1, 1, 1]
local("8: a macro looks at what a macro gives", n_and_m("(syntax (quote 5))", LOOK.format(expanded(ARGUMENT)), "(m (n))"),
      [*of_look(of_expanded(OF_ARGUMENT, OF_NO_STOPS, [2, *USE_OF_N, 3, 1, 3])), 1, 1],
      result=("10{1,6}", 4, 8, ("n", [1], 7), ("z", [2], 8), ("m", [1, 3], 9), ("z", [4], 10)))
local("8: a macro used inside gives no syntax", n_and_m("5", expanded("(syntax (n))")), of_syntax([2, *USE_OF_N]), 9)
local("8: the value of a macro used inside is applied to its form", n_and_m("(1)", expanded("(syntax (n))")),
      of_syntax([2, 1, 2, 2, 1, 1, 1, 2, 1, 1]), 10)
local("8: a macro works inside", n_and_m("(syntax 5)", expanded("(syntax (n))")),
      [*of_syntax([2, *USE_OF_N, 1, 1, 1]), 1, 1],
      result=("5{8}", 4, 8, ("n", [1], 7), ("z", [2], 8), ("m", [1, 3], 9), ("z", [4], 10)))

# ==== 8: stops ====

local("8: lambda is stopped, and works outside", macro(expanded("(syntax (lambda x x))", stops("lambda"))),
      [*of_syntax([4, 1, 4], OF_STOPS), 4, *LAMBDA],
      result=("(lambda{4} x{4,5} x{4,5}){4}", 3, 5, *BOUND_MZ, ("x", [4, 5], 9)))
local("8: quote is stopped", macro(expanded("(syntax (quote x))", stops("quote"))), [*of_syntax([3, 1, 3], OF_STOPS), 3, 1],
      result=("(quote{4} x{4}){4}", 2, 4, *BOUND_MZ))
# Inside, syntax takes an entry and no charge for its object; outside both.
local("8: syntax is stopped", macro(expanded("(syntax (syntax x))", stops("syntax"))), [*of_syntax([3, 1, 3], OF_STOPS), 3, 1, 1],
      result=("(syntax{4} x{4}){4}", 2, 4, *BOUND_MZ))
local("8: syntax is not stopped", macro(expanded("(syntax (syntax x))", stops("quote"))), [*of_syntax([3, 1, 1, 3], OF_STOPS), 3, 1, 1],
      result=("(syntax{4} x{4}){4}", 2, 4, *BOUND_MZ))
# A form of the use loses its use scope (3) and m's (1) by syntax, where it works.
local("8: a stopped syntax prunes nothing", macro(f"(#2 (#3 (#0 {expanded(ARGUMENT, stops('syntax'))})))", "(m (syntax (quote x)))"),
      [*given(6), *of_expanded(OF_ARGUMENT, OF_STOPS, [5, 1, 5]), *given(3), 3, 1],
      result=("(quote{1,3} x{1,3}){1,3}", 2, 4, *BOUND_MZ))
local("8: a syntax that is not stopped prunes", macro(f"(#2 (#3 (#0 {expanded(ARGUMENT)})))", "(m (syntax (quote x)))"),
      [*given(6), *of_expanded(OF_ARGUMENT, OF_NO_STOPS, [5, 1, 3, 5]), *given(3), 3, 1],
      result=("(quote x)", 2, 4, *BOUND_MZ))
local("8: let-syntax is stopped", macro(expanded("(syntax (let-syntax x 1 2))", stops("let-syntax"))),
      [*of_syntax([5, 1, 5], OF_STOPS), 5, 1, 1, 1, 1, 1, 1, 1],
      result=("2{4,5}", 3, 5, *BOUND_MZ, ("x", [4, 5], 9)))
for form in CORE_FORMS:
    local(f"8: {form} is stopped, in a wrong shape, and refused outside", macro(expanded(f"(syntax ({form}))", stops(form))),
          [*of_syntax([2, 1, 2], OF_STOPS), 2, 1], 8)
    local(f"8: {form} alone, stopped", macro(expanded(f"(syntax {form})", stops(form))), of_syntax([1, 1], OF_STOPS), 8)
IN_LAMBDA = "(lambda x {})"
BOUND_XMZ = [("x", [1], 7), ("m", [1, 2], 8), ("z", [3], 9)]
local("8: a variable alone, stopped", IN_LAMBDA.format(macro(expanded("(syntax x)", stops("x")))), of_syntax([1, 1], OF_STOPS), 8)
local("8: a variable alone, not stopped", IN_LAMBDA.format(macro(expanded("(syntax x)", stops("quote")))),
      [*of_syntax([1, 1, 1], OF_STOPS), 1, 1], result=("(lambda x{1} x{1})", 3, 5, *BOUND_XMZ))
local("8: a list headed by a stopped variable stays", IN_LAMBDA.format(macro(expanded("(syntax (x 1))", stops("x")))),
      [*of_syntax([3, 1, 3], OF_STOPS), 3, 1, 1, 1],
      result=("(lambda x{1} (x{1} 1{1,5}){1,5})", 3, 5, *BOUND_XMZ))
local("8: a list headed by a variable that is not stopped", IN_LAMBDA.format(macro(expanded("(syntax (x 1))"))),
      [*of_syntax([3, 1, 1, 1, 3]), 3, 1, 1, 1],
      result=("(lambda x{1} (x{1} 1{1,5}){1,5})", 3, 5, *BOUND_XMZ))
local("8: a stopped variable in another place", IN_LAMBDA.format(macro(expanded("(syntax (1 x))", stops("x")))),
      of_syntax([3, 1, 1, 1], OF_STOPS), 8)
local("8: what stands behind a stop is not looked at", IN_LAMBDA.format(macro(expanded("(syntax (x () q))", stops("x")))),
      [*of_syntax([4, 1, 4], OF_STOPS), 4, 1, 1, 1], 8)
BOUND_NZM = [("n", [1], 7), ("z", [2], 8), ("m", [1, 3], 9), ("z", [4], 10)]
local("8: a macro is stopped, and works outside", n_and_m("(syntax 5)", expanded("(syntax (n))", stops("n"))),
      [*of_syntax([2, 1, 2], OF_STOPS), 2, *USE_OF_N, 1, 1], result=("5{8}", 4, 8, *BOUND_NZM))
local("8: a macro alone, stopped", n_and_m("(syntax 5)", expanded("(syntax n)", stops("n"))), of_syntax([1, 1], OF_STOPS), 8)
local("8: the macro itself is stopped, by its form", macro(f"(#2 (#3 (#0 {expanded('z', '(#4 (#2 (#0 z)) (quote ()))')})))", "(m 5)"),
      [*given(6), *of_expanded([1], [1, 1, *given(7), 1, 1], [3, 1, 3]), *given(3), 1, 1],
      result=("5{1,3}", 2, 4, ("m", [1], 6), ("z", [2], 7)))
local("8: several stops", n_and_m("(syntax 5)", expanded("(syntax ((n) (quote)))", stops("quote n lambda"))),
      [*of_syntax([5, 1, 1, 1, 5], OF_STOPS), 5, 1, *USE_OF_N, 1, 1, 1], 8)
local("8: the same stop twice", macro(expanded("(syntax (quote x))", stops("quote quote"))), [*of_syntax([3, 1, 3], OF_STOPS), 3, 1],
      result=("(quote{4} x{4}){4}", 2, 4, *BOUND_MZ))
# Stops go by name: f means lambda in this image.
F_IS_LAMBDA = [("f", [], 0)]
local("8: stops go by name", macro(expanded("(syntax (lambda x))", stops("f"))), [*of_syntax([3, 1, 3], OF_STOPS), 3, 1], 8,
      bindings=F_IS_LAMBDA)
local("8: stops go by name, the other way", macro(expanded("(syntax (f x))", stops("lambda"))), [*of_syntax([3, 1, 3], OF_STOPS), 3, 1], 8,
      bindings=F_IS_LAMBDA)
# ---- a stop needs a meaning, and its binding must be clear ----

local("8: a stop without meaning is 11, before the flip", macro(expanded("(syntax (1 2))", stops("q"))), of_syntax([], OF_STOPS), 11)
local("8: the second stop has no meaning", macro(expanded("(syntax (1 2))", stops("lambda q"))), of_syntax([], OF_STOPS), 11)
local("8: a core word bound to a word has no meaning", macro(expanded("(syntax 5)", stops("quote"))), of_syntax([], OF_STOPS), 11,
      bindings=[("quote", [], 4)])
local("8: a word bound to a core form is a stop", macro(expanded("(syntax 5)", stops("x"))), [*of_syntax([1, 1, 1], OF_STOPS), 1, 1],
      bindings=[("x", [], 1)], result=("5{4}", 2, 4, ("m", [1], 7), ("z", [2], 8)))
local("8: an ambiguous stop is 6, before the flip", macro(expanded("(syntax (1 2))", stops("x{1,2}"))), of_syntax([], OF_STOPS), 6,
      rivals=(3, 4), **AMBIGUOUS)
local("8: the second stop is ambiguous", macro(expanded("(syntax 5)", stops("quote x{1,2}"))), of_syntax([], OF_STOPS), 6, rivals=(3, 4),
      **AMBIGUOUS)
local("8: a stop without meaning before an ambiguous one", macro(expanded("(syntax 5)", stops("q x{1,2}"))), of_syntax([], OF_STOPS), 11,
      **AMBIGUOUS)
local("8: an ambiguous stop before one without meaning", macro(expanded("(syntax 5)", stops("x{1,2} q"))), of_syntax([], OF_STOPS), 6,
      rivals=(3, 4), **AMBIGUOUS)
local("8: an ambiguous stop, and then what is no identifier", macro(expanded("(syntax 5)", stops("x{1,2} 7"))), of_syntax([], OF_STOPS), 11,
      **AMBIGUOUS)
local("8: an ambiguous stop, and the piece is none", macro(f"(#8 5 {stops('x{1,2}')})"), of_syntax([], OF_STOPS), 11, **AMBIGUOUS)
local("8: an ambiguous stop, its word first", macro(expanded("(syntax 5)", stops("x{1,2}"))), of_syntax([], OF_STOPS), 6, rivals=(1, 2),
      words=["x"], **AMBIGUOUS)
local("8: at phase 1 the stop's set of phase 1 counts", macro(expanded("(syntax 5)", stops("x{|1,2}"))), of_syntax([], OF_STOPS), 6, phase=1,
      rivals=(3, 4), **AMBIGUOUS)
local("8: at phase 1 the stop's set of phase 0 does not", macro(expanded("(syntax 5)", stops("x{1,2}"))), of_syntax([], OF_STOPS), 11, phase=1,
      **AMBIGUOUS)

# ---- where the stops hold ----

local("8: stops hold in the parts of an application", n_and_m("(syntax 5)", expanded("(syntax (1 (n)))", stops("n"))),
      [*of_syntax([4, 1, 1, 1, 4], OF_STOPS), 4, 1, 1, *USE_OF_N, 1, 1],
      result=("(1{1,6} 5{8}){1,6}", 4, 8, *BOUND_NZM))
# (lambda y (n)): size 5, entry, binder, body of 2, its entry.
local("8: stops hold in the body of a lambda", n_and_m("(syntax 5)", expanded("(syntax (lambda y (n)))", stops("n"))),
      [*of_syntax([5, 1, 1, 2, 1, 5], OF_STOPS), 5, 1, 1, 2, *USE_OF_N, 1, 1],
      result=("(lambda{1,6} y{1,6,7,8} 5{10}){1,6}", 6, 10, ("n", [1], 8), ("z", [2], 9), ("m", [1, 3], 10), ("z", [4], 11),
              ("y", [1, 6, 7], 12), ("y", [1, 6, 7, 8], 13)))
# (let-syntax k 1 (n)): size 6, entry, binder, three for the right-hand side, the body's 2 and its entry.
local("8: stops hold in the body of a let-syntax", n_and_m("(syntax 5)", expanded("(syntax (let-syntax k 1 (n)))", stops("n"))),
      [*of_syntax([6, 1, 1, 1, 1, 1, 2, 1, 2], OF_STOPS), 2, *USE_OF_N, 1, 1],
      result=("5{9}", 5, 9, ("n", [1], 8), ("z", [2], 9), ("m", [1, 3], 10), ("z", [4], 11), ("k", [1, 6, 7], 12)))
local("8: stops do not hold in a right-hand side", macro(expanded("(syntax (let-syntax k (lambda y (syntax 5)) (k)))", stops("lambda"))),
      # size 11; entry, binder; the right-hand side: lambda, binder, body of 3, syntax and its 1; 2 to parse; 1; the body's 2; the use of k
      [*of_syntax([11, 1, 1, 1, 1, 3, 1, 1, 1, 1, 1, 2, *USE_OF_N, 1, 1, 1], OF_STOPS), 1, 1],
      # the piece, 5 with it, is flipped by 4; then 8 of the use of k; then 4 inside and 4 outside
      result=("5{4,8}", 4, 8, ("m", [1], 8), ("z", [2], 9), ("k", [4, 5], 10), ("y", [6], 11)))
# n gives (quote): what a macro gives is expanded with the stops.
local("8: stops hold in what a macro gives", n_and_m("(syntax (quote))", expanded("(syntax (n))", stops("quote"))),
      [*of_syntax([2, *USE_OF_N, 2, 1, 2], OF_STOPS), 2, 1], 8)
local("8: after the local expansion nothing is stopped", macro(f"(#2 (#4 {expanded('(syntax 5)', stops('quote'))} (#4 {expanded('(syntax (quote))')} (quote ()))))"),
      [1, 1, 1, 1, *of_syntax([1, 1, 1], OF_STOPS), 1, 1, *of_syntax([2, 1])], 8)

# ---- a local expansion inside a local expansion ----

# k gives 5; n expands (k) by itself; m expands (n) with k stopped. Scopes: k 1, its z 2; n 3, 4; m 5, 6; m's use 7, 8; n's 9, 10; k's 11, 12.
THREE = "(let-syntax k (lambda z {}) (let-syntax n (lambda z {}) (let-syntax m (lambda z {}) (m))))"
BOUND_THREE = [("k", [1], 8), ("z", [2], 9), ("n", [1, 3], 10), ("z", [4], 11), ("m", [1, 3, 5], 12), ("z", [6], 13)]  # words k, z, n and m


def three(k, n, m):
    return THREE.format(k, n, m)


def use_with(code):
    """The use of a macro without arguments: entry, add, flip, application, head, argument, code put together."""
    return [1, 2, 2, 1, 1, 1, tree_size(read(code))]


N_EXPANDS = expanded("(syntax (k))")
local("8 in 8: the inner one has no stops of its own", three("(syntax 5)", N_EXPANDS, expanded("(syntax (n))", stops("k"))),
      [*of_syntax([2, *use_with(N_EXPANDS), *of_syntax([2, *USE_OF_N, 1, 1, 1]), 1, 1, 1], OF_STOPS), 1, 1],
      result=("5{12}", 6, 12, *BOUND_THREE))
N_STOPS = expanded("(syntax (k))", stops("k"))
# The inner one gives (k), which is expanded with the outer stops and stays; outside k works: 11 and 12 again.
local("8 in 8: a stop of the outer one may be one of the inner one", three("(syntax 5)", N_STOPS, expanded("(syntax (n))", stops("k"))),
      [*of_syntax([2, *use_with(N_STOPS), *of_syntax([2, 1, 2], OF_STOPS), 2, 1, 2], OF_STOPS), 2, *USE_OF_N, 1, 1],
      result=("5{12}", 6, 12, *BOUND_THREE))
local("8 in 8: the outer one has no stops", three("(syntax 5)", N_STOPS, expanded("(syntax (n))")),
      [*of_syntax([2, *use_with(N_STOPS), *of_syntax([2, 1, 2], OF_STOPS), 2, *USE_OF_N, 1, 1, 1]), 1, 1],
      result=("5{12}", 6, 12, *BOUND_THREE))
N_ASKS = "((#7 (syntax k)) z)"
local("7 in 8: a stopped macro has no value", three("(syntax 5)", N_ASKS, expanded("(syntax (n))", stops("k"))),
      of_syntax([2, *use_with(N_ASKS), 1, *given(4)], OF_STOPS), 11)
local("7 in 8: a macro that is not stopped has one", three("(syntax 5)", N_ASKS, expanded("(syntax (n))", stops("quote"))),
      [*of_syntax([2, *use_with(N_ASKS), 1, *given(4), 1, 1, 1, 1, 1, 1], OF_STOPS), 1, 1],
      result=("5{10}", 6, 10, *BOUND_THREE))
K_ASKS = "((#7 (syntax j)) z)"
# j around all three: in the innermost expansion nothing is stopped, though j is in the outer one.
FOUR = "(let-syntax j (lambda z (syntax 5)) " + THREE.format(K_ASKS, N_EXPANDS, expanded("(syntax (n))", stops("j"))) + ")"
local("7 in 8 in 8: what the outer one has stopped has a value again", FOUR,
      [*of_syntax([2, *use_with(N_EXPANDS), *of_syntax([2, *use_with(K_ASKS), 1, *given(4), 1, 1, 1, 1, 1, 1]), 1, 1, 1], OF_STOPS), 1, 1],
      result=("5{14}", 8, 14, ("j", [1], 9), ("z", [2], 10), ("k", [1, 3], 11), ("z", [4], 12), ("n", [1, 3, 5], 13), ("z", [6], 14),
              ("m", [1, 3, 5, 7], 15), ("z", [8], 16)))

# ==== 9: an identifier made fit to bind ====


def quoted(code):
    """Code that puts an identifier into a quotation, which keeps its scopes: (mk-stx (link quote (link code ())) z)."""
    return f"(#1 (#4 (syntax quote) (#4 {code} (quote ()))) z)"


def of_quoted(code):
    return [*given(7), *code, *given(5)]


def fit(code):
    return f"(#9 {code})"


def of_fit(code):
    """The application, #9, the argument, the primitive, the prune."""
    return [1, 1, *code, 1, 1]


FIT = quoted(fit(ARGUMENT))
OF_FIT = of_quoted(of_fit(OF_ARGUMENT))
local("9: without the use scope", macro(FIT, "(m x)"), [*OF_FIT, 3, 1], result=("(quote{4} x{1}){1,3}", 2, 4, *BOUND_MZ))
local("an identifier with its use scope", macro(quoted(ARGUMENT), "(m x)"), [*of_quoted(OF_ARGUMENT), 3, 1],
      result=("(quote{4} x{1,3}){1,3}", 2, 4, *BOUND_MZ))
local("9: a lambda's scope stays, though it is prunable", IN_LAMBDA.format(macro(FIT, "(m x)")), [*OF_FIT, 3, 1],
      result=("(lambda x{1} (quote{1,5} x{1,2}){1,2,4})", 3, 5, *BOUND_XMZ))
local("9: nothing to take", macro(quoted("(#9 (syntax x))")), [*of_quoted(of_fit([1])), 3, 1],
      result=("(quote{4} x{4}){1,3}", 2, 4, *BOUND_MZ))
local("9: other phases keep theirs, and so do other scopes", macro(quoted("(#9 (syntax x{1|2|1,2}))")), [*of_quoted(of_fit([1])), 3, 1],
      scopes=2, result=("(quote{6} x{1,6|2|1,2}){3,5}", 2, 4, ("m", [3], 7), ("z", [4], 8)))
local("9 at phase 1", macro(FIT, "(m x{3})"), [*OF_FIT, 3, 1], phase=1, scopes=3, stepwise=False,
      result=("(quote{|7} x{3|4}){|4,6}", 2, 4, ("m", [4], 7), ("z", [5], 8)))
local("9: a word of the use that binds nothing need have no meaning", macro(fit("(syntax q)")), [1, 1, 1, 1, 1, 1, 1], 7)
local("9: an ambiguous identifier is not resolved", macro(quoted("(#9 (syntax x{1,2}))")), [*of_quoted(of_fit([1])), 3, 1],
      result=("(quote{6} x{1,2,6}){3,5}", 2, 4, ("m", [3], 7), ("z", [4], 8)), **AMBIGUOUS)
# n makes its argument fit; m becomes (n x) in its own place: both use scopes, 5 and 7, are there and go.
GIVES_N = "(#1 (#4 (syntax n) (#3 (#0 z))) z)"
OF_GIVES_N = [1, 1, 1, 1, 1, 1, 1, 1, 1, 1, 1, 1, 1, 1, 1]  # mk-stx, link, syntax, rest, stx-e and z, three primitives; z; the primitive
USE_OF_FIT = [1, 3, 3, 1, 1, 1, tree_size(read(FIT))]
local("9: the use scopes of a use that has become another one", n_and_m(FIT, GIVES_N, "(m x)"),
      [*OF_GIVES_N, 3, *USE_OF_FIT, *OF_FIT, 3, 1],
      result=("(quote{8} x{1,3}){1,3,5,7}", 4, 8, *BOUND_N_AND_M))
# m gives (1 (n x)): the part has its own use scopes, so 5 stays.
IN_PART = f"(#1 (#4 (syntax 1) (#4 {GIVES_N} (quote ()))) z)"
OF_IN_PART = [*given(7), *OF_GIVES_N, *given(5)]
local("9: a part does not know the use scopes around it", n_and_m(FIT, IN_PART, "(m x)"),
      [*OF_IN_PART, 5, 1, 1, *USE_OF_FIT, *OF_FIT, 3, 1],
      result=("(1{1,6} (quote{8} x{1,3,5}){1,3,5,7}){1,3,5}", 4, 8, *BOUND_N_AND_M))
# m gives (lambda y (n x)): y has 7, n's use is 8 and 9. The lambda's binder and what stands in it have no use scope but 5.
IN_BODY = f"(#1 (#4 (syntax lambda) (#4 (syntax y) (#4 {GIVES_N} (quote ())))) z)"
OF_IN_BODY = [*given(10), *OF_GIVES_N, *given(6)]
local("9: a body does not know the use scopes around it", n_and_m(FIT, IN_BODY, "(m x)"),
      [*OF_IN_BODY, 6, 1, 1, 3, *USE_OF_FIT, *OF_FIT, 3, 1], words=["n", "z", "m", "x"],
      result=("(lambda{1,6} y{1,6,7} (quote{9} x{1,3,5,7}){1,3,5,7,8}){1,3,5}", 5, 9, ("n", [1], 9), ("z", [2], 10), ("m", [1, 3], 11),
              ("z", [4], 12), ("y", [1, 6, 7], 13)))
# The body of a let-syntax as well: (let-syntax y 1 (n x)).
IN_LET = f"(#1 (#4 (syntax let-syntax) (#4 (syntax y) (#4 (syntax 1) (#4 {GIVES_N} (quote ()))))) z)"
OF_IN_LET = [*given(13), *OF_GIVES_N, *given(7)]
local("9: the body of a let-syntax does not know the use scopes around it", n_and_m(FIT, IN_LET, "(m x)"),
      [*OF_IN_LET, 7, 1, 1, 1, 1, 1, 3, *USE_OF_FIT, *OF_FIT, 3, 1], words=["n", "z", "m", "x"], stepwise=False,
      result=("(quote{9} x{1,3,5,7}){1,3,5,7,8}", 5, 9, ("n", [1], 9), ("z", [2], 10), ("m", [1, 3], 11), ("z", [4], 12), ("y", [1, 6, 7], 13)))

# ---- what a local expansion leaves to the macro that asked for it ----

# n gives (quote x), x with n's use scope 7. m expands (n x), and takes x out of what came: x has 5, the scope of m's own use, and 7.
QUOTES = quoted(ARGUMENT)
USE_OF_QUOTES = [1, 3, 3, 1, 1, 1, tree_size(read(QUOTES)), *of_quoted(OF_ARGUMENT), 3, 1]
SECOND = "(#2 (#3 (#0 {})))"


def of_second(code):
    return [*given(6), *code, *given(3)]


FROM_N = SECOND.format(expanded(GIVES_N))
OF_FROM_N = of_second(of_expanded(OF_GIVES_N, OF_NO_STOPS, [3, *USE_OF_QUOTES, 3]))
local("8 leaves its use scopes: 9 takes them too, as they are after its argument", n_and_m(QUOTES, quoted(fit(FROM_N)), "(m x)"),
      [*of_quoted(of_fit(OF_FROM_N)), 3, 1],
      result=("(quote{1,6} x{1,3}){1,3,5}", 4, 8, *BOUND_N_AND_M))
local("8: without 9 both use scopes stay", n_and_m(QUOTES, quoted(FROM_N), "(m x)"), [*of_quoted(OF_FROM_N), 3, 1],
      result=("(quote{1,6} x{1,3,5,7}){1,3,5}", 4, 8, *BOUND_N_AND_M), stepwise=False)
TO_SYNTAX = quoted(FROM_N).replace("syntax quote", "syntax syntax")
local("8 leaves what is prunable: syntax in what the macro gives prunes it", n_and_m(QUOTES, TO_SYNTAX, "(m x)"),
      [*of_quoted(OF_FROM_N), 3, 1, 1],
      result=("(syntax{1,6} x){1,3,5}", 4, 8, *BOUND_N_AND_M), stepwise=False)
# 9 is asked before the local expansion: of its own use scope alone. (pick 1 (9 x) (8 ..)) evaluates both, the first first.
EARLY = f"(#6 1 {quoted(fit(ARGUMENT))} {expanded(GIVES_N)})"
local("9 before a local expansion", n_and_m(QUOTES, EARLY, "(m x)"),
      [1, 1, 1, *of_quoted(of_fit(OF_ARGUMENT)), *of_expanded(OF_GIVES_N, OF_NO_STOPS, [3, *USE_OF_QUOTES, 3]), 1, 3, 1],
      result=("(quote{1,6} x{1,3}){1,3,5}", 4, 8, *BOUND_N_AND_M), stepwise=False)
# m expands (1 (n x)): the use is in a part and leaves nothing. x out of ((quote x)) at its second place.
FROM_PART = SECOND.format(SECOND.format(expanded(IN_PART)))
OF_FROM_PART = of_second(of_second(of_expanded(OF_IN_PART, OF_NO_STOPS, [5, 1, 1, *USE_OF_QUOTES, 5])))
local("8: a use in a part leaves no use scope", n_and_m(QUOTES, quoted(fit(FROM_PART)), "(m x)"),
      [*of_quoted(of_fit(OF_FROM_PART)), 3, 1],
      result=("(quote{1,6} x{1,3,7}){1,3,5}", 4, 8, *BOUND_N_AND_M), stepwise=False)
PART_TO_SYNTAX = quoted(FROM_PART).replace("syntax quote", "syntax syntax")
local("8: a use in a part leaves nothing prunable", n_and_m(QUOTES, PART_TO_SYNTAX, "(m x)"), [*of_quoted(OF_FROM_PART), 3, 1, 1],
      result=("(syntax{1,6} x{7}){1,3,5}", 4, 8, *BOUND_N_AND_M), stepwise=False)
# n asks for 9 while m expands it: the use scopes of both, 5 and 7, are there.
local("9 in 8: both use scopes go", n_and_m(FIT, expanded(GIVES_N), "(m x)"),
      [*of_expanded(OF_GIVES_N, OF_NO_STOPS, [3, *USE_OF_FIT, *OF_FIT, 3, 1, 3]), 3, 1],
      result=("(quote{8} x{1,3}){1,3,5,7}", 4, 8, *BOUND_N_AND_M))
local("9 in 8, in a part: its own use scope goes", n_and_m(FIT, expanded(IN_PART), "(m x)"),
      [*of_expanded(OF_IN_PART, OF_NO_STOPS, [5, 1, 1, *USE_OF_FIT, *OF_FIT, 3, 1, 5]), 5, 1, 1, 1],
      result=("(1{1,6} (quote{8} x{1,3,5}){1,3,5,7}){1,3,5}", 4, 8, *BOUND_N_AND_M), stepwise=False)
# In the expansion of a right-hand side there are use scopes of its own phase: the same one phase up. `(let-syntax m (let-syntax n FIT (n x)) 1)`
# gives (quote x), evaluated x. Scopes: m 1, n 2 and its z 3 (phases 1 and 2), use 4, introduction 5.
RIGHT = f"(let-syntax m (let-syntax n (lambda z {FIT}) (n x)) 1)"
RIGHT_SIDE = f"(lambda z {FIT})"
put("9 in a right-hand side's own macro", "expand", syntax_image(RIGHT), 0,
    size(read(RIGHT)) + 1 + 1 + (1 + 1 + expanding(read(RIGHT_SIDE)) + parsing(read(RIGHT_SIDE)) + 1 + 3 + sum(USE_OF_FIT) + sum(OF_FIT) + 3 + 1) +
    (1 + 1) + 1 + 1 + 1, syntax_image("1{1}", words=["m", "n", "z", "x"], made=3, scopes=5,
                                      bindings=[("m", [1], 8), ("n", [2], 9), ("z", [3], 10)]), budget=4096)

# ==== limits inside ====

NAMES = dict(words=["m", "z", "x"])
EXPANDS_LAMBDA = macro(expanded("(syntax (lambda x x))"))
local("8: no name is left", EXPANDS_LAMBDA, of_syntax([4, 1]), 13, made=1024 - 7 - 2, **NAMES)
local("8: no scope is left", EXPANDS_LAMBDA, of_syntax([4, 1]), 14, scopes=252)
PAIRS = sorted([[a] for a in range(1, 33)] + [[a, b] for a in range(1, 33) for b in range(a + 1, 33)])
local("8: no binding room is left", EXPANDS_LAMBDA, of_syntax([4, 1, 1]), 15, scopes=32, bindings=[("y", s, 4) for s in PAIRS[:510]],
      words=["m", "z", "x", "y"])
local("8: the last name inside, none outside", EXPANDS_LAMBDA, [*of_syntax([4, *LAMBDA, 4]), 4, 1], 13, made=1024 - 7 - 3, **NAMES)
local("8: a use inside has no scope left", n_and_m("(syntax 5)", expanded("(syntax (n))")), of_syntax([2, 1]), 14, scopes=250)
# Phase 2 has no right-hand sides: a let-syntax in a local expansion at phase 1 has one, at phase 2 none.
local("8 at phase 1: a let-syntax inside", macro(expanded("(syntax (let-syntax k 1 2))")), [*of_syntax([5, 1, 1, 1, 1, 1, 1, 1, 1]), 1, 1], phase=1,
      result=("2{|4,5}", 3, 5, ("m", [1], 7), ("z", [2], 8), ("k", [4, 5], 9)), stepwise=False)


def nested(times, inner="1"):
    return "(" * times + inner + ")" * times


# (n) in 40 lists; n gives 1 in 30. The lists are made from the inside: the 34th is nested 65 deep.
local("8: what is made inside is nested over 64", n_and_m(f"(syntax {nested(30)})", expanded(f"(syntax {nested(40, '(n)')})")),
      of_syntax([42, *given(40), *USE_OF_N, 31, *given(31)]), 17, stepwise=False)
local("8: what is made inside is nested 64 deep", n_and_m(f"(syntax {nested(30)})", expanded(f"(syntax {nested(33, '(n)')})")),
      [*of_syntax([35, *given(33), *USE_OF_N, 31, *given(31), 64]), 64, *given(64)], stepwise=False,
      result=(f"{'(' * 33}{'(' * 30}1{{8}}{'){8}' * 30}{'){1,6}' * 33}", 4, 8, *BOUND_NZM))

# ==== entries ====

# (#8 z ()) with z the use (m) itself: round and round. An entry for let-syntax; then for each use one of expanding, one of the
# application and one of the code. With 42 uses 127 are in progress, the next use's own entry is the 128th, its application the 129th.
ROUND = [1, 2, 2, 1, 1, 1, 4, 1, 1, 1, 1, 1, 2]
ROUNDS = [*ROUND[7:], *(ROUND * 41), 1, 2, 2]
local("8: a macro that expands its own use: the 129th entry", macro("(#8 z (quote ()))"), ROUNDS, 18, stepwise=False)
SPENT = before(macro("(#8 z (quote ()))")) + sum(ROUNDS)
put("8: 18 comes before the charge of the entry", "expand", syntax_image(macro("(#8 z (quote ()))")), 18, SPENT, budget=SPENT)
put("8: and a unit less is 19", "expand", syntax_image(macro("(#8 z (quote ()))")), 19, SPENT - 2, budget=SPENT - 1)


# The same with an end: (m (m (m 5))), where m expands its argument inside 19 times (first (link .. ())). Entries in progress are one for
# let-syntax; for each use its own, its application's, 38 and that of #8; and in the last use four for the argument, 1 + 3 * 41 + 4 = 128.
def wrapped(times, code):
    return "(#2 (#4 " * times + code + " (quote ())))" * times


def of_wrapped(times, code):
    return [*given(4 * times), *code, *given(3 * times)]


WRAPPED = wrapped(19, expanded(ARGUMENT))
THRICE = macro(WRAPPED, "(m (m (m 5)))")


def of_code(argument, inside):
    return of_wrapped(19, of_expanded(OF_ARGUMENT, OF_NO_STOPS, [argument, *inside, 1]))


def use_of(form, argument, inside):
    return [1, form, form, 1, 1, 1, tree_size(read(WRAPPED)), *of_code(argument, inside), 1, 1]


local("8: 128 entries in progress", THRICE, [*of_code(5, use_of(5, 3, use_of(3, 1, [1]))), 1, 1], stepwise=False,
      result=("5{1,3,5,7}", 2, 8, ("m", [1], 6), ("z", [2], 7)))
# In a list there is one more: the 129th would be that of #0, behind the entries of (#2 ..), #2, (#3 ..), #3 and (#0 z).
LAST = [1, 3, 3, 1, 1, 1, tree_size(read(WRAPPED)), *given(4 * 19), 1, 1, *given(5)]
MIDDLE = [1, 5, 5, 1, 1, 1, tree_size(read(WRAPPED)), *given(4 * 19), 1, 1, *OF_ARGUMENT, 1, 1, 3]
put("8: 129 entries in progress", "expand", syntax_image(f"({THRICE})"), 18,
    before(THRICE) + 2 + sum([*given(4 * 19), 1, 1, *OF_ARGUMENT, 1, 1, 5, *MIDDLE, *LAST]), budget=4096)
