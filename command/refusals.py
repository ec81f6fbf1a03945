"""What each refusal means, in the customer's words: document 01's list, as the requests have amended it, and document 02 from 21 on."""

MEANINGS = {
    1: "the image breaks the layout",
    2: "a count, value or nesting is over its limit",
    3: "a variable of the tree, outside syntax values, has no enclosing function of its name",
    4: "the kind is 1 or 2 but not the job's (2 for evaluate, 1 for the others)",
    5: "budget over 4,096, or fewer than 40 table words (32 bits each) per unit of budget",
    6: "ambiguous",
    7: "an identifier in expression place whose name has no meaning",
    8: "a form with no rule",
    9: "a macro use evaluates to no syntax object",
    10: "applied value is no function or primitive, or the argument count is wrong",
    11: "a primitive's argument is of the wrong kind",
    12: "phase over 2",
    13: "no name room left",
    14: "no scope room left",
    15: "no binding room left",
    17: "something made has nesting over 64",
    18: "a 129th entry in progress",
    19: "a charge is larger than what remains",
    20: "the result is longer than the output or 65,536 bytes",
    21: "outside the profile",
    22: "point driven twice",
    23: "too many bits",
    24: "recording breaks its layout or exceeds 65,536 bytes",
    25: "a change names a driven point",
    26: "bad text, also no object or a second one",
    27: "unbalanced",
    28: "the introduction scope is absent, as in a right-hand side or the evaluate job",
    29: "the summary belongs to a tree with another size or count of names",
    30: "name not in the image",
}


def meaning(code):
    return MEANINGS.get(code, "a number without a meaning here")
