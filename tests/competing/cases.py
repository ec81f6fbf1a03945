"""Images, the line of each on standard output, and what stands on standard error. The two bindings are worked out by hand."""
import os
import subprocess
import sys

ROOT = os.path.dirname(os.path.dirname(os.path.dirname(os.path.abspath(__file__))))
sys.path.insert(0, os.path.join(ROOT, "second"))

from image import CORE, syntax_image  # noqa: E402


def competing(text, sets, word="x", words=(), scopes=3):
    """An image with a binding of a word for each set."""
    known = [*words, *([] if word in (*words, *CORE) else [word])]
    rows = [(word, s, 4 + len(known) + i) for i, s in enumerate(sets)]
    return syntax_image(text, words=known, made=len(rows), scopes=scopes, bindings=rows)


def compete(first, second):
    return f"ambiguous: {first} and {second} compete\n"


MANY = [f"w{i}" for i in range(200)]
ALL_ODD = list(range(1, 257, 2))
ALL_EVEN = list(range(2, 257, 2))


def shown(scopes):
    return ",".join(map(str, scopes))


CASES = [
    ("the wrong turn of document 01", competing("x{1,2,3}", [[1, 2], [3]]), "code 6 units 2",
     compete("x{1,2} (binding 1)", "x{3} (binding 2)")),
    ("a candidate that another contains is passed over", competing("x{1,2,3}", [[1], [1, 2], [3]]), "code 6 units 2",
     compete("x{1,2} (binding 2)", "x{3} (binding 3)")),
    ("the first two of three", competing("x{1,2,3}", [[1], [2], [3]]), "code 6 units 2",
     compete("x{1} (binding 1)", "x{2} (binding 2)")),
    ("behind a binding that expanding made", competing("(lambda a x{1,2})", [[1], [2]], words=["a", "x"]), "code 6 units 8",
     compete("x{1} (binding 2)", "x{2} (binding 3)")),
    ("scopes on both sides of 128", competing("x{127,128,200,256}", [[127, 256], [128, 200]], scopes=256), "code 6 units 2",
     compete("x{127,256} (binding 1)", "x{128,200} (binding 2)")),
    ("all scopes", competing("x{" + shown(range(1, 257)) + "}", [ALL_ODD, ALL_EVEN], scopes=256), "code 6 units 2",
     compete("x{" + shown(ALL_ODD) + "} (binding 1)", "x{" + shown(ALL_EVEN) + "} (binding 2)")),
    ("the last of more than 127 words", competing("w199{1,2}", [[1], [2]], word="w199", words=MANY), "code 6 units 2",
     compete("w199{1} (binding 1)", "w199{2} (binding 2)")),
    ("the first of more than 127 words", competing("w0{1,2}", [[1], [2]], word="w0", words=MANY), "code 6 units 2",
     compete("w0{1} (binding 1)", "w0{2} (binding 2)")),
    ("a word of 32 bytes", competing("m" * 32 + "{1,2}", [[1], [2]], word="m" * 32), "code 6 units 2",
     compete("m" * 32 + "{1} (binding 1)", "m" * 32 + "{2} (binding 2)")),
    *((f"the core word {core}", competing(core + "{1,2}", [[1], [2]], word=core), "code 6 units 2",
       compete(core + "{1} (binding 1)", core + "{2} (binding 2)")) for core in CORE),
    ("a clear image", competing("(lambda x x)", []), "code 0 units 14", ""),
    ("a candidate that contains every other", competing("(lambda a x{1,2})", [[1], [2], [1, 2]], words=["a", "x"]), "code 7 units 8", ""),
    ("a word without meaning", competing("x", []), "code 7 units 2", ""),
    ("no image", b"", "code 1 units 0", ""),
]


def answer(image):
    done = subprocess.run([os.path.join(ROOT, "run-built"), "expander"], input=image, capture_output=True, check=False)
    return done.stdout.decode(), done.stderr.decode()


def main():
    failed = 0
    for name, image, line, said in CASES:
        found = answer(image)
        if found != (line + "\n", said):
            failed += 1
            print(f"{name}: wanted {(line, said)}, found {found}")
    print(f"{len(CASES) - failed} passed, {failed} failed")
    return 1 if failed else 0


sys.exit(main())
