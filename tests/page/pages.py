"""Programs with their recordings, what the proved programs say of them, and the pages made of that. Where the proved programs are not
built the second program stands in, which is tested and not proved."""
import os
import sys
from collections import namedtuple

sys.dont_write_bytecode = True
HERE = os.path.dirname(os.path.abspath(__file__))
ROOT = os.path.normpath(os.path.join(HERE, "..", ".."))
sys.path[:0] = [os.path.join(ROOT, folder) for folder in ("examples", "second", "command", "page")]
import answers
import bits
import image
import images
import making
import reading
import recordings

BUDGET = 4096
EXAMPLES = (
    ("start-stop", "start-stop"), ("interlock", "interlock"), ("fan-with-overrun", "fan-with-overrun"), ("feeder-and-fan", "feeder-and-fan"),
    ("one-bit", "feeder-and-fan"), ("accident", "feeder-and-fan"), ("flasher", "flasher"), ("mixing-plant", "mixing-plant"))

# What is right, scan by scan: the runner's line, and the value of each rung's coil at the moment it was worked.
Right = namedtuple("Right", "lines coils")


def program(name):
    proved = os.path.join(answers.BUILT, name)
    return proved if os.path.exists(proved) else answers.second_program(name)


def recording_of(name):
    """The listing of an example's scans, or of this test's."""
    for folder in (os.path.join(ROOT, "examples"), HERE):
        path = os.path.join(folder, name + ".scans")
        if os.path.exists(path):
            with open(path) as listing:
                return recordings.recording_of(listing.read())
    raise FileNotFoundError(name)


def text_of(name):
    with open(os.path.join(ROOT, "examples", name + ".text"), encoding="utf-8") as text:
        return text.read()


def lines_of(tree, recording):
    run = answers.scan(program("scan"), tree, recording)
    if run.stderr:
        raise ValueError(f"the runner says {run.stderr.decode().strip()}")
    return run.stdout.decode().splitlines()


def names_of(tree):
    """Those of the bits, in order of address, as the panel check lists them."""
    return [name for name, _ in answers.bits_of(answers.panel_check(program("replay"), tree))]


def shown_tree(title, tree, recording):
    """A program that came as a tree."""
    return making.Shown(title, None, None, None, tree, names_of(tree), recording, lines_of(tree, recording))


def shown_of(title, text, recording):
    read = images.image_of(text.encode())
    expanded, parsed = answers.expand_and_parse(program("replay"), read, BUDGET)
    return shown_tree(title, parsed.written, recording)._replace(text=text, image=read, expanded=expanded.written)


def example(name, recording):
    return shown_of(name, text_of(name), recording_of(recording))


# ---- every coil, by the runner: behind each `set` an `out` of a free point shows the bit

def points_in(tree):
    if isinstance(tree, reading.Point):
        return {tree.number}
    if isinstance(tree, reading.Function):
        return points_in(tree.body)
    return set().union(*map(points_in, tree.parts)) if isinstance(tree, reading.Application) else set()


class Probe:
    """Writes a tree once more, with a point for each coil, in order."""

    def __init__(self, free):
        self.free, self.coils = iter(free), []

    def out(self, bit):
        self.coils.append(next(self.free))
        return f"('out @{self.coils[-1]} {bit})"

    def program(self, parts):
        word = reading.rung_word(parts[0])
        written = [self.tree(part) for part in parts]
        if word == "out":
            self.coils.append(parts[1].number)
        return f"('all ({' '.join(written)}) {self.out(written[1])})" if word == "set" else f"({' '.join(written)})"

    def tree(self, tree):
        if isinstance(tree, reading.Application):
            return self.program(tree.parts)
        if isinstance(tree, reading.Function):
            return f"[{tree.name} {self.tree(tree.body)}]"
        sign = {reading.Variable: "$", reading.Point: "@", reading.RungWord: "'", reading.Number: ""}[type(tree)]
        return f"{sign}{tree[0]}"


def right_of(shown):
    """By the runner alone; nothing of the page's own calculation is in it."""
    given = reading.image_of(shown.tree)
    recorded = {point for scan in recordings.listing_of(shown.recording).splitlines() for point, _ in image.scan_changes(scan.strip("-"))}
    probe = Probe(sorted(set(range(1024)) - points_in(given.root) - recorded, reverse=True))
    tree = image.tree_image(probe.tree(given.root), given.words, given.made, given.scopes)
    values = [dict(image.scan_changes(line.partition(" ")[2])) for line in lines_of(tree, shown.recording)]
    return Right(shown.lines, [[scan[point] for point in probe.coils] for scan in values])
