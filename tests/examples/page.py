"""Holds the examples against their page, examples/README.md, and ends with 'N passed, M failed'."""
import functools
import os
import re
import subprocess
import sys
from collections import namedtuple

sys.dont_write_bytecode = True
ROOT = os.path.normpath(os.path.join(os.path.dirname(os.path.abspath(__file__)), "..", ".."))
EXAMPLES = os.path.join(ROOT, "examples")
sys.path.insert(0, EXAMPLES)
import answers
import by_command
import images
import listing
import scans

PROGRAM_BUDGET = 400
OLDER_SCOPES = 64

# A listing's row: its budget, the units of both jobs, and the tree where the page has it.
Row = namedtuple("Row", "name budget units tree")
Programs = namedtuple("Programs", "replay line")


def file_text(*path):
    with open(os.path.join(ROOT, *path)) as file:
        return file.read()


image_of = functools.cache(images.example)


def number(text):
    return int(text.replace(",", ""))


# ---- what the page says ----

PAGE = file_text("examples", "README.md")


def rows():
    found = re.findall(r"^\| `(.*)\.rung` \| ([\d,]+) \| (\d+) \+ (\d+) \| (.*) \|$", PAGE, re.MULTILINE)
    return [Row(name, number(budget), [int(expand), int(parse)], tree.strip("`") if tree.startswith("`") else None)
            for name, budget, expand, parse, tree in found]


def addresses():
    """The bits of each listing, each with its address."""
    found = re.findall(r"^\| `(.*)\.rung` \| (none|\d+ at \d+(?:, \d+ at \d+)*) \|$", PAGE, re.MULTILINE)
    return {name: [tuple(map(int, pair)) for pair in re.findall(r"(\d+) at (\d+)", bits)] for name, bits in found}


def commands(page):
    """The texts that a page hands to the program, each with the units that it says are printed."""
    found = re.findall(r"^ +(?:\./meirhuppa|second/text read <) examples/(\S+)\.text(?: \| second/program)? +# code 0 units (\d+)$", page, re.MULTILINE)
    return [(name, int(units)) for name, units in found]


def plant_counts():
    return [int(count) for count in re.search(r"^\| (\d+) \| (\d+) \| (\d+) \| (\d+) \|$", PAGE, re.MULTILINE).groups()]


# ---- the programs ----

def second_programs():
    return Programs(answers.second_program("replay"), answers.second_program("program"))


def printed(program, *arguments, given=b""):
    return subprocess.run([*answers.command(program), *arguments], input=given, stdout=subprocess.PIPE).stdout.decode()


def proved_programs():
    """None where they are not built."""
    programs = Programs(*map(answers.proved, ("replay", "expander")))
    return programs if scans.is_built() else None


# ---- the checks ----

def files_are_fresh():
    return subprocess.run([os.path.join(EXAMPLES, "make"), "--check"]).returncode == 0


def page_has_every_listing():
    listings = [file[:-len(".rung")] for file in os.listdir(EXAMPLES) if file.endswith(".rung")]
    return sorted(listings) == sorted(row.name for row in rows()) == sorted(addresses())


def commands_fit(page):
    """What a page hands to the program fits the program's budget, and there is such a command."""
    fitting = {(row.name, sum(row.units)) for row in rows() if row.budget == PROGRAM_BUDGET}
    return commands(page) != [] and set(commands(page)) <= fitting


def answers_as_said(row, replay):
    given = answers.expand_and_parse(replay, image_of(row.name), row.budget)
    return ([answer.code for answer in given] == [0, 0] and [answer.units for answer in given] == row.units
            and (row.tree is None or answers.root_of(given[-1].written) == row.tree))


def addresses_as_said(row, replay):
    """The panel's compiler takes the tree, and the bits are where the page has them."""
    checked = answers.panel_check(replay, answers.expand_and_parse(replay, image_of(row.name), row.budget)[-1].written)
    return checked.code == 0 and answers.bits_of(checked) == addresses()[row.name]


def text_comes_back(row, replay):
    """An example's text is read to its image, and so is what is printed of that."""
    text = file_text("examples", row.name + ".text").encode()
    printed = answers.print_text(replay, image_of(row.name)).written
    return printed.startswith(b"(") and all(answers.read_text(replay, given).written == image_of(row.name) for given in (text, printed))


def prints_as_said(row, program):
    line = printed(program, given=image_of(row.name))
    if row.budget == PROGRAM_BUDGET:
        return line == f"code 0 units {sum(row.units)}\n"
    return line.startswith("code 19 units ")


def same_lines(row, second, proved):
    return (answers.expand_and_parse(second, image_of(row.name), row.budget)
            == answers.expand_and_parse(proved, image_of(row.name), row.budget))


def counts(given, replay):
    """Macro uses, scopes, names and bits. A binder takes a name and a scope, a macro use two scopes."""
    expanded, parsed = answers.expand_and_parse(replay, given, 4096)
    head = answers.head_of(expanded.written)
    uses = (head.scopes - head.made) // 2
    return [uses, head.scopes, head.names, answers.root_of(parsed.written).count("[")]


def plant_counts_as_said(replay):
    said = plant_counts()
    return said == counts(image_of("mixing-plant"), replay) and said[0] > 19 and said[1] > OLDER_SCOPES


def scopes_without(dropped, replay):
    """The plant's scopes when these rungs are left out."""
    text = file_text("examples", "mixing-plant.rung")
    for rung in dropped:
        assert rung in text
        text = text.replace(rung, "")
    return counts(images.image_of(listing.text_of(text).encode()), replay)[1]


def nineteenth_passes_older_limit(replay):
    nineteenth, twentieth = "('out @117 (lit @1))", "('out @118 (lit @33))"
    return (scopes_without([nineteenth, twentieth], replay) <= OLDER_SCOPES < scopes_without([twentieth], replay))


def one_listing_is_printed(row):
    """By examples/make, without writing a file."""
    made = subprocess.run([os.path.join(EXAMPLES, "make"), os.path.join(EXAMPLES, row.name + ".rung")], stdout=subprocess.PIPE)
    return made.stdout.decode() == file_text("examples", row.name + ".text")


def page_checks(second):
    yield "the page has every listing", page_has_every_listing()
    yield "the commands of the page", commands_fit(PAGE)
    yield "the commands of the README", commands_fit(file_text("README.md"))
    yield "the mixing plant's counts", plant_counts_as_said(second.replay)
    yield "the mixing plant's nineteenth macro", nineteenth_passes_older_limit(second.replay)
    for row in rows():
        yield f"the text of {row.name} by examples/make", one_listing_is_printed(row)


def program_checks(row, programs):
    for check, program in ((answers_as_said, programs.replay), (prints_as_said, programs.line)):
        yield f"{row.name} by {os.path.relpath(program, ROOT)}", check(row, program)
    by = f"by {os.path.relpath(programs.replay, ROOT)}"
    yield f"the addresses of {row.name} {by}", addresses_as_said(row, programs.replay)
    yield f"the text of {row.name} {by}", text_comes_back(row, programs.replay)


def checks(second, proved):
    """Each check with what it is about. Where a text or a recording is stale, the others have nothing to say."""
    fresh = files_are_fresh()
    yield "the texts and recordings", fresh
    if not fresh:
        return
    yield from page_checks(second)
    yield from scans.checks()
    for row in rows():
        yield from program_checks(row, second)
        if proved:
            yield from program_checks(row, proved)
            yield f"{row.name}: the lines of both", same_lines(row, second.replay, proved.replay)
            yield from by_command.checks(row, addresses()[row.name])


def main():
    second, proved = second_programs(), proved_programs()
    if proved is None:
        print("examples: the proved programs are not built here: only the second program is asked")
    results = list(checks(second, proved))
    for what, holds in results:
        if not holds:
            print(f"examples: {what}: failed")
    failed = sum(not holds for _, holds in results)
    print(f"{len(results) - failed} passed, {failed} failed")
    return 1 if failed else 0


if __name__ == "__main__":
    sys.exit(main())
