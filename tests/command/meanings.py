"""The one table of refusals is document 01's list, as the requests amend it, and document 02's numbers that the library gives."""
import re

import calls
import refusals

# Document 02: T-07 takes 16 out, T-09 makes 16 table words 40.
TAKEN_OUT = 16
OLD_TABLE, NEW_TABLE = "fewer than 16 table words", "fewer than 40 table words"
ROOMS = {13: "name", 14: "scope", 15: "binding"}


def paper(name):
    return calls.bytes_in("docs", "paper", name).decode()


def document_01():
    """The rows of the list, without the job that stands before some of them."""
    rows = re.findall(r"^\| (\d+) \| (.*) \|$", paper("01-scope.md"), re.MULTILINE)
    found = {int(code): re.sub(r"^(evaluate|expand): ", "", text).replace(OLD_TABLE, NEW_TABLE) for code, text in rows}
    found.update({code: f"no {room} room left" for code, room in ROOMS.items()})
    del found[TAKEN_OUT]
    return found


def document_02():
    """The requests name their refusals as `21 outside the profile, 22 point driven twice`. 28 is told with a rule: its order stands behind it."""
    said = " ".join(re.findall(r"Refusals: (.*)", paper("02-change-requests.md")))
    named = re.findall(r"\b(2[1-7]|29|30) ((?:(?!, (?:2\d|30) |, in that|, tested|;|, the first|\.(?: |$)).)*)", said)
    absent = re.search(r"28 when 000's (introduction scope .*?), after the count of arguments", said)
    return {int(code): text for code, text in named} | {28: f"the {absent.group(1)}"}


def of_header():
    """The codes of the library's header, but success."""
    codes = calls.bytes_in("include", "meirhuppa.h").decode().split("MEIRHUPPA_SUCCESS = 0,")[1].split("};")[0]
    return set(map(int, re.findall(r"MEIRHUPPA_[A-Z_]+ = (\d+)", codes)))


def checks():
    yield "rooms are those of document 01", lambda: "| 13, 14, 15 | no name, scope, binding room left |" in paper("01-scope.md")
    yield "document 01's list", lambda: {c: t for c, t in refusals.MEANINGS.items() if c <= 20} == document_01()
    yield "document 02's numbers", lambda: {c: t for c, t in refusals.MEANINGS.items() if c > 20} == document_02()
    yield "the header's numbers", lambda: set(refusals.MEANINGS) == of_header()
