"""Where each object of a text stands: request T-05's notation, cut as crates/requests/specs/Tokens.antt says. The proved reader judges texts;
here a text is one that it has taken."""
import re
from collections import namedtuple

# From start up to end; parts is empty for what is no list.
Spot = namedtuple("Spot", "start end parts")
TOKEN = re.compile(r"(?P<comment>;[^\r\n]*)|(?P<open>\()|(?P<close>\))|(?P<leaf>[^ \t\r\n();]+)")


def comments_of(text):
    """Start and end of each comment."""
    return [token.span() for token in TOKEN.finditer(text) if token["comment"]]


def spot_of(text):
    """The spot of a text's only object."""
    lists = [(0, [])]
    for token in TOKEN.finditer(text):
        if token["open"]:
            lists.append((token.start(), []))
        elif token["close"]:
            start, parts = lists.pop()
            lists[-1][1].append(Spot(start, token.end(), parts))
        elif token["leaf"]:
            lists[-1][1].append(Spot(*token.span(), []))
    return lists[0][1][0]
