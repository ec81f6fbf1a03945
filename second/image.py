"""Images, calls and answers in a form people can read and write.

Notation for syntax objects:
    x lambda motor-1      symbols
    9                     number
    @12                   point
    #0 to #9              primitive; also #stx-e #mk-stx #first #rest #link #same #pick #local-value #local-expand #local-binder
    '0 to '15             rung word; also 'and 'or 'not 'out 'set 'all
    (a b c)               list
    x{1,2}  (a b){1}      a piece and its phase-0 set
    x{1,2|3|}             its sets of phases 0, 1 and 2

Notation for trees:
    $4                    variable 4
    (f a b)               application
    [4 body]              function 4
    x 9 @12 #0 '0         atoms, as above
    <a b>                 list value
    `(a b){1}             syntax value

Notation for recordings: a text for each scan, as "@1=1 @12=0", or "" where nothing changes.

A summary is its size, its count of names and {name: (count, first place)} for the names that are used.
"""
import collections

CORE = ["lambda", "let-syntax", "quote", "syntax"]
PRIMITIVES = ["stx-e", "mk-stx", "first", "rest", "link", "same", "pick", "local-value", "local-expand", "local-binder"]
RUNG_WORDS = ["and", "or", "not", "out", "set", "all"]
JOBS = ["resolve", "expand", "parse", "evaluate", "panel", "scan", "read", "print", "summary", "uses", "replace", "shrink"]
UNBUDGETED = JOBS[4:]  # take neither budget nor table, nor a phase
# What stands behind the image of a call, by job; the field phase is the name for uses, the place for replace.
BEHIND = {"scan": ["recording"], "uses": ["summary"], "replace": ["summary", "part"]}
SYMBOL, NUMBER, POINT, PRIMITIVE, RUNG_WORD, LIST = range(6)
VARIABLE, APPLICATION, FUNCTION, ATOM, LIST_VALUE, SYNTAX_VALUE = range(6)
TABLE_WORDS_PER_UNIT = 40
LARGEST_TABLE = 170000  # of a call in a stream


# ---- making ----

def number(value):
    """A number in groups of seven bits, low group first."""
    out = bytearray()
    while value > 127:
        out.append(128 | value & 127)
        value >>= 7
    out.append(value)
    return bytes(out)


def scope_set(scopes):
    scopes = sorted(scopes)
    return number(len(scopes)) + b"".join(number(s) for s in scopes)


def sets(phases):
    phases = list(phases) + [[]] * (3 - len(phases))
    return b"".join(scope_set(s) for s in phases)


class Words:
    """The words of an image, numbered from 4 in the order they are met."""

    def __init__(self, given=()):
        self.words = list(given)

    def symbol(self, word):
        if word in CORE:
            return CORE.index(word)
        if word not in self.words:
            self.words.append(word)
        return 4 + self.words.index(word)


class Text:
    """Reads the notation and gives bytes."""

    def __init__(self, text, words):
        self.text, self.place, self.words = text, 0, words

    def space(self):
        while self.place < len(self.text) and self.text[self.place].isspace():
            self.place += 1

    def peek(self):
        return self.text[self.place] if self.place < len(self.text) else ""

    def take(self, char):
        self.space()
        if self.peek() != char:
            raise ValueError(f"expected {char!r} at {self.text[self.place:]!r}")
        self.place += 1

    def token(self):
        start = self.place
        while self.peek() and not self.peek().isspace() and self.peek() not in "(){}[]<>`":
            self.place += 1
        if start == self.place:
            raise ValueError(f"nothing to read at {self.text[start:]!r}")
        return self.text[start:self.place]

    def atom(self):
        token = self.token()
        if token[0].isdigit():
            return NUMBER, int(token)
        if token[0] == "@":
            return POINT, int(token[1:])
        if token[0] == "#":
            name = token[1:]
            return PRIMITIVE, PRIMITIVES.index(name) if name in PRIMITIVES else int(name)
        if token[0] == "'":
            name = token[1:]
            return RUNG_WORD, RUNG_WORDS.index(name) if name in RUNG_WORDS else int(name)
        return SYMBOL, self.words.symbol(token)

    def sets_here(self):
        if self.peek() != "{":
            return sets([])
        end = self.text.index("}", self.place)
        inside = self.text[self.place + 1:end]
        self.place = end + 1
        return sets([[int(s) for s in part.split(",") if s.strip()] for part in inside.split("|")])

    def parts(self, one, close):
        parts = []
        while True:
            self.space()
            if self.peek() == close:
                self.place += 1
                return parts
            parts.append(one())

    def object(self):
        self.space()
        if self.peek() == "(":
            self.place += 1
            parts = self.parts(self.object, ")")
            return number(LIST) + self.sets_here() + number(len(parts)) + b"".join(parts)
        tag, content = self.atom()
        return number(tag) + self.sets_here() + number(content)

    def tree(self):
        self.space()
        char = self.peek()
        if char == "$":
            return number(VARIABLE) + number(int(self.token()[1:]))
        if char in "([<`" and char:
            self.place += 1
        if char == "(":
            parts = self.parts(self.tree, ")")
            return number(APPLICATION) + number(len(parts)) + b"".join(parts)
        if char == "[":
            self.space()
            name = int(self.token())
            body = self.tree()
            self.take("]")
            return number(FUNCTION) + number(name) + body
        if char == "<":
            parts = self.parts(self.tree, ">")
            return number(LIST_VALUE) + number(len(parts)) + b"".join(parts)
        if char == "`":
            return number(SYNTAX_VALUE) + self.object()
        tag, content = self.atom()
        return number(ATOM) + number(tag) + number(content)

    def whole(self, one):
        made = one()
        self.space()
        if self.peek():
            raise ValueError(f"left over: {self.text[self.place:]!r}")
        return made


def head(kind, words, made, scopes):
    return (number(kind) + number(len(words)) +
            b"".join(number(len(w)) + w.encode() for w in words) + number(made) + number(scopes))


def syntax_image(text, words=(), made=0, scopes=0, bindings=()):
    """An image of kind 1. A binding is (word, set, target); it is put in order."""
    known = Words(words)
    if isinstance(text, bytes):
        root = text
    else:
        reader = Text(text, known)
        root = reader.whole(reader.object)
    rows = sorted((known.symbol(w), sorted(s), t) for w, s, t in bindings)
    return (head(1, known.words, made, scopes) + number(len(rows)) +
            b"".join(number(w) + number(t) + scope_set(s) for w, s, t in rows) + root)


def tree_image(text, words=(), made=0, scopes=0):
    """An image of kind 2."""
    known = Words(words)
    if isinstance(text, bytes):
        root = text
    else:
        reader = Text(text, known)
        root = reader.whole(reader.tree)
    return head(2, known.words, made, scopes) + root


def tree_part(text, words=()):
    """A part as it stands in an image with these words, without head."""
    known = Words(words)
    reader = Text(text, known)
    made = reader.whole(reader.tree)
    assert len(known.words) == len(words), "a part brings no new word"
    return made


def in_words(numbers):
    """Words of four bytes each, low byte first."""
    return b"".join(number.to_bytes(4, "little") for number in numbers)


def bits(names):
    """What the panel check writes: the names of the bits."""
    return in_words(names)


def summary(size, names, used):
    """A summary as bytes; used is {name: (count, first place)}, and a name that is not there is not used."""
    return in_words([size, names, *(word for name in range(names) for word in used.get(name, (0, 0)))])


def scan_changes(text):
    """The changes of a scan, as (point, value)."""
    pairs = (change.lstrip("@").split("=") for change in text.split())
    return [(int(point), int(value)) for point, value in pairs]


def recording(scans):
    """A recording as bytes. The changes are written as they stand, in order or not."""
    out = number(len(scans))
    for scan in map(scan_changes, scans):
        out += number(len(scan)) + b"".join(number(point) + number(value) for point, value in scan)
    return out


# A call of the stream; recording, summary and part are empty but for the jobs that have them BEHIND the image.
# The image is the text for the job read, whose number is READ.
Call = collections.namedtuple("Call", "job phase budget table output image recording summary part", defaults=(b"", b"", b""))
READ = JOBS.index("read")


def inputs_of(call):
    """The inputs of a call by name, the image first; of the job read that is its text."""
    names = BEHIND.get(JOBS[call.job], [])
    return {"text" if call.job == READ else "image": call.image} | {name: getattr(call, name) for name in names}


def columns(job):
    """How many columns the line of a job has."""
    return 9 if JOBS[job] == "replace" else 8


def call_bytes(call, number=number):
    """A call as it stands in a stream, its numbers written by number."""
    inputs = (number(len(given)) + given for given in inputs_of(call).values())
    return b"".join(map(number, call[:5])) + b"".join(inputs)


def call(job, image, phase=0, budget=1024, table=None, output=65536, **behind):
    """A call of the stream. The table is just large enough unless given."""
    if table is None:
        table = min(TABLE_WORDS_PER_UNIT * budget, LARGEST_TABLE)
    return call_bytes(Call(JOBS.index(job), phase, budget, table, output, image, **behind))


def calls_of(stream):
    """The calls of a stream."""
    place, end = 0, len(stream)

    def next_number():
        nonlocal place
        value = shift = 0
        while True:
            byte = stream[place]
            place += 1
            value |= (byte & 127) << shift
            shift += 7
            if byte < 128:
                return value

    def next_bytes():
        nonlocal place
        length = next_number()
        place += length
        return stream[place - length:place]

    while place < end:
        numbers = [next_number() for _ in range(5)]
        image = next_bytes()
        yield Call(*numbers, image, **{name: next_bytes() for name in BEHIND.get(JOBS[numbers[0]], [])})


# ---- reading, for people: damage is shown, not judged ----

class Damage(Exception):
    pass


class Shower:
    def __init__(self, image):
        self.image, self.place, self.words = image, 0, []

    def byte(self):
        if self.place >= len(self.image):
            raise Damage("the bytes end here")
        self.place += 1
        return self.image[self.place - 1]

    def number(self):
        value = shift = 0
        while True:
            byte = self.byte()
            value |= (byte & 127) << shift
            shift += 7
            if byte < 128:
                return value
            if shift > 28 + 7:
                raise Damage("a number is too long")

    def count(self):
        count = self.number()
        return range(min(count, len(self.image) + 1))

    def symbol(self, symbol):
        names = CORE + self.words
        return names[symbol] if symbol < len(names) else f"?symbol-{symbol}"

    def set(self):
        return ",".join(str(self.number()) for _ in self.count())

    def sets(self):
        phases = [self.set(), self.set(), self.set()]
        while phases and not phases[-1]:
            phases.pop()
        return "{" + "|".join(phases) + "}" if phases else ""

    def atom(self, tag):
        content = self.number()
        if tag == SYMBOL:
            return self.symbol(content)
        if tag == NUMBER:
            return str(content)
        if tag == POINT:
            return f"@{content}"
        if tag == PRIMITIVE:
            return f"#{PRIMITIVES[content] if content < len(PRIMITIVES) else content}"
        if tag == RUNG_WORD:
            return f"'{RUNG_WORDS[content] if content < len(RUNG_WORDS) else content}"
        raise Damage(f"no atom tag: {tag}")

    def object(self):
        tag = self.number()
        if tag > LIST:
            raise Damage(f"no object tag: {tag}")
        phases = self.sets()
        if tag == LIST:
            return "(" + " ".join(self.object() for _ in self.count()) + ")" + phases
        return self.atom(tag) + phases

    def tree(self):
        tag = self.number()
        if tag == VARIABLE:
            return f"${self.number()}"
        if tag == APPLICATION:
            return "(" + " ".join(self.tree() for _ in self.count()) + ")"
        if tag == FUNCTION:
            name = self.number()
            return f"[{name} {self.tree()}]"
        if tag == ATOM:
            return self.atom(self.number())
        if tag == LIST_VALUE:
            return "<" + " ".join(self.tree() for _ in self.count()) + ">"
        if tag == SYNTAX_VALUE:
            return "`" + self.object()
        raise Damage(f"no tree tag: {tag}")

    def lines(self):
        try:
            kind = self.number()
            yield f"kind {kind}" + {1: " (syntax)", 2: " (tree)"}.get(kind, " (unknown)")
            for _ in self.count():
                length = self.number()
                word = bytes(self.byte() for _ in range(min(length, len(self.image) + 1)))
                self.words.append(word.decode("latin-1"))
            shown = ", ".join(f"{w!r}={4 + i}" for i, w in enumerate(self.words))
            yield f"words {len(self.words)}: {shown}" if self.words else "words 0"
            made = self.number()
            first = 4 + len(self.words)
            yield f"made names {made}" + (f": {first} to {first + made - 1}" if made else "")
            yield f"scopes {self.number()}"
            if kind == 1:
                yield "bindings"
                for _ in self.count():
                    symbol, target = self.number(), self.number()
                    yield f"    {self.symbol(symbol)}{{{self.set()}}} to {target}"
            yield "root " + (self.object() if kind == 1 else self.tree())
            if self.place < len(self.image):
                yield f"left over: {self.image[self.place:].hex()}"
        except Damage as damage:
            yield f"at byte {self.place}: {damage}"


def words_of(written):
    """The whole words that bytes have."""
    return [int.from_bytes(written[i:i + 4], "little") for i in range(0, len(written) - 3, 4)]


def show_words(title, written):
    """What is in whole words, as a line."""
    return [" ".join([title, *map(str, words_of(written))])]


def show_summary(given):
    """A summary as a line: its size, its names, and count and first place of each name that has any; what is left over behind them."""
    words = words_of(given)
    size, names = words[:2] if len(words) > 1 else (0, 0)
    last = min(2 + 2 * names, len(words) // 2 * 2)
    used = (f" ${name}: {words[2 + 2 * name]} from {words[3 + 2 * name]}," for name in range((last - 2) // 2)
            if any(words[2 + 2 * name:4 + 2 * name]))
    return [f"summary of size {size} with {names} names:{''.join(used)} then {given[4 * last:].hex() or 'nothing'}"]


def show_part(part):
    """A part readably, as lines; its symbols are shown by number."""
    shower = Shower(part)
    try:
        return [f"part {shower.tree()}" + (f" left over: {part[shower.place:].hex()}" if shower.place < len(part) else "")]
    except Damage as damage:
        return [f"at byte {shower.place}: {damage}"]


def show_written(job, written):
    """What a job, given by its name, wrote, as lines."""
    if job in ("scan", "print"):
        return show_text(written)
    if job == "summary":
        return show_summary(written)
    return show_words("bits" if job == "panel" else "uses", written) if job in ("panel", "uses") else show(written)


def show_text(text):
    """A text as lines, bytes that cannot be seen as \\x7f."""
    shown = "".join(chr(b) if 32 <= b < 127 or b == 10 else f"\\x{b:02x}" for b in text)
    return shown.split("\n")


class RecordingShower(Shower):
    def change(self):
        point = self.number()
        return f" @{point}={self.number()}"

    def lines(self):
        try:
            scans = self.number()
            yield f"scans {scans}"
            for scan in range(min(scans, len(self.image))):
                yield f"scan {scan + 1}:" + "".join(self.change() for _ in self.count())
            if self.place < len(self.image):
                yield f"left over: {self.image[self.place:].hex()}"
        except Damage as damage:
            yield f"at byte {self.place}: {damage}"


def show_recording(given):
    """A recording readably, as lines."""
    return list(RecordingShower(given).lines())


def show(image):
    """An image readably, as lines."""
    import sys
    sys.setrecursionlimit(max(sys.getrecursionlimit(), 400000))
    return list(Shower(image).lines())


SHOWERS = {"image": show, "text": show_text, "recording": show_recording, "summary": show_summary, "part": show_part}


def show_inputs(call):
    """What a call is given: for each input its name, its bytes and its lines."""
    return [(name, given, SHOWERS[name](given)) for name, given in inputs_of(call).items()]
