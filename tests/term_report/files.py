"""Files of images for the program term_report, with the reports that they should give. How a file falls into images and what a report looks like
is read here once more, from document 02; the answers to single images are the second program's."""
import subprocess
from collections import Counter, namedtuple

BUDGET = 400
TABLE_WORDS = 40 * BUDGET
MOST_IMAGE = 65536
MOST_NUMBER = 4294967295
CUT = "cut\n"

Answer = namedtuple("Answer", "code units")


class Cut(Exception):
    """The file has a malformed length, or ends inside a length or an image."""


# ---- bytes ----

def number(n):
    """The groups of seven bits, the low one first."""
    groups = bytearray()
    while 127 < n:
        groups.append(n % 128 + 128)
        n //= 128
    groups.append(n)
    return bytes(groups)


def with_length(image):
    return number(len(image)) + image


def file_of(images):
    return b"".join(map(with_length, images))


# ---- how a file falls into images ----

def length_at(file, at):
    """The length that stands at a place, and the place behind it."""
    value = 0
    for group in range(5):
        if at + group == len(file):
            raise Cut
        byte = file[at + group]
        value += byte % 128 << 7 * group
        if byte < 128:
            if (byte == 0 and 0 < group) or MOST_NUMBER < value:
                raise Cut
            return value, at + group + 1
    raise Cut


def images_of(file):
    images, at = [], 0
    while at < len(file):
        length, start = length_at(file, at)
        at = start + length
        if len(file) < at:
            raise Cut
        images.append(file[start:at])
    return images


# ---- answers ----

def call(image):
    return b"".join(map(number, (1, 0, BUDGET, TABLE_WORDS, MOST_IMAGE, len(image)))) + image


def answer_all(replay, images):
    """The second program's answer to each; a stream of calls takes no image over 70,000 bytes, and these are code 2 anyway."""
    asked = [image for image in images if len(image) <= 70000]
    stream = b"".join(map(call, asked))
    lines = subprocess.run([replay], input=stream, stdout=subprocess.PIPE, check=True).stdout.decode().splitlines()
    given = {image: Answer(*map(int, line.split()[:2])) for image, line in zip(asked, lines, strict=True)}
    return [given.get(image, Answer(2, 0)) for image in images]


# ---- the report ----

def report_of(answers):
    lines = [f"code {code} {count}" for code, count in sorted(Counter(a.code for a in answers).items())]
    total = sum(a.units for a in answers)
    lines.append(f"units {total}")
    lines.append("mean none" if not answers else f"mean {total // len(answers)} {total % len(answers)}")
    return "".join(line + "\n" for line in lines)


def report(replay, file):
    try:
        images = images_of(file)
    except Cut:
        return CUT
    return report_of(answer_all(replay, images))
