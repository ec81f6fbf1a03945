"""The files that a word is handed. `-` is standard input."""
import os

import recordings
from telling import BadUse, refuse

STANDARD_INPUT = "-"
# A text may have so many bytes (the program text_image), an image and a recording fewer. One more shows that there are too many.
MOST = 1048576
KINDS = (1, 2)
# The values of changes, and the number of changes where there are none.
IN_EVERY_RECORDING = (0, 1)


def called(name):
    return "standard input" if name == STANDARD_INPUT else name


def unreadable(name, fault):
    return BadUse(f"{called(name)}: {getattr(fault, 'strerror', None) or fault}")


def opened(name):
    """The file, open to be read, with nothing of it taken yet."""
    try:
        return open(0 if name == STANDARD_INPUT else name, "rb", closefd=name != STANDARD_INPUT)
    except (OSError, ValueError) as fault:
        raise unreadable(name, fault)


def bytes_in(name):
    with opened(name) as file:
        try:
            return file.read(MOST + 1)
        except OSError as fault:
            raise unreadable(name, fault)


def is_image(given):
    """No text that is read begins with the kind of an image. Nothing at all is no text either: it is an image that ends too early."""
    return not given or given[0] in KINDS


def is_listing(given):
    """Every whole recording of T-02 has a byte 0 or 1, and no line that people write has one."""
    return given != b"" and not any(byte in given for byte in IN_EVERY_RECORDING)


def recording_of(given):
    """The recording of a file: its bytes, or those of the lines in it."""
    if not is_listing(given):
        return given
    if len(given) > MOST:
        refuse(f"recording: there are more than {MOST} bytes of lines")
    try:
        return recordings.recording_of(given.decode(errors="replace"))
    except ValueError as fault:
        refuse(f"recording: {fault}")


def recording_in(name):
    return recording_of(bytes_in(name))


def title_of(name):
    """What to call a program of which only the file's name is known."""
    return "program" if name == STANDARD_INPUT else os.path.splitext(os.path.basename(name))[0]
