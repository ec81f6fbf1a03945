"""Runs term_report on files, and holds what it prints against the reports in files.py."""
import glob
import os
import subprocess
import sys

sys.dont_write_bytecode = True
ROOT = os.path.normpath(os.path.join(os.path.dirname(os.path.abspath(__file__)), "..", ".."))
sys.path.insert(0, os.path.join(ROOT, "tests", "term_report"))
sys.path.insert(0, os.path.join(ROOT, "examples"))
import files
import images
from files import file_of, number, with_length

REPLAY = os.path.join(ROOT, "second", "replay")
PROGRAM = [os.path.join(ROOT, "run-built"), "term_report"]

# (lambda x x), the image that document 01 shows whole; x alone, code 7; a tree, code 4
FUNCTION = bytes.fromhex("01010178000000" "0500000003" "0000000000" "0000000004" "0000000004")
ALONE = bytes.fromhex("0102017801790303" "00" "0000000004")
TREE = bytes.fromhex("02010178010102050005")


def examples():
    names = sorted(os.path.basename(path)[:-len(".text")] for path in glob.glob(os.path.join(ROOT, "examples", "*.text")))
    return [images.example(name) for name in names]


# ---- files ----

def small_files():
    yield "no bytes", b""
    yield "one image", with_length(FUNCTION)
    yield "a length of 0", number(0)
    yield "a length of 0 between two images", file_of([FUNCTION, b"", FUNCTION])
    yield "codes that do not ascend in the file", file_of([ALONE, TREE, b"", FUNCTION])
    yield "a remainder", file_of([FUNCTION, FUNCTION, ALONE])
    yield "the examples", file_of(examples())


def cut_files():
    """Every beginning of a small file: those between two images are whole."""
    file = file_of([FUNCTION, b"", ALONE]) + with_length(bytes(130))
    for at in range(len(file)):
        yield f"the first {at} bytes", file[:at]


def lengths():
    """Lengths that are malformed, or longer than what follows."""
    front = with_length(FUNCTION)
    for groups in ("80", "8000", "808000", "80808000", "8080808000", "8080808010", "ffffffff7f", "ffffffffff01", "ffffffff0f", "feffffff0f", "818004", "7f"):
        yield f"the length {groups}", front + bytes.fromhex(groups)
        yield f"the length {groups} and some bytes", front + bytes.fromhex(groups) + bytes(100)


def long_files():
    """Images about the limit, and files longer than what is read at a time, with lengths and images across that border."""
    for size in (65535, 65536, 65537, 70000, 200000):
        yield f"{size} zero bytes", file_of([FUNCTION, bytes(size), FUNCTION])
    yield "a syntax image of 65,536 bytes", file_of([b"\x01" + bytes(65535), FUNCTION])
    for shift in range(60):
        yield f"an image {shift} bytes about the border", with_length(bytes(65536 - 3 - 30 - shift)) + file_of([FUNCTION, ALONE, bytes(200), FUNCTION])
    yield "20,000 images", file_of([FUNCTION, ALONE, TREE, b""] * 5000)


# ---- runs ----

def printed(file):
    return subprocess.run(PROGRAM, input=file, stdout=subprocess.PIPE, check=True).stdout.decode()


def printed_slowly(file):
    """The file comes through a pipe a byte at a time."""
    with subprocess.Popen(PROGRAM, stdin=subprocess.PIPE, stdout=subprocess.PIPE) as program:
        for byte in file:
            program.stdin.write(bytes([byte]))
            program.stdin.flush()
        return program.communicate()[0].decode()


def printed_unread():
    """Standard input is a folder: no read succeeds."""
    folder = os.open(ROOT, os.O_RDONLY)
    try:
        return subprocess.run(PROGRAM, stdin=folder, stdout=subprocess.PIPE, check=True).stdout.decode()
    finally:
        os.close(folder)


def longest_image():
    """A length of 4,294,967,295 and as many bytes, with an image behind them."""
    chunk = bytes(1 << 20)
    with subprocess.Popen(PROGRAM, stdin=subprocess.PIPE, stdout=subprocess.PIPE) as program:
        program.stdin.write(number(files.MOST_NUMBER))
        left = files.MOST_NUMBER
        while left:
            program.stdin.write(chunk[:left])
            left -= min(left, len(chunk))
        return program.communicate(with_length(FUNCTION))[0].decode()


def peak_memory(file, times):
    """Kilobytes at the most, where a file comes so many times over; asked when the program has ended."""
    with subprocess.Popen(PROGRAM, stdin=subprocess.PIPE, stdout=subprocess.PIPE) as program:
        for _ in range(times):
            program.stdin.write(file)
        program.stdin.close()
        program.stdout.read()
        _, program.returncode, usage = os.wait4(program.pid, 0)
    return usage.ru_maxrss


def checks():
    for name, file in (*small_files(), *cut_files(), *lengths(), *long_files()):
        yield name, lambda: printed(file) == files.report(REPLAY, file)
    file = file_of([FUNCTION, b"", ALONE, TREE])
    yield "a byte at a time", lambda: printed_slowly(file) == files.report(REPLAY, file)
    yield "what cannot be read", lambda: printed_unread() == files.CUT
    yield "the longest length", lambda: longest_image() == files.report_of([files.Answer(2, 0), files.Answer(0, 8)])
    all_images = file_of(examples())
    yield "the memory of a long file is that of a short one", lambda: peak_memory(all_images, 2000) <= peak_memory(all_images, 20) + 1024


def main():
    passed = failed = 0
    for name, holds in checks():
        if holds():
            passed += 1
        else:
            failed += 1
            print(f"term_report: {name}: another report than the second program's answers give")
    print(f"{passed} passed, {failed} failed")
    return failed != 0


if __name__ == "__main__":
    sys.exit(main())
