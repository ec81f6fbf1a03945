"""How the command ends where nobody reads it, where it is interrupted, and where standard input or output is not there."""
import os
import signal
import subprocess
import time

import calls

SAID = b"panel: code 0"


def shell(line):
    done = subprocess.run(["bash", "-c", line], cwd=calls.ROOT, stdout=subprocess.PIPE, stderr=subprocess.PIPE, stdin=subprocess.DEVNULL)
    return done.returncode, done.stdout, done.stderr


def nobody_reads():
    status, out, said = shell("./meirhuppa print examples/mixing-plant.text | true; exit ${PIPESTATUS[0]}")
    return status in (0, 141) and out == b"" and said == b"read: code 0\nprint: code 0\n"


def much_for_nobody():
    """More than a pipe holds."""
    recording = "printf -- '-\\n%.0s' {1..60000}"
    status, _, said = shell(f"{recording} | ./meirhuppa scan examples/mixing-plant.text - | head -n 1; exit ${{PIPESTATUS[1]}}")
    return status == 141 and said.endswith(b"scan: code 0\n")


def is_interrupted():
    with subprocess.Popen([calls.COMMAND, "print", "-"], stdin=subprocess.PIPE, stdout=subprocess.PIPE, stderr=subprocess.PIPE) as asked:
        time.sleep(1)
        os.kill(asked.pid, signal.SIGINT)
        out, said = asked.communicate()
    return asked.returncode == 130 and out == said == b""


def output_is_full():
    status, _, said = shell("./meirhuppa panel examples/accident.text > /dev/full")
    return status == 2 and said.endswith(b"meirhuppa: standard output: No space left on device\n")


def output_is_closed():
    status, _, said = shell("./meirhuppa expand examples/accident.text >&-")
    return status == 2 and said.endswith(b"meirhuppa: standard output: Bad file descriptor\n")


def nobody_hears():
    """Standard error is closed, or full."""
    wanted = (0, b"address  name  word  start\n", b"")
    return all(shell(f"./meirhuppa panel examples/interlock.text {errors}") == wanted for errors in ("2>&-", "2>/dev/full"))


def input_is_closed():
    return shell("./meirhuppa panel - <&-") == (2, b"", b"meirhuppa: standard input: Bad file descriptor\n")


def says_what_it_can_do():
    """Where nothing can come in; a pipe with nothing in it is document 01's line."""
    wanted = (0, calls.bytes_in("command", "help.txt"), b"")
    return shell("./meirhuppa") == shell("./meirhuppa <&-") == wanted


def a_file_like_a_word():
    line = "cd $(mktemp -d) && cp $OLDPWD/examples/accident.text expand && $OLDPWD/meirhuppa ./expand && rm -r $PWD"
    return shell(line) == (0, b"code 0 units 367\n", b"")


def checks():
    yield "nobody reads", nobody_reads
    yield "nobody reads much", much_for_nobody
    yield "interrupted", is_interrupted
    yield "standard output is full", output_is_full
    yield "standard output is closed", output_is_closed
    yield "standard error is closed or full", nobody_hears
    yield "standard input is closed", input_is_closed
    yield "what it can do, where nothing comes in", says_what_it_can_do
    yield "a file named like a word", a_file_like_a_word
