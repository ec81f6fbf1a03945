"""main.py WORD FILE ..: one word of ./meirhuppa. The files are read first, then what the word asks is built where that is needed, and only what
has succeeded as a whole is written on standard output."""
import os
import subprocess
import sys

sys.dont_write_bytecode = True
import paths  # noqa: F401
import given
import words
from telling import BAD_USE, DONE, REFUSED, BadUse, Refused, say

HERE = os.path.dirname(os.path.abspath(__file__))
INTERRUPTED, NOBODY_READS = 130, 141


def usage(name):
    """The first line of a word's help."""
    with open(os.path.join(HERE, "help", name + ".txt")) as file:
        return BadUse("usage: " + file.readline().strip())


def option(name, argument, left):
    """An option with its value, where it has one: what stands behind it or behind its =."""
    key, equals, value = argument.partition("=")
    options = words.WORDS[name].options
    if key not in options or equals and not options[key]:
        raise BadUse(f"{name} has no option {argument}: ./meirhuppa {name} --help says what it takes")
    if not options[key]:
        return key, None
    if not equals and not left:
        raise usage(name)
    return key, options[key](value if equals else left.pop(0))


def call_of(name, arguments):
    """The names of the files, and the options."""
    left, names, options = list(arguments), [], {}
    while left:
        argument = left.pop(0)
        if argument.startswith("-") and argument != given.STANDARD_INPUT:
            options.update([option(name, argument, left)])
        else:
            names.append(argument)
    if len(names) != len(words.WORDS[name].takes):
        raise usage(name)
    if names.count(given.STANDARD_INPUT) > 1:
        raise BadUse("only one of two files can be standard input")
    return names, options


def build(programs):
    if subprocess.run([os.path.join(HERE, "build"), *programs], stdin=subprocess.DEVNULL).returncode:
        sys.exit(BAD_USE)


def work(name, arguments):
    word = words.WORDS[name]
    names, options = call_of(name, arguments)
    files = [take(file) for take, file in zip(word.takes, names)]
    build(word.programs)
    return word.work(words.Call(files, names, options))


def write(result):
    """All of it, or a line that says why not. A reader who has seen enough is no fault."""
    try:
        with open(1, "wb", closefd=False) as out:
            out.write(result)
    except BrokenPipeError:
        return NOBODY_READS
    except OSError as fault:
        raise BadUse(f"standard output: {fault.strerror}")
    return DONE


def main(name, *arguments):
    try:
        return write(work(name, arguments))
    except Refused:
        return REFUSED
    except BadUse as fault:
        say(f"meirhuppa: {fault}")
    except subprocess.CalledProcessError as fault:
        say(f"meirhuppa: the program {os.path.basename(fault.cmd[-1])} does not run")
    except KeyboardInterrupt:
        return INTERRUPTED
    except Exception as fault:  # No reader of this line is helped by a trace.
        say(f"meirhuppa: {name} has a fault of its own: {type(fault).__name__}: {fault}")
    return BAD_USE


if __name__ == "__main__":
    sys.exit(main(*sys.argv[1:]))
