"""The help of every word: it names the word, and its examples do what they say when they are pasted."""
import os
import subprocess
import tempfile

import calls
import words

BAD = (b"Traceback", b": code 1", b": code 2", b"usage:")
# What the last line of an example's standard output is.
LAST = {
    "echo '((lambda x x) 9)' | ./meirhuppa evaluate - | ./meirhuppa print -": b"9",
    "echo run | ./meirhuppa resolve -": b"name 4 run",
    "./meirhuppa panel examples/accident.text": b"1        13    run   1",
    "./meirhuppa expand examples/accident.text | ./meirhuppa shrink - | ./meirhuppa panel -": b"1        13    run   1",
    "./meirhuppa uses examples/accident.text": b"1        13    run   2         26",
    "./meirhuppa parse examples/mixing-plant.text | ./meirhuppa uses -": b"10       28    -     4         234",
    "./meirhuppa scan examples/start-stop.text examples/start-stop.scans": b"9 @10=1",
    "printf '@1=1\\n@1=0\\n@2=1\\n' | ./meirhuppa scan examples/start-stop.text -": b"3 @10=0",
    "./meirhuppa report crates/term_report/stdin": b"mean 229 3",
    "./meirhuppa expand examples/accident.text | ./meirhuppa parse - | ./meirhuppa print -": b"  ([13 ('all ('set $13 @5) ('out @13 $13))] 1))",
}


def help_of(word):
    return calls.bytes_in("command", "help", word + ".txt").decode()


def examples(text):
    return [line.strip() for line in text.splitlines() if line.startswith("    ")]


def pasted(line, folder):
    """An example as it is pasted, but what it writes goes to a folder of its own."""
    shell = line.replace("> panel.html", f"> {folder}/panel.html")
    done = subprocess.run(["bash", "-o", "pipefail", "-c", shell], cwd=calls.ROOT, stdout=subprocess.PIPE, stderr=subprocess.PIPE)
    written = os.path.join(folder, "panel.html")
    out = done.stdout if "> panel.html" not in line else open(written, "rb").read()
    last = out.splitlines()[-1:] == [LAST[line]] if line in LAST else out != b""
    return done.returncode == 0 and last and not any(bad in done.stderr for bad in BAD)


def works(line):
    with tempfile.TemporaryDirectory() as folder:
        return pasted(line, folder)


def is_given(word):
    """By either option, wherever it stands."""
    wanted = calls.Run(0, help_of(word).encode(), [])
    return help_of(word).startswith(f"./meirhuppa {word} ") and all(calls.run(asked) == wanted for asked in ([word, "--help"], [word, "x", "-h"]))


def overview():
    """Every word stands in what the command can do, as in its own help."""
    said = calls.bytes_in("command", "help.txt").decode()
    return all(f"    {help_of(word).splitlines()[0].split(' [')[0]} " in said for word in words.WORDS)


def folder_has_all():
    return sorted(os.listdir(calls.path("command", "help"))) == sorted(word + ".txt" for word in words.WORDS)


def checks():
    yield "a help for every word", folder_has_all
    yield "what it can do has every word", overview
    for word in words.WORDS:
        yield f"{word} --help", lambda word=word: is_given(word)
        yield f"{word} --help has examples", lambda word=word: examples(help_of(word)) != []
        for line in examples(help_of(word)):
            yield f"pasted: {line}", lambda line=line: works(line)
    yield "every last line is of an example", lambda: set(LAST) <= {line for word in words.WORDS for line in examples(help_of(word))}
