"""What the command builds: in a copy of the project whose `rt` is a script, which notes how it is called and copies the programs."""
import os
import shutil
import subprocess
import tempfile
from pathlib import Path

import calls

# It ends as the program does that it runs.
RT = """#!/bin/sh
name=${{PWD##*/}}
echo "rt $* in $name" >> {folder}/calls
echo "fn of a crate: proved"
echo "rt: a crate proved" >&2
[ ! -e {folder}/broken ] || exit 1
mkdir -p out
cp {programs}/$name out/
exit 3
"""
PROGRAMS = ("expander", "text_image", "replay")
CRATE = b"rt: a crate proved\n"
FIRST = b"meirhuppa: proving and building the programs first, about ten minutes\n" + CRATE
AGAIN = b"meirhuppa: a source is newer than the programs: proving and building them again, up to ten minutes\n" + CRATE
LINE = b"code 0 units 367\n"
TEXT = "examples/accident.text"
BOTH = ["rt run in expander", "rt run in text_image"]
TOOLS = "bash env cat head od tr sed find date touch mktemp rm dirname uname readlink paste cp mkdir tee grep".split()


class Copy:
    """A copy of what the command needs, and the folder of the tools that it sees."""

    def __init__(self, folder):
        self.folder = Path(folder)
        self.root = self.folder / "project"
        self.tools = self.folder / "kit" / "bin"
        for part in ("command", "examples"):
            shutil.copytree(calls.path(part), self.root / part)
        for part in ("meirhuppa", "run-built", "second/image.py", "crates.txt"):
            (self.root / part).parent.mkdir(exist_ok=True)
            shutil.copy(calls.path(part), self.root / part)
        for program in PROGRAMS:
            (self.root / "crates" / program / "src").mkdir(parents=True)
            (self.root / "crates" / program / "src" / "main.rt").write_text("// a source\n")
        self.set_tools()

    def set_tools(self):
        """rt is a script, beside which run-built finds the emulator where it needs one."""
        self.tools.mkdir(parents=True)
        for tool in (*TOOLS, "python3"):
            (self.tools / tool).symlink_to(shutil.which(tool))
        rt = self.tools / "rt"
        rt.write_text(RT.format(folder=self.folder, programs=calls.path("target", "bin")))
        rt.chmod(0o755)
        if shutil.which("rt"):
            kit = Path(os.path.realpath(shutil.which("rt"))).parent.parent
            (self.folder / "kit" / "on").symlink_to(kit / "on")

    def run(self, *arguments):
        """Status, standard output and standard error of a call, and how rt was called."""
        asked = self.folder / "calls"
        asked.unlink(missing_ok=True)
        done = subprocess.run([self.root / "meirhuppa", *arguments], env={"PATH": str(self.tools)}, cwd=self.root, stdout=subprocess.PIPE,
                              stderr=subprocess.PIPE, stdin=subprocess.DEVNULL)
        return done.returncode, done.stdout, done.stderr, asked.read_text().splitlines() if asked.exists() else []

    def age(self):
        """Makes the programs older than every source."""
        for program in (self.root / "target" / "bin").iterdir():
            os.utime(program, (0, 0))


def first_run(copy):
    yield "nothing is built for a wrong call", copy.run("panel", TEXT, "more")[3] == []
    yield "nothing is built for a file that is not there", copy.run("panel", "none")[3] == []
    yield "the first run says so, and builds", copy.run(TEXT) == (0, LINE, FIRST + CRATE, BOTH)
    yield "the second run builds nothing", copy.run(TEXT) == (0, LINE, b"", [])
    status, out, said, asked = copy.run("panel", TEXT)
    yield "a word builds what it needs", (status, asked) == (0, ["rt run in replay"]) and said.startswith(FIRST) and out != b""
    yield "and only once", copy.run("panel", TEXT)[2:] == (said.removeprefix(FIRST), [])


def newer_sources(copy):
    copy.age()
    yield "a newer source is noticed", copy.run(TEXT) == (0, LINE, AGAIN + CRATE, BOTH)
    yield "and once, though the programs are the same", copy.run(TEXT) == (0, LINE, b"", [])
    copy.age()
    (copy.folder / "broken").touch()
    stopped = AGAIN + b"meirhuppa: the programs could not be built: target/build.log says why\n"
    yield "what cannot be built is not run", copy.run(TEXT)[:3] == (2, b"", stopped)
    yield "all that rt said is kept", "fn of a crate: proved\n" in (copy.root / "target" / "build.log").read_text()
    yield "nor by a word", copy.run("print", TEXT)[:3] == (2, b"", stopped)


def missing_tools(copy):
    (copy.tools / "rt").unlink()
    said = b"meirhuppa: the Rattle toolchain's command rt is not on this machine\n"
    yield "without rt", copy.run(TEXT)[:3] == copy.run("print", TEXT)[:3] == (2, b"", said)
    (copy.tools / "python3").unlink()
    said = b"meirhuppa: the words need python3, which is not on this machine; meirhuppa FILE does without\n"
    yield "without python3", copy.run("print", TEXT)[:3] == (2, b"", said)
    yield "help without python3", copy.run("print", "--help")[:2] == (0, calls.bytes_in("command", "help", "print.txt"))


def results():
    """Each is what it says and whether it holds; they follow upon each other."""
    with tempfile.TemporaryDirectory() as folder:
        copy = Copy(folder)
        for part in (first_run, newer_sources, missing_tools):
            yield from part(copy)
