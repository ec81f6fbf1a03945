"""All tests of the command; ends with 'N passed, M failed'. The project's folder is the same afterwards."""
import os
import sys
import tempfile
from concurrent.futures import ThreadPoolExecutor
from pathlib import Path

sys.dont_write_bytecode = True
sys.path.insert(0, os.path.dirname(os.path.abspath(__file__)))
import calls
import bad
import building
import endings
import good
import helps
import meanings
import printing
import where_used

AT_ONCE = 3
NOT_LOOKED_AT = {".git", "target", "out"}


def contents(folder):
    """Every file below a folder, with its size and age."""
    found = {}
    for place, folders, files in os.walk(folder):
        folders[:] = [name for name in folders if name not in NOT_LOOKED_AT]
        for name in (*files, *folders):
            status = os.lstat(os.path.join(place, name))
            found[os.path.join(place, name)] = (status.st_size, status.st_mtime_ns)
    return found


def fault_of(check):
    """A check is a name and a question."""
    name, holds = check
    return None if holds() else name


def with_bad_input(pool):
    """In a folder that must stay as it is."""
    with tempfile.TemporaryDirectory() as folder:
        bad.make_files(Path(folder))
        before = contents(folder)
        faults = list(pool.map(lambda case: calls.fault_of(case, folder), bad.cases()))
        return [*faults, None if contents(folder) == before else "bad input: something was written"]


def faults(pool):
    """What failed, and None for each that passed."""
    before = contents(calls.ROOT)
    for part in (good, where_used):
        yield from pool.map(calls.fault_of, part.cases())
    yield from with_bad_input(pool)
    for part in (printing, helps, endings, meanings):
        yield from pool.map(fault_of, part.checks())
    yield from (None if holds else f"building: {name}" for name, holds in building.results())
    yield None if contents(calls.ROOT) == before else "something was written into the project's folder"


def main():
    with ThreadPoolExecutor(AT_ONCE) as pool:
        found = list(faults(pool))
    failed = [fault for fault in found if fault]
    for fault in failed:
        print(f"command: {fault}")
    print(f"{len(found) - len(failed)} passed, {len(failed)} failed")
    return 1 if failed else 0


if __name__ == "__main__":
    sys.exit(main())
