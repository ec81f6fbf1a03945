"""Runs the edge cases and compares each answer with what document 01 asks for."""
import os
import subprocess
import sys

HERE = os.path.dirname(os.path.abspath(__file__))
sys.path.insert(0, HERE)
import edge_cases
import image


def wrong_numbers(fields, code, units, name, rivals, column):
    """What is wrong in the columns before the output."""
    got_code, got_units, got_name = map(int, fields[:3])
    got_rivals = int(fields[4]), int(fields[5])
    for what, got, wanted in (("code", got_code, code), ("units", got_units, units), ("name", got_name, name),
                              ("bindings", got_rivals, rivals), ("table", fields[6], column)):
        if wanted is not edge_cases.UNKNOWN and got != wanted:
            yield f"{what} {got}, expected {wanted}"


def wrong_bytes(show, got, wanted):
    """What is wrong in a column of bytes."""
    if got != (wanted.hex() or "-"):
        shown = show(bytes.fromhex(got.rstrip("!-")))[-1]
        yield f"wrote {shown[:300]}, expected {show(wanted)[-1][:300]}"


def wrong_output(fields, job, code, result):
    """What is wrong in what was written. A replacement writes its image and, in a column of its own, its summary."""
    writes = code == 0 and job != "resolve"
    if not writes and (fields[3] != "0" or set(fields[7:]) != {"-"}):
        yield f"wrote {' '.join(fields[7:])[:80]}"
    if writes and result is None:
        yield "the case settles no result"
    if not writes or not isinstance(result, (bytes, tuple)):
        return
    written, *after = result if isinstance(result, tuple) else (result,)
    if int(fields[3]) != len(written):
        yield f"length {fields[3]}, expected {len(written)}"
    yield from wrong_bytes(lambda given: image.show_written(job, given), fields[7], written)
    for got, wanted in zip(fields[8:], after, strict=True):
        yield from wrong_bytes(image.show_summary, got, wanted)


def faults_of(line, case):
    _, _, job, code, units, name, rivals, result, column = case
    fields = line.split()
    if len(fields) != image.columns(image.JOBS.index(job)):
        return ["no answer"]
    return [*wrong_numbers(fields, code, units, name, rivals, column), *wrong_output(fields, job, code, result)]


def check(program):
    """The number of cases that passed, and a line for each that did not."""
    stream = b"".join(case[1] for case in edge_cases.CASES)
    lines = subprocess.run([program], input=stream, capture_output=True, check=True).stdout.decode().splitlines()
    failed = []
    for index, case in enumerate(edge_cases.CASES):
        faults = faults_of(lines[index] if index < len(lines) else "nothing", case)
        if faults:
            failed.append(f"case {index} ({case[0]}): " + "; ".join(faults))
    return len(edge_cases.CASES) - len(failed), failed


if __name__ == "__main__":
    program = sys.argv[1] if len(sys.argv) > 1 else os.path.join(HERE, "replay")
    passed, failed = check(program)
    for line in failed:
        print(line)
    print(f"{passed} passed, {len(failed)} failed")
    sys.exit(1 if failed else 0)
