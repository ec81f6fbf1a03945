#!/usr/bin/env python3
"""Turns proofs that walk the code by hand (Proof.antt, of the older toolchain) to Invariants.antt and Answers.antt.

usage: python3 tools/turn_walks.py WALKS CRATE

WALKS has the old proofs as crates/CRATE/proofs/.../Proof.antt, in today's spelling (docs/T-14.patch brings such ones along); in crates/CRATE of this checkout,
whose libraries below have to prove, no function's walk may be left. For each function with a walk and no file of its own it writes the invariant and the
measure of its loops and cycles, and an answer for each goal that the walk answered by more than the usual rules. `rt check` says what is left:
where an answer is refused, look whether the check finds it with none, and else into the walk.

The names of old and new goals and places are the toolchain's own (`rt check --generated FOLDER --old-names`).
"""

import collections
import glob
import json
import os
import re
import subprocess
import sys
import tempfile

WORD = r"(?<![\w'.₀-]){}(?![\w'₀-])"
OF_WALKS = re.compile(r"\.Proof(\.|$)|\.Statement$|\.Tie$|\.proofs\..*\.(Reads|Kinds)$|Lts|Author\.(Rules|Needs)|borrow\.Fn\.")
USUAL = {"rules": ("Rattle.std.proofs.Common", "rules"), "arith": ("Rattle.std.proofs.Common", "arith")}
RENAMED = (("loop-holds", "loop-init"), ("loop-less", "loop-smaller"), ("loop-again", "loop-preserved"))


def dashed(name):
    name = name.replace("_", "-")
    for old, new in RENAMED:
        name = name.replace(old, new)
    return name


def snake(name):
    return re.sub(r"(?<=[a-z0-9])(?=[A-Z])", "_", name).lower()


def read(path):
    with open(path, encoding="utf-8") as f:
        return f.read()


# ---- what a walk says


def imports_of(text):
    """What a file brings in: each name with its module, and its item (none for a module's own name)."""
    found = {}
    for m in re.finditer(r"(?m)^use (\S+?)\.\{([^}]*)\}", text):
        if not OF_WALKS.search(m[1]):
            for item in (it.strip() for it in m[2].split(",")):
                found[item.split(" as ")[-1]] = (m[1], item)
    for m in re.finditer(r"(?m)^use (\S+) as (\S+)$", text):
        if not OF_WALKS.search(m[1]):
            found[m[2]] = (m[1], None)
    return found


def outdented(text):
    """The text with what stands in `module _ (t : ℕ) where` at the left."""
    lines, inside = [], False
    for line in text.split("\n"):
        if re.match(r"module _ .*where$", line):
            inside = True
            continue
        inside = inside and (not line or line.startswith(" "))
        lines.append(line[2:] if inside else line)
    return "\n".join(lines)


def with_own_names(members):
    """Where members of a cycle bring in one name from several files, it gets its file's name before it."""
    homes = collections.defaultdict(set)
    for text in members.values():
        for name, (module, item) in imports_of(text).items():
            if item:
                homes[name].add(module)
    for member, text in members.items():
        for name, (module, item) in imports_of(text).items():
            if item and len(homes[name]) > 1:
                new = snake(module.split(".")[-1]) + "_" + name
                lines = []
                for line in text.split("\n"):
                    if line.startswith(f"use {module}.{{"):
                        line = re.sub(rf"(?<![\w'-]){re.escape(name)}(?=[,}}])", f"{name} as {new}", line)
                    elif not line.startswith("use "):
                        line = re.sub(WORD.format(re.escape(name)), new, line)
                    lines.append(line)
                text = "\n".join(lines)
        members[member] = text
    return members


def walks_of(folder):
    """The walk of a function, and for a cycle with a file for each member these by the members' names."""
    whole = read(folder + "/Proof.antt") if os.path.exists(folder + "/Proof.antt") else ""
    members = {}
    for path in sorted(glob.glob(glob.escape(folder) + "/Proof/*.antt")):
        if path.endswith("/Measures.antt"):
            whole += "\n" + read(path)
        else:
            members[snake(os.path.basename(path)[:-5])] = outdented(read(path))
    return whole, with_own_names(members)


def answers_of(text):
    """The old goals with their answers, `unfolding ..` before an answer that has it."""
    found, lines, i = {}, text.split("\n"), 0

    def rest():
        nonlocal i
        taken = ""
        while i < len(lines) and lines[i].startswith((" ", "\t", ")", "}")):
            taken += "\n" + lines[i]
            i += 1
        return taken

    while i < len(lines):
        m = re.match(r"(?:pub )?([^\s:]+) :(?:\s|$)", lines[i])
        if not m or lines[i].startswith(("use ", "--", "abbrev")):
            i += 1
            continue
        name, stated = m[1], lines[i]
        i += 1
        stated += rest()
        opened = ""
        if i < len(lines) and lines[i].startswith("unfolding "):
            opened = lines[i] + "\n"
            i += 1
        if i < len(lines) and lines[i].startswith(name + " ") and "=" in lines[i]:
            body = lines[i].split("=", 1)[1]
            i += 1
            body += rest()
            if "Need-" in stated:
                found[dashed(name)] = opened + body.strip()
    return found


# ---- in today's words


class Places:
    """What the places of one function are called today: steps, arms of a match, loops."""

    def __init__(self, entry):
        self.steps = {dashed(it[2][0]): it[2][1] for it in entry["places"] if it[2] and it[2][0]}
        self.loops = [it[0][1] for it in entry["loops"]]
        self.arms = {}
        for arm in filter(None, entry["arms"]):
            for field, step, path in arm[2]:
                if path and not field.endswith("-own"):
                    self.arms[(dashed(step), *path)] = f"{arm[0]}.{field}"

    def path(self, m):
        parts = [it for it in m[0].split(".")[1:] if it != "before"]
        if not parts:
            return "c"
        head = dashed(parts[0])
        for k in range(len(parts), 1, -1):
            if (head, *parts[1:k]) in self.arms:
                return ".".join(["c", self.arms[(head, *parts[1:k])], *parts[k:]])
        if head in self.steps:
            parts[0] = self.steps[head]
        elif self.loops and head == "loop":
            parts[0] = self.loops[0]
        elif self.loops and head.startswith("loop-test"):
            parts[0] = self.loops[0] + "-test"
        return ".".join(["c", *parts])

    def turned(self, answer, goal, in_cycle):
        """An answer today. A name for an earlier place is the record itself, since all that is known is in it."""
        earlier = {"c"}
        while (m := re.search(r"let (\w+) = (\w+)(?:\.before)+ in\s*", answer)) and m[2] in earlier:
            earlier.add(m[1])
            answer = answer[: m.start()] + answer[m.end() :]
        for name in earlier:
            answer = re.sub(rf"(?<![\w'.-]){re.escape(name)}(?=\.)", "c", answer)
        answer = re.sub(r"(?<![\w'.-])c(?:\.[\w'₀-]+)+", self.path, answer)
        answer = re.sub(r"c\.(?:enum_told|enum_known|known_told)-(in-[\w-]+?)-\d+\.given\.1", r"c.\1.is", answer)
        arm = re.search(r"in-[A-Z]\w*", goal)
        if arm:
            answer = re.sub(r"c\.(?:enum_told|enum_known)-\d+\.given\.1", f"c.{arm[0]}.is", answer)
        if in_cycle:
            answer = re.sub(r"\bc\.requires\.1(?!\w)", "c.requires", answer)
            answer = re.sub(r"\bc\.requires\.0(?!\w)", "c.decreases", answer)
        return answer


def parameters(crate, function):
    for path in glob.glob(f"crates/{crate}/src/**/*.rt", recursive=True):
        m = re.search(rf"\bfn {re.escape(function)}(?:<[^>]*>)?\(([^)]*)\)", read(path))
        if m:
            return [it.strip().split(":")[0].replace("mut ", "").strip("&' ") for it in m[1].split(",") if it.strip()]
    return []


def loop_terms(text, loops):
    """The invariants and measures of loops: the kind, the member, and the term over `l`. Arguments go by position."""
    for m in re.finditer(r"(?m)^abbrev (?:pub )?(\S+) : (?:(\S+)-lts|lts|tie)\.(invariant|decreases)-[^\n]*\n\1 ([^=\n]*?) =((?: [^\n]*)?(?:\n[ \t]+[^\n]*)*)", text):
        given = m[4].split()
        for variables, changed in loops:
            if len(given) == len(variables) + sum(changed):
                terms = [("l.initial." if c else "l.") + v for v, c in zip(variables, changed)]
                terms += ["l." + v for v, c in zip(variables, changed) if c]
                where = dict(zip(given, terms))
                yield m[3], m[2] and m[2].replace("-", "_"), re.sub(r"(?<![\w.'₀-])[^\s(){}.;,@\"«»]+", lambda w: where.get(w[0], w[0]), m[5].strip())
                break


def measures(text, crate):
    """The measures of the members of a cycle, over `l`. A member's arguments were a pair of the first and the others."""
    for m in re.finditer(r"(?m)^abbrev (?:pub )?μ-(\S+) : Measures [^\n]*\nμ-\1 κs a =([^\n]*)", text):
        member = m[1].replace("-", "_")
        names = parameters(crate, member)

        def term(path):
            parts, i = path[0].split(".")[1:], 0
            while parts and parts[0] == "1" and i < len(names) - 1:
                parts, i = parts[1:], i + 1
            return ".".join(["l", names[i], *(parts[1:] if parts[:1] == ["0"] else parts)])

        if names:
            yield member, re.sub(r"(?<![\w'.-])a(?:\.[\w'-]+)*", term, m[2].strip())


# ---- the files


def is_named(name, text):
    if "◌" in name:
        return all(re.search(rf"(?:^|\s|\(){re.escape(it)}(?:$|\s|\))", text, re.M) for it in name.split("◌") if it)
    return re.search(WORD.format(re.escape(name)), text) is not None


def write(path, crate, folder, generated, found, given):
    body = "\n\n".join(given)
    lines = collections.OrderedDict()
    for name, (module, item) in (found | USUAL).items():
        if is_named(name, body):
            lines.setdefault(module, []).append(item or name)
    uses = [f"use {module}.{{{', '.join(items)}}}" for module, items in lines.items()]
    uses.append(f"use Rattle.{crate}.proofs.{folder.replace('/', '.')}.{generated} as goal")
    os.makedirs(os.path.dirname(path), exist_ok=True)
    with open(path, "w", encoding="utf-8") as f:
        f.write("\n".join(uses) + "\n\n" + body + "\n")
    print(path)


def stated(name, arguments, term):
    opened, _, body = term.rpartition("\n") if term.startswith("unfolding ") and term.count("\n") == 1 else ("", "", term)
    return f"pub {name} : goal.{name}\n" + (opened + "\n" if opened else "") + f"{name}{arguments} = {body}"


def invariants(crate, folder, entries, whole, members):
    loops = [(it[1], changed) for _, entry in entries for it, changed in zip(entry["loops"], entry["changed"])]
    of_cycle = dict(measures(whole, crate))
    terms = list(loop_terms(whole, loops)) + [(kind, m, term) for m, text in members.items() for kind, _, term in loop_terms(text, loops)]
    for member, entry in entries:
        before = f"{member}-" if member and len(entries) > 1 else ""
        if member in of_cycle:
            yield f"abbrev pub decreases-{member} : goal.decreases-{member}\ndecreases-{member} l = {of_cycle[member]}"
        for (_, loop), _ in entry["loops"][:1]:
            for kind in ("invariant", "decreases"):
                fit = [t for k, m, t in terms if k == kind and m == member] or [t for k, m, t in terms if k == kind]
                if fit:
                    yield f"abbrev pub {kind}-{before}{loop} : goal.{kind}-{before}{loop}\n{kind}-{before}{loop} l = {fit[0]}"


def answers(folder, entries, whole, members):
    in_cycle = "+" in folder
    for member, entry in entries:
        old = answers_of(members.get(member, whole))
        before = f"{member}-" if member and len(entries) > 1 else ""
        for was, goal in entry["needs"]:
            answer = old.get(f"{dashed(member or '')}-{dashed(was)}") or old.get(dashed(was))
            if not answer or answer == "search rules":
                continue
            answer = Places(entry).turned(answer, goal, in_cycle)
            clauses = entry["asked"].get(was, [])
            apart = len(clauses) > 1 and answer.startswith("search")
            for name in [f"{before}{goal}-clause-{it}" for it in clauses] if apart else [before + goal]:
                yield stated(name, " t c" if in_cycle else " c", answer)


def main(argv):
    if len(argv) != 2:
        print(__doc__)
        return 2
    walks, crate = argv
    with tempfile.TemporaryDirectory() as d:
        subprocess.run(["rt", "check", "--generated", d, "--old-names"], cwd=f"crates/{crate}", stdout=subprocess.DEVNULL, stderr=subprocess.STDOUT)
        names = json.loads(read(d + "/names.json"))
    folders = collections.OrderedDict()
    for key, entry in names.items():
        m = re.match(r".*?-proofs\.(.*)\.Lts(?:-(.*))?$", key)
        if m:
            folders.setdefault(m[1].replace(".", "/"), []).append((m[2], entry))
    for folder, entries in folders.items():
        whole, members = walks_of(f"{walks}/crates/{crate}/proofs/{folder}")
        found = imports_of(whole)
        for text in members.values():
            found |= imports_of(text)
        for name, generated, given in (
            ("Invariants", "Given", invariants(crate, folder, entries, whole, members)),
            ("Answers", "Goals", answers(folder, entries, whole, members)),
        ):
            path = f"crates/{crate}/proofs/{folder}/{name}.antt"
            given = list(given)
            if given and not os.path.exists(path):
                write(path, crate, folder, generated, found, given)
    return 0


if __name__ == "__main__":
    raise SystemExit(main(sys.argv[1:]))
