#!/usr/bin/env python3
"""Spells the repository's own names as today's Rattle does: words in snake case, types in camel case.

usage: python3 tools/respell.py [--check] [FOLDER]

It reads every .antt and .rt file and every must-fail edit below FOLDER/crates. A name that is declared in specs/ or in a file of lemmas is
spelled anew wherever it stands:

- a word in lower camel case gets underscores (storeOf, store_of);
- a dash becomes an underscore, but where both of its sides are names of definitions (get-putSets, get-put_sets);
- what is declared in a function's own proof (Proof.antt) stays, since such names are the toolchain's.

A file that imports a name from a library keeps that name. Where a new spelling stands somewhere already, the old one is kept, and is printed.
"""

import collections
import os
import re
import sys

CUT = re.compile(r"[^\s(){}.;,@\"«»]+")
DECLARED = re.compile(r"(?m)^ *(?:(?:pub|abbrev|unfoldable) )*([^\s(){}.;,@\"«»|:=]+(?: [^\s(){}.;,@\"«»|:=]+)*?)(?: \{[^{}\n]*\})* : ")
HEADED = re.compile(r"(?m)^(?:pub )?(?:data|record|ruleset) (?:pub )?([^\s(){}.;,@\"«»]+)")
RULESET = re.compile(r"(?m)^(?:pub )?ruleset (?:pub )?([^\s(){}.;,@\"«»]+)")
CASES = re.compile(r"(?m)^(?:pub )?data (?:pub )?\S+[^\n]*\bwhere\n((?:[ \t][^\n]*\n|\n)*)")
LIBRARY = re.compile(r"\buse ((?!Rattle\.(?!std\b)|Rattle·)[^\s;{]+)\.\{([^}]*)\}")
OWN_USE = re.compile(r"\buse (Rattle\.(?!std\b)[^\s;{]+)\.\{([^}]*)\}")

# One whose own spelling stands beside it already, and facts, which are spelled as types.
CHOSEN = {"oneByte": "one_byte_bound", "stepIs": "ShowsStep", "itemIs": "ShowsItem", "nextIs": "ShowsNext", "decimalIs": "ShowsDecimal"} | {
    n: n[:1].upper() + n[1:] for n in "cameTo meaningAs listedAs limitedAs oneAs twoAs threeAs".split()
}

CYCLES = {
    "wire_bit_wire_head_wire_inside_wire_program_wire_programs": "wiring_programs",
    "wire_application_wire_parts_wire_tree": "wiring_expressions",
    "thing_len_things_len": "thing_lengths",
    "take_all_take_application_take_arguments_take_bit_take_body_take_head_take_tree": "taking",
    "substitute_substitute_body_substitute_list_substitute_parts": "substituting",
    "put_thing_put_things": "putting",
    "object_objects": "building_objects",
    "measure_list_measure_object_measure_parts": "measuring_objects",
    "measure_all_measure_body_measure_function_measure_several_measure_tree": "measuring_trees",
    "function_list_tree_trees": "building_trees",
    "copy_each_copy_object": "copying_objects",
    "application_entry_form_function_lambda_list_parse_parts": "parsing",
    "abstraction_application_apply_bind_call_defined_entry_evaluate_expand_form_function_head_inner_inside_lambda_let_syntax_list_macro_use_parts_rewrite_rhs_transcribe_value_values_within": "expanding",
}


def files(root, endings):
    for folder, dirs, names in os.walk(os.path.join(root, "crates")):
        dirs[:] = sorted(d for d in dirs if d != "out")
        for name in sorted(names):
            if name.endswith(endings):
                yield os.path.join(folder, name)


def is_walk(path):
    return path.endswith("/Proof.antt") or "/Proof/" in path


def snake(word):
    word = re.sub(r"(?<=[a-z0-9])(?=[A-Z])", "_", word)
    return "_".join(w if len(w) > 1 and w.isupper() else w[:1].lower() + w[1:] for w in word.split("_"))


def declared_in(text):
    found = set()
    for m in DECLARED.finditer(text):
        found.update(m[1].split())
    for m in HEADED.finditer(text):
        found.add(m[1])
    return found


def spelled(name, words):
    """The new spelling of a name; words are the definitions' names, as they were."""
    if name[:1].isupper() or not re.search(r"[A-Za-z]", name) or "◌" in name:
        return name
    parts = name.split("-")
    if any(not p for p in parts):
        return name
    out = snake(parts[0])
    for i in range(1, len(parts)):
        left, right = "-".join(parts[:i]), "-".join(parts[i:])
        both = left in words and right in words
        piece = parts[i] if parts[i][:1].isupper() and not re.search(r"[a-z]", parts[i]) else snake(parts[i])
        out += ("-" if both else "_") + piece
    return out


def in_edit(word, table, names):
    """A word of a must-fail edit. An earlier script spelled some names in the files alone, so a camel case word goes by its snake case too."""
    if re.search(r"[a-z][A-Z]", word):
        return table.get(word, snake(word) if snake(word) in names else word)
    return word


def standing(path, text):
    """The words of a file that a name could meet: those of antt outside paths, and the labels and constants of Rust."""
    if path.endswith(".antt"):
        if is_walk(path):
            return set()
        return set(CUT.findall(re.sub(r"(?m)^use .*$", "", text)))
    if path.endswith(".rt"):
        return set(re.findall(r"(\w+)(?=:[^:])", text)) | set(re.findall(r"\b(?:const|static) (\w+)", text))
    return set()


def main(argv):
    check = "--check" in argv
    root = next((a for a in argv if not a.startswith("-")), ".")
    antt = list(files(root, ".antt"))
    texts = {p: open(p, encoding="utf-8").read() for p in antt + list(files(root, (".rt", ".edit")))}
    names, words, where = set(), set(), collections.defaultdict(set)
    for p in antt:
        if is_walk(p):
            continue
        found = declared_in(texts[p])
        names |= found
        for n in found:
            where[n].add(p)
        if "/specs/" in p:
            words |= found
    for p, t in texts.items():
        for m in LIBRARY.finditer(t):
            words.update(n.split(" as ")[0].strip() for n in m[2].split(","))
    table = {n: spelled(n, words) for n in names}
    table |= {n: s for n, s in CHOSEN.items() if n in names}
    table = {n: s for n, s in table.items() if n != s}
    tokens = collections.defaultdict(set)
    for p, t in texts.items():
        for n in standing(p, t):
            tokens[n].add(p)
    back = collections.defaultdict(set)
    for n, s in table.items():
        back[s].add(n)
    kept = []
    for s, olds in sorted(back.items()):
        # A lemma that would have its function's name gets `_lem`.
        lemmas = {n for n in olds if "-" in n}
        if s in names or len(olds) > 1:
            for n in lemmas:
                table[n] = s + "_lem"
            olds = olds - lemmas
            if len(lemmas) > 1 or s + "_lem" in tokens:
                kept.append((s + "_lem", sorted(lemmas), []))
        both = {p for p in tokens[s] for n in olds if p in tokens[n]}
        if both and s in names and s not in words:
            table[s] = s + "_lem"
            both = set()
        if len(olds) > 1 or both:
            kept.append((s, sorted(olds), sorted(both)[:4]))
    for k in kept:
        print("clash:", *k)
    print(len(names), "names,", len(table), "spelled anew,", len(kept), "clashes")
    if check:
        return 0
    clashing = {n for s, olds, _ in kept for n in olds}
    for n in clashing:
        del table[n]
    for p, t in texts.items():
        lent = set()
        for m in LIBRARY.finditer(t):
            lent.update(n.split(" as ")[-1].strip() for n in m[2].split(","))
        stay = lent | (declared_in(t) if is_walk(p) else set())
        if p.endswith(".antt"):
            new = CUT.sub(lambda m: table.get(m[0], m[0]) if m[0] not in stay else m[0], t)
        elif p.endswith(".rt"):
            new = re.sub(r"[\w'-]+", lambda m: table[m[0]] if m[0] in table and m[0] not in stay and re.search(r"[a-z][A-Z]", m[0]) else m[0], t)
        else:
            new = CUT.sub(lambda m: in_edit(m[0], table, names), t)
        if new != t:
            with open(p, "w", encoding="utf-8") as f:
                f.write(new)
    with open(os.path.join(root, "tools", "respelled.tsv"), "w", encoding="utf-8") as f:
        f.writelines(f"{n}\t{s}\n" for n, s in sorted(table.items()))
    name_cycles(root)
    return 0


def name_cycles(root):
    """The cycles of calls get short names in place of their members' names joined."""
    for old, new in CYCLES.items():
        for p in files(root, (".antt", ".rt")):
            with open(p, encoding="utf-8") as f:
                t = f.read()
            s = t.replace("#[cycle(" + old + ")]", "#[cycle(" + new + ")]").replace("+" + old, "+" + new)
            if s != t:
                with open(p, "w", encoding="utf-8") as f:
                    f.write(s)
        for folder, dirs, _ in os.walk(os.path.join(root, "crates")):
            if "+" + old in dirs:
                os.rename(os.path.join(folder, "+" + old), os.path.join(folder, "+" + new))


if __name__ == "__main__":
    raise SystemExit(main(sys.argv[1:]))
