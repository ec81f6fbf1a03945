#!/usr/bin/env python3
"""The model's choice has another name than the library's: `if b then x else y`, of any level, is `when b then x else y`.

usage: python3 tools/name_choice.py [FOLDER]

The library has an operator of the name `if◌then◌else◌`, of level 0 and of another precedence, and a reader would take the one for the other.
"""
import os
import re
import sys


def turned(text, is_antt):
    out = []
    if is_antt:
        for line in text.split("\n"):
            code, mark, comment = line, "", ""
            m = re.match(r"(.*?)(^|\s)(--+\s.*|--)$", line)
            if m:
                code, mark, comment = m[1], m[2], m[3]
            out.append(re.sub(r"(?<![\w'.`-])if(?![\w'`-])", "when", code) + mark + comment)
        return "\n".join(out)
    # In a .rt file an `if` that has a `then` stands in a clause.
    return re.sub(r"(?<![\w'-])if(?= [^{};]*? then )", "when", text)


def main(argv):
    root = argv[0] if argv else "."
    for folder, dirs, names in os.walk(os.path.join(root, "crates")):
        dirs[:] = sorted(d for d in dirs if d != "out")
        for name in names:
            if not name.endswith((".antt", ".rt", ".edit")):
                continue
            path = os.path.join(folder, name)
            with open(path, encoding="utf-8") as f:
                text = f.read()
            new = text.replace("if◌then◌else◌", "when◌then◌else◌")
            if name.endswith(".antt"):
                new = turned(new, True)
            elif name.endswith(".rt"):
                new = "\n".join(l if l.lstrip().startswith("//") else l for l in turned(new, False).split("\n"))
            else:
                new = re.sub(r"(?m)^((?:old|new): .*)$", lambda m: turned(m[1], False) if " then " in m[1] else m[1], new)
            if new != text:
                with open(path, "w", encoding="utf-8") as f:
                    f.write(new)


if __name__ == "__main__":
    main(sys.argv[1:])
