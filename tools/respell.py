#!/usr/bin/env python3
"""Respells the repository's own definitions and lemmas, by the table beside it, in every crate.

usage: python3 tools/respell.py [TOP]

Each line of respellings.txt is OLD NEW, or OLD NEW FILE for a name of one file alone. Contracts, definitions, proofs and
must-fail edits are turned, word by word. Comments keep their English: there only a name between backticks is turned.
"""

import glob
import os
import re
import sys

WORD = re.compile(r"[^\s(){}\[\],;.:`]+")


def table(path):
    everywhere, alone = {}, {}
    with open(path, encoding="utf-8") as f:
        for line in f:
            old, new, *file = line.split()
            if file:
                alone.setdefault(file[0], {})[old] = new
            else:
                everywhere[old] = new
    return everywhere, alone


def turned(text, names):
    return WORD.sub(lambda m: names.get(m.group(0), m.group(0)), text)


def quoted(text, names):
    return re.sub(r"`[^`]*`", lambda m: turned(m.group(0), names), text)


def line_turned(line, names, comment):
    at = re.search(comment, line)
    code, rest = (line[: at.start()], line[at.start() :]) if at else (line, "")
    # a step named after a function of the source keeps the function's spelling
    code = code.replace("c.tree-step", "c.tree_step")
    return turned(code, names) + quoted(rest, names)


def borrowed(text, own):
    """What a file takes from libraries outside the repository: those names are not ours to turn."""
    found = set()
    for module, names in re.findall(r"\buse ([\w.]+)\.\{([^}]*)\}", text):
        parts = module.split(".")
        if parts[0] != "Rattle" or parts[1] not in own:
            found |= {name.split(" as ")[0].strip() for name in names.split(",")}
    return found


def main(top):
    everywhere, alone = table(os.path.join(os.path.dirname(os.path.realpath(__file__)), "respellings.txt"))
    own = set(os.listdir(os.path.join(top, "crates")))
    changed = 0
    for end, comment in ((".antt", r"(^|\s)--(\s|$)"), (".rt", r"//"), (".edit", r"//")):
        for path in sorted(glob.glob(os.path.join(top, "crates/**/*" + end), recursive=True)):
            here = os.path.relpath(path, top)
            if "/out/" in here:
                continue
            with open(path, encoding="utf-8") as f:
                old = f.read()
            names = {o: n for o, n in (everywhere | alone.get(here, {})).items() if o not in borrowed(old, own)}
            new = "".join(line_turned(line, names, comment) for line in old.splitlines(keepends=True))
            if new != old:
                with open(path, "w", encoding="utf-8") as f:
                    f.write(new)
                changed += 1
    print(f"respell: {changed} files")


main(sys.argv[1] if len(sys.argv) > 1 else ".")
