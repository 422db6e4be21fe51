#!/usr/bin/env python3
"""Respells the definitions and lemmas of this repository: words in snake case, facts that are types in upper camel case.

It goes over specs/ and proofs/ of each crate for what is declared there with a dash in its name (definitions, records,
lemmas, names given by `as` and by `let`), and puts the new spelling in place of the old one in every .antt and .rt file,
in the texts of must-fail edits, and in README.md and docs/. Names that the kit makes (goals, steps) and names of the
kit's own library keep their dashes. It stops before it writes anything if two names would fall together. Run at the top:

    python3 tools/rename_definitions.py
"""

import collections
import pathlib
import re
import sys

ROOT = pathlib.Path(__file__).resolve().parent.parent

# A name of the code with the same spelling stands where this definition is cited, so it gets another one.
SPECIAL = {"expression-depths": "depths_of_expressions", "formula-depths": "depths_of_formulas"}

LETTER = r"[A-Za-z0-9_'≢≡]"
NAME = r"[A-Za-z]" + LETTER + r"*(?:-" + LETTER + r"+)+"
DECLARED = re.compile(r"(?m)^ *(?:abbrev )?(?:unfoldable )?(?:pub )?(?:record |data )?(" + NAME + r") *(?::|\(|\{)(.*)$")
ALIAS = re.compile(r"(?m)^use .* as (" + NAME + r")$")
LOCAL = re.compile(r"\blet (" + NAME + r")\b")


def is_answer(path):
    return path.name in ("Answers.antt", "Invariants.antt")


def without_comments(text):
    return re.sub(r"(?m)(--|//).*$", "", text)


def declared():
    """Each name with a dash that this repository gives, and where."""
    found = collections.defaultdict(set)
    for path in sorted(ROOT.glob("crates/*/specs/**/*.antt")) + sorted(ROOT.glob("crates/*/proofs/**/*.antt")):
        text = without_comments(path.read_text())
        for m in DECLARED.finditer(text):
            if is_answer(path) and (" goal." in m.group(0) or "invariant-" in m.group(1) or "decreases-" in m.group(1)):
                continue
            found[m.group(1)].add(path)
        for m in ALIAS.finditer(text):
            found[m.group(1)].add(path)
        for m in LOCAL.finditer(text):
            found[m.group(1)].add(path)
    return found


def respelled(name):
    if name in SPECIAL:
        return SPECIAL[name]
    if name[0].isupper():
        return "".join(part[0].upper() + part[1:] for part in name.split("-"))
    return name.replace("-", "_")


def main():
    names = {name: respelled(name) for name in declared()}
    targets = sorted(ROOT.glob("crates/**/*.antt")) + sorted(ROOT.glob("crates/**/*.rt"))
    targets += sorted(ROOT.glob("crates/*/must-fail/*.edit")) + [ROOT / "README.md"] + sorted(ROOT.glob("docs/*.md"))
    targets = [path for path in targets if "out" not in path.relative_to(ROOT).parts]
    token = re.compile(r"(?<![A-Za-z0-9_'≢≡-])(" + NAME + r")(?![A-Za-z0-9_'≢≡-])")

    together = [n for n, k in collections.Counter(names.values()).items() if k > 1]
    taken = collections.defaultdict(set)
    for path in targets:
        if path.suffix == ".antt" and not is_answer(path):
            for m in re.finditer(r"(?<![.\w'-])[A-Za-z]" + LETTER + r"*(?!" + LETTER + r"|-)", without_comments(path.read_text())):
                taken[m.group(0)].add(str(path.relative_to(ROOT)))
    together += ["%s in %s" % (n, ", ".join(sorted(taken[n]))) for n in sorted(names.values()) if n in taken]
    if together:
        sys.exit("names that would fall together:\n" + "\n".join(together))

    for path in targets:
        old = path.read_text()
        new = token.sub(lambda m: names.get(m.group(1), m.group(1)), old)
        if new != old:
            path.write_text(new)
    for name in sorted(names):
        print(name, names[name])


if __name__ == "__main__":
    main()
