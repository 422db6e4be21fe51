#!/usr/bin/env python3
"""Programs that the compiler must reject: misuse of a state that is a type of its own.

Each case is an edit in a copy of a crate. The unedited copy must be accepted by the kit's front end, and each edited one
rejected with the error that the case names. The front end, which is `rattle check` with no function to prove, checks
types, moves and borrows, so this takes seconds. Run from anywhere:

    python3 tools/rejected.py
"""

import pathlib
import shutil
import subprocess
import sys
import tempfile

ROOT = pathlib.Path(__file__).resolve().parent.parent

# what is tried, crate, file, old text, new text, the error that is expected
CASES = [
    ("a record is added to a sealed table", "records", "src/load.rt",
     "    Ok(draft.seal().unwrap())\n",
     "    let mut table = draft.seal().unwrap();\n    add(&mut table, bytes)?;\n    Ok(table)\n",
     "error[mismatched-types]: expected `&mut Draft`, found `&mut Table`"),
    ("a draft is used after it was sealed", "records", "src/load.rt",
     "    Ok(draft.seal().unwrap())\n",
     "    let table = draft.seal().unwrap();\n    draft.ask_seal()?;\n    Ok(table)\n",
     "error[borrow-e0382]: borrow of moved value: `draft`"),
]


def kit():
    """The kit's folder: the guide that `rt doc` names stands in it."""
    guide = subprocess.run(["rt", "doc"], capture_output=True, text=True, check=True).stdout.strip()
    return pathlib.Path(guide).parent


def dependencies():
    """The libraries that each crate of crates.txt names."""
    found = {}
    for line in (ROOT / "crates.txt").read_text().splitlines():
        line = line.split("#")[0].strip()
        if line:
            name, used = line.split(":")
            found[name.strip()] = used.split()
    return found


def front_end(home, crate, folder):
    """Reads the crate in this folder, with the libraries below it as sources and no function to prove; gives the status and what was said."""
    used = dependencies()
    command = [str(home / "bin" / "rattle"), "check", "--crate-name", crate, "src/lib.rt", "--only", "", "--jobs", "1"]
    for name in ("std", "core"):
        command += ["--extern", "%s=%s" % (name, home / "rlibs" / (name + ".rlib"))]
    command += ["-L", "dependency=%s" % (home / "rlibs")]
    for name in used[crate]:
        root = ROOT / "crates" / name / "src" / "lib.rt"
        command += ["--lib", "%s:%s=%s" % (name, ",".join(["core", "std"] + used[name]), root)]
    command += ["--antt-project", str(home / "rattle" / "logic" / "antt-project.json"), "--logic-built", str(home / "logic_built")]
    done = subprocess.run(command, cwd=folder, stdout=subprocess.PIPE, stderr=subprocess.STDOUT, text=True, errors="replace", timeout=300)
    return done.returncode, done.stdout


def attempt(home, crate, edit):
    """The front end on a copy of the crate with the edit (file, old, new), or with none."""
    with tempfile.TemporaryDirectory() as place:
        copy = pathlib.Path(place) / crate
        shutil.copytree(ROOT / "crates" / crate, copy)
        if edit:
            file, old, new = edit
            text = (copy / file).read_text()
            if text.count(old) != 1:
                sys.exit("rejected.py: the text to edit does not stand once in %s/%s: %r" % (crate, file, old))
            (copy / file).write_text(text.replace(old, new))
        return front_end(home, crate, copy)


def main():
    home = kit()
    bad = 0
    for crate in sorted({case[1] for case in CASES}):
        said = attempt(home, crate, None)[1]
        accepted = "error[" not in said and said.rstrip("\n").split("\n")[-1].startswith("only=")
        print("%s: %s unedited is accepted" % ("ok" if accepted else "FAILED", crate))
        if not accepted:
            bad += 1
            print(said)
    for what, crate, file, old, new, error in CASES:
        status, said = attempt(home, crate, (file, old, new))
        rejected = status == 1 and error in said
        print("%s: rejected where %s" % ("ok" if rejected else "FAILED", what))
        if not rejected:
            bad += 1
            print("expected: %s\nstatus %d, said: %s" % (error, status, said))
    sys.exit(1 if bad else 0)


if __name__ == "__main__":
    main()
