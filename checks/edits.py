#!/usr/bin/env python3
"""edits.py [CRATE..]: the edits of checks/edits/CRATE/, each of which changes the meaning of a public function of the crate in
one line, and is refused by the check of that crate.

With names of crates it tries the edits of these crates in a copy of the repository, by `rt must-fail`: for whoever changed such
a crate. It takes a proof of the crate, and some 15 seconds to 3 minutes for each edit. Without names, as the gate calls it, it
only looks whether each edit can still be applied, those of crates/CRATE/must-fail/ too, which takes no time.

The gate itself tries the edits in crates/CRATE/must-fail/. It proves a crate once more for that, so just the crates that are
cheap, or carry the promise of the report, have theirs there."""
import os
import shutil
import subprocess
import sys
import tempfile

HERE = os.path.dirname(os.path.abspath(__file__))
TOP = os.path.dirname(HERE)
EDITS = f"{HERE}/edits"


def edits_of(crate):
    """The edits of a crate, wherever they stand."""
    folders = [it for it in (f"{EDITS}/{crate}", f"{TOP}/crates/{crate}/must-fail") if os.path.isdir(it)]
    return [f"{folder}/{name}" for folder in folders for name in sorted(os.listdir(folder)) if name.endswith(".edit")]


def reason_against(edit, crate):
    """Why an edit can't be applied to its crate, or None where it can."""
    texts, path, old = {}, None, None
    with open(edit) as it:
        for line in it.read().split("\n"):
            word, _, rest = line.partition(":")
            if word == "file":
                path = rest.strip()
                if path not in texts:
                    file = f"{TOP}/crates/{crate}/{path}"
                    if not os.path.isfile(file):
                        return f"there is no file {path}"
                    with open(file) as source:
                        texts[path] = source.read()
            elif word == "old":
                old = rest[1:]
            elif word == "new":
                if path is None or old is None:
                    return "a 'new:' stands before any 'file:' or 'old:'"
                if texts[path].count(old) != 1:
                    return f"its 'old:' text is {texts[path].count(old)} times in {path}, and not once"
                texts[path] = texts[path].replace(old, rest[1:])
    return None


def look():
    """Names each edit that can't be applied."""
    stale = 0
    for crate in sorted(os.listdir(f"{TOP}/crates")):
        for edit in edits_of(crate):
            why = reason_against(edit, crate)
            if why:
                stale += 1
                print(f"edits: {os.path.relpath(edit, TOP)}: {why}")
    return 1 if stale else 0


def try_out(crates):
    """Tries the edits of these crates in a copy."""
    with tempfile.TemporaryDirectory() as room:
        shutil.copytree(f"{TOP}/crates", f"{room}/crates", ignore=shutil.ignore_patterns("out", "must-fail"))
        for name in ("crates.txt", "HANDLES"):
            shutil.copy(f"{TOP}/{name}", f"{room}/{name}")
        for crate in crates:
            shutil.copytree(f"{EDITS}/{crate}", f"{room}/crates/{crate}/must-fail")
        return subprocess.run(["rt", "must-fail", *crates], cwd=room).returncode


def main():
    crates = sys.argv[1:]
    unknown = [it for it in crates if not os.path.isdir(f"{EDITS}/{it}")]
    if unknown:
        sys.exit(f"edits: checks/edits/ has none of {', '.join(unknown)}")
    sys.exit(try_out(crates) if crates else look())


if __name__ == "__main__":
    main()
