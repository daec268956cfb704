#!/usr/bin/env python3
"""check_over.py CHECKOUT CRATE [--build] [WORDS..]: checks a crate of this checkout over the libraries that `rt ci` built in another one.

`rt check` proves the crates below again where another checkout built them. This calls the prover over those libraries, as they
lie in CHECKOUT/crates/*/out/, so that a check takes half a minute from the start. They have to be of the same sources as those
of this checkout, and all of one run: nothing here looks at that, and only `rt ci` is the verdict. What is kept stands in the
crate's out/check_over/. With --build a proved library crate is put among those of the other checkout, so that crates above it can
be checked before `rt ci` has been there. WORDS go to the prover: `--only PATH` for one function, `--allow-holes` to see what is
left to prove, `--fix-imports`."""
import os
import re
import subprocess
import sys

TOP = os.path.dirname(os.path.dirname(os.path.abspath(__file__)))


def needs_of_crates():
    """What each crate of crates.txt stands on."""
    needs = {}
    with open(os.path.join(TOP, "crates.txt"), encoding="utf-8") as lines:
        for line in lines:
            found = re.match(r"(\w+)[^:#]*:(.*)", line)
            if found:
                needs[found[1]] = found[2].split()
    return needs


def all_below(crate, needs, below):
    """Adds to a list the crates of this repository below a crate, those that others stand on first, each once."""
    for name in needs.get(crate, []):
        if name in needs and name not in below:
            all_below(name, needs, below)
            below.append(name)
    return below


def main():
    if len(sys.argv) < 3:
        sys.exit(__doc__)
    checkout, crate, words = os.path.abspath(sys.argv[1]), sys.argv[2], sys.argv[3:]
    builds = "--build" in words
    words = [it for it in words if it != "--build"]
    needs = needs_of_crates()
    kit = os.path.dirname(subprocess.run(["rt", "doc"], capture_output=True, text=True, check=True).stdout.strip())
    libraries = os.path.join(kit, "rlibs")
    call = [os.path.join(kit, "bin", "rattle"), "build" if builds else "check", "--crate-name", crate]
    folder = os.path.join(TOP, "crates", crate)
    call.append("src/main.rt" if os.path.exists(os.path.join(folder, "src", "main.rt")) else "src/lib.rt")
    for name in ["std", *(name for name in needs[crate] if name not in needs)]:
        call += ["--extern", f"{name}={libraries}/{name}.rlib"]
    call += ["-L", f"dependency={libraries}"]
    for name in all_below(crate, needs, []):
        built = os.path.join(checkout, "crates", name, "out", "rlib")
        if not os.path.isdir(os.path.join(built, f"{name}.rlib")):
            sys.exit(f"check_over: there is no library of {name} in {built}")
        call += ["--extern", f"{name}={built}/{name}.rlib", "-L", f"dependency={built}"]
    call += ["--antt-project", os.path.join(kit, "rattle", "logic", "antt-project.json")]
    call += ["--logic-built", os.path.join(kit, "logic_built"), "--links", f"{crate}=", "--jobs", "2"]
    if builds:
        built = os.path.join(checkout, "crates", crate, "out", "rlib")
        os.makedirs(built, exist_ok=True)
        call += ["-o", os.path.join(built, f"{crate}.rlib")]
    os.makedirs(os.path.join(folder, "out", "check_over"), exist_ok=True)
    sys.exit(subprocess.run([*call, "--incremental", "out/check_over", *words], cwd=folder, check=False).returncode)


main()
