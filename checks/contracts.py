#!/usr/bin/env python3
"""contracts.py: prints docs/CONTRACTS.md, the list of the public functions of each crate with their doc comments and contracts.

A function is public where lib.rt (of a program main.rt) exports it, or the type whose method it is, or its module. The gate
compares the page with what this script prints."""
import os
import re

HERE = os.path.dirname(os.path.abspath(__file__))
TOP = os.path.dirname(HERE)


def crates():
    """The crates of crates.txt that hold no tests alone, in its order."""
    with open(f"{TOP}/crates.txt") as it:
        names = [line.split(":")[0].split()[0] for line in it if ":" in line and not line.startswith("#")]
    return [it for it in names if not it.endswith("_tests")]


def sources(folder):
    """The modules below a crate's src/, as ('a', 'b') of src/a/b.rt, with their texts, in order."""
    for at, folders, files in os.walk(f"{folder}/src"):
        folders.sort()
        for file in sorted(files):
            module = os.path.relpath(f"{at}/{file}", f"{folder}/src")[:-len(".rt")].split("/")
            with open(f"{at}/{file}") as it:
                yield tuple(it for it in module if it not in ("lib", "main", "mod")), it.read()


def exports(module, text):
    """What a module exports by `pub use` and `pub mod`: the module and the name of each item, None for the name where all of it is public."""
    for path in re.findall(r"^pub use ([^;]+);", text, re.M):
        stem, _, last = re.sub(r"\s+", "", path).rpartition("::")
        if "{" in path:
            stem, _, last = re.sub(r"\s+|\}", "", path).partition("::{")
        within = tuple(it for it in stem.split("::") if it not in ("", "self", "crate"))
        for name in last.split(","):
            if name:
                yield (() if stem.startswith("crate") else module) + within, name
    for name in re.findall(r"^pub mod (\w+);", text, re.M):
        yield (*module, name), None


def items(text):
    """The public functions of a source file: of each the type whose method it is, its name, its comment and its head."""
    within, inside_tests, comment, lines = None, False, [], text.split("\n")
    at = 0
    while at < len(lines):
        line = lines[at]
        impl = re.match(r"(?:impl|pub trait)\b(?:<[^>]*>)?\s*([\w:]+)(?:<.*?>)?(?:\s+for\s+([\w:]+))?", line)
        if impl:
            # what a trait's impl does is described by the trait
            within = None if impl[2] else impl[1].rstrip(":").split("::")[-1]
            in_trait = line.startswith("pub trait")
            is_of_trait = bool(impl[2])
        if line == "}":
            within, in_trait, is_of_trait = None, False, False
        if line.strip().startswith("///"):
            comment.append(line.strip()[3:].strip())
        elif not line.strip().startswith("#["):
            head = re.match(r"\s*(pub )?(?:const )?fn (\w+)", line)
            is_method = line.startswith("    ") and within
            if head and (head[1] or is_method and in_trait):
                found = [line.strip()]
                while not re.search(r"(^|[^\w\s] |\w )\{$|^\s*\{\}?$|\{\}$|;$", lines[at]):
                    at += 1
                    found.append(lines[at].rstrip())
                shown = re.sub(r"\s*\{\}?$|;$", "", "\n".join(found))
                yield within if is_method else None, head[2], comment, shown
            comment = []
        at += 1


def public_items(folder):
    """The public functions of a crate, in the order of its files."""
    texts = list(sources(folder))
    exported = {it for module, text in texts if module == () for it in exports(module, text)}
    exported |= {it for module, text in texts if (module, None) in exported for it in exports(module, text)}
    types = {name for _, name in exported if name and name[0].isupper()}
    if os.path.isfile(f"{folder}/src/main.rt"):
        exported.add((("top",), "pungi"))
    for module, text in texts:
        for within, name, comment, head in items(text):
            is_open = (module, None) in exported
            if within in types or is_open or within is None and (module, name) in exported:
                yield within, name, comment, head


def page():
    yield "# Contracts"
    yield ""
    yield "Each public function with its contract, crate by crate, as `python3 checks/contracts.py` lists them. A contract is proved;"
    yield "the words of its clauses are defined in the `specs/` of the crate that the `ghost use` lines of its file name."
    for crate in crates():
        found = list(public_items(f"{TOP}/crates/{crate}"))
        if found:
            yield ""
            yield f"## {crate}"
        for within, name, comment, head in found:
            yield ""
            yield f"### `{within + '::' if within else ''}{name}`"
            yield ""
            if comment:
                yield " ".join(comment)
                yield ""
            yield "```"
            yield from head.split("\n")
            yield "```"


if __name__ == "__main__":
    print("\n".join(page()))
