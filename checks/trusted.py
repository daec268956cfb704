#!/usr/bin/env python3
"""trusted.py [--check]: counts the definitions that the statements of the verdicts rest on, and their lines.

Counted are the definitions in specs/ that a statement names, directly or through others, with their lines but for comments and
imports. Types that are generated from the code's own, and what the kit's libraries define, are not. Without words it prints the
counts; with --check it fails where a count is higher than docs/CLAIMS.md states."""
import glob
import os
import re
import sys

HERE = os.path.dirname(os.path.abspath(__file__))
TOP = os.path.dirname(HERE)

STATEMENTS = [
    ("what a run of a function is", ["pungi_meaning.specs.Run.run_of"]),
    ("clean and faulty", ["pungi_verdict.specs.Sound.IsSound"]),
    ("clean and faulty, from the bytes of a file to those of the report", ["pungi.specs.Answer.IsReportFor", "pungi_verdict.specs.Sound.IsSound"]),
    ("a verdict: clean and faulty, refusals and causes", ["pungi_verdict.specs.Verdicts.IsJudged"]),
    ("the headline, from the bytes of a file to those of the report", ["pungi.specs.Answer.Answers"]),
]

WORD = re.compile(r"[\w'₀-₉-]+(?:\.[\w'₀-₉-]+)*")
HEAD = re.compile(r"(?:abbrev |irreducible |private )*(?:pub )?(?:(?:abbrev|record|data|def) )?(?:pub )?([\w'-]+)\s*(?:\(.*?\)|\{.*?\})*\s*(?::|=|where)")
BEGIN = re.compile(r"(\s*)(?:(?:abbrev|opaque)\b.*|pub (?:record|data)\b.*|(?:record|data)\b.*|pub [\w'-]+\s*:.*)$")


class Module:
    """A specs file: its definitions by name, with their lines, and what its other names stand for."""

    def __init__(self, name, text):
        self.name, self.blocks, self.defined, self.imported, self.aliases = name, [], {}, {}, {}
        block, indent = None, 0
        for line in text.split("\n"):
            if line.startswith("use "):
                self.add_import(line[4:].strip())
                continue
            bare = re.sub(r"(^|\s)--.*$", "", line).rstrip()
            if not line.strip() or bare.strip() in ("mutual", "abbrev mutual"):
                block = None
            if not bare or bare.strip() in ("mutual", "abbrev mutual"):
                continue
            begin = BEGIN.match(bare)
            if begin and (block is None or len(begin[1]) <= indent):
                block, indent = [], len(begin[1])
                self.blocks.append(block)
            if block is None:
                block, indent = [], len(bare) - len(bare.lstrip())
                self.blocks.append(block)
            block.append(bare)
        for number, block in enumerate(self.blocks):
            for name in self.names_of(block):
                self.defined.setdefault(name, number)

    def names_of(self, block):
        """The names that a definition brings: its own, and of a type the constructors."""
        head = re.sub(r"\b(abbrev|pub|record|data|opaque)\b", "", block[0]).strip()
        yield re.match(r"[^\s:(){]+", head)[0]
        if re.search(r"\bdata\b", block[0]):
            for line in block[1:]:
                constructor = re.match(r"\s+(?:pub )?([\w'-]+(?:\s+[\w'-]+)*)\s*:", line)
                if constructor:
                    yield from constructor[1].split()

    def add_import(self, text):
        listed = re.match(r"Rattle\.([\w.+-]+)\.\{(.*)\}$", text)
        if listed:
            for item in listed[2].split(","):
                name, _, new = item.strip().partition(" as ")
                self.imported[new or name] = (listed[1], name)
            return
        alias = re.match(r"Rattle\.([\w.+-]+) as (\w+)$", text)
        if alias:
            self.aliases[alias[2]] = alias[1]

    def uses(self, number):
        """What a definition names: pairs of a module and a name."""
        text = "\n".join(self.blocks[number])
        for word in set(WORD.findall(text)):
            parts = word.split(".")
            if parts[0] in self.aliases and len(parts) > 1:
                yield self.aliases[parts[0]], parts[1]
            elif parts[0] in self.defined:
                yield self.name, parts[0]
            elif parts[0] in self.imported:
                yield self.imported[parts[0]]
        for name, place in [*self.imported.items(), *((it, (self.name, it)) for it in self.defined)]:
            if "◌" in name and all(part in text for part in name.split("◌") if part):
                yield place


def modules():
    found = {}
    for path in glob.glob(f"{TOP}/crates/*/specs/**/*.antt", recursive=True):
        crate, rest = re.search(r"crates/(\w+)/specs/(.*)\.antt$", path).groups()
        with open(path) as it:
            name = f"{crate}.specs." + rest.replace("/", ".")
            found[name] = Module(name, it.read())
    return found


def closure(all_modules, starts):
    """The definitions below these: pairs of a module and the number of a definition in it."""
    waiting, seen = [tuple(it.rsplit(".", 1)) for it in starts], set()
    for module, name in waiting:
        if name not in all_modules[module].defined:
            sys.exit(f"trusted: {module} defines no {name}")
    while waiting:
        module, name = waiting.pop()
        if module not in all_modules or name not in all_modules[module].defined:
            continue
        key = (module, all_modules[module].defined[name])
        if key not in seen:
            seen.add(key)
            waiting += all_modules[module].uses(key[1])
    return seen


def counts():
    all_modules = modules()
    for title, starts in STATEMENTS:
        found = closure(all_modules, starts)
        yield title, len(found), sum(len(all_modules[module].blocks[number]) for module, number in found)


def main():
    if sys.argv[1:] == ["--check"]:
        with open(f"{TOP}/docs/CLAIMS.md") as it:
            claims = it.read()
        failed = 0
        for title, definitions, lines in counts():
            stated = re.search(rf"\| {re.escape(title)} \| ([\d,]+) \| ([\d,]+) \|", claims)
            most = [int(it.replace(",", "")) for it in stated.groups()] if stated else [0, 0]
            if definitions > most[0] or lines > most[1]:
                failed = 1
                print(f"trusted: {title}: {definitions} definitions of {lines} lines, more than docs/CLAIMS.md states")
        sys.exit(failed)
    if sys.argv[1:]:
        sys.exit("usage: python3 checks/trusted.py [--check]")
    for title, definitions, lines in counts():
        print(f"| {title} | {definitions:,} | {lines:,} |")


if __name__ == "__main__":
    main()
