"""The verdicts of the program on functions: it is called, or a report of it that was saved is read."""
import argparse
import os
import subprocess
import sys
import tempfile

HERE = os.path.dirname(os.path.abspath(__file__))

# A file has at most 4,096 functions and 262,144 tokens. A line has a function, or some.
MOST_LINES, MOST_BYTES = 500, 500_000


def options(described, count, flags=None):
    """The options of a script that has functions judged, with flags of its own."""
    parser = argparse.ArgumentParser(description=described, formatter_class=argparse.RawDescriptionHelpFormatter)
    parser.add_argument("program", nargs="?", default=os.path.join(HERE, "..", "..", "crates", "pungi", "out", "pungi"))
    parser.add_argument("count", nargs="?", type=int, default=count)
    parser.add_argument("seed", nargs="?", type=int, default=1)
    parser.add_argument("--write", metavar="FILE", help="write the functions to this file, and judge nothing")
    parser.add_argument("--report", metavar="FILE", help="read this report on them, instead of calling the program")
    for flag, meaning in (flags or {}).items():
        parser.add_argument(flag, action="store_true", help=meaning)
    return parser.parse_args()


def read(report):
    """The verdict on each function, by its name: its line, and the lines of its run, in words."""
    found, last = {}, None
    for line in report.splitlines():
        words = line.split()
        if line.startswith("  "):
            found[last][1].append(words)
        elif words and words[0] in ("clean", "faulty", "unknown", "refused"):
            last = words[1]
            found[last] = words, []
    return found


def report_on(program, text, configuration):
    with tempfile.TemporaryDirectory() as room:
        with open(f"{room}/x.c", "w") as it:
            it.write(text)
        with open(f"{room}/c.toml", "w") as it:
            it.write(configuration)
        words = ["--config", f"{room}/c.toml"] if configuration else []
        return subprocess.run([os.path.abspath(program), *words, f"{room}/x.c"], stdout=subprocess.PIPE, text=True).stdout


def reports(program, declared, lines, tables):
    """What the program prints of these functions, in files of which the first line declares what they use. Some lines have a table of
    the configuration."""
    parts = parts_of(lines)
    return "".join(report_on(program, "\n".join([declared, *it]) + "\n", "".join(tables.get(line, "") for line in it)) for it in parts)


def parts_of(lines):
    """Lines, in parts of which each is no more than a file may have."""
    parts, size = [[]], 0
    for line in lines:
        if len(parts[-1]) == MOST_LINES or size + len(line) > MOST_BYTES:
            parts, size = [*parts, []], 0
        parts[-1].append(line)
        size += len(line) + 1
    return parts


def verdicts(chosen, declared, texts, tables=None):
    """The verdicts on functions, each of which stands in a line, by itself or with others, by the chosen options. Some lines have a
    table of the configuration."""
    lines = list(dict.fromkeys(texts.values()))
    if chosen.write:
        with open(chosen.write, "w") as it:
            it.write("\n".join([declared, *lines]) + "\n")
        sys.exit()
    if chosen.report:
        with open(chosen.report) as it:
            found = read(it.read())
    else:
        found = read(reports(chosen.program, declared, lines, tables or {}))
    missing = [name for name in texts if name not in found]
    if missing:
        sys.exit(f"{len(missing)} functions have no verdict: {missing[0]}")
    return found
