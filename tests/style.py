"""Proofs are read too: in the crates' proofs, definitions and sources, lines of more than 160 characters and paths of more than 6 `.before`.
Fails where there are more than tests/style.counts says; that may only fall.

    python3 tests/style.py [--lower]        --lower writes fewer down"""

import os
import re
import sys

HERE = os.path.dirname(os.path.abspath(__file__))
CRATES = os.path.join(os.path.dirname(HERE), "crates")
STORED = os.path.join(HERE, "style.counts")
WIDTH, STEPS = 160, 6
PATH = re.compile(r"(?: ?\.before){%d,}" % (STEPS + 1))


def files_read():
    for folder, below, names in os.walk(CRATES):
        # a crate's out/ holds what rt made of its files
        below[:] = sorted(name for name in below if name != "out" or os.path.dirname(folder) != CRATES)
        yield from (os.path.join(folder, name) for name in sorted(names) if name.endswith((".antt", ".rt")))


def counted():
    """{what: {file: how many}}"""
    found = {"lines": {}, "paths": {}}
    for path in files_read():
        with open(path, encoding="utf-8") as file:
            text = file.read()
        name = os.path.relpath(path, CRATES)
        found["lines"][name] = sum(len(line) > WIDTH for line in text.split("\n"))
        found["paths"][name] = len(PATH.findall(text))
    return found


def main(lower):
    found = counted()
    with open(STORED, encoding="utf-8") as file:
        stored = {what: int(n) for what, n in (line.split() for line in file if line.strip())}
    totals = {what: sum(files.values()) for what, files in found.items()}
    for what, files in found.items():
        print("style: %s %d, stored %d" % (what, totals[what], stored[what]))
        if totals[what] > stored[what]:
            for name, n in sorted(files.items(), key=lambda pair: -pair[1])[:20]:
                if n:
                    print("  %4d %s" % (n, name))
            sys.exit("style: more than before")
    if lower:
        with open(STORED, "w", encoding="utf-8") as file:
            file.writelines("%s %d\n" % pair for pair in totals.items())


main("--lower" in sys.argv[1:])
