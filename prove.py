"""Proves crates and what they stand on, a line a crate: which of how many, and the seconds it took. What the prover says is shown
only where something is not proved. A program is built too, and stays in its crate's out/ (run.sh runs it).

    python3 prove.py CRATE..."""

import os
import subprocess
import sys
import time

HERE = os.path.dirname(os.path.abspath(__file__))


def needed(names):
    """The crates that are named and all below them that stand in crates.txt, each after those that it stands on."""
    with open(os.path.join(HERE, "crates.txt"), encoding="utf-8") as file:
        lines = [line.split(":") for line in file if ":" in line and not line.startswith("#")]
    below = {name.split()[0]: rest.split() for name, rest in lines}
    found = []

    def take(name):
        if name in below and name not in found:
            for other in below[name]:
                take(other)
            found.append(name)

    for name in names:
        if name not in below:
            sys.exit("crates.txt has no crate %s" % name)
        take(name)
    return found


def main(names):
    crates = needed(names)
    for done, name in enumerate(crates, 1):
        folder, start = os.path.join(HERE, "crates", name), time.time()
        # a program is run once, on no input: so it is built
        verb = "run" if os.path.exists(os.path.join(folder, "src", "main.rt")) else "lib"
        run = subprocess.run(["rt", verb], cwd=folder, stdin=subprocess.DEVNULL, stdout=subprocess.PIPE, stderr=subprocess.STDOUT, text=True)
        if run.returncode != 0:
            sys.exit(run.stdout + "%s is not proved" % name)
        print("%2d of %d  %-10s proved  (%.0f s)" % (done, len(crates), name, time.time() - start), flush=True)


main(sys.argv[1:])
