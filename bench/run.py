"""What the library costs: x86-64 instructions, counted under qemu on every machine, beside plain C with the same strict
tests (plain.c) and, for code 4, Debian's libstreamvbyte, which tests nothing.  On an x86-64 machine also times, the
library beside plain C in one process.  Prints Markdown.

    python3 bench/run.py [ARCHIVE]"""

import itertools
import os
import platform
import re
import subprocess
import sys
from multiprocessing.pool import ThreadPool
sys.dont_write_bytecode = True
HERE = os.path.dirname(os.path.abspath(__file__))
sys.path.insert(0, os.path.join(os.path.dirname(HERE), "tests", "outside"))
import machine

NUMBERS, REPEATS, PLACES = 1024, 4, (0, 255, 511, 1023)
TIMED = 200
PLANS = ("1", "2", "3", "4", "5", "6", "7", "8", "17 1", "17 4", "17 8", "18 1 1", "16 4")
STRICT = ("17 4",)              # also read and written in edition 2; all else is in edition 1
WIDTHS = ("small", "mixed", "wide")
NAMES = {"1": "VByte", "2": "group of four", "3": "G8IU", "4": "Stream VByte", "5": "gamma", "6": "delta",
         "7": "four-wise", "8": "directly addressed", "17 1": "differences, VByte", "17 4": "differences, Stream VByte",
         "17 8": "differences, directly addressed", "18 1 1": "runs, VByte twice", "16 4": "reference, Stream VByte"}
SOURCES = ("bench", "plain", "plain_codes", "plain_direct", "plain_plans", "plain_write")
ENGINES = ("library", "plain")


def count(command):
    """The instructions of a program."""
    done = subprocess.run(command, stderr=subprocess.PIPE, text=True)
    found = re.search(r"instructions (\d+)", done.stderr)
    if done.returncode != 0 or not found:
        raise RuntimeError("%s: %d %s" % (" ".join(command), done.returncode, done.stderr))
    return int(found.group(1))


def plugin(program):
    """The counter, of the interface version that this qemu takes."""
    for version in (1, 2, 3, 4):
        library = os.path.join(machine.MADE, "libcount.so")
        machine.run("gcc", "-O2", "-shared", "-fPIC", "-DVERSION=%d" % version, HERE + "/count.c", "-o", library)
        command = ["qemu-x86_64", "-plugin", library]
        if b"instructions" in subprocess.run(command + [program], stderr=subprocess.PIPE).stderr:
            return command
    sys.exit("qemu takes no plugin of versions 1 to 4")


def measure(archive):
    """{(engine, operation, place, edition, width, plan): instructions of one call}"""
    machine.install()
    sources = [os.path.join(HERE, name + ".c") for name in SOURCES]
    program = machine.build("bench", *sources, archive, *machine.stream_flags())[-1]
    command = plugin(program) + [program]
    cases = [(engine, operation, place, 1, width, plan)
             for engine, width, plan in itertools.product(ENGINES, WIDTHS, PLANS)
             for operation, place in [("read", 0), ("write", 0)] + [("lookup", place) for place in PLACES]]
    cases += [(engine, operation, 0, 2, width, plan)
              for engine, operation, width, plan in itertools.product(ENGINES, ("read", "write"), WIDTHS, STRICT)]
    cases += [("streamvbyte", operation, 0, 1, width, "4") for operation in ("read", "write") for width in WIDTHS]

    def one(case):
        engine, operation, place, edition, width, plan = case
        often, never = (count(command + [engine, operation, *map(str, (repeats, place, edition)), width] + plan.split())
                        for repeats in (REPEATS, 0))
        return (often - never) / REPEATS

    with ThreadPool(2) as pool:
        return dict(zip(cases, pool.map(one, cases))), program


def times(program):
    """{(operation, place, width, plan): nanoseconds of a call by the library and by plain C}, one after the other"""
    cases = [(operation, place, width, plan) for plan, width in itertools.product(PLANS, WIDTHS)
             for operation, place in [("read", 0)] + [("lookup", place) for place in PLACES]]
    return {case: [float(x) for x in subprocess.run([program, "times", case[0], str(TIMED), str(case[1]), "1", case[2]] + case[3].split(),
                                                    stdout=subprocess.PIPE, text=True, check=True).stdout.split()] for case in cases}


def row(*cells):
    print("| " + " | ".join(cells) + " |")


def table(head, rows):
    row(*head)
    row(*("---" if i < 3 else "---:" for i in range(len(head))))
    for cells in rows:
        row(*cells)
    print()


def main(archive):
    cost, program = measure(archive)

    def per_number(engine, operation, edition, width, plan):
        found = cost.get((engine, operation, 0, edition, width, plan))
        return "" if found is None else "%.1f" % (found / NUMBERS)

    def grown(engine, width, plan):
        found = [cost[engine, "lookup", place, 1, width, plan] for place in PLACES]
        return ["%.0f" % calls for calls in found] + ["%.1f" % (found[-1] / (PLACES[-1] + 1))]

    def ratio(operation, place, edition, width, plan):
        library, plain = (cost[engine, operation, place, edition, width, plan] for engine in ENGINES)
        return "%.2f" % (library / plain)

    def whole(operation, edition, width, plan):
        name = NAMES[plan] if edition == 1 else NAMES[plan] + ", edition %d" % edition
        library, plain, stream = (per_number(engine, operation, edition, width, plan)
                                  for engine in (*ENGINES, "streamvbyte"))
        return plan, name, width, library, plain, ratio(operation, 0, edition, width, plan), stream

    columns = list(itertools.product(PLANS, WIDTHS))
    compiler = subprocess.run([machine.CC[0], "--version"], stdout=subprocess.PIPE, text=True).stdout.split("\n")[0]
    print("## Instructions a number, of %d\n\nPlain C by %s -O2.\n" % (NUMBERS, compiler))
    print("Numbers: small are below 100, mixed of 1 to 32 bits with each length as often, wide uniform in 32 bits; with 17 "
          "these are the steps (up to 21 bits; in edition 2 never 0), with 18 the values of runs of 1 to 16, with 16 "
          "(up to 31 bits) 1,000,000,000 is added.\n")
    for operation in ("read", "write"):
        print("### %s\n" % operation.capitalize())
        table(("plan", "", "numbers", "library", "plain C", "ratio", "libstreamvbyte"),
              [whole(operation, edition, width, plan) for plan in PLANS
               for edition in ((1, 2) if plan in STRICT else (1,)) for width in WIDTHS])
    print("### Lookup: instructions a call at places %s, a number at the last, and the ratios at the first and the last\n"
          % ", ".join(map(str, PLACES)))
    first, *more = map(str, PLACES)
    table(("plan", "", "numbers", "library: " + first, *more, "a number", "plain C: " + first, *more, "a number",
           "ratio at " + first, "at " + more[-1]),
          [(plan, NAMES[plan], width, *grown("library", width, plan), *grown("plain", width, plan),
            ratio("lookup", PLACES[0], 1, width, plan), ratio("lookup", PLACES[-1], 1, width, plan))
           for plan, width in columns])
    if platform.machine() == "x86_64":
        took = times(program)

        def beside(operation, place, width, plan):
            library, plain = took[operation, place, width, plan]
            return ["%.0f" % library, "%.0f" % plain, "%.2f" % (library / plain)]

        print("### Times: nanoseconds a call, library and plain C in turns in one process, the best of 25 rounds\n")
        last = PLACES[-1]
        table(("plan", "", "numbers", "read: library", "plain C", "ratio", "lookup at 0: library", "plain C", "ratio",
               "lookup at %d: library" % last, "plain C", "ratio"),
              [(plan, NAMES[plan], width, *beside("read", 0, width, plan), *beside("lookup", 0, width, plan),
                *beside("lookup", last, width, plan)) for plan, width in columns])


if __name__ == "__main__":
    main(sys.argv[1] if len(sys.argv) > 1 else os.path.join(machine.ROOT, "crates", "capi", "out", "libcapi.a"))
