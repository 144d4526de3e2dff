"""Compares the library, called from C on slices that end at guard pages, with the reading (../reading.py).

    python3 compare.py ARCHIVE [OPERATIONS [SEED]]

Compares every answer, the whole output, and that nothing else changed.  Exit status 1 if any differ, or if SURE
operations or more did not meet each refusal that an operation can give, in each edition, and often enough each sort of
body fault: 9, a body cut short, and 13, any other."""

import collections
import itertools
import multiprocessing
import os
import struct
import subprocess
import sys
import time
sys.dont_write_bytecode = True
HERE = os.path.dirname(os.path.abspath(__file__))
sys.path[:0] = [HERE, os.path.dirname(HERE)]
import draw
import generate
import machine
import reading as r

NAMES = ("judge", "worst", "write", "check", "read", "lookup", "fetch", "board", "rank", "select")
ALONE = ("judge", "worst", "rank", "select")           # what has no edition
REQUEST, RESULT = struct.Struct("<IIQQII4I"), struct.Struct("<II5QQ")
TROUBLE = {1: "an input changed", 2: "bytes before a slice changed", 4: "stopped by a signal (its number)"}
CHUNK, SHOWN, ENOUGH = 1000, 5, 2000       # operations a driver; differences shown; when to stop
SURE = 100000                              # operations that meet all of what can be met
NUMBERS = {"judge": (0, 3, 4, 11), "worst": (0, 3, 11), "write": (0, 3, 4, 7, 8, 10, 11),
           "check": (0, 1, 2, 3, 4, 8, 9, 13), "read": (0, 1, 2, 3, 4, 5, 7, 8, 9, 13),
           "lookup": (0, 1, 2, 3, 4, 5, 6, 9, 13), "fetch": (0, 1, 2, 3, 4, 5), "board": (0, 1, 2, 3, 4, 8, 9, 12, 13),
           "rank": (0, 1, 6), "select": (0, 1, 6)}
SORTS = (9, 13)
OF_A_HUNDRED, OF_EACH = 8, 40              # the fewest of each sort: of a hundred operations; by each code and stage that a plan begins with
NO_EDITION, OTHER, EQUAL = "", "other", "equal"       # EQUAL: the editions part here, at equal neighbours of kind 1

Result = collections.namedtuple("Result", "number trouble answers out")


def answered(op):
    """The answers and the output's front of an accepted operation, by the reading; else it refuses."""
    first, a, b = op.inputs[0], op.a, op.b
    if op.what == "judge":
        number = r.judge(a, first)
        if number:
            raise r.Refused(number)
        return (), b""
    if op.what == "worst":
        return (r.worst(first, a),), b""
    if op.what == "write":
        kinds, plans, counts, joined = first, op.inputs[1], *map(numbers_of, op.inputs[2:])
        if len(plans) != 15 * len(kinds) or len(counts) != len(kinds):
            raise r.Refused(11)
        orders = [(kind, plans[15 * i:15 * i + 15], counts[i]) for i, kind in enumerate(kinds)]
        sheet = r.write(a, orders, joined, op.work, op.out)
        return (len(sheet),), sheet
    if op.what == "check":
        r.check(first, op.work)
        return (0,), b""
    if op.what == "read":
        numbers = r.read(first, a, op.work, op.out // 4)
        return (len(numbers),), draw.words(numbers)
    if op.what == "lookup":
        return (r.lookup(first, a, b),), b""
    if op.what == "fetch":
        return r.fetch(first, a), b""
    if op.what in ("rank", "select"):
        return ({"rank": r.rank, "select": r.select}[op.what](first, a),), b""
    return (0,) + r.board(first, op.work), b""


def expected(op):
    try:
        number, (answers, front) = 0, answered(op)
    except r.Refused as e:
        number, answers, front = e.number, (e.column if op.what in ("check", "board") else 0,), b""
    answers = (answers + (0, 0, 0, 0, 0))[:5]
    return Result(number, 0, answers, front + bytes([op.fill]) * (op.out - len(front)))


def edition_of(op):
    """1, 2 or another, of an operation that has an edition."""
    if op.what in ALONE:
        return NO_EDITION
    told = op.a if op.what == "write" else op.inputs[0][0] if op.inputs[0] else 0
    return told if told in r.EDITIONS else OTHER


def in_edition(op, edition):
    """The same operation asked in an edition, or on a sheet of it."""
    if op.what == "write":
        return op._replace(a=edition)
    return op._replace(inputs=(bytes([edition]) + op.inputs[0][1:],) + op.inputs[1:])


def met_by(op, number):
    """What an operation met: its name, its edition, the number, and whether only edition 2 refuses it by 13 or 10."""
    edition, equal = edition_of(op), False
    if edition == 1 and number in (0, 12):
        equal = expected(in_edition(op, 2)).number in (13, 10)
    elif edition == 2 and number in (13, 10):
        equal = expected(in_edition(op, 1)).number != number
    return op.what, edition, number, EQUAL if equal else ""


def to_meet():
    """All that has to be met."""
    for name, numbers in NUMBERS.items():
        if name in ALONE:
            yield from ((name, NO_EDITION, number, "") for number in numbers)
            continue
        yield from ((name, edition, number, "") for edition in r.EDITIONS for number in numbers)
        yield name, OTHER, 11 if name == "write" else 1, ""
    for name, first, second in (("write", 0, 10), ("check", 0, 13), ("read", 0, 13), ("board", 12, 13)):
        yield name, 1, first, EQUAL
        yield name, 2, second, EQUAL


def faults(operations, results):
    """How often reading and lookup met each sort of body fault, by what the column's plan begins with."""
    return collections.Counter((op.what, op.inputs[0][3 + r.entry_size(op.inputs[0][0]) * op.a], result.number)
                               for op, result in zip(operations, results)
                               if op.what in ("read", "lookup") and result.number in SORTS)


def too_few(met, sorts, many):
    """What was not met as often as it must be to tell the sorts of body faults apart."""
    for number in SORTS:
        seen = sum(times for case, times in met.items() if case[2] == number)
        if 100 * seen < OF_A_HUNDRED * many:
            yield "%d: %d of %d operations" % (number, seen, many)
        for what, first in itertools.product(("read", "lookup"), r.CODES + (r.REFERENCE, r.DIFFERENCES, r.RUNS)):
            if sorts[what, first, number] < OF_EACH:
                yield "%d: %s of plans that begin with %d: %d" % (number, what, first, sorts[what, first, number])


def numbers_of(words):
    return list(struct.unpack("<%dI" % (len(words) // 4), words))


def asked(driver, operations):
    """What the library answers; None for those after the driver's end."""
    frames = [REQUEST.pack(NAMES.index(op.what), op.fill, op.a, op.b, op.work, op.out, *map(len, op.inputs))
              + b"".join(op.inputs) for op in operations]
    done = subprocess.run(driver, input=b"".join(frames), stdout=subprocess.PIPE)
    results, at = [], 0
    while at + RESULT.size <= len(done.stdout):
        number, trouble, *answers, out = RESULT.unpack_from(done.stdout, at)
        at += RESULT.size + out
        results.append(Result(number, trouble, tuple(answers), done.stdout[at - out:at]))
    return results + (len(operations) - len(results)) * [None]


def described(op, got, wanted):
    lines = ["%s %s: a %d b %d work %d out %d" % (op.what, " ".join(part.hex() or "-" for part in op.inputs)[:600],
                                                  op.a, op.b, op.work, op.out)]
    if got is None:
        return lines[0] + "\n  no answer: the driver ended before"
    for who, result in (("library", got), ("reading", wanted)):
        trouble = [what for bit, what in TROUBLE.items() if result.trouble & bit]
        lines.append("  %s: %d %s %s" % (who, result.number, result.answers, ", ".join(trouble)))
    places = [i for i, (x, y) in enumerate(zip(got.out, wanted.out)) if x != y]
    if places:
        lines.append("  output differs in %d bytes from %d on: library %s, reading %s" % (
            len(places), places[0], got.out[places[0]:][:16].hex(), wanted.out[places[0]:][:16].hex()))
    return "\n".join(lines)


def chunk(task):
    """Compares one chunk: how often each operation met what, and which sorts of body faults, how many differ, the first of them."""
    driver, seed, many = task
    operations = generate.operations(seed, many) if seed else generate.corners()
    wanted = [expected(op) for op in operations]
    met = collections.Counter(met_by(op, result.number) for op, result in zip(operations, wanted))
    differ = [described(op, got, want) for op, got, want in zip(operations, asked(driver, operations), wanted)
              if got != want]
    return met, faults(operations, wanted), len(differ), differ[:SHOWN]


def main(archive, many=200000, seed=1):
    began, driver = time.time(), machine.build("driver", os.path.join(HERE, "driver.c"), archive)
    tasks = [(driver, "", 0)]                  # the corners, then as drawn
    tasks += [(driver, "%d %d" % (seed, first), min(CHUNK, many - first)) for first in range(0, many, CHUNK)]
    met, sorts, differ, shown = collections.Counter(), collections.Counter(), 0, []
    with multiprocessing.Pool(2) as pool:
        for part, of_bodies, more, lines in pool.imap(chunk, tasks):
            met += part
            sorts += of_bodies
            differ += more
            shown += lines
            if differ >= ENOUGH:
                break
    for name, edition in sorted({case[:2] for case in met}, key=lambda case: (NAMES.index(case[0]), str(case[1]))):
        cases = sorted(case for case in met if case[:2] == (name, edition))
        print("%-6s %-7s %7d: %s" % (name, edition and "in %s" % edition, sum(met[case] for case in cases),
                                     ", ".join(("%d x %d %s" % (met[case], *case[2:])).strip() for case in cases)))
    for lines in shown[:SHOWN]:
        print(lines)
    unmet = [case for case in to_meet() if case not in met] if many >= SURE and differ < ENOUGH else []
    for name, edition, number, why in unmet:
        print(" ".join(("never met: %s in edition %s: %d %s" % (name, edition, number, why)).split()))
    few = list(too_few(met, sorts, many)) if many >= SURE and differ < ENOUGH else []
    for line in few:
        print("met too seldom: " + line)
    print("bodies cut short (9) %d, other body faults (13) %d" % tuple(
        sum(times for case, times in met.items() if case[2] == number) for number in SORTS))
    print("%d operations, %d differ (%d seconds)" % (sum(met.values()), differ, time.time() - began))
    return 1 if differ or unmet or few else 0


if __name__ == "__main__":
    sys.exit(main(sys.argv[1], *map(int, sys.argv[2:])))
