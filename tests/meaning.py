#!/usr/bin/env python3
"""The meaning, computed, against the plain reading: random cases become equations between a definition of
crates/meaning/specs and what tests/reading.py answers, and the checker has to find every one true by computation.
Usage: meaning.py [cases] [seed]. The equations stand in a repository of their own, in a temporary folder."""
import glob
import os
import random
import re
import shutil
import subprocess
import sys
import tempfile

import reading as R
from examples import SORTS

ROOT = os.path.join(os.path.dirname(os.path.abspath(__file__)), "..")
CASES = int(sys.argv[1]) if len(sys.argv) > 1 else 600
RANDOM = random.Random(int(sys.argv[2]) if len(sys.argv) > 2 else 1)
LARGEST = 2 ** 32 - 1
OTHER_EDITIONS = (0, 3, 255)
SHAPES = [[0]] * 8 + [[16, 0], [17, 0], [18, 0, 0], [17, 16, 0], [16, 17, 0], [17, 18, 0, 0], [18, 17, 0, 0], [18, 16, 0, 0], [18, 0, 16, 0],
                       [18, 0, 18, 0, 0], [18, 18, 0, 0, 0], [17, 18, 16, 0, 0], [17, 16, 18, 0, 0], [17, 18, 0, 18, 0, 0]]     # 0: any code
equations = []


def listed(xs):
    return "(" + " ∷ ".join([str(x) for x in xs] + ["[]"]) + ")" if xs else "[]"


def says(left, right):
    equations.append((left, right))


def answer(ask, shown):
    try:
        return "given " + shown(ask())
    except R.Refused as e:
        return "refused %d" % e.number


def verdict(ask, then):
    try:
        return then(ask())
    except R.Refused as e:
        return "blamed %d %d" % (e.number, e.column)


def number():
    return LARGEST if RANDOM.random() < 0.1 else RANDOM.randrange(2 ** RANDOM.choice([1, 3, 7, 8, 9, 14, 16, 17, 24, 25, 32, 32]))


def numbers(kind, n, edition=1):
    """n numbers, of kind 1 in order; in edition 2 mostly without equal ones, which may be fewer."""
    xs = [number() for _ in range(n)]
    if RANDOM.random() < 0.4:
        xs = [x for x in xs for _ in range(RANDOM.choice([1, 1, 2, 3]))][:n]
    if kind == 1 and edition == 2 and RANDOM.random() < 0.7:
        xs = set(xs)
    return sorted(xs) if kind == 1 else xs


def damaged(data):
    data = bytearray(data)
    for _ in range(RANDOM.choice([0, 1, 1, 2])):
        way = RANDOM.random()
        if way < 0.5 and data:
            data[RANDOM.randrange(len(data))] = RANDOM.choice([0, 1, 128, 255, RANDOM.randrange(256)])
        elif way < 0.6 and data:
            del data[RANDOM.randrange(len(data))]
        elif way < 0.8:
            data.append(RANDOM.choice([0, 1, RANDOM.randrange(256)]))
        else:
            data = data[:RANDOM.randrange(len(data) + 1)]
    return bytes(data)


def changed(sheet, at, value):
    return sheet[:at] + bytes([value]) + sheet[at + 1:]


def plan(stages, kind):
    way = RANDOM.random()
    if stages == 0 or way < 0.4:
        return [RANDOM.choice(R.CODES)]
    if way < 0.6:
        return [16] + plan(stages - 1, kind)
    if way < 0.8 and (kind == 1 or RANDOM.random() < 0.1):
        return [17] + plan(stages - 1, 0)
    return [18] + plan(stages - 1, kind) + plan(stages - 1, 0)


def fill(bytes_of_plan):
    return bytes((list(bytes_of_plan) + [0] * 15)[:15])


def case_code():
    code, n = RANDOM.choice(R.CODES), RANDOM.randint(0, 7)
    if code == R.FOURWISE and RANDOM.random() < 0.3:        # a second batch begins after 16
        n = RANDOM.randint(15, 18)
    body = R.write_code(code, xs := numbers(0, n))
    says("write (code %d) %s" % (code, listed(xs)), listed(body))
    body, n = damaged(body), max(0, n + RANDOM.choice([0, 0, 0, -1, 1]))
    says("read (code %d) %s %d" % (code, listed(body), n), answer(lambda: R.read_code(code, body, n), listed))
    if n:
        place = RANDOM.randrange(n)
        says("look (code %d) %s %d %d" % (code, listed(body), n, place), answer(lambda: R.lookup_code(code, body, n, place), str))


def in_full(tree_is, tree, body, n, places=None):
    """A body as it stands, read and looked up, at every place if none are named."""
    says("read %s %s %d" % (tree_is, listed(body), n), answer(lambda: R.read_plan(tree, body, n), listed))
    for place in range(n) if places is None else sorted(places):
        says("look %s %s %d %d" % (tree_is, listed(body), n, place), answer(lambda: R.lookup_plan(tree, body, n, place), str))


def direct(body, n, places=None):
    in_full("(code 8)", (R.DIRECT,), body, n, places)


def case_direct():
    """Code 8: the request's examples, and its rules broken one by one."""
    for xs in [1024, 12, 10], [0], [], [255, 256, LARGEST], list(range(8)), [LARGEST] * 2:
        says("write (code 8) %s" % listed(xs), listed(body := R.write_code(R.DIRECT, xs)))
        direct(body, len(xs))
    whole = bytes.fromhex("040000000E" "00040C0A")          # 1024, 12, 10
    for at, value in (0, 0), (0, 3), (0, 5), (3, 255), (4, 0x1E), (4, 0x8E), (4, 6), (4, 0x0F), (4, 0x0C), (4, 8), (6, 0):
        direct(changed(whole, at, value), 3)
    for body in whole[:-1], whole + b"\0", whole[:3], b"\xff\xff\xff\xff" + whole[4:], b"\xfc\xff\xff\xff" + whole[4:]:
        direct(body, 3)
    for n in 0, 2, 4:
        direct(whole, n)
    direct(bytes.fromhex("0500000010" "0102030405"), 1)     # five bytes; then a 6 after them
    direct(bytes.fromhex("0600000030" "010203040506"), 2)
    second = bytes.fromhex("040000000D" "01050003")         # 1, then 5 in two bytes, then 3: stages ask place by place
    three, parts = R.u32(3), R.u32(3) + R.u32(len(second))
    for stages, body, n in (([8], second, 3), ([16, 8], R.u32(10) + second, 3), ([17, 8], second, 3), ([17, 16, 8], R.u32(10) + second, 3),
                            ([18, 8, 1], parts + second + b"\1\2\1", 4), ([18, 1, 8], three + three + b"\7\x08\x09" + second, 9),
                            ([18, 8, 8], parts + second + R.write_code(R.DIRECT, [1, 2, 1]), 4), ([17, 18, 8, 1], parts + second + b"\1\1\1", 3)):
        in_full("(plan_of %s)" % listed(fill(stages)), R.parse_plan(fill(stages)), body, n)


def case_sums():
    """Code 8 with full stretches and bits after them, its sums true, false and falling."""
    for size, n in (4, 128), (4, 130), (2, 520):
        xs, of_stretch = [256 ** (size - 1) + i for i in range(n)], 512 // size
        says("write (code 8) %s" % listed(xs), listed(body := R.write_code(R.DIRECT, xs)))
        at, places = 4 + R.up(size * n, 8), {of_stretch - 1, min(of_stretch, n - 1), n - 1}
        for first_sum in of_stretch, of_stretch - 1, 2 * of_stretch + 1:
            direct(body[:at] + first_sum.to_bytes(2, "little") + body[at + 2:], n, places)


def spoilt(tree, xs):
    """The body of a list by a plan of which any part, at any depth, may be cut or broken, or both."""
    if tree[0] in R.CODES:
        body = R.write_code(tree[0], xs)
        body = damaged(body) if RANDOM.random() < 0.4 else body
    elif tree[0] == R.REFERENCE:
        least = min(xs, default=0)
        body = R.u32(RANDOM.choice([least, least, 0, LARGEST])) + spoilt(tree[1], [x - least for x in xs])
    elif tree[0] == R.DIFFERENCES:
        steps = [x - before for before, x in zip([0] + xs, xs)]
        body = spoilt(tree[1], [RANDOM.choice([x, x, x, LARGEST]) for x in steps])
    else:
        runs = [(x, xs.count(x)) for x in dict.fromkeys(xs)]
        values, lengths = [x for x, _ in runs], [RANDOM.choice([length] * 6 + [0, length + 1]) for _, length in runs]
        values_body, told = spoilt(tree[1], values), RANDOM.choice([len(runs)] * 8 + [0, len(xs) + 1])
        size = max(0, len(values_body) + RANDOM.choice([0] * 10 + [-1, 1]))
        body = R.u32(told) + R.u32(size) + values_body + spoilt(tree[2], lengths)
    return body[:RANDOM.randrange(len(body) + 1)] if RANDOM.random() < 0.2 else body


def spoilt_column():
    """A kind, a plan, its tree, a count and a body."""
    stages = [x or RANDOM.choice(R.CODES) for x in RANDOM.choice(SHAPES)]
    kind, n = int(17 in stages or RANDOM.random() < 0.3), RANDOM.randint(0, 5)
    xs = sorted(RANDOM.choice([0, 1, 5, 5, 300, number()]) for _ in range(n))
    tree = R.parse_plan(fill(stages))
    return kind, fill(stages), tree, n, spoilt(tree, xs)


def case_spoilt():
    """Which sort of fault: bodies cut and broken at once, read and looked up at every place; or sheets of them, their table true."""
    if RANDOM.random() < 0.7:
        _, bytes_of_plan, tree, n, body = spoilt_column()
        in_full("(plan_of %s)" % listed(bytes_of_plan), tree, body, n)
        return
    columns = [spoilt_column() for _ in range(RANDOM.randint(1, 2))]
    table = b"".join(bytes([kind]) + p + R.u32(n) + R.u32(len(body)) for kind, p, _, n, body in columns)
    sheet = bytes([RANDOM.choice(R.EDITIONS), len(columns)]) + table + b"".join(column[4] for column in columns)
    asked(sheet, 40, RANDOM.randrange(len(columns)), RANDOM.randint(0, 4), RANDOM.randint(0, 4), room=5)
    programs(sheet)


def case_sorts():
    """The examples of both sorts, and bodies by each code cut at every byte."""
    for stages, text_of_body, n, _, _ in SORTS:
        in_full("(plan_of %s)" % listed(fill(stages)), R.parse_plan(fill(stages)), bytes.fromhex(text_of_body), n)
    for code in R.CODES:
        whole = R.write_code(code, [300, 0, LARGEST] if code != R.GAMMA else [300, 0, 65535])
        for end in range(len(whole) + 1):
            in_full("(code %d)" % code, (code,), whole[:end], 3, {0, 2})
        in_full("(code %d)" % code, (code,), whole + b"\0", 3, {2})


def case_bits():
    """Rank and select over a slice, at bits that are there, at the end and after it."""
    data = bytes(RANDOM.choice([0, 255, 1 << RANDOM.randrange(8), RANDOM.randrange(256)]) for _ in range(RANDOM.randint(0, 9)))
    bits, ones = 8 * len(data), R.rank(data, 8 * len(data))
    for bit in sorted({0, RANDOM.randint(0, bits), bits, bits + 1, 2 ** 32}):
        says("rank %s %d" % (listed(data), bit), answer(lambda: R.rank(data, bit), str))
    for k in sorted({0, RANDOM.randint(0, ones), max(1, ones) - 1, ones, 2 ** 32}):
        says("select %s %d" % (listed(data), k), answer(lambda: R.select(data, k), str))


def case_judge():
    kind = RANDOM.randint(0, 1)
    bytes_of_plan = fill(plan(3, kind))
    if RANDOM.random() < 0.3:
        bytes_of_plan = damaged(bytes_of_plan)
    kind = 2 if RANDOM.random() < 0.1 else kind
    n = RANDOM.choice([0, 1, 5, 1024, 1025])
    says("number (judge %d %s)" % (kind, listed(bytes_of_plan)), str(R.judge(kind, bytes_of_plan)))
    says("worst_size %s %d" % (listed(bytes_of_plan), n), answer(lambda: R.worst(bytes_of_plan, n), str))


def case_plan():
    kind = RANDOM.randint(0, 1)
    bytes_of_plan = fill(plan(2, kind))
    if R.judge(kind, bytes_of_plan):
        return
    tree, n = R.parse_plan(bytes_of_plan), RANDOM.randint(0, 5)
    body, tree_is = R.write_plan(tree, xs := numbers(kind, n)), "(plan_of %s)" % listed(bytes_of_plan)
    says("write %s %s" % (tree_is, listed(xs)), listed(body))
    body = damaged(body)
    says("read %s %s %d" % (tree_is, listed(body), n), answer(lambda: R.read_plan(tree, body, n), listed))
    if n:
        place = RANDOM.randrange(n)
        says("look %s %s %d %d" % (tree_is, listed(body), n, place), answer(lambda: R.lookup_plan(tree, body, n, place), str))


def orders(edition):
    made, joined = [], []
    for column in range(RANDOM.randint(0, 3)):
        kind = 1 if column == 0 and RANDOM.random() < 0.5 else RANDOM.randint(0, 1)
        n = 2 if column < 2 and RANDOM.random() < 0.5 else RANDOM.randint(0, 3)
        bytes_of_plan, xs = bytes(15) if RANDOM.random() < 0.3 else fill(plan(2, kind)), numbers(kind, n, edition)
        if column == 1 and RANDOM.random() < 0.7:
            kind, bytes_of_plan = 0, fill([RANDOM.choice(R.CODES)])
            xs = [RANDOM.choice([0, 1, 123, 124, 125, 255, 256, 257]) for _ in xs]
        if RANDOM.random() < 0.05:
            bytes_of_plan = fill(damaged(bytes_of_plan))
        made.append((RANDOM.randint(0, 2) if RANDOM.random() < 0.05 else kind, bytes_of_plan, len(xs)))
        joined += xs
    return made, joined[:-1] if RANDOM.random() < 0.05 else joined


def written(edition, made, joined, work, room):
    kinds, plans, counts = [k for k, _, _ in made], b"".join(p for _, p, _ in made), [c for _, _, c in made]
    says("write_apart %d %s %s %s %s %d %d" % (edition, listed(kinds), listed(plans), listed(counts), listed(joined), work, room),
         answer(lambda: R.write(edition, made, joined, work, room), listed))


def case_write():
    edition = RANDOM.choice(R.EDITIONS)
    made, joined = orders(edition)
    work, room = RANDOM.choice([0, 14, 21, 100]), RANDOM.choice([0, 50, 1000])
    written(RANDOM.choice(OTHER_EDITIONS) if RANDOM.random() < 0.05 else edition, made, joined, work, room)


def drawn_sheet():
    edition = RANDOM.choice(R.EDITIONS)
    try:
        sheet = R.write(edition, *orders(edition), 100, 1000)
    except R.Refused:
        sheet = bytes([edition, 0])
    if RANDOM.random() < 0.15:
        sheet = changed(sheet, 0, RANDOM.choice(R.EDITIONS + R.EDITIONS + OTHER_EDITIONS))
    return damaged(sheet) if RANDOM.random() < 0.6 else sheet


def asked(sheet, work, column, place, call, room=2):
    shown = listed(sheet)
    says("check %s %d" % (shown, work), verdict(lambda: R.check(sheet, work), lambda _: "passed"))
    says("read_sheet %s %d %d %d" % (shown, column, work, room), answer(lambda: R.read(sheet, column, work, room), listed))
    says("look_sheet %s %d %d" % (shown, column, place), answer(lambda: R.lookup(sheet, column, place), str))
    says("fetch %s %d" % (shown, column), answer(lambda: R.fetch(sheet, column), lambda t: listed(sheet[t[0]:t[0] + t[1]])))
    kind, value = R.calls(sheet, column, call + 1)[call]
    says("call %s %d %d" % (shown, column, call), "%s %d" % ("given" if kind == "number" else kind, value))
    tally = "record { passed = %d; failed = %d; killed = %d; unended = %d }"
    told = verdict(lambda: R.board(sheet, work), lambda t: "passed, " + tally % t)
    says("count_board %s %d" % (shown, work), "(%s)" % (told if told.startswith("passed") else told + ", " + tally % (0, 0, 0, 0)))


def case_sheet():
    work, column, place, call = RANDOM.choice([0, 14, 16, 24, 100, 100, 100]), RANDOM.randint(0, 2), RANDOM.randint(0, 3), RANDOM.randint(0, 3)
    asked(drawn_sheet(), work, column, place, call)


def programs(given):
    says("listing_text %s" % listed(given), listed(R.listing(given)))
    says("board_text %s" % listed(given), listed(R.board_text(given)))


def case_editions():
    """Lists of kind 1 that rise, have equal neighbours or fall, in every edition; another edition is 11 before any plan, and 1 on a sheet."""
    lists = [5, 6, 133], [5, 5, 133], [5, 133, 133], [5, 6, 5], [LARGEST, LARGEST], [LARGEST - 1, LARGEST], [LARGEST], []
    for edition in R.EDITIONS + OTHER_EDITIONS:
        for bytes_of_plan in fill([17, 1]), fill([1]), bytes(15):
            for xs in lists:
                written(edition, [(1, bytes_of_plan, len(xs))], xs, 21, 100)
        written(edition, [], [], 0, 2)
        written(edition, [(0, fill([4]), 3)], [7, 7, 6], 21, 100)
        written(edition, [(1, fill([17, 1]), 1), (1, fill([1]), 2)], [9, 3, 3], 14, 100)
        written(edition, [(0, fill([9]), 0), (1, fill([1]), 2)], [3, 3], 14, 100)
        written(edition, [(0, fill([17, 1]), 0), (1, fill([1]), 2)], [3, 3], 14, 100)
        written(edition, [(1, fill([1]), 2)], [3, 3], 0, 0)
        for xs in lists if edition in R.EDITIONS else lists[:2]:
            sheet = R.write(1, 2 * [(0, fill([1]), len(xs))], xs + [0] * len(xs), 21, 100)
            asked(changed(changed(sheet, 0, edition), 2, 1), 24, 0, 1, 1, room=3)


def case_programs():
    """The document's listing, its refusals, the board's rules, columns and places of two digits; then sheets as drawn."""
    def sheet(*columns):
        return R.write(1, [(kind, fill(p), len(xs)) for kind, p, xs in columns], [x for _, _, xs in columns for x in xs], 7 * 1024, 65536)

    example, strict, jobs = sheet((1, [17, 1], [5, 5, 133])), sheet((1, [17, 1], [5, 6, 134])), (1, [17, 1], [3, 4, 9, 10])
    board = sheet(jobs, (0, [1], [0, 1, 255, 256]))
    whole = [b"\1", b"\1\0", b"\1\x11", example, strict, example[:20], example + b"\0", board]
    # kind 2; an unknown number in a plan, one after its end; differences of kind 0; a last byte of 0; the same in column 1
    whole += [changed(strict, at, value) for at, value in ((2, 2), (4, 9), (6, 1), (2, 0), (29, 0))]
    whole += [changed(board, at, value) for at, value in ((26, 2), (27, 9), (len(board) - 1, 0))] + [changed(sheet(jobs, jobs), 26, 0)]
    whole += [sheet(jobs, (kind, [1], endings)) for kind, endings in ((1, [0, 0, 0, 256]), (0, [123, 124, 125, 124]), (0, [0, 1, 255, 257]), (0, [0, 1, 255]))]
    whole += [sheet((kind, [1], xs), (0, [1], [0] * len(xs))) for kind, xs in ((1, []), (0, [3, 4]), (1, [3, 4, 4]))]
    whole.append(changed(sheet((0, [1], [4, 3]), (0, [1], [0, 0])), 2, 1))
    # all of these in both editions: 5, 5, 133 and the other equal neighbours of kind 1 are a fault in edition 2
    whole = [changed(given, 0, edition) for given in whole for edition in R.EDITIONS]
    whole += [b""] + [changed(given, 0, edition) for given in (b"\1\0", example, board) for edition in OTHER_EDITIONS]
    whole += [sheet(*[(0, [18, 16, R.CODES[i % 8], 5], [LARGEST, i]) for i in range(12)]), sheet((0, [2], list(range(95, 107))))]
    whole.append(sheet((1, [17, 18, 1, 1], list(range(1, 1025))), (0, [18, 1, 1], 1024 * [256])))
    for given in whole + [drawn_sheet() for _ in range(CASES // 20)]:
        programs(given)
    for program in "listing", "board":          # what `rt ci` holds the programs to
        given, printed = [open(os.path.join(ROOT, "crates", program, name), "rb").read() for name in ("stdin", "stdout")]
        says("%s_text %s" % (program, listed(given)), listed(printed))


def text():
    names = {}
    for path in sorted(glob.glob(os.path.join(ROOT, "crates/meaning/specs/*.antt"))):
        given = open(path).read()
        found = re.findall(r"^\s*unfoldable pub (\S+) :", given, re.M)
        for together in re.findall(r"^unfoldable mutual\n((?:\n|  .*\n)*)", given, re.M):     # definitions that call each other
            found += re.findall(r"^ +pub (\S+) :", together, re.M)
        if found:
            names[os.path.basename(path)[:-5]] = found
    lines = ["use Rattle.std.specs.Prelude.{ℕ, List, [], ◌∷◌, ◌≡◌, refl}",
             "use Rattle.meaning.specs.Answer.{given, refused, passed, blamed, number}", "use Rattle.meaning.specs.Plan.{code}"]
    lines += ["use Rattle.meaning.specs.%s.{%s}" % (module, ", ".join(found)) for module, found in names.items()]
    lines += ["", "unfoldable meaning : ℕ", "unfolding " + " ".join(n for found in names.values() for n in found), "meaning = 0", ""]
    for i, (left, right) in enumerate(equations):
        lines += ["case-%d : %s ≡ %s" % (i, left, right), "unfolding meaning", "case-%d = refl" % i, ""]
    return "\n".join(lines)


def main():
    for i in range(CASES):
        [case_code, case_judge, case_plan, case_write, case_sheet][i % 5]()
    for _ in range(CASES // 20):
        case_bits()
    for _ in range(CASES // 4):
        case_spoilt()
    case_sorts()
    case_direct()
    case_sums()
    case_editions()
    case_programs()
    with tempfile.TemporaryDirectory(prefix="meaning-cases-") as place:
        for folder in "cases/src", "cases/specs":
            os.makedirs(os.path.join(place, "crates", folder))
        for part in "src", "specs", "proofs":
            shutil.copytree(os.path.join(ROOT, "crates/meaning", part), os.path.join(place, "crates/meaning", part))
        for path, content in [("crates.txt", "meaning:\ncases: meaning\n"), ("crates/cases/src/lib.rt", "// Equations alone.\n#![tactic(auto)]\n"),
                              ("crates/cases/specs/Lib.antt", "pub mod Cases\n"), ("crates/cases/specs/Cases.antt", text())]:
            with open(os.path.join(place, path), "w", encoding="utf-8") as f:
                f.write(content)
        run = subprocess.run(["rt", "check"], cwd=os.path.join(place, "crates/cases"), capture_output=True, text=True)
    said = run.stdout + run.stderr
    differ = sorted(set(int(n) for n in re.findall(r"`case-(\d+)`", said)))
    for n in differ[:10]:
        print("differs: %s ≡ %s" % equations[n])
    if run.returncode and not differ:
        print(said[-2000:])
    print("%d equations of the meaning, %d differ" % (len(equations), len(differ)))
    sys.exit(1 if run.returncode or differ else 0)


main()
