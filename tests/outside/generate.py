"""Random operations for compare.py: plans, orders and sheets of both editions, good ones, broken ones and damaged
ones, with lengths around their exact boundaries.  The reading (../reading.py) writes the good bodies, judges nothing."""

from collections import namedtuple
from itertools import accumulate

import reading as r
from examples import LISTED, SORTS
from damage import damaged_body, damaged_table, loosely, of_both_sorts, other_edition
from draw import (MAX, OTHER_EDITIONS, bad_plan, chance, count, doubled, filled, near, numbers, rnd, shaped, stretched, text,
                  tree, words)

# inputs: four `bytes`; a, b: kind, n, edition, column, place, bit, k; work counts numbers, out bytes; fill: what is there before.
Operation = namedtuple("Operation", "what inputs a b work out fill")
HUGE = (2**31, 2**32, 2**63, 2**64 - 1, 2**64 // 24 + 1, 2**62 + 1)
DIRECT = [r.parse_plan(filled(bytes(plan))) for plan in 8 * ((8,),) + 4 * ((17, 8),) + (
    (16, 8), (17, 16, 8), (18, 8, 1), (18, 8, 1), (18, 1, 8), (18, 1, 8), (18, 8, 8), (18, 16, 8, 1), (18, 17, 8, 1),
    (17, 18, 8, 1), (17, 18, 1, 8), (16, 18, 8, 8), (18, 18, 8, 8, 8), (18, 8, 18, 8, 8))]


def operation(what, inputs, a=0, b=0, work=0, out=0):
    return Operation(what, (tuple(inputs) + 4 * (b"",))[:4], a, b, work, out, rnd.randint(1, 255))

# ------------------------------------------------------------ sheets


def assemble(edition, columns):
    """A sheet as it stands: columns (kind, plan15, count, body)."""
    table = b"".join(bytes([kind]) + plan + r.u32(n) + r.u32(len(body)) for kind, plan, n, body in columns)
    return bytes([edition, len(columns)]) + table + b"".join(column[3] for column in columns)


def board_lists(edition):
    """Columns of a board that mostly keeps its rules."""
    n = count()
    kinds = [0 if chance(8) else 1, rnd.randrange(2)] + rnd.choice((0, 0, 1)) * [rnd.randrange(2)]
    jobs = sorted(rnd.sample(range(rnd.choice((100, 2**31))), n))
    if chance(8):
        jobs = doubled(jobs)
    endings = [rnd.choice((0, 0, 0, 1, 123, 124, 124, 125, 255, 256)) for _ in range(max(0, n - rnd.choice((1, -1)) * chance(8)))]
    if kinds[1] and edition == 2 and chance(90):            # each ending once
        endings = rnd.sample(range(257), len(endings))
    if endings and chance(8):
        endings[rnd.randrange(len(endings))] = rnd.choice((257, 512, MAX))
    contents = [jobs, sorted(endings) if kinds[1] else endings]
    contents += [numbers(kind, count(), edition) for kind in kinds[2:]]
    return [(kind, tree(kind), some) for kind, some in zip(kinds, contents)]


def lists(edition):
    """The columns of a sheet: (kind, tree, list).  Few, short and any, a board, or at the limits."""
    def column(kind, n, depth=4):
        return kind, tree(kind, depth), numbers(kind, n, edition)

    size = rnd.random()
    if size < 0.012:                                        # about 65,536 bytes
        more = 65536 - 2 - r.entry_size(edition) * 15 - 15360 + rnd.choice((0, 0, 1, 1, 24, -1))
        joined = more // 4 * [MAX] + more % 4 * [128]
        joined += (15360 - len(joined)) * [0]
        rnd.shuffle(joined)
        return [(0, (1,), joined[1024 * i:1024 * i + 1024]) for i in range(15)]
    if size < 0.014:
        return [column(rnd.randrange(2), 1024, 2) for _ in range(16)]
    if size < 0.03:
        return [column(rnd.randrange(2), rnd.randrange(12)) for _ in range(rnd.choice((15, 16, 16)))]
    if size < 0.06:
        return [column(rnd.randrange(2), rnd.choice((1024, 1023, 1021, rnd.randrange(500, 1024))))]
    if size < 0.12:
        return board_lists(edition)
    return [column(rnd.randrange(2), count()) for _ in range(rnd.choice((0, 1, 1, 1, 1, 1, 2, 2, 2, 3, 4)))]


def sheet():
    edition, way = rnd.choice(r.EDITIONS), rnd.randrange(100)
    columns = lists(edition)
    bodies = [r.write_plan(t, some) for _, t, some in columns]
    if columns and way < 45:
        for at in rnd.sample(range(len(columns)), min(len(columns), rnd.choice((1, 1, 1, 2)))):
            bodies[at] = damaged_body(*columns[at][1:], bodies[at])
    made = assemble(edition, [(kind, filled(text(t)), len(some), body)
                              for (kind, t, some), body in zip(columns, bodies)])
    counts = [len(some) for _, _, some in columns]
    if way >= 75:
        for _ in range(rnd.choice((1, 1, 2))):
            made = damaged_table(made) if len(made) > 1 else made
    if chance(10):
        made = other_edition(made)
    return made, counts, way >= 75

# ------------------------------------------------------------ operations


def column_of(counts):
    if counts and chance(90):
        return rnd.randrange(len(counts))
    return rnd.choice((len(counts), len(counts) + 1, 16, 256, 2**32 + rnd.randrange(3)) + HUGE)


def place_of(n):
    if n and chance(85):
        return rnd.choice((rnd.randrange(n), rnd.randrange(n), n - 1))
    return rnd.choice((n, n + 1, 1024, 2**32 + rnd.randrange(3)) + HUGE)


def on_a_board():
    edition = rnd.choice(r.EDITIONS)
    columns = board_lists(edition)[:1 if chance(3) else 3]
    made = assemble(edition, [(kind, filled(text(t)), len(some), r.write_plan(t, some)) for kind, t, some in columns])
    if chance(20):
        made = rnd.choice((other_edition, damaged_table))(made)
    yield operation("board", [made], work=near(8 * max(len(some) for _, _, some in columns)))


def on_a_sheet():
    made, counts, table_damaged = sheet()
    largest = max(counts, default=0)
    often = 1 <= len(counts) <= 4 and sum(counts) <= 200 and not table_damaged
    yield operation("check", [made], work=near(8 * largest))
    if chance(15) or (len(counts) > 1 and counts[0] == counts[1]):
        yield operation("board", [made], work=near(8 * largest))
    for _ in range(5 if often else 1):
        column = column_of(counts)
        n = counts[column] if column < len(counts) else 3
        yield operation("read", [made], column, work=near(7 * n), out=4 * near(n))
        for _ in range(3 if often else 2):
            yield operation("lookup", [made], column, place_of(n))
    yield operation("fetch", [made], column_of(counts))


def on_a_body():
    """One column of a small plan with a rule broken, and all the room it needs."""
    kind, edition = rnd.randrange(2), rnd.choice(r.EDITIONS)
    t = tree(kind, rnd.choice((1, 2, 3, 3, 3)))
    some = numbers(kind, rnd.choice((0, 1, 5, rnd.randint(1, 24), rnd.randint(1, 24))), edition)
    if t[0] == r.G8IU and chance(50):
        some = [x % 2**rnd.choice((8, 8, 16)) for x in some]
        kind = 0
    if t[0] == r.FOURWISE and chance(50):                   # more than one batch
        some = numbers(kind, rnd.randint(16, 50), edition)
    made = assemble(edition, [(kind, filled(text(t)), len(some), loosely(t, some))])
    yield operation("check", [made], work=8 * len(some))
    yield operation("read", [made], 0, work=7 * len(some), out=4 * len(some))
    yield operation("lookup", [made], 0, max(0, len(some) - 1))
    yield operation("lookup", [made], 0, rnd.randint(0, len(some)))


def column_to_fault():
    """A column of few numbers, often with equal ones: (kind, tree, list)."""
    t = shaped()
    kind = int(r.DIFFERENCES in text(t) or chance(30))
    some = numbers(kind, rnd.choice((0, 1, 1, 2, 3, 4, 5, 6, 9, 17)), 1)
    if chance(50):
        some = [rnd.choice((0, 1, 5, 300, x)) for x in some for _ in range(rnd.choice((1, 2, 3)))][:17]
        if kind:
            some.sort()
    return kind, t, some


def on_cuts():
    """A small body, whole or faulty, cut at each of its bytes (a longer one at some), the table told so: each part read and looked
    up.  It ends where the slice does, or another column's body stands after it."""
    (kind, t, some), edition = column_to_fault(), rnd.choice(r.EDITIONS)
    n, way = len(some), rnd.randrange(4)
    body = r.write_plan(t, some) if way == 0 else loosely(t, some) if way == 1 else of_both_sorts(t, some)
    ends = range(len(body) + 1) if len(body) <= 24 else sorted(rnd.sample(range(len(body) + 1), 24))
    after = [] if chance(70) else [(0, filled(b"\1"), n, n * b"\1")]
    for end in ends:
        made = assemble(edition, [(kind, filled(text(t)), n, body[:end])] + after)
        yield operation("read", [made], 0, work=7 * n, out=4 * n)
        if n:
            yield operation("lookup", [made], 0, rnd.choice((0, n - 1, rnd.randrange(n))))
        if chance(20):
            yield operation(rnd.choice(("check", "board")), [made], work=8 * n)


def on_both_sorts():
    """Faults of both sorts in one body, and in two columns: which is the first?  Looked up at every place."""
    edition, columns = rnd.choice(r.EDITIONS), [column_to_fault() for _ in range(rnd.choice((1, 1, 1, 2, 3)))]
    made = assemble(edition, [(kind, filled(text(t)), len(some), of_both_sorts(t, some)) for kind, t, some in columns])
    largest = max(len(some) for _, _, some in columns)
    yield operation("check", [made], work=8 * largest)
    if chance(50):
        yield operation("board", [made], work=8 * largest)
    for at, (_, _, some) in enumerate(columns):
        yield operation("read", [made], at, work=7 * len(some), out=4 * len(some))
        for place in range(len(some)) if len(some) <= 8 else sorted(rnd.sample(range(len(some)), 8)):
            yield operation("lookup", [made], at, place)


def sums_told(t, body):
    """What the sums of a body say, wherever code 8 stands in its plan, as far as the parts are there."""
    if t[0] == r.REFERENCE:
        return sums_told(t[1], body[4:])
    if t[0] == r.DIFFERENCES:
        return sums_told(t[1], body)
    if t[0] == r.RUNS:
        end = 8 + int.from_bytes(body[4:8], "little")
        return sums_told(t[1], body[8:end]) + sums_told(t[2], body[end:])
    many = int.from_bytes(body[:4], "little") if t[0] == r.DIRECT else 0
    at = 4 + r.up(many, 8)
    return [int.from_bytes(body[i:i + 2], "little") for i in range(at, min(at + 2 * (many // 512), len(body)), 2)]


def on_direct():
    """Code 8 alone and under stages, often with full stretches, as written or with a rule broken; the body ends where
    the slice does.  Places: the first, the last, some, and those about what the sums say."""
    t, edition, some = rnd.choice(DIRECT), rnd.choice(r.EDITIONS), stretched() if chance(50) else numbers(0, count())
    kind = int(r.DIFFERENCES in text(t))
    if t[0] == r.DIFFERENCES or kind and chance(50):        # the differences are as drawn, as far as they go
        some = [x for x in accumulate(some) if x <= MAX]
    elif kind:
        some.sort()
    n, body, way = len(some), r.write_plan(t, some), rnd.randrange(4)
    if way:
        body = loosely(t, some) if way < 3 else damaged_body(t, some, body)
    made = assemble(edition, [(kind, filled(text(t)), n, body)])
    yield operation("check", [made], work=8 * n)
    yield operation("read", [made], 0, work=near(7 * n), out=4 * near(n))
    if chance(30):
        yield operation("write", [bytes([kind]), filled(text(t)), words([n]), words(some)], edition, work=7 * n,
                        out=near(len(made)))
    places = [rnd.randrange(n) for _ in range(2)] + [0, n - 1, n] if n else [0]
    places += [place for told in sums_told(t, body)[:9] for place in (told - 1, told, told + 1) if 0 <= place < n]
    for place in dict.fromkeys(places):
        yield operation("lookup", [made], 0, place)


def on_bits():
    """A slice for rank and select: any bits, none or all ones; asked at its ends, after them, and far after."""
    length = rnd.choice((0, 1, 2, 3, 7, 8, 9, 15, 16, 17, rnd.randrange(100), rnd.randrange(700)))
    if chance(3):
        length = rnd.choice((65535, 65536, 65536, 65537, 65537, 65600, 200000))
    some = rnd.choice((rnd.randbytes(length), rnd.randbytes(length), bytes(length), length * b"\xff"))
    if length and chance(30):                               # a few ones, or a few zeros
        some = bytearray(length * rnd.choice((b"\0", b"\xff")))
        for _ in range(rnd.randint(1, 9)):
            some[rnd.choice((rnd.randrange(length), length - 1))] ^= 1 << rnd.randrange(8)
    bits, ones = 8 * length, bin(int.from_bytes(some, "little")).count("1")
    for what, most in ("rank", bits), ("select", max(0, ones - 1)):
        for index in rnd.randint(0, most), rnd.choice((most, most, 0, most - most % 64)), rnd.choice((most + 1, most + 1, *HUGE)):
            yield operation(what, [bytes(some)], index)


def on_editions():
    """A list of kind 1 that rises, has equal neighbours or falls: written, and read as it stands, in each edition."""
    some, way = numbers(1, count(), 2), rnd.randrange(3)
    if way == 0:
        some = doubled(some)
    elif way == 1:
        some = some[1:] + some[:1]
    t, n = tree(0 if way == 1 else 1), len(some)            # of a list that falls there are no differences
    column = 1, filled(text(t)), n, r.write_plan(t, some)
    for edition in r.EDITIONS + (rnd.choice(OTHER_EDITIONS),):
        made = assemble(edition, [column])
        yield operation("write", [b"\1", column[1], words([n]), words(some)], edition, work=7 * n, out=len(made))
        yield operation("check", [made], work=8 * n)
        yield operation("read", [made], 0, work=7 * n, out=4 * n)
        yield operation("lookup", [made], 0, place_of(n))
        yield operation("board", [assemble(edition, [column, (0, filled(b"\1"), n, bytes(n))])], work=8 * n)


def broken(orders):
    """One thing about the orders made wrong."""
    at, way = rnd.randrange(len(orders)), rnd.randrange(7)
    kind, plan, n, some = orders[at]
    if way == 0:
        kind = rnd.choice((2, 255))
    elif way == 1:
        n = rnd.choice((n + 1, max(0, n - 1), 1025, MAX, n + 2**31)) % 2**32
    elif way <= 3:
        plan = bad_plan()
    elif way <= 5:
        kind = 1 if plan == bytes(15) or r.judge(1, plan) == 0 else kind
        some = rnd.choice((some[::-1], some[-1:] + some[:-1], some[1:] + some[:1], doubled(sorted(some))))
    elif chance(10):
        n, some = 1025, 1025 * [7]
    orders[at] = kind, plan, n, some


def writing():
    """Orders, good and broken, with outputs around the size of the sheet that the good ones make."""
    edition, size = rnd.choice(r.EDITIONS), 2
    orders = [(kind, bytes(15) if chance(15) else filled(text(t)), len(some), some) for kind, t, some in lists(edition)]
    for kind, plan, _, some in orders:
        used = r.parse_plan(plan if any(plan) else r.DEFAULT[kind])
        size = min(65536, size + r.entry_size(edition) + len(r.write_plan(used, some)))
    for _ in range(4 if size < 4000 else 2):
        some = list(orders)
        if chance(2):
            some += (17 - len(some)) * [(0, bytes(15), 0, [])]
        for _ in range(rnd.choice((0, 0, 0, 1, 1, 2)) if size < 60000 else 0):
            if some:
                broken(some)
        kinds, plans = bytes(order[0] for order in some), b"".join(order[1] for order in some)
        counts, joined = [order[2] for order in some], [x for order in some for x in order[3]]
        if chance(3):
            kinds = rnd.choice((kinds[:-1], kinds + b"\0"))
        if chance(3):
            plans = rnd.choice((plans[:-1], plans + b"\0", plans[:-15], plans + bytes(15)))
        if chance(3):
            counts = rnd.choice((counts[:-1], counts + [0]))
        if chance(3):
            joined = rnd.choice((joined[:-1], joined + [0]))
        largest = max((len(order[3]) for order in orders), default=0)
        asked = rnd.choice(OTHER_EDITIONS) if chance(3) else 3 - edition if chance(15) else edition
        yield operation("write", [kinds, plans, words(counts), words(joined)], asked, work=near(7 * largest),
                        out=near(size) if size < 60000 or chance(50) else 70000)


def judging():
    for _ in range(4):
        kind = rnd.randrange(2)
        plan = filled(text(tree(kind))) if chance(30) else bad_plan()
        if chance(5):
            plan = rnd.choice((plan[:-1], plan + b"\0", b"", plan[:1]))
        yield operation("judge", [plan], rnd.choice((kind, 1, 0, 1 - kind, 0, 1, rnd.randint(2, 255))))
        n = rnd.choice((0, 1, 5, 1023, 1024, 1025, rnd.randrange(1200), rnd.choice(HUGE)))
        yield operation("worst", [plan], n)


SCENES = (4 * (on_a_sheet,) + 6 * (on_a_body,) + 6 * (on_a_board,) + 2 * (writing, judging) + (on_editions,)
          + 5 * (on_direct,) + 2 * (on_bits,) + (on_cuts,) + 7 * (on_both_sorts,))


def corners():
    """The examples of which sort a body fault is, and each of them cut at each byte, in both editions, in turn before the slice's
    end and before another body; and a small sheet cut at each byte, its table as it was."""
    rnd.seed("corners")
    made = [operation("check", [bytes([edition]) + LISTED[1:end]], work=24) for edition in r.EDITIONS for end in range(1, len(LISTED) + 1)]
    for at, (plan, shown, n, _, _) in enumerate(SORTS):
        body, kind = bytes.fromhex(shown), int(r.DIFFERENCES in plan)
        for end in range(len(body) + 1):
            for edition in r.EDITIONS if end == len(body) else (1 + (at + end) % 2,):
                after = [(0, filled(b"\1"), n, n * b"\1")] if (at + end + edition) % 4 == 0 else []
                one = assemble(edition, [(kind, filled(bytes(plan)), n, body[:end])] + after)
                made.append(operation("check", [one], work=8 * n))
                made.append(operation("read", [one], 0, work=7 * n, out=4 * n))
                made += [operation("lookup", [one], 0, place) for place in (range(n) if end == len(body) else sorted({0, n - 1} - {-1}))]
    return made


def operations(seed, many):
    """So many operations, the same for the same seed."""
    rnd.seed(seed)
    made = []
    while len(made) < many:
        made += rnd.choice(SCENES)()
    return made[:many]
