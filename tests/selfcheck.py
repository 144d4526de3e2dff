"""Random self-consistency of the reading: what is written is read back, what is read is written
back byte for byte, lookups agree with reading, sizes keep to the worst size, also on damage, all of
it in both editions; the laws of rank and select; and which sort a body fault is (request P5): the
parts of any body, cut at each byte in turn, are 9 up to where it is decided, and never again after.

    python3 selfcheck.py [rounds] [seed]

Exit status 1 on any difference, and when enough rounds did not meet each case of MUST_MEET."""

import random
import sys
import time
from itertools import accumulate, product
sys.dont_write_bytecode = True
import reading as r

ROUNDS = int(sys.argv[1]) if len(sys.argv) > 1 else 20000
SEED = int(sys.argv[2]) if len(sys.argv) > 2 else 1
rnd = random.Random(SEED)
MAX = 2**32 - 1
WIDE_WORK = 8192
OTHER_EDITIONS = (0, 3, 4, 128, 255)
ENOUGH = 5000               # rounds that are sure to meet what must be met
MUST_MEET = {"%s in edition %d" % case for case in product(
    ("written", "refused 10: it falls", "sheet passed", "board", "board refused 12",
     "damaged sheet passed", "damaged sheet refused 1", "damaged sheet refused 2",
     "damaged sheet refused 3", "damaged sheet refused 4", "damaged sheet refused 9",
     "damaged sheet refused 13", "a fall alone is 13"), r.EDITIONS)}
MUST_MEET |= {"equal neighbours written in edition 1", "refused 10: equal neighbours in edition 2",
              "edition 1 as 2: refused 13", "edition 1 as 2: passed", "edition 2 as 1: passed",
              "written in another edition: 11", "damaged sheet refused 1 in another edition"}
DIRECT_WAYS = ("false sum", "falling sums", "bit turned", "end moved", "spare bit", "longer", "five bytes",
               "another length told", "cut", "left over")
MUST_MEET |= {"direct bodies with " + way for way in DIRECT_WAYS}
MUST_MEET |= {"direct lists of full stretches", "direct lists with bits after a sum",
              "direct lookups sent to another number", "direct lookups refused", "direct lookups unchanged",
              "direct places at fault alone under 16", "direct places at fault alone under 18"}
CUT, BROKEN = SORTS = ("refused", 9), ("refused", 13)
STAGES = (r.REFERENCE, r.DIFFERENCES, r.RUNS)
MUST_MEET |= {"%s first, %s: %d" % case for case in product(r.CODES + STAGES, ("read", "looked up"), (9, 13))}
MUST_MEET |= {"%d first, 9 until it is %s" % case for case in product(r.CODES + STAGES, ("read", "13"))}
MUST_MEET |= {"%d first, looked up 9 until it is %s" % case for case in product(r.CODES + STAGES, ("a number", "13"))}
MUST_MEET |= {"unit broken: %d %s" % case for case in (
    (1, "last byte 0"), (1, "fifth byte"), (2, "longer"), (2, "unused field"), (3, "waste"), (3, "no number"), (3, "longer"),
    (4, "longer"), (4, "unused field"), (5, "zeros"), (5, "too large"), (6, "zeros"), (6, "length"), (6, "too large"),
    (7, "longer"), (7, "unused field"))}
MUST_MEET |= {"values %s, lengths %s under %d" % case for case in product((0, 9, 13), (0, 9, 13), STAGES)}
differ = 0
seen = {}


def count(what):
    seen[what] = seen.get(what, 0) + 1


def same(what, got, expected, *about):
    global differ
    if got != expected:
        differ += 1
        if differ <= 20:
            print("%s: got %r expected %r; %r" % (what, got, expected, about))


def of(f, *args):
    try:
        return f(*args)
    except r.Refused as e:
        return ("refused", e.number)


# ------------------------------------------------------------ random lists and plans

def random_count():
    return rnd.choice((0, 1, 2, 3, 4, 5, 8, 9, rnd.randrange(20), rnd.randrange(20),
                       rnd.randrange(20), rnd.randrange(60), rnd.choice((15, 16, 17, 33))))


def random_number():
    """A number of mixed length, often at an edge of one."""
    top = 2**rnd.choice((1, 3, 7, 8, 14, 16, 21, 24, 28, 31, 32))
    return rnd.choice((rnd.randrange(top), rnd.randrange(top), max(0, top - 1 - rnd.randrange(3)),
                       min(MAX, top + rnd.randrange(3))))


def apart(numbers):
    """As many numbers, each above the one before: moved up where they are not, then down where
    they would pass 2^32 - 1."""
    raised = list(accumulate(numbers, lambda before, x: max(before + 1, x)))
    return [min(x, MAX + 1 - left) for x, left in zip(raised, range(len(raised), 0, -1))]


def random_list(kind, n, edition=1):
    """A list of the kind in the edition."""
    shape = rnd.choice(("small", "mixed", "32-bit", "runs", "far", "ones"))
    if shape == "small":
        numbers = [rnd.randrange(200) for _ in range(n)]
    elif shape == "mixed":
        numbers = [random_number() for _ in range(n)]
    elif shape == "32-bit":
        numbers = [rnd.choice((rnd.randrange(2**32), MAX)) for _ in range(n)]
    elif shape == "runs":
        numbers = []
        while len(numbers) < n:
            numbers += rnd.randint(1, 9) * [random_number()]
        numbers = numbers[:n]
    elif shape == "far":
        base = rnd.choice((1000, 2**31, MAX - 500))
        numbers = [base + rnd.randrange(500) for _ in range(n)]
    else:
        numbers = n * [random_number()]
    if kind == 0:
        return numbers
    return apart(sorted(numbers)) if edition == 2 else sorted(numbers)


def random_tree(kind, depth=4):
    """A plan that passes for the kind."""
    stage = rnd.choice((0, 0, 16, 17, 18)) if depth > 1 else 0
    if stage == 16:
        return (16, random_tree(kind, depth - 1))
    if stage == 17 and kind == 1:
        return (17, random_tree(0, depth - 1))
    if stage == 18:
        return (18, random_tree(kind, depth - 1), random_tree(0, depth - 1))
    return (rnd.choice(r.CODES),)


def prefix(tree):
    return bytes([tree[0]]) + b"".join(prefix(inner) for inner in tree[1:])


def fill(tree):
    return prefix(tree) + bytes(15 - len(prefix(tree)))


def damage(data):
    data = bytearray(data)
    for _ in range(rnd.choice((1, 1, 1, 2, 3))):
        way = rnd.choice(("bit", "bit", "byte", "small", "cut", "append", "insert", "drop"))
        at = rnd.randrange(len(data)) if data else 0
        if way == "append":
            data += bytes(rnd.choice((0, 1, 255, rnd.randrange(256)))
                          for _ in range(rnd.choice((1, 1, 2, 9))))
        elif way == "insert":
            data.insert(at, rnd.choice((0, 1, 128, 255, rnd.randrange(256))))
        elif not data:
            continue
        elif way == "bit":
            data[at] ^= 1 << rnd.randrange(8)
        elif way == "byte":
            data[at] = rnd.randrange(256)
        elif way == "small":
            data[at] = rnd.choice((0, 1, 2, 3))
        elif way == "cut":
            del data[at:]
        else:
            del data[at]
    return bytes(data)


def loose(tree, numbers):
    """A body with the same numbers, written against rules that only reading asks: G8IU blocks
    with room, split runs, a reference below the least, spare bits, leftover bytes."""
    if tree[0] == r.G8IU:
        body, at = b"", 0
        while at < len(numbers):
            block = numbers[at:at + 8]
            while sum(r.fewest(x) for x in block) > 8:
                block.pop()
            if sum(r.fewest(x) for x in block[:-1]) >= 5 and rnd.random() < 0.5:
                block.pop()
            body += r.write_code(r.G8IU, block)
            at += len(block)
    elif tree[0] == r.DIRECT:
        body = loose_direct(numbers)
    elif tree[0] in r.CODES:
        body = r.write_code(tree[0], numbers)
        if tree[0] in (r.GAMMA, r.DELTA) and body and rnd.random() < 0.5:
            bits = r.gamma_bits if tree[0] == r.GAMMA else r.delta_bits
            spare = -sum(len(bits(x + 1)) for x in numbers) % 8
            body = body[:-1] + bytes([body[-1] + rnd.randrange(2**spare)])
    elif tree[0] == r.REFERENCE:
        least = min(numbers, default=rnd.randrange(9))
        least -= rnd.choice((0, 0, min(least, 1), rnd.randint(0, least)))
        return r.u32(least) + loose(tree[1], [x - least for x in numbers])
    elif tree[0] == r.DIFFERENCES:
        return loose(tree[1], [b - a for a, b in zip([0] + numbers, numbers)])
    else:
        values, lengths = [], []
        for x in numbers:
            if values and values[-1] == x and rnd.random() < 0.8:
                lengths[-1] += 1
            else:
                values.append(x)
                lengths.append(1)
        body = loose(tree[1], values)
        return r.u32(len(values)) + r.u32(len(body)) + body + loose(tree[2], lengths)
    return body + (bytes(rnd.randrange(3)) if rnd.random() < 0.1 else b"")


# ------------------------------------------------------------ directly addressed bodies

def parts_of(numbers):
    """The bits and the data bytes of a list."""
    bits, data = [], bytearray()
    for x in numbers:
        bits += (r.fewest(x) - 1) * [0] + [1]
        data += x.to_bytes(r.fewest(x), "little")
    return bits, data


def true_sums(bits):
    return [sum(bits[:end]) for end in range(512, len(bits) + 1, 512)]


def direct_body(bits, sums, data, spare=()):
    """A body as it stands."""
    return (r.u32(len(data)) + r.low_first(list(bits) + list(spare)) + b"".join(x.to_bytes(2, "little") for x in sums)
            + bytes(data))


def spare_of(bits):
    """Bits to spare, any."""
    return [rnd.randrange(2) for _ in range(-len(bits) % 8)]


def loose_direct(numbers):
    """A directly addressed body in which every lookup finds its number: with spare bits, numbers beyond
    the count, bytes that end none, and the last sum too large where no bits come after."""
    bits, data = parts_of(numbers + [random_number() for _ in range(rnd.choice((0, 0, 0, 1, 2)))])
    more = rnd.choice((0, 0, 0, 1, 7, 8))
    bits, data = bits + more * [0], data + bytes(rnd.randrange(256) for _ in range(more))
    sums = true_sums(bits)
    if sums and len(bits) % 512 == 0 and rnd.random() < 0.5:
        sums[-1] += rnd.randint(1, 60000)
    return direct_body(bits, sums, data, spare_of(bits) if rnd.random() < 0.3 else ())


def standing(body, place):
    """Where a lookup in a directly addressed body finds its number, by rank and select over the bits: the
    stretch, and the number's first and last data byte."""
    many = r.header(body, 0)
    sums_at, full = 4 + (many + 7) // 8, many // 512
    r.cut_if(sums_at + 2 * full + many > len(body))
    flags = body[4:sums_at]
    sums = [body[sums_at + 2 * i] + 256 * body[sums_at + 2 * i + 1] for i in range(full)]
    stretch = min([i for i, told in enumerate(sums) if told > place], default=full)
    base = sums[stretch - 1] if stretch else 0
    try:
        end = r.select(flags, r.rank(flags, 512 * stretch) + place - base)
    except r.Refused:
        raise r.Refused(13)
    r.broken_if(end >= min(512 * stretch + 512, many))
    before = r.rank(flags, end)
    begin = r.select(flags, before - 1) + 1 if before else 0
    r.broken_if(end - begin > 3)
    return stretch, begin, end


def literal_direct(body, place):
    """A lookup in a directly addressed body."""
    _, begin, end = standing(body, place)
    many = r.header(body, 0)
    data = body[4 + (many + 7) // 8 + 2 * (many // 512):]
    x = sum(byte << (8 * i) for i, byte in enumerate(data[begin:end + 1]))
    r.broken_if(begin < end and x < 256**(end - begin))
    return x


def elsewhere(body, place):
    """The body with all else changed: bits but the stretch's and the four before it, spare bits, sums after
    its own, data but the number's; sums before the one before say anything up to the place."""
    stretch, begin, end = standing(body, place)
    bits, _, sums, data, *_ = r.direct_parts(body)
    first = 512 * stretch
    bits = [bit if first - 4 <= i < first + 512 else rnd.randrange(2) for i, bit in enumerate(bits)]
    sums = [told if i in (stretch - 1, stretch) else rnd.randint(0, place if i < stretch else 65535)
            for i, told in enumerate(sums)]
    data = [byte if begin <= i <= end else rnd.randrange(256) for i, byte in enumerate(data)]
    return direct_body(bits, sums, data, spare_of(bits))


# ------------------------------------------------------------ the lookup in the document's words

def literal(tree, body, n, place):
    """A lookup, each inner place asked for alone."""
    if tree[0] == r.DIRECT:
        return literal_direct(body, place)
    if tree[0] in r.CODES:
        before = 0
        for numbers, _ in r.units(tree[0], body, n):
            if place < before + len(numbers):
                return numbers[place - before]
            before += len(numbers)
    if tree[0] == r.REFERENCE:
        return r.held(r.header(body, 0) + literal(tree[1], body[4:], n, place))
    if tree[0] == r.DIFFERENCES:
        literal_units(tree[1], body, n, place)
        total = 0
        for inner_place in range(place + 1):
            total += of_sums(tree[1], body, n, inner_place)
        return r.held(total)
    runs, values_body, run = literal_run(tree, body, n, place)
    return literal(tree[1], values_body, runs, run)


def literal_run(tree, body, n, place):
    """The run that holds a place, each inner length asked for alone and held to its rules."""
    runs, values_body, lengths_body = r.run_parts(body, n)
    total = 0
    for run in range(runs):
        length = literal(tree[2], lengths_body, runs, run)
        total += length
        r.broken_if(length == 0 or total > n)
        if total > place:
            return runs, values_body, run
    raise r.Refused(13)


def literal_units(tree, body, n, place):
    """What differences take before they add: all headers, lengths and units through the place, and no sum."""
    if tree[0] == r.DIRECT:
        for each in range(place + 1):
            literal_direct(body, each)
    elif tree[0] in r.CODES:
        literal(tree, body, n, place)
    elif tree[0] == r.REFERENCE:
        r.header(body, 0)
        literal_units(tree[1], body[4:], n, place)
    else:
        runs, values_body, run = literal_run(tree, body, n, place)
        literal_units(tree[1], values_body, runs, run)


def of_sums(tree, body, n, place):
    """A lookup of which only a sum may still refuse."""
    try:
        return literal(tree, body, n, place)
    except r.Refused as e:
        same("only sums are left", e.number, 13, tree, body, n, place)
        raise


def places(n):
    """Every place of a short list, some of a long one."""
    return range(n) if n <= 12 else sorted(rnd.sample(range(n), 6) + [0, n - 1])


def lookups(tree, body, n, numbers):
    """Lookups at places; numbers is the list, or what reading refuses by."""
    read = isinstance(numbers, list)
    for place in places(n):
        got = of(r.lookup_plan, tree, body, n, place)
        if read:
            same("lookup", got, numbers[place], tree, body, n, place)
        elif got not in SORTS:
            count("lookups answered where reading refuses")
            same("lookup is a number", isinstance(got, int) and 0 <= got <= MAX, True, tree, body)
        elif tree[0] in r.CODES and tree[0] not in (r.G8IU, r.DIRECT):      # both meet the first unit at fault first
            same("lookup refuses as reading", got, numbers, tree, body, n, place)
        if got in SORTS:
            count("%d first, looked up: %d" % (tree[0], got[1]))
        if n <= 6 or (n <= 12 and rnd.random() < 0.2):
            same("literal lookup", got, of(literal, tree, body, n, place), tree, body, n, place)
        if got != CUT:                  # nothing after is looked at
            more = body + bytes(rnd.randrange(256) for _ in range(3))
            same("lookup, more after", of(r.lookup_plan, tree, more, n, place), got, tree, body, n)
        if got not in SORTS:
            if tree[0] == r.DIRECT:
                count("direct lookups unchanged")
                same("lookup, changed elsewhere", of(r.lookup_plan, tree, elsewhere(body, place), n, place), got,
                     body, n, place)
            elif tree[0] in r.CODES:
                part = cut_after(tree[0], body, n, place)
                same("lookup, cut after", of(r.lookup_plan, tree, part, n, place), got, tree, body, n, place)
                same("lookup, cut before its end", of(r.lookup_plan, tree, part[:-1], n, place), CUT, tree, body, n, place)
    same("lookup at n", of(r.lookup_plan, tree, body, n, n), ("refused", 6), tree, body, n)


def cut_after(code, body, n, place):
    """The body as far as the unit that holds the place."""
    before = 0
    for numbers, at in r.units(code, body, n):
        before += len(numbers)
        if place < before:
            at = at[1] if code == r.STREAM else at
            return body[:r.up(at, 8) if code in (r.GAMMA, r.DELTA) else at]


# ------------------------------------------------------------ rounds

def round_body(tree, kind):
    """A list written, read and looked up, then its body damaged."""
    n = random_count()
    numbers = random_list(kind, n)
    body = r.write_plan(tree, numbers)
    same("read back", of(r.read_plan, tree, body, n), numbers, tree, body)
    same("within worst", len(body) <= r.worst(fill(tree), n), True, tree, numbers)
    lookups(tree, body, n, numbers)
    if tree[0] in r.CODES:
        same("code and plan", (r.write_code(tree[0], numbers), of(r.read_code, tree[0], body, n)),
             (body, numbers), tree)
    damaged, m = damage(body), rnd.choice((n, n, n, n + 1, max(0, n - 1)))
    if rnd.random() < 0.1:
        damaged = bytes(rnd.randrange(256) for _ in range(rnd.randrange(12)))
    got = of(r.read_plan, tree, damaged, m)
    if isinstance(got, list):
        count("damaged bodies read")
        if damaged != body:
            count("code %d" % tree[0] if tree[0] in r.CODES else "stage %d" % tree[0])
        same("count read", len(got), m, tree, damaged)
        same("damaged written back", r.write_plan(tree, got), damaged, tree, m)
        lookups(tree, damaged, m, got)
    else:
        count("damaged bodies refused")
        same("refused by 9 or 13", got in SORTS, True, got, tree, damaged, m)
        count("%d first, read: %d" % (tree[0], got[1]))
        lookups(tree, damaged, m, got)


def round_loose(tree, kind):
    """Lookups find the numbers of a loose body; reading refuses it by 13 unless it is the strict one."""
    n = random_count()
    numbers = random_list(kind, n)
    body = loose(tree, numbers)
    strict = body == r.write_plan(tree, numbers)
    count("loose bodies read" if strict else "loose bodies refused")
    same("loose read", of(r.read_plan, tree, body, n), numbers if strict else BROKEN, tree, body, n)
    lookups(tree, body, n, numbers)


def broken_batch(numbers):
    """A four-wise batch at fault, and whether it is cut, so that the body ends there."""
    batch, masks = bytearray(r.write_code(r.FOURWISE, numbers)), r.up(len(numbers), 4)
    short = [i for i, x in enumerate(numbers) if r.fewest(x) < 4]
    unused = 2 * (len(numbers) % 4)                 # the bit of the last mask that they begin at
    ways = ["masks cut", "data cut"] + ["unused field"] * (unused > 0) + ["longer"] * bool(short)
    way = rnd.choice(ways)
    count("batches with " + way)
    if way == "masks cut":
        del batch[rnd.randrange(masks):]
    elif way == "data cut":
        del batch[rnd.randrange(masks, len(batch)):]
    elif way == "unused field":
        batch[masks - 1] |= 1 << rnd.randrange(unused, 8)
        batch += bytes(rnd.randrange(3))            # and perhaps what would be its data
    else:
        i = rnd.choice(short)
        batch[i // 4] -= 1 << (2 * (i % 4))         # a leading zero byte less, put after it
        batch.insert(masks + sum(r.fewest(x) for x in numbers[:i + 1]), 0)
    return bytes(batch), way in ("masks cut", "data cut")


def round_batches():
    """One four-wise batch at fault: what holds a place before it answers, the batch itself and all
    after it refuse, by the sort of its fault."""
    numbers = random_list(0, rnd.randint(1, 50))
    n = len(numbers)
    first = 16 * rnd.randrange(r.up(n, 16))         # of the batch at fault
    broken, cut = broken_batch(numbers[first:first + 16])
    body, number = r.write_code(r.FOURWISE, numbers[:first]) + broken, CUT if cut else BROKEN
    if not cut:
        body += r.write_code(r.FOURWISE, numbers[first + 16:])
    same("broken batch read", of(r.read_code, r.FOURWISE, body, n), number, body, n)
    same("broken batch looked up", [of(r.lookup_code, r.FOURWISE, body, n, i) for i in range(n)],
         numbers[:first] + (n - first) * [number], body, n)
    whole = r.write_code(r.FOURWISE, numbers) + bytes(rnd.randint(1, 4))
    same("bytes left over read", of(r.read_code, r.FOURWISE, whole, n), BROKEN, whole, n)
    place = rnd.randrange(n)
    same("bytes left over looked up", of(r.lookup_code, r.FOURWISE, whole, n, place), numbers[place],
         whole, n)


def direct_list():
    """Numbers with about as many data bytes as fill one to three stretches, often exactly so many."""
    room = rnd.choice((511, 512, 513, 1023, 1024, 1025, 1536, rnd.randrange(300, 1700)))
    sizes, numbers = rnd.choice(((1,), (1, 2), (2,), (4,), (1, 2, 3, 4))), []
    while room > 0 and len(numbers) < 1024:
        size = min(room, rnd.choice(sizes))
        numbers.append(rnd.randrange(256**(size - 1) if size > 1 else 0, 256**size))
        room -= size
    return numbers


def broken_direct(numbers, way):
    """A directly addressed body with one rule broken; of "end moved" it may be that none is."""
    bits, data = parts_of(numbers)
    sums, at, spare, told = true_sums(bits), rnd.randrange(len(bits)), [], None
    if way in ("false sum", "falling sums"):
        i = rnd.randrange(len(sums))
        others = (0, sums[i] - 1, sums[i] + 1, len(numbers), 65535, rnd.randrange(1024))
        sums[i] = rnd.choice([x for x in others if 0 <= x != sums[i]])
        if way == "falling sums":
            sums = sorted(set(sums + [rnd.randrange(1024), 65535]), reverse=True)[:len(sums)]
    elif way == "bit turned":                       # the sums as they were, or true again
        bits[at] = 1 - bits[at]
        sums = rnd.choice((sums, true_sums(bits)))
    elif way == "end moved":
        ends = [i for i, bit in enumerate(bits) if bit == 1]
        at = rnd.choice(ends)
        bits[at] = 0
        bits[max(0, min(len(bits) - 1, at + rnd.choice((-3, -2, -1, 1, 2, 3))))] = 1
        sums = rnd.choice((sums, true_sums(bits)))
    elif way == "spare bit":
        bits, data = parts_of(numbers + (len(bits) % 8 == 0) * [7])
        sums, spare = true_sums(bits), spare_of(bits)
        spare[rnd.randrange(len(spare))] = 1
    elif way in ("longer", "five bytes"):           # a byte of 0 more, or five of any but 0
        ends = [-1] + [i for i, bit in enumerate(bits) if bit == 1]
        i = rnd.randrange(1, len(ends))
        begin, end = ends[i - 1] + 1, ends[i] + 1
        run = data[begin:end] + b"\0" if way == "longer" else bytes(rnd.randint(1, 255) for _ in range(5))
        bits[begin:end], data[begin:end] = (len(run) - 1) * [0] + [1], run
        sums = true_sums(bits)
    elif way == "another length told":
        told = rnd.choice((len(bits) - 1, len(bits) + 1, len(bits) + 8, max(0, len(bits) - 512), len(bits) + 512, 0,
                           2**32 - 1, 2**32 - rnd.randrange(1, 700), 2**31 + len(bits), 2**29,
                           (2**32 + rnd.randrange(len(bits))) * 256 // 289))    # the parts' end passes 2^32 by little
    body = direct_body(bits, sums, data, spare)
    if told is not None:
        body = r.u32(told) + body[4:]
    if way == "cut":
        return body[:-rnd.choice((1, 1, 2, 9))]
    return body + bytes(rnd.choice((1, 1, 2, 9))) if way == "left over" else body


def parts_end(body):
    """Where the parts of a directly addressed body end, by its header, which is there."""
    many = int.from_bytes(body[:4], "little")
    return 4 + (many + 7) // 8 + 2 * (many // 512) + many


def round_direct():
    """A long directly addressed list: written and looked up, loose, then with a rule broken."""
    numbers = direct_list()
    n, tree = len(numbers), (r.DIRECT,)
    body, (bits, data) = r.write_code(r.DIRECT, numbers), parts_of(numbers)
    asked = {0, n - 1, *(rnd.randrange(n) for _ in range(4))}
    asked |= {max(0, min(n - 1, told + more)) for told in true_sums(bits) for more in (-1, 0, 1)}
    count("direct lists of full stretches" if len(bits) % 512 == 0 else "direct lists with bits after a sum")
    same("direct written", body, direct_body(bits, true_sums(bits), data), numbers)
    same("direct read back", of(r.read_code, r.DIRECT, body, n), numbers, body)
    for place in sorted(asked):
        same("direct lookup", of(r.lookup_code, r.DIRECT, body, n, place), numbers[place], body, place)
    slack = loose_direct(numbers)
    lookups(tree, slack, n, numbers)
    same("direct loose read", of(r.read_code, r.DIRECT, slack, n), numbers if slack == body else BROKEN, slack)
    way = rnd.choice(DIRECT_WAYS if len(bits) >= 512 else DIRECT_WAYS[2:])
    count("direct bodies with " + way)
    body = broken_direct(numbers, way)
    got = of(r.read_code, r.DIRECT, body, n)
    if way == "end moved" and isinstance(got, list):
        same("direct written back", r.write_code(r.DIRECT, got), body, n)
    else:
        same("direct refused", got, CUT if parts_end(body) > len(body) else BROKEN, way, body, n)
    for place in sorted(asked):
        found = of(r.lookup_code, r.DIRECT, body, n, place)
        same("direct looked up", found, of(literal_direct, body, place), way, body, place)
        if found in SORTS:
            count("direct lookups refused")
        elif found != numbers[place]:
            count("direct lookups sent to another number")


def round_below():
    """A short directly addressed list with a rule broken, under stages: a lookup at every place."""
    numbers, way = random_list(0, rnd.randint(1, 7)), rnd.choice(DIRECT_WAYS[2:])
    lengths, direct, other = [rnd.choice((1, 1, 2, 3)) for _ in numbers], (r.DIRECT,), (rnd.choice(r.CODES),)
    runs, n, broken = r.u32(len(numbers)), len(numbers), broken_direct(numbers, way)
    tree, body = direct, broken
    if rnd.random() < 0.4:
        tree, body = (16, direct), r.u32(rnd.choice((0, 7, MAX))) + broken
    if rnd.random() < 0.4:
        tree, body = (18, tree, other), runs + r.u32(len(body)) + body + r.write_code(other[0], lengths)
        n = sum(lengths)
    elif rnd.random() < 0.3:
        body = r.write_code(other[0], numbers)
        tree, body = (18, other, direct), runs + r.u32(len(body)) + body + broken_direct(lengths, way)
        n = sum(lengths)
    if rnd.random() < 0.3:
        tree = 17, tree
    found = [of(r.lookup_plan, tree, body, n, place) for place in range(n)]
    same("below stages", found, [of(literal, tree, body, n, place) for place in range(n)], tree, body, n)
    if BROKEN in found and any(isinstance(x, int) for x in found[found.index(BROKEN):]):
        count("direct places at fault alone under %d" % tree[0])


def round_bits():
    """The laws of rank and select over a slice."""
    data = bytes(rnd.choice((0, 255, rnd.randrange(256), 1 << rnd.randrange(8))) for _ in range(rnd.randrange(20)))
    bits, ones = 8 * len(data), 0
    for bit in range(bits):
        is_one = data[bit // 8] >> bit % 8 & 1
        same("rank", of(r.rank, data, bit), ones, data, bit)
        if is_one:                                  # each undoes the other
            same("select of rank", of(r.select, data, r.rank(data, bit)), bit, data, bit)
            same("rank of select", r.rank(data, r.select(data, ones)), ones, data, bit)
        ones += is_one
    same("rank at the end", of(r.rank, data, bits), ones, data)
    for more in (1, 2**32, 2**64):
        same("rank after the end", of(r.rank, data, bits + more), ("refused", 6), data)
        same("select after the last", of(r.select, data, ones + more - 1), ("refused", 6), data)


def round_plan():
    """Plan bytes: well formed means the tree spelt again."""
    plan = bytes(rnd.choice((0, 1, 2, 3, 4, 5, 6, 7, 8, 9, 16, 17, 18, 18, 19, 255))
                 for _ in range(rnd.choice((1, 2, 3, 4, 5, 7, 15))))
    plan += bytes(15 - len(plan))
    if rnd.random() < 0.7:              # a plan with one byte changed
        plan = bytearray(fill(random_tree(1)))
        plan[rnd.randrange(6)] = rnd.choice((0, 1, 3, 5, 6, 7, 8, 9, 16, 17, 18, rnd.randrange(256)))
        plan = bytes(plan)
    tree = of(r.parse_plan, plan)
    if tree == ("refused", 3):
        same("malformed", (r.judge(0, plan), r.judge(1, plan), r.judge(2, plan)), (3, 3, 11), plan)
        same("malformed worst", of(r.worst, plan, 9999), ("refused", 3), plan)
    else:
        count("plans")
        same("spelt again", fill(tree), plan)
        same("kind 0", r.judge(0, plan), 4 if 17 in plan else 0, plan)
        same("kind 1 passes kind 0", r.judge(1, plan) == 0 or r.judge(0, plan) == 4, True, plan)
        same("worst", of(r.worst, plan, 1025), ("refused", 11), plan)


def edition_of(sheet):
    """For counting what was met."""
    if not sheet:
        return "no edition"
    return "edition %d" % sheet[0] if sheet[0] in r.EDITIONS else "another edition"


def random_sheet():
    """Lists and the sheet."""
    edition, orders, lists = rnd.choice(r.EDITIONS), [], []
    for _ in range(rnd.choice((0, 1, 1, 2, 2, 3, 4, 16 if rnd.random() < 0.1 else 2))):
        kind = rnd.randrange(2)
        numbers = random_list(kind, random_count(), edition)
        plan = bytes(15) if rnd.random() < 0.2 else fill(random_tree(kind))
        orders.append((kind, plan, len(numbers)))
        lists.append(numbers)
    if rnd.random() < 0.3 and len(orders) >= 2:             # a board
        jobs = sorted(rnd.sample(range(5000), len(lists[1])))
        lists[:2] = [jobs, [rnd.choice((0, 1, 123, 124, 125, 255, 256)) for _ in jobs]]
        orders[:2] = [(1, fill(random_tree(1)), len(jobs)), (0, fill(random_tree(0)), len(jobs))]
    return lists, r.write(edition, orders, sum(lists, []), WIDE_WORK, 65536)


def sheet_agrees(sheet, lists):
    """A sheet that passed: rewriting in its edition, kinds, readers, programs."""
    edition, columns = sheet[0], r.columns_of(sheet)
    orders = [(column[0], column[1], column[3]) for column in columns]
    joined = sum(lists, [])
    most = max([len(numbers) for numbers in lists], default=0)
    again = edition, orders, joined
    same("rewritten", of(r.write, *again, 7 * most, len(sheet)), sheet, orders)
    same("rewritten, 7", of(r.write, *again, 7 * most, len(sheet) - 1), ("refused", 7))
    same("within worst sheet", len(sheet) <= r.worst_sheet(edition, orders), True, orders)
    if most:
        same("rewritten, 8", of(r.write, *again, 7 * most - 1, 0), ("refused", 8))
        same("check, 8", of(r.check, sheet, 8 * most - 1), ("refused", 8), sheet)
    lines = r.listing(sheet).decode().split("\n")
    at = 1
    for index, numbers in enumerate(lists):
        n = len(numbers)
        if columns[index][0] == 1:
            risen = sorted(numbers) if edition == 1 else sorted(set(numbers))
            same("kind 1", numbers, risen, sheet, index)
        same("read", of(r.read, sheet, index, 7 * n, n), numbers, sheet, index)
        offset, length = r.fetch(sheet, index)
        same("fetched", r.read_plan(columns[index][2], sheet[offset:offset + length], n), numbers)
        for place in places(n):
            same("sheet lookup", of(r.lookup, sheet, index, place), numbers[place], sheet, index)
        if n <= 12:
            same("calls", r.calls(sheet, index, n + 2),
                 [("number", x) for x in numbers] + 2 * [("refused", 6)], sheet, index)
        same("listed", lines[at + 1:at + 1 + n], ["%d %d" % p for p in enumerate(numbers)], sheet)
        at += 1 + n
    same("listed end", lines[at:], ["end", ""], sheet)
    tallies = of(r.board, sheet, WIDE_WORK)
    if tallies == ("refused", 12):
        count("board refused 12 in %s" % edition_of(sheet))
        same("board refused", r.board_text(sheet), b"refused 12 column 0\n")
    else:
        count("board in %s" % edition_of(sheet))
        same("tallies", sum(tallies), len(lists[0]), sheet)
        same("killed", tallies[2], sum(ending == 124 for ending in lists[1]), sheet)
        same("strictly rising", lists[0], sorted(set(lists[0])), sheet)


def damaged_sheet(sheet):
    """Damage anywhere, and often the edition or a kind changed."""
    way = rnd.random()
    if way < 0.2:
        sheet = bytes([rnd.choice(r.EDITIONS + OTHER_EDITIONS)]) + sheet[1:]
    elif way < 0.4 and sheet[1] > 0:
        at = 2 + r.entry_size(sheet[0]) * rnd.randrange(sheet[1])
        sheet = sheet[:at] + bytes([1 - sheet[at]]) + sheet[at + 1:]
    return sheet if way < 0.3 else damage(sheet)


def round_sheet():
    lists, sheet = random_sheet()
    count("sheet passed in %s" % edition_of(sheet))
    same("check", of(r.check, sheet, WIDE_WORK), None, sheet)
    sheet_agrees(sheet, lists)
    as_other_edition(sheet, lists)
    for _ in range(3):
        damaged = damaged_sheet(sheet)
        got = of(r.check, damaged, WIDE_WORK)
        columns = damaged[1] if len(damaged) > 1 else 0
        if got is None:
            count("sheet unchanged" if damaged == sheet
                  else "damaged sheet passed in %s" % edition_of(damaged))
            sheet_agrees(damaged, [r.read(damaged, i, WIDE_WORK, 1024) for i in range(columns)])
            continue
        count("damaged sheet refused %d in %s" % (got[1], edition_of(damaged)))
        same("check refuses", got[1] in (1, 2, 3, 4, 9, 13), True, damaged)
        if got not in SORTS:
            same("reader refused", (r.open_reader(damaged, 0), r.calls(damaged, 0, 2)),
                 (got[1], 2 * [("refused", 1)]), damaged)
            same("read refused", of(r.read, damaged, 99, 0, 0), got, damaged)
        else:
            reads = [of(r.read, damaged, i, WIDE_WORK, 1024) for i in range(columns)]
            faulty = [(x[1], i) for i, x in enumerate(reads) if x in SORTS]
            line = b"refused %d column %d\n" % faulty[0]
            same("first at fault", (r.listing(damaged), r.board_text(damaged)), (line, line), damaged)


def as_other_edition(sheet, lists):
    """A sheet that passed with its edition changed: what reading asks of kind 1 is the other
    edition's, and all else is as it was."""
    other = bytes([3 - sheet[0]]) + sheet[1:]
    kinds = [column[0] for column in r.columns_of(other)]
    twice = [i for i, kind in enumerate(kinds) if kind == 1 and len(set(lists[i])) < len(lists[i])]
    told = "edition %d as %d: " % (sheet[0], other[0])
    if twice:                           # only an edition 1 sheet has equal neighbours
        count(told + "refused 13")
        same(told + "its edition", sheet[0], 1, sheet)
        line = b"refused 13 column %d\n" % twice[0]
        same(told + "programs", (r.listing(other), r.board_text(other)), (line, line), sheet)
    else:
        count(told + "passed")
        same(told + "listing", r.listing(other), r.listing(sheet), sheet)
        same(told + "board", r.board_text(other), r.board_text(sheet), sheet)
    for index, numbers in enumerate(lists):
        n = len(numbers)
        same(told + "read", of(r.read, other, index, 7 * n, n),
             BROKEN if index in twice else numbers, sheet, index)
        same(told + "fetched", r.fetch(other, index), r.fetch(sheet, index), sheet, index)
        for place in places(n)[:3]:
            same(told + "lookup", of(r.lookup, other, index, place), numbers[place], sheet, index)


def round_editions():
    """One list of kind 1, that may fall or have equal neighbours, written in every edition."""
    numbers = random_list(1, random_count(), rnd.choice(r.EDITIONS))
    way, at = rnd.randrange(3), rnd.randrange(1, max(2, len(numbers)))
    if way == 0 and len(numbers) > 1:
        numbers[at] = numbers[at - 1]
    elif way == 1:
        numbers.insert(at, random_number())
    orders, n = [(1, fill(random_tree(1)), len(numbers))], len(numbers)
    falls, twice = numbers != sorted(numbers), len(set(numbers)) < n
    sheets = {}
    for edition in r.EDITIONS + OTHER_EDITIONS:
        got = of(r.write, edition, orders, numbers, 7 * n, 65536)
        if edition not in r.EDITIONS:
            count("written in another edition: 11")
            same("another edition", got, ("refused", 11), edition, numbers)
        elif falls or (twice and edition == 2):
            what = "it falls" if falls else "equal neighbours"
            count("refused 10: %s in edition %d" % (what, edition))
            same("refused 10", got, ("refused", 10), edition, numbers)
        else:
            what = "equal neighbours written" if twice else "written"
            count("%s in edition %d" % (what, edition))
            same("edition written", got[0], edition, numbers)
            same("edition read", of(r.read, got, 0, 7 * n, n), numbers, got)
            sheets[edition] = got
    if len(sheets) == 2:
        same("but for byte 0", sheets[1][1:], sheets[2][1:], numbers)


# ------------------------------------------------------------ which sort of fault (request P5)

def column_read(edition, kind, tree, n, body):
    """A column alone in its sheet: its list, or what reading it refuses by."""
    entry = bytes([kind]) + fill(tree) + r.u32(n) + r.u32(len(body))
    return of(r.read, bytes([edition, 1]) + entry + body, 0, 7 * n, n)


def some_bytes(most):
    return bytes(rnd.choice((0, 1, 2, 3, 128, 255, rnd.randrange(256))) for _ in range(rnd.randint(1, most)))


def round_cuts(tree, kind):
    """A body that reads: each proper prefix is 9, with bytes added it is 13.  Any body: its prefixes in turn are 9,
    then perhaps one reads, then all are 13; a lookup is 9 in turn, then in all of the rest it finds the same."""
    edition, n = rnd.choice(r.EDITIONS), rnd.choice((0, 1, 2, 3, 4, 5, 6, 9, 17))
    numbers = random_list(kind, n, edition)
    body = r.write_plan(tree, numbers)
    same("whole", column_read(edition, kind, tree, n, body), numbers, tree, body)
    for end in range(len(body)):
        same("a proper prefix", column_read(edition, kind, tree, n, body[:end]), CUT, edition, kind, tree, body, end)
    for more in b"\0", some_bytes(1), some_bytes(9):
        same("bytes added", column_read(edition, kind, tree, n, body + more), BROKEN, edition, kind, tree, body, more)
    way = rnd.randrange(5)
    if way == 1:
        body = loose(tree, numbers)
    elif way == 2:                      # any bytes, or zeros enough for gamma's 33rd
        body = rnd.choice((some_bytes(24), body[:rnd.randrange(3)] + bytes(rnd.randint(1, 9)) + some_bytes(3)))
    elif way == 3 and n > 1:            # a list that is not of its kind, where its plan can hold it
        numbers[rnd.randrange(n)] = random_number()
        body = r.write_plan(tree, numbers) if r.passes(0, tree) else body
    body = damage(body) if way in (0, 4) else body
    m = rnd.choice((n, n, n, n + 1, max(0, n - 1)))
    prefixes_of(edition, kind, tree, m, body + (some_bytes(3) if rnd.random() < 0.4 else b""))


def not_cut(answers):
    """Where the first answer is that is not 9."""
    return next((i for i, x in enumerate(answers) if x != CUT), len(answers))


def prefixes_of(edition, kind, tree, n, body):
    """The prefixes of any body in turn, read and looked up."""
    answers = [column_read(edition, kind, tree, n, body[:end]) for end in range(len(body) + 1)]
    cuts = not_cut(answers)
    rest, about = answers[cuts:], (edition, kind, tree, n, body)
    if rest and isinstance(rest[0], list):
        count("%d first, 9 until it is read" % tree[0])
        del rest[0]
    elif rest:
        count("%d first, 9 until it is 13" % tree[0])
        if isinstance(of(r.read_plan, tree, body[:cuts], n), list):
            count("a fall alone is 13 in edition %d" % edition)
    same("prefixes in turn", rest, len(rest) * [BROKEN], answers, *about)
    for place in sorted({0, n - 1, rnd.randrange(n)} if n else ()):
        found = [of(r.lookup_plan, tree, body[:end], n, place) for end in range(len(body) + 1)]
        rest = found[not_cut(found):]
        same("lookups of prefixes in turn", rest, len(rest) * rest[:1], found, *about, place)
        if rest:
            count("%d first, looked up 9 until it is %s" % (tree[0], "13" if rest[0] == BROKEN else "a number"))


def broken_unit(code, xs):
    """A unit of numbers with a rule broken: the way, its control bytes (codes 2, 4 and 7), its own bytes, or bits in
    gamma and delta, and how many of these decide it."""
    if code == r.VBYTE:
        unit = r.write_vbyte(xs[0])
        if len(unit) < 5 and rnd.random() < 0.5:
            return "last byte 0", b"", unit[:-1] + bytes([unit[-1] | 128, 0]), len(unit) + 1
        return "fifth byte", b"", bytes(rnd.randint(128, 255) for _ in range(4)) + bytes([rnd.randint(16, 255)]), 5
    if code in (r.GAMMA, r.DELTA):
        bits, zeros = (r.gamma_bits, 33) if code == r.GAMMA else (r.delta_bits, 6)
        way = rnd.choice(("zeros", "too large") + ("length",) * (code == r.DELTA))
        if way == "zeros":
            return way, b"", zeros * "0", zeros
        if way == "length":                             # 34 to 63, in gamma
            unit = r.gamma_bits(rnd.randint(34, 63))
        else:
            unit = bits(rnd.choice((2**32 + 1, 2**33 - 1, rnd.randrange(2**32 + 1, 2**33))))
        return way, b"", unit, len(unit)
    if code == r.G8IU:
        way, block = rnd.choice((("waste", [0xFC, 5, 6, 0, 0, 0, 0, 0, rnd.randint(1, 255)]), ("no number", [255] + 8 * [0]),
                                 ("longer", [0xED, 5, 0, 6, 0, 0, 0, 0, 0])))
        return way, b"", bytes(block), 9
    sizes, way = [r.fewest(x) for x in xs], "longer"
    data, fields = [x.to_bytes(size, "little") for x, size in zip(xs, sizes)], (r.up(len(xs), 4) * 4) * [None]
    short = [i for i, size in enumerate(sizes) if size < 4]
    if len(xs) % 4 and (not short or rnd.random() < 0.5):
        way = "unused field"
    elif not short:
        return None, b"", b"", 0
    else:
        i = rnd.choice(short)
        data[i] += b"\0"
        sizes[i] += 1
    for i in range(len(fields)):
        fields[i] = 0 if i >= len(xs) else 4 - sizes[i] if code == r.FOURWISE else sizes[i] - 1
    if way == "unused field":
        fields[rnd.randrange(len(xs), len(fields))] = rnd.randint(1, 3)
    controls = bytes(sum(field << 2 * k for k, field in enumerate(fields[first:first + 4]))
                     for first in range(0, len(fields), 4))
    return way, controls, b"".join(data), sum(sizes)


def round_units(code):
    """Good units, one with a rule broken, then bytes of any sort: 13 from the byte on that decides it, before that 9."""
    size = {r.GROUPS: 4, r.STREAM: 4, r.FOURWISE: 16}.get(code, 1)
    before = random_list(0, size * rnd.randrange(4))
    if code == r.G8IU:                                  # full blocks, or the next one must not fit
        before = [x % 256 for x in random_list(0, 8 * rnd.randrange(3))]
    last = size > 1 and rnd.random() < 0.6
    xs = random_list(0, rnd.randint(1, size) if last else size)
    n = len(before) + len(xs) + (0 if last else rnd.choice((0, 0, 1, 5)))
    if code == r.G8IU:
        n += 2
    way, controls, unit, decided = broken_unit(code, xs)
    if way is None:
        return
    tail = rnd.choice((b"", some_bytes(9)))
    if code in (r.GAMMA, r.DELTA):
        bits = "".join((r.gamma_bits if code == r.GAMMA else r.delta_bits)(x + 1) for x in before)
        body, decided = r.pack(bits + unit) + tail, r.up(len(bits) + decided, 8)
    elif code == r.STREAM:
        groups = r.write_groups(before)
        front = b"".join(c for c, _ in groups) + controls
        front += bytes(rnd.randrange(256) for _ in range(r.up(n, 4) - len(front))) + b"".join(d for _, d in groups)
        body, decided = front + unit + tail, len(front) + decided
    else:
        front = r.write_code(code, before) + controls
        body, decided = front + unit + tail, len(front) + decided
    count("unit broken: %d %s" % (code, way))
    answers = [CUT if end < decided else BROKEN for end in range(len(body) + 1)]
    same("broken unit", [of(r.read_code, code, body[:end], n) for end in range(len(body) + 1)], answers, code, way, body, n)
    for place in {len(before), n - 1}:
        same("broken unit looked up", [of(r.lookup_code, code, body[:end], n, place) for end in range(len(body) + 1)],
             answers, code, way, body, n, place)
    if before:                                          # the unit before is found whatever follows it
        same("before a broken unit", of(r.lookup_code, code, body, n, len(before) - 1), before[-1], code, way, body, n)


BROKEN_FIRST = {r.VBYTE: "80 00", r.GROUPS: "55 01 00 01 00 01 00 01 00", r.G8IU: "FF 00 00 00 00 00 00 00 00",
                r.STREAM: "55 01 00 01 00 01 00 01 00", r.GAMMA: "00 00 00 00 00", r.DELTA: "00",
                r.FOURWISE: "AA 01 00 01 00 01 00 01 00", r.DIRECT: "04 00 00 00 00 01 01 01 01"}


def at_fault(code, numbers, sort):
    """The body of a list by a code, or one whose first unit is of a sort of fault."""
    body = r.write_code(code, numbers)
    if sort == 9:
        return body[:rnd.randrange(4 if code == r.DIRECT else 1)]
    return bytes.fromhex(BROKEN_FIRST[code]) + (b"" if rnd.random() < 0.5 else some_bytes(3)) if sort == 13 else body


def round_pairs():
    """Values and lengths, each whole or with a first unit of either sort of fault, under every stage: reading takes the
    values first, a lookup the lengths."""
    values, under = rnd.choice(([0, 5, 6], [0, 300], [0], [0, 70000, 7, 0])), rnd.choice(STAGES)
    lengths, codes = [rnd.choice((1, 1, 2, 3)) for _ in values], [rnd.choice(r.CODES) for _ in range(2)]
    of_values, of_lengths = faults = [rnd.choice((0, 9, 13)) for _ in range(2)]
    (body, last), inner = (at_fault(*case) for case in zip(codes, (values, lengths), faults)), (codes[0],)
    way = rnd.randrange(4)                              # the values themselves in a reference, or in runs of one
    if way == 0:
        body, inner = r.u32(0) + body, (r.REFERENCE, inner)
    elif way == 1:
        body, inner = r.u32(len(values)) + r.u32(len(body)) + body + len(values) * b"", (r.RUNS, inner, (r.VBYTE,))
    tree, n = (r.RUNS, inner, (codes[1],)), sum(lengths)
    body = r.u32(len(values)) + r.u32(len(body)) + body + last
    numbers = [x for x, length in zip(values, lengths) for _ in range(length)]
    if under == r.REFERENCE:
        tree, body = (under, tree), r.u32(0) + body
    elif under == r.DIFFERENCES:
        tree, numbers = (under, tree), list(accumulate(numbers))
    count("values %d, lengths %d under %d" % (*faults, under))
    same("values first", of(r.read_plan, tree, body, n),
         ("refused", of_values or of_lengths) if any(faults) else numbers, tree, body, n)
    same("lengths first", [of(r.lookup_plan, tree, body, n, place) for place in range(n)],
         n * [("refused", of_lengths or of_values)] if any(faults) else numbers, tree, body, n)


def faulty_at(code, numbers, at, sort):
    """The body of a list by VByte, gamma or delta, of which the number at a place, and none before it, is of a sort of fault."""
    if sort == 0:
        return r.write_code(code, numbers)
    if code == r.VBYTE:
        return r.write_code(code, numbers[:at]) + rnd.choice((b"", b"\x80") if sort == 9 else (b"\x80\0", b"\x80\0\5", 5 * b"\xff"))
    bits, zeros = (r.gamma_bits, 33) if code == r.GAMMA else (r.delta_bits, 6)
    before = "".join(bits(x + 1) for x in numbers[:at])
    return r.pack(before + bits(2**32))[:-2] if sort == 9 else r.pack(before + zeros * "0")


def round_places():
    """Values and lengths with a fault at any place, values that may be too large a sum, equal neighbours, lengths of 0 and wrong
    totals: what is told of each place, and of the whole, by the order of reading, spelt out here alone."""
    k, in_runs, base, added = rnd.randint(1, 4), rnd.random() < 0.7, rnd.choice((None, None, 0, 1, MAX)), rnd.random() < 0.5
    codes = [rnd.choice((r.VBYTE, r.GAMMA, r.DELTA)) for _ in range(2)]
    xs, ys = [rnd.choice((0, 1, 2, 300, 2**31, MAX)) for _ in range(k)], [rnd.choice((1, 1, 1, 2, 3, 0)) for _ in range(k)]
    sorts = [rnd.choice((0, 9, 13)) for _ in range(2)]
    at, length_at = (rnd.randrange(k) if sort else k for sort in sorts)
    body, tree, n = faulty_at(codes[0], xs, at, sorts[0]), (codes[0],), k
    if base is not None:
        body, tree = r.u32(base) + body, (r.REFERENCE, tree)
    if in_runs:
        n = max(k, sum(ys) + rnd.choice((0, 0, 0, 1, -1)))
        body = r.u32(k) + r.u32(len(body)) + body + faulty_at(codes[1], ys, length_at, sorts[1])
        tree = r.RUNS, tree, (codes[1],)
    tree = (r.DIFFERENCES, tree) if added else tree
    values = [(base or 0) + x for x in xs]

    def run_at(place):
        """The run that holds a place, or the number of the fault."""
        total = 0
        for run, length in enumerate(ys):
            if run == length_at:
                return None, sorts[1]
            total += length
            if length == 0 or total > n:
                return None, 13
            if total > place:
                return run, 0
        return None, 13

    def told(place):
        run, number = run_at(place) if in_runs else (place, 0)
        if number or at <= run:
            return "refused", number or sorts[0]
        some = [x for i, x in enumerate(values) for _ in range(ys[i] if in_runs else 1)][:place + 1]
        found = sum(some) if added else values[run]
        return found if found <= MAX else BROKEN

    def told_of_all():
        if sorts[0]:
            return "refused", sorts[0]
        if max(values) > MAX or (base is not None and min(xs) > 0):
            return BROKEN
        some = values
        if in_runs:
            if sorts[1]:
                return "refused", sorts[1]
            if 0 in ys or sum(ys) != n or any(a == b for a, b in zip(values, values[1:])):
                return BROKEN
            some = [x for x, length in zip(values, ys) for _ in range(length)]
        if added:
            some = list(accumulate(some))
        return some if max(some) <= MAX else BROKEN

    same("places", [of(r.lookup_plan, tree, body, n, place) for place in range(n)], [told(place) for place in range(n)], tree, body, n)
    same("places, all", of(r.read_plan, tree, body, n), told_of_all(), tree, body, n)


def round_headers():
    """A run stage's header: its 8 bytes, the run count, the values length, in this order, before anything else."""
    n, codes = rnd.randint(1, 4), [(rnd.choice(r.CODES),) for _ in range(2)]
    runs, size = rnd.choice((0, 1, n, n + 1, 2**31, MAX)), rnd.choice((0, 1, 4, 9, MAX, MAX - 7))
    body = (r.u32(runs) + r.u32(size) + some_bytes(9))[:rnd.choice((3, 4, 7, 8, 9, 17))]
    if len(body) >= 8 and runs <= n and 8 + size <= len(body):
        return
    number = CUT if len(body) < 8 else BROKEN if runs > n else CUT
    tree, body = rnd.choice((((r.RUNS, *codes), body), ((r.DIFFERENCES, (r.RUNS, *codes)), body),
                             ((r.REFERENCE, (r.RUNS, *codes)), r.u32(MAX) + body)))
    same("run header", [of(r.read_plan, tree, body, n)] + [of(r.lookup_plan, tree, body, n, place) for place in range(n)],
         (1 + n) * [number], tree, body, n)


start = time.time()
for i in range(ROUNDS):
    turn, kind, code = i % 10, rnd.randrange(2), (r.CODES[i // 10 % len(r.CODES)],)
    if turn < 3:
        round_body(code, kind)
    elif turn < 6:
        round_body(random_tree(kind), kind)
    elif turn < 7:
        round_loose(code if rnd.random() < 0.4 else random_tree(kind), kind)
    elif turn < 8:
        round_plan()
        round_batches()
        round_editions()
        round_below()
        round_cuts(code if rnd.random() < 0.4 else random_tree(kind), kind)
        round_units(rnd.choice(r.CODES[:7]))
        round_pairs()
        round_places()
        round_headers()
        if i % 40 == 7:
            round_direct()
            round_bits()
    else:
        round_sheet()
for code in r.CODES:            # the longest lists, the worst numbers
    for numbers in (1024 * [MAX], 1024 * [0], [random_number() for _ in range(1024)]):
        body = r.write_code(code, numbers)
        same("long", of(r.read_code, code, body, 1024), numbers, code)
        same("long worst", len(body) <= r.worst(fill((code,)), 1024), True, code)
        same("long lookup", of(r.lookup_code, code, body, 1024, 1023), numbers[1023], code)
        if numbers[0] == MAX == numbers[1]:
            same("worst reached", len(body), r.worst(fill((code,)), 1024), code)
unmet = sorted(MUST_MEET - set(seen)) if ROUNDS >= ENOUGH else []
for what in unmet:
    print("never met: %s" % what)
print("%d rounds, seed %d, %d differ, %.0f s; %s"
      % (ROUNDS, SEED, differ, time.time() - start,
         ", ".join("%s %d" % (k, seen[k]) for k in sorted(seen))))
sys.exit(1 if differ or unmet else 0)
