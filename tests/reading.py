"""A plain reading of the sheet document (01-scope.md), written from its text alone, with
requests P1 to P5 (02-change-requests.md): code 7, four-wise null suppression; 124 is a kill;
edition 2, in which kind 1 means each number above the one before; code 8, the directly addressed
list, with rank and select; 9 for a body cut short, 13 for any other body fault.

It shares nothing with the proved code and is there to be compared with it.  Where the
document leaves room, "Decisions on open questions" 1 to 13 hold and are named in comments.
Sheets, plans and bodies are `bytes`; lists are Python lists of ints from 0 to 2^32 - 1.
A place counts numbers, an offset counts bytes.  What reads a sheet takes its edition from byte 0.
"""

from itertools import accumulate, groupby, islice

MOST_NUMBER, MOST_COLUMNS, MOST_COUNT, MOST_SHEET = 2**32 - 1, 16, 1024, 65536
VBYTE, GROUPS, G8IU, STREAM, GAMMA, DELTA, FOURWISE, DIRECT = CODES = (1, 2, 3, 4, 5, 6, 7, 8)
STRETCH = 512                   # bits that share a sum in code 8
REFERENCE, DIFFERENCES, RUNS = 16, 17, 18
ANY, RISING = 0, 1
EDITIONS = (1, 2)
NO_PLAN = bytes(15)
DEFAULT = {ANY: bytes([1] + 14 * [0]), RISING: bytes([17, 1] + 13 * [0])}

class Refused(Exception):
    """A refusal: its number, and the column at fault where the document names one."""
    def __init__(self, number, column=0):
        Exception.__init__(self, number, column)
        self.number, self.column = number, column

def cut_if(condition):
    """9: the body ends before the unit or header does."""
    if condition:
        raise Refused(9)

def broken_if(condition):
    """13: any other body fault."""
    if condition:
        raise Refused(13)

def up(a, b):
    """a / b rounded up."""
    return -(-a // b)

def u32(x):
    """4 bytes, least significant byte first."""
    return x.to_bytes(4, "little")

def header(body, offset):
    """The 4-byte number at an offset; headers must fit the body."""
    cut_if(offset + 4 > len(body))
    return int.from_bytes(body[offset:offset + 4], "little")

def held(total):
    """A sum above 2^32 - 1 is a fault."""
    broken_if(total > MOST_NUMBER)
    return total

def fewest(x):
    """The fewest bytes that hold x; zero takes one byte."""
    return max(1, up(x.bit_length(), 8))

def entry_size(edition):
    """The bytes of a table entry, by the sheet's edition."""
    return {1: 24, 2: 24}[edition]

def of_kind(edition, kind, numbers):
    """What a column's kind asks of its list, by the sheet's edition (request P3)."""
    neighbours = zip(numbers, numbers[1:])
    if kind == ANY:
        return True
    if edition == 1:
        return all(a <= b for a, b in neighbours)       # no number below the one before
    return all(a < b for a, b in neighbours)            # each number above the one before

# ------------------------------------------------------------ codes: writing a list

def write_vbyte(x):
    """7 bits a byte, lowest first, top bit 1 when more follows."""
    out = []
    while x > 127:
        out.append(128 + x % 128)
        x //= 128
    return bytes(out + [x])

def write_groups(numbers):
    """The groups of four: a list of (control byte, data)."""
    groups = []
    for first in range(0, len(numbers), 4):
        control, data = 0, b""
        for i, x in enumerate(numbers[first:first + 4]):
            control += (fewest(x) - 1) << (2 * i)       # field i: bits 2i and 2i+1
            data += x.to_bytes(fewest(x), "little")
        groups.append((bytes([control]), data))         # unused fields are 0, no data
    return groups

def write_g8iu(numbers):
    """Blocks of a control byte and 8 data bytes; bit i is 0 when data byte i ends a number."""
    out, i = b"", 0
    while i < len(numbers):
        control, data = 255, b""
        # A block takes the next number whenever it fits.
        while i < len(numbers) and len(data) + fewest(numbers[i]) <= 8:
            data += numbers[i].to_bytes(fewest(numbers[i]), "little")
            control -= 1 << (len(data) - 1)
            i += 1
        out += bytes([control]) + data + bytes(8 - len(data))       # waste bytes are 0
    return out

def write_batches(numbers):
    """Batches of up to 16 numbers: up to four masks together, then the numbers."""
    out = b""
    for first in range(0, len(numbers), 16):
        batch = numbers[first:first + 16]
        masks = up(len(batch), 4) * [0]                 # unused fields are 0, no data
        for i, x in enumerate(batch):                   # leading zero bytes, first number lowest
            masks[i // 4] += (4 - fewest(x)) << (2 * (i % 4))
        out += bytes(masks) + b"".join(x.to_bytes(fewest(x), "little") for x in batch)
    return out

def gamma_bits(v):
    """z zero bits, then v in z+1 bits, where v lies from 2^z to 2^(z+1) - 1."""
    return "0" * (v.bit_length() - 1) + format(v, "b")

def delta_bits(v):
    """v's bit length in gamma (as it is, nothing added), then v without its leading one."""
    return gamma_bits(v.bit_length()) + format(v, "b")[1:]

def pack(bits):
    """Highest bit of each byte first; spare bits of the last byte 0."""
    bits += "0" * (-len(bits) % 8)
    return bytes(int(bits[i:i + 8], 2) for i in range(0, len(bits), 8))

def low_first(bits):
    """Lowest bit of each byte first; spare bits of the last byte 0."""
    out = bytearray(up(len(bits), 8))
    for i, bit in enumerate(bits):
        out[i // 8] += bit << (i % 8)
    return bytes(out)

def bits_of(data):
    """The bits of bytes, lowest bit of each byte first."""
    return [(byte >> i) & 1 for byte in data for i in range(8)]

def write_direct(numbers):
    """The number of data bytes; a bit for each, 1 where a number ends; a sum for every full 512
    bits, the ones before and including them; the data bytes."""
    bits, data = [], b""
    for x in numbers:
        bits += (fewest(x) - 1) * [0] + [1]
        data += x.to_bytes(fewest(x), "little")
    sums = [sum(bits[:end]) for end in range(STRETCH, len(bits) + 1, STRETCH)]
    return u32(len(data)) + low_first(bits) + b"".join(x.to_bytes(2, "little") for x in sums) + data

def write_code(code, numbers):
    """The body of a list by a code."""
    if code == VBYTE:
        return b"".join(write_vbyte(x) for x in numbers)
    if code == GROUPS:
        return b"".join(control + data for control, data in write_groups(numbers))
    if code == STREAM:          # the same groups, all control bytes first, then all data
        groups = write_groups(numbers)
        return b"".join(c for c, _ in groups) + b"".join(d for _, d in groups)
    if code == G8IU:
        return write_g8iu(numbers)
    if code == FOURWISE:
        return write_batches(numbers)
    if code == DIRECT:
        return write_direct(numbers)
    bits = {GAMMA: gamma_bits, DELTA: delta_bits}[code]
    return pack("".join(bits(x + 1) for x in numbers))      # v, the number plus one

# ------------------------------------------------------------ codes: reading units
#
# Reading one unit answers with its numbers and where the next unit begins, or the refusal: first
# that it is there (9), then its rules (13).
# `at` is where it begins: an offset; a bit of the body in gamma and delta; a control and a
# data offset in Stream VByte.  `left`, at least 1, is how many numbers of the list are in
# this unit and after it.  Code 8 has no such walk: its parts are below.

def unit_vbyte(body, at, left):
    x = 0
    for i in range(5):                                  # at most 5 bytes; the fifth is the last
        cut_if(at + i >= len(body))
        byte = body[at + i]
        broken_if(i == 4 and byte > 15)                 # the fifth at most 15, once met
        x += (byte % 128) << (7 * i)
        if byte < 128:
            broken_if(byte == 0 and i > 0)              # the last not 0 unless alone
            return [x], at + i + 1

def fields(controls):
    """The four fields of each control byte, field i in bits 2i and 2i+1."""
    return [(control >> (2 * i)) & 3 for control in controls for i in range(4)]

def of_lengths(body, at, lengths):
    """Numbers of so many bytes each from an offset, all of them there before one is asked to be
    the fewest; and the offset after them."""
    cut_if(at + sum(lengths) > len(body))
    numbers = []
    for length in lengths:
        numbers.append(int.from_bytes(body[at:at + length], "little"))
        at += length
    broken_if([fewest(x) for x in numbers] != lengths)
    return numbers, at

def unit_stream(body, at, left):
    control_at, data_at = at
    cut_if(control_at >= len(body))
    told = fields(body[control_at:control_at + 1])
    numbers, data_at = of_lengths(body, data_at, [field + 1 for field in told[:left]])
    broken_if(any(told[left:]))                         # unused fields are 0, no data
    return numbers, (control_at + 1, data_at)

def unit_group(body, at, left):
    """The same group, its data right after its control byte."""
    numbers, (_, data_at) = unit_stream(body, (at, at + 1), left)
    return numbers, data_at

def unit_batch(body, at, left):
    """A four-wise batch: its masks, then its up to 16 numbers."""
    many = min(left, 16)
    data_at = at + up(many, 4)
    cut_if(data_at > len(body))
    zeros = fields(body[at:data_at])                    # each number's leading zero bytes
    numbers, after = of_lengths(body, data_at, [4 - field for field in zeros[:many]])
    broken_if(any(zeros[many:]))                        # unused fields are 0, no data
    return numbers, after

def unit_block(body, at, left):
    """A G8IU block by its own rules."""
    cut_if(at + 9 > len(body))
    control, data = body[at], body[at + 1:at + 9]
    numbers, begin = [], 0
    for i in range(8):
        if (control >> i) & 1 == 0:                     # data byte i ends a number
            x, length = int.from_bytes(data[begin:i + 1], "little"), i + 1 - begin
            broken_if(length > 4 or fewest(x) != length)    # 1 to 4 bytes, fewest possible
            numbers.append(x)
            begin = i + 1
    waste = data[begin:]                                # ones above the last zero
    broken_if(any(waste))                               # waste bytes are 0
    broken_if(len(numbers) < 1)                         # at least one
    broken_if(len(numbers) > left)                      # no number beyond the list
    broken_if(len(waste) > 3 and len(numbers) != left)  # unless the list ends there
    return numbers, at + 9

def bits_at(body, at, many):
    """So many bits of the body from bit `at`, highest bit of each byte first, as a number."""
    end = at + many
    cut_if(end > 8 * len(body))
    whole = int.from_bytes(body[at // 8:up(end, 8)], "big")     # the bytes that hold them
    return (whole >> (-end % 8)) % 2**many

def gamma_at(body, at, most):
    """A gamma codeword's v, which may be `most`, and the bit after it."""
    z = 0
    while bits_at(body, at + z, 1) == 0:
        z += 1
        broken_if(2**z > most)                          # a 33rd zero, in delta a sixth, once met
    v = bits_at(body, at + z, z + 1)
    broken_if(v > most)
    return v, at + z + z + 1

def unit_gamma(body, at, left):
    v, at = gamma_at(body, at, 2**32)                   # v may be 2^32
    return [v - 1], at

def unit_delta(body, at, left):
    length, at = gamma_at(body, at, 33)                 # the bit length of 2^32 is 33
    v = 2**(length - 1) + bits_at(body, at, length - 1)
    broken_if(v > 2**32)
    return [v - 1], at + length - 1

UNIT = {VBYTE: unit_vbyte, GROUPS: unit_group, G8IU: unit_block,
        STREAM: unit_stream, GAMMA: unit_gamma, DELTA: unit_delta, FOURWISE: unit_batch}

def first_unit(code, body, n):
    """Where the first unit begins.  Stream VByte's control bytes must fit the body."""
    if code != STREAM:
        return 0
    cut_if(up(n, 4) > len(body))
    return 0, up(n, 4)

def units(code, body, n):
    """The units of a list of n numbers in turn, each with where the next begins."""
    at, left = first_unit(code, body, n), n
    while left > 0:
        numbers, at = UNIT[code](body, at, left)
        left -= len(numbers)
        yield numbers, at

def direct_parts(body):
    """Code 8's parts: the bits, the spare bits, the sums, the data bytes, what is left over, and a
    list of end bits for each stretch, then for the bits after the last sum, of which there may be
    none.  First of all the parts' ends must fit the body."""
    many = header(body, 0)
    sums_at = 4 + up(many, 8)
    data_at = sums_at + 2 * (many // STRETCH)
    cut_if(data_at + many > len(body))
    all_bits = bits_of(body[4:sums_at])
    bits, spare = all_bits[:many], all_bits[many:]
    sums = [int.from_bytes(body[at:at + 2], "little") for at in range(sums_at, data_at, 2)]
    ends = [[first + i for i, bit in enumerate(bits[first:first + STRETCH]) if bit == 1]
            for first in range(0, many + 1, STRETCH)]
    return bits, spare, sums, body[data_at:data_at + many], body[data_at + many:], ends

def direct_number(data):
    """The number of a run of bytes: 1 to 4, the fewest."""
    x = int.from_bytes(data, "little")
    broken_if(len(data) > 4 or fewest(x) != len(data))
    return x

def read_direct(body, n):
    """The list of a directly addressed body, by all the rules."""
    bits, spare, sums, data, left_over, _ = direct_parts(body)
    broken_if(sum(bits) != n)                           # as many ones as the count
    broken_if(len(bits) > 0 and bits[-1] != 1)          # the last data byte ends a number
    broken_if(any(spare))                               # spare bits are 0
    for i, told in enumerate(sums):                     # a false sum is a fault
        broken_if(told != sum(bits[:STRETCH * (i + 1)]))
    numbers, begin = [], 0
    for i, bit in enumerate(bits):
        if bit == 1:
            numbers.append(direct_number(data[begin:i + 1]))
            begin = i + 1
    broken_if(len(left_over) > 0)                       # the body fills its length exactly
    return numbers

def lookup_direct(parts, place):
    """The number at a place, by the sums that are found.  Of the bits it looks at a stretch's and at
    the four before it, of the sums at none after the stretch's, of the data at the number's."""
    bits, _, sums, data, _, ends = parts
    stretch, base = 0, 0                                # base: what the stretch before says
    while stretch < len(sums) and sums[stretch] <= place:       # the first whose sum is above
        base = sums[stretch]
        stretch += 1                                    # else the bits after the last sum
    broken_if(place - base >= len(ends[stretch]))       # the stretch lacks that end bit
    end = begin = ends[stretch][place - base]
    while begin > 0 and bits[begin - 1] == 0:           # back to the end of the number before
        begin -= 1
        broken_if(end - begin == 4)                     # a run of more than 4 bytes
    return direct_number(data[begin:end + 1])

def read_code(code, body, n):
    """The list of a body, by all the rules."""
    if code == DIRECT:
        return read_direct(body, n)
    at, taken = first_unit(code, body, n), []
    for numbers, at in units(code, body, n):
        if code == G8IU and taken:      # A block takes the next number whenever it fits.
            broken_if(sum(fewest(x) for x in taken[-1]) + fewest(numbers[0]) <= 8)
        taken.append(numbers)
    # Each body fills its length exactly.
    if code in (GAMMA, DELTA):
        broken_if(up(at, 8) != len(body))
        broken_if(bits_at(body, at, 8 * len(body) - at) != 0)       # spare bits are 0
    else:
        broken_if((at[1] if code == STREAM else at) != len(body))
    return [x for numbers in taken for x in numbers]

def lookup_code(code, body, n, place):
    """Units from the first through the one that holds the place; nothing after.
    (Decision 7: so the fit into the block before is never asked.)  In code 8 that one alone."""
    return lookup_plan((code,), body, n, place)

# ------------------------------------------------------------ plans
#
# A plan as a tree: (code,), (16, inner), (17, inner) or (18, values plan, lengths plan).

def parse_plan(plan15):
    """Prefix text in bytes, zero-filled to 15.  Malformed: refusal 3."""
    def parse(at, depth):       # depth: what may still be used, a code counting 1
        what = plan15[at] if at < 15 and depth >= 1 else 0
        if what in CODES:
            return (what,), at + 1
        if what in (REFERENCE, DIFFERENCES):
            inner, at = parse(at + 1, depth - 1)
            return (what, inner), at
        if what == RUNS:
            values, at = parse(at + 1, depth - 1)
            lengths, at = parse(at, depth - 1)
            return (what, values, lengths), at
        raise Refused(3)        # unknown number, a zero where a plan must begin, depth 5

    if len(plan15) != 15:
        raise Refused(3)
    tree, end = parse(0, 4)
    if any(plan15[end:]):       # a nonzero byte after the end
        raise Refused(3)
    return tree

def passes(kind, tree):
    """Judging by kind."""
    if tree[0] == REFERENCE:
        return passes(kind, tree[1])                            # keeps the kind
    if tree[0] == DIFFERENCES:
        return kind == RISING and passes(ANY, tree[1])          # needs rising, hands on any
    if tree[0] == RUNS:
        return passes(kind, tree[1]) and passes(ANY, tree[2])   # values keep, lengths any
    return True                                                 # codes take either

def judged(kind, plan15):
    """The tree of a plan, 3 before 4 (decision 3: a malformed byte anywhere beats 4)."""
    tree = parse_plan(plan15)
    if not passes(kind, tree):
        raise Refused(4)
    return tree

def judge(kind, plan):
    """Asked alone: a kind above 1 (11), then 3, then 4; 0 when passed."""
    try:
        if kind > 1:
            raise Refused(11)
        judged(kind, plan)
        return 0
    except Refused as e:
        return e.number

def worst_tree(tree, n):
    grouped = 4 * n + up(n, 4)
    alone = {VBYTE: 5 * n, GROUPS: grouped, STREAM: grouped, FOURWISE: grouped,
             G8IU: up(n, 2) * 9, GAMMA: up(65 * n, 8), DELTA: up(43 * n, 8),
             DIRECT: 4 + up(n, 2) + 2 * (n // 128) + 4 * n,
             REFERENCE: 4, DIFFERENCES: 0, RUNS: 8}
    return alone[tree[0]] + sum(worst_tree(inner, n) for inner in tree[1:])

def worst(plan, n):
    """The worst size of a plan for n numbers; refuses malformed plans (3), then n (11)."""
    tree = parse_plan(plan)
    if n > MOST_COUNT:
        raise Refused(11)
    return worst_tree(tree, n)

def write_plan(tree, numbers):
    """The body of a list by a plan.  (Stage 17 needs a rising list.)"""
    what = tree[0]
    if what in CODES:
        return write_code(what, numbers)
    if what == REFERENCE:       # the least number (0 for an empty list), then the list less it
        least = min(numbers, default=0)
        return u32(least) + write_plan(tree[1], [x - least for x in numbers])
    if what == DIFFERENCES:     # the first number, then each less the one before
        return write_plan(tree[1], [x - before for before, x in zip([0] + numbers, numbers)])
    runs = [(x, len(list(equals))) for x, equals in groupby(numbers)]       # maximal
    values_body = write_plan(tree[1], [x for x, _ in runs])
    lengths_body = write_plan(tree[2], [length for _, length in runs])
    return u32(len(runs)) + u32(len(values_body)) + values_body + lengths_body

def run_parts(body, n):
    """A run stage's run count, values body and lengths body, after its header, the run count and
    the values length, in this order."""
    cut_if(len(body) < 8)                   # one header of 8 bytes
    runs, length = header(body, 0), header(body, 4)
    broken_if(runs > n)                     # a run count above the count
    cut_if(8 + length > len(body))          # the values body must fit
    return runs, body[8:8 + length], body[8 + length:]

def read_plan(tree, body, n):
    """The list of n numbers of a body by a plan, by all the rules."""
    what = tree[0]
    if what in CODES:
        return read_code(what, body, n)
    if what == REFERENCE:                               # the whole inner body first
        least = header(body, 0)
        numbers = [held(least + x) for x in read_plan(tree[1], body[4:], n)]
        broken_if(least != min(numbers, default=0))     # decision 5: 0 for an empty list
        return numbers
    if what == DIFFERENCES:                             # likewise
        return [held(total) for total in accumulate(read_plan(tree[1], body, n))]
    runs, values_body, lengths_body = run_parts(body, n)
    values = read_plan(tree[1], values_body, runs)
    lengths = read_plan(tree[2], lengths_body, runs)
    broken_if(any(length < 1 for length in lengths))            # lengths at least 1
    broken_if(any(a == b for a, b in zip(values, values[1:])))  # neighbours differ
    broken_if(sum(lengths) != n)                                # lengths sum to the count
    return [x for x, length in zip(values, lengths) for _ in range(length)]

# ------------------------------------------------------------ plans: looking one number up
#
# A header is looked at when a number of its body is asked for, and nothing after the unit that
# holds the place.  Stage 17 stands neither in lengths nor below another (judging by kind).

def in_turn(tree, body, n):
    """What lookups find at places 0, 1, 2 and so on of a list of any kind, one after the other."""
    what = tree[0]
    if what == DIRECT:                              # place by place
        parts = direct_parts(body)
        yield from (lookup_direct(parts, place) for place in range(n))
    elif what in CODES:
        for numbers, _ in units(what, body, n):
            yield from numbers
    elif what == REFERENCE:                         # reference adds
        least = header(body, 0)
        yield from (held(least + x) for x in in_turn(tree[1], body[4:], n))
    else:                                           # each length, then its value
        runs, values_body, lengths_body = run_parts(body, n)
        values = in_turn(tree[1], values_body, runs)
        for length in lengths_in_turn(tree[2], lengths_body, runs, n):
            yield from length * [next(values)]

def lengths_in_turn(tree, body, runs, n):
    """The lengths of the runs of n numbers, each with its rules before the next."""
    lengths, total = in_turn(tree, body, runs), 0
    for _ in range(runs):                           # of no runs the lengths are not opened
        length = next(lengths)
        total += length
        broken_if(length == 0 or total > n)         # a zero length, a sum above the count
        yield length
    raise Refused(13)                               # runs that end too soon: one more is asked for

def lengths_past(tree, body, runs, n, place):
    """The inner lengths until they pass the place."""
    taken, total = [], 0
    for length in lengths_in_turn(tree, body, runs, n):
        taken.append(length)
        total += length
        if total > place:
            return taken

def through(tree, body, n, place):
    """What differences add up, the numbers from the first through the place: all units through
    the place first (of runs all lengths, then the values through the last run), then the sums."""
    what = tree[0]
    if what in CODES:                               # code 8 place by place
        return list(islice(in_turn(tree, body, n), place + 1))
    if what == REFERENCE:
        least = header(body, 0)
        return [held(least + x) for x in through(tree[1], body[4:], n, place)]
    runs, values_body, lengths_body = run_parts(body, n)
    lengths = lengths_past(tree[2], lengths_body, runs, n, place)
    values = through(tree[1], values_body, runs, len(lengths) - 1)
    return [x for x, length in zip(values, lengths) for _ in range(length)][:place + 1]

def lookup_plan(tree, body, n, place):
    """The number at a place of a body of n numbers by a plan."""
    if place >= n:
        raise Refused(6)
    what = tree[0]
    if what == DIRECT:                              # nothing before it is asked
        return lookup_direct(direct_parts(body), place)
    if what in CODES:
        return next(islice(in_turn(tree, body, n), place, None))
    if what == REFERENCE:                           # decision 8: a sum only at the place asked
        least = header(body, 0)
        return held(least + lookup_plan(tree[1], body[4:], n, place))
    if what == DIFFERENCES:                         # differences add up the inner places
        return held(sum(through(tree[1], body, n, place)))
    runs, values_body, lengths_body = run_parts(body, n)
    lengths = lengths_past(tree[2], lengths_body, runs, n, place)
    return lookup_plan(tree[1], values_body, runs, len(lengths) - 1)

# ------------------------------------------------------------ the sheet

def write(edition, orders, joined, work_len, out_len):
    """A sheet of an edition from orders (kind, plan15, count) and one list with all lists joined.
    Refuses: 11; each plan in turn, 3 before 4; each list in turn 10; 8; 7."""
    if (edition not in EDITIONS         # request P3: another edition is 11, with the other 11s
            or len(orders) > MOST_COLUMNS
            or any(kind > 1 or count > MOST_COUNT for kind, _, count in orders)
            or sum(count for _, _, count in orders) != len(joined)):
        raise Refused(11)
    columns, begin = [], 0
    for kind, plan, count in orders:
        if plan == NO_PLAN:     # decision 1: 15 zeros mean the default only in an order
            plan = DEFAULT[kind]
        columns.append((kind, plan, judged(kind, plan), joined[begin:begin + count]))
        begin += count
    for kind, _, _, numbers in columns:
        if not of_kind(edition, kind, numbers):
            raise Refused(10)
    if work_len < 7 * max([count for _, _, count in orders], default=0):
        raise Refused(8)
    entries = bodies = b""
    for kind, plan, tree, numbers in columns:
        body = write_plan(tree, numbers)
        entries += bytes([kind]) + plan + u32(len(numbers)) + u32(len(body))
        bodies += body
    sheet = bytes([edition, len(columns)]) + entries + bodies
    if len(sheet) > out_len or len(sheet) > MOST_SHEET:     # decision 4: the exact size
        raise Refused(7)
    return sheet

def worst_sheet(edition, orders):
    """2, an entry a column, the plans' sums, of the plans really used; each order in turn 3, 11."""
    used = [(DEFAULT.get(kind, plan) if plan == NO_PLAN else plan, count)
            for kind, plan, count in orders]
    return 2 + sum(entry_size(edition) + worst(plan, count) for plan, count in used)

def columns_of(sheet, naming=False):
    """All columns, each (kind, plan15, tree, count, offset, length).  Refuses 1; 2; each plan
    in turn, 3 before 4 (decision 2: of all columns).  Only check and board name the column."""
    if not 2 <= len(sheet) <= MOST_SHEET or sheet[0] not in EDITIONS or sheet[1] > MOST_COLUMNS:
        raise Refused(1)
    size = entry_size(sheet[0])
    bodies = 2 + size * sheet[1]
    if len(sheet) < bodies:                                 # table cut short
        raise Refused(2)
    entries, offset = [], bodies
    for at in range(2, bodies, size):
        count, length = header(sheet, at + 16), header(sheet, at + 20)
        entries.append((sheet[at], sheet[at + 1:at + 16], count, offset, length))
        if sheet[at] > 1 or count > MOST_COUNT:
            raise Refused(2)
        offset += length
    if offset != len(sheet):                                # body lengths not filling the rest
        raise Refused(2)
    columns = []
    for index, (kind, plan, count, offset, length) in enumerate(entries):
        try:
            columns.append((kind, plan, judged(kind, plan), count, offset, length))
        except Refused as e:
            raise Refused(e.number, index if naming else 0)
    return columns

def column_at(sheet, index):
    """One column, after refusals 1 to 5."""
    columns = columns_of(sheet)
    if index >= len(columns):
        raise Refused(5)
    return columns[index]

def column_list(sheet, column):
    """Reading a column applies all of this, and kind 1 must rise, as the sheet's edition means it
    (decision 9: tested last, and of the column's list alone)."""
    kind, _, tree, count, offset, length = column
    numbers = read_plan(tree, sheet[offset:offset + length], count)
    broken_if(not of_kind(sheet[0], kind, numbers))
    return numbers

def read(sheet, column, work_len, out_len):
    """The column's list.  Refuses 1 to 5; 8; 7; 9 or 13."""
    found = column_at(sheet, column)
    if work_len < 7 * found[3]:
        raise Refused(8)
    if out_len < found[3]:
        raise Refused(7)
    return column_list(sheet, found)

def checked(sheet, work_len):
    """All columns and their lists.  Refuses 1 to 4; 8; the columns in turn for 9 or 13."""
    columns, lists = columns_of(sheet, naming=True), []
    if work_len < 8 * max([column[3] for column in columns], default=0):
        raise Refused(8)
    for index, column in enumerate(columns):
        try:
            lists.append(column_list(sheet, column))
        except Refused as e:
            raise Refused(e.number, index)
    return columns, lists

def check(sheet, work_len):
    checked(sheet, work_len)

def lookup(sheet, column, place):
    """Refuses 1 to 6; 9 or 13."""
    _, _, tree, count, offset, length = column_at(sheet, column)
    return lookup_plan(tree, sheet[offset:offset + length], count, place)

def fetch(sheet, column):
    """Where the column's body stands in the sheet: (offset, length), after 1 to 5."""
    return column_at(sheet, column)[4:6]

def open_reader(sheet, column):
    """0, or refuses by 1 to 5."""
    try:
        column_at(sheet, column)
        return 0
    except Refused as e:
        return e.number

def calls(sheet, column, k):
    """The answers of the first k calls of a reader on the column."""
    if open_reader(sheet, column) != 0:     # a reader over an empty part, which answers 1
        return k * [("refused", 1)]
    answers = []
    for place in range(k):
        try:                                # call k answers as a lookup at place k
            answers.append(("number", lookup(sheet, column, place)))
        except Refused as e:                # and each later call gives that refusal again
            return answers + (k - place) * [("refused", e.number)]
    return answers

def board(sheet, work_len):
    """(passed, failed, killed, unended).  After a full check: 12."""
    columns, lists = checked(sheet, work_len)
    if len(columns) < 2 or len(lists[0]) != len(lists[1]) or columns[0][0] != RISING:
        raise Refused(12)
    jobs, endings = lists[:2]               # equal neighbours: in edition 2 the check found them
    if any(a == b for a, b in zip(jobs, jobs[1:])) or any(x > 256 for x in endings):
        raise Refused(12)
    killed = endings.count(124)             # request P2: for 124 alone, and failed is 1 to 255 without it
    return endings.count(0), len([x for x in endings if 1 <= x <= 255]) - killed, killed, endings.count(256)

# ------------------------------------------------------------ rank and select (request P4)

def slice_bits(data):
    """The bits of a lent slice; 1 above 65,536 bytes."""
    if len(data) > MOST_SHEET:
        raise Refused(1)
    return bits_of(data)

def rank(data, bit):
    """The ones before a bit, 0 through the number of bits.  Refuses 1; 6."""
    bits = slice_bits(data)
    if bit > len(bits):
        raise Refused(6)
    return sum(bits[:bit])

def select(data, k):
    """The bit of the k-th one, from 0.  Refuses 1; 6."""
    ones = [i for i, bit in enumerate(slice_bits(data)) if bit == 1]
    if k >= len(ones):
        raise Refused(6)
    return ones[k]

# ------------------------------------------------------------ the two programs

ALL_WORK = 8 * MOST_COUNT       # decision 12: the programs give all the work needed

def printed(lines):
    """Every line ends with a line feed."""
    return "".join(line + "\n" for line in lines).encode("ascii")

def listing(input_bytes):
    """What the listing program prints."""
    try:
        columns, lists = checked(input_bytes, ALL_WORK)
    except Refused as e:
        return printed(["refused %d column %d" % (e.number, e.column)])
    lines = ["columns %d" % len(columns)]
    for index, (kind, plan, _, count, _, length) in enumerate(columns):
        fill_off = " ".join(str(byte) for byte in plan.rstrip(b"\0"))
        lines.append("column %d %s plan %s count %d bytes %d"
                     % (index, ("any", "rising")[kind], fill_off, count, length))
        lines += ["%d %d" % (place, x) for place, x in enumerate(lists[index])]
    return printed(lines + ["end"])

def board_text(input_bytes):
    """What the board program prints."""
    try:
        tallies = board(input_bytes, ALL_WORK)
    except Refused as e:
        return printed(["refused %d column %d" % (e.number, e.column)])
    return printed(["%s %d" % told for told in zip(("passed", "failed", "killed", "unended"), tallies)])
