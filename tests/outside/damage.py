"""Damage for the tests from outside: bodies with a rule broken on purpose, cut short, or both, and sheets changed in their
bytes."""

from itertools import groupby

import reading as r
from draw import MAX, OTHER_EDITIONS, bad_plan, chance, number, rnd, word

# ------------------------------------------------------------ bodies with one rule broken


def loose_vbyte(some):
    units = [bytearray(r.write_vbyte(x)) for x in some]
    at = rnd.randrange(len(units))
    if chance(50):
        units[at][-1] |= 128
        units[at] += rnd.choice((b"\0", b"\0\0", b"\1", b"\x80"))
    else:
        fifth = rnd.choice((0, 1, 15, 16, 31, 127, 128))
        units[at] = bytearray(rnd.choice((bytes(4 * [rnd.choice((128, 255))] + [fifth]), bytes([128, 128, 0]),
                                          bytes(5 * [128] + [1]), b"\x80")))
    return b"".join(units)


def loose_groups(code, some):
    controls, data, at = [], [], rnd.randrange(len(some))
    for first in range(0, len(some), 4):
        control, part = 0, b""
        for i, x in enumerate(some[first:first + 4]):
            length = r.fewest(x)
            if first + i == at and length < 4 and chance(70):
                length = rnd.randint(length + 1, 4)
            control += (length - 1) << (2 * i)
            part += x.to_bytes(length, "little")
        controls.append(control)
        data.append(part)
    if len(some) % 4 and chance(50):
        controls[-1] |= rnd.randint(1, 3) << (2 * rnd.randint(len(some) % 4, 3))
        data[-1] += bytes(rnd.choice((0, 0, 1, 2)))
    units = [bytes([c]) for c in controls]
    return b"".join(units + data if code == r.STREAM else [u + d for u, d in zip(units, data)])


def blocks_of(some):
    """G8IU's blocks, each a list of (number, length)."""
    blocks = []
    for x in some:
        length = r.fewest(x)
        if not blocks or sum(length for _, length in blocks[-1]) + length > 8:
            blocks.append([])
        blocks[-1].append((x, length))
    return blocks


def loose_g8iu(some):
    blocks, way, out = blocks_of(some), rnd.randrange(6), b""
    at = rnd.randrange(len(blocks))
    if way <= 1 and len(blocks[at]) > 1:                        # a number left out that would fit
        before = sum(map(len, blocks[:at + 1])) - 1
        blocks[at:] = [blocks[at][:-1]] + blocks_of(some[before:])
    elif way == 2:
        i = rnd.randrange(len(blocks[at]))
        blocks[at][i] = blocks[at][i][0], blocks[at][i][1] + 1  # longer than needed
    elif way == 3:
        blocks.insert(at, rnd.choice(([], [(0, 5)], [(0, 1)])))
    for i, block in enumerate(blocks):
        control, data = 255, b""
        for x, length in block:
            data += x.to_bytes(length, "little")
            control &= ~(1 << (len(data) - 1))
        waste = bytearray(max(0, 8 - len(data)))
        if i == at and waste and way == 4:
            waste[rnd.randrange(len(waste))] = 1
        elif i == at and waste and way == 5:
            control &= ~(1 << rnd.randrange(len(data), 8))      # one number more
        out += bytes([control & 255]) + data[:8] + waste
    return out


def batches_of(some):
    """Four-wise batches, each its masks and a list with the bytes of every number."""
    batches = []
    for first in range(0, len(some), 16):
        masks, data = bytearray(r.up(len(some[first:first + 16]), 4)), []
        for i, x in enumerate(some[first:first + 16]):
            masks[i // 4] |= (4 - r.fewest(x)) << (2 * (i % 4))
            data.append(x.to_bytes(r.fewest(x), "little"))
        batches.append((masks, data))
    return batches


def loose_batches(some):
    batches, at, way = batches_of(some), rnd.randrange(len(some)), rnd.randrange(9)
    (masks, data), i = batches[at // 16], at % 16
    more = rnd.randint(0, 4 - len(data[i]))
    if way <= 1 and more:                                       # longer than needed
        masks[i // 4] -= more << (2 * (i % 4))
        data[i] += bytes(more)
    elif way <= 4:                                              # an unused field, or a mask too many
        masks, data = batches[-1]
        if len(data) % 4:
            masks[-1] ^= rnd.choice((1, 1, 2, 3)) << (2 * rnd.randint(len(data) % 4, 3))
        else:
            masks.append(rnd.choice((0, 1, 3, 255)))
        data.append(bytes(rnd.choice((0, 0, 1, 3))))            # what would be its data
    elif way <= 6:                                              # the body ends inside the masks or the data
        del batches[at // 16 + 1:], data[i + 1:]
        data[i] = data[i][:rnd.randrange(len(data[i]))]
        if way == 5:
            del masks[rnd.randrange(len(masks)):], data[:]
    elif way == 7:                                              # another length, the data as it was
        masks[i // 4] ^= 1 << rnd.randrange(8)
    else:
        return as_others_write(batches)
    return b"".join(bytes(masks) + b"".join(data) for masks, data in batches)


def as_others_write(batches):
    """Fields as in codes 2 and 4; the first field highest, as 004 draws it; every mask first; each mask alone."""
    way = rnd.randrange(4)
    if way == 2:
        return b"".join(bytes(masks) for masks, _ in batches) + b"".join(b"".join(data) for _, data in batches)
    body = b""
    for masks, data in batches:
        if way == 0:
            masks = [255 - mask for mask in masks]
        elif way == 1:
            masks = [sum((mask >> 2 * k & 3) << (6 - 2 * k) for k in range(4)) for mask in masks]
        else:
            data = [bytes([masks[i // 4]]) * (i % 4 == 0) + x for i, x in enumerate(data)]
        body += (bytes(masks) if way < 2 else b"") + b"".join(data)
    return body


def direct_parts(some):
    """A directly addressed list's bits, sums and data."""
    bits, data = [], bytearray()
    for x in some:
        bits += (r.fewest(x) - 1) * [0] + [1]
        data += x.to_bytes(r.fewest(x), "little")
    return bits, sums_of(bits), data


def sums_of(bits):
    return [sum(bits[:end]) for end in range(512, len(bits) + 1, 512)]


def direct_body(told, bits, sums, data):
    """The parts as they stand; `bits` may have spare ones."""
    return word(told) + r.low_first(bits) + b"".join((x % 65536).to_bytes(2, "little") for x in sums) + bytes(data)


def loose_direct(some):
    if not some:
        return rnd.choice((b"", b"\0", bytes(3), bytes(4), bytes(5), b"\1\0\0\0\1\5", b"\1\0\0\0\0\5", b"\0\0\0\0\1\5",
                           4 * b"\xff"))
    bits, sums, data = direct_parts(some)
    many, way = len(bits), 0 if sums and chance(40) else rnd.randint(1, 10)
    at = rnd.choice((rnd.randrange(many), many - 1))
    if way == 0:                                                # false, equal or falling sums
        i = rnd.randrange(len(sums))
        sums[i] = rnd.choice((sums[i] - 1, sums[i] + 1, 0, 1, sums[i - 1], len(some), len(some) - 1, 65535, rnd.randrange(1100)))
        if chance(30):
            sums.reverse()
    elif way <= 2:                                              # a bit turned, or moved, the sums as they were or true
        bits[at] ^= 1
        if way == 2:
            bits[max(0, at - rnd.randint(1, 5))] ^= 1
        sums = rnd.choice((sums, sums_of(bits)))
    elif way == 3:                                              # spare bits, and perhaps the last one no end
        bits[-1] = rnd.randrange(2)
        bits += [1 if i == 0 else rnd.randrange(2) for i in range(-many % 8)]
    elif way == 4:                                              # longer than needed, or than four bytes
        ends = [-1] + [i for i, bit in enumerate(bits) if bit]
        i = rnd.choice((1, rnd.randrange(1, len(ends)), len(ends) - 1))
        begin, end = ends[i - 1] + 1, ends[i] + 1
        run = data[begin:end] + bytes(rnd.randint(1, 4))
        if chance(60):
            run = bytes(rnd.randint(1, 255) for _ in range(rnd.choice((5, 5, 6, 9))))
        bits[begin:end], data[begin:end] = (len(run) - 1) * [0] + [1], run
        many, sums = len(bits), sums_of(bits)
    elif way == 5:                                              # numbers beyond the count, or bytes that end none
        more, _, after = direct_parts([number()] if chance(50) else [])
        loose = rnd.choice((0, 0, 1, 4, 9))
        bits, data = bits + more + loose * [0], data + after + bytes(loose)
        many, sums = len(bits), sums_of(bits)
    elif way == 6:                                              # fewer than the count
        cut = rnd.randrange(many)
        bits, data = bits[:cut], data[:cut]
        many, sums = cut, sums_of(bits)
    elif way == 7:                                              # another length told
        many = rnd.choice((many - 1, many + 1, many - 8, many + 8, many - 512, many + 512, 0, 512, 2**31, 2**29, MAX,
                           MAX - 3, MAX - rnd.randrange(700), 2**32 - 4 - many // 8, many + 2**16, many + 2**29,
                           (2**32 + rnd.randrange(many + 9)) * 256 // 289))     # the parts' end passes 2^32 by little
    elif way == 8:                                              # the body ends inside a part, or goes on
        body = direct_body(many, bits, sums, data)
        return rnd.choice((body[:-1], body[:rnd.randrange(len(body))], body + b"\0", body + bytes(rnd.randint(1, 9))))
    elif way == 9:
        return direct_as_others(many, bits, sums, data)
    else:                                                       # a data byte of 0
        data[at] = 0
    return direct_body(many, bits, sums, data)


def direct_as_others(many, bits, sums, data):
    """Bits highest first; ends told by 0; sums of the ones before alone, for the rest too, left out, highest byte first,
    after the data; the data's highest byte first."""
    way = rnd.randrange(8)
    if way == 0:
        bits = [bit for first in range(0, many, 8) for bit in reversed((bits[first:first + 8] + 7 * [0])[:8])]
    elif way == 1:
        bits = [1 - bit for bit in bits]
    elif way == 2:
        sums = [0] + sums[:-1] if sums else sums
    elif way == 3:
        sums = sums + [sum(bits)]
    elif way == 4:
        sums = sums[:-1]
    elif way == 5:
        sums = [x % 256 * 256 + x // 256 for x in sums]
    elif way == 6:
        return word(many) + r.low_first(bits) + bytes(data) + b"".join(x.to_bytes(2, "little") for x in sums)
    else:
        data = data[::-1]
    return direct_body(many, bits, sums, data)


def loose_elias(code, some):
    write = r.gamma_bits if code == r.GAMMA else r.delta_bits
    words_, at = [write(x + 1) for x in some], rnd.randrange(len(some))
    way = rnd.randrange(4)
    if way == 0:
        words_[at] = write(rnd.choice((2**32, 2**32 + 1, 2**33 - 1, 2**33, 2**34)))
    elif way == 1:
        words_[at] = "0" * rnd.choice((4, 5, 6, 31, 32, 33, 64)) + format(rnd.randrange(1, 2**34), "b")
    elif way == 2:
        words_[-1] += rnd.choice(("1", "01", "00000001", 8 * "0"))
    else:
        words_[at] = words_[at][:rnd.randrange(len(words_[at]))]
    return r.pack("".join(words_))


def loose_runs(t, some):
    runs = [(x, len(list(equals))) for x, equals in groupby(some)]
    way = rnd.randrange(6)
    if runs and way == 0:                                   # not maximal
        at = rnd.randrange(len(runs))
        x, length = runs[at]
        part = rnd.randrange(length)
        runs[at:at + 1] = [(x, part), (x, length - part)] if part else [(x, 0), (x, length)]
    elif runs and way == 1:                                 # another sum
        at = rnd.choice((-1, rnd.randrange(len(runs))))
        runs[at] = runs[at][0], min(MAX, max(0, runs[at][1] + rnd.choice((-1, 1, 2000, MAX))))
    elif way == 2:
        at = rnd.randint(0, len(runs))
        runs.insert(at, (runs[at - 1][0] if at else 0, rnd.randrange(2)))
    elif runs and way == 3:
        del runs[rnd.randrange(len(runs))]
    values, lengths = [x for x, _ in runs], [length for _, length in runs]
    inner = t[1:] if way < 4 else rnd.choice(((None, t[2]), (t[1], None)))
    values_body = r.write_plan(t[1], values) if inner[0] else loosely(t[1], values)
    lengths_body = r.write_plan(t[2], lengths) if inner[1] else loosely(t[2], lengths)
    told, size = len(runs), len(values_body)
    if way == 4 and chance(60):
        told = max(0, rnd.choice((told - 1, told + 1, 2**31, MAX)))
    if way == 5 and chance(60):
        size = max(0, rnd.choice((size - 1, size + 1, size + len(lengths_body), MAX, MAX - 7, size + 2**31)))
    return r.u32(told) + r.u32(size) + values_body + lengths_body


def loosely(t, some):
    """The body of a list by a plan, with a rule broken somewhere, where the way chosen applies."""
    if t[0] == r.REFERENCE:
        least = min(some, default=0)
        if chance(15):                                      # sums above 2^32 - 1
            return r.u32(rnd.choice((MAX, MAX - 1, 2**31))) + r.write_plan(t[1], [x - least for x in some])
        if chance(30):                                      # not the least
            least = rnd.choice((max(0, least - 1), least // 2, 0))
        return r.u32(least) + (r.write_plan if chance(20) else loosely)(t[1], [x - least for x in some])
    if t[0] == r.DIFFERENCES:
        if chance(30):
            return r.write_plan(t[1], some)                 # sums above 2^32 - 1
        return loosely(t[1], [x - before for before, x in zip([0] + some, some)])
    if t[0] == r.RUNS:
        return loose_runs(t, some)
    if t[0] == r.DIRECT:
        return loose_direct(some)
    if not some:
        return rnd.choice((b"", b"\0", b"\1"))
    if t[0] == r.VBYTE:
        return loose_vbyte(some)
    if t[0] in (r.GROUPS, r.STREAM):
        return loose_groups(t[0], some)
    if t[0] == r.FOURWISE:
        return loose_batches(some)
    return loose_g8iu(some) if t[0] == r.G8IU else loose_elias(t[0], some)

# ------------------------------------------------------------ both sorts of fault at once


def cut(body):
    """At any byte, often near its end."""
    return body[:max(0, len(body) - rnd.choice((1, 1, 2, 3, 9)))] if chance(50) else body[:rnd.randint(0, len(body))]


def run_lists(some):
    """The values and lengths of a list's runs, some with a rule broken: equal neighbours, a length of 0, another sum."""
    runs = [(x, len(list(equals))) for x, equals in groupby(some)]
    at = rnd.randrange(len(runs)) if runs and chance(25) else None
    if at is not None:
        x, length = runs[at]
        runs[at:at + 1] = rnd.choice(([(x, 0)], [(x, 0), (x, length)], [(x, length + rnd.choice((1, 2000, MAX - length)))],
                                      [(x, 1), (x, length)], [(x, length)] + 3 * [(x, 1)], []))
    return [x for x, _ in runs], [length for _, length in runs]


def of_both_sorts(t, some):
    """The body of a list by a plan in which every part, at every depth, may be cut, broken, both or too long, so that the order
    of reading decides which fault is the first."""
    if t[0] == r.REFERENCE:
        least = min(some, default=0)
        told = rnd.choice((least, least, least, least // 2, 0, MAX, MAX - 1))
        body = r.u32(told) + of_both_sorts(t[1], [x - least for x in some])
    elif t[0] == r.DIFFERENCES:
        steps = [x - before for before, x in zip([0] + some, some)]
        if steps and chance(25):                            # sums above 2^32 - 1 from there on
            steps[rnd.randrange(len(steps))] = rnd.choice((MAX, MAX - 1, 2**31))
        body = of_both_sorts(t[1], steps)
    elif t[0] == r.RUNS:
        values, lengths = run_lists(some)
        values_body, told, size = of_both_sorts(t[1], values), len(values), None
        if chance(10):
            told = max(0, rnd.choice((told - 1, told + 1, 0, len(some) + 1, 2**31, MAX)))
        if chance(10):
            size = max(0, len(values_body) + rnd.choice((-1, 1, -2, 2, 9, 2**31)))
        body = r.u32(told) + r.u32(len(values_body) if size is None else size) + values_body + of_both_sorts(t[2], lengths)
    else:
        body = loosely(t, some) if chance(30) else r.write_plan(t, some)
    if chance(25):
        return cut(body)
    return body + bytes(rnd.choice((0, 1, 128, 255)) for _ in range(rnd.randint(1, 3))) if chance(8) else body

# ------------------------------------------------------------ bytes changed


def damaged_body(t, some, body):
    way = rnd.randrange(10)
    if way < 5 or not body:
        return loosely(t, some)
    at, changed = rnd.randrange(len(body)), bytearray(body)
    if way == 5:
        changed[at] ^= 1 << rnd.randrange(8)
    elif way == 6:
        changed[at] = rnd.choice((0, 1, 127, 128, 255))
    elif way == 7:
        del changed[-rnd.randint(1, 3):]
    elif way == 8:
        changed += rnd.choice((b"\0", b"\1", bytes(9)))
    else:
        del changed[at]
    return bytes(changed)


def damaged_table(sheet):
    """Damage to a whole sheet of 2 bytes or more, mostly in its table."""
    changed, way = bytearray(sheet), rnd.randrange(16)
    size = r.entry_size(changed[0] if changed[0] in r.EDITIONS else 1)
    entries = min(changed[1], (len(changed) - 2) // size)
    entry = 2 + size * rnd.randrange(entries) if entries else 0
    if way == 0:
        changed[0] = rnd.choice(OTHER_EDITIONS)
    elif way == 1:
        changed[1] = max(0, min(255, rnd.choice((changed[1] - 1, changed[1] + 1, 16, 17, 255))))
    elif way == 2:
        del changed[rnd.randrange(len(changed)):]
    elif way == 3:
        changed += bytes(rnd.choice((1, 2, size, 65536 - min(65536, len(changed)), 65537)))
    elif way == 4:
        changed[rnd.randrange(len(changed))] ^= 1 << rnd.randrange(8)
    elif entry and way == 5:
        changed[entry] = rnd.choice((0, 1, 2, 255))
    elif entry and way <= 10:
        for at in range(entry, 2 + size * entries if way <= 8 else entry + 1, size):
            changed[at + 1:at + 16] = bad_plan()
    elif entry and way <= 12:
        n = int.from_bytes(changed[entry + 16:entry + 20], "little")
        changed[entry + 16:entry + 20] = word(rnd.choice((n - 1, n + 1, 0, 1024, 1025, n + 65536, n + 2**31)))
    elif entry and way == 13:
        length = int.from_bytes(changed[entry + 20:entry + 24], "little")
        changed[entry + 20:entry + 24] = word(rnd.choice((length - 1, length + 1, length + 65536, MAX)))
    elif entries > 1 and way == 14:                         # a byte moved between bodies, or a sum that wraps
        first, move = 2 + size * rnd.randrange(entries - 1), rnd.choice((1, 1, 2**31))
        for at, sign in ((first, 1), (first + size, 1 if move > 1 else -1)):
            length = int.from_bytes(changed[at + 20:at + 24], "little")
            changed[at + 20:at + 24] = word(length + sign * move)
    else:
        changed = bytearray(rnd.choice((1, 1, 0, 2, rnd.randrange(256))) for _ in range(rnd.randrange(60)))
    return bytes(changed)


def other_edition(sheet):
    """A sheet with byte 0 changed from 1 to 2 or from 2 to 1, where it is either."""
    return bytes([3 - sheet[0]]) + sheet[1:] if sheet and sheet[0] in r.EDITIONS else sheet
