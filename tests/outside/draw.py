"""Random numbers, lists and plans for the tests from outside, all from one seeded source."""

import random
from itertools import accumulate

import reading as r

rnd = random.Random()
MAX = r.MOST_NUMBER
OTHER_EDITIONS = (0, 3, 4, 127, 128, 255)


def chance(percent):
    return rnd.random() * 100 < percent


def near(exact):
    """A length: mostly enough, often exact, often one short."""
    return max(0, exact + rnd.choice((0, 0, 0, 0, 0, 0, 0, 1, 2, 9, -1, -1, -exact)))


def word(x):
    return r.u32(x % 2**32)


def words(numbers):
    return b"".join(map(r.u32, numbers))


def number():
    """Of any length, often at an edge of one."""
    top = 2**rnd.choice((1, 3, 7, 8, 14, 16, 21, 24, 28, 31, 32))
    return rnd.choice((rnd.randrange(top), max(0, top - 1 - rnd.randrange(3)), min(MAX, top + rnd.randrange(3))))


def apart(some):
    """As many numbers, each above the one before: moved up where they are not, then down where they pass 2^32 - 1."""
    raised = list(accumulate(some, lambda before, x: max(before + 1, x)))
    return [min(x, MAX + 1 - left) for x, left in zip(raised, range(len(raised), 0, -1))]


def doubled(some):
    """The list with one of its numbers, but the first, made equal to the one before."""
    at = rnd.randrange(1, max(2, len(some)))
    return some[:at] + some[at - 1:at] + some[at + 1:] if len(some) > 1 else some


def numbers(kind, n, edition=1):
    """A list that rises if the kind asks it, as the edition means it; of edition 2 a few have equal neighbours."""
    shape = rnd.randrange(6)
    if shape == 0:
        found = [rnd.randrange(200) for _ in range(n)]
    elif shape == 1:
        found = [number() for _ in range(n)]
    elif shape == 2:
        found = [rnd.choice((rnd.randrange(2**32), MAX)) for _ in range(n)]
    elif shape == 3:
        found = []
        while len(found) < n:
            found += rnd.randint(1, 9) * [number()]
        found = found[:n]
    elif shape == 4:
        base = rnd.choice((1000, 2**31, MAX - 500))
        found = [base + rnd.randrange(500) for _ in range(n)]
    else:
        found = n * [number()]
    if kind == 0:
        return found
    found.sort()
    if edition == 1 or chance(5):
        return found
    return doubled(apart(found)) if chance(10) else apart(found)


def of_size(size):
    """A number that takes so many bytes."""
    return rnd.randrange(256**(size - 1) if size > 1 else 0, 256**size)


def stretched():
    """Numbers whose data bytes fill one or two stretches of code 8 exactly, or nearly, or some way on; not over 1,024."""
    room = rnd.choice((511, 512, 512, 513, 516, 1023, 1024, 1024, 1025, rnd.randrange(480, 1700)))
    sizes, found = rnd.choice(((1,), (1, 2), (2,), (2, 3), (4,), (1, 2, 3, 4))), []
    while room > 0 and len(found) < r.MOST_COUNT:
        found.append(of_size(min(room, rnd.choice(sizes))))
        room -= r.fewest(found[-1])
    return found


def tree(kind, depth=4, judged=True):
    """A plan that passes for the kind, or that may not."""
    stage = rnd.choice((0, 16, 17, 18, 18) if depth < 4 else (0, 0, 0, 16, 17, 18)) if depth > 1 else 0
    if stage == 16:
        return stage, tree(kind, depth - 1, judged)
    if stage == 17 and (kind == 1 or not judged):
        return stage, tree(0, depth - 1, judged)
    if stage == 18:
        return stage, tree(kind, depth - 1, judged), tree(0, depth - 1, judged)
    return rnd.choice(r.CODES),


# What stands where in deep plans; 0 is any code.
SHAPES = 12 * ((0,),) + (
    (16, 0), (17, 0), (18, 0, 0), (17, 16, 0), (16, 17, 0), (16, 16, 0), (17, 16, 16, 0), (17, 18, 0, 0), (18, 17, 0, 0), (18, 16, 0, 0),
    (18, 0, 16, 0), (18, 0, 18, 0, 0), (18, 18, 0, 0, 0), (17, 18, 16, 0, 0), (17, 16, 18, 0, 0), (17, 18, 0, 16, 0), (17, 18, 18, 0, 0, 0),
    (17, 18, 0, 18, 0, 0), (16, 18, 17, 0, 0), (18, 18, 17, 0, 0, 0), (18, 16, 17, 0, 18, 0, 0), (18, 0, 18, 16, 0, 0),
    (18, 0, 18, 0, 18, 0, 0), (18, 18, 18, 0, 0, 0, 0))


def shaped():
    """A plan of one of the shapes, with any codes."""
    return r.parse_plan(filled(bytes(x or rnd.choice(r.CODES + (1,)) for x in rnd.choice(SHAPES))))


def text(t):
    """A plan's prefix text, not filled."""
    return bytes([t[0]]) + b"".join(map(text, t[1:]))


def filled(some):
    return (some + bytes(15))[:15]


def bad_plan():
    """Mostly malformed or not passed."""
    if chance(7):
        return bytes(15)
    if chance(40):
        return filled(text((17, tree(0, 3, False)) if chance(40) else tree(0, rnd.choice((4, 5)), False)))
    some = bytearray(text(tree(rnd.randrange(2))))
    for _ in range(rnd.choice((0, 1, 1, 2))):
        some[rnd.randrange(len(some))] = rnd.choice((0, 1, 7, 8, 9, 15, 16, 17, 18, 19, 128, 255))
    if chance(20):
        some = bytes(rnd.choice((1, 3, 16, 17, 18)) for _ in range(rnd.randint(1, 15)))
    some = bytearray(filled(bytes(some)))
    if chance(15):
        some[rnd.randrange(15)] = rnd.choice((0, 1, 255))
    return bytes(some)


def count():
    """How many numbers: mostly few, some around the ends of four-wise batches."""
    return rnd.choice((0, 1, 2, 3, 4, 5, 7, 8, 9, rnd.randrange(16), rnd.randrange(16), rnd.randrange(40),
                       rnd.choice((15, 16, 17, 20, 32, 33))))
