"""Bodies read and written by others: Stream VByte by Debian's libstreamvbyte, both ways in both editions (interop.c),
and VByte as Protocol Buffers' packed varints, decoded and encoded here by the public encoding rules.

    python3 interop.py ARCHIVE [LISTS [SEED]]

Exit status 1 if any differ."""

import os
import struct
import subprocess
import sys
sys.dont_write_bytecode = True
HERE = os.path.dirname(os.path.abspath(__file__))
sys.path[:0] = [HERE, os.path.dirname(HERE)]
import draw
import machine

STEPS = {1: "libstreamvbyte does not decode our body", 2: "its body is refused or read otherwise",
         3: "VByte was not written"}


def packed(data):
    """The numbers of a packed record: base 128 varints, low group first, the top bit set when more follow."""
    numbers, x, shift = [], 0, 0
    for byte in data:
        x |= (byte & 0x7f) << shift
        shift += 7
        if byte & 0x80 == 0:
            numbers.append(x)
            x = shift = 0
    return numbers if shift == 0 else None


def packed_size(numbers):
    """What an encoder that uses the fewest bytes takes."""
    return sum(max(1, -(-x.bit_length() // 7)) for x in numbers)


def lists(many):
    yield from ([], [0], [2**32 - 1], 1024 * [0], 1024 * [2**32 - 1], [2**i - 1 for i in range(33)],
                [2**i for i in range(32)])
    for _ in range(many - 7):
        yield draw.numbers(0, draw.rnd.choice((draw.count(), draw.count(), 1023, 1024)))


def main(archive, many=3000, seed=1):
    program = machine.build("interop", os.path.join(HERE, "interop.c"), archive, *machine.stream_flags())
    draw.rnd.seed(seed)
    asked = list(lists(many))
    done = subprocess.run(program, input=b"".join(draw.words([len(some)] + some) for some in asked),
                          stdout=subprocess.PIPE, check=True)
    at, differ = 0, []
    for some in asked:
        failed, length = struct.unpack_from("<II", done.stdout, at)
        body = done.stdout[at + 8:at + 8 + length]
        at += 8 + length
        if failed:
            differ.append((STEPS[failed], some))
        elif packed(body) != some or len(body) != packed_size(some):
            differ.append(("VByte is not the packed varints", some))
    for what, some in differ[:5]:
        print("%s: %s" % (what, some[:40]))
    print("interop: %d lists, %d differ" % (len(asked), len(differ)))
    return 1 if differ else 0


if __name__ == "__main__":
    sys.exit(main(sys.argv[1], *map(int, sys.argv[2:])))
