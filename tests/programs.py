"""Runs the two programs, as `rt ci` or `rt run` left them in their crates' out/, on further cases and compares what they print: written out here
where the document prints it, else with the independent reading.  Exit status 1 if any differ, or a refusal that can reach them was not seen
in each edition (0: accepted)."""

import pathlib
import random
import subprocess
import sys
sys.dont_write_bytecode = True
import reading as r

ROOT = pathlib.Path(__file__).resolve().parent.parent
LISTING, BOARD = {0, 1, 2, 3, 4, 9, 13}, {0, 1, 2, 3, 4, 9, 12, 13}
CAN_REACH = {("listing", 1): LISTING, ("listing", 2): LISTING, ("listing", "other"): {1},
             ("board", 1): BOARD, ("board", 2): BOARD, ("board", "other"): {1}}
ENTRY = bytes.fromhex("011101" + 13 * "00" + "03000000" "04000000")
# The document's listing example, 5, 5, 133, and one that edition 2 takes: 5, 6, 134.
EXAMPLE = {1: b"\1\1" + ENTRY + bytes.fromhex("05008001"), 2: b"\2\1" + ENTRY + bytes.fromhex("05018001")}
LISTED = {1: b"columns 1\ncolumn 0 rising plan 17 1 count 3 bytes 4\n0 5\n1 5\n2 133\nend\n",
          2: b"columns 1\ncolumn 0 rising plan 17 1 count 3 bytes 4\n0 5\n1 6\n2 134\nend\n"}
differ, runs, seen = 0, 0, {case: set() for case in CAN_REACH}


def plan(*numbers):
    return bytes(numbers) + bytes(15 - len(numbers))


def no(number, column=0):
    return b"refused %d column %d\n" % (number, column)


def sheet(edition, *columns):
    """A sheet of columns (kind, plan, list)."""
    orders = [(kind, plan(*text), len(numbers)) for kind, text, numbers in columns]
    return r.write(edition, orders, [x for _, _, numbers in columns for x in numbers], 7 * 1024, 65536)


def compare(program, name, given, expected):
    global differ, runs
    got = subprocess.run([ROOT / "run.sh", program], input=given, stdout=subprocess.PIPE, check=True).stdout
    runs += 1
    edition = given[0] if given and given[0] in r.EDITIONS else "other"
    seen[program, edition].add(int(got.split()[1]) if got.startswith(b"refused ") else 0)
    if got != expected:
        differ += 1
        print("%s, edition %s, %s: printed %r, expected %r" % (program, edition, name, got[:200], expected[:200]))


def both(name, given, listing=None, board=None):
    compare("listing", name, given, r.listing(given) if listing is None else listing)
    compare("board", name, given, r.board_text(given) if board is None else board)


def sample(name):
    return (ROOT / "samples" / (name + ".sheet")).read_bytes()


def changed(data, at, value):
    return data[:at] + bytes([value]) + data[at + 1:]


def written_out(edition):
    """Cases whose text stands in the document, or follows from its table at once."""
    start, example = bytes([edition]), EXAMPLE[edition]
    both("the edition alone", start, no(1), no(1))
    both("no columns", start + b"\0", b"columns 0\nend\n", no(12))
    both("the listing example", example, LISTED[edition], no(12))
    both("over 65,536 bytes", start + bytes(65536), no(1), no(1))
    both("far over 65,536 bytes", example + bytes(200000), no(1), no(1))
    both("a byte left over", example + b"\0", no(2), no(2))
    both("17 columns", start + b"\x11", no(1), no(1))
    both("table cut short", example[:20], no(2), no(2))
    both("kind 2", changed(example, 2, 2), no(2), no(2))
    both("an unknown number in a plan", changed(example, 4, 9), no(3), no(3))
    both("differences of kind 0", changed(example, 2, 0), no(4), no(4))
    both("a last byte of 0", changed(example, 29, 0), no(13), no(13))
    both("the last byte cut off, the table told so", changed(example[:-1], 22, 3), no(9), no(9))
    two = sheet(edition, (1, (17, 1), [1, 2]), (0, (1,), [0, 256]))
    both("a last byte of 0 in column 1", changed(two, len(two) - 1, 0), no(13, 1), no(13, 1))
    both("the last byte of column 1 cut off", changed(two[:-1], 46, 2), no(9, 1), no(9, 1))
    both("a malformed plan in column 1", changed(two, 27, 9), no(3, 1), no(3, 1))
    # 0 to 16 by code 7: four masks and 16 numbers, then a mask and the last
    batches = start + bytes.fromhex("01" "0007" + 14 * "00" + "11000000" "16000000" "FFFFFFFF"
                                    "000102030405060708090A0B0C0D0E0F" "0310")
    numbers = b"".join(b"%d %d\n" % (i, i) for i in range(17))
    both("four-wise", batches, b"columns 1\ncolumn 0 any plan 7 count 17 bytes 22\n" + numbers + b"end\n", no(12))
    both("four-wise, an unused field not 0", changed(batches, 46, 0x43), no(13), no(13))
    both("four-wise, cut in its last data", changed(batches[:-1], 22, 21), no(9), no(9))
    # 1024, 12, 10 by code 8: four data bytes, an end bit for the second, the third and the fourth, no sum
    direct = start + bytes.fromhex("01" "0008" + 14 * "00" + "03000000" "09000000" "04000000" "0E" "00040C0A")
    both("direct", direct, b"columns 1\ncolumn 0 any plan 8 count 3 bytes 9\n0 1024\n1 12\n2 10\nend\n", no(12))
    for number, name, at, value in ((13, "a spare bit", 30, 0x1E), (13, "the last bit 0", 30, 6), (13, "an end bit more", 30, 0x0F),
                                    (13, "a data byte less told", 26, 3), (9, "a data byte more told", 26, 5),
                                    (9, "2^24 data bytes more told", 29, 1), (13, "0 in two bytes", 32, 0),
                                    (13, "a number more in the table", 18, 4)):
        both("direct, " + name, changed(direct, at, value), no(number), no(number))
    # 130 of 2^24 by code 8: a sum of 128 after 65 bytes of bits
    long = sheet(edition, (0, (8,), 130 * [2**24]))
    text = b"columns 1\ncolumn 0 any plan 8 count 130 bytes 591\n" + b"".join(b"%d 16777216\n" % i for i in range(130)) + b"end\n"
    both("direct, a sum", long, text, no(12))
    for value in 127, 129, 0:
        both("direct, a sum of %d" % value, changed(long, 26 + 4 + 65, value), no(13), no(13))


def faults(edition):
    """Request P5: 9 is a body cut short, 13 any other body fault, in the order of reading; the table is true.  Boards are no other."""
    def column(kind, text, n, body):
        return kind, plan(*text), n, bytes.fromhex(body)

    def stands(*columns):
        table = b"".join(bytes([kind]) + text + r.u32(n) + r.u32(len(body)) for kind, text, n, body in columns)
        return bytes([edition, len(columns)]) + table + b"".join(body for _, _, _, body in columns)

    runs = "02 00 00 00 %02X 00 00 00"
    for number, name, *told in (
            (9, "VByte, no body", 0, (1,), 1, ""), (9, "VByte, more should follow", 0, (1,), 1, "80"),
            (13, "VByte, a last byte of 0", 0, (1,), 1, "80 00"), (13, "VByte, a fifth byte above 15", 0, (1,), 1, "80 80 80 80 80"),
            (13, "VByte, bytes left over", 0, (1,), 1, "05 80"), (13, "VByte, a broken number, then none", 0, (1,), 2, "80 00"),
            (9, "groups, an unused field, no data", 0, (2,), 1, "04"), (13, "groups, an unused field", 0, (2,), 1, "04 05"),
            (9, "G8IU, eight bytes, no number", 0, (3,), 1, "FF" + 7 * "00"), (13, "G8IU, no number", 0, (3,), 1, "FF" + 8 * "00"),
            (9, "Stream VByte, a control byte of two", 0, (4,), 5, "00"), (13, "Stream VByte, 5 in two bytes", 0, (4,), 1, "01 05 00"),
            (9, "gamma, 32 zeros", 0, (5,), 1, "00000000"), (13, "gamma, 33 zeros", 0, (5,), 1, "0000000000"),
            (9, "delta, a length of 33 alone", 0, (6,), 1, "0420"), (13, "delta, a length of 34 alone", 0, (6,), 1, "0440"),
            (9, "four-wise, masks cut", 0, (7,), 5, "FF"), (13, "four-wise, 5 in two bytes", 0, (7,), 1, "02 05 00"),
            (9, "direct, a header of three bytes", 0, (8,), 0, "000000"), (13, "direct, a byte left over", 0, (8,), 0, "0000000000"),
            (9, "reference, cut, a sum too large", 0, (16, 1), 2, "FFFFFFFF 01"), (13, "reference, not the least", 0, (16, 1), 1, "E8030000 01"),
            (9, "differences, a sum too large, then cut", 1, (17, 1), 3, "FFFFFFFF0F 01"),
            (13, "differences, a sum too large", 1, (17, 1), 2, "FFFFFFFF0F 01"),
            (9, "runs, a header of seven bytes", 0, (18, 1, 1), 1, "02000000 000000"), (13, "runs, more than the count", 0, (18, 1, 1), 1, runs % 9),
            (9, "runs, values past the body", 0, (18, 1, 1), 2, runs % 9 + "0708 0101"),
            (13, "runs, broken values, lengths cut", 0, (18, 1, 1), 2, runs % 3 + "800008 01"),
            (9, "runs, values cut, broken lengths", 0, (18, 1, 1), 2, runs % 1 + "07 8000"),
            (9, "runs, equal neighbours, lengths cut", 0, (18, 1, 1), 2, runs % 2 + "0707 01"),
            (13, "runs, equal neighbours", 0, (18, 1, 1), 2, runs % 2 + "0707 0101"),
            (13, "a fall", 1, (1,), 2, "0504"), (9, "a fall, then cut", 1, (1,), 3, "0504")):
        both(name, stands(column(*told)), no(number), no(number))
        both(name + ", in column 1", stands(column(0, (1,), 1, "07"), column(*told)), no(number, 1), no(number, 1))
        other = column(0, (1,), 1, "8000" if number == 9 else "80")             # a later column's fault, of the other sort
        both(name + ", then another", stands(column(*told), other), no(number), no(number))


def boards(edition):
    """Boards, likewise."""
    jobs = (1, (17, 1), [3, 4, 9, 10])

    def board(name, expected, *columns):
        compare("board", name, sheet(edition, *columns), expected)

    board("each ending", b"passed 1\nfailed 2\nkilled 0\nunended 1\n", jobs, (0, (1,), [0, 1, 255, 256]))
    board("124 and its neighbours", b"passed 0\nfailed 2\nkilled 2\nunended 0\n", jobs, (0, (1,), [123, 124, 125, 124]))
    board("1,024 killed", b"passed 0\nfailed 0\nkilled 1024\nunended 0\n", (1, (17, 4), list(range(1024))), (0, (18, 1, 1), 1024 * [124]))
    board("no jobs", b"passed 0\nfailed 0\nkilled 0\nunended 0\n", (1, (1,), []), (0, (1,), []))
    board("endings that rise", b"passed 1\nfailed 1\nkilled 1\nunended 1\n", jobs, (1, (17, 1), [0, 1, 124, 256]))
    board("an ending of 257", no(12), jobs, (0, (1,), [0, 1, 255, 257]))
    board("counts that differ", no(12), jobs, (0, (1,), [0, 1, 255]))
    board("job numbers of kind 0", no(12), (0, (1,), jobs[2]), (0, (1,), 4 * [0]))
    board("equal job numbers of kind 0", no(12), (0, (1,), [3, 4, 4, 9]), (0, (1,), 4 * [0]))


def editions():
    """Request P3: byte 0 is 1 or 2, and equal neighbours of kind 1 are a fault in edition 2."""
    both("empty input", b"", no(1), no(1))
    both("65,536 bytes that are no sheet", bytes(65536), no(1), no(1))
    for edition in 0, 3, 255:
        both("edition %d" % edition, bytes([edition, 0]), no(1), no(1))
        both("edition %d with a column" % edition, changed(EXAMPLE[1], 0, edition), no(1), no(1))
    both("the listing example in edition 2", changed(EXAMPLE[1], 0, 2), no(13), no(13))
    both("edition 2's example in edition 1", changed(EXAMPLE[2], 0, 1), LISTED[2], no(12))
    night = (1, (17, 4), [3, 4, 9, 10]), (0, (1,), [0, 124, 3, 256])
    text = (b"columns 2\ncolumn 0 rising plan 17 4 count 4 bytes 5\n0 3\n1 4\n2 9\n3 10\n"
            b"column 1 any plan 1 count 4 bytes 5\n0 0\n1 124\n2 3\n3 256\nend\n")
    for edition in r.EDITIONS:
        both("the same night", sheet(edition, *night), text, b"passed 1\nfailed 1\nkilled 1\nunended 1\n")
    same_job = sheet(1, (1, (1,), [3, 4, 4, 9]), night[1])
    text = (b"columns 2\ncolumn 0 rising plan 1 count 4 bytes 4\n0 3\n1 4\n2 4\n3 9\n"
            b"column 1 any plan 1 count 4 bytes 5\n0 0\n1 124\n2 3\n3 256\nend\n")
    both("equal job numbers", same_job, text, no(12))
    both("equal job numbers in edition 2", changed(same_job, 0, 2), no(13), no(13))
    risen = sheet(1, night[0], (1, (17, 1), [0, 0, 0, 256]))
    compare("board", "equal endings that rise", risen, b"passed 3\nfailed 0\nkilled 0\nunended 1\n")
    both("equal endings that rise in edition 2", changed(risen, 0, 2), no(13, 1), no(13, 1))


def stopped(night, less):
    """A night without so many bytes of its last body, and the table says so."""
    at = 2 + 2 * r.entry_size(night[0]) + 20
    return night[:at] + r.u32(r.fetch(night, 2)[1] - less) + night[at + 4:len(night) - less]


def damaged(rounds):
    """A night's sheet in either edition, or directly addressed, with a few bytes changed, or cut, with the table told of it or not:
    compared with the reading."""
    nights, rnd = [sample("night"), sample("strict"), sample("direct")], random.Random(1)
    for i in range(rounds):
        data = nights[i % 3]
        if rnd.randrange(8) == 0:
            data = changed(data, 0, rnd.choice([0, 1, 1, 2, 2, 3]))
        for _ in range(rnd.randrange(3)):
            data = changed(data, rnd.randrange(len(data)), rnd.choice([0, 1, 2, 17, 128, 255, rnd.randrange(256)]))
        both("damaged %d" % i, data if rnd.randrange(5) else data[:rnd.randrange(len(data))])
        data = stopped(nights[i % 3], rnd.choice([1, 2, 5, rnd.randrange(200)]))
        for _ in range(rnd.randrange(3)):                   # in the bodies, so that the table stays true
            data = changed(data, rnd.randrange(2 + 3 * r.entry_size(data[0]), len(data)), rnd.choice([0, 1, 128, 255, rnd.randrange(256)]))
        both("stopped %d" % i, data)


def samples():
    for edition in r.EDITIONS:
        full = sheet(edition, (0, (18, 2, 3), [x // 7 * 99991 for x in range(1024)]), (0, (7,), [x * 99991 for x in range(1024)]),
                     (0, (8,), [x * x * 4093 for x in range(1024)]), *13 * [(1, (17, 5), list(range(1024)))])
        both("16 columns of 1,024 numbers", full)
    night = sample("night")
    both("night", night)
    both("strict, which is night in edition 2", sample("strict"), r.listing(night), r.board_text(night))
    both("direct, which is night but for its plans and its times", sample("direct"), board=r.board_text(night))
    for name, line in ("damaged", no(13, 2)), ("stopped", no(9, 2)), ("cut", no(2)), ("twice", no(13)):
        both(name, sample(name), line, line)


for edition in r.EDITIONS:
    written_out(edition)
    faults(edition)
    boards(edition)
editions()
samples()
damaged(75)
for case in CAN_REACH:
    if seen[case] != CAN_REACH[case]:
        differ += 1
        print("%s, edition %s: refusals seen %s, that can reach it %s" % (*case, sorted(seen[case]), sorted(CAN_REACH[case])))
print("programs: %d runs, %d differ" % (runs, differ))
sys.exit(1 if differ else 0)
