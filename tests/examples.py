"""Runs every marked example of the document, its listing example, each of its "Errors seen in
earlier code", the decisions 1 to 13 and the examples of requests P1 (code 7) to P5 (9 for a body cut
short, 13 for any other body fault) against the reading.
Exit status 1 if any differ."""

import sys
sys.dont_write_bytecode = True
import reading as r

CASES = []
MAX = 4294967295


def case(name, got, expected):
    CASES.append((name, got, expected))


def hexa(text):
    return bytes.fromhex(text)


def of(f, *args):
    """The answer of f, or ('refused', number)."""
    try:
        return f(*args)
    except r.Refused as e:
        return ("refused", e.number)


def named(f, *args):
    """The answer of f, or ('refused', number, column)."""
    try:
        return f(*args)
    except r.Refused as e:
        return ("refused", e.number, e.column)


def plan(*numbers):
    """A plan zero-filled to 15."""
    return bytes(numbers) + bytes(15 - len(numbers))


def tree(*numbers):
    return r.parse_plan(plan(*numbers))


def sheet(*columns, edition=1):
    """A sheet as it stands, nothing judged: columns (kind, plan15, count, body)."""
    table = b"".join(bytes([kind]) + p + r.u32(count) + r.u32(len(body))
                     for kind, p, count, body in columns)
    return bytes([edition, len(columns)]) + table + b"".join(column[3] for column in columns)


def code_example(name, code, numbers, text):
    """Written, read back, and looked up at every place."""
    body = hexa(text)
    case(name + " written", r.write_code(code, numbers), body)
    case(name + " read", of(r.read_code, code, body, len(numbers)), numbers)
    case(name + " looked up",
         [of(r.lookup_code, code, body, len(numbers), i) for i in range(len(numbers))], numbers)


def plan_example(name, t, numbers, text):
    body = hexa(text)
    case(name + " written", r.write_plan(t, numbers), body)
    case(name + " read", of(r.read_plan, t, body, len(numbers)), numbers)
    case(name + " looked up",
         [of(r.lookup_plan, t, body, len(numbers), i) for i in range(len(numbers))], numbers)


R = lambda number: ("refused", number)
NONE = bytes(15)

# ------------------------------------------------------------ marked examples

code_example("* VByte 32", 1, [32], "20")
code_example("* VByte 128", 1, [128], "80 01")
code_example("* VByte 4294967295", 1, [MAX], "FF FF FF FF 0F")
case("VByte 80 00 read", of(r.read_code, 1, hexa("80 00"), 1), R(13))
case("VByte 80 00 looked up", of(r.lookup_code, 1, hexa("80 00"), 1, 0), R(13))
case("VByte fifth byte 10 read", of(r.read_code, 1, hexa("FF FF FF FF 10"), 1), R(13))
case("VByte fifth byte 10 looked up", of(r.lookup_code, 1, hexa("FF FF FF FF 10"), 1, 0), R(13))
EIGHT = [1024, 12, 10, 1073741824, 1, 2, 3, 1024]
code_example("* Stream VByte of 001", 4, EIGHT, "C1 40 00 04 0C 0A 00 00 00 40 01 02 03 00 04")
code_example("* groups of 001", 2, EIGHT, "C1 00 04 0C 0A 00 00 00 40 40 01 02 03 00 04")
code_example("* G8IU 1, 2, 3, 1024", 3, [1, 2, 3, 1024], "E8 01 02 03 00 04 00 00 00")
code_example("* gamma 6, 5", 5, [6, 5], "39 80")
code_example("* gamma 4294967295", 5, [MAX], "00 00 00 00 80 00 00 00 00")
code_example("* delta 6", 6, [6], "78")
code_example("* delta 4294967295", 6, [MAX], "04 20 00 00 00 00")
plan_example("* plan 18 1 1 on 7, 7, 7, 9", tree(18, 1, 1), [7, 7, 7, 9],
             "02 00 00 00 02 00 00 00 07 09 03 01")
plan_example("* plan 16 1 on 1000, 1002", tree(16, 1), [1000, 1002], "E8 03 00 00 00 02")
case("plan 16 1 ending 01 02", of(r.read_plan, tree(16, 1), hexa("E8 03 00 00 01 02"), 2), R(13))
case("plan 16 16 16 1", r.judge(0, plan(16, 16, 16, 1)), 0)
case("plan 16 16 16 16", r.judge(0, plan(16, 16, 16, 16)), 3)
case("plan 16 16 16 16 1", r.judge(0, plan(16, 16, 16, 16, 1)), 3)
case("plan 17 1 under kind 0", r.judge(0, plan(17, 1)), 4)
case("sheet 01 00 passes", named(r.check, hexa("01 00"), 0), None)
case("sheet 01 00 written", of(r.write, 1, [], [], 0, 2), hexa("01 00"))

LISTED = hexa("01 01" "01 11 01" + 13 * "00" + "03 00 00 00 04 00 00 00" "05 00 80 01")
LISTING = b"""columns 1
column 0 rising plan 17 1 count 3 bytes 4
0 5
1 5
2 133
end
"""
case("listing example", r.listing(LISTED), LISTING)
case("listing example written", of(r.write, 1, [(1, NONE, 3)], [5, 5, 133], 21, 30), LISTED)
case("listing example read", of(r.read, LISTED, 0, 21, 3), [5, 5, 133])
case("listing example fetched", of(r.fetch, LISTED, 0), (26, 4))

# ------------------------------------------------------------ errors seen in earlier code

FIVE = sheet((0, plan(2), 5, hexa("00 01 02 03 04 00 05")))
case("empty fields: five written", of(r.write, 1, [(0, plan(2), 5)], [1, 2, 3, 4, 5], 35, 99), FIVE)
case("empty fields: five read", of(r.read, FIVE, 0, 35, 5), [1, 2, 3, 4, 5])
case("empty fields: place 4", of(r.lookup, FIVE, 0, 4), 5)
case("empty fields: place 5", of(r.lookup, FIVE, 0, 5), R(6))
case("empty fields: stream of five", r.write_code(4, [1, 2, 3, 4, 5]), hexa("00 00 01 02 03 04 05"))
for code, text in ((2, "00 01 02 03 04 %s 05"), (4, "00 %s 01 02 03 04 05")):
    for control in ("04", "10", "40", "C0"):
        body = hexa(text % control)
        name = "empty fields: code %d control %s " % (code, control)
        case(name + "read", of(r.read_code, code, body, 5), R(13))
        case(name + "place 3", of(r.lookup_code, code, body, 5, 3), 4)
        case(name + "place 4", of(r.lookup_code, code, body, 5, 4), R(13))

for code, size in ((5, 9), (6, 6)):
    body = r.write_code(code, [MAX])
    case("one added to 4294967295: code %d size" % code, len(body), size)
    case("one added to 4294967295: code %d read" % code, of(r.read_code, code, body, 1), [MAX])
    case("one added to 4294967295: code %d of 0" % code, r.write_code(code, [0]), hexa("80"))
case("gamma v 2^32 + 1", of(r.read_code, 5, hexa("00 00 00 00 80 00 00 00 80"), 1), R(13))
case("gamma 33 zeros", of(r.read_code, 5, hexa("00 00 00 00 40 00 00 00 00"), 1), R(13))
case("delta v 2^32 + 1", of(r.read_code, 6, hexa("04 20 00 00 00 20"), 1), R(13))
case("delta bit length 34", of(r.read_code, 6, hexa("04 40 00 00 00 00"), 1), R(13))

case("end bit of 002: 32 is not A0", r.write_code(1, [32]) == hexa("A0"), False)
case("end bit of 002: 128 is not 00 81", r.write_code(1, [128]) == hexa("00 81"), False)
case("end bit of 002: A0 read", of(r.read_code, 1, hexa("A0"), 1), R(9))
case("end bit of 002: 00 81 read", of(r.read_code, 1, hexa("00 81"), 1), R(13))

ROOM = hexa("E0 01 02 03 04 05 00 00 00" "FE 06 00 00 00 00 00 00 00")
case("room in a block: written", r.write_code(3, [1, 2, 3, 4, 5, 6]),
     hexa("C0 01 02 03 04 05 06 00 00"))
case("room in a block: read", of(r.read_code, 3, ROOM, 6), R(13))
case("room in a block: looked up", [of(r.lookup_code, 3, ROOM, 6, i) for i in range(6)],
     [1, 2, 3, 4, 5, 6])
ROOMY = sheet((0, plan(3), 6, ROOM))
case("room in a block: check", named(r.check, ROOMY, 48), ("refused", 13, 0))
case("room in a block: reader", r.calls(ROOMY, 0, 8),
     [("number", i) for i in range(1, 7)] + 2 * [R(6)])
for name, text, numbers in (
        ("1 byte into 1", "80 01 02 03 04 05 06 07 00" "FE 08 00 00 00 00 00 00 00",
         [1, 2, 3, 4, 5, 6, 7, 8]),
        ("3 bytes into 3", "E0 01 02 03 04 05 00 00 00" "FB 00 00 01 00 00 00 00 00",
         [1, 2, 3, 4, 5, 65536])):
    n = len(numbers)
    case("room in a block: %s read" % name, of(r.read_code, 3, hexa(text), n), R(13))
    case("room in a block: %s looked up" % name,
         [of(r.lookup_code, 3, hexa(text), n, i) for i in range(n)], numbers)
code_example("no room in a block", 3, [1, 2, 3, 4, 5, 1 << 24],
             "E0 01 02 03 04 05 00 00 00" "F7 00 00 00 01 00 00 00 00")

# ------------------------------------------------------------ G8IU blocks by their own rules

for name, text, n in (("no zero bit", "FF 00 00 00 00 00 00 00 00", 1),
                      ("waste not 0", "FE 06 00 00 00 00 00 00 01", 1),
                      ("a number beyond the list", "FC 06 07 00 00 00 00 00 00", 1),
                      ("waste of 4, list goes on", "F0 01 02 03 04 00 00 00 00"
                                                   "F7 00 00 00 01 00 00 00 00", 5),
                      ("a number beyond the list, little waste",
                       "E0 01 02 03 04 05 00 00 00", 4),
                      ("not fewest bytes", "FD 06 00 00 00 00 00 00 00", 1),
                      ("eight bytes, waste not 0", "FE 06 00 00 00 00 00 01", 1),
                      ("block cut short", "FE 06 00 00 00 00 00 00", 1)):
    number = R(9 if len(hexa(text)) % 9 else 13)        # nine bytes first
    case("G8IU " + name + " read", of(r.read_code, 3, hexa(text), n), number)
    case("G8IU " + name + " looked up", of(r.lookup_code, 3, hexa(text), n, 0), number)

# ------------------------------------------------------------ four-wise batches (request P1)

code_example("four-wise eight of 001", 7, EIGHT, "3E BF 00 04 0C 0A 00 00 00 40 01 02 03 00 04")
code_example("four-wise 0", 7, [0], "03 00")
code_example("four-wise 0 to 16", 7, list(range(17)),
             "FF FF FF FF 00 01 02 03 04 05 06 07 08 09 0A 0B 0C 0D 0E 0F" "03 10")
code_example("four-wise 4294967295", 7, [MAX], "00 FF FF FF FF")
code_example("four-wise 1 to 4 bytes", 7, [255, 65535, 2**24 - 1, 2**24],
             "1B FF FF FF FF FF FF 00 00 00 01")
code_example("four-wise five, 004's z of 2, 3, 1, 3 lowest first", 7, [256, 0, 2**16, 1, 2],
             "DE 03 00 01 00 00 00 01 01 02")

FAULTY_BATCHES = (                                  # the only batch at fault, however it is asked
    (9, "no mask", "", 1),
    (9, "cut in masks", "FF", 5),
    (9, "cut in masks, four due", "FF FF FF", 13),
    (9, "masks alone", "FF 03", 5),
    (9, "cut in data", "FF 03 01 02 03 04", 5),
    (9, "cut within a number", "02 00", 1),
    (13, "second field not 0", "07 05", 1),
    (13, "third field not 0", "13 05", 1),
    (13, "fourth field not 0", "43 05", 1),
    (13, "last field not 0", "FF C3 01 02 03 04 05", 5),
    (13, "second field not 0 and its data", "0F 05 06", 1),
    (9, "second field not 0, cut in the first's data", "06 05", 1),
    (9, "last field not 0, cut in data", "FF C3 01 02 03 04", 5),
    (13, "0 in two bytes", "02 00 00", 1),
    (13, "5 in two bytes", "02 05 00", 1),
    (13, "256 in three bytes", "01 00 01 00", 1),
    (13, "65536 in four bytes", "00 00 00 01 00", 1),
    (13, "the fourth number a byte too long", "BF 01 02 03 04 00", 4),
    (9, "the first number a byte too long, the fourth cut", "FE 05 00 02 03", 4),
    (9, "length minus one for zero bytes", "C1 00 04 0C 0A 00 00 00 40", 4),
    (13, "004's mask, its first field highest", "B7 00 01 00 00 00 01 01", 4))
for number, name, text, n in FAULTY_BATCHES:
    case("four-wise " + name + " read", of(r.read_code, 7, hexa(text), n), R(number))
    case("four-wise " + name + " looked up",
         [of(r.lookup_code, 7, hexa(text), n, i) for i in range(n)], n * [R(number)])
case("four-wise byte left over read", of(r.read_code, 7, hexa("03 05 00"), 1), R(13))
case("four-wise byte left over looked up", of(r.lookup_code, 7, hexa("03 05 00"), 1, 0), 5)
case("four-wise a whole batch left over read", of(r.read_code, 7, hexa("03 05 03 06"), 1), R(13))

BATCH = "FF FF FF FF 00 01 02 03 04 05 06 07 08 09 0A 0B 0C 0D 0E 0F "      # 0 to 15
for number, name, text in ((9, "nothing", ""), (9, "cut in data", "03"), (13, "unused field", "13 10"),
                           (9, "unused field, cut in data", "13"), (13, "a byte too many", "02 10 00")):
    body = hexa(BATCH + text)
    case("four-wise second batch %s: read" % name, of(r.read_code, 7, body, 17), R(number))
    case("four-wise second batch %s: looked up" % name,
         [of(r.lookup_code, 7, body, 17, i) for i in range(17)], list(range(16)) + [R(number)])
# The sixteenth number of the first batch at fault: a byte too long, then cut off.
for number, name, text in ((13, "a byte too many", BATCH.replace("FF 00", "BF 00") + "00 03 10"),
                           (9, "cut", BATCH[:-3])):
    case("four-wise later in the batch, %s: looked up" % name,
         [of(r.lookup_code, 7, hexa(text), 17, i) for i in range(17)], 17 * [R(number)])
TWICE = "FF FF FF FF " + 16 * "07 "
case("four-wise masks of both batches first read",
     of(r.read_code, 7, hexa("FF FF FF FF FF FF FF FF" + 32 * "07"), 32), R(9))
code_example("four-wise two full batches", 7, 32 * [7], TWICE + TWICE)
code_example("four-wise two full batches and three", 7, 35 * [7], TWICE + TWICE + "3F 07 07 07")
plan_example("plan 16 7 on 1000, 1002", tree(16, 7), [1000, 1002], "E8 03 00 00 0F 00 02")
plan_example("plan 17 7 on 5, 5, 133", tree(17, 7), [5, 5, 133], "3F 05 00 80")
plan_example("plan 18 7 7 on 7, 7, 7, 9", tree(18, 7, 7), [7, 7, 7, 9],
             "02 00 00 00 03 00 00 00 0F 07 09 0F 03 01")
SEVEN = sheet((0, plan(7), 17, hexa(BATCH + "03 10")))
case("four-wise sheet written", of(r.write, 1, [(0, plan(7), 17)], list(range(17)), 119, 48), SEVEN)
case("four-wise sheet read", of(r.read, SEVEN, 0, 119, 17), list(range(17)))
case("four-wise sheet with a byte changed: check", named(r.check, SEVEN[:-1] + b"\0", 136), None)
case("four-wise sheet with a mask changed: check",
     named(r.check, SEVEN[:-2] + hexa("07 10"), 136), ("refused", 13, 0))
case("four-wise sheet with a mask changed: reader", r.calls(SEVEN[:-2] + hexa("07 10"), 0, 18),
     [("number", i) for i in range(16)] + 2 * [R(13)])

# ------------------------------------------------------------ directly addressed lists (request P4)

code_example("direct 1024, 12, 10", 8, [1024, 12, 10], "04 00 00 00 0E 00 04 0C 0A")
code_example("direct 0", 8, [0], "01 00 00 00 01 00")
code_example("direct 255, 256, 4294967295", 8, [255, 256, MAX], "07 00 00 00 45 FF 00 01 FF FF FF FF")
code_example("direct eight of 001", 8, EIGHT, "0D 00 00 00 8E 17 00 04 0C 0A 00 00 00 40 01 02 03 00 04")
code_example("direct 1 to 4 bytes", 8, [255, 65535, 2**24 - 1, 2**24],
             "0A 00 00 00 25 02 FF FF FF FF FF FF 00 00 00 01")
code_example("direct 4294967295", 8, [MAX], "04 00 00 00 08 FF FF FF FF")
code_example("direct 0 to 7, no spare bits", 8, list(range(8)), "08 00 00 00 FF 00 01 02 03 04 05 06 07")
code_example("direct 0 to 8", 8, list(range(9)), "09 00 00 00 FF 01 00 01 02 03 04 05 06 07 08")

FAULTY_DIRECT = (                                       # every place is at fault
    (9, "no body", "", 1),
    (9, "header cut short", "01 00 00", 1),
    (9, "header alone", "01 00 00 00", 1),
    (9, "bits alone", "01 00 00 00 01", 1),
    (9, "bits cut short", "09 00 00 00 FF", 9),
    (13, "no data bytes, as many due", "00 00 00 00", 1),
    (13, "no data bytes told", "00 00 00 00 01 05", 1),
    (9, "a data byte short", "04 00 00 00 0E 00 04 0C", 3),
    (9, "a data byte more told", "05 00 00 00 0E 00 04 0C 0A", 3),
    (9, "2^32 - 1 data bytes told", "FF FF FF FF 0E 00 04 0C 0A", 3),
    (9, "2^32 - 4 data bytes told", "FC FF FF FF 0E 00 04 0C 0A", 3),
    (9, "2^31 data bytes told", "00 00 00 80 0E 00 04 0C 0A", 3),
    (9, "2^29 more data bytes told", "04 00 00 20 0E 00 04 0C 0A", 3),
    (9, "parts that end 9 bytes after 2^32", "8D A6 C4 E2 0E 00 04 0C 0A", 3),
    (9, "told highest byte first", "00 00 00 04 0E 00 04 0C 0A", 3),
    (9, "a data byte short, no end bit", "04 00 00 00 00 00 04 0C", 3),
    (9, "a data byte short, a spare bit, 0 in two bytes", "04 00 00 00 1E 00 00 0C", 3),
    (13, "no end bit", "04 00 00 00 00 00 04 0C 0A", 3),
    (13, "bits highest first", "04 00 00 00 70 00 04 0C 0A", 3),
    (13, "the end bit is a spare one", "01 00 00 00 02 05", 1),
    (13, "0 in two bytes", "02 00 00 00 02 00 00", 1),
    (13, "5 in two bytes", "02 00 00 00 02 05 00", 1),
    (13, "256 in three bytes", "03 00 00 00 04 00 01 00", 1),
    (13, "65536 in four bytes", "04 00 00 00 08 00 00 01 00", 1),
    (13, "five bytes", "05 00 00 00 10 01 02 03 04 05", 1),
    (13, "five bytes, the fifth 0", "05 00 00 00 10 01 02 03 04 00", 1),
    (13, "nine bytes", "09 00 00 00 00 01 01 02 03 04 05 06 07 08 09", 1))
for number, name, text, n in FAULTY_DIRECT:
    case("direct " + name + " read", of(r.read_code, 8, hexa(text), n), R(number))
    case("direct " + name + " looked up",
         [of(r.lookup_code, 8, hexa(text), n, i) for i in range(n)], n * [R(number)])

LOOSE = (                       # refused by reading; a lookup asks its own number alone
    ("spare bit", "04 00 00 00 1E 00 04 0C 0A", [1024, 12, 10]),
    ("the last spare bit", "04 00 00 00 8E 00 04 0C 0A", [1024, 12, 10]),
    ("byte left over", "04 00 00 00 0E 00 04 0C 0A 00", [1024, 12, 10]),
    ("the last bit 0", "05 00 00 00 0E 00 04 0C 0A 07", [1024, 12, 10]),
    ("a number beyond the count", "04 00 00 00 0E 00 04 0C 0A", [1024, 12]),
    ("all numbers beyond the count", "04 00 00 00 0E 00 04 0C 0A", []),
    ("fewer than the count", "04 00 00 00 0E 00 04 0C 0A", [1024, 12, 10, R(13)]),
    ("the first 0 in two bytes", "04 00 00 00 0E 00 00 0C 0A", [R(13), 12, 10]),
    ("the second 5 in two bytes", "04 00 00 00 0D 01 05 00 03", [1, R(13), 3]),
    ("five bytes, then 6", "06 00 00 00 30 01 02 03 04 05 06", [R(13), 6]),
    ("1, then five bytes, then 7", "07 00 00 00 61 01 02 03 04 05 06 07", [1, R(13), 7]),
    ("ends told by 0", "04 00 00 00 F1 00 04 0C 0A", [0, R(13), R(13)]),
    ("a sum for bits that are not full", "04 00 00 00 0E 03 00 00 04 0C 0A", [R(13), 0, 4]),
    ("an empty list with a data byte", "01 00 00 00 01 05", []),
    ("an empty list with a bit", "01 00 00 00 00 05", []),
    ("an empty list with a byte", "00 00 00 00 00", []),
    ("an empty list with no header", "", []),
    ("an empty list cut short", "00 00 00", []))
for name, text, found in LOOSE:
    body, n = hexa(text), len(found)
    number = R(9 if len(body) < 4 else 13)              # the header first
    case("direct " + name + " read", of(r.read_code, 8, body, n), number)
    case("direct " + name + " looked up", [of(r.lookup_code, 8, body, n, i) for i in range(n)], found)
code_example("direct empty", 8, [], "00 00 00 00")

# Stages ask code 8 place by place: a fault at one place is no fault at the next but where both are asked.
SECOND = "04 00 00 00 0D 01 05 00 03"                   # 1, then 5 in two bytes, then 3
ONES = "01 01 01"
for p, text, n, found in (
        ((16, 8), "0A 00 00 00" + SECOND, 3, [11, R(13), 13]),
        ((17, 8), SECOND, 3, [1, R(13), R(13)]),
        ((17, 16, 8), "0A 00 00 00" + SECOND, 3, [11, R(13), R(13)]),
        ((18, 8, 1), "03 00 00 00 09 00 00 00" + SECOND + "01 02 01", 4, [1, R(13), R(13), 3]),
        ((18, 16, 8, 1), "03 00 00 00 0D 00 00 00 0A 00 00 00" + SECOND + ONES, 3, [11, R(13), 13]),
        ((18, 17, 8, 1), "03 00 00 00 09 00 00 00" + SECOND + ONES, 3, [1, R(13), R(13)]),
        ((17, 18, 8, 1), "03 00 00 00 09 00 00 00" + SECOND + ONES, 3, [1, R(13), R(13)]),
        ((18, 1, 8), "03 00 00 00 03 00 00 00 07 08 09" + SECOND, 9, [7] + 8 * [R(13)]),
        ((18, 18, 8, 1, 1), "03 00 00 00 14 00 00 00" "03 00 00 00 09 00 00 00" + SECOND + ONES
                            + "02 01 02", 5, [1, 1, R(13), 3, 3]),
        ((18, 1, 18, 8, 1), "03 00 00 00 03 00 00 00 07 08 09" "03 00 00 00 09 00 00 00" + SECOND + ONES,
         9, [7] + 8 * [R(13)])):
    body, name = hexa(text), "direct, one place at fault under %s " % " ".join(map(str, p))
    case(name + "read", of(r.read_plan, tree(*p), body, n), R(13))
    case(name + "looked up", [of(r.lookup_plan, tree(*p), body, n, i) for i in range(n)], found)
plan_example("plan 16 8 on 1000, 1002", tree(16, 8), [1000, 1002], "E8 03 00 00 02 00 00 00 03 00 02")
plan_example("plan 17 8 on 5, 5, 133", tree(17, 8), [5, 5, 133], "03 00 00 00 07 05 00 80")
plan_example("plan 17 16 8 on 5, 10, 15", tree(17, 16, 8), [5, 10, 15],
             "05 00 00 00 03 00 00 00 07 00 00 00")
plan_example("plan 18 8 1 on 7, 7, 7, 9", tree(18, 8, 1), [7, 7, 7, 9],
             "02 00 00 00 07 00 00 00 02 00 00 00 03 07 09 03 01")
plan_example("plan 18 1 8 on 7, 7, 7, 9", tree(18, 1, 8), [7, 7, 7, 9],
             "02 00 00 00 02 00 00 00 07 09 02 00 00 00 03 03 01")
plan_example("plan 18 8 8 on 7, 7, 7, 9", tree(18, 8, 8), [7, 7, 7, 9],
             "02 00 00 00 07 00 00 00 02 00 00 00 03 07 09 02 00 00 00 03 03 01")
for p, text in (((16, 8), "00000000 00000000"), ((17, 8), "00000000"), ((17, 16, 8), "00000000 00000000"),
                ((18, 8, 1), "00000000 04000000 00000000"), ((18, 1, 8), "00000000 00000000 00000000"),
                ((18, 8, 8), "00000000 04000000 00000000 00000000")):
    plan_example("5 empty " + " ".join(map(str, p)), tree(*p), [], text)


def direct(bits, sums, data):
    """A body as it stands: its bits as 0 and 1."""
    packed = sum(bit << i for i, bit in enumerate(bits)).to_bytes(r.up(len(bits), 8), "little")
    return r.u32(len(data)) + packed + b"".join(x.to_bytes(2, "little") for x in sums) + bytes(data)


def looked(body, n):
    return [of(r.lookup_code, 8, body, n, i) for i in range(n)]


# Lists around 512 and 1,024 bits.
code_example("direct 511 one-byte", 8, 511 * [7], "FF 01 00 00" + 63 * "FF" + "7F" + 511 * "07")
code_example("direct 512 one-byte", 8, 512 * [7], "00 02 00 00" + 64 * "FF" + "00 02" + 512 * "07")
code_example("direct 513 one-byte", 8, 513 * [7], "01 02 00 00" + 64 * "FF" + "01 00 02" + 513 * "07")
code_example("direct 1,023 one-byte", 8, 1023 * [7],
             "FF 03 00 00" + 127 * "FF" + "7F" "00 02" + 1023 * "07")
code_example("direct 1,024 one-byte", 8, 1024 * [7],
             "00 04 00 00" + 128 * "FF" + "00 02 00 04" + 1024 * "07")
code_example("direct 127 four-byte", 8, 127 * [MAX], "FC 01 00 00" + 63 * "88" + "08" + 508 * "FF")
code_example("direct 128 four-byte", 8, 128 * [MAX], "00 02 00 00" + 64 * "88" + "80 00" + 512 * "FF")
code_example("direct 129 four-byte", 8, 129 * [MAX], "04 02 00 00" + 64 * "88" + "08 80 00" + 516 * "FF")
code_example("direct 256 four-byte", 8, 256 * [MAX],
             "00 04 00 00" + 128 * "88" + "80 00 00 01" + 1024 * "FF")
code_example("direct 1,024 four-byte", 8, 1024 * [MAX], "00 10 00 00" + 512 * "88"
             + "80 00 00 01 80 01 00 02 80 02 00 03 80 03 00 04" + 4096 * "FF")
# A number of four bytes of which 0 to 4 stand in the second stretch.
for before, bits, told in ((508, "8F", "FD 01"), (509, "1F 01", "FD 01"), (510, "3F 02", "FE 01"),
                           (511, "7F 04", "FF 01"), (512, "FF 08", "00 02")):
    code_example("direct %d and one of four bytes" % before, 8, before * [7] + [2**24],
                 "%02X 02 00 00" % (before - 508) + 63 * "FF" + bits + told + before * "07" + "00 00 00 01")

# 256 to 855, two bytes each: stretches of 256, 256 and 88 numbers.
TWOS = list(range(256, 856))
PAIRS, PAIR_DATA = 600 * [0, 1], b"".join(x.to_bytes(2, "little") for x in TWOS)
case("direct 600 of two bytes written", r.write_code(8, TWOS), direct(PAIRS, [256, 512], PAIR_DATA))
FIRST, MIDDLE, LAST = TWOS[:256], TWOS[256:512], TWOS[512:]
for sums, found in (                # a false sum is a fault to reading, and a lookup goes by it
        ((255, 512), FIRST[:255] + MIDDLE + [R(13)] + LAST),             # the stretch lacks that end bit
        ((257, 512), FIRST + [R(13)] + MIDDLE[:255] + LAST),
        ((0, 512), MIDDLE + 256 * [R(13)] + LAST),
        ((256, 511), FIRST + MIDDLE[:255] + LAST + [R(13)]),
        ((256, 513), FIRST + MIDDLE + [R(13)] + LAST[:87]),
        ((256, 256), FIRST + LAST + 256 * [R(13)]),                      # nothing in the middle
        ((256, 0), FIRST + 344 * [R(13)]),
        ((256, 65535), FIRST + MIDDLE + 88 * [R(13)]),                   # nothing after the last sum
        ((65535, 512), FIRST + 344 * [R(13)]),
        ((512, 256), FIRST + 344 * [R(13)]),                             # they fall
        ((300, 200), FIRST + 344 * [R(13)]),
        ((300, 256), FIRST + 44 * [R(13)] + LAST[44:] + 256 * [R(13)]),
        ((200, 100), FIRST[:200] + 400 * [R(13)]),
        ((0, 0), LAST + 512 * [R(13)]),
        ((2, 1), FIRST[:2] + LAST[1:] + 511 * [R(13)]),
        ((1, 514), FIRST[:1] + MIDDLE + 257 * [R(13)] + LAST[:86]),
        ((512, 513), FIRST + 256 * [R(13)] + MIDDLE[:1] + LAST[:87])):
    body, name = direct(PAIRS, sums, PAIR_DATA), "direct sums %d and %d " % sums
    case(name + "read", of(r.read_code, 8, body, 600), R(13))
    case(name + "looked up", looked(body, 600), found)
    case(name + "checked", named(r.check, sheet((0, plan(8), 600, body)), 4800), ("refused", 13, 0))
EXCLUSIVE = direct(PAIRS, (0, 256), PAIR_DATA)          # the ones before them alone
case("direct sums of the ones before read", of(r.read_code, 8, EXCLUSIVE, 600), R(13))
case("direct sums of the ones before looked up", looked(EXCLUSIVE, 600),
     MIDDLE + LAST + 256 * [R(13)])
case("direct sums highest byte first read",
     of(r.read_code, 8, direct(PAIRS, (0x0001, 0x0002), PAIR_DATA), 600), R(13))
case("direct a third sum for the rest read",
     of(r.read_code, 8, direct(PAIRS, (256, 512, 600), PAIR_DATA), 600), R(13))
case("direct the last sum left out read", of(r.read_code, 8, direct(PAIRS, (256,), PAIR_DATA), 600), R(9))
EVEN = direct(PAIRS[:1024], (256, 600), PAIR_DATA[:1024])               # no bits after the last sum
case("direct the last sum too large read", of(r.read_code, 8, EVEN, 512), R(13))
case("direct the last sum too large looked up", looked(EVEN, 512), TWOS[:512])
EVEN = direct(PAIRS[:1024], (256, 511), PAIR_DATA[:1024])
case("direct the last sum too small looked up", looked(EVEN, 512), TWOS[:511] + [R(13)])
# A bit of the first stretch lost, the sums as they were: place 255 has no end bit there, and what follows is right.
LOST = direct(PAIRS[:9] + [0] + PAIRS[10:], (256, 512), PAIR_DATA)
case("direct an end bit lost read", of(r.read_code, 8, LOST, 600), R(13))
case("direct an end bit lost looked up", looked(LOST, 600), TWOS[:4] + [256 + 4 + (256 + 5) * 2**16]
     + TWOS[6:256] + [R(13)] + TWOS[256:])
# Five bytes over the end of a stretch: the four bits before its end bit are asked, whichever stretch they are in.
for before in range(508, 512):
    bits = before * [1] + [0, 0, 0, 0, 1]
    body = direct(bits, (before,), before * b"\7" + b"\1\2\3\4\5")
    case("direct five bytes after %d read" % before, of(r.read_code, 8, body, before + 1), R(13))
    case("direct five bytes after %d looked up" % before, looked(body, before + 1), before * [7] + [R(13)])

EIGHTH = sheet((0, plan(8), 3, hexa("04 00 00 00 0E 00 04 0C 0A")))
case("direct sheet written", of(r.write, 1, [(0, plan(8), 3)], [1024, 12, 10], 21, 35), EIGHTH)
case("direct sheet written, one byte less", of(r.write, 1, [(0, plan(8), 3)], [1024, 12, 10], 21, 34), R(7))
case("direct sheet read", of(r.read, EIGHTH, 0, 21, 3), [1024, 12, 10])
case("direct sheet checked", named(r.check, EIGHTH, 24), None)
case("direct sheet listed", r.listing(EIGHTH),
     b"columns 1\ncolumn 0 any plan 8 count 3 bytes 9\n0 1024\n1 12\n2 10\nend\n")
ALONE = sheet((0, plan(8), 3, hexa(SECOND)))
case("direct sheet, one place at fault: check", named(r.check, ALONE, 24), ("refused", 13, 0))
case("direct sheet, one place at fault: lookups", [of(r.lookup, ALONE, 0, i) for i in range(4)],
     [1, R(13), 3, R(6)])
case("direct sheet, one place at fault: reader", r.calls(ALONE, 0, 4), [("number", 1)] + 3 * [R(13)])
NOTHING = sheet((0, plan(8), 0, bytes(4)))
case("direct empty column written", of(r.write, 1, [(0, plan(8), 0)], [], 0, 30), NOTHING)
case("direct empty column checked", named(r.check, NOTHING, 0), None)
case("direct empty column looked up", of(r.lookup, NOTHING, 0, 0), R(6))
case("direct empty column with no body", named(r.check, sheet((0, plan(8), 0, b"")), 0), ("refused", 9, 0))
case("direct worst, and reached", [(n, len(r.write_code(8, n * [MAX]))) for n in (0, 1, 2, 127, 128, 129, 1024)],
     [(n, r.worst(plan(8), n)) for n in (0, 1, 2, 127, 128, 129, 1024)])
case("direct worst of 1, 2, 127, 128, 1024", [r.worst(plan(8), n) for n in (1, 2, 127, 128, 1024)],
     [9, 13, 576, 582, 4628])

# ------------------------------------------------------------ rank and select (request P4)

TWELVE = hexa("B2 0D")                                  # 002's 0100 1101 1011, and four bits 0
case("rank at every bit", [of(r.rank, TWELVE, i) for i in range(18)],
     [0, 0, 1, 1, 1, 2, 3, 3, 4, 5, 5, 6, 7, 7, 7, 7, 7, R(6)])
case("select of every one", [of(r.select, TWELVE, k) for k in range(8)], [1, 4, 5, 7, 8, 10, 11, R(6)])
case("rank, 002's of 8", r.rank(TWELVE, 8), 4)
case("select, 002's fifth", r.select(TWELVE, 4), 8)
case("rank of nothing", (of(r.rank, b"", 0), of(r.rank, b"", 1)), (0, R(6)))
case("select of nothing", of(r.select, b"", 0), R(6))
case("select of no ones", of(r.select, bytes(9), 0), R(6))
case("rank of no ones", [of(r.rank, bytes(9), i) for i in (0, 1, 71, 72, 73)], [0, 0, 0, 0, R(6)])
case("rank of ones", [of(r.rank, 3 * b"\xff", i) for i in range(26)], list(range(25)) + [R(6)])
case("select of ones", [of(r.select, 3 * b"\xff", k) for k in range(25)], list(range(24)) + [R(6)])
case("the lowest bit first", [(r.rank(hexa("01"), 1), r.rank(hexa("80"), 7), r.select(hexa("80"), 0))], [(1, 0, 7)])
WIDEST = bytes(65535) + b"\x80"
case("rank of 65,536 bytes", [of(r.rank, WIDEST, i) for i in (0, 524287, 524288, 524289, 2**32, 2**64 - 1)],
     [0, 0, 1, R(6), R(6), R(6)])
case("select of 65,536 bytes", [of(r.select, WIDEST, k) for k in (0, 1, 2**32, 2**64 - 1)],
     [524287, R(6), R(6), R(6)])
case("rank of 65,537 bytes", [of(r.rank, WIDEST + b"\0", i) for i in (0, 524296, 524297, 2**64 - 1)], 4 * [R(1)])
case("select of 65,537 bytes", [of(r.select, WIDEST + b"\0", k) for k in (0, 1, 2**64 - 1)], 3 * [R(1)])

# ------------------------------------------------------------ decisions 1 to 13

case("1 zeros judged", r.judge(0, NONE), 3)
case("1 zeros worst", of(r.worst, NONE, 1), R(3))
case("1 zeros in a table", named(r.check, sheet((0, NONE, 0, b"")), 0), ("refused", 3, 0))
case("1 zeros in an order, kind 0", of(r.write, 1, [(0, NONE, 1)], [128], 7, 99),
     sheet((0, plan(1), 1, hexa("80 01"))))
case("1 zeros in an order, kind 1", of(r.write, 1, [(1, NONE, 2)], [9, 9], 14, 99),
     sheet((1, plan(17, 1), 2, hexa("09 00"))))
case("1 worst sheet of zeros", [r.worst_sheet(edition, [(0, NONE, 3), (1, NONE, 2)])
                                for edition in r.EDITIONS], 2 * [2 + 24 + 15 + 24 + 10])

BAD_LATER = sheet((0, plan(1), 1, b"\5"), (0, plan(17, 1), 0, b""), (0, plan(9), 0, b""))
case("2 another column's plan: read", of(r.read, BAD_LATER, 0, 7, 1), R(4))
case("2 another column's plan: lookup", of(r.lookup, BAD_LATER, 7, 7), R(4))
case("2 another column's plan: fetch", of(r.fetch, BAD_LATER, 0), R(4))
case("2 another column's plan: open", r.open_reader(BAD_LATER, 0), 4)
case("2 another column's plan: check", named(r.check, BAD_LATER, 0), ("refused", 4, 1))
case("2 only check and board name", named(r.read, BAD_LATER, 0, 0, 0), ("refused", 4, 0))
OTHER_BODY = sheet((0, plan(1), 1, b"\x80"), (0, plan(1), 1, b"\5"))
case("2 another column's body: read", of(r.read, OTHER_BODY, 1, 7, 1), [5])
case("2 another column's body: lookup", of(r.lookup, OTHER_BODY, 1, 0), 5)
case("2 another column's body: fetch", of(r.fetch, OTHER_BODY, 0), (50, 1))
case("2 the body itself: check", named(r.check, OTHER_BODY, 8), ("refused", 9, 0))

case("3 17 9 under kind 0", r.judge(0, plan(17, 9)), 3)
case("3 18 17 1 0 under kind 0", r.judge(0, plan(18, 17, 1)), 3)
case("3 kind 2 first", r.judge(2, plan(9)), 11)
case("3 earlier 4 before later 3",
     of(r.write, 1, [(0, plan(17, 1), 0), (0, plan(9), 0)], [], 0, 99), R(4))

ONE = [(0, plan(1), 1)]
case("4 exact size fits", of(r.write, 1, ONE, [5], 7, 27), sheet((0, plan(1), 1, b"\5")))
case("4 one byte less", of(r.write, 1, ONE, [5], 7, 26), R(7))
case("4 above 65,536", of(r.write, 1, 16 * [(0, plan(5), 1024)], 16384 * [MAX], 7168, 999999), R(7))
# 15 columns of VByte that fill a sheet exactly: 15,360 numbers, some of 5 bytes, some of 2
FULL = 15 * [(0, plan(1), 1024)]
MORE = 65536 - 2 - 24 * 15 - 15360          # bytes beyond one a number
EXACT = MORE // 4 * [MAX] + MORE % 4 * [128]
EXACT += (15360 - len(EXACT)) * [0]
case("4 exactly 65,536", len(of(r.write, 1, FULL, EXACT, 7168, 65536)), 65536)
case("4 65,537", of(r.write, 1, FULL, EXACT[:-1] + [128], 7168, 70000), R(7))
case("4 no orders need no work", of(r.write, 1, [], [], 0, 2), hexa("01 00"))

for code in r.CODES:                                    # code 8 tells that it has no data bytes
    code_example("5 empty list by code %d" % code, code, [], "00 00 00 00" if code == 8 else "")
    case("5 empty list by code %d, a byte" % code, of(r.read_code, code, b"\0", 0), R(9 if code == 8 else 13))
plan_example("5 empty 16 1", tree(16, 1), [], "00 00 00 00")
case("5 empty 16 1, nonzero", of(r.read_plan, tree(16, 1), hexa("01 00 00 00"), 0), R(13))
plan_example("5 empty 17 1", tree(17, 1), [], "")
plan_example("5 empty 18 16 1 1", tree(18, 16, 1, 1), [], "00000000 04000000 00000000")

case("6 fault after the place in its unit",
     of(r.lookup_code, 2, hexa("04 01 02 00"), 2, 0), R(13))
case("6 fault in the next unit",
     of(r.lookup_code, 2, hexa("00 01 02 03 04 01 00 00"), 5, 3), 4)
case("6 spare bits looked up", of(r.lookup_code, 5, hexa("81"), 1, 0), 0)
case("6 spare bits read", of(r.read_code, 5, hexa("81"), 1), R(13))
case("6 leftover bytes looked up", of(r.lookup_code, 1, hexa("05 06"), 1, 0), 5)
case("6 leftover bytes read", of(r.read_code, 1, hexa("05 06"), 1), R(13))
case("6 leftover byte of gamma read", of(r.read_code, 5, hexa("80 00"), 1), R(13))
FALLS = sheet((1, plan(1), 2, hexa("05 04")))
case("6 rising not asked", of(r.lookup, FALLS, 0, 1), 4)
case("6 a fall read", of(r.read, FALLS, 0, 14, 2), R(13))
case("6 the least not asked", of(r.lookup_plan, tree(16, 1), hexa("E8 03 00 00 01 02"), 2, 0), 1001)
EQUAL = hexa("02 00 00 00 02 00 00 00 07 07 03 01")
case("6 neighbours not asked", of(r.lookup_plan, tree(18, 1, 1), EQUAL, 4, 3), 7)
case("6 equal neighbours read", of(r.read_plan, tree(18, 1, 1), EQUAL, 4), R(13))
TOTAL = hexa("02 00 00 00 02 00 00 00 07 09 03 09")
case("6 total not asked", of(r.lookup_plan, tree(18, 1, 1), TOTAL, 4, 2), 7)
case("6 running sum above the count", of(r.lookup_plan, tree(18, 1, 1), TOTAL, 4, 3), R(13))
case("6 runs end too soon", of(r.lookup_plan, tree(18, 1, 1), TOTAL[:-1] + b"\1", 5, 4), R(13))
case("6 zero length", of(r.lookup_plan, tree(18, 1, 1), TOTAL[:-2] + b"\0\4", 4, 0), R(13))
case("6 run count above the count",
     of(r.lookup_plan, tree(18, 1, 1), hexa("02 00 00 00 02 00 00 00 07 09 01 01"), 1, 0), R(13))
case("6 total above the count read", of(r.read_plan, tree(18, 1, 1), TOTAL, 4), R(13))
case("6 total below the count read", of(r.read_plan, tree(18, 1, 1), TOTAL[:-1] + b"\1", 5), R(13))
case("6 zero length read", of(r.read_plan, tree(18, 1, 1), TOTAL[:-2] + b"\4\0", 4), R(13))
case("6 zero length after the place", of(r.lookup_plan, tree(18, 1, 1), TOTAL[:-2] + b"\4\0", 4, 3),
     7)
case("6 values body must fit, read", of(r.read_plan, tree(18, 1, 1), hexa("00000000 01000000"), 0),
     R(9))
case("6 values body must fit", of(r.lookup_plan, tree(18, 1, 1),
                                  hexa("01 00 00 00 05 00 00 00 07 01"), 1, 0), R(9))
case("6 control bytes must fit", of(r.lookup_code, 4, hexa("00"), 5, 0), R(9))
case("6 control bytes fit, no data", of(r.lookup_code, 4, hexa("00 00"), 5, 0), R(9))
case("6 data of the first group", of(r.lookup_code, 4, hexa("00 FF 01 02 03 04"), 5, 0), 1)
case("6 empty column", of(r.lookup, sheet((0, plan(1), 0, b"\5")), 0, 0), R(6))

case("7 both blocks taken, fit not asked", of(r.lookup_code, 3, ROOM, 6, 5), 6)
LONG = hexa("EF 01 00 00 00 00 00 00 00")
case("7 number of 5 bytes read", of(r.read_code, 3, LONG, 1), R(13))
case("7 number of 5 bytes looked up", of(r.lookup_code, 3, LONG, 1, 0), R(13))
LONG = hexa("EF 01 00 00 00 01 00 00 00")
case("7 number of 5 full bytes read", of(r.read_code, 3, LONG, 1), R(13))
case("7 number of 5 full bytes looked up", of(r.lookup_code, 3, LONG, 1, 0), R(13))

HIGH = hexa("FF FF FF FF 01 00")
case("8 reference, place 0", of(r.lookup_plan, tree(16, 1), HIGH, 2, 0), R(13))
case("8 reference, place 1", of(r.lookup_plan, tree(16, 1), HIGH, 2, 1), MAX)
case("8 reference, read", of(r.read_plan, tree(16, 1), HIGH, 2), R(13))
case("8 under differences, place 1", of(r.lookup_plan, tree(17, 16, 1), HIGH, 2, 1), R(13))
RUNS = hexa("02 00 00 00 06 00 00 00 FF FF FF FF 01 00 01 01")
case("8 under runs, place 0", of(r.lookup_plan, tree(18, 16, 1, 1), RUNS, 2, 0), R(13))
case("8 under runs, place 1", of(r.lookup_plan, tree(18, 16, 1, 1), RUNS, 2, 1), MAX)
OVER = hexa("FF FF FF FF 0F 01")
case("8 differences above 2^32 - 1, place 1", of(r.lookup_plan, tree(17, 1), OVER, 2, 1), R(13))
case("8 differences above 2^32 - 1, place 0", of(r.lookup_plan, tree(17, 1), OVER, 2, 0), MAX)
case("8 differences above 2^32 - 1, read", of(r.read_plan, tree(17, 1), OVER, 2), R(13))

case("9 inner lists not tested", of(r.read, sheet((1, plan(17, 16, 1), 3, hexa("00000000 05 00 03"))),
                                    0, 21, 3), [5, 5, 8])
case("9 a fall under a stage", of(r.read, sheet((1, plan(16, 1), 2, hexa("00000000 01 00"))),
                                  0, 14, 2), R(13))
case("9 kind 0 may fall", of(r.read, sheet((0, plan(16, 1), 2, hexa("00000000 01 00"))),
                             0, 14, 2), [1, 0])

case("10 opening refused", r.open_reader(LISTED, 1), 5)
case("10 opening refused, calls", r.calls(LISTED, 1, 3), 3 * [R(1)])
case("10 the end", r.calls(LISTED, 0, 5),
     [("number", 5), ("number", 5), ("number", 133), R(6), R(6)])
case("10 a fault again", r.calls(sheet((0, plan(16, 1), 2, HIGH)), 0, 3), 3 * [R(13)])
case("10 ... though place 1 answers", of(r.lookup, sheet((0, plan(16, 1), 2, HIGH)), 0, 1), MAX)


def boarded(jobs, endings, kinds=(1, 0), more=(), edition=1):
    orders = [(kinds[0], NONE, len(jobs)), (kinds[1], NONE, len(endings))] + list(more)
    return r.write(edition, orders, jobs + endings, 7168, 65536)


case("11 counts of 0", named(r.board, boarded([], []), 0), (0, 0, 0, 0))
case("11 tallies", named(r.board, boarded([3, 5, 9, 10, 11], [0, 1, 255, 256, 0]), 40), (2, 2, 0, 1))
case("11 column 1 rising", named(r.board, boarded([3, 5], [0, 256], (1, 1)), 16), (1, 0, 0, 1))
case("11 more columns", named(r.board, boarded([3], [7], more=[(0, NONE, 0)]), 8), (0, 1, 0, 0))
case("P2 124 alone is a kill", named(r.board, boarded([3, 5, 9, 10], [123, 124, 125, 124]), 32), (0, 2, 2, 0))
case("11 ending 257", named(r.board, boarded([3], [257]), 8), ("refused", 12, 0))
case("11 equal jobs", named(r.board, boarded([3, 3], [0, 0]), 16), ("refused", 12, 0))
case("11 unequal counts", named(r.board, boarded([3], []), 8), ("refused", 12, 0))
case("11 column 0 any", named(r.board, boarded([3], [0], (0, 0)), 8), ("refused", 12, 0))
case("11 one column", named(r.board, LISTED, 24), ("refused", 12, 0))
case("11 full check first", named(r.board, sheet((0, plan(1), 0, b""), (0, plan(1), 0, b""),
                                                 (0, plan(1), 0, b"\0")), 0), ("refused", 13, 2))
case("11 work", named(r.board, boarded([3], [0]), 7), ("refused", 8, 0))

case("12 listing 01 00", r.listing(hexa("01 00")), b"columns 0\nend\n")
case("12 one end", r.listing(boarded([300], [7])),
     b"columns 2\ncolumn 0 rising plan 17 1 count 1 bytes 2\n0 300\n"
     b"column 1 any plan 1 count 1 bytes 1\n0 7\nend\n")
case("12 listing refused", r.listing(BAD_LATER), b"refused 4 column 1\n")
case("12 listing of nothing", r.listing(b""), b"refused 1 column 0\n")
case("12 input over 65,536", r.listing(b"\1\0" + bytes(65535)), b"refused 1 column 0\n")
case("12 input of 65,536", r.listing(b"\1\0" + bytes(65534)), b"refused 2 column 0\n")
case("12 board", r.board_text(boarded([3, 5], [0, 256])), b"passed 1\nfailed 0\nkilled 0\nunended 1\n")
case("P2 board", r.board_text(boarded([3, 5, 9], [124, 0, 124])), b"passed 1\nfailed 0\nkilled 2\nunended 0\n")
case("12 board refused", r.board_text(LISTED), b"refused 12 column 0\n")
case("12 board, full columns", r.board_text(boarded(list(range(1024)), 1024 * [256])),
     b"passed 0\nfailed 0\nkilled 0\nunended 1024\n")

DAMAGED = sheet((0, plan(1), 2, b"\x80"))
case("13 read 8 before 7", of(r.read, DAMAGED, 0, 13, 1), R(8))
case("13 read 7 before 9", of(r.read, DAMAGED, 0, 14, 1), R(7))
case("13 read 9", of(r.read, DAMAGED, 0, 14, 2), R(9))
case("13 read 5 before 8", of(r.read, DAMAGED, 1, 0, 0), R(5))

# ------------------------------------------------------------ edition 2 (request P3)

case("P3 the editions", r.EDITIONS, (1, 2))
case("P3 sheet 02 00 passes", named(r.check, hexa("02 00"), 0), None)
case("P3 sheet 02 00 written", of(r.write, 2, [], [], 0, 2), hexa("02 00"))
case("P3 sheet 02 00 listed", r.listing(hexa("02 00")), b"columns 0\nend\n")
case("P3 sheet 02 00 on the board", r.board_text(hexa("02 00")), b"refused 12 column 0\n")
STRICT = hexa("02 01" "01 11 01" + 13 * "00" + "03 00 00 00 03 00 00 00" "05 01 7F")
case("P3 strict written", of(r.write, 2, [(1, NONE, 3)], [5, 6, 133], 21, 29), STRICT)
case("P3 strict written in edition 1", of(r.write, 1, [(1, NONE, 3)], [5, 6, 133], 21, 29),
     b"\1" + STRICT[1:])
case("P3 strict read", of(r.read, STRICT, 0, 21, 3), [5, 6, 133])
case("P3 strict fetched", of(r.fetch, STRICT, 0), (26, 3))
case("P3 strict listed", r.listing(STRICT),
     LISTING.replace(b"bytes 4", b"bytes 3").replace(b"1 5", b"1 6"))
case("P3 strict listed in edition 1", r.listing(b"\1" + STRICT[1:]), r.listing(STRICT))
case("P3 worst sheet", [r.worst_sheet(edition, [(1, NONE, 3)]) for edition in (1, 2)], [41, 41])

FIVES = b"\2" + LISTED[1:]                              # 5, 5, 133 in edition 2
case("P3 equal neighbours written", of(r.write, 2, [(1, NONE, 3)], [5, 5, 133], 21, 30), R(10))
case("P3 equal neighbours: check", named(r.check, FIVES, 24), ("refused", 13, 0))
case("P3 equal neighbours: read", of(r.read, FIVES, 0, 21, 3), R(13))
case("P3 equal neighbours: board", named(r.board, FIVES, 24), ("refused", 13, 0))
case("P3 equal neighbours: listed", r.listing(FIVES), b"refused 13 column 0\n")
case("P3 equal neighbours: looked up", [of(r.lookup, FIVES, 0, i) for i in range(3)], [5, 5, 133])
case("P3 equal neighbours: fetched", of(r.fetch, FIVES, 0), (26, 4))
case("P3 equal neighbours: reader", r.calls(FIVES, 0, 4),
     [("number", 5), ("number", 5), ("number", 133), R(6)])
for numbers, editions in (([], (1, 2)), ([0], (1, 2)), ([MAX], (1, 2)), ([0, 1], (1, 2)),
                          ([0, 0], (1,)), ([MAX, MAX], (1,)), ([MAX - 1, MAX], (1, 2)),
                          ([3, 4, 4], (1,)), ([3, 3, 4], (1,)), ([3, 4, 9], (1, 2)),
                          ([3, 4, 3], ()), ([1, 0], ()), ([MAX, 0], ()), ([4, 4, 3], ())):
    n = len(numbers)
    for edition in (1, 2):
        kept = edition in editions
        for p in (plan(1), plan(16, 4), plan(18, 1, 1)):
            name = "P3 %s in edition %d by %d " % (numbers, edition, p[0])
            body = r.write_plan(r.parse_plan(p), numbers)
            made = sheet((1, p, n, body), edition=edition)
            case(name + "written", of(r.write, edition, [(1, p, n)], numbers, 7 * n, 999),
                 made if kept else R(10))
            case(name + "read", of(r.read, made, 0, 7 * n, n), numbers if kept else R(13))
            case(name + "checked", named(r.check, made, 8 * n), None if kept else ("refused", 13, 0))
            case(name + "looked up", [of(r.lookup, made, 0, i) for i in range(n)], numbers)
            case(name + "of kind 0", of(r.read, made[:2] + b"\0" + made[3:], 0, 7 * n, n), numbers)
for edition in (1, 2):                                  # inner lists are not asked
    for p, numbers in ((plan(17, 1), [5, 10, 15]), (plan(17, 1), [9, 10, 12]),
                       (plan(17, 16, 1), [7, 8, 9]), (plan(18, 17, 1, 1), [1, 2, 4]),
                       (plan(16, 18, 1, 1), [1, 2, 3]), (plan(17, 18, 1, 1), [4, 8, 12, 13])):
        made = sheet((1, p, len(numbers), r.write_plan(r.parse_plan(p), numbers)), edition=edition)
        case("P3 inner list of %s, edition %d" % (numbers, edition), of(r.read, made, 0, 28, 4),
             numbers)
    case("P3 17 under kind 0, edition %d" % edition,
         named(r.check, bytes([edition]) + LISTED[1:2] + b"\0" + LISTED[3:], 24), ("refused", 4, 0))
    case("P3 17 hands on any, edition %d" % edition,
         of(r.write, edition, [(1, plan(17, 17, 1), 0)], [], 0, 99), R(4))
    case("P3 the default plans, edition %d" % edition,
         of(r.write, edition, [(0, NONE, 1), (1, NONE, 1)], [7, 7], 7, 99),
         sheet((0, plan(1), 1, b"\7"), (1, plan(17, 1), 1, b"\7"), edition=edition))

for edition in (0, 3, 4, 128, 255):
    name = "P3 edition %d " % edition
    other = bytes([edition]) + STRICT[1:]
    case(name + "written", of(r.write, edition, [(1, NONE, 3)], [5, 6, 133], 21, 29), R(11))
    case(name + "written, no orders", of(r.write, edition, [], [], 0, 2), R(11))
    case(name + "written, before any plan",
         of(r.write, edition, [(0, plan(9), 2), (0, plan(17, 1), 0)], [2, 1], 0, 0), R(11))
    case(name + "written, before a fall", of(r.write, edition, [(1, NONE, 2)], [2, 1], 0, 0), R(11))
    case(name + "read", of(r.read, other, 0, 21, 3), R(1))
    case(name + "looked up", of(r.lookup, other, 0, 0), R(1))
    case(name + "fetched", of(r.fetch, other, 0), R(1))
    case(name + "opened", (r.open_reader(other, 0), r.calls(other, 0, 2)), (1, 2 * [R(1)]))
    case(name + "before a table cut short", of(r.fetch, other[:20], 0), R(1))
    case(name + "checked, with no work", named(r.check, other, 0), ("refused", 1, 0))
    case(name + "in the programs", (r.listing(other), r.board_text(other)),
         2 * (b"refused 1 column 0\n",))
case("P3 17 columns in edition 2", named(r.check, b"\2\21" + bytes(24 * 17), 0), ("refused", 1, 0))

PAIR = [(1, NONE, 2), (1, NONE, 2)]
case("P3 each list in turn", of(r.write, 2, PAIR, [1, 2, 3, 3], 14, 99), R(10))
case("P3 10 before 8 and 7", of(r.write, 2, PAIR, [1, 1, 3, 4], 0, 0), R(10))
case("P3 a later plan before 10",
     of(r.write, 2, PAIR + [(0, plan(9), 0)], [1, 1, 3, 3], 0, 0), R(3))
case("P3 a later plan before 10, by kind",
     of(r.write, 2, PAIR + [(0, plan(17, 1), 0)], [1, 1, 3, 3], 0, 0), R(4))
case("P3 11 before 10", of(r.write, 2, PAIR, [1, 1, 3], 0, 0), R(11))
case("P3 the second column at fault",
     named(r.check, b"\2" + r.write(1, PAIR, [1, 2, 3, 3], 14, 99)[1:], 16), ("refused", 13, 1))
case("P3 columns in turn for 9", named(r.check, sheet((0, plan(1), 1, b"\x80"),
                                                      (1, plan(1), 2, b"\3\3"), edition=2), 16),
     ("refused", 9, 0))
case("P3 8 before 9", named(r.check, FIVES, 23), ("refused", 8, 0))
case("P3 read 8 before 7, 7 before 9", (of(r.read, FIVES, 0, 20, 2), of(r.read, FIVES, 0, 21, 2)),
     (R(8), R(7)))

JOBS, TWO_JOBS, ENDED = [3, 5, 9, 10], [3, 5, 5, 10], [0, 124, 3, 256]
case("P3 board in both", [named(r.board, boarded(JOBS, ENDED, edition=e), 32) for e in (1, 2)],
     2 * [(1, 1, 1, 1)])
case("P3 the same text in both",
     r.listing(boarded(JOBS, ENDED, edition=2)), r.listing(boarded(JOBS, ENDED)))
SAME_JOB = boarded(TWO_JOBS, ENDED)
SAME_JOB_2 = b"\2" + SAME_JOB[1:]
case("P3 equal jobs, edition 1, listed", r.listing(SAME_JOB).startswith(b"columns 2\n"), True)
case("P3 equal jobs, edition 1, board", r.board_text(SAME_JOB), b"refused 12 column 0\n")
case("P3 equal jobs, edition 2, listed", r.listing(SAME_JOB_2), b"refused 13 column 0\n")
case("P3 equal jobs, edition 2, board", r.board_text(SAME_JOB_2), b"refused 13 column 0\n")
case("P3 equal jobs of kind 0, edition 2",
     named(r.board, boarded(TWO_JOBS, ENDED, (0, 0), edition=2), 32), ("refused", 12, 0))
RISEN = boarded(JOBS, [0, 0, 1, 256], (1, 1))
case("P3 equal endings of kind 1, edition 1", named(r.board, RISEN, 32), (2, 1, 0, 1))
case("P3 equal endings of kind 1, edition 2", named(r.board, b"\2" + RISEN[1:], 32),
     ("refused", 13, 1))

# ------------------------------------------------------------ which sort of body fault (request P5)

CUT, BROKEN = R(9), R(13)
RUNS_OF = "%02X 00 00 00 %02X 00 00 00 "                # run count, length of the values body
ROOMY_BLOCK = "E0 01 02 03 04 05 00 00 00"              # 1 to 5, and room for three bytes
SEVEN_MORE = "80 06 07 08 09 0A 0B 0C 00"               # 6 to 12
REST = "00 00 00 00 00 00 00"
SORTS = (                       # plan, body, count, what reading refuses by, what the lookups find
    # VByte, byte by byte
    ((1,), "", 1, CUT, [CUT]),
    ((1,), "80", 1, CUT, [CUT]),
    ((1,), "80 80 80 80", 1, CUT, [CUT]),
    ((1,), "80 80 80 80 80", 1, BROKEN, [BROKEN]),              # a fifth byte above 15, whatever follows
    ((1,), "80 80 80 80 10", 1, BROKEN, [BROKEN]),
    ((1,), "80 80 80 80 00", 1, BROKEN, [BROKEN]),
    ((1,), "80 80 00", 1, BROKEN, [BROKEN]),
    ((1,), "05", 2, CUT, [5, CUT]),
    ((1,), "05 80", 2, CUT, [5, CUT]),
    ((1,), "05 80 00", 2, BROKEN, [5, BROKEN]),
    ((1,), "80 00", 2, BROKEN, 2 * [BROKEN]),                   # units in order
    ((1,), "80 00 80", 2, BROKEN, 2 * [BROKEN]),
    ((1,), "80", 2, CUT, 2 * [CUT]),
    ((1,), "05 06", 1, BROKEN, [5]),                            # leftover bytes, a number or none
    ((1,), "05 80", 1, BROKEN, [5]),
    # Groups: the control byte and the data of the used fields, then the unused fields and fewest
    ((2,), "", 1, CUT, [CUT]),
    ((2,), "00", 1, CUT, [CUT]),
    ((2,), "01 05", 1, CUT, [CUT]),
    ((2,), "01 05 00", 1, BROKEN, [BROKEN]),
    ((2,), "04", 1, CUT, [CUT]),                                # an unused field not 0
    ((2,), "04 05", 1, BROKEN, [BROKEN]),
    ((2,), "0C 05", 1, BROKEN, [BROKEN]),                       # what would be its data need not be there
    ((2,), "05 05", 1, CUT, [CUT]),
    ((2,), "05 05 00", 1, BROKEN, [BROKEN]),
    ((2,), "05 05 00 07", 2, CUT, 2 * [CUT]),                   # the first not the fewest
    ((2,), "05 05 00 07 01", 2, BROKEN, 2 * [BROKEN]),
    ((2,), "00 01 02 03 04", 5, CUT, [1, 2, 3, 4, CUT]),
    ((2,), "00 01 02 03 04 04", 5, CUT, [1, 2, 3, 4, CUT]),
    ((2,), "00 01 02 03 04 04 05", 5, BROKEN, [1, 2, 3, 4, BROKEN]),
    ((2,), "01 01 00 02 03", 5, CUT, 5 * [CUT]),
    ((2,), "01 01 00 02 03 04", 5, BROKEN, 5 * [BROKEN]),       # before the second group is missed
    ((2,), "00 05 00", 1, BROKEN, [5]),
    # Stream VByte: first the control bytes
    ((4,), "", 1, CUT, [CUT]),
    ((4,), "00", 1, CUT, [CUT]),
    ((4,), "00", 5, CUT, 5 * [CUT]),
    ((4,), "00 00", 9, CUT, 9 * [CUT]),
    ((4,), "05", 1, CUT, [CUT]),
    ((4,), "00 04", 5, CUT, 5 * [CUT]),
    ((4,), "01 04 05", 5, CUT, 5 * [CUT]),
    ((4,), "01 04 05 00 02 03", 5, CUT, 5 * [CUT]),
    ((4,), "01 04 05 00 02 03 04", 5, BROKEN, 5 * [BROKEN]),    # before the second group's data is missed
    ((4,), "00 04 01 02 03 04", 5, CUT, [1, 2, 3, 4, CUT]),
    ((4,), "00 04 01 02 03 04 05", 5, BROKEN, [1, 2, 3, 4, BROKEN]),
    ((4,), "00 01 01 02 03 04 05", 5, CUT, [1, 2, 3, 4, CUT]),
    ((4,), "00 01 01 02 03 04 05 00", 5, BROKEN, [1, 2, 3, 4, BROKEN]),
    ((4,), "00 05 00", 1, BROKEN, [5]),
    # G8IU: nine bytes, then the block's rules and the fit into the block before
    ((3,), "", 1, CUT, [CUT]),
    ((3,), "FF 00 00 00 00 00 00 00", 1, CUT, [CUT]),
    ((3,), "FF 00 00 00 00 00 00 00 00", 1, BROKEN, [BROKEN]),
    ((3,), "00 01 02 03 04 05 06 07 08", 9, CUT, [1, 2, 3, 4, 5, 6, 7, 8, CUT]),
    ((3,), "00 01 02 03 04 05 06 07 08 FE 09", 9, CUT, [1, 2, 3, 4, 5, 6, 7, 8, CUT]),
    ((3,), "FF 01 02 03 04 05 06 07 08 FE 09", 9, BROKEN, 9 * [BROKEN]),
    ((3,), ROOMY_BLOCK + "FE 06" + REST[3:], 6, CUT, [1, 2, 3, 4, 5, CUT]),
    ((3,), ROOMY_BLOCK + "FE 06" + REST, 6, BROKEN, [1, 2, 3, 4, 5, 6]),
    ((3,), ROOMY_BLOCK + SEVEN_MORE, 13, BROKEN, list(range(1, 13)) + [CUT]),
    ((3,), ROOMY_BLOCK + SEVEN_MORE + "FE 0D", 13, BROKEN, list(range(1, 13)) + [CUT]),
    ((3,), ROOMY_BLOCK + SEVEN_MORE[:-3], 13, CUT, [1, 2, 3, 4, 5] + 8 * [CUT]),
    ((3,), ROOMY_BLOCK + SEVEN_MORE[:-2] + "01", 13, BROKEN, [1, 2, 3, 4, 5] + 8 * [BROKEN]),
    ((3,), "FE 05" + REST + "00", 1, BROKEN, [5]),
    # Gamma: the 33rd zero once met; v once all its bits were read
    ((5,), "", 1, CUT, [CUT]),
    ((5,), "00", 1, CUT, [CUT]),
    ((5,), "00 00 00 00", 1, CUT, [CUT]),                       # 32 zeros
    ((5,), "00 00 00 00 00", 1, BROKEN, [BROKEN]),
    ((5,), "00 00 00 00 40", 1, BROKEN, [BROKEN]),
    ((5,), "00 00 00 00 80", 1, CUT, [CUT]),
    ((5,), "00 00 00 00 FF FF FF FF", 1, CUT, [CUT]),           # v above 2^32 whatever its last bit
    ((5,), "00 00 00 00 FF FF FF FF 00", 1, BROKEN, [BROKEN]),
    ((5,), "00 00 00 00 80 00 00 00 80", 1, BROKEN, [BROKEN]),
    ((5,), "01", 1, CUT, [CUT]),
    ((5,), "80", 2, CUT, [0, CUT]),                             # the spare bits belong to the body
    ((5,), "80 00 00 00", 2, CUT, [0, CUT]),                    # 31 zeros after the first
    ((5,), "80 00 00 00 00", 2, BROKEN, [0, BROKEN]),
    ((5,), "80 00 00 00 C0", 2, CUT, [0, CUT]),
    ((5,), "FF", 9, CUT, 8 * [0] + [CUT]),
    ((5,), "81", 1, BROKEN, [0]),                               # spare bits, leftover bytes
    ((5,), "80 00", 1, BROKEN, [0]),
    # Delta: the sixth zero once met; the length once its bits were read, before the value's
    ((6,), "", 1, CUT, [CUT]),
    ((6,), "00", 1, BROKEN, [BROKEN]),
    ((6,), "02", 1, BROKEN, [BROKEN]),
    ((6,), "04", 1, CUT, [CUT]),
    ((6,), "07", 1, CUT, [CUT]),                                # a length above 33 whatever its last bits
    ((6,), "07 00", 1, BROKEN, [BROKEN]),
    ((6,), "04 20", 1, CUT, [CUT]),                             # 33, and its value's bits missing
    ((6,), "04 40", 1, BROKEN, [BROKEN]),                       # 34, likewise
    ((6,), "04 20 FF FF FF", 1, CUT, [CUT]),
    ((6,), "04 20 00 00 00 20", 1, BROKEN, [BROKEN]),
    ((6,), "80", 2, BROKEN, [0, BROKEN]),                       # the sixth zero is one of the spare bits
    ((6,), "82", 2, CUT, [0, CUT]),                             # five zeros, a one, a bit
    ((6,), "90", 2, CUT, [0, CUT]),                             # a length of 4, two bits of three
    ((6,), "81", 1, BROKEN, [0]),
    ((6,), "80 00", 1, BROKEN, [0]),
    # Code 8: the header and all its parts' ends, then all else
    ((8,), "01 00 00", 1, CUT, [CUT]),
    ((8,), "02 00 00 00 00 05", 1, CUT, [CUT]),                 # no end bit, and a data byte short
    ((8,), "02 00 00 00 00 05 06", 1, BROKEN, [BROKEN]),
    ((8,), "02 00 00 00 03 05", 2, CUT, 2 * [CUT]),             # also of the first, whose byte is there
    ((8,), "02 00 00 00 03 05 06 00", 2, BROKEN, [5, 6]),
    # Reference: its header, then the whole inner body, then sums and the least
    ((16, 1), "", 1, CUT, [CUT]),
    ((16, 1), "E8 03 00", 1, CUT, [CUT]),
    ((16, 1), "E8 03 00 00", 1, CUT, [CUT]),
    ((16, 1), "E8 03 00", 0, CUT, []),
    ((16, 1), "E8 03 00 00", 0, BROKEN, []),
    ((16, 1), "E8 03 00 00 01", 2, CUT, [1001, CUT]),
    ((16, 1), "E8 03 00 00 01 80 00", 2, BROKEN, [1001, BROKEN]),
    ((16, 1), "FF FF FF FF 01", 2, CUT, [BROKEN, CUT]),
    ((16, 1), "FF FF FF FF 01 00 80", 2, BROKEN, [BROKEN, MAX]),
    ((16, 16, 1), "01 00 00 00 01 00", 1, CUT, [CUT]),
    ((16, 16, 1), "FF FF FF FF 01 00 00 00", 1, CUT, [CUT]),
    ((16, 16, 1), "FF FF FF FF 01 00 00 00 00", 1, BROKEN, [BROKEN]),
    # Differences: all units, then the sums
    ((17, 1), "", 1, CUT, [CUT]),
    ((17, 1), "FF FF FF FF 0F 01", 3, CUT, [MAX, BROKEN, CUT]),
    ((17, 1), "FF FF FF FF 0F 01 80 00", 3, BROKEN, [MAX, BROKEN, BROKEN]),
    ((17, 2), "03 FF FF FF FF 01", 3, CUT, 3 * [CUT]),
    ((17, 2), "03 FF FF FF FF 01 02", 3, BROKEN, [MAX, BROKEN, BROKEN]),
    ((17, 16, 1), "FF FF FF FF 01 00", 3, CUT, [BROKEN, BROKEN, CUT]),
    ((17, 16, 1), "FF FF FF", 1, CUT, [CUT]),
    ((17, 16, 16, 1), "FF FF FF FF 01 00 00 00 00", 2, CUT, [BROKEN, CUT]),
    ((16, 17, 1), "00 00 00 00 FF FF FF FF 0F 01", 3, CUT, [MAX, BROKEN, CUT]),
    ((16, 17, 1), "01 00 00 00 FF FF FF FF 0F", 2, CUT, [BROKEN, CUT]),
    # Runs: one header of 8 bytes, the run count, the values length
    ((18, 1, 1), "", 1, CUT, [CUT]),
    ((18, 1, 1), "02 00 00 00", 1, CUT, [CUT]),                 # a run count above the count can be seen
    ((18, 1, 1), "02 00 00 00 00 00 00", 1, CUT, [CUT]),
    ((18, 1, 1), "02 00 00 00 00 00 00 00", 1, BROKEN, [BROKEN]),
    ((18, 1, 1), RUNS_OF % (2, 9), 1, BROKEN, [BROKEN]),
    ((18, 1, 1), RUNS_OF % (1, 9) + "07 01", 1, CUT, [CUT]),
    ((18, 1, 1), "01 00 00 00 FF FF FF FF 80 00 00", 1, CUT, [CUT]),
    ((18, 1, 1), RUNS_OF % (0, 1), 0, CUT, []),
    ((18, 1, 1), RUNS_OF % (1, 0), 0, BROKEN, []),
    # Runs read: the whole values body, the whole lengths body, the other rules
    ((18, 1, 1), RUNS_OF % (2, 3) + "80 00 08" "80", 2, BROKEN, 2 * [CUT]),
    ((18, 1, 1), RUNS_OF % (2, 1) + "07" "80 00", 3, CUT, 3 * [BROKEN]),
    ((18, 1, 1), RUNS_OF % (1, 2) + "07 08", 1, BROKEN, [CUT]),             # values left over
    ((18, 16, 1, 1), RUNS_OF % (1, 5) + "FF FF FF FF 01", 1, BROKEN, [CUT]),        # a sum of the values
    ((18, 16, 1, 1), RUNS_OF % (1, 5) + "FF FF FF FF 01" "01", 1, BROKEN, [BROKEN]),
    ((18, 16, 1, 1), RUNS_OF % (2, 6) + "E8 03 00 00 01 02" "01", 2, BROKEN, [1001, CUT]),
    ((18, 1, 1), RUNS_OF % (2, 2) + "07 07" "01", 2, CUT, [7, CUT]),        # equal neighbours
    ((18, 1, 1), RUNS_OF % (2, 2) + "07 07" "01 01", 2, BROKEN, [7, 7]),
    ((18, 1, 1), RUNS_OF % (1, 1) + "07" "01 00", 1, BROKEN, [7]),          # lengths left over
    # Runs looked up: each length with its rules before the next, then the one value with its header
    ((18, 1, 1), RUNS_OF % (2, 2) + "07 08" "00", 2, CUT, 2 * [BROKEN]),
    ((18, 1, 1), RUNS_OF % (2, 2) + "07 08" "03", 2, CUT, 2 * [BROKEN]),
    ((18, 1, 1), RUNS_OF % (2, 2) + "07 08" "01", 2, CUT, [7, CUT]),
    ((18, 1, 1), RUNS_OF % (1, 1) + "07" "01", 2, BROKEN, [7, BROKEN]),     # runs that end too soon
    ((18, 1, 1), RUNS_OF % (1, 0) + "01", 2, CUT, [CUT, BROKEN]),           # ... before the value is missed
    ((18, 1, 1), RUNS_OF % (2, 3) + "07 80 00" "01 80", 2, BROKEN, [7, CUT]),
    ((18, 1, 1), RUNS_OF % (2, 2) + "07 80" "01 80 00", 2, CUT, [7, BROKEN]),
    ((18, 1, 1), RUNS_OF % (2, 3) + "80 00 08" "01 01", 2, BROKEN, 2 * [BROKEN]),
    ((18, 1, 1), RUNS_OF % (2, 1) + "07" "01 01", 2, CUT, [7, CUT]),
    ((18, 1, 2), RUNS_OF % (2, 2) + "07 08" "00 00", 2, CUT, 2 * [CUT]),    # the length's unit
    ((18, 1, 2), RUNS_OF % (2, 2) + "07 08" "00 00 01", 2, BROKEN, 2 * [BROKEN]),
    ((18, 1, 4), RUNS_OF % (1, 1) + "07", 1, CUT, [CUT]),
    ((18, 1, 16, 1), RUNS_OF % (2, 2) + "07 08" "01 00 00", 2, CUT, 2 * [CUT]),
    ((18, 1, 16, 1), RUNS_OF % (2, 2) + "07 08" "FF FF FF FF 01", 2, CUT, 2 * [BROKEN]),     # its sum
    ((18, 16, 1, 1), RUNS_OF % (1, 2) + "E8 03" "01", 1, CUT, [CUT]),
    ((18, 16, 1, 1), RUNS_OF % (1, 2) + "E8 03" "00", 1, CUT, [BROKEN]),
    ((18, 18, 1, 1, 1), RUNS_OF % (1, 7) + "01 00 00 00 00 00 00" "00", 1, CUT, [BROKEN]),
    ((18, 18, 1, 1, 1), RUNS_OF % (1, 8) + RUNS_OF % (2, 0) + "01", 1, BROKEN, [BROKEN]),
    ((18, 18, 1, 1, 1), RUNS_OF % (1, 8) + RUNS_OF % (2, 0), 1, BROKEN, [CUT]),
    ((18, 17, 1, 1), RUNS_OF % (3, 6) + "FF FF FF FF 0F 01" "01 01 01", 3, CUT, [MAX, BROKEN, CUT]),
    ((18, 17, 1, 1), RUNS_OF % (3, 6) + "FF FF FF FF 0F 01" "01 01 00", 3, CUT, [MAX, BROKEN, BROKEN]),
    # No runs under a place: broken, and the lengths are not opened
    ((18, 1, 1), RUNS_OF % (0, 0), 1, BROKEN, [BROKEN]),
    ((18, 1, 8), RUNS_OF % (0, 0), 1, CUT, [BROKEN]),
    ((18, 8, 1), RUNS_OF % (0, 0), 1, CUT, [BROKEN]),
    ((18, 1, 16, 1), RUNS_OF % (0, 0), 1, CUT, [BROKEN]),
    ((18, 1, 18, 1, 1), RUNS_OF % (0, 0), 1, CUT, [BROKEN]),
    ((17, 18, 1, 8), RUNS_OF % (0, 0), 2, CUT, 2 * [BROKEN]),
    # Lengths that are runs: one after the other
    ((18, 1, 18, 1, 1), RUNS_OF % (2, 2) + "07 08" + RUNS_OF % (2, 2) + "00 03" "01", 4, CUT, 4 * [BROKEN]),
    ((18, 1, 18, 1, 1), RUNS_OF % (2, 2) + "07 08" + RUNS_OF % (2, 2) + "01 80" "01 80 00", 4, CUT,
     [7] + 3 * [BROKEN]),
    ((18, 1, 18, 1, 1), RUNS_OF % (2, 2) + "07 08" + RUNS_OF % (2, 3) + "01 80 00" "01 80", 4, BROKEN,
     [7] + 3 * [CUT]),
    ((18, 1, 18, 1, 1), RUNS_OF % (2, 2) + "07 08" + RUNS_OF % (2, 1) + "01" "01 01", 4, CUT, [7] + 3 * [CUT]),
    ((18, 1, 18, 16, 1, 1), RUNS_OF % (2, 2) + "07 08" + RUNS_OF % (2, 5) + "FF FF FF FF 01" "01", 4, CUT,
     4 * [BROKEN]),
    ((18, 1, 18, 16, 1, 1), RUNS_OF % (2, 2) + "07 08" + RUNS_OF % (2, 3) + "01 00 00" "00", 4, CUT, 4 * [BROKEN]),
    ((18, 1, 18, 1, 1), RUNS_OF % (1, 1) + "07" + RUNS_OF % (0, 0), 1, BROKEN, [BROKEN]),
    ((18, 1, 18, 1, 8), RUNS_OF % (1, 1) + "07" + RUNS_OF % (0, 0), 1, CUT, [BROKEN]),
    # Differences of runs: all needed lengths, then the values through the last run, then the sums
    ((17, 18, 1, 1), RUNS_OF % (2, 1) + "80" "01 80 00", 4, CUT, [CUT] + 3 * [BROKEN]),
    ((17, 18, 1, 1), RUNS_OF % (2, 2) + "80 00" "01 80", 4, BROKEN, [BROKEN] + 3 * [CUT]),
    ((17, 18, 1, 1), RUNS_OF % (2, 3) + "80 00 05" "01 80", 4, BROKEN, [BROKEN] + 3 * [CUT]),
    ((17, 18, 1, 1), RUNS_OF % (3, 6) + "FF FF FF FF 0F 01" "01 01 01", 3, CUT, [MAX, BROKEN, CUT]),
    ((17, 18, 1, 1), RUNS_OF % (2, 6) + "FF FF FF FF 0F 01" "02", 4, CUT, [MAX, BROKEN, CUT, CUT]),
    ((17, 18, 1, 1), RUNS_OF % (2, 6) + "FF FF FF FF 0F 01" "02 02", 4, BROKEN, [MAX] + 3 * [BROKEN]),
    ((17, 18, 16, 1, 1), RUNS_OF % (2, 5) + "FF FF FF FF 01" "01 01", 2, CUT, [BROKEN, CUT]),
    ((17, 18, 16, 1, 1), RUNS_OF % (2, 3) + "FF FF FF" "01 00", 2, CUT, [CUT, BROKEN]),
    ((17, 16, 18, 1, 1), "FF FF FF FF" + RUNS_OF % (2, 1) + "01" "01 01", 2, CUT, [BROKEN, CUT]),
    ((17, 16, 18, 1, 1), "FF FF FF FF" + RUNS_OF % (2, 1) + "01" "01 00", 2, CUT, [BROKEN, BROKEN]),
    ((17, 18, 18, 1, 1, 1), RUNS_OF % (2, 12) + RUNS_OF % (2, 1) + "80" "01 80 00" "01 01", 2, CUT, [CUT, BROKEN]),
    ((17, 18, 1, 18, 1, 1), RUNS_OF % (2, 1) + "05" + RUNS_OF % (2, 1) + "01" "01 00", 3, CUT, [5] + 2 * [BROKEN]),
    # Code 8 under stages: its parts' ends when a number of it is asked for, then place by place
    ((16, 8), "0A 00 00 00" + SECOND[:-2], 3, CUT, 3 * [CUT]),
    ((17, 8), SECOND[:-2], 3, CUT, 3 * [CUT]),
    ((17, 8), "06 00 00 00 30" "FF FF FF FF" "01", 3, CUT, 3 * [CUT]),
    ((18, 8, 1), RUNS_OF % (3, 8) + SECOND[:-2] + "01 80 00", 4, CUT, [CUT] + 3 * [BROKEN]),
    ((18, 8, 1), RUNS_OF % (3, 9) + SECOND + "01 01 80", 4, BROKEN, [1, BROKEN, CUT, CUT]),
    ((18, 8, 1), RUNS_OF % (3, 9) + SECOND + "01 01 02", 4, BROKEN, [1, BROKEN, 3, 3]),
    ((17, 18, 8, 1), RUNS_OF % (3, 9) + SECOND + "01 01 80", 4, BROKEN, [1, BROKEN, CUT, CUT]),
    ((17, 18, 8, 1), RUNS_OF % (3, 8) + SECOND[:-2] + "01 01 00", 4, CUT, [CUT, CUT, BROKEN, BROKEN]),
    ((18, 1, 8), RUNS_OF % (3, 3) + "07 08 09" + SECOND[:-2], 9, CUT, 9 * [CUT]),
    ((18, 1, 8), RUNS_OF % (3, 0) + SECOND, 9, CUT, [CUT] + 8 * [BROKEN]))
for p, text, n, read, found in SORTS:
    name = "P5 %s by %s, %d " % (text.replace(" ", "") or "nothing", " ".join(map(str, p)), n)
    case(name + "read", of(r.read_plan, tree(*p), hexa(text), n), read)
    case(name + "looked up", [of(r.lookup_plan, tree(*p), hexa(text), n, i) for i in range(n)], found)
SORTS += tuple(((code,), text, n, R(number), n * [R(number)]) for code, faulty in ((7, FAULTY_BATCHES), (8, FAULTY_DIRECT))
               for number, _, text, n in faulty)        # these stand above
case("P5 both sorts by each code and stage, read", {(p[0], read[1]) for p, _, _, read, _ in SORTS},
     {(first, number) for first in r.CODES + (16, 17, 18) for number in (9, 13)})
case("P5 both sorts by each code and stage, looked up",
     {(p[0], x[1]) for p, _, _, _, found in SORTS for x in found if isinstance(x, tuple)},
     {(first, number) for first in r.CODES + (16, 17, 18) for number in (9, 13)})

# Cut at every byte, and with a byte more: what reads is the whole body alone.
for p, numbers in (((1,), [300, 0, MAX]), ((2,), [300, 0, MAX, 1, 70000]), ((3,), [300, 0, MAX, 1, 70000]),
                   ((4,), [300, 0, MAX, 1, 70000]), ((5,), [300, 0, MAX, 1, 70000]), ((6,), [300, 0, MAX, 1, 70000]),
                   ((7,), [300, 0, MAX, 1, 70000]), ((8,), [300, 0, MAX, 1, 70000]), ((16, 1), [1000, 1002]),
                   ((17, 1), [5, 5, 133]), ((18, 1, 1), [7, 7, 7, 9]), ((18, 8, 8), [7, 7, 7, 9]),
                   ((16, 17, 6), [5, 5, 133]), ((17, 16, 2), [5, 9, 133]), ((17, 18, 16, 1, 5), [5, 10, 15, 15]),
                   ((18, 16, 17, 4, 18, 7, 3), [5, 5, 6, 7, 7]), ((18, 18, 18, 1, 2, 3, 4), [5, 5, 6, 7, 7])):
    t, n = tree(*p), len(numbers)
    body, name = r.write_plan(t, numbers), "P5 %s by %s " % (numbers, " ".join(map(str, p)))
    case(name + "cut at every byte", [of(r.read_plan, t, body[:end], n) for end in range(len(body) + 1)],
         len(body) * [CUT] + [numbers])
    case(name + "and bytes more", [of(r.read_plan, t, body + more, n) for more in (b"\0", b"\x80", b"\1\2", bytes(9))],
         4 * [BROKEN])

# The kind is asked last, and 9 and 13 share their place in the order.
for number, name, kind, p, n, text in (
        (13, "a fall", 1, (1,), 2, "05 04"), (9, "a fall, then cut", 1, (1,), 3, "05 04"),
        (13, "a fall, then broken", 1, (1,), 3, "05 04 80 00"), (13, "a fall and bytes left over", 1, (1,), 2, "05 04 80"),
        (9, "a fall of the values, lengths cut", 1, (18, 1, 1), 2, RUNS_OF % (2, 2) + "05 04 01"),
        (9, "cut", 0, (1,), 2, "05 80"), (13, "broken", 0, (1,), 2, "05 80 00")):
    for edition in r.EDITIONS:
        made, name_of = sheet((kind, plan(*p), n, hexa(text)), edition=edition), "P5 %s, edition %d: " % (name, edition)
        case(name_of + "read", of(r.read, made, 0, 7 * n, n), R(number))
        case(name_of + "8 and 7 first", (of(r.read, made, 0, 7 * n - 1, 0), of(r.read, made, 0, 7 * n, n - 1)), (R(8), R(7)))
        case(name_of + "check", named(r.check, made, 8 * n), ("refused", number, 0))
        case(name_of + "check, 8 first", named(r.check, made, 8 * n - 1), ("refused", 8, 0))
        case(name_of + "board", named(r.board, made, 8 * n), ("refused", number, 0))
        case(name_of + "programs", (r.listing(made), r.board_text(made)), 2 * (b"refused %d column 0\n" % number,))
        case(name_of + "fetched", of(r.fetch, made, 0), (26, len(hexa(text))))
TWICE_FIVE = sheet((1, plan(1), 3, hexa("05 05")), edition=2)
case("P5 equal neighbours in edition 2, then cut", of(r.read, TWICE_FIVE, 0, 21, 3), CUT)
case("P5 equal neighbours in edition 2, then cut, reader", r.calls(TWICE_FIVE, 0, 5),
     2 * [("number", 5)] + 3 * [CUT])
CUT_COLUMN, BROKEN_COLUMN = (0, plan(1), 1, b"\x80"), (0, plan(1), 1, b"\x80\0")
GOOD_COLUMN = 0, plan(1), 1, b"\5"
for columns, number, column in (((CUT_COLUMN, BROKEN_COLUMN), 9, 0), ((BROKEN_COLUMN, CUT_COLUMN), 13, 0),
                                ((GOOD_COLUMN, CUT_COLUMN, BROKEN_COLUMN), 9, 1),
                                ((GOOD_COLUMN, BROKEN_COLUMN, CUT_COLUMN), 13, 1),
                                ((GOOD_COLUMN, GOOD_COLUMN, CUT_COLUMN), 9, 2),
                                ((GOOD_COLUMN, GOOD_COLUMN, BROKEN_COLUMN), 13, 2)):
    made = sheet(*columns)
    case("P5 columns in turn for 9 and 13: %d in %d" % (number, column), (named(r.check, made, 8), named(r.board, made, 8)),
         2 * (("refused", number, column),))
    case("P5 columns in turn, programs: %d in %d" % (number, column), (r.listing(made), r.board_text(made)),
         2 * (b"refused %d column %d\n" % (number, column),))
    case("P5 a column alone: %d in %d" % (number, column), named(r.read, made, column, 7, 1), ("refused", number, 0))
case("P5 a reader gives 13 again", r.calls(sheet((0, plan(1), 3, b"\5\x80\0\7")), 0, 5), [("number", 5)] + 4 * [BROKEN])
case("P5 a reader gives 9 again", r.calls(sheet((0, plan(1), 3, b"\5\x80")), 0, 5), [("number", 5)] + 4 * [CUT])

# ------------------------------------------------------------ refusal numbers and sizes

case("refusal 1: one byte", named(r.check, b"\1", 0), ("refused", 1, 0))
for byte in (0, 3, 4, 128, 255):
    case("refusal 1: edition %d" % byte, named(r.check, bytes([byte, 0]), 0), ("refused", 1, 0))
case("refusal 1: 17 columns", named(r.check, b"\1\21" + bytes(24 * 17), 0), ("refused", 1, 0))
case("refusal 2: table cut short", named(r.check, LISTED[:25], 24), ("refused", 2, 0))
case("refusal 2: kind 2", of(r.lookup, sheet((2, plan(9), 0, b"")), 0, 0), R(2))
case("refusal 2: count 1,025", of(r.lookup, sheet((0, plan(9), 1025, b"")), 0, 0), R(2))
case("refusal 2: a byte more", of(r.fetch, LISTED + b"\0", 0), R(2))
case("refusal 2: a byte less", of(r.fetch, LISTED[:-1], 0), R(2))
case("refusal 3: not 15 bytes", r.judge(0, b"\1"), 3)
case("refusal 3: after the end", r.judge(0, plan(1, 0, 1)), 3)
case("refusal 4: lengths are any", r.judge(1, plan(18, 1, 17, 1)), 4)
case("refusal 4: values keep the kind", r.judge(1, plan(18, 16, 17, 1, 16, 1)), 0)
case("refusal 4: 17 hands on any", r.judge(1, plan(17, 17, 1)), 4)
case("the fullest plan", r.judge(0, bytes([18, 18, 18, 1, 2, 18, 3, 4, 18, 18, 5, 6, 18, 7, 8])), 0)
case("every plan of one number", [x for x in range(256) if r.judge(0, plan(x)) == 0], list(r.CODES))
case("the codes", r.CODES, (1, 2, 3, 4, 5, 6, 7, 8))
case("8 under a stage", [r.judge(1, plan(*p)) for p in ((16, 8), (17, 8), (18, 8, 8), (17, 16, 8))], 4 * [0])
case("refusal 3: 9 under a stage", r.judge(0, plan(16, 9)), 3)
case("refusal 4: 17 8 under kind 0", r.judge(0, plan(17, 8)), 4)
case("refusal 5 before 6", of(r.lookup, LISTED, 1, 99), R(5))
case("refusal 6", of(r.lookup, LISTED, 0, 3), R(6))
case("refusal 8: check", named(r.check, LISTED, 23), ("refused", 8, 0))
case("refusal 8: write before 7", of(r.write, 1, [(0, NONE, 2)], [1, 2], 13, 0), R(8))
case("refusal 10 before 8", of(r.write, 1, [(1, NONE, 2)], [2, 1], 0, 0), R(10))
case("refusal 11: 17 orders", of(r.write, 1, 17 * [(0, NONE, 0)], [], 0, 999), R(11))
case("refusal 11: kind 2", of(r.write, 1, [(2, plan(9), 0)], [], 0, 99), R(11))
case("refusal 11: count 1,025", of(r.write, 1, [(0, NONE, 1025)], 1025 * [0], 9999, 9999), R(11))
case("refusal 11: counts and slice", of(r.write, 1, [(0, NONE, 1)], [1, 2], 99, 99), R(11))
case("worst: 3 before 11", of(r.worst, plan(9), 1025), R(3))
case("worst: 11", of(r.worst, plan(1), 1025), R(11))
case("worst of 5 by each code", [r.worst(plan(c), 5) for c in r.CODES], [25, 22, 27, 22, 41, 27, 22, 27])
case("worst of 17 by code 7", r.worst(plan(7), 17), 4 * 17 + 5)
case("worst of 17 by code 7, reached", len(r.write_code(7, 17 * [MAX])), 4 * 17 + 5)
case("worst of 16, 17, 18", [r.worst(plan(*p), 5) for p in ((16, 1), (17, 1), (18, 16, 1, 2), (18, 8, 8))],
     [29, 25, 8 + 29 + 22, 8 + 27 + 27])
case("worst of 0", [r.worst(plan(*p), 0) for p in ((1,), (5,), (8,), (16, 3), (18, 16, 1, 1), (18, 8, 8))],
     [0, 0, 4, 4, 12, 16])

# ------------------------------------------------------------ the end

def main():
    differ = 0
    for name, got, expected in CASES:
        if got == expected and type(got) is type(expected):
            print("%s ok" % name)
        else:
            differ += 1
            print("%s: got %r expected %r" % (name, got, expected))
    print("%d cases, %d differ" % (len(CASES), differ))
    return 1 if differ else 0


if __name__ == "__main__":      # SORTS is for other tests too
    sys.exit(main())
