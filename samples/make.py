"""Writes the sample sheets by the independent reading: a night of 208 jobs (job numbers, endings, run times in milliseconds).

    night.sheet     edition 1
    damaged.sheet   the same with a byte of its third column changed, which the check refuses by 13 in column 2
    stopped.sheet   the same without the last byte of its third column, and the table says so: a body cut short, 9 in column 2
    cut.sheet       the same without its last byte, the table as it was: 2
    strict.sheet    the same night in edition 2
    twice.sheet     edition 2, but two neighbouring jobs have the same number: edition 1's sheet of that with byte 0 set to 2,
                    which the check refuses by 13 in column 0
    direct.sheet    the same night in edition 2 with every list directly addressed (code 8), run times in microseconds: the
                    last column has more than 512 data bytes, so a sum

    python3 samples/make.py"""

import os
import random
import sys
sys.dont_write_bytecode = True
HERE = os.path.dirname(os.path.abspath(__file__))
sys.path.insert(0, os.path.join(os.path.dirname(HERE), "tests"))
import reading

JOBS = 208
ENDINGS = [0] * 170 + [1] * 14 + [2] * 5 + [77] * 3 + [124] * 6 + [139] * 3 + [256] * 7
TWICE = 100                     # the place of the job that has the next one's number in twice.sheet


def plan(*numbers):
    return bytes(numbers) + bytes(15 - len(numbers))


def night():
    """Job numbers, endings and run times."""
    rnd = random.Random(20)
    jobs = [41003]
    while len(jobs) < JOBS:
        jobs.append(jobs[-1] + rnd.choice([1, 1, 1, 1, 2, 3, 9]))
    endings = rnd.sample(ENDINGS, JOBS)
    # a job that was killed ran for its whole ten minutes, one that never ended has no time
    fixed = {124: 600000, 256: 0}
    times = [fixed.get(ending, rnd.randrange(800, 95000)) for ending in endings]
    return jobs, endings, times


PLANS = plan(17, 4), plan(18, 2, 1), plan(4)
DIRECT = plan(8), plan(18, 8, 8), plan(8)


def written(edition, jobs, endings, times, plans=PLANS):
    orders = [(kind, text, JOBS) for kind, text in zip((1, 0, 0), plans)]
    return reading.write(edition, orders, jobs + endings + times, 7 * JOBS, 65536)


def changed(sheet, at, value):
    made = bytearray(sheet)
    made[at] = value
    return bytes(made)


def stopped(sheet):
    """A sheet without its last byte, its third and last column's length less by one."""
    at = 2 + 2 * reading.entry_size(sheet[0]) + 20
    return sheet[:at] + reading.u32(reading.fetch(sheet, 2)[1] - 1) + sheet[at + 4:-1]


def store(name, data):
    with open(os.path.join(HERE, name + ".sheet"), "wb") as file:
        file.write(data)


def main():
    jobs, endings, times = night()
    sheet = written(1, jobs, endings, times)
    store("night", sheet)
    store("damaged", changed(sheet, -1, 0))
    store("stopped", stopped(sheet))
    store("cut", sheet[:-1])
    store("strict", written(2, jobs, endings, times))
    store("direct", written(2, jobs, endings, [1000 * time for time in times], DIRECT))
    jobs[TWICE] = jobs[TWICE + 1]
    store("twice", changed(written(1, jobs, endings, times), 0, 2))


main()
