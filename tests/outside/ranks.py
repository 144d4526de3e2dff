"""Rank and select over a million bits, two slices of 65,536 bytes, against ones counted bit by bit (ranks.c).

    python3 ranks.py ARCHIVE

Says how many of the indexes there was time for.  Exit status 1 if any differ."""

import os
import subprocess
import sys
sys.dont_write_bytecode = True
import machine

HERE = os.path.dirname(os.path.abspath(__file__))


def main(archive):
    program = machine.build("ranks", os.path.join(HERE, "ranks.c"), archive)
    running = [subprocess.Popen(program + [which], stdout=subprocess.PIPE, text=True) for which in ("0", "1")]
    told = [run.communicate()[0].split() for run in running]
    if any(run.returncode for run in running):
        print("ranks: the program ended with %s" % [run.returncode for run in running])
        return 1
    ranks, rank_all, selects, select_all, differ = (sum(map(int, column)) for column in zip(*told))
    print("ranks: %d ranks of %d and %d selects of %d compared, %d differ" % (ranks, rank_all, selects, select_all, differ))
    return 1 if differ else 0


if __name__ == "__main__":
    sys.exit(main(os.path.abspath(sys.argv[1])))
