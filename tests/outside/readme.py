"""The README's C example: compiled as it stands there against the library's archive, run, and what it prints compared
with what the README says it prints.

    python3 readme.py ARCHIVE

Exit status 1 if it differs."""

import os
import re
import subprocess
import sys
sys.dont_write_bytecode = True
import machine


def blocks(text, language):
    return re.findall(r"^```%s\n(.*?)^```" % language, text, re.MULTILINE | re.DOTALL)


def main():
    with open(os.path.join(machine.ROOT, "README.md")) as file:
        text = file.read()
    (program,), (expected,) = blocks(text, "c"), blocks(text, "text")
    os.makedirs(machine.MADE, exist_ok=True)
    source = os.path.join(machine.MADE, "readme.c")
    with open(source, "w") as file:
        file.write(program)
    command = machine.build("readme", "-Werror", source, os.path.abspath(sys.argv[1]))
    printed = subprocess.run(command, stdout=subprocess.PIPE, check=True, text=True).stdout
    if printed != expected:
        print("the README's example printed %r, not %r" % (printed, expected))
        sys.exit(1)
    print("readme: the example prints what it should")


main()
