"""Spells this repository's own definitions as today's Rattle does: a name in camel case becomes snake case, and a file of specs/ that is
called Contracts, a name that Rattle now makes itself, becomes Promises. Run once, at the top, after the toolchain's own port.py; a second
run changes nothing. Types, modules and constructors keep their capitals, names of Rust stay.

    python3 tools/respell.py"""

import glob
import os
import re

# A name that begins small and has a capital inside, alone or between the dashes of a longer name.
PART = re.compile(r"(?<![\w'])[a-z][a-z0-9]*[A-Z][A-Za-z0-9_]*")
FOLDERS = ["crates/*/specs/*.antt", "crates/*/proofs/**/*.antt", "crates/*/src/**/*.rt"]
PAGES = ["README.md", "docs/*.md", "tests/*.py", "tests/outside/*.py"]


def snake(name):
    name = name.replace("G8IU", "G8iu").replace("VByte", "Vbyte")
    return re.sub(r"([a-z0-9])([A-Z])", lambda it: it.group(1) + "_" + it.group(2).lower(), name)


def files(patterns):
    return sorted({path for pattern in patterns for path in glob.glob(pattern, recursive=True)})


def read(path):
    with open(path, encoding="utf-8") as file:
        return file.read()


def write(path, text):
    if text != read(path):
        with open(path, "w", encoding="utf-8") as file:
            file.write(text)


def moved():
    """The file that Rattle now makes itself gets another name, and the paths that name it follow."""
    for path in glob.glob("crates/*/specs/Contracts.antt"):
        os.rename(path, path.replace("Contracts.antt", "Promises.antt"))
        lib = os.path.join(os.path.dirname(path), "Lib.antt")
        write(lib, re.sub(r"(?m)^pub mod Contracts$", "pub mod Promises", read(lib)))
    for path in files(FOLDERS):
        write(path, re.sub(r"\bspecs\.Contracts\b", "specs.Promises", read(path)))


def main():
    moved()
    texts = {path: read(path) for path in files(FOLDERS)}
    names = {name for text in texts.values() for name in PART.findall(text)}
    new = {name: snake(name) for name in names}
    if len(set(new.values())) != len(new):
        raise SystemExit("two names fall together: " + ", ".join(sorted(new)))
    for path, text in texts.items():
        write(path, PART.sub(lambda it: new[it.group(0)], text))
    for path in files(PAGES):
        write(path, PART.sub(lambda it: new.get(it.group(0), it.group(0)), read(path)))
    print(len(new), "names respelled")


main()
