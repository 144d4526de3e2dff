#!/usr/bin/env python3
"""Checks that docs/PROMISES.md names theorems that are there: each is declared `pub` in the file that its line names. Of a source file it is a
function's contract: Rattle makes the theorem F_spec of what the public function F there ensures."""
import pathlib
import re
import sys

root = pathlib.Path(__file__).resolve().parent.parent


def named(line):
    """The theorems and the file of a table's line, where it names a file of proofs or a source."""
    cells = [cell.strip() for cell in line.strip().strip("|").split("|")]
    if len(cells) != 3 or not cells[2].endswith((".antt", ".rt")):
        return [], None
    return re.findall(r"`([^`]+)`", re.sub(r"\(.*?\)", "", cells[1])), cells[2]


def declared(theorem, file, text):
    if file.endswith(".rt"):
        function = re.escape(theorem.removesuffix("_spec"))
        return theorem.endswith("_spec") and re.search(rf"^pub fn {function}\((?:(?!^{{|^}}).*\n)*?\s+ensures {{", text, re.MULTILINE)
    return re.search(rf"^\s*pub {re.escape(theorem)}(?: \{{[^}}]*\}})? :", text, re.MULTILINE)


def main():
    count, missing = 0, []
    for line in (root / "docs/PROMISES.md").read_text().splitlines():
        theorems, file = named(line)
        if file is None:
            continue
        path = root / file
        text = path.read_text() if path.is_file() else ""
        if not theorems:
            missing.append(f"no theorem named: {line}")
        for theorem in theorems:
            count += 1
            if not declared(theorem, file, text):
                missing.append(f"{theorem} is not in {file}")
    for problem in missing:
        print(problem)
    print(f"promises: {count} theorems named, {len(missing)} missing")
    sys.exit(1 if missing or count < 20 else 0)


main()
