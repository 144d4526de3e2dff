"""Looks at each must-fail edit: every text that it replaces stands once in its file, as the replacements before it leave that.
(An edit that does not fit its crate is found by the toolchain only when its turn comes.)  Exit status 1 if one does not fit."""

import pathlib
import sys

ROOT = pathlib.Path(__file__).resolve().parent.parent


def misfit(edit):
    """What is wrong with an edit, or nothing."""
    texts, file, old, pairs = {}, None, None, 0
    for line in edit.read_text(encoding="utf-8").splitlines():
        word, _, rest = line.partition(": ")
        if word == "file":
            file = edit.parent.parent / rest
            if not file.exists():
                return "no file %s" % rest
            texts.setdefault(file, file.read_text(encoding="utf-8"))
        elif word == "old":
            old = rest
        elif word == "new":
            if texts[file].count(old) != 1:
                return "%d times in %s: %s" % (texts[file].count(old), file.name, old.strip())
            texts[file], pairs = texts[file].replace(old, rest), pairs + 1
    return None if pairs else "it replaces nothing"


edits = sorted(ROOT.glob("crates/*/must-fail/*.edit"))
wrong = [(edit, misfit(edit)) for edit in edits if misfit(edit)]
for edit, why in wrong:
    print("%s: %s" % (edit.relative_to(ROOT), why))
print("edits: %d, %d do not fit" % (len(edits), len(wrong)))
sys.exit(1 if wrong else 0)
