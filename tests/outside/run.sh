#!/usr/bin/env bash
# The tests from outside on the library's archive, as a C program meets it: bash tests/outside/run.sh ARCHIVE [OPERATIONS]
# (the archive: crates/capi/out/libcapi.a, by `rt lib` in crates/capi).  Installs what is missing.  Exit status 0: nothing differs.
set -euo pipefail
archive=$(realpath "$1")
cd "$(dirname "$0")"
python3 machine.py
python3 compare.py "$archive" "${2:-200000}"
python3 ranks.py "$archive"
python3 interop.py "$archive"
python3 readme.py "$archive"
