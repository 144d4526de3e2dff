#!/usr/bin/env bash
# run.sh PROGRAM < SHEET: runs a proved program, which `rt run` in its crate's folder, or `rt ci`, leaves in that folder's out/.
set -euo pipefail
exec "$(dirname "$0")/crates/$1/out/$1"
