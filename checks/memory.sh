#!/usr/bin/env bash
# Bodies that answer out of memory at once, or that a file can't be edited, meet their contracts, and fail tests. What it
# does in full is said in `memory.py`. Words behind it pick the files whose paths have them. Wants a C compiler.
# Last line: 'N passed, M failed'.
set -u
cd "$(dirname "${BASH_SOURCE[0]}")/.." || exit 1
CC=$(command -v "${CC:-cc}" || command -v gcc || command -v clang)
export CC
PYTHONDONTWRITEBYTECODE=1 exec python3 checks/memory.py "$@"
