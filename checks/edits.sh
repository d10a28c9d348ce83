#!/usr/bin/env bash
# Each mutant of crates/NAME/must-fail/*.md with a line 'function:', an edit of that function, is refused at the goal that
# its file names. What it does in full is said in `edits.py`. Words behind it pick the files whose paths have them.
# Last line: 'N passed, M failed'.
set -u
cd "$(dirname "${BASH_SOURCE[0]}")/.." || exit 1
PYTHONDONTWRITEBYTECODE=1 exec python3 checks/edits.py "$@"
