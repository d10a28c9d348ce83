#!/usr/bin/env bash
# Each wrong body of crates/NAME/must-fail/*.md without a line 'function:', put under the clauses of the public call that it
# names, is refused at the goal that its file names, and the call by itself is proved under them. What it does in full is said
# in `bodies.py`. Words behind it pick the files whose paths have them. Beside `rt ci`, whose log GATE_LOG names, it tries
# bodies once their crates are proved; else it takes the libraries as they are built, or builds them, which takes long.
# Last line: 'N passed, M failed'.
set -u
cd "$(dirname "${BASH_SOURCE[0]}")/.." || exit 1
[ -n "${GATE_LOG:-}" ] || for crate in crates/*/must-fail/*.md; do
    crate=${crate#crates/}
    echo "${crate%%/*}"
done | sort -u | while read -r crate; do
    [ -e "crates/$crate/out/rlib/$crate.rlib" ] || (cd "crates/$crate" && rt lib < /dev/null > /dev/null 2>&1)
done
PYTHONDONTWRITEBYTECODE=1 exec python3 checks/bodies.py "$@"
