#!/usr/bin/env bash
# Each mutant has its row in docs/MUTANTS.md, and each row its mutant, whose file names what rejects it: `mutant_rows.py` compares them.
# Last line: 'N passed, M failed'.
set -u
cd "$(dirname "${BASH_SOURCE[0]}")/.." || exit 1
PYTHONDONTWRITEBYTECODE=1 exec python3 checks/mutant_rows.py
