#!/usr/bin/env bash
# What a call lends does not outlive the document, or the path text, that it is lent from. The functions of
# crates/jsonpath_tests/tests/library/lifetimes.rs keep what is lent to them, and `tests.sh` runs them; here each lends from
# what ends with it, and must not compile. Nothing is proved here.
# Last line: 'N passed, M failed'.
set -u
here=$(cd "$(dirname "${BASH_SOURCE[0]}")/.." && pwd)
passed=0
failed=0
room=$(mktemp -d) || exit 1
trap 'rm -rf "$room"' EXIT
functions=$here/crates/jsonpath_tests/tests/library/lifetimes.rs
libraries='jsonpath_streams json_recognizer jsonpath_paths jsonpath_nodes json_trees jsonpath_select jsonpath_lib'
program=$room/crates/lent/src/main.rt

for name in $libraries; do
    mkdir -p "$room/crates/$name"
    cp -R "$here/crates/$name/src" "$here/crates/$name/specs" "$here/crates/$name/proofs" "$room/crates/$name/"
    grep "^$name:" "$here/crates.txt" >> "$room/crates.txt"
done
echo "lent: $libraries serde_json" >> "$room/crates.txt"
cp "$here/HANDLES" "$room/"
mkdir -p "$(dirname "$program")"

# Each function with a document, or a path text, of its own, from which it lends.
awk '
    /^#\[test\]$/ { exit }
    /^use (crate|std::process|std::test)::/ { next }
    !/^\/\/!/ && !begun { print "#![tactic(auto)]"; begun = 1 }
    { print }
    /^\) -> Result<Vec<&.a str>, / { print "    let lender = String::from_str(alloc, text)?;\n    let text = lender.as_str();"; next }
    /^\) -> Result<Vec</ { print "    let lender = read_document(alloc, b\"[7]\")?;\n    let value = &lender;" }
' "$functions" > "$program"
echo 'fn main() {}' >> "$program"
(cd "$room/crates/lent" && rt try) > "$room/said" 2>&1 < /dev/null

# The functions in which the compiler says that the lender does not live long enough.
refused=$(grep -E '^src/main\.rt:[0-9]+:[0-9]+: error\[borrow-e0515\].*`lender`' "$room/said" | while IFS=: read -r _ line _; do
    awk -v line="$line" 'NR <= line && /^fn / { split($2, part, /[<(]/); name = part[1] } END { print name }' "$program"
done)
for name in $(sed -nE "s/^fn (\w+)<'a>\($/\1/p" "$functions"); do
    if grep -qx "$name" <<< "$refused"; then
        passed=$((passed + 1))
    else
        failed=$((failed + 1))
        echo "lifetimes: $name: what it keeps must not outlive what lends it"
    fi
done
[ "$failed" = 0 ] || cat "$room/said"
echo "$passed passed, $failed failed"
[ "$failed" = 0 ] && [ "$passed" != 0 ]
