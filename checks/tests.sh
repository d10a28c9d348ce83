#!/usr/bin/env bash
# Runs the tests of crates/jsonpath_tests/tests: `checks/tests.py` puts them into the crate, in a copy, which `rt try` compiles
# and runs. Nothing is proved of a test. Each test that is there has to run and to end well, and each file has to be formatted.
# Those of the folder memory run with memory that is refused, by `refuse.c`, which is linked with them: a test named
# `growths_*` runs with one growth of memory after another refused, and wants a full answer or out of memory of each call; one
# named `starved_*` takes the room that there is but for some bytes. A test that is made up here fails where its growth is
# refused. Wants a C compiler.
# Last line: 'N passed, M failed'.
set -u
here=$(cd "$(dirname "${BASH_SOURCE[0]}")/.." && pwd)
failed=0
work=$(mktemp -d) || exit 1
trap 'rm -rf "$work"' EXIT
copy=$work/copy
crate=$copy/crates/jsonpath_tests
said=$work/said

tell() {
    echo "tests: $1"
    failed=$((failed + 1))
}

CC=$(command -v "${CC:-cc}" || command -v gcc || command -v clang)
export CC
[ -n "$CC" ] || tell 'there is no C compiler, so no growth can be refused: install one, or name it in CC'

mkdir "$copy"
tar -C "$here" --exclude out --exclude must-fail -cf - HANDLES crates.txt crates | tar -C "$copy" -xf -
git init -q "$copy"
if ! python3 "$here/checks/tests.py" "$copy" || ! cd "$crate"; then
    tell 'no crate can be made of the tests'
    echo "0 passed, $failed failed"
    exit 1
fi

cp -R src "$work/before"
rt fmt > /dev/null 2>&1 || tell 'the tests cannot be formatted'
unformatted=$(diff -rq "$work/before" src)
[ -z "$unformatted" ] || tell "these are not formatted as \`rt fmt\` does: $unformatted"

mkdir c
cp "$here/checks/refuse.c" c/
cat >> src/lib.rt << 'MADE_UP'

#[test]
fn growths_made_up(rt: HostRuntime) {
    let text = String::from_str(rt.alloc(), "a text");
    assert!(rt; text.is_ok());
}
MADE_UP
# The files of rows are put beside the tests that read them.
data=()
for file in "$here"/crates/jsonpath_tests/tests/rows/*.jsonl; do
    data+=(--data "${file##*/}=$file")
done
# A test has a few seconds; the time that it may take is long, since other work may go on.
RT_ALLOW_C=jsonpath_tests rt try --test --seconds 600 "${data[@]}" > "$said" 2>&1 < /dev/null

# A test and how it ended, with the growths that were refused to it, or the one at which it failed.
ended=$(awk '
    function tell() { if (name != "") print name, outcome, growths }
    /^test [a-z_:0-9]+ \.\.\. / { tell(); name = $2; outcome = $4; growths = "none" }
    /^ *growths: / { growths = $0; gsub(/[^0-9]/, "", growths) }
    END { tell() }' "$said")
passed=0

# Compares how many tests there are with how many of them ran and ended well. Words: where they are, both numbers.
compare() {
    passed=$((passed + $3))
    [ "$2" != 0 ] || tell "there is no test in $1"
    if [ "$2" != "$3" ]; then
        grep -v '^test .* ok$' "$said" | tail -n 60
        tell "there are $2 tests in $1, and $3 ran and ended well"
    fi
}

tests=$here/crates/jsonpath_tests/tests
there=$(find "$tests" -path "$tests/memory" -prune -o -name '*.rs' -exec cat {} + | grep -c '^ *#\[test\]$')
compare tests "$there" "$(grep -v '^memory::' <<< "$ended" | grep -c ' ok none$')"
there=$(cat "$tests"/memory/*.rs | grep -c '^#\[test\]$')
compare tests/memory "$there" "$(grep -cE '^memory::([a-z_]+::)*(growths_[a-z_]+ ok [1-9][0-9]*|starved_[a-z_]+ ok none)$' <<< "$ended")"
if grep -qx 'growths_made_up FAILED 1' <<< "$ended"; then
    passed=$((passed + 1))
else
    tell 'the test that is made up does not fail where its growth is refused'
fi
awk '$3 != "none" && $2 == "ok" { count += $3 } END { print "growths: " count + 0 " refused in turn" }' <<< "$ended"
echo "$passed passed, $failed failed"
[ "$failed" = 0 ]
