#!/usr/bin/env bash
# Runs the built program on paths and documents that a stranger could send, under little memory or little stack, and
# looks at each answer: limits.sh [PROGRAM] tries another program. No case goes by seconds: the timeout only ends what
# hangs. docs/LIMITS.md says what is to hold. Last line: 'N passed, M failed'.
set -u
here=$(cd "$(dirname "${BASH_SOURCE[0]}")/.." && pwd)
passed=0
failed=0
work=$(mktemp -d) || exit 1
trap 'rm -rf "$work"' EXIT
seconds=120

if [ $# = 0 ]; then
    program=$here/crates/jsonpath_main/out/jsonpath_main
    "$here/run" check '$' > "$work/said" 2>&1 || { cat "$work/said"; program=; }
else
    program=$1
fi
if [ ! -f "$program" ] || [ ! -x "$program" ]; then
    echo "limits: there is no program '$program'"
    echo "0 passed, 1 failed"
    exit 1
fi

# times TEXT N: the text so often.
times() { awk -v text="$1" -v number="$2" 'BEGIN { while (number-- > 0) printf "%s", text }'; }

# around BEFORE N INNER AFTER: the text with so many of the others before and behind it.
around() { printf '%s%s%s' "$(times "$1" "$2")" "$3" "$(times "$4" "$2")"; }

# objects N: an array of so many objects, with an a from 0 up and a b from -1 down.
objects() { awk -v number="$1" 'BEGIN { printf "["; for (at = 0; at < number; at++) printf "%s{\"a\":%d,\"b\":%d}", at ? "," : "", at, -at - 1; printf "]" }'; }

# members ORDER: an object of 100,000 members, whose names go up, go down, are in no order, or are there twice.
members() {
    awk -v order="$1" 'BEGIN {
        printf "{"
        for (round = order == "twice"; round >= 0; round--)
            for (at = 0; at < 100000; at++) {
                place = order == "up" ? at : order == "down" ? 99999 - at : at * 77773 % 100000
                printf "%s\"n%05d\":%d", at || !round && order == "twice" ? "," : "", place, place + round
            }
        printf "}"
    }'
}

# answers MEGABYTES STACK NAME DOCUMENT ANSWER WORDS..: with so much memory that the process may ask for, and so many KB of
# stack, the program ends well, and writes the answer and a line end.
answers() {
    local megabytes=$1 stack=$2 name=$3 document=$4 answer=$5 status
    shift 5
    (
        ulimit -v $((megabytes * 1024)) && ulimit -s "$stack" && ulimit -c 0 &&
            exec timeout "$seconds" "$program" "$@" < "$work/$document" > "$work/out" 2> "$work/err"
    ) 2> /dev/null
    status=$?
    if [ "$status" = 0 ] && printf '%s\n' "$answer" | cmp -s - "$work/out"; then
        passed=$((passed + 1))
    else
        failed=$((failed + 1))
        echo "limits: $name: status $status, output '$(head -c 60 "$work/out")', error '$(head -c 60 "$work/err" | tr '\n' ' ')'"
    fi
}

around '[' 120 "$(times '1,' 19999)1" ']' > "$work/items"
around '[' 127 '' ']' > "$work/arrays"
around '{"a":' 60 1 '}' > "$work/objects60"
around '{"a":' 120 1 '}' > "$work/objects120"
objects 16000 > "$work/pairs"
awk 'BEGIN {
    printf "{\"allow\":["
    for (at = 0; at < 300; at++) printf "%s%d", at ? "," : "", 7 * at
    printf "],\"items\":["
    for (at = 0; at < 20000; at++) printf "%s{\"id\":%d,\"n\":%d}", at ? "," : "", at, at
    printf "]}"
}' > "$work/records"
printf '{}' > "$work/none"
printf '[1]' > "$work/one"

# A filter after '..', where the document is deep.
answers 60 8192 'a filter after .. in 120 arrays around 20,000 numbers' items '[]' select '$..[?(@.a)]'

# Each candidate compared with a list.
answers 70 8192 'candidates compared by == with a list' pairs '[]' select '$[?(@.b == $[*].a)]'
answers 70 8192 'candidates compared by < with a list' pairs '[]' select '$[?(@.a < $[*].b)]'
allowed=$(awk 'BEGIN { for (at = 0; at < 300; at++) printf "%s%d", at ? "," : "", 7 * at }')
answers 70 8192 'records whose number is in a list' records "[$allowed]" select '$.items[?(@.id == $.allow[*])].n'

# '..*' again and again, which leads to a place in many ways.
answers 40 8192 'mask by ..* four times in 127 arrays' arrays '[[[[null]]]]' mask '$..*..*..*..*'
answers 40 8192 'delete by ..* four times in 127 arrays' arrays '[[[[null]]]]' delete '$..*..*..*..*'
answers 40 8192 'remove by ..* four times in 127 arrays' arrays '[[[[]]]]' remove '$..*..*..*..*'
answers 40 8192 'select by ..* six times and a name that is not there, in 60 objects' objects60 '[]' select '$..*..*..*..*..*..*.zz'
answers 50 8192 'a filter with ..* four times in 120 objects' objects120 '[]' select '$..[?(@..*..*..*..*==7)]'

# A filter in a filter, each after '..'.
nested=$(around '..[?(@' 6 .zz ')]')
answers 50 8192 'mask by six filters, each in the one before, in 60 objects' objects60 "$(cat "$work/objects60")" mask "\$$nested"

# As many levels as a path may have: read and evaluated with 1 MB of stack.
answers 60 1024 '1,000 levels of filters' none ok check "\$$(around '[?(@' 1000 '' ')]')"
answers 60 1024 '1,000 levels of parentheses' none ok check "\$[?$(around '(' 1000 @ ')')]"
answers 60 1024 '1,000 conditions joined by &&' none ok check "\$[?(@$(times '&&@' 999))]"
answers 60 1024 '1,000 levels of comparisons' none ok check "\$$(around '[?(1==$' 1000 '' ')]')"
answers 60 1024 'select by 1,000 levels of parentheses' none '[]' select "\$[?$(around '(' 1000 @.a ')')]"
answers 60 1024 'select by 1,000 levels of compared filters' one '[1]' select "\$$(around '[?(@==@' 1000 '' ')]')"
answers 60 1024 'select by 1,000 levels of filters' none '[{}]' select "\$$(around '[?(@' 1000 '' ')]')"
answers 60 1024 'delete by 1,000 levels of filters after ..' none '{}' delete "\$$(around '..[?(@.a' 1000 '' ')]')"

# Many members, printed by their names, each once.
sorted=$(members up)
for order in up down shuffled twice; do
    members "$order" > "$work/members"
    answers 60 8192 "100,000 members, $order" members "[$sorted]" select '$'
    answers 60 8192 "the last of 100,000 members, $order" members '[99999]' select '$.n99999'
done

echo "$passed passed, $failed failed"
[ "$failed" = 0 ]
