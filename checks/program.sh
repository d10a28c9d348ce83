#!/usr/bin/env bash
# Runs the built program as a user does: words, standard input, output, status. Last line: 'N passed, M failed'.
set -u
here=$(cd "$(dirname "${BASH_SOURCE[0]}")/.." && pwd)
passed=0
failed=0
out=$(mktemp) && err=$(mktemp) || exit 1
trap 'rm -f "$out" "$err"' EXIT

# wants STATUS OUTPUT ERROR INPUT WORDS..: an ERROR that ends in '*' is wanted as a beginning only.
wants() {
    local status=$1 output=$2 error=$3 input=$4 got
    shift 4
    printf '%s' "$input" | "$here/run" "$@" > "$out" 2> "$err"
    judge "$?" "$status" "$output" "$error" "$*"
}

judge() {
    local got=$1 status=$2 output=$3 error=$4 name=$5 right=1 said
    [ "$got" = "$status" ] || right=0
    printf '%s' "$output" | cmp -s - "$out" || right=0
    said=$(cat "$err"; printf x)
    if [ "${error%\*}" != "$error" ]; then
        [ "${said#"${error%\*}"}" != "$said" ] || right=0
    else
        [ "$said" = "${error}x" ] || right=0
    fi
    if [ "$right" = 1 ]; then
        passed=$((passed + 1))
    else
        failed=$((failed + 1))
        echo "program: '$name' gave status $got, output '$(cat "$out")', error '$(cat "$err")'"
    fi
}

"$here/run" check '$' > /dev/null 2>&1
line=$'\n'
usage="usage: jsonpath_run select|delete|remove|check PATH | mask PATH...$line"
wants 0 "[\"baz\"]$line" '' '{"foo":{"bar":"baz"}}' select '$.foo.bar'
wants 0 "[7]$line" '' '{"a":[7,8]}' select '$.a[0]'
wants 0 "[2,1]$line" '' '{"b":1,"a":2}' select '$.*'
wants 0 "[1]$line" '' '[1,2,3]' select '$[ -5 ]'
wants 0 "[]$line" '' '{}' select '$.x'
wants 0 "{\"a\":null,\"b\":2}$line" '' '{"b":2,"a":{"c":1}}' delete '$.a'
wants 0 "{\"a\":null,\"b\":{\"a\":null}}$line" '' '{"a":{"a":1},"b":{"a":2}}' delete '$..a'
wants 0 "{\"a\":1}$line" '' '{"a":1}' delete '$'
wants 0 "[1,null]$line" '' '[1,2.5]' delete '$[1]'
wants 0 "{\"b\":2}$line" '' '{"b":2,"a":{"c":1}}' remove '$.a'
wants 0 "[2]$line" '' '[1,2,3]' remove '$[0,2]'
wants 0 "{\"a\":{\"b\":null},\"c\":[null,2]}$line" '' '{"a":{"b":1},"c":[1,2]}' mask '$.a.b' '$.c[0]'
wants 0 "{\"a\":null}$line" '' '{"a":{"b":1}}' mask '$.a' '$.a.b' '$'
wants 1 '' "serde error: ${line}number is not a whole number of 64 bits$line$line" '[1.5]' select '$'
for word in delete remove mask; do
    wants 1 '' "serde error: ${line}number is not a whole number of 64 bits$line$line" '[1.5,{"a":1}]' "$word" '$[1].a'
    wants 1 '' "serde error: $line*" '{"a":' "$word" '$.a'
    wants 1 '' "path error: ${line}Position:3$line$line" '{}' "$word" '$[a]'
    wants 2 '' "$usage" '{}' "$word"
done
wants 1 '' "path error: ${line}Eof$line$line" '{"a":1}' mask '$.a' '$[' '$[a]'
wants 2 '' "$usage" '{}' delete '$' '$'
# A million items, and 100,000 members.
list="[7$(yes ',7' | head -n 999999 | tr -d '\n')]"
wants 0 "[7]$line" '' "$list" select '$[999999]'
wants 0 "[]$line" '' "$list" select '$[1000000]'
wants 0 "[7,7]$line" '' "$list" select '$[-1000000,-1]'
wants 0 "[7]$line" '' "$list" remove '$[1:]'
members="{\"m\":0$(seq 0 99999 | sed 's/.*/,"m&":&/' | tr -d '\n')}"
wants 0 "[99999]$line" '' "$members" select '$.m99999'
wants 0 "[]$line" '' "$members" select '$.m100000'
wants 0 "[1]$line" '' "$members" select '$[?(@.m == 0)].m1'
wants 2 '' "$usage" '{}' remove '$' '$'
wants 1 '' "serde error: $line*" '' select '$'
wants 2 '' "$usage" '' select
"$here/crates/jsonpath_main/out/jsonpath_main" > "$out" 2> "$err" < /dev/null
judge "$?" 2 '' "$usage" 'no words'
wants 2 '' "$usage" '{}' select '$' '$'
wants 2 '' "$usage" '{}' choose '$'
wants 1 '' "path error: ${line}Eof$line$line" '' check '$['
wants 1 '' "path error: ${line}Position:3$line$line" '{}' select '$[a]'
wants 0 "ok$line" '' '' check '$..[?(@.a == 1)]'
wants 1 '' "serde error: $line*" $'\xff' select '$'
wants 1 '' "serde error: $line*" '{"a":' select '$'

# Words that are no text.
"$here/run" select $'\xff' > "$out" 2> "$err" < /dev/null
judge "$?" 2 '' "$usage" 'a word that is no text'
# Output that fails, and input that fails.
"$here/run" select '$' > /dev/full 2> "$err" <<< '[1]'
status=$?
: > "$out"
judge "$status" 3 '' "input or output failed$line" 'a full disk'
"$here/run" select '$' 2> "$err" >&- <<< '[1]'
judge "$?" 3 '' "input or output failed$line" 'closed output'
"$here/run" select '$' > "$out" 2> "$err" < "$here"
judge "$?" 3 '' "input or output failed$line" 'a directory as input'
# Input that comes slowly, in pieces.
{ printf '{"a"'; sleep 0.2; printf ':[1,'; sleep 0.2; printf '2]}'; } | "$here/run" select '$.a[*]' > "$out" 2> "$err"
judge "$?" 0 "[1,2]$line" '' 'input in pieces'
# No memory to speak of: the input alone is larger than what the process may have.
large=$(mktemp)
head -c 60000000 /dev/zero | tr '\0' ' ' > "$large"
printf '[1]' >> "$large"
(ulimit -v 40000 && exec "$here/run" select '$') < "$large" > "$out" 2> "$err"
judge "$?" 1 '' "out of memory$line" 'little memory'
"$here/run" select '$' < "$large" > "$out" 2> "$err"
judge "$?" 0 "[[1]]$line" '' 'enough memory'
rm -f "$large"

echo "$passed passed, $failed failed"
[ "$failed" = 0 ]
