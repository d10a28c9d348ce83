#!/usr/bin/env bash
# Installs the built programs and their manuals as a user does, and calls one by its name. Last line: 'N passed, M failed'.
set -u
here=$(cd "$(dirname "${BASH_SOURCE[0]}")/.." && pwd)
passed=0
failed=0
work=$(mktemp -d) || exit 1
chmod 755 "$work"
trap 'rm -rf "$work"' EXIT
mkdir "$work/bin" "$work/elsewhere" "$work/other" "$work/home"
line=$'\n'
# where FOLDER MANUALS: what is said of an installation.
where() { printf 'install: %s\n' "jpath is in $work/$1" "jsonpath_run is in $work/$1" "the manuals are in $work/$2/man1" "completions for bash, zsh and fish are in $work/${2%/man}"; }

# Runs a command elsewhere, and keeps what it wrote and its status.
tries() {
    (cd "$work/elsewhere" && exec "$@") > "$work/output" 2> "$work/error" < /dev/null
    status=$?
}

# judge NAME STATUS ERROR [OUTPUT]: of the last command. In ERROR a '*' stands for anything.
judge() {
    local error
    error=$(cat "$work/error")
    # shellcheck disable=SC2053
    if [ "$status" = "$2" ] && [[ $error == $3 ]] && [ "$(cat "$work/output")" = "${4-}" ]; then
        passed=$((passed + 1))
    else
        failed=$((failed + 1))
        echo "install: $1: status $status, output '$(cat "$work/output")', error '$error'"
    fi
}

holds() {
    local name=$1
    shift
    if "$@"; then
        passed=$((passed + 1))
    else
        failed=$((failed + 1))
        echo "install: $name: not so"
    fi
}

# So that what is installed is built, and nothing is said of a build below.
HOME=$work/first "$here/install" "$work/other" > /dev/null 2>&1 < /dev/null
holds 'the manuals of a folder that is no bin are in the home' [ -f "$work/first/.local/share/man/man1/jpath.1" ]

# Into a folder that isn't on the PATH, and into one that is.
tries "$here/install" "$work/bin"
judge 'a folder that is not on the PATH' 0 "$(where bin share/man)${line}install: $work/bin isn't on the PATH. A line for *"
holds 'the program is the built one' cmp -s "$work/bin/jsonpath_run" "$here/crates/jsonpath_main/out/jsonpath_main"
holds 'jpath is the built one' cmp -s "$work/bin/jpath" "$here/crates/jpath/out/jpath"
for manual in jpath.1 jsonpath_run.1; do
    holds "$manual is there" cmp -s "$work/share/man/man1/$manual" "$here/docs/$manual"
done
for place in bash-completion/completions/jpath zsh/site-functions/_jpath fish/vendor_completions.d/jpath.fish; do
    holds "$place has completions" grep -q with-locations "$work/share/$place"
done
old=$(stat -c %i "$work/bin/jsonpath_run")
PATH=$work/bin:$PATH tries "$here/install" "$work/bin"
judge 'a folder on the PATH, once more' 0 "$(where bin share/man)"
holds 'it was replaced by another file' [ "$old" != "$(stat -c %i "$work/bin/jsonpath_run")" ]
holds 'nothing is left beside it' [ "$(find "$work/bin" -name '.*' -not -path "$work/bin")" = '' ]
PATH=$work/other:$work/bin:$PATH tries "$here/install" ../bin
others=$(printf 'install: another %s comes before it on the PATH: %s\n' jsonpath_run "$work/other/jsonpath_run" jpath "$work/other/jpath")
judge 'others before them on the PATH, and a folder by a short name' 0 "$(where bin share/man)$line$others"

# By its name, from another folder, with nothing of the checkout.
printf '{"foo":{"bar":"baz"}}' > "$work/elsewhere/document"
PATH=$work/bin:$PATH tries sh -c "jsonpath_run select '\$.foo.bar' < document"
judge 'a call by name' 0 '' '["baz"]'

# It needs the C library alone: the loader and libc.
needed=$(ldd "$work/bin/jsonpath_run" | sed -E 's/^[[:space:]]*//; s/ .*//; s|.*/||' | sort | tr '\n' ' ')
holds "it needs the C library alone, and not: $needed" \
    grep -qxE '(ld-linux-x86-64\.so\.2 )?(libc\.so\.6 )(linux-vdso\.so\.1 )?' <<< "$needed"

# The default folder is made.
HOME=$work/home tries "$here/install"
judge 'no folder named' 0 "$(where home/.local/bin home/.local/share/man)${line}install: * isn't on the PATH*"
holds 'it stands there' [ -x "$work/home/.local/bin/jsonpath_run" ]
tries env -u HOME "$here/install"
judge 'no folder named, and no HOME' 73 "install: HOME isn't set*"
: > "$work/file"
HOME=$work/file tries "$here/install"
judge 'no folder named, and a HOME that is a file' 73 "install: $work/file/.local/bin can't be made*"

# What is refused, before anything is built or written.
tries "$here/install" "$work/bin" "$work/other"
judge 'two folders' 2 'install: usage: ./install \[FOLDER\]*--help'
tries "$here/install" --hlep
judge 'an option' 2 'install: no option --hlep,*usage: ./install \[FOLDER\]*--help'
for words in -h --help; do
    (cd "$work/elsewhere" && "$here/install" "$words") > "$work/help" 2> "$work/error"
    holds "$words: what it does, and how long it takes" grep -q 'half an hour' "$work/help"
    holds "$words: nothing on standard error" [ ! -s "$work/error" ]
done
tries "$here/install" ''
judge 'an empty name' 2 'install: *empty; usage: ./install \[FOLDER\]*--help'
tries "$here/install" "$work/nowhere"
judge 'a folder that is not there' 73 "install: there is no folder $work/nowhere: make it first*"
holds 'it is not made' [ ! -e "$work/nowhere" ]
tries "$here/install" "$work/file"
judge 'a file in its place' 73 "install: $work/file is no folder"
mkdir -p "$work/taken/jsonpath_run"
tries "$here/install" "$work/taken"
judge 'a folder of the name of the program' 73 "*install: $work/taken/jsonpath_run is a folder*"
holds 'that folder stays as it was' [ "$(find "$work/taken" -mindepth 1)" = "$work/taken/jsonpath_run" ]
stranger=()
[ "$(id -u)" != 0 ] || stranger=(setpriv --reuid=65534 --regid=65534 --clear-groups)
env -u HOME "$here/install" "$work/other" > /dev/null 2> "$work/error" < /dev/null
holds 'no place for the manuals: it is said, and the programs are there' grep -q "manuals can't be written" "$work/error"
mkdir "$work/closed"
chmod 555 "$work/closed"
cp "$here/install" "$work/install"
chmod 755 "$work/install"
tries "${stranger[@]}" "$work/install" "$work/closed"
judge 'a folder that cannot be written' 73 "install: $work/closed can't be written"

# How long it takes is said before a build, and ./test says what it does.
mkdir -p "$work/clone/docs"
cp "$here/install" "$work/clone/"
printf '#!/bin/sh\nexit 70\n' > "$work/clone/run"
chmod 755 "$work/clone/run"
tries "$work/clone/install" "$work/bin"
judge 'a build to come' 70 'install: both programs are proved*half an hour*'
holds './test --help' grep -q 'N passed' <<< "$("$here/test" --help)"
tries "$here/test" frob
judge 'a word for ./test' 2 'usage: ./test \[--help\]'

# The manuals are formatted without a warning.
for manual in jpath.1 jsonpath_run.1; do
    holds "$manual has no warning" [ "$(groff -ww -man -Tutf8 "$here/docs/$manual" 2>&1 > /dev/null)" = '' ]
    holds "$manual has lines" [ "$(man -l "$here/docs/$manual" 2> /dev/null | wc -l)" -gt 40 ]
done

echo "$passed passed, $failed failed"
[ "$failed" = 0 ]
