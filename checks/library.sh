#!/usr/bin/env bash
# Installs the library as ./test proved it, by `./install --library` and `--into`, and proves the caller and the program of
# docs/CALLING.md over it; without its proof file the caller isn't proved. What rt refuses is tried in copies of what was installed,
# what ./install refuses in a checkout that is made up here: by words and status, and nothing is left behind. The archive that the page
# shows is made and unpacked there. Last line: 'N passed, M failed'.
set -u
here=$(cd "$(dirname "${BASH_SOURCE[0]}")/.." && pwd)
crates='jsonpath_streams json_recognizer jsonpath_paths jsonpath_nodes json_trees jsonpath_select jsonpath_lib'
passed=0
failed=0
work=$(mktemp -d) || exit 1
chmod 755 "$work"
trap 'rm -rf "$work"' EXIT

judge() {
    [ "$1" != 0 ] || { passed=$((passed + 1)) && return; }
    failed=$((failed + 1))
    echo "library: $2"
}

# says NAME STATUS WORDS COMMAND..: the command ends with this status, and says WORDS, in which a '*' stands for anything.
says() {
    local name=$1 wanted=$2 words=$3 said status
    shift 3
    said=$("$@" 2>&1)
    status=$?
    # shellcheck disable=SC2053
    [[ $status = "$wanted" && $said == *$words* ]]
    judge $? "$name: status $status, and it says: $(tail -c 2000 <<< "$said")"
}

# block KIND NUMBER: a block of the page.
block() {
    awk -v kind="$1" -v number="$2" '/^```/ { open = !open; inside = open && $0 == "```" kind && ++seen == number; next } inside' "$here/docs/CALLING.md"
}

# A repository with the crates of the page.
mine=$work/mine/crates
mkdir -p "$mine/app/src" "$mine/app/proofs/price" "$mine/prices/src"
block text 1 > "$mine/../crates.txt"
block rust 1 > "$mine/prices/src/main.rt"
block rust 2 > "$mine/app/src/lib.rt"
block antt 1 > "$mine/app/proofs/price/Answers.antt"
within() { (cd "$mine/$1" && exec "${@:2}"); }

line=$'\n'
says 'the library' 0 "install: the proved library is in $work/library; $work/library/rt is rt over it" "$here/install" --library "$work/library"
says 'the caller' 0 "fn app::found: proved${line}fn app::price: proved$line*${line}logic=proved functions=2 " within app "$work/library/rt" check
printf '{"a":{"price":1995},"b":[{"price":895}]}' > "$work/document"
says 'the program' 0 '[1995,895]' within prices "$work/library/rt" run < "$work/document"

# What was installed, changed in a copy: change FILE WORDS.. has the command make FILE anew.
copied=$work/copied
select=$copied/crates/jsonpath_select/out/rlib/jsonpath_select.rlib
lib=$copied/crates/jsonpath_lib/out/rlib/jsonpath_lib.rlib
change() {
    rm -rf "$copied" "$mine/app/out"
    cp -al "$work/library" "$copied"
    "${@:2}" < "$1" > "$work/changed" && mv -f "$work/changed" "$1"
}
# Turns a bit in the midst of the module that says what a path selects.
turn_in_meaning() {
    python3 -c '
import json, re, sys
made = bytearray(sys.stdin.buffer.read())
at, size = next(it[1:] for it in map(json.loads, open(sys.argv[1])) if it[0] == "part/Rattle-jsonpath_select-specs.Meaning")
made[at + size // 2] ^= 1
sys.stdout.buffer.write(made)' "$select/toolchain/checked.json"
}
refused() { says "$1" "$2" "$3" within app "$copied/rt" check; }
change "$copied/kit/KIT-ID" echo another
refused 'another kit' 2 "rt: the library in $copied was proved by $(rt version), and this is another: install it anew"
change "$lib/format" sed '/^logic /s/.$/x/'
refused 'another logic' 2 'jsonpath_lib*was proved in another program logic'
change "$lib/format" sed '/^over jsonpath_paths /s/.$/x/'
refused 'another build of a library below' 2 'jsonpath_lib*proved over another build of `jsonpath_paths`'
change "$select/toolchain/checked.a" head -c 1000000
refused 'a file that was cut' 2 'jsonpath_select*is not as `rattle build` wrote it'
change "$select/interface/lang/src/error.rt" tr f g
refused 'a text that was changed' 2 'jsonpath_select*is not as `rattle build` wrote it'
change "$select/toolchain/checked.a" turn_in_meaning
refused 'a module that was changed' 1 'jsonpath_select-specs.Meaning*damaged'
rm -rf "$copied" "$mine/app/out"

printf jsonpath_streams: >> "$mine/../crates.txt"
says 'a repository' 0 "install: the proved library is in $work/mine/crates" "$here/install" --into "$work/mine"
[ "$(find "$work/mine" -maxdepth 2 | wc -l)" = 12 ]
judge $? 'more is in the repository than its two crates, the seven and crates.txt'
mv "$mine/app/proofs" "$work/proofs"
says 'the caller without its proof' 1 "fn app::found: proved$line*fn app::price: no proof*${line}logic=not-proved" within app rt check
echo 'fn changed() -> u8 { true }' >> "$mine/jsonpath_streams/src/lib.rt"
says 'a source that was changed' 1 'jsonpath_streams/src/lib.rt:*mismatched-types' within app rt check
rm -rf "$work/library" "$work/mine"
for crate in $crates; do
    grep -qx "$(grep "^$crate:" "$here/crates.txt")" "$here/docs/LIBRARY.md"
    judge $? "docs/LIBRARY.md has another line of $crate"
done

# From here on a small rt answers at once.
mkdir "$work/bin" "$work/tools"
KIT=$(dirname "$(rt doc)")
export KIT
cat > "$work/bin/rt" << 'RT'
#!/bin/sh
case $1 in version) echo "${NAME:-$(cat "$KIT/KIT-ID")}" ;; doc) echo "$KIT/START-HERE.md" ;; esac
RT
chmod 755 "$work/bin/rt"
for tool in sh dirname realpath readlink ls; do ln -s "$(command -v "$tool")" "$work/tools/"; done
PATH=$work/bin:$PATH

# A checkout that is proved, with a file in each folder, and a repository.
fresh() {
    chmod -R u+w "$work/library" "$work/mine" 2> /dev/null
    rm -rf "$work/checkout" "$work/mine" "$work/library"
    for crate in $crates; do
        mkdir -p "$work/checkout/crates/$crate"/{src,specs,proofs}
        for part in src specs proofs; do echo "$part of $crate" > "$work/checkout/crates/$crate/$part/text"; done
    done
    mkdir "$work/mine"
    echo 'app: jsonpath_lib' > "$work/mine/crates.txt"
    cp -R "$here"/{install,scripts,crates.txt,HANDLES,LICENSE} "$work/checkout/"
    cd "$work/checkout" || exit 1
    scripts/library.sh --sums > "$work/sums"
    touch -d '1 second ago' "$work/sums"
    for crate in $crates; do
        mkdir -p "crates/$crate/out/rlib/$crate.rlib"
        echo "built of $crate" > "crates/$crate/out/rlib/$crate.rlib/format"
    done
    scripts/library.sh --note "$work/sums"
}

# refuses NAME STATUS WORDS CHANGE [WAY]: after this change the library is installed neither way, or not in this one, and all is as it was.
# The words of `prefix` stand before the command.
prefix=()
refuses() {
    local name=$1 wanted=$2 words=$3 change=$4 way to before
    for way in ${5-library into}; do
        fresh
        [ "$way" = library ] && to=$work/library || to=$work/mine
        eval "$change"
        before=$(ls -AR "$work/library" "$work/mine" 2>&1)
        says "$name, --$way" "$wanted" "install: $words" "${prefix[@]}" ./install "--$way" "$to"
        [ "$(ls -AR "$work/library" "$work/mine" 2>&1)" = "$before" ]
        judge $? "$name, --$way: something is left behind"
    done
}

noted=crates/jsonpath_lib/out/proved
source=crates/jsonpath_nodes/src/text
built=crates/jsonpath_nodes/out/rlib/jsonpath_nodes.rlib/format
refuses 'nothing is proved' 70 "the library isn't proved in $work/checkout: run ./test" "rm $noted"
refuses 'a source that kept its time' 70 "$source isn't what was proved" "touch -r $source time; echo fn >> $source; touch -r time $source"
refuses 'a source more' 70 "$source.rt isn't what was proved" ": > $source.rt"
refuses 'a definition that changed' 70 "${source/src/specs} isn't what was proved" "echo x >> ${source/src/specs}"
refuses 'a proof that is gone' 70 "${source/src/proofs} isn't what was proved" "rm ${source/src/proofs}"
refuses 'a line of crates.txt' 70 "crates.txt isn't what was proved" "sed -i 's/^jsonpath_bench:.*/& itoa/' crates.txt"
refuses 'a built file that changed' 70 "$built isn't what was proved" "sed -i s/of/by/ $built"
refuses 'a built library that is gone' 70 "$built isn't what was proved" "rm -r crates/jsonpath_nodes/out"
prefix=(env "PATH=$work/tools")
refuses 'no rt' 69 "there is no command 'rt' on the PATH" ''
prefix=(env NAME=another)
refuses 'another kit' 70 "the library was proved by $(rt version), and this is another: run ./test again" ''
# shellcheck disable=SC2016
prefix=(bash -c 'ulimit -f 0 && exec "$@"' bash)
refuses 'a disk that is full' 73 "$work/* can't be written" ''
prefix=()
[ "$(id -u)" != 0 ] || prefix=(setpriv --reuid=65534 --regid=65534 --clear-groups)
refuses 'a folder that cannot be written' 73 "$work/library can't be written" 'mkdir "$to"; chmod 555 "$to"' library
refuses 'a repository that cannot be written' 73 "$work/mine can't be written" 'chmod 555 "$to"' into
prefix=()
refuses 'a folder that is not empty' 73 "$work/library isn't empty: name a new folder" 'mkdir "$to"; : > "$to/kept"' library
refuses 'a file in its place' 73 "$work/library is no folder" ': > "$to"' library
refuses 'a folder nowhere' 73 "$work/library/in can't be made" 'to=$to/in' library
refuses 'a folder in the checkout' 73 "$work/checkout/new is inside this checkout" 'to=new' library
refuses 'no name' 2 'usage: ./install --library FOLDER' 'to='
refuses 'no repository' 73 "there is no crates.txt in $work/mine" 'rm "$to/crates.txt"' into
refuses 'a crate that is there' 73 "there is a crates/jsonpath_lib in $work/mine" 'mkdir -p "$to/crates/jsonpath_lib"' into
refuses 'another line of crates.txt' 73 "crates.txt in $work/mine has another line of jsonpath_lib" 'echo "jsonpath_lib:" >> "$to/crates.txt"' into
says 'no folder' 2 'install: usage: ./install --library FOLDER' ./install --library
says 'two folders' 2 'install: usage: ./install --library FOLDER' ./install --into a b

# What isn't noted: a source that was changed during the proofs, and what was built before.
fresh
echo fn >> "$source"
says 'a change during the proofs' 70 'was changed during the proofs' scripts/library.sh --note "$work/sums"
fresh
touch -d '1 second' "$work/sums"
says 'a library that was built before' 70 "jsonpath_streams wasn't built by these proofs" scripts/library.sh --note "$work/sums"

# The page's archive, and what is unpacked of it elsewhere.
fresh
block sh 1 | tail -n 2 > "$work/archive"
says 'the archive' 0 'lifsjorm.tar.xz' bash -euo pipefail "$work/archive"
mkdir "$work/unpacked"
tar -xJf lifsjorm.tar.xz -C "$work/unpacked"
cd "$work/unpacked" || exit 1
mv "$work/checkout" "$work/gone"
says 'an archive' 0 'the proved library is in' ./install --library "$work/library"
says 'programs of an archive' 70 'install: this is the library alone' ./install "$work"
cd "$work/library" || exit 1
says 'all as it was installed' 0 '' sha256sum --quiet -c "$noted"
echo x >> "$source"
says 'a file that was changed in place' 1 "$source: FAILED" sha256sum --quiet -c "$noted"

echo "$passed passed, $failed failed"
[ "$failed" = 0 ]
