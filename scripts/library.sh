#!/bin/sh
# The library as something already proved. ./test has --sums print the sums of the library's sources before the proofs, and --note keep
# these behind them in crates/jsonpath_lib/out/proved, with the kit's name and the sums of what was built. `./install --library` and
# `./install --into` take what is noted there, as long as it is still so.
set -u
CDPATH=
here=$(cd "$(dirname -- "$0")/.." && pwd -P)
crates='jsonpath_streams json_recognizer jsonpath_paths jsonpath_nodes json_trees jsonpath_select jsonpath_lib'
noted=crates/jsonpath_lib/out/proved

say() { printf 'install: %s\n' "$1" >&2; }

refuse() {
    say "$2"
    exit "$1"
}

# sums PART..: of the files in these folders of each crate.
sums() {
    (
        cd "$here" && for crate in $crates; do
            for part; do find "crates/$crate/$part" -type f -exec sha256sum {} + 2> /dev/null; done
        done | LC_ALL=C sort -k 2
    )
}

sums_of_sources() {
    (cd "$here" && sha256sum HANDLES crates.txt)
    sums src specs proofs
}

# note FILE: what --sums printed before the proofs, which made all that is noted as built.
note() {
    for crate in $crates; do
        [ "$here/crates/$crate/out/rlib/$crate.rlib" -nt "$1" ] || refuse 70 "$crate wasn't built by these proofs, so the library isn't noted as proved"
    done
    sums_of_sources | cmp -s - "$1" || refuse 70 "the library was changed during the proofs, so it isn't noted as proved"
    { echo "# $(rt version)" && cat "$1" && sums out/rlib; } > "$here/$noted"
}

# What is here has to be what was proved, by this kit.
verify() {
    command -v rt > /dev/null || refuse 69 "there is no command 'rt' on the PATH: put the folder bin of the Rattle kit there"
    [ -s "$here/$noted" ] || refuse 70 "the library isn't proved in $here: run ./test there, which takes one to two hours"
    proved=$(sed -n '1s/^# //p' "$here/$noted") kit=$(rt version)
    [ "$kit" = "$proved" ] || refuse 70 "the library was proved by $proved, and this is $kit: run ./test again"
    other=$({ sed -n 1p "$here/$noted" && sums_of_sources && sums out/rlib; } | diff "$here/$noted" - | sed -n 's/^[<>] [0-9a-f]*  //p' | head -n 1)
    [ -z "$other" ] || refuse 70 "$other isn't what was proved: run ./test, or unpack the archive, again"
}

cannot_write() { refuse 73 "$to can't be written"; }

# copy FOLDER: copies what is noted there, and the note.
copy() {
    (cd "$here" && { sed '1d; s/^[0-9a-f]*  //' "$noted" && echo "$noted"; } | tr '\n' '\0' | xargs -0 cp --parents -t "$1") 2> /dev/null ||
        cannot_write
}

# Makes the folder kit of links: to the kit, and to the crates as further libraries of it. Since rt looks for the kit where its own file
# is, that is a copy.
link_kit() {
    kit=$(dirname "$(rt doc)")
    mkdir "$to/kit" "$to/kit/bin" "$to/kit/rlibs" "$to/kit/rattle" || return
    for it in "$kit"/* "$kit"/bin/* "$kit"/rlibs/* "$kit"/rattle/*; do
        it=${it#"$kit"/}
        case $it in
            bin | rlibs | rattle) ;;
            bin/rt*) cp "$kit/$it" "$to/kit/bin/" || return ;;
            *) ln -s "$kit/$it" "$to/kit/$it" || return ;;
        esac
    done
    for crate in $crates; do
        ln -s "../../crates/$crate/out/rlib/$crate.rlib" "$to/kit/rlibs/" && ln -s "../../crates/$crate" "$to/kit/rattle/" || return
    done
}

write_rt() {
    cat > "$to/rt" << 'RT' && chmod 755 "$to/rt"
#!/bin/sh
# rt over the Rattle kit and the proved crates beside this file, as long as the kit is the one that proved them.
here=$(dirname -- "$(readlink -f -- "$0")")
proved=$(sed -n '1s/^# //p' "$here/crates/jsonpath_lib/out/proved")
kit=$("$here/kit/bin/rt" version 2> /dev/null)
[ "$kit" = "$proved" ] || {
    echo "rt: the library in $here was proved by $proved, and this is ${kit:-no kit}: install it anew" >&2
    exit 2
}
exec "$here/kit/bin/rt" "$@"
RT
}

undo_library() {
    [ -n "$is_whole" ] || find "$to" -mindepth 1 -delete
    [ -n "$is_whole$was_there" ] || rmdir "$to"
}

install_library() {
    case $to/ in "$here"/*) refuse 73 "$to is inside this checkout: name a folder elsewhere" ;; esac
    if [ -e "$to" ]; then
        was_there=yes
        [ -d "$to" ] || refuse 73 "$to is no folder"
        [ -w "$to" ] && [ -x "$to" ] || cannot_write
        [ -z "$(ls -A "$to")" ] || refuse 73 "$to isn't empty: name a new folder"
    fi
    verify
    [ -d "$to" ] || mkdir "$to" 2> /dev/null || refuse 73 "$to can't be made"
    trap undo_library EXIT
    copy "$to"
    { link_kit && write_rt && is_whole=yes; } 2> /dev/null || cannot_write
    say "the proved library is in $to; $to/rt is rt over it and the kit"
}

# Has rt take the crates in a folder as built, by its own sum of the kit, a crate's sources and its line of crates.txt: where one of these
# changes, rt proves the crate anew.
stamp() {
    PYTHONDONTWRITEBYTECODE=1 PYTHONPATH=$(dirname "$(rt doc)")/bin python3 - "$1" << 'STAMP'
import sys
import rtlib

for crate in rtlib.crates_below(sys.argv[1]):
    with open(f"{crate.folder}/out/rlib/stamp", "w", encoding="utf-8") as it:
        it.write(crate.stamp())
STAMP
}

# The lines of the crates that the repository's crates.txt lacks.
rows_to_add() {
    for crate in $crates; do
        row=$(grep "^$crate:" "$here/crates.txt")
        given=$(grep -E "^$crate( |:|$)" "$to/crates.txt") || echo "$row"
        [ "${given:-$row}" = "$row" ] || refuse 73 "crates.txt in $to has another line of $crate: remove it first"
    done
}

undo_into() {
    rm -rf "$room"
    [ -n "$is_whole" ] || for crate in $crates; do rm -rf "$to/crates/$crate"; done
}

install_into() {
    [ -f "$to/crates.txt" ] || refuse 73 "there is no crates.txt in $to: name the top of a repository, or make that file first"
    [ -w "$to" ] && [ -x "$to" ] || cannot_write
    for crate in $crates; do
        [ ! -e "$to/crates/$crate" ] || refuse 73 "there is a crates/$crate in $to: remove it first"
    done
    rows=$(rows_to_add) || exit
    verify
    room=$(mktemp -d "$to/.library.XXXXXX" 2> /dev/null) || cannot_write
    trap undo_into EXIT
    copy "$room"
    grep -E "^($(echo "$crates" | tr ' ' '|')):" "$here/crates.txt" > "$room/crates.txt"
    stamp "$room" || refuse 70 "rt can't be told what is proved: take --library"
    {
        { sed '$a\' "$to/crates.txt" && { [ -z "$rows" ] || echo "$rows"; }; } > "$room/crates.txt" &&
            mkdir -p "$to/crates" && mv "$room"/crates/* "$to/crates/" && mv "$room/crates.txt" "$to/" && is_whole=yes
    } 2> /dev/null || cannot_write
    say "the proved library is in $to/crates, and listed in crates.txt"
}

is_whole='' was_there=''
trap 'exit 130' INT
trap 'exit 143' TERM
trap 'exit 129' HUP
[ -z "${2-}" ] || to=$(realpath -m -- "$2")
case $#,${1-},${2:+FOLDER} in
    1,--sums,) sums_of_sources ;;
    2,--note,FOLDER) note "$2" ;;
    2,--library,FOLDER) install_library ;;
    2,--into,FOLDER) install_into ;;
    *) refuse 2 "usage: ./install --library FOLDER | --into REPOSITORY" ;;
esac
