#!/usr/bin/env bash
# Rules of the house that the prover doesn't look at.
# A crate's definitions and proofs rest on another crate of the repository by its definitions and laws alone, never by a
# file of its `proofs/`. What the toolchain writes for a type (`TheLaws`) is no such file.
# No folder of sources has more than ten files beside `lib.rt` and `laws.rt`.
# No contract of a public call or type cites a definition of `specs/plan`, nor does a definition that is no plan, but one.
# docs/DEFINITIONS.md has each file of definitions, and says what each type models. The table of folders of docs/ARCHITECTURE.md
# has each folder of sources. Neither names a file or folder that is not there.
# Each source that README, CONTRIBUTING and docs/ name is there.
# No enum, struct, trait or definition of the product's libraries has the name of another one, but for a type and the one
# definition in its crate that says what it is seen as, and for the items of a document, which have `serde_json`'s name.
# Last line: 'N passed, M failed'.
set -u
here=$(cd "$(dirname "${BASH_SOURCE[0]}")/.." && pwd)
cd "$here" || exit 1
passed=0
failed=0

# The imports of another crate's proofs in the lines 'FILE:use ..' that it reads.
foreign_proofs() {
    local line file own other
    while IFS= read -r line; do
        file=${line%%:*}
        own=${file#crates/}
        own=${own%%/*}
        [[ $line =~ Rattle\.([a-z_]+)\.proofs\.([A-Za-z0-9_.+-]*) ]] || continue
        other=${BASH_REMATCH[1]}
        [ "$other" != "$own" ] && [ -d "crates/$other" ] || continue
        [[ ${BASH_REMATCH[2]} == *.TheLaws ]] || echo "$line"
    done
}

for crate in crates/*/; do
    found=$(grep -rE --include='*.antt' --include='*.rt' 'use Rattle\.[a-z_]+\.proofs\.' "${crate%/}/src" "${crate%/}/specs" "${crate%/}/proofs" 2> /dev/null | foreign_proofs)
    if [ -z "$found" ]; then
        passed=$((passed + 1))
    else
        echo "house: proofs of another crate are imported:"
        echo "$found"
        failed=$((failed + 1))
    fi
done

# The rule itself: it finds such a line, and no other.
tried='crates/jsonpath_lib/proofs/A.antt:use Rattle.jsonpath_paths.proofs.tree.Readable.{path_as}
crates/jsonpath_lib/proofs/A.antt:use Rattle.jsonpath_lib.proofs.Own.{own}
crates/jsonpath_lib/proofs/A.antt:use Rattle.std.proofs.Common.{refl}
crates/jsonpath_lib/proofs/A.antt:use Rattle.jsonpath_paths.proofs.parser.path_parser.PathParser.TheLaws as laws'
if [ "$(foreign_proofs <<< "$tried" | wc -l)" = 1 ]; then
    passed=$((passed + 1))
else
    echo 'house: the rule on imports does not tell its own lines apart'
    failed=$((failed + 1))
fi
judge() {
    if [ "$1" = 0 ]; then
        passed=$((passed + 1))
    else
        echo "house: $2"
        failed=$((failed + 1))
    fi
}

# The folders at or below those named that have more than ten sources beside `lib.rt` and `laws.rt`.
crowded() {
    find "$@" -name '*.rt' ! -name lib.rt ! -name laws.rt | sed 's|/[^/]*$||' | sort | uniq -c | awk '$1 > 10 { print $2 " has " $1 }'
}

for sources in crates/*/src; do
    found=$(crowded "$sources")
    judge "$([ -z "$found" ]; echo $?)" "too many sources in one folder: $found"
done

work=$(mktemp -d) || exit 1
trap 'rm -rf "$work"' EXIT
mkdir -p "$work/few/src/deep" "$work/many/src/deep"
for number in 0 1 2 3 4 5 6 7 8 9; do
    : > "$work/few/src/s$number.rt"
    : > "$work/many/src/deep/s$number.rt"
done
: > "$work/few/src/lib.rt"
: > "$work/few/src/laws.rt"
: > "$work/few/src/deep/one.rt"
: > "$work/many/src/deep/one_more.rt"
[ "$(crowded "$work/few/src" "$work/many/src")" = "$work/many/src/deep has 11" ]
judge $? 'the rule on folders does not tell a full folder from one that has too many'

# What the contracts of public calls and types cite, as 'FILE: ITEM cites NAME of CRATE MODULE': in the sources of a crate,
# whose `lib.rt` tells what is public.
citations() {
    local lib=$1/lib.rt
    find "$1" -name '*.rt' -print0 | xargs -0 awk -v lib="$lib" '
        function words_of(line, found,    n, i) {
            n = split(line, found, /[^A-Za-z0-9_]+/)
            return n
        }
        # What behind `impl` names the type: behind the parameters in angle brackets, and behind `for`.
        function owner_of(line,    i, c, depth) {
            sub(/^impl */, "", line)
            if (substr(line, 1, 1) == "<") {
                depth = 0
                for (i = 1; i <= length(line); i++) {
                    c = substr(line, i, 1)
                    if (c == "<") depth++
                    if (c == ">" && substr(line, i - 1, 1) != "-" && --depth == 0) break
                }
                line = substr(line, i + 1)
            }
            of_trait = line ~ / for /
            sub(/^.* for /, "", line)
            sub(/^[ &]*/, "", line)
            match(line, /^[A-Za-z0-9_]*/)
            return substr(line, 1, RLENGTH)
        }
        # A clause without its name and without what stands behind a dot.
        function cited(line,    n, i, found) {
            sub(/^ *(requires|ensures) +[a-z_]+ *\{/, "", line)
            gsub(/\.[A-Za-z_]+/, "", line)
            n = words_of(line, found)
            for (i = 1; i <= n; i++)
                if (found[i] in place_of) print FILENAME ": " item " cites " found[i] " of " place_of[found[i]]
        }
        BEGIN {
            while ((getline line < lib) > 0) {
                if (line ~ /^pub mod /) {
                    split(line, found, /[ ;]+/)
                    modules[found[3]] = 1
                }
                if (line ~ /^pub use /) inside = 1
                if (inside) {
                    n = words_of(line, found)
                    for (i = 1; i <= n; i++) given[found[i]] = 1
                }
                if (line ~ /;$/) inside = 0
            }
        }
        FNR == 1 {
            split("", place_of)
            owner = ""
            head = 0
            module = FILENAME
            sub(/^.*\//, "", module)
            sub(/\.rt$/, "", module)
        }
        /^ *ghost use Rattle\.[a-z_]+\.specs\./ && !/\.specs\.declared\./ {
            place = $0
            sub(/^ *ghost use Rattle\./, "", place)
            names_of = place
            sub(/(\.\{| as |;).*/, "", place)
            sub(/\.specs\./, " ", place)
            sub(/^[^{]*\{/, "", names_of)
            n = split(names_of, names, /,/)
            for (i = 1; i <= n; i++) {
                sub(/^.* as /, "", names[i])
                gsub(/[^A-Za-z0-9_]/, "", names[i])
                if (names[i] != "") place_of[names[i]] = place
            }
            next
        }
        /^ *(ghost )?use / || /^ *\/\// { next }
        /^impl/ { owner = owner_of($0); all = of_trait }
        /^pub trait / { owner = $3; sub(/[^A-Za-z0-9_].*/, "", owner); all = 1 }
        /^}/ { owner = ""; head = 0 }
        / ghost [a-z_]+ = / && owner in given { item = owner; cited($0) }
        /^ *(pub(\([a-z]+\))? )?(const )?(unsafe )?fn [a-z_]/ {
            item = $0
            sub(/^.*fn /, "", item)
            sub(/[^A-Za-z0-9_].*/, "", item)
            head = /^pub fn/ ? item in given || module in modules : /^ / && owner in given && (all || / pub fn/)
        }
        head { cited($0) }
        head && (/^ *\{ *$/ || /[^ ] \{$/ && !/^ *(requires|ensures)/ || /;$/) { head = 0 }
    '
}

for sources in crates/*/src; do
    [ -f "$sources/lib.rt" ] || continue
    found=$(citations "$sources" | grep ' of [a-z_]* plan\.')
    judge "$([ -z "$found" ]; echo $?)" "public contracts cite a plan: $found"
done

mkdir -p "$work/made_up/src/room"
cat > "$work/made_up/src/lib.rt" << 'MADE_UP'
pub mod laws;
mod room;
pub use room::{
    Shown,
    given,
};
MADE_UP
cat > "$work/made_up/src/laws.rt" << 'MADE_UP'
ghost use Rattle.made_up.specs.plan.Way.{way as told};
pub fn law()
    ensures { told ≡ told }
{
}
MADE_UP
cat > "$work/made_up/src/room.rt" << 'MADE_UP'
ghost use Rattle.made_up.specs.plan.Way.{way, kept};
ghost use Rattle.made_up.specs.Place.{place};
pub struct Shown {}
struct Hidden {}
impl<'a> Model for Shown<'a> {
    ghost view = { way };
}
impl Shown {
    pub fn cites(&self)
        ensures kept { kept ≡ place }
    {
        inner()
    }
    fn own(&self)
        ensures { way ≡ place }
    {
    }
    pub fn cites_none(&self) -> usize
        requires kept { place ≡ place.kept }
    {
        way(kept)
    }
}
impl Hidden {
    pub fn cites(&self)
        ensures { kept ≡ place }
    {
    }
}
pub fn given(
    alloc: Global,
) -> usize
    ensures { IfOk result (λ way. way ≡ place) }
{
    0
}
pub(crate) fn other()
    ensures { way ≡ place }
{
}
MADE_UP
found=$(citations "$work/made_up/src" | sed 's|.*/||' | sort -u)
[ "$found" = 'laws.rt: law cites told of made_up plan.Way
room.rt: Shown cites way of made_up plan.Way
room.rt: cites cites kept of made_up plan.Way
room.rt: cites cites place of made_up Place
room.rt: cites_none cites place of made_up Place
room.rt: given cites place of made_up Place
room.rt: given cites way of made_up plan.Way' ]
judge $? "the rule on citations does not tell its own cases apart: $found"

# The rows of docs/DEFINITIONS.md, as 'CRATE MODULE': in the sections whose heads name the definitions of crates. Where a row names
# one of these itself, as `crate/Module`, its modules are of that one.
defined() {
    awk '
        /^## / {
            n = split($0, words, /`/)
            split("", crates)
            for (i = 2; i <= n; i += 2) {
                sub(/\/specs$/, "", words[i])
                crates[words[i]]
            }
        }
        /^\| `/ {
            split($0, cells, / \| /)
            n = split(cells[1], words, /`/)
            own = ""
            for (i = 2; i <= n; i += 2) {
                split(words[i], parts, /\//)
                if (parts[1] in crates) own = parts[1]
                if (parts[1] == own) sub(/^[^\/]*\//, "", words[i])
                gsub(/\//, ".", words[i])
                for (c in crates) if (own == "" || c == own) print c " " words[i]
            }
        }
    ' "$1"
}

# What public contracts cite and the page doesn't have.
undefined() {
    local page=$1
    shift
    for crate in "$@"; do
        citations "$crate/src"
    done | sed 's/.* of //' | sort -u | grep -vxFf <(defined "$page") | grep -E '^(jsonpath|jpath|made_up)'
}

PRODUCT=(jsonpath_streams jsonpath_paths jsonpath_nodes json_trees jsonpath_select jsonpath_lib jsonpath_run jpath_texts jpath_edits jpath_core)
found=$(undefined docs/DEFINITIONS.md "${PRODUCT[@]/#/crates/}")
judge "$([ -z "$found" ]; echo $?)" "public contracts cite what docs/DEFINITIONS.md does not have: $found"
printf '%s\n' '## Made up: `made_up/specs`' '| File | What it says |' '|---|---|' '| `Place` | places |' > "$work/page.md"
[ "$(undefined "$work/page.md" "$work/made_up")" = 'made_up plan.Way' ]
judge $? 'the rule on the page of definitions does not find what is missing there'

# The files of definitions of crates, plans too, that the page does not have, as 'CRATE MODULE'. What gives out a folder says
# nothing by itself.
unlisted() {
    local page=$1 crate file
    shift
    for crate in "$@"; do
        [ -d "$crate/specs" ] || continue
        find "$crate/specs" -name '*.antt' ! -path "$crate/specs/Lib.antt" | while IFS= read -r file; do
            file=${file%.antt}
            [ -d "$file" ] && continue
            file=${file#"$crate/specs/"}
            echo "${crate##*/} ${file//\//.}"
        done
    done | sort | grep -vxFf <(defined "$page")
}

found=$(unlisted docs/DEFINITIONS.md crates/*)
judge "$([ -z "$found" ]; echo $?)" "docs/DEFINITIONS.md does not have these files: $found"
mkdir -p "$work/made_up/specs/plan"
: > "$work/made_up/specs/Lib.antt"
: > "$work/made_up/specs/Place.antt"
: > "$work/made_up/specs/plan.antt"
: > "$work/made_up/specs/plan/Way.antt"
[ "$(unlisted "$work/page.md" "$work/made_up")" = 'made_up plan.Way' ]
judge $? 'the rule on files of definitions does not find one that the page lacks'

# What the page names and is not there: files, which no crate of the section has, and folders.
nowhere() {
    local place
    defined "$1" | while read -r crate module; do
        [ -f "crates/$crate/specs/${module//.//}.antt" ] && echo "$module there" || echo "$module"
    done | sort -u | awk '{ there[$1] = there[$1] || $2 != "" } END { for (m in there) if (!there[m]) print m }' | sort
    grep -v '^|' "$1" | grep -oE '`[a-z_]+(/[A-Za-z_]+)+`' | tr -d '`' | sort -u | while IFS= read -r place; do
        [ -d "crates/$place" ] || compgen -G "crates/*/specs/$place" > /dev/null || compgen -G "crates/*/specs/$place.antt" > /dev/null || echo "$place"
    done
}

found=$(nowhere docs/DEFINITIONS.md)
judge "$([ -z "$found" ]; echo $?)" "docs/DEFINITIONS.md names what is not there: $found"
printf '%s\n' '## Paths: `jsonpath_paths/specs`, `jsonpath_lib/specs`, `jsonpath_path/specs`' '| `Grammar`, `update/Masked`, `tree/Nothing` | some |' \
    'In `plan/Parsing`, in `plan/Nothing` and in `tree/Tree`.' > "$work/page.md"
[ "$(nowhere "$work/page.md" | tr '\n' ' ')" = 'tree.Nothing jsonpath_path/specs plan/Nothing ' ]
judge $? 'the rule on what the page names does not find what is nowhere'

# The folders of sources that the table of a page has, and those of crates, as 'CRATE FOLDER'.
folders_told() {
    awk '
        /^\| Crate \| Folders / { inside = 1 }
        !/^\|/ { inside = 0 }
        inside && /^\| `/ {
            n = split($0, words, /`/)
            for (i = 4; i <= n; i += 2) print words[2] " " words[i]
        }
    ' "$1" | sort -u
}
folders_there() {
    local crate
    for crate in "$@"; do
        find "$crate/src" -mindepth 1 -type d | sed "s|^$crate/src/|${crate##*/} |"
    done | sort
}

found=$(comm -3 <(folders_told docs/ARCHITECTURE.md) <(folders_there crates/*))
judge "$([ -z "$found" ]; echo $?)" "docs/ARCHITECTURE.md tells of a folder that is not there, or of none that is: $found"
mkdir -p "$work/made_up/src/room/deep"
printf '%s\n' '| Crate | Folders of `src` |' '|---|---|' '| `made_up` | `room` (places, as `hall` does), `room/deep` (ways) |' '' '| `made_up` | `door` |' > "$work/page.md"
[ "$(comm -3 <(folders_told "$work/page.md") <(folders_there "$work/made_up"))" = 'made_up hall' ]
judge $? 'the rule on folders that are told of does not find one that is not there'
printf '%s\n' '| Crate | Folders of `src` |' '|---|---|' '| `made_up` | `room` (places) |' > "$work/page.md"
[ "$(comm -3 <(folders_told "$work/page.md") <(folders_there "$work/made_up"))" = "$(printf '\tmade_up room/deep')" ]
judge $? 'the rule on folders that are told of does not find one that the table lacks'

# The sources that pages name and that are not there.
sources_nowhere() {
    find crates checks -name out -prune -o -name '*.r[ts]' -print > "$work/sources"
    grep -hoE '[A-Za-z_]+(/[A-Za-z_]+)*\.r[ts]\b' "$@" | sort -u | while read -r file; do
        grep -qE "(^|/)$file$" "$work/sources" || echo "$file"
    done
}

found=$(sources_nowhere README.md CONTRIBUTING.md docs/*.md)
judge "$([ -z "$found" ]; echo $?)" "a page names a source that is not there: $found"
printf '%s\n' 'It stands in `src/lib.rt`, in `nothing.rt` and in `library/guide.rs`.' > "$work/page.md"
[ "$(sources_nowhere "$work/page.md")" = 'nothing.rt' ]
judge $? 'the rule on sources that pages name does not find one that is nowhere'

# Each of the two evaluators goes by itself: neither the machine nor the walk names a file of the other.
evaluators_mixed() {
    grep -rlE '\bcrate::walk\b' "$1/machine" "$1/filters"
    grep -rlE '\bcrate::(machine|filters)\b' "$1/walk"
}

found=$(evaluators_mixed crates/jsonpath_select/src)
judge "$([ -z "$found" ]; echo $?)" "an evaluator goes by the other: $found"
mkdir -p "$work/evaluators"/{machine,filters,walk}
echo 'use crate::walk::follower::Follower;' > "$work/evaluators/filters/list.rt"
echo 'use crate::machine::machine::Machine;' > "$work/evaluators/walk/follower.rt"
echo 'use crate::tagged::moves::Move;' | tee "$work/evaluators/machine/one.rt" > "$work/evaluators/walk/two.rt"
[ "$(evaluators_mixed "$work/evaluators" | wc -l)" = 2 ]
judge $? 'the rule on evaluators does not find one that goes by the other'

# Public types that contracts see as something else, by `impl Model`, and have no line in the page.
found=$(for crate in "${PRODUCT[@]}"; do
    grep -rhoE 'impl.* Model for [A-Za-z]+' "crates/$crate/src" | sed 's/.* //' | while read -r type; do
        tr -c 'A-Za-z0-9_' '\n' < "crates/$crate/src/lib.rt" | grep -qx "$type" || continue
        grep -q "^| .*\`$type\`.* | .* |$" docs/DEFINITIONS.md || echo "$type"
    done
done)
judge "$([ -z "$found" ]; echo $?)" "docs/DEFINITIONS.md does not say what these types model: $found"

# The definitions of files of specs, as 'FILE:NAME': at the margin, and the public ones in the blocks of `mutual` and `module`.
# Fields of a record are none.
definitions() {
    awk '
        FNR == 1 { fields = -1 }
        /^ *$/ || /^ *--/ { next }
        { match($0, /^ */); depth = RLENGTH }
        fields >= 0 && depth > fields { next }
        { fields = -1 }
        {
            line = substr($0, depth + 1)
            head = line
            words = public = 0
            while (match(head, /^(pub|abbrev|unfoldable|opaque|data|record) /)) {
                if (head ~ /^pub /) public = 1
                if (head ~ /^record /) fields = depth
                head = substr(head, RLENGTH + 1)
                words++
            }
            if (!words || depth && !public) next
            sub(/[ :({].*/, "", head)
            print FILENAME ":" head
        }' "$@"
}

# Names that stand for two things, with the files: of types of `src` and definitions of `specs`.
two_things() {
    local crate
    for crate in "$@"; do
        find "$crate/src" -name '*.rt' -exec grep -HoE '^(pub(\(crate\))? )?(enum|struct|trait|type) [A-Za-z]+' {} + | sed -E "s|^([^:]*):.* |${crate##*/} type \\1 |"
        find "$crate/specs" -name '*.antt' | while IFS= read -r file; do definitions "$file"; done | sed -E "s|^([^:]*):|${crate##*/} definition \\1 |"
    done | grep -vE ' (use|mod|mutual)$| definition crates/jsonpath_nodes/specs/document/Document\.antt Items$' | sort -k4,4 | awk '
        function tell() { if (count > 1 && !(count == 2 && types == 1 && crates == 1)) print name ":" files }
        $4 != name { tell(); name = $4; count = types = crates = 0; files = ""; delete seen }
        { count++; types += $2 == "type"; files = files " " $3 }
        !($1 in seen) { seen[$1]; crates++ }
        END { tell() }'
}

found=$(two_things crates/jsonpath_{streams,paths,nodes,select,lib,run})
judge "$([ -z "$found" ]; echo $?)" "a name stands for two things: $found"
mkdir -p "$work/one/src" "$work/one/specs" "$work/two/src" "$work/two/specs"
printf '%s\n' 'pub struct Place;' 'enum Way {' > "$work/one/src/a.rt"
printf '%s\n' 'pub data Place : Type 0 where' '  Way : Place' 'abbrev pub led : Place' 'mutual' '  pub turned : Place' '  turned = Way' '' 'pub record Held : Type 0 where' '  pub kept : Place' > "$work/one/specs/B.antt"
printf '%s\n' 'abbrev pub led : Type 0' 'abbrev pub Way : Type 0' 'module _ (p : Place) where' '  helped : Place' '  abbrev pub turned : Place' > "$work/two/specs/C.antt"
printf '%s\n' 'pub record Lent : Type 0 where' '  pub kept : Place' 'module _ (p : Place) where' '  helped : Place' > "$work/two/specs/D.antt"
[ "$(two_things "$work/one" "$work/two" | sed 's/:.*//' | sort | tr '\n' ' ')" = 'Way led turned ' ]
judge $? 'the rule on names does not tell one thing from two'

# `WholeText` computes the tree of a text, and the law `spelled_tree` says that it is the tree.
found=$(grep -rlE --include='*.antt' 'use Rattle\.[a-z_]+\.specs\.plan\.' crates/*/specs | grep -vE '/specs/plan/|^crates/jsonpath_paths/specs/WholeText.antt$')
judge "$([ -z "$found" ]; echo $?)" "definitions that are no plan rest on one: $found"
echo "$passed passed, $failed failed"
[ "$failed" = 0 ]
