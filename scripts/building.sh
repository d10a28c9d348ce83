# What both builds share: the crates and sources of a program, one build at a time, the line that moves, and interruptions.

# The crates that the program stands on and its own, a line each, in the order of crates.txt.
crates_under() {
    awk -v program="$crate" '
        { sub(/#.*/, "") }
        split($0, part, ":") == 2 { split(part[1], head, " "); order[++count] = head[1]; below[head[1]] = part[2] }
        function take(name,    names, number, at) {
            if (!(name in below) || name in taken) return
            taken[name] = 1
            number = split(below[name], names, " ")
            for (at = 1; at <= number; at++) take(names[at])
        }
        END { take(program); for (at = 1; at <= count; at++) if (order[at] in taken) print order[at] }
    ' "$here/crates.txt"
}

# Finds the crates and the sources anew: code, contracts included. Definitions and proofs are left out: what the program
# does doesn't change with them, and what was proved of it stays so; ./test looks at all of them.
look() {
    [ -z "$is_inside" ] || here=../../..
    here=$(cd "$here" && pwd)
    out=$here/crates/$crate/out
    crates=$(crates_under)
    [ -n "$crates" ] || refuse 70 "crates.txt names no crate '$crate'"
    sources=$(
        cd "$here/crates/$crate" || exit
        printf '../../../crates.txt\n'
        for name in $crates; do
            find "../$name/src" \( -type d -o -name '*.rt' \) -print | sed 's|^|../|'
        done
    )
}

# Keeps the names of the sources for the next start, where that can be written.
keep() {
    { printf "sources='%s'\n" "$sources" > "$out/sources.new" && mv -f "$out/sources.new" "$out/sources"; } 2> /dev/null
}

needs_rt() {
    command -v rt > /dev/null || refuse 69 \
        "there is no command 'rt' on the PATH, and the program is built by it." \
        "Put the folder bin of the Rattle kit on the PATH, and start this again: PATH=KIT/bin:\$PATH ./run .."
}

no_room() { refuse 73 "no folder for temporary files can be made"; }

# On a terminal one line is written over each second: what is done, as far as it fits, and since when. Elsewhere what is
# no count of functions (`tell` with a second word) has a line of its own.
under_way='' ticker='' room='' site=''
tell() {
    if [ -t 2 ]; then
        printf '%s\n' "$1" > "$room/doing.new" && mv -f "$room/doing.new" "$room/doing"
    elif [ -z "${2-}" ]; then
        say "$1"
    fi
}

tick() {
    seconds=0
    while read -r doing < "$room/doing"; do
        since=$(printf ', %d:%02d' $((seconds / 60)) $((seconds % 60)))
        width=$(stty size <&3)
        [ "${width#* }" -gt 20 ] || width=500
        printf "\r\033[K%.$((${width#* } - 1 - ${#since}))s%s" "run: $doing" "$since" >&3
        sleep 1
        seconds=$((seconds + 1))
    done
}

start_ticking() {
    [ -t 2 ] || return
    tick 3>&2 2> /dev/null 9>&- &
    ticker=$!
}

stop_ticking() {
    [ -n "$ticker" ] || return
    { kill "$ticker" && wait "$ticker"; } 2> /dev/null
    ticker=''
    printf '\r\033[K' >&2
}

# The processes that a process has started, and those that they have.
all_below() {
    for child in $(cat /proc/"$1"/task/*/children 2> /dev/null); do
        printf '%s ' "$child"
        all_below "$child"
    done
}

# Ends what is under way with all that it has started: `rt try` leaves its compiler running.
end_under_way() {
    [ -n "$under_way" ] || return
    started=$(all_below "$under_way")
    { kill "$under_way" && wait "$under_way" || kill $started; kill $started; } 2> /dev/null
}

# Ends what is under way, and says what stands.
interrupted() {
    trap '' INT TERM HUP
    end_under_way
    stop_ticking
    rm -rf ${room:+"$room"} ${site:+"$site"}
    refuse "$1" "interrupted. $what_stands"
}

trap_interruptions() {
    trap 'interrupted 130' INT
    trap 'interrupted 143' TERM
    trap 'interrupted 129' HUP
}

# Goes on alone, for as long as the file descriptor 9 is open: another start that builds is waited for.
take_turn() {
    exec 9> "$1"
    flock -n 9 && return
    what_stands='The other start goes on.'
    tell 'another start is building the program: this one waits for it'
    start_ticking
    flock 9 &
    under_way=$!
    wait "$under_way"
    under_way=''
    stop_ticking
    look
}
