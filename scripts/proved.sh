# Proves and builds a program, and answers by it.

needs_place_in_each_crate() {
    for name in $crates; do
        { mkdir -p "$here/crates/$name/out" && [ -w "$here/crates/$name/out" ]; } 2> /dev/null || refuse 73 \
            "crates/$name/out can't be written, and a build is kept there." \
            "Start this in a checkout of your own (git clone), or give leave to write; './run --unproved WORDS..' needs none."
    done
}

# Says how far the build is: which crate, and how many of its functions.
tell_crate() {
    at=0 number=0
    for name in $crates; do
        number=$((number + 1))
        [ "$name" != "$building" ] || at=$number
    done
    tell "$building, crate $at of $number${1:+: $1 functions}" "$1"
}

# Reads what rt says, keeps it, and tells what it means. What is proved is kept function by function.
follow() {
    building=''
    while IFS= read -r line; do
        printf '%s\n' "$line" >&3
        case $line in
            'rt: chose --jobs '*' for '*)
                [ -z "$building" ] || what_stands=$proved_is_kept
                building=${line##* }
                tell_crate ''
                ;;
            'so far: 0 of '*) ;;
            'so far: '*' functions checked'*)
                what_stands=$proved_is_kept
                functions=${line#so far: }
                tell_crate "${functions%% functions*}"
                ;;
        esac
    done
}

# Proves and builds, or waits for another start that does. The program is as old as the beginning of its build, so
# that an edit during the build counts.
build() {
    needs_rt
    needs_place_in_each_crate
    room=$(mktemp -d) || no_room
    trap_interruptions
    take_turn "$out/lock"
    cd "$out" && is_inside=yes
    if ! is_current "$crate"; then
        prove "$@"
        touch -r begun "$crate"
    fi
    rm -rf "$room"
    keep
    exec 9>&-
    trap - INT TERM HUP
}

proved_is_kept='What is proved so far is kept, and the next start goes on from there.'
prove() {
    say "proving and building $crate: fifteen to thirty minutes the first time ('./run --unproved' answers without a proof)"
    what_stands='Nothing was proved yet.'
    : > "$out/begun"
    mkfifo "$room/said" || no_room
    [ ! -t 2 ] || tell "$crate"
    start_ticking
    (cd "$here/crates/$crate" && exec rt run -- "$@") < /dev/null > "$room/said" 2>&1 9>&- &
    under_way=$!
    follow < "$room/said" 3> "$out/build.log"
    wait "$under_way"
    status=$?
    under_way=''
    stop_ticking
    [ "$status" = 0 ] || {
        rm -rf "$room"
        say "no program was made. The log is $out/build.log, and ends so:"
        tail -n 12 "$out/build.log" >&2
        exit 70
    }
}

answer_proved() {
    crate=jsonpath_main
    [ -n "$is_inside" ] || enter "$crate"
    look
    if is_current "$crate"; then
        keep
    else
        needs_words_of_run "$@"
        build check '$'
    fi
    exec "./$crate" "$@"
}
