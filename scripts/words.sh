# What ./run is told: its help, and whether the programs take the words, which is seen before anything is built.

say() { printf 'run: %s\n' "$1" >&2; }

# refuse STATUS SENTENCE..: each sentence on a line.
refuse() {
    status=$1
    shift
    for sentence; do say "$sentence"; done
    exit "$status"
}

print_help() {
    cat << 'TEXT'
usage: ./run WORDS..                        the proved program jsonpath_run, on the document from standard input
       ./run --unproved WORDS..             the same, compiled without a proof
       ./run --unproved jpath WORDS..       jpath, compiled without a proof
       ./run --build CRATE WORDS..          a crate's program, proved, built and run on these words

WORDS of jsonpath_run:
  select PATH     the list of the values that the path selects
  delete PATH     the document with null in place of the selected values
  remove PATH     the document without them
  mask PATH..     the document with null in place of what any of the paths selects
  check PATH      'ok' if the path is well formed; reads no input

The first ./run proves the program: fifteen to thirty minutes; later ones start at
once. What is proved is kept where it is interrupted.
Without a proof the first answer takes one to three minutes, later ones come at once.
That first build is slow on large documents; one some 40 times as fast takes its place
a minute or two later. Of an interrupted build nothing is kept; a second start waits
for the first.

Status: 0 done; 1 error in a path, the document or the answer; 2 wrong words;
3 input/output failed; 69 no command 'rt'; 70 no program was made; 73 no place to
write; 130 interrupted. docs/PATHS.md has the paths, docs/JPATH.md the words of jpath.
TEXT
    exit 0
}

usage_of_run='usage: ./run [--unproved] select|delete|remove|check PATH | mask PATH.. | --help'

# What is wrong with words of jsonpath_run: nothing is said of words that it takes.
fault_of_run_words() {
    case ${1-} in
        select | delete | remove | check)
            [ "$#" = 2 ] || printf '%s wants one PATH behind it, not %d words' "$1" $(($# - 1))
            ;;
        mask)
            [ "$#" -gt 1 ] || printf 'mask wants a PATH behind it, or several'
            ;;
        *) printf "there is no word '%s': the words are select, delete, remove, mask and check" "${1-}" ;;
    esac
}

# Ends with the usage where jsonpath_run takes no such words.
needs_words_of_run() {
    case ${2-} in
        -h | --help) case $1 in select | delete | remove | mask | check) print_help ;; esac ;;
    esac
    fault=$(fault_of_run_words "$@")
    [ -z "$fault" ] || refuse 2 "$fault" "$usage_of_run"
}
