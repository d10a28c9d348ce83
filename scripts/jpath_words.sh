# What ./run is told of jpath: how it is used, and whether it takes the words, which is seen before it is built.

usage_of_jpath='usage: ./run --unproved jpath [OPTIONS] PATH [FILE..] | [OPTIONS] -e PATH.. [FILE..] | [OPTIONS] EDIT.. [FILE..] | --help'

# Before jpath is built: how it is used, and where its options are.
print_help_of_jpath() {
    printf '%s\n' "$usage_of_jpath" \
        "docs/JPATH.md has the options, docs/jpath.1 the manual: man -l docs/jpath.1. Once jpath is built, --help has them."
    exit 0
}

# The letters of jpath's options that have a longer name, too; those that edit; those that ask for another form of output.
letters=' --raw=-r --pretty=-p --sort-keys=-S --array=-a --locations=-l --with-locations=-L --count=-c --quiet=-q --with-filename=-H --keep-going=-k --join=-j --nul=-0 --color=-C --path=-e --in-place=-i --help=-h --version=-V '
edits='--set --set-text --add --add-text --append --rename --null --remove'
forms='-r -p --tab --indent -S -a -l -L --keys --entries --lengths -c -H'

# has OPTIONS: whether one of these is given.
has() {
    for one in $1; do
        case "$given " in *" $one "*) return 0 ;; esac
    done
    return 1
}

# Takes an option of jpath, and what it `wants` behind it, or says what is wrong.
take_option() {
    option=$1 wants=''
    case $letters in *" $1="*) option=${letters##*" $1="} option=${option%% *} ;; esac
    case $option in
        -[rpSalLcqHkj0ihV] | --tab | --keys | --entries | --lengths | --seq | --csv | --tsv | --header | --check | --copy) ;;
        -C) wants='auto|always|never ' ;;
        --indent) wants='1|2|3|4|5|6|7|8 ' ;;
        --completions) wants='bash|zsh|fish ' ;;
        -e | --rows | --null | --remove) wants='PATH ' ;;
        --set | --add | --append) wants='PATH JSON ' ;;
        --set-text | --add-text) wants='PATH TEXT ' ;;
        --rename) wants='PATH NAME ' ;;
        --arg) wants='NAME TEXT ' ;;
        --argjson) wants='NAME NUMBER ' ;;
        *) printf "jpath has no option '%s'" "$word" && return 1 ;;
    esac
    case " -e --arg --argjson $edits " in
        *" $option "*) ;;
        *) ! has "$option" || { printf 'jpath takes %s once' "$option" && return 1; } ;;
    esac
    given="$given $option"
}

# What is wrong with words of jpath, as far as its options tell: nothing is said of words that it may take.
fault_of_jpath_words() {
    given='' wants=''
    while [ "$#" -gt 0 ]; do
        word=$1
        shift
        if [ -n "$wants" ]; then
            case $wants in
                *'|'*)
                    case "|${wants% }|" in *"|$word|"*) ;; *) printf "jpath wants %s behind %s, not '%s'" "${wants% }" "$option" "$word" && return ;; esac
                    ;;
            esac
            wants=${wants#* }
            continue
        fi
        case $word in
            --)
                for word; do case $word in -) given="$given FILE -" ;; *) given="$given FILE" ;; esac done
                break
                ;;
            --*=*)
                take_option "${word%%=*}" || return
                [ -n "$wants" ] || { printf "jpath has no option '%s'" "$word" && return; }
                set -- "${word#*=}" "$@"
                ;;
            --*) take_option "$word" || return ;;
            -?*)
                rest=${word#-?}
                take_option "${word%"$rest"}" || return
                [ -n "$wants" ] || rest=${rest:+-$rest}
                [ -z "$rest" ] || set -- "${rest#=}" "$@"
                ;;
            -) given="$given FILE -" ;;
            *) given="$given FILE" ;;
        esac
        ! has '-h -V' || return
    done
    [ -z "$wants" ] || { printf 'jpath wants %s behind %s' "${wants% }" "$option" && return; }
    ! has --completions || return
    # One option of the first column, and one of the second, where it has some, with none of the third.
    while IFS='|' read -r first second third sentence; do
        [ "$first" = ' ' ] || has "$first" || continue
        [ "$second" = ' ' ] || has "$second" || continue
        has "$third" || { printf 'jpath:%s' "$sentence" && return; }
    done << TABLE
$edits | --rows -e | | an edit takes no other path: leave -e and --rows out
$edits | -c -a -l -L --keys --entries --lengths -q -H -r | | with edits the document is written: leave -r -a -l -L -c -q -H --keys --entries --lengths out
$edits | -S | -p --tab --indent | an edit keeps the order of members: -S goes with it beside -p, --indent or --tab
-q | $forms | | -q writes nothing: leave it or the other form of output out
-l | -L -a -c | | -l writes locations alone: leave it, or -L, -a and -c, out
-L | -a -c | | -L writes a line for each match: leave it, or -a and -c, out
-a | -c | | -a writes arrays and -c numbers: leave one of them out
--keys | --entries --lengths | | --keys, --entries and --lengths differ in what they write: leave one of them
--entries | --lengths | | --keys, --entries and --lengths differ in what they write: leave one of them
--keys --entries --lengths | -l -L -a -c | | --keys, --entries and --lengths write lines of their own: leave them, or -l -L -a -c, out
--indent | --tab | | --indent and --tab say how lines are indented: leave one of them out
--indent --tab -S | -c -l --lengths | | --indent, --tab and -S are about values: leave them, or -c, -l and --lengths, out
--keys | --indent --tab -p | | --keys writes names alone: leave -p, --indent and --tab out, or add values by --entries
--lengths | -p | | --lengths writes numbers alone: leave -p out
-j | -0 --seq | | -j, -0 and --seq say what is between values: leave one of them
-0 | --seq | | -j, -0 and --seq say what is between values: leave one of them
-j -0 --seq | --rows -q $edits | | -j, -0 and --seq go with values: leave them, or --rows, -q and edits, out
-j | -c | | -j has nothing between the numbers of -c: leave one of them out
--seq | -r -c -H -l -L --entries | | --seq writes JSON texts: leave -r -l -L -c -H --entries out
--csv --tsv --header | | --rows | --csv, --tsv and --header go with --rows PATH and -e COLUMN
--rows | | -e | --rows wants a column: add -e PATH, from each row's value as its $
--rows | | --csv --tsv | --rows wants --csv or --tsv, one of them
--csv | --tsv | | --rows wants --csv or --tsv, one of them
--rows | -q $forms | | --rows writes a table: leave -r -p --indent --tab -S -a -l -L --keys --entries --lengths -c -q -H out
--copy | | -i | --copy goes with -i
-i | | $edits | -i goes with an edit, as --set, --add or --remove
-i | | FILE | -i wants a FILE: name the files to be edited
-i | - | | -i edits files: standard input is none
-i | -k | | -i leaves a file as it is where a document in it cannot be read: leave -k out
 | | -e FILE $edits | there is no path: write jpath PATH [FILE..], as in jpath '$.name' file.json
TABLE
}
