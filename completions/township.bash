# Completes the words of `township` in bash, from version 4 on: subcommands, options, and files.

# The files that complete a word, but for those that a pattern matches, and the folders that do.
_township_files() {
    compopt -o filenames 2> /dev/null
    mapfile -t COMPREPLY < <({ compgen -d -- "$1"; compgen -f -X "$2" -- "$1"; } | sort -u)
}

# Those of some words that complete a word.
_township_words() { mapfile -t COMPREPLY < <(compgen -W "$2" -- "$1"); }

_township() {
    local word=${COMP_WORDS[COMP_CWORD]} subcommand=${COMP_WORDS[1]} options=--help
    local files=0 awaits='' ended='' i
    COMPREPLY=()
    if [ "$COMP_CWORD" = 1 ]; then
        _township_words "$word" 'plat acres normal report help --help'
        return
    fi
    # How many files precede the word, whether an option awaits its value, and whether `--` has ended the
    # options. Bash cuts `--account=plat` into three words.
    for ((i = 2; i < COMP_CWORD; i++)); do
        case $ended${COMP_WORDS[i]} in
            =) ;;
            --account) awaits=value ;;
            --) ended=ended: awaits='' ;;
            -*) awaits='' ;;
            *) [ -n "$awaits" ] || files=$((files + 1)); awaits='' ;;
        esac
    done
    [ "$subcommand" != acres ] || options='--account --help'
    if [ -n "$awaits" ]; then
        _township_words "${word#=}" 'exact plat'
    elif [ -z "$ended" ] && [ "${word:0:1}" = - ]; then
        _township_words "$word" "$options"
    else
        case $subcommand:$files in
            plat:0 | acres:0 | normal:0 | report:[01]) _township_files "$word" '!*.csv' ;;
            acres:1 | normal:1) _township_files "$word" '' ;;
            help:0) _township_words "$word" 'plat acres normal report' ;;
        esac
    fi
}

complete -F _township township
