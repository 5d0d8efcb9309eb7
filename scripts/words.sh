# shellcheck shell=bash
# Reads the words of the program treesched as the program does, for the script `treesched` at the top, which sources
# this file. Whoever calls has `set -euo pipefail`. What is refused here the program refuses too, with the same status.
#
# After `read_words WORD ..`: `refusal` is what the program refuses the words for, `wants_help` is set if they ask for
# help, `files` has the places of the words that name files which are read, and `out` that of the word with OUT.

usage_of() {
    case $1 in
    explore) echo "Usage: treesched explore [OPTIONS] --steps <N> <FILE>" ;;
    replay) echo "Usage: treesched replay --schedule <LIST> <FILE>" ;;
    check) echo "Usage: treesched check <FILE> <BOOK>" ;;
    *) echo "Usage: treesched <COMMAND>, one of: explore, replay, check, help" ;;
    esac
}

# The help where no program is there to give its own.
print_help() {
    cat <<'END'
Explores the schedules of concurrent tree programs

Usage: treesched explore [OPTIONS] --steps <N> <FILE>
       treesched replay --schedule <LIST> <FILE>
       treesched check <FILE> <BOOK>

Options of explore: --workers <W>, --states <M>, --merge <exact or names>, --ledger, --book <OUT>

This is the help of the script, since the program is not built yet. Words of the script, which stand first:

  --unproved WORD ..  runs the sources with nothing proved
  --build             proves and builds the program, and runs nothing
  --version           the commit, the kit, and whether the program is proved

Example: treesched explore examples/ellen.json --steps 400 --merge names

Exit status: 0 it holds, 1 a fault, 2 stopped at the most states, 3 the program or the book is refused, 4 the words
are refused, 5 memory was refused, 6 a file can't be read or written, 70 there is no program to run.
docs/FORMATS.md has all words, and docs/REFUSALS.md all that is printed.
END
}

# Says why words are refused, in the form of the program's own lines.
print_refusal() {
    echo "$refusal" >&2
    if [[ $refusal == error:* ]]; then
        printf '\n%s\n\n%s\n' "$(usage_of "${1-}")" "For more information, try '--help'." >&2
    fi
}

# Whether a text is a number from $2 to $3, as the program reads it.
is_number() {
    local digits
    [[ $1 =~ ^\+?0*([0-9]+)$ ]] || return
    digits=${BASH_REMATCH[1]}
    [ ${#digits} -le 9 ] && [ "$digits" -ge "$2" ] && [ "$digits" -le "$3" ]
}

judge_number() {
    is_number "$2" "$3" "$4" || refusal="error: $1 takes a number from $3 to $4, and not '$2'"
}

judge_value() {
    case $1 in
    --steps) judge_number "$1" "$2" 0 400 ;;
    --workers) judge_number "$1" "$2" 1 8 ;;
    --states) judge_number "$1" "$2" 1 2000000 ;;
    --merge) [[ $2 == @(exact|names) ]] || refusal="error: --merge takes exact or names, and not '$2'" ;;
    --schedule) [[ $2 =~ ^([0-9](,[0-9])*)?$ && ${#2} -lt 800 ]] || late_refusal="treesched: bad schedule" ;;
    esac
}

# Reads the option at `place`, and its value, for read_words, whose variables these are.
read_option() {
    local word=${words[place]} name=${words[place]%%=*} value=''
    if [[ $options != *" $name "* ]] || [[ $word == --ledger=* ]]; then
        refusal="error: ${words[0]} has no option '$word'"
        return
    elif [ "$word" = --ledger ]; then
        :
    elif [[ $word == *=* ]]; then
        value=${word#*=}
    elif [ $((place + 1)) -ge ${#words[@]} ] || [[ ${words[place + 1]} == -?* ]]; then
        refusal="error: $name has no value"
        return
    else
        place=$((place + 1))
        value=${words[place]}
    fi
    [[ $given != *" $name "* ]] || refusal="error: $name stands there twice"
    given+="$name "
    [ "$name" != --merge ] || merge=$value
    [ "$name" != --book ] || out=$place
    judge_value "$name" "$value"
}

# What the words lack once each is read.
judge_whole() {
    if [ -n "$required" ] && [[ $given != *" $required "* ]]; then
        refusal="error: $required is missing"
    elif [ ${#files[@]} -lt "$most" ]; then
        refusal="error: a file is missing"
    elif [ -n "$late_refusal" ]; then
        refusal=$late_refusal
    elif [ -n "$out" ] && [ "$merge" != names ]; then
        refusal="treesched: --book needs --merge names"
    fi
}

# Reads the words after the first for read_words, whose variables these are.
read_rest() {
    local word rest=''
    while [ -z "$refusal$wants_help" ] && place=$((place + 1)) && [ "$place" -lt ${#words[@]} ]; do
        word=${words[place]}
        if [ -n "$rest" ] || [[ $word != -?* ]]; then
            files+=("$place")
            [ ${#files[@]} -le "$most" ] || refusal="error: '$word' is a word too many"
        elif [ "$word" = -- ]; then
            rest=yes
        elif [[ $word == -h* || $word == --help ]]; then
            wants_help=yes
        else
            read_option
        fi
    done
    [ -n "$refusal$wants_help" ] || judge_whole
}

# shellcheck disable=SC2034
read_words() {
    local words=("$@") place=0 given=' ' merge=exact late_refusal='' options required most
    refusal='' wants_help='' files=() out=''
    [ $# -gt 0 ] || refusal="error: no command is given"
    case ${1-} in
    explore) options=' --steps --workers --states --merge --ledger --book ' required=--steps most=1 && read_rest ;;
    replay) options=' --schedule ' required=--schedule most=1 && read_rest ;;
    check) options=' ' required='' most=2 && read_rest ;;
    -h* | --help) wants_help=yes ;;
    help)
        if [[ $# -eq 1 || $* == help\ @(explore|replay|check|help) ]]; then
            wants_help=yes
        else
            refusal="error: there is no such help"
        fi
        ;;
    *) refusal=${refusal:-"error: there is no command '${1-}'"} ;;
    esac
}
