
# Runs the program beside this file with these arguments, in a folder that has a book or in which one is begun.
# Variables that the parts before this one set:
: "${program:?}" "${asked?}"
[ -x "$program" ] || give_up "there is no program $program, so nothing was run: install life anew" 69
if asks_help "$@"; then
    case $asked in
        '' | help | --help | -h)
            tell_words
            cat <<'WORDS'
beside it:
  life-tools NAME ARGUMENTS      one of the tools: life-tools --help
  man life                       the same in more words

Status 66: the folder has no book. 67: the book is damaged. 69: the program
isn't there. In each of these cases nothing was run.
WORDS
            ;;
        *) tell_word "$asked" || { echo usage; give_up "there is no command $asked: life help names them" 2; } ;;
    esac
    exit 0
fi
if [ "${1-}" = --wait ]; then
    is_seconds "${2-}" && [ $# -gt 2 ] ||
        { echo usage; give_up "it is life-wait SECONDS COMMAND, with up to six digits: life help wait" 2; }
    shift
    wait_for_books "$@"
    shift
fi
run_program "$@"
