# Explains the program's status, in addition to what the program printed about the arguments. $called is the name of the program,
# $waits that of the program that waits, and $tools that of the tools.
# Variables that the caller sets:
: "${called:?}" "${waits:?}" "${tools:?}"

hint() {
    ended=$1
    shift
    case $ended in
        2) hint_usage "$@" ;;
        8) say "$(why_fault "$@")" ;;
        130) say "stopped; what was accepted stands, and $tools rest --help tells how to post what is left" ;;
    esac
}

hint_usage() {
    say "$called help names the commands, and $called COMMAND --help the arguments of one"
    case "$1 ${2-}" in
        value\ *[-./]*[-./]* | project\ *[-./]*[-./]*)
            say "a day is YYYY-MM-DD of the calendar, from 1900-01-01 to 2199-12-31" ;;
        run\ ?*) [ ! -f "$2" ] || say "the script goes to standard input: $called run < $2" ;;
    esac
}

# prints why the journal could not be used, or the checkpoint if the arguments open it too, or else that the disk failed
why_fault() {
    why=$(why_not journal.life)
    case "$*" in state | checkpoint) [ -n "$why" ] || why=$(why_not checkpoint.life) ;; esac
    printf '%s\n' "${why:-the disk failed (is it full? df .), or another run had journal.life, with what was accepted before}"
}

# prints why a file cannot be used, if a reason is found
why_not() {
    if [ -d "$1" ]; then
        printf '%s\n' "$1 is a folder"
    elif [ -e "$1" ]; then
        holder=$(holder_of "$1")
        if [ -n "$holder" ]; then
            printf '%s\n' "$1 is in use by $holder: wait until it has ended, or use $waits SECONDS"
        elif [ ! -w "$1" ]; then
            printf '%s\n' "$1 can't be written by $(id -un)"
        fi
    else
        printf '%s\n' "$1 isn't there: it can't be made in this folder, or was taken away while the run had it"
    fi
}
