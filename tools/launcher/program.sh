# Runs the program in the present folder; on a terminal the run's progress is shown and its status is explained. The clone's
# launcher and the installed `life` share this part.
# Variables that the caller sets:
: "${program:?}" "${called:?}"

# prints for how many postings the journal's file is long enough
postings_now() {
    length=$(stat -c %s journal.life 2>/dev/null) || length=0
    echo $((length < 18 ? 0 : (length - 18) / 65))
}

# shows how far a run is, by the growth of its journal, until the launcher has ended
show_growth() {
    last=$before
    while sleep 1 && kill -0 $$ 2>/dev/null; do
        now=$(postings_now)
        tell "$((now - before)) postings, $((now - last)) in the last second"
        last=$now
    done
}

clear_growth() {
    kill "$watcher" 2>/dev/null
    printf '\r\033[K' >&2
}

# passes on what the program prints; the progress line disappears with the first byte
after_growth() {
    first=$(dd bs=1 count=1 2>/dev/null && echo .)
    clear_growth
    printf %s "${first%.}"
    exec cat
}

# Runs the program and shows its progress. The output goes through a pipe if it and the progress are for the same terminal.
run_and_watch() {
    before=$(postings_now)
    show_growth &
    watcher=$!
    trap : INT
    if [ -t 1 ]; then
        exec 4>&1
        status=$({ { trap : INT; "$program" "$@" 3>&- 4>&-; echo $? >&3; } | after_growth >&4; } 3>&1)
        exec 4>&-
    else
        "$program" "$@"
        status=$?
    fi
    clear_growth
    status=${status:-130}
}

# Sets $accepted, or exits with 2 before anything runs if the argument of --accept-damage is not a number.
accepts_number() {
    case $1 in
        '' | *[!0-9]* | ????????*)
            echo usage
            say "it is $called $first --accept-damage COUNT, with the count that was reported"
            exit 2
            ;;
    esac
    accepted=$1
}

# On a terminal the launcher stays, to explain the status; otherwise the program replaces it, and receives signals itself.
run_program() {
    first=${1-} accepted='' left=$#
    while writes_book "$first" && [ "$left" -gt 0 ]; do
        left=$((left - 1))
        case $1 in
            --accept-damage=*) accepts_number "${1#*=}" ;;
            --accept-damage)
                accepts_number "${2-}"
                left=$((left - 1))
                shift
                ;;
            *) set -- "$@" "$1" ;;
        esac
        shift
    done
    demand_journal "$@"
    read_from_disk "$@"
    demand_whole "$accepted" "$@"
    # a write past a limit on the size of files then fails like any other write, and does not end the program
    trap '' XFSZ
    [ -t 2 ] || exec "$program" "$@"
    [ "${1-}" != run ] || [ ! -t 0 ] || say "the script is read from the terminal until Ctrl-D; a file is $called run < SCRIPT"
    case ${1-} in
        run | load) run_and_watch "$@" ;;
        *)
            trap : INT
            "$program" "$@"
            status=$?
            ;;
    esac
    hint "$status" "$@"
    exit "$status"
}
