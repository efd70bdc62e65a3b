# Waits for a book that is in use: `sh life --wait`, or `life-wait` if the program is installed.

is_seconds() {
    case $1 in '' | *[!0-9]* | ???????*) return 1 ;; esac
}

# prints the process that has locked a file, and its name, if the system shows them
holder_of() {
    inode=$(stat -c %i "$1" 2>/dev/null) || return
    pid=$(awk -v inode=":$inode\$" '/ FLOCK / && $2 != "->" && $6 ~ inode { print $5; exit }' /proc/locks 2>/dev/null)
    [ -z "$pid" ] || printf '%s\n' "process $pid, $(cat "/proc/$pid/comm" 2>/dev/null)"
}

# Whether a file is in use: a shared lock is tried on it, and released at once.
is_held() {
    [ -f "$1" ] && [ -r "$1" ] || return 1
    ! { flock -n -s 7; } 7<"$1"
} 2>/dev/null

# prints the files that a command needs
needed_files() {
    case $1 in
        run | load | value | project) echo journal.life ;;
        state | checkpoint) echo journal.life checkpoint.life ;;
    esac
}

# Prints why the command cannot use the book yet: the process that uses it, or that another waiting process has its turn. A lock
# that is tried is held for a moment, and would keep the program of another process out; so only the process whose turn it is
# tries.
why_wait() {
    flock -n 9 2>/dev/null
    queue=$?
    for file in $(needed_files "$1"); do
        holder=$(holder_of "$file")
        if [ "$queue" = 1 ]; then [ -n "$holder" ]; else is_held "$file"; fi || continue
        printf '%s\n' "$file is in use by $holder"
        return
    done
    [ "$queue" != 1 ] || echo "another one that waited for this folder has its turn"
}

# Waits at most so many seconds until no process uses what the command needs. Those that wait take turns by a lock on the folder,
# which the program keeps until it ends; so no process takes the book from another that was about to begin. When the time is over,
# the program is started all the same, and reports what it finds.
wait_for_books() {
    seconds=$1
    until=$(($(date +%s) + seconds))
    shift
    trap 'say "stopped waiting, and nothing was run"; exit 130' INT TERM HUP
    exec 9<. || exit 70
    said=
    while why=$(why_wait "$@") && [ -n "$why" ]; do
        [ "$why" = "$said" ] || say "waiting: $why"
        said=$why
        [ "$(date +%s)" -lt "$until" ] || { say "waited for $seconds s, and still $why"; break; }
        sleep 0.2
    done
    trap - INT TERM HUP
}
