# What the launcher's parts share: messages on standard error, whether a program is current, and the kit's commands.
# The launcher sets $root; in_a_session sets $worker, the process that it began, and writes to $log:
: "${root:?}"
. "$root/tools/launcher/messages.sh"
worker='' log=''

# Waits for a lock, and says so if another launcher has it.
take_turn() {
    flock -n "$1" && return
    say "$2; this one waits for it"
    # a shell that waits for a process in the background handles a signal at once
    flock "$1" &
    wait "$!"
}

time_since() {
    spent=$(($(date +%s) - $1))
    echo "$((spent / 60)) min $((spent % 60)) s"
}

# prints the program's crates: the program itself, and each of our crates below it
crates_below() {
    awk -F: '/^[a-z]/ { split($1, head, " "); ours[head[1]] = $2 }
        function visit(name, n, parts, i) {
            if (seen[name]++) return
            n = split(ours[name], parts, " ")
            for (i = 1; i <= n; i++) if (parts[i] in ours) visit(parts[i])
            print name
        }
        END { visit("life_cli") }' "$root/crates.txt"
}

# Prints the checksum of what is proved of the program: the SHA-256 of the list that sha256sum prints for crates.txt and for each
# source, contract and proof of its crates.
sources_sum() {
    # shellcheck disable=SC2046 # a crate's name has no blank
    (cd "$root" && { echo crates.txt && find $(crates_below | sed 's,^,crates/,') \( -name out -o -name must-fail \) -prune \
        -o \( -name '*.rt' -o -name '*.antt' \) -type f -print; } | LC_ALL=C sort | tr '\n' '\0' |
        xargs -0 sha256sum | sum_of /dev/stdin)
}

# Prints what was noted when the program was proved and built: `program`, `sources` (their checksums), `kit` (with its logic) or
# `revision`.
noted() {
    sed -n "s/^$1: //p" "$root/out/proved" 2>/dev/null
}

# Notes that a program is the proved one of these sources, unless their checksum has changed since before the proof.
note_proof() {
    [ "$(sources_sum)" = "$2" ] && mkdir -p "$root/out" &&
        printf 'program: %s\nsources: %s\nkit: %s\nrevision: %s\n' "$(sum_of "$1")" "$2" "$(kit)" "$(revision)" \
            >"$root/out/proved.new" &&
        mv -f "$root/out/proved.new" "$root/out/proved"
}

# whether a program is the one that was proved, and its sources are still those from which it was proved
is_current() {
    [ -x "$1" ] && [ -n "$(noted program)" ] && [ "$(sum_of "$1")" = "$(noted program)" ] &&
        [ "$(sources_sum)" = "$(noted sources)" ]
}

# Whether a preview, which writes no book, is newer than each source, contract and proof of its crates, and than the folders that
# contain them.
is_newest() {
    built=$1
    [ -x "$built" ] && [ ! "$root/crates.txt" -nt "$built" ] || return 1
    set --
    for crate in $(crates_below); do set -- "$@" "$root/crates/$crate"; done
    [ $# -gt 0 ] || return 1
    newer=$(find "$@" -mindepth 1 \( -name out -o -name must-fail \) -prune -o \
        \( -type d -o -name '*.rt' -o -name '*.antt' \) -newer "$built" -print | head -n 1)
    [ -z "$newer" ]
}

need_kit() {
    command -v rt >/dev/null || give_up "the kit's command rt isn't on the path"
}

# prints how many jobs may run side by side: at most one for each processor, and one for so many MB of free memory
jobs_at_once() {
    processors=$(nproc 2>/dev/null) || processors=1
    awk -v most="$processors" -v each="$1" '/^MemAvailable:/ { n = int($2 / 1000 / each) }
        END { print n < 1 ? 1 : n < most ? n : most }' /proc/meminfo
}

# Runs a command in a folder and in a session of its own, so that it ends with the launcher; its output goes to the log.
in_a_session() {
    (cd "$1" && shift && exec setsid "$@" </dev/null >>"$log" 2>&1) &
    # shellcheck disable=SC2034 # of those that call it
    worker=$!
}

# prints the processes of a session that have not ended
session() {
    cat /proc/[0-9]*/stat 2>/dev/null | sed -n "s/^\([0-9]*\) .*) [^Z] [0-9]* [0-9]* $1 .*/\1/p"
}

# Ends the last process begun in the background, with its group if it leads one, and waits until nothing of its session is left;
# what is left after ten seconds is killed.
end_worker() {
    [ -n "$!" ] || return 0
    kill -- -"$!" 2>/dev/null || kill "$!" 2>/dev/null
    tries=0
    while left=$(session "$!") && [ -n "$left" ] && [ "$tries" -lt 150 ]; do
        # shellcheck disable=SC2086
        [ "$tries" -lt 100 ] || kill -s KILL $left 2>/dev/null
        sleep 0.1
        tries=$((tries + 1))
    done
}

# Sets what a signal does from here on: the process in the background ends, and the launcher says what is left and ends.
ends_by_signal() {
    trap 'trap "" INT TERM HUP; end_worker; '"$1"'
        tell_no_more
        say "stopped; '"$2"'"
        exit 130' INT TERM HUP
}

# prints the revision of what is installed or packed; the kit that proves; the SHA-256 of a file
revision() {
    found=$(git -C "$root" rev-parse HEAD 2>/dev/null) || { echo "unknown: there is no repository"; return; }
    changes=$(git -C "$root" status --porcelain -- life crates crates.txt tools 2>/dev/null)
    echo "$found${changes:+, with changes}"
}

kit() {
    rt version 2>/dev/null || echo "unknown: rt isn't on the path"
}

sum_of() {
    sha256sum <"$1" | cut -d ' ' -f 1
}
