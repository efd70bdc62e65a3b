# Proves the program's crates, and builds the program.
# Variables that the launcher sets:
: "${root:?}" "${program:?}" "${worker?}"

# prints the crates that the kit has checked so far
checked_crates() {
    sed -n 's/^== \([a-z][a-z_]*\)$/\1/p' "$log" | grep -v '^summary$'
}

# shows which crates are checked, until the process that checks them has ended
show_progress() {
    last=
    while kill -0 "$1" 2>/dev/null; do
        crate=$(checked_crates | tail -n 1)
        if [ -n "$crate" ] && { [ -t 2 ] || [ "$crate" != "$last" ]; }; then
            tell "checked $crate, $(checked_crates | wc -l) of $all crates, after $(time_since "$started")"
            last=$crate
        fi
        sleep 1
    done
}

# runs a command of the kit in the program's crate; what is proved by then is kept, so that the next command continues from there
in_program() {
    ends_by_signal 'rm -f "$log"' "what is proved is kept, and sh life prove goes on from there"
    in_a_session "$root/crates/life_cli" "$@"
}

prove() {
    need_kit
    exec 9<"$root/crates.txt"
    ends_by_signal : "nothing was begun"
    take_turn 9 "another launcher is proving"
    is_current "$program" && { say "the program is proved and built"; exit 0; }
    log=$(mktemp) || exit 70
    sources=$(sources_sum)
    at_once=$(jobs_at_once 3000)
    started=$(date +%s)
    all=$(crates_below | wc -l)
    tell "proving $all crates, $at_once side by side, after a pass over their sources"
    in_program rt all check --jobs "$at_once"
    show_progress "$worker"
    if ! { wait "$worker" && build_proved; }; then
        trap - INT TERM HUP
        tell_no_more
        grep -v ': ok$' "$log" | tail -n 20 >&2
        give_up "the program is not proved and built; what the kit says stands in $log"
    fi
    rm -f "$log"
    tell "the program is proved and built, after $(time_since "$started")"
    tell_no_more
    # the pages claim the logic of the proof
    python3 "$root/tools/packing/claimed_logic.py" --check || say "python3 tools/packing/claimed_logic.py writes it into the pages"
    exit 0
}

# Builds what is proved, and runs it without arguments, which changes nothing. The program is noted as proved with the sum that
# its sources had before the proof began; if sources changed meanwhile, nothing is noted.
build_proved() {
    tell "building the program, after $(time_since "$started")"
    : >"$log"
    in_program rt run
    wait "$worker"
    trap - INT TERM HUP
    grep -q '^rt: running out/life_cli' "$log" && note_proof "$program" "$sources"
}
