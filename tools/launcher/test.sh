# Runs all tests without any proof: each crate of tests, as the kit tries it, and the suite over a preview. With the path of a
# test or an option, it runs that part of the suite alone, as pytest takes them.
# Variables that the launcher sets:
: "${root:?}" "${launcher:?}" "${program:?}" "${preview:?}"

# prints the crates of tests, the largest first
test_crates() {
    for crate in $(sed -n 's/^\([a-z_]*_tests\):.*/\1/p' "$root/crates.txt"); do
        echo "$(cat "$root/crates/$crate"/src/*.rt | wc -c) $crate"
    done | sort -rn | cut -d ' ' -f 2
}

# Runs the jobs of a list, so many at once; each prints a line when it ends, and adds its counts to the folder of results.
do_jobs() {
    setsid xargs -r -d '\n' -a "$1" -n 1 -P "$2" sh "$launcher/test_job.sh" "$root" "$results" </dev/null &
    wait "$!"
}

# Runs Debian's Python with these arguments, for a given program and in a session of its own, and sets `tested` to the status.
run_python() {
    judged=$1
    shift
    python=/usr/bin/python3
    [ -x "$python" ] || python=python3
    "$python" -c "import pytest" 2>/dev/null || give_up "the suite needs pytest: sh .ci/setup.sh"
    LIFE_PROGRAM=$judged setsid "$python" "$@" </dev/null &
    wait "$!"
    tested=$?
}

# runs a part of the suite from the clone's folder, with the proved program if it is current, and otherwise with a preview
run_part() {
    judged=$program
    if ! is_current "$program"; then
        . "$launcher/preview.sh"
        is_newest "$preview" || build_preview
        judged=$preview
    fi
    ends_by_signal : "the tests weren't run to their end"
    run_python "$judged" -m pytest -c "$root/pyproject.toml" --rootdir "$root" "$@"
    exit "$tested"
}

# Runs the whole suite; if it ends without its counts, it counts as a failure.
run_suite() {
    echo 0 1 0 >"$results/suite"
    run_python "$judged" "$root/.ci/suite.py" "$at_once" "$results/suite" "$@"
    cat "$results/suite" >>"$results/counts"
}

run_tests() {
    case $*,$# in
        ,0 | --all,1) ;;
        --all* | -h,* | --help,*) usage "it is sh life test, sh life test --all, or sh life test with what pytest takes" ;;
        *)
            case $1 in -*) ;; *) [ -e "${1%%::*}" ] || usage "there is no test ${1%%::*}" ;; esac
            run_part "$@"
            ;;
    esac
    need_kit
    results=$(mktemp -d) || exit 70
    ends_by_signal 'rm -rf "$results"' "the tests weren't run to their end"
    started=$(date +%s)
    : >"$results/counts"
    # a crate of tests takes up to 1.5 gigabytes of memory
    at_once=$(jobs_at_once 1500)
    { echo preview; test_crates; } >"$results/jobs"
    say "$(test_crates | wc -l) crates of tests, $at_once side by side, then the suite"
    do_jobs "$results/jobs" "$at_once"
    judged=$preview
    if [ "${1-}" = --all ]; then
        ! is_current "$program" || judged=$program
        run_suite --slow
    else
        run_suite
    fi
    trap - INT TERM HUP
    say "the tests took $(time_since "$started")"
    awk '{ passed += $1; failed += $2; skipped += $3 }
        END { printf "%d passed, %d failed, %d skipped, nothing proved\n", passed, failed, skipped; exit failed > 0 || passed == 0 }' \
        "$results/counts"
    status=$?
    rm -rf "$results"
    exit "$status"
}
