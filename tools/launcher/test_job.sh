# Runs one job of `sh life test`: test_job.sh ROOT RESULTS JOB, where JOB is a crate of tests, or `preview`, which builds the
# preview. It prints a line, and more if something failed, and adds its counts of passed and failed tests to RESULTS/counts.
root=$1 results=$2 job=$3
launcher=$root/tools/launcher
previews=$root/out/preview
preview=$previews/life_preview
. "$launcher/shared.sh"
. "$launcher/preview.sh"
said=$results/$job.said
started=$(date +%s)

# reports a job: how many tests passed, how many failed, and the file with what is shown of a failure
report() {
    echo "$1 $2" >>"$results/counts"
    if [ "$2" = 0 ]; then
        echo "$job: $1 passed, after $(time_since "$started")"
    else
        {
            echo "$job: $1 passed, $2 FAILED, after $(time_since "$started"):"
            tail -n 40 "$3" | sed 's/^/    /'
        } >"$said.report"
        cat "$said.report"
    fi
}

# Runs a command in a folder with a limit on its time; it ends if this job is ended. Its output is kept.
do_bounded() {
    (cd "$1" && shift && exec timeout 1800 "$@") </dev/null >"$said" 2>&1 &
    trap 'kill "$!"; wait "$!"; exit 143' TERM
    wait "$!"
    ended=$?
    trap - TERM
} 2>/dev/null

try_crate() {
    # time limit of a test by the clock, whatever else the machine does; the longest tests take a minute on a quiet machine
    do_bounded "$root/crates/$job" rt try --test --seconds 600
    grep -v '^test .* ok$' "$said" >"$said.rest"
    counts=$(sed -n 's/^test result: [A-Za-z]*\. \([0-9]*\) passed; \([0-9]*\) failed;.*/\1 \2/p' "$said")
    case $counts,$ended in
        *' 0,0') report "${counts% *}" 0 ;;
        ,* | *' 0,'*) report 0 1 "$said.rest" ;;
        *) report "${counts% *}" "${counts#* }" "$said.rest" ;;
    esac
}

case $job in
    preview) is_newest "$preview" || build_preview ;;
    *) try_crate ;;
esac
# a failed job has reported its failure, and the other jobs go on
exit 0
