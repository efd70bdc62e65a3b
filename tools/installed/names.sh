# The place of the program, and the names by which the program, its waiting and its tools are called.
# shellcheck disable=SC2034 # of the parts
here=$(readlink -f -- "$0") || exit 70
program=$(dirname "$here")/life-program
called=life waits=life-wait tools=life-tools
run_tools() { "$(dirname "$here")/life-tools" "$@"; }

