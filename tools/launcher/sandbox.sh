# Makes a sandbox: a folder in which the launcher runs the preview on the folder's own files, to learn and to try. The file
# `life.sandbox` marks it. Everywhere else only a proved program writes journal.life.
# Variables that the launcher sets:
: "${root:?}" "${launcher:?}" "${preview:?}"
. "$launcher/preview.sh"

# writes a command of the sandbox's bin/, which passes its arguments on to this launcher
put_command() {
    printf '#!/bin/sh\nexec sh "%s/life" %s"$@"\n' "$root" "$2" >"$1" && chmod 755 "$1"
}

# Makes a folder with the mark, the commands, and the examples, so that each command of the tutorial finds its files.
make_sandbox() {
    [ $# -eq 1 ] || usage "it is sh life sandbox DIR: a folder that is to be made"
    case $1 in -*) usage "it is sh life sandbox DIR, and a DIR that begins with - is ./$1" ;; esac
    [ ! -e "$1" ] || give_up "no sandbox was made, since $1 exists: name a folder that isn't there yet"
    is_newest "$preview" || build_preview
    mkdir -p -- "$1/bin" && made=$(cd -- "$1" && pwd -P) && cp -- "$root"/examples/*.csv "$root"/examples/*.xml "$made" &&
        put_command "$made/bin/life" "" && put_command "$made/bin/life-tools" "tools " &&
        put_command "$made/bin/life-wait" "--wait " && printf '%s\n' "PATH=$made/bin:\$PATH" >"$made/activate" &&
        echo "In this folder life runs the unproved preview. A real book does not belong here." >"$made/life.sandbox" ||
        give_up "no sandbox was made: $1 can't be written"
    printf 'sandbox: %s\n' "$1"
    say "to work in it: cd $1 && . ./activate"
    exit 0
}

# From here on the preview is used in place of the proved program.
take_preview() {
    is_newest "$preview" || build_preview
    # shellcheck disable=SC2034 # of the caller
    program=$preview
}
