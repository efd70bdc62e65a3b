# Prints `sh life help`, for all commands or for one.
# Variables that the launcher sets:
: "${launcher:?}" "${program:?}"

tell_all() {
    tell_words
    cat <<'WORDS'
anywhere, and nothing of it touches a book:
  sh life try COMMAND            a preview: unproved and slow, on copies
  sh life prove                  proves and builds the program
  sh life test [--all | TEST]    tests, proving nothing; --all: all checks too;
                                 or some of the suite, as pytest takes them
  sh life install [DIR]          the proved program for daily use (~/.local/bin)
  sh life pack                   a Debian package and a tar file, in out/release
  sh life sandbox DIR            a folder to learn in, with the preview
  sh life doc                    the documentation as a site, in out/site
  sh life tools NAME ARGUMENTS   one of the tools: sh life tools --help
  sh life help [COMMAND]         this, or one command with an example

Status 66: the folder has no book. 67: the book is damaged. 69: no proved
program is of these sources. In each of these cases nothing was run. 70: the
launcher failed. 130: it was stopped.
WORDS
}

# prints the help of one of the launcher's own commands
tell_own() {
    case $1 in
        try) does="Runs the program unproved, on copies of the folder's files and with a journal of its own." with=" state" ;;
        prove) does="Proves the program's crates and builds it; what is proved is kept." with= ;;
        test) does="Runs all tests unproved; with --all also every check of the repository; or one TEST, as pytest takes it." with=" [--all | TEST]" ;;
        install) does="Installs the proved program, with its tools and manual, in DIR (~/.local/bin)." with=" [DIR]" ;;
        pack) does="Packs the proved program for Debian and as a tar file, in out/release." with= ;;
        doc) does="Builds the documentation, with a page of each crate's public clauses, in out/site." with= ;;
        sandbox) does="Makes the folder DIR, in which every command works with the preview on the folder's own files." with=" DIR" ;;
        tools) does="Runs one of the tools beside the program; --help names them." with=" verify" ;;
        *) return 1 ;;
    esac
    printf 'sh life %s\n\n%s\n\nExample: sh life %s\n' "$1$with" "$(printf %s "$does" | fold -s -w 79)" "$1${with%%[ ]\[*}"
}

tell_help() {
    case $1 in
        '' | help | --help | -h) tell_all ;;
        *) tell_word "$1" || tell_own "$1" || usage ;;
    esac
    is_current "$program" || say "no proved program is of these sources: sh life prove makes one, and sh life try runs a preview"
    exit 0
}
