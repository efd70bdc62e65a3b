# Checks what the program does not check about the folder's book: whether there is one, and whether its file is whole. The clone's
# launcher and the installed `life` share this part.
# Variables that the caller sets:
: "${called:?}"

# posts: whether the arguments post; opens_book: whether they open a book at all
posts() {
    case ${1-} in run | load) ;; *) return 1 ;; esac
}

# whether they write the journal, or a checkpoint in place of one that may know of more commands
writes_book() {
    posts "$@" || [ "${1-}" = checkpoint ]
}

opens_book() {
    case ${1-} in run | load | state | checkpoint | value | project) ;; *) return 1 ;; esac
}

# Linux marks pages whose write to the disk failed as clean. After a failed sync the system's cache may therefore hold postings
# that the disk never received; a later sync succeeds without writing them, and the next run would believe them. So before a book
# is opened, its files are synced, and the system is asked to drop its cached pages of them: what is read then comes from the
# disk. The program cannot do this itself, since no library that it may use has the system call.
read_from_disk() {
    opens_book "$@" || return 0
    for file in journal.life checkpoint.life; do
        [ -f "$file" ] && [ -r "$file" ] || continue
        sync "$file" 2>/dev/null || say "the disk failed in a sync of $file: what is read now is what the disk has"
        dd if="$file" iflag=nocache count=0 2>/dev/null || say "the system's copies of $file can't be dropped"
    done
}

# Exits with 66 if the arguments need a book that is not there, and says so if they begin one. A link to nothing also ends with
# 66: the program would otherwise begin a book in its place.
demand_journal() {
    opens_book "$@" || return 0
    if [ -L journal.life ] && [ ! -e journal.life ]; then
        say "journal.life is a link to $(readlink journal.life), which isn't there, so nothing was run: is its disk mounted?"
        exit 66
    fi
    [ ! -e journal.life ] || return 0
    if posts "$@"; then
        say "there is no journal.life in $(pwd -P), so a new book is begun"
    else
        say "there is no journal.life in $(pwd -P), so nothing was run"
        exit 66
    fi
}

# Prints what `life-tools verify` prints about the book, with its reasons; prints nothing if that cannot be found out, such as
# while another process uses the journal. If the tools cannot run, only the length is compared, which takes a minute for the
# largest book.
verify_book() {
    if command -v python3 >/dev/null; then
        found=$(run_tools verify 2>&1)
        case $? in
            0 | 1)
                printf '%s\n' "$found"
                return 0
                ;;
            2)
                # the program itself reports a journal that is in use or is not a journal
                case $found in *" is in use by "* | *" is in use "* | *badjournal,*) ;; *) say "the book isn't verified: $found" ;; esac
                return 1
                ;;
        esac
    fi
    verify_length
}

verify_length() {
    length=$(stat -Lc %s journal.life) || return 1
    count=$(od -An -v -tu1 -w65 -j17 journal.life | awk '$1 != 1 { exit } { n++ } END { print n + 0 }')
    [ $((length - 18 - 65 * count)) -gt 65 ] || return 1
    printf 'count,%s\ndamaged\n%s bytes follow its last commit byte\n' "$count" $((length - 18 - 65 * count))
} 2>/dev/null

# A damaged commit byte ends the journal for the program, and the next posting overwrites what follows it. A checkpoint made then
# would replace one that shows the loss. Therefore a command that writes ends with 67, unless the caller accepts that exactly so
# many commands ($1) are left; all other commands run, with a warning.
demand_whole() {
    accepted=$1
    shift
    opens_book "$@" && [ -f journal.life ] && [ -r journal.life ] && told=$(verify_book) || return 0
    verdict=$(printf '%s\n' "$told" | grep -x -e whole -e undecided -e damaged -e empty)
    why=$(printf '%s\n' "$told" | sed "1,/^$verdict\$/d" | awk 'NR > 1 { printf "; " } { printf "%s", $0 }')
    count=$(printf '%s\n' "$told" | sed -n 's/^count,//p')
    case $verdict in
        '' | whole) ;;
        damaged)
            if ! writes_book "$@"; then
                say "journal.life is damaged, and what follows is of its first $count commands alone: $why"
            elif [ "$accepted" = "$count" ]; then
                say "journal.life is damaged, and only its first $count commands are used: $why"
            else
                say "journal.life is damaged, so nothing was run: its first $count commands can be read ($why)." \
                    "Restore the last whole copy; or $called $1 --accept-damage $count goes on with these commands alone," \
                    "and what follows them is lost"
                exit 67
            fi
            ;;
        *) say "$why" ;;
    esac
}
