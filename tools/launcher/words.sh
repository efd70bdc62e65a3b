# Prints the help of the program's commands, all of them or one. The clone's launcher and the installed `life` share this part.
# Variables that the caller sets; asks_help sets $asked to the command whose help is asked for:
: "${called:?}" "${waits:?}"
asked=

# shellcheck disable=SC2034 # of the caller
# whether the arguments ask for help: `help`, `--help` or `-h`, alone or with a command, in either order
asks_help() {
    case ${1-},${2-},$# in
        help,*,[12] | --help,*,[12] | -h,*,[12]) asked=${2-} ;;
        *,--help,2 | *,-h,2) asked=$1 ;;
        *) return 1 ;;
    esac
}

tell_words() {
    echo "in the folder of a book, the proved program alone:"
    printf '  %-31s%s\n' "$called run < SCRIPT" "posts the lines of up to eight lanes" \
        "$called state [ID]" "policies and balances, or one policy's postings" \
        "$called checkpoint" "keeps the books, for a faster state" \
        "$called value ON [--at P]" "what each policy is worth on a day" \
        "$called project ON YEARS" "expected premiums and benefits, by year"
    printf '  %s\n' "$called generate SEED COUNT LANES" "$called load SEED COUNT LANES WORKERS"
    printf '  %-31s%s\n' "" "a drawn script is printed, or run and valued" \
        "$waits SECONDS COMMAND" "the same, once no other process has the book" \
        "$called help COMMAND" "one of these, with an example"
    echo
}

# Prints the help of one command of the program: its arguments, what it does and prints, and an example.
tell_word() {
    case $1 in
        run) cat <<WORDS
$called run [--basis NAME] [--accept-damage COUNT] < SCRIPT

Posts the lines of a script, which it reads from standard input to its end, and
prints what became of each.

  --basis NAME           the basis of the script's value lines (basis.csv)
  --accept-damage COUNT  posts to a book that was reported as damaged after its
                         first COUNT commands, and overwrites what follows

Example: $called run < monday.csv > monday.transcript
Status 0: each line was processed. 3: a row of the script is wrong. 8: the disk
failed, or another process has the book. 67: the book is damaged.
WORDS
            ;;
        state) cat <<WORDS
$called state [ID]

Prints each policy in order of issue, the balances and the number of commands;
with the number of a policy, what was accepted of it, and the policy.

Example: $called state 7001
Status 0: all is printed. 5: the journal is refused. 8: the disk failed, or
another process has the book. 66: there is no book in this folder.
WORDS
            ;;
        checkpoint) cat <<WORDS
$called checkpoint [--accept-damage COUNT]

Keeps the books in checkpoint.life, from which state goes on, and prints after
how many commands.

  --accept-damage COUNT  of a book that was reported as damaged after its first
                         COUNT commands

Example: $called checkpoint
Status 0: the books are saved. 5: the journal is refused. 8: a disk failed, or
another process has the book. 66: there is no book in this folder. 67: the book
is damaged.
WORDS
            ;;
        value) cat <<WORDS
$called value ON [--at P] [--workers N] [--basis NAME] [--mean | --deficiency]

Values each policy on the day ON, YYYY-MM-DD, and prints the total.

  --at P        after the first P commands (all)
  --workers N   in up to N threads, 1 to 64 (1)
  --basis NAME  by this basis (basis.csv)
  --mean        mean reserves; --deficiency: the minimum reserves beside

Example: $called value 2025-12-31 --workers 4 > december.value
Status 0: all is printed. 4: a file of the basis is refused. 5: the journal is
refused. 8: the disk failed, or another process has the book. 10: the book has
fewer commands than P. 66: there is no book in this folder.
WORDS
            ;;
        project) cat <<WORDS
$called project ON YEARS [--workers N] [--basis NAME]

Prints the premiums and benefits that are expected in each of the next YEARS
years, 1 to 131, from the year of the day ON on.

Example: $called project 2025-12-31 20
Status 0: all is printed. 4: a file of the basis is refused. 5: the journal is
refused. 8: the disk failed, or another process has the book. 66: there is no
book in this folder.
WORDS
            ;;
        generate) cat <<WORDS
$called generate SEED COUNT LANES

Prints a drawn script that issues COUNT policies in LANES lanes, and takes a
premium of each.

Example: $called generate 1 1000 8 > drawn.csv
Status 0: the script is printed. 2: a number is out of its range. 7: the output
failed.
WORDS
            ;;
        load) cat <<WORDS
$called load SEED COUNT LANES WORKERS

Posts the script that generate draws, values the book on 2020-12-31, and prints
one line. It writes to the book in this folder: try it in a new one.

Example: $called load 1 1000 8 4
Status 0: each line was processed. 4: a file of the basis is refused. 5: the
journal is refused. 8: the disk failed, or another process has the book. 67: the
book is damaged.
WORDS
            ;;
        --wait | wait) cat <<WORDS
$waits SECONDS COMMAND

Waits until no other process has the book, SECONDS at most, then runs the
command; standard error states what it waits for.

Example: $waits 600 run < monday.csv > monday.transcript
Status: that of the command, which is also run if the time is over.
WORDS
            ;;
        *) return 1 ;;
    esac
}
