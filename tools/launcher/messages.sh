# Prints messages on standard error. The clone's launcher and the installed `life` share this part.

# prints a line; a byte that a terminal would obey is shown as ?
say() {
    printf 'life: %s\n' "$(printf %s "$*" | LC_ALL=C tr '\001-\037\177' '?')" >&2
}

# prints a line, and exits with the given status, or with 70
give_up() {
    say "$1"
    exit "${2:-70}"
}

# prints a line, which the next one replaces on a terminal
tell() {
    if [ -t 2 ]; then printf '\r\033[Klife: %s' "$1" >&2; else say "$1"; fi
}

tell_no_more() {
    [ ! -t 2 ] || echo >&2
}
