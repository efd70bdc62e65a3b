# Installs the proved program for daily use in a folder of programs, with all that belongs to it and without the clone.
# Variables that the launcher sets:
: "${root:?}" "${launcher:?}" "${program:?}"

# Makes a folder and those above it; notes which of them are new, the innermost first.
make_folder() {
    above=$1
    while [ ! -e "$above" ] && [ ! -L "$above" ]; do
        new_folders=$new_folders$above'
'
        above=$(dirname "$above")
    done
    made=$(mkdir -p -- "$1" 2>&1) || give_up "nothing was installed: ${made#mkdir: }"
}

# Removes the staged files, and the new folders that are empty.
clean_up() {
    rm -rf "$staged" "$staged_share"
    printf %s "$new_folders" | sort -r | while IFS= read -r folder; do rmdir -- "$folder" 2>/dev/null; done
}

# Removes what a killed installation left in these folders, which are locked; it removes only the installation's own files.
remove_left() {
    for left in "$dir"/.life.?????? "$share"/.life.??????; do
        for each in life life-program life-wait life-tools life.1; do rm -f -- "$left/$each"; done
        rmdir -- "$left" 2>/dev/null
    done
}

# sets the folders in which the files are put, and makes these folders
name_places() {
    dir=${1:-${HOME:+$HOME/.local/bin}}
    [ -n "$dir" ] || give_up "HOME isn't set, so name a folder: sh life install DIR"
    make_folder "$dir"
    dir=$(cd -- "$dir" && pwd -P) || exit 70
    [ "$dir" != "$root" ] || give_up "nothing was installed: $dir is this clone, whose launcher is named life"
    share=$(dirname "$dir")/share
    manuals=$share/man/man1
    completions=$share/bash-completion/completions
    make_folder "$manuals"
    make_folder "$completions"
    for place in "$dir/life" "$dir/life-program" "$dir/life-wait" "$dir/life-tools" "$manuals/life.1" "$completions/life"; do
        [ ! -d "$place" ] || give_up "nothing was installed: $place is a folder"
    done
}

# makes each file complete and synced in a folder beside its final place, so that only a rename is left to do
make_files() {
    cp "$program" "$staged/life-program" &&
        { echo '#!/bin/sh' && (cd "$root" && xargs cat <tools/installed/parts); } >"$staged/life" &&
        cp "$root/tools/installed/life-wait.sh" "$staged/life-wait" &&
        python3 "$root/tools/packing/tools_file.py" "$root/tools/life_tools" "$staged/life-tools" "$(revision)" "$(noted kit)" "$sum" &&
        cp "$root/tools/installed/life.1" "$staged_share/life.1" &&
        python3 "$root/tools/packing/tools_file.py" --completion "$root/tools/installed/life.bash" "$staged_share/life" &&
        chmod 755 "$staged/life" "$staged/life-program" "$staged/life-wait" "$staged/life-tools" &&
        chmod 644 "$staged_share/life.1" "$staged_share/life" &&
        sync "$staged/life" "$staged/life-program" "$staged/life-wait" "$staged/life-tools" "$staged_share/life.1" "$staged_share/life" &&
        [ "$(sum_of "$staged/life-program")" = "$sum" ]
}

# moves the program before the scripts that start it, so that no new script is found without it
put_in_place() {
    mv -fT "$staged_share/life.1" "$manuals/life.1" &&
        mv -fT "$staged_share/life" "$completions/life" &&
        ln -sfn life "$completions/life-tools" && ln -sfn life "$completions/life-wait" &&
        mv -fT "$staged/life-program" "$dir/life-program" &&
        mv -fT "$staged/life-wait" "$dir/life-wait" &&
        mv -fT "$staged/life-tools" "$dir/life-tools" &&
        mv -fT "$staged/life" "$dir/life"
}

install_life() {
    [ $# -le 1 ] || usage "it is sh life install, or sh life install DIR"
    case ${1-} in -*) usage "it is sh life install, or sh life install DIR, and a DIR that begins with - is ./${1}" ;; esac
    is_current "$program" ||
        give_up "nothing was installed, since no proved program is of these sources: sh life prove" 69
    command -v python3 >/dev/null || give_up "nothing was installed: the tools need python3"
    staged='' staged_share='' new_folders=''
    trap clean_up EXIT
    ends_by_signal : "nothing was installed"
    name_places "$@"
    exec 8<"$dir" 7<"$share"
    take_turn 8 "another launcher installs to $dir"
    take_turn 7 "another launcher installs to $share"
    remove_left
    sum=$(sum_of "$program")
    staged=$(mktemp -d "$dir/.life.XXXXXX" 2>/dev/null) &&
        staged_share=$(mktemp -d "$share/.life.XXXXXX" 2>/dev/null) ||
        give_up "nothing was installed: $dir and $share have to be folders that $(id -un) can write"
    why=$(make_files 2>&1) || give_up "nothing was installed: ${why:-the program changed while it was copied}"
    is_current "$program" || give_up "nothing was installed: a source was changed meanwhile; sh life prove" 69
    trap '' INT TERM HUP
    why=$(put_in_place 2>&1) || give_up "installed in part, so install anew: $why"
    echo "revision: $(revision)"
    echo "kit: $(noted kit)"
    echo "sum: $sum"
    printf '%s\n' "installed: $dir/life, life-program, life-tools, life-wait; $manuals/life.1; $completions/life, life-tools, life-wait"
    case :$PATH: in *:"$dir":*) ;; *) say "$dir isn't on the path" ;; esac
    exit 0
}
