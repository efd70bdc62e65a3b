# Makes a release of the proved program in out/release: a package for Debian, a tar file, and what was proved.
# Variables that the launcher sets:
: "${root:?}" "${program:?}"

# Prints files that would be packed and are not committed, since a release belongs to a revision.
uncommitted() {
    git -C "$root" status --porcelain -- life crates crates.txt HANDLES tools docs examples ':(glob)*.md' 2>&1 | head -n 5
}

pack_release() {
    is_current "$program" ||
        give_up "nothing was packed, since no proved program is of these sources: sh life prove" 69
    for each in python3 git dpkg-deb; do
        command -v "$each" >/dev/null || give_up "nothing was packed: it needs $each"
    done
    claimed=$(python3 "$root/tools/packing/claimed_logic.py" --check 2>&1) || give_up "nothing was packed: $claimed"
    seconds=$(git -C "$root" log -1 --format=%ct 2>/dev/null) || give_up "nothing was packed: this is no clone"
    maintainer=$(git -C "$root" log -1 --format='%an <%ae>')
    changed=$(uncommitted)
    [ -z "$changed" ] || give_up "nothing was packed, since these aren't committed: $(printf '%s\n' "$changed" | tr -s '\n ' ' ')"
    releases=$root/out/release
    ends_by_signal 'rm -rf "$staged"' "nothing was packed"
    staged=
    mkdir -p "$releases" 2>/dev/null && staged=$(mktemp -d "$releases/.life.XXXXXX" 2>/dev/null) ||
        give_up "nothing was packed: $releases can't be written"
    python3 "$root/tools/packing/pack.py" "$program" "$staged" "$(revision)" "$(noted kit)" "$seconds" \
        "$maintainer" 2>"$staged/why" &
    wait "$!" || { why=$(tail -n 1 "$staged/why"); rm -rf "$staged"; give_up "nothing was packed: $why"; }
    rm "$staged/why"
    is_current "$program" || { rm -rf "$staged"; give_up "nothing was packed: a source was changed meanwhile; sh life prove" 69; }
    trap '' INT TERM HUP
    for made in "$staged"/*; do
        mv -f "$made" "$releases" || give_up "packed in part, so pack anew"
        echo "packed: out/release/$(basename "$made")"
    done
    rmdir "$staged"
    exit 0
}
