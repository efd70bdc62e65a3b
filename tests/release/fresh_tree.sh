#!/bin/sh
# Makes a fresh Debian without the kit, as a tar file, for the tests of a release, and prints its path. If it can't be made, the
# script prints why and ends with status 1. It is made once, by debootstrap, and kept outside the repository; it has the packages
# that the window needs, and nothing else that the package recommends.
suite=$(sed -n 's/^VERSION_CODENAME=//p' /etc/os-release)
packages=python3,python3-flask,python3-numpy
cache=${LIFE_CACHE:-${XDG_CACHE_HOME:-${HOME:-/root}/.cache}/life}
tree=$cache/debian-${suite:-unknown}-$(echo "$packages" | cksum | cut -d ' ' -f 1).tar

give_up() {
    echo "$1"
    exit 1
}

[ ! -s "$tree" ] || { echo "$tree"; exit 0; }
[ "$(id -u)" = 0 ] || give_up "only root makes a fresh Debian"
command -v debootstrap >/dev/null || give_up "debootstrap isn't installed"
[ -n "$suite" ] || give_up "this is no Debian"
mkdir -p "$cache" && exec 9>"$tree.lock" && flock 9 || give_up "$cache can't be written"
[ ! -s "$tree" ] || { echo "$tree"; exit 0; }
room=$(mktemp -d "$cache/making.XXXXXX") || give_up "$cache can't be written"
trap 'rm -rf "$room"' EXIT
trap 'exit 143' HUP INT TERM
timeout 1200 debootstrap --variant=minbase --include="$packages" "$suite" "$room/tree" >"$room/log" 2>&1 ||
    give_up "debootstrap can't make a fresh Debian: $(tail -n 1 "$room/log")"
rm -rf "$room"/tree/var/cache/apt/archives/*.deb
tar -C "$room/tree" -cf "$room/tar" . && mv "$room/tar" "$tree" || give_up "$cache can't be written"
echo "$tree"
