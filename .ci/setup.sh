#!/bin/sh
# Installs what the suite needs besides the kit and Debian's python3: lists what is missing, asks, and calls apt-get.
#
# usage: sh .ci/setup.sh           asks before it installs
#        sh .ci/setup.sh --yes     installs without asking, as .ci/run does where CI is set or there is no terminal
#        sh .ci/setup.sh --list    prints what is missing, and installs nothing
#
# The status is 0 if nothing is missing in the end, 1 if something is, and 2 if the arguments are wrong. A test that needs
# a missing package is skipped; if CI is set, it fails.
packages="btrfs-progs chromium chromium-driver codespell debootstrap e2fsprogs flake8 fonts-dejavu-extra gcc graphviz
hledger hyperfine ledger libc6-dev libjs-katex libreoffice-calc lintian mkdocs mkdocs-material mypy poppler-utils
python3-distributed python3-flask python3-hypothesis python3-matplotlib python3-numpy python3-openpyxl python3-pandas
python3-pytest python3-pytest-timeout python3-pytest-xdist python3-selenium rsync shellcheck sqlite3 strace xfsprogs"

missing() {
    for package in $packages; do
        dpkg-query -W -f='${Status}' "$package" 2>/dev/null | grep -q ' installed$' || echo "$package"
    done
}

# sets `wanted` to the missing packages, in one line; ends with status 0 if there are none
stop_if_none() {
    wanted=$(missing | tr '\n' ' ')
    [ -n "$wanted" ] || exit 0
}

asks() {
    printf 'Install %s(y/N)? ' "$wanted"
    read -r answer || return 1
    case $answer in y | Y | yes) ;; *) return 1 ;; esac
}

# another apt-get may be running, and the network may hang: both waits are limited
apt() {
    seconds=$1
    shift
    timeout "$seconds" apt-get -qq -o DPkg::Lock::Timeout=120 -y --no-install-recommends "$@" </dev/null >/dev/null 2>&1
}

install_all() {
    if ! command -v apt-get >/dev/null || [ "$(id -u)" != 0 ]; then
        echo "setup: apt-get and root are needed; as root: apt-get install $wanted" >&2
        return
    fi
    export DEBIAN_FRONTEND=noninteractive
    apt 120 update
    # an unknown package would prevent the installation of all others, so each is then installed alone
    # shellcheck disable=SC2086
    apt 900 install $wanted || for package in $wanted; do apt 300 install "$package"; done
}

case $*:$# in
    :0 | --yes:1 | --list:1) ;;
    *)
        sed -n 's/^# \{0,1\}//; 2,6p' "$0" >&2
        exit 2
        ;;
esac
stop_if_none
case ${1:-} in
    --list) ;;
    --yes) install_all ;;
    *) asks && install_all ;;
esac
stop_if_none
echo "setup: not installed: $wanted"
exit 1
