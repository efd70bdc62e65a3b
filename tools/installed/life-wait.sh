#!/bin/sh
# Runs `life` with the arguments after SECONDS as soon as no other process uses the book, or when the time is over.
here=$(readlink -f -- "$0") || exit 70
case ${1-},$# in help,1 | --help,1 | -h,1) set -- help wait ;; *) set -- --wait "$@" ;; esac
exec "$(dirname "$here")/life" "$@"
