#!/bin/sh
# Draws two pictures into the folder where it is called, from what the program prints of a generated book: what its
# policies are expected to pay and to be paid by year, and the reserve of one of them, an endowment of 207000.00 for 21
# years, on each anniversary. The pictures beside this script are made so.
here=$(cd "$(dirname "$0")" && pwd) || exit 2
made=$PWD
work=$(mktemp -d) || exit 2
trap 'rm -rf "$work"' EXIT
cp "$here/basis.csv" "$here/q.xml" "$here/g.xml" "$work" && cd "$work" || exit 2

# LIFE_PROGRAM names another program than the launcher's
life() {
    if [ -n "${LIFE_PROGRAM:-}" ]; then "$LIFE_PROGRAM" "$@"; else sh "$here/../life" "$@"; fi
}

life generate 7 300 1 >script && life run <script >transcript || exit
life project 2010-06-30 30 </dev/null >projection || exit
for year in $(seq 2001 2022); do life value "$year-08-06" </dev/null || exit; done >valuations
python3 "$here/../tools/life-tools" plot projection projection >"$made/projection.svg" || exit
python3 "$here/../tools/life-tools" plot reserves --policy 215 valuations >"$made/reserve.svg"
