#!/bin/bash
# Counts the instructions that a look-up of a path among prefixes costs, by `Prefixes::find` of location_match, under callgrind
# (valgrind): with one prefix and with a thousand, where they share a short beginning and where they share a long one. The library and
# a program are proved and built in a workspace of their own first; proofs that are in the libraries' out/ are taken along.
# usage: bench/locations.sh
set -eu
top=$(cd "$(dirname "$0")/.." && pwd)
work=$(mktemp -d)
trap 'rm -rf "$work"' EXIT
crates=$(sed -n 's/^location_match: //p' "$top/crates.txt")
mkdir -p "$work/crates/prefixes/src"
cp "$top/bench/locations/prefixes.rt.txt" "$work/crates/prefixes/src/main.rt"
for crate in $crates location_match; do
    [ ! -d "$top/crates/$crate" ] || { cp -a "$top/crates/$crate" "$work/crates/"; grep "^$crate:" "$top/crates.txt" >>"$work/crates.txt"; }
done
echo "prefixes: location_match $crates" >>"$work/crates.txt"
(cd "$work/crates/prefixes" && rt run) >"$work/built" 2>&1 || { cat "$work/built" >&2; exit 1; }
count() { # a beginning, a number of prefixes, a path and a number of look-ups
    valgrind --tool=callgrind --callgrind-out-file="$work/counts" "$work/crates/prefixes/out/prefixes" "$@" 2>&1 >/dev/null |
        sed -n 's/.*Collected : \([0-9]*\).*/\1/p'
}
row() { # a beginning, a number of prefixes and a path
    local few many
    few=$(count "$@" 100)
    many=$(count "$@" 1100)
    echo "$3 among $2 of $1: $(((many - few) / 1000))"
}
long=/some/long/beginning/of/all/paths/
for beginning in / $long; do
    row $beginning 1 ${beginning}0000/x
    row $beginning 1000 ${beginning}0000/x
    row $beginning 1000 ${beginning}0333/x
    row $beginning 1000 ${beginning}0500/x
    row $beginning 1000 ${beginning}0999/x
    row $beginning 1000 ${beginning}x
done
row $long 1000 /some/x
