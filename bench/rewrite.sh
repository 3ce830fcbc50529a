#!/bin/bash
# Counts the instructions that a rewrite program of ten lines costs, five `set` and five `if`, by `run` of rewrite_code under callgrind
# (valgrind). The library and a program are proved and built in a workspace of their own first, with what earlier checks kept.
# usage: bench/rewrite.sh [file for the counts of each function]
set -eu
top=$(cd "$(dirname "$0")/.." && pwd)
work=$(mktemp -d)
trap 'rm -rf "$work"' EXIT
mkdir -p "$work/crates/rewrite/src"
cp "$top/bench/rewrite/rewrite.rt.txt" "$work/crates/rewrite/src/main.rt"
crates=
add() { # a crate of the repository, and those that it rests on
    case " $crates " in *" $1 "*) return ;; esac
    [ -d "$top/crates/$1" ] || return 0
    crates="$crates $1"
    for name in $(sed -n "s/^$1: *//p" "$top/crates.txt"); do add "$name"; done
}
add rewrite_code
for crate in $crates; do
    mkdir "$work/crates/$crate"
    (cd "$top/crates/$crate" && tar cf - --exclude=./out .) | tar xf - -C "$work/crates/$crate"
    grep "^$crate:" "$top/crates.txt" >>"$work/crates.txt"
done
below=$(sed -n 's/^rewrite_code: //p' "$top/crates.txt")
echo "rewrite: rewrite_code req_head $below" >>"$work/crates.txt"
(cd "$work/crates/rewrite" && rt run) >"$work/built" 2>&1 || { cat "$work/built" >&2; exit 1; }
count() { # a number of runs
    valgrind --tool=callgrind --callgrind-out-file="$work/counts" "$work/crates/rewrite/out/rewrite" "$1" 2>&1 >/dev/null |
        sed -n 's/.*Collected : \([0-9]*\).*/\1/p'
}
few=$(count 100)
many=$(count 1100)
echo "ten lines of set and if: $(((many - few) / 1000)) instructions"
[ $# = 0 ] || callgrind_annotate --inclusive=no "$work/counts" >"$1"
