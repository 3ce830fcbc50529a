#!/bin/bash
# Counts the instructions that a search in a path of 40 bytes costs, for patterns of everyday kinds that match and that don't, by
# `PatternSet::matches` of ngx_pattern and by PCRE2 beside it, interpreted as nginx has it unless `pcre_jit` is on, and by its JIT,
# under callgrind (valgrind). Then it shows the memory that a pattern holds when it is added, and after paths that were made to fill
# its tables. The library and two programs are proved and built in a workspace of their own first; a proof that is in the library's
# out/ is taken along.
# usage: bench/pattern.sh [file for the counts of each function]
set -eu
top=$(cd "$(dirname "$0")/.." && pwd)
work=$(mktemp -d)
trap 'rm -rf "$work"' EXIT
for program in pattern memory; do
    mkdir -p "$work/crates/$program/src"
    cp "$top/bench/pattern/$program.rt.txt" "$work/crates/$program/src/main.rt"
done
cp -a "$top/crates/ngx_pattern" "$work/crates/"
grep '^ngx_pattern:' "$top/crates.txt" >"$work/crates.txt"
printf 'pattern: ngx_pattern\nmemory: ngx_pattern\n' >>"$work/crates.txt"
for program in pattern memory; do
    (cd "$work/crates/$program" && rt run) >"$work/built" 2>&1 || { cat "$work/built" >&2; exit 1; }
done
ours=$work/crates/pattern/out/pattern
gcc -O2 -o "$work/pcre" "$top/bench/pattern/pcre.c" -lpcre2-8 || true
count() { # a program and its words
    valgrind --tool=callgrind --callgrind-out-file="$work/counts" "$@" 2>&1 >/dev/null | sed -n 's/.*Collected : \([0-9]*\).*/\1/p'
}
search() { # a program and its words before the number of searches
    local few many
    few=$(count "$@" 100)
    many=$(count "$@" 1100)
    echo $(((many - few) / 1000))
}
row() { # a pattern, whether in either case, and a text
    local others=
    [ ! -x "$work/pcre" ] || others=", PCRE2 $(search "$work/pcre" i "$@"), its JIT $(search "$work/pcre" j "$@")"
    echo "$1 in $3: ngx_pattern $(search "$ours" "$@")$others"
}
row '^/o/(.*)$' 0 /o/a/path/of/forty/bytes/in/all/x.html12
[ $# = 0 ] || { count "$ours" '^/o/(.*)$' 0 /o/a/path/of/forty/bytes/in/all/x.html12 1100 >/dev/null; callgrind_annotate --inclusive=no "$work/counts" >"$1"; }
row '^/o/(.*)$' 0 /p/a/path/of/forty/bytes/in/all/x.html12
row '\.php$' 0 /o/a/path/of/forty/bytes/in/all/xyz1.php
row '\.php$' 0 /o/a/path/of/forty/bytes/in/all/x.html12
row '^/(en|de)/(.*)$' 0 /de/path/of/forty/bytes/in/all/x.html123
row '^/(en|de)/(.*)$' 0 /fr/path/of/forty/bytes/in/all/x.html123
row '\.(gif|jpe?g|png)$' 1 /o/a/path/of/forty/bytes/in/all/xy1.JPEG
row '\.(gif|jpe?g|png)$' 1 /o/a/path/of/forty/bytes/in/all/x.html12
row '/admin/' 0 /o/a/path/of/forty/bytes/admin/x.html123
row '/admin/' 0 /o/a/path/of/forty/bytes/in/all/x.html12
row '/(\d+)/(\w+)' 0 /o/a/path/of/forty/bytes/1234/x.html123
row '/(\d+)/(\w+)' 0 /o/a/path/of/forty/bytes/in/all/x.html12

gcc -O2 -shared -fPIC -o "$work/live.so" "$top/bench/pattern/live.c" -ldl
held() { # a pattern, an alphabet, a length of texts and a number of them
    LD_PRELOAD=$work/live.so "$work/crates/memory/out/memory" "$1" 0 "$2" "$3" "$4" 2>&1 >/dev/null | sed -n 's/^live \([0-9]*\).*/\1/p'
}
fill() { # a pattern, an alphabet, a length of texts and a number of them
    echo "$1: $(held "$1" "$2" "$3" 0) bytes when it was added, $(held "$@") after $4 texts of $3 bytes of $2"
}
fill '^/o/(.*)$' /o 40 30000
fill '/(\d+)/(\w+)' 'ab/.o12' 40 20000
fill '/(\d+)/(\w+)' '/12äöü漢字aé٣' 200 20000
fill '\bfoo(\w+)\b' 'foé漢 ' 200 5000
fill '(.*)a.{12}(.*)b$' ab 8000 100
fill '(a|b)*a(a|b){14}/(\w+)' ab/ 100 5000
fill '(a|b)*a(a|b){14}/(\w+)' ab/ 8000 50
