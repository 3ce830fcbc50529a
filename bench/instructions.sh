#!/bin/sh
# Counts the instructions that a request costs: a script of 1,000 pipelined requests is replayed under callgrind (valgrind), and
# one of 100, and the difference is shared out. Counts of the same program on the same machine differ by less than 1 %.
# usage: bench/instructions.sh
set -eu
top=$(cd "$(dirname "$0")/.." && pwd)
work=$(mktemp -d)
trap 'rm -rf "$work"' EXIT
script() { # how many requests
    printf 'conf /c\nhttp { server { listen 80; location / { return 200 hi; } } }\n.\ntree\n.\nevents\nopen 1 127.0.0.1:80 10.0.0.1:5000\n'
    printf 'bytes 1 GET%%20/%%20HTTP/1.1%%0D%%0AHost:%%20a%%0D%%0A%%0D%%0A times %s\ndrain\n' "$1"
}
count() { # how many requests
    script "$1" >"$work/$1.replay"
    valgrind --tool=callgrind --callgrind-out-file="$work/out.$1" "$top/crates/ngx/out/ngx" replay "$work/$1.replay" 2>&1 >/dev/null |
        sed -n 's/.*Collected : \([0-9]*\).*/\1/p'
}
"$top/ngx" prove >/dev/null 2>&1 || true
few=$(count 100)
many=$(count 900)
echo "instructions a request: $(((many - few) / 800))"
