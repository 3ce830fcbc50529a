#!/bin/sh
# Counts the instructions that a byte of configuration text costs, at 64 KiB and at 1 MiB, under callgrind (valgrind). It is read
# in one pass, so the two numbers are about the same. The text is an ordinary block, repeated, after a directive that isn't
# known: that is the first fault of the built site, so that nothing but reading the text is counted.
# usage: bench/configuration.sh
set -eu
top=$(cd "$(dirname "$0")/.." && pwd)
work=$(mktemp -d)
trap 'rm -rf "$work"' EXIT
cat >"$work/block" <<'BLOCK'
server { listen 80 default_server; server_name example.org "www.example.org";
    # static files
    root /var/www/html; index index.html index.htm;
    location /images/ { expires 30d; try_files $uri ${document_root}/none.png =404; }
    location ~ \.php$ { return 404 'not here'; }
}
BLOCK
size=$(wc -c <"$work/block")
count() { # how many blocks
    {
        printf 'conf /c\nunknown;\n'
        awk -v times="$1" '{ text = text $0 "\n" } END { for (i = 0; i < times; i++) printf "%s", text }' "$work/block"
        printf '.\ntree\n.\nevents\ndrain\n'
    } >"$work/$1.replay"
    valgrind --tool=callgrind --callgrind-out-file="$work/out.$1" "$top/crates/ngx/out/ngx" replay "$work/$1.replay" 2>&1 >/dev/null |
        sed -n 's/.*Collected : \([0-9]*\).*/\1/p'
}
# builds the program where it isn't built
"$top/ngx" prove >/dev/null 2>&1 || true
none=$(count 0)
for bytes in 65536 1048576; do
    blocks=$((bytes / size))
    echo "$bytes bytes: $((($(count $blocks) - none) / (blocks * size))) instructions a byte"
done
