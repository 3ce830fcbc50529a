#!/bin/bash
# Measures `ngx serve` and Debian's nginx (one worker, no access log) in turn on this machine, for `return 200 hi`, a file, or a
# page with ten includes of 100 bytes each: wrk over 1, 16 and 256 connections, with THREADS threads, 2 unless that is set, and one over
# one connection. (One thread is full beside either server for `hi`, so that with THREADS=1 wrk is measured and not they.) Prints, as
# medians over the rounds, requests a second and microseconds of processor time a request of both, and how many times nginx's ours are.
# usage: bench/serve.sh [seconds of a measurement, 3] [rounds, 3] [hi, page, or the bytes of the file, hi] [close]
# With `close` each request has a connection of its own, which it asks to be closed.
set -eu
top=$(cd "$(dirname "$0")/.." && pwd)
seconds=${1:-3}
rounds=${2:-3}
what=${3:-hi}
asks=()
[ "${4:-}" = close ] && asks=(-H 'Connection: close')
work=$(mktemp -d)
chmod 755 "$work"
case $what in
    hi) ;;
    page)
        for i in $(seq 10); do
            head -c 100 /dev/zero | tr '\0' a >"$work/part$i"
            printf '<p>part %s</p><!--#include virtual="/part%s" -->\n' "$i" "$i" >>"$work/page"
        done
        ;;
    *) head -c "$what" /dev/zero | tr '\0' a >"$work/$what" ;;
esac
server=
trap 'stop; rm -rf "$work"' EXIT
cat >"$work/ngx.conf" <<CONF
http { default_type text/plain; keepalive_requests 1000000000;
  server { listen 127.0.0.1:18089; root $work; location /hi { return 200 hi; } location = /page { default_type text/html; ssi on; } } }
CONF
cat >"$work/nginx.conf" <<CONF
worker_processes 1; pid $work/nginx.pid; error_log $work/nginx.err; daemon off;
events { worker_connections 1024; }
http { default_type text/plain; access_log off; keepalive_requests 1000000000;
  server { listen 127.0.0.1:18080; root $work; location /hi { return 200 hi; } location = /page { default_type text/html; ssi on; } } }
CONF
start() { # ngx or nginx
    case $1 in
        ngx) taskset -c 1 "$top/crates/ngx/out/ngx" serve "$work/ngx.conf" & port=18089 ;;
        nginx) taskset -c 1 nginx -c "$work/nginx.conf" 2>/dev/null & port=18080 ;;
    esac
    server=$!
    for _ in $(seq 50); do
        sleep 0.1
        curl -s -o /dev/null "http://127.0.0.1:$port/$what" && break
    done
}
stop() {
    [ -z "$server" ] && return
    kill "$server" 2>/dev/null || true
    wait "$server" 2>/dev/null || true
    server=
}
ticks() { # processor time of the server and of its worker, in hundredths of a second
    for pid in $server $(pgrep -P "$server"); do
        sed 's/.*) //' "/proc/$pid/stat"
    done | awk '{ sum += $12 + $13 } END { print sum + 0 }'
}
measure() { # server, connections: requests a second, and microseconds a request
    local before after text requests threads
    kill -0 "$server" || { echo "$1 has ended: is port $port free?" >&2; exit 1; }
    before=$(ticks)
    threads=${THREADS:-2}
    [ "$2" -ge "$threads" ] || threads=1
    text=$(taskset -c 2-$((1 + threads)) wrk -t"$threads" -c"$2" -d"${seconds}s" "${asks[@]}" "http://127.0.0.1:$port/$what")
    after=$(ticks)
    requests=$(awk '/requests in/ { print $1 }' <<<"$text")
    grep -E 'Non-2xx|Socket errors' <<<"$text" >&2 || true
    awk -v t="$text" -v n="$requests" -v d=$((after - before)) -v s="$1 $2" \
        'BEGIN { match(t, /Requests\/sec: *[0-9.]+/); r = substr(t, RSTART, RLENGTH); sub(/.*: */, "", r); printf "%s %.0f %.2f\n", s, r, d * 10000 / n }'
}
"$top/ngx" prove >/dev/null 2>&1 || true
for _ in $(seq "$rounds"); do
    for name in nginx ngx; do
        start $name
        for connections in 1 16 256; do
            measure $name $connections
        done
        stop
    done
done | tee "$work/results" >&2
awk '
    { rate[$1, $2, ++count[$1, $2]] = $3; cost[$1, $2, count[$1, $2]] = $4 }
    function median(values, name, connections,    n, i, j, x, sorted) {
        n = count[name, connections]
        for (i = 1; i <= n; i++) sorted[i] = values[name, connections, i]
        for (i = 1; i <= n; i++) for (j = i + 1; j <= n; j++) if (sorted[j] < sorted[i]) { x = sorted[i]; sorted[i] = sorted[j]; sorted[j] = x }
        return sorted[int((n + 1) / 2)]
    }
    END {
        print "connections  requests/s nginx  ngx  ratio  CPU us/request nginx  ngx  ratio"
        for (i = 1; i <= 3; i++) {
            c = i == 1 ? 1 : i == 2 ? 16 : 256
            a = median(rate, "nginx", c); b = median(rate, "ngx", c); x = median(cost, "nginx", c); y = median(cost, "ngx", c)
            printf "%11d %17d %4d %6.2f %21.1f %4.1f %6.2f\n", c, a, b, a ? b / a : 0, x, y, x ? y / x : 0
        }
    }' "$work/results"
