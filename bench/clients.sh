#!/bin/bash
# Asks a running `ngx serve` as real clients do, and as bad ones, and says of each whether the answer is right.
# usage: bench/clients.sh, or NGX=PROGRAM bench/clients.sh; tests/edge.sh tries what the system may do
set -u
top=$(cd "$(dirname "$0")/.." && pwd)
program=${NGX:-$top/ngx}
work=$(mktemp -d)
port=18090
url=http://127.0.0.1:$port/
chmod 755 "$work"
truncate -s 200M "$work/large"
printf 'http { server { listen 127.0.0.1:%s; root %s; location / { return 200 hi; } location /large { } } }\n' $port "$work" >"$work/conf"
"$program" serve "$work/conf" &
server=$!
trap 'kill $server 2>/dev/null; rm -rf "$work"' EXIT
for _ in $(seq 50); do curl -s -o /dev/null $url && break; sleep 0.1; done
failed=0
expect() { # what, the answer that is due, the answer
    if [ "$2" = "$3" ]; then echo "good: $1"; else echo "bad:  $1: $3 and not $2"; failed=1; fi
}
expect "curl, HTTP/1.1" "hi 200 1.1" "$(curl -s -w ' %{http_code} %{http_version}' $url)"
expect "curl, HTTP/1.0" "hi 200" "$(curl -s --http1.0 -w ' %{http_code}' $url)"
expect "curl, two requests on one connection" "hihi 1" "$(curl -s $url $url -w '' ; echo " $(curl -s -v $url $url 2>&1 | grep -c 'Re-using existing connection')")"
expect "curl, HEAD" "200 2" "$(curl -s -I $url | tr -d '\r' | awk 'NR == 1 { s = $2 } tolower($1) == "content-length:" { l = $2 } END { print s, l }')"
exec 3<>/dev/tcp/127.0.0.1/$port
printf 'GET / HTTP/1.1\r\nHost: a\r\n\r\nGET / HTTP/1.1\r\nHost: a\r\n\r\nGET / HTTP/1.1\r\nHost: a\r\nConnection: close\r\n\r\n' >&3
expect "three pipelined requests" 3 "$(timeout 3 cat <&3 | grep -o 'HTTP/1.1 200' | wc -l)"
exec 3>&-
python3 - $port <<'PY' || failed=1
import socket, subprocess, sys, time
port = int(sys.argv[1])
ask = b'GET / HTTP/1.1\r\nHost: a\r\n\r\n'
bad = 0
def told(what, good):
    global bad
    print(('good: ' if good else 'bad:  ') + what)
    bad |= not good
def link():
    s = socket.create_connection(('127.0.0.1', port), timeout=5)
    return s
def answer(s):
    text = b''
    try:
        while not text.endswith(b'hi'):
            more = s.recv(4096)
            if not more: break
            text += more
    except OSError: pass
    return text
s = link(); s.sendall(ask[:10]); s.close()
s = link(); s.sendall(ask); told('half a head and a close touch no other link', answer(s).startswith(b'HTTP/1.1 200')); s.close()
s = link()
for i in range(len(ask)): s.sendall(ask[i:i + 1]); time.sleep(0.002)
told('a head one byte at a time', answer(s).startswith(b'HTTP/1.1 200')); s.close()
import struct
s = link(); s.sendall(ask); s.setsockopt(socket.SOL_SOCKET, socket.SO_LINGER, struct.pack('ii', 1, 0)); s.close()
s = link(); s.sendall(ask); told('a reset touches no other link', answer(s).startswith(b'HTTP/1.1 200')); s.close()
def all_of(s):
    text = b''
    try:
        while True:
            more = s.recv(65536)
            if not more: return text.count(b'HTTP/1.1 200')
            text += more
    except OSError: return -1
def ends(what, count, *pieces):
    s = link()
    for piece in pieces: s.sendall(piece); time.sleep(0.05)
    s.shutdown(socket.SHUT_WR)
    told(what, all_of(s) == count); s.close()
ends('a peer that ends its input with its request is answered, and its link closed', 1, ask)
ends('so is one that ends it later', 1, ask, b'')
ends('and one that sent 400 requests at once', 400, ask * 400)
ends('and one whose requests are cut at 8192 bytes', 400, (ask * 400)[:8192], (ask * 400)[8192:])
def waits(others):
    """How many milliseconds an answer takes, in the middle and at the 99th of 100, beside links that take a file of 200 MB again and again."""
    url = 'http://127.0.0.1:%d/large' % port
    peers = [subprocess.Popen(['curl', '-s', '--max-time', '60'] + ['-o', '/dev/null', url] * 40) for i in range(others)]
    time.sleep(1)
    took = []
    s = link()
    while len(took) < 500:
        began = time.monotonic()
        s.sendall(ask); answer(s)
        took.append(1000 * (time.monotonic() - began))
        time.sleep(0.004)
    s.close()
    for peer in peers: peer.kill(); peer.wait()
    time.sleep(0.5)
    took.sort()
    return took[len(took) // 2], took[len(took) * 99 // 100]
alone, beside = waits(0), waits(8)
told('beside eight links that take all they can an answer takes %.1f ms in the middle, %.1f at the 99th of 100 (alone %.1f and %.1f)' % (beside + alone), beside[0] < 5)
time.sleep(0.5)
links = [link() for i in range(600)]
time.sleep(1)
for s in links:
    try: s.sendall(ask)
    except OSError: pass
served = sum(answer(s).startswith(b'HTTP/1.1 200') for s in links)
told('600 links at once: 512 are served and the others closed (%d)' % served, served == 512)
for s in links: s.close()
time.sleep(0.5)
s = link(); s.sendall(ask); told('and then one more is served', answer(s).startswith(b'HTTP/1.1 200')); s.close()
time.sleep(1)
# 512 peers that never come to the end of a head are given up, each a minute after its opening (`client_header_timeout`)
slow = [link() for i in range(512)]
began = time.monotonic()
answered = 0
while not answered and time.monotonic() - began < 120:
    for s in slow:
        try: s.sendall(ask[:1])
        except OSError: pass
    pause = time.monotonic() + 10
    while not answered and time.monotonic() < pause:
        time.sleep(0.5)
        try:
            s = link(); s.sendall(ask)
            if answer(s).startswith(b'HTTP/1.1 200'): answered = time.monotonic() - began
            s.close()
        except OSError: pass
told('512 links that send a byte every ten seconds: a 513th is answered (after %d seconds)' % answered, 30 < answered < 120)
for s in slow: s.close()
sys.exit(bad)
PY
"$program" serve "$work/conf" </dev/null
expect "a port in use" 6 $?
kill $server
wait $server 2>/dev/null
"$program" serve "$work/conf" &
server=$!
for _ in $(seq 50); do curl -s -o /dev/null $url && break; sleep 0.1; done
expect "again on the same port" "hi" "$(curl -s $url)"
NGX=${NGX:-$top/crates/ngx/out/ngx} python3 "$top/bench/memory.py"
expect "what a connection at rest has allocated, one that asked often, and what is left of bursts (bench/memory.py)" 0 $?
exit $failed
