#!/usr/bin/env python3
"""Shows what `ngx serve` has allocated for a connection that rests after one request, and what it still has after a burst: 400
connections ask for the same and rest; then all are closed; then one asks 4,000 times more; then 200 ask for a file of 4 MB and read
nothing of it before they close. Bytes that are allocated, by a library that counts them (bench/pattern/live.c).

The status is 1 where a connection that rests has more than 2,048, or one that asked 4,000 times more has 1,024 more, or 65,536 are
left after a burst.

usage: bench/memory.py, or NGX=PROGRAM bench/memory.py
"""
import os
import socket
import subprocess
import sys
import tempfile
import time

TOP = os.path.dirname(os.path.dirname(os.path.abspath(__file__)))
sys.path.insert(0, os.path.dirname(os.path.abspath(__file__)))
from browsers import BARE, CHROME, FIREFOX, head

PORT = 18091
FILES = {'small.txt': 5, 'page.txt': 4000, 'large.txt': 20000, 'huge.txt': 4 << 20}
ASKED = {
    'return, a bare head': (BARE, '/hi'),
    "return, Firefox's head": (FIREFOX, '/hi'),
    "5 bytes, Chrome's head": (CHROME, '/small.txt'),
    '4,000 bytes, a bare head': (BARE, '/page.txt'),
    '20,000 bytes, a bare head': (BARE, '/large.txt'),
}


class Server:
    """A server, and what it has allocated."""

    def __init__(self, work):
        conf = f'{work}/conf'
        with open(conf, 'w', encoding='utf-8') as out:
            out.write('http { default_type text/plain; keepalive_requests 100000; server { listen 127.0.0.1:%d; root %s; location /hi { return 200 hi; } } }\n' % (PORT, work))
        subprocess.run(['gcc', '-O2', '-shared', '-fPIC', '-o', f'{work}/live.so', f'{TOP}/bench/pattern/live.c', '-ldl'], check=True)
        program = os.environ.get('NGX', f'{TOP}/crates/ngx/out/ngx')
        self.process = subprocess.Popen([program, 'serve', conf], env={**os.environ, 'LD_PRELOAD': f'{work}/live.so'}, stderr=subprocess.PIPE, text=True)

    def live(self):
        time.sleep(0.5)
        self.process.send_signal(10)
        return int(self.process.stderr.readline().split()[1])

    def end(self):
        self.process.kill()
        self.process.wait()


def connect():
    for _ in range(100):
        try:
            return socket.create_connection(('127.0.0.1', PORT), timeout=10)
        except OSError:
            time.sleep(0.1)
    raise SystemExit('no server listens')


def ask(link, fields, path):
    """One request, and all of its response."""
    link.sendall(head(fields, path).encode())
    got = b''
    while b'\r\n\r\n' not in got:
        got += link.recv(65536)
    front, body = got.split(b'\r\n\r\n', 1)
    left = int(front.lower().split(b'content-length: ')[1].split(b'\r')[0]) - len(body)
    while left:
        left -= len(link.recv(left))


def close(links):
    for link in links:
        link.close()
    time.sleep(1)


def main():
    good = True
    with tempfile.TemporaryDirectory() as work:
        os.chmod(work, 0o755)
        for name, size in FILES.items():
            with open(f'{work}/{name}', 'w', encoding='utf-8') as out:
                out.write('a' * size)
        server = Server(work)
        try:
            first = connect()
            for fields, path in ASKED.values():
                ask(first, fields, path)
            close([first])
            before = server.live()
            for what, (fields, path) in ASKED.items():
                links = [connect() for _ in range(400)]
                opened = server.live()
                for link in links:
                    ask(link, fields, path)
                rests = server.live()
                close(links)
                rest, left = (rests - before) // 400, server.live() - before
                good = good and rest <= 2048 and left <= 65536
                print(f'{what:26} a connection: open {(opened - before) // 400:6}, at rest {rest:6}; all closed {left:7}', flush=True)
            link = connect()
            for _ in range(100):
                ask(link, BARE, '/hi')
            few = server.live()
            for _ in range(4000):
                ask(link, BARE, '/hi')
            more = server.live() - few
            good = good and more <= 1024
            print(f'one that asked 4,000 times more has {more} more', flush=True)
            close([link])
            links = [connect() for _ in range(200)]
            for link in links:
                link.sendall(head(BARE, '/huge.txt').encode())
            most = server.live()
            close(links)
            left = server.live() - before
            good = good and left <= 65536
            print(f'200 that read nothing      a connection: at most {(most - before) // 200:6}; all closed {left:7}')
        finally:
            server.end()
    return 0 if good else 1


if __name__ == '__main__':
    sys.exit(main())
