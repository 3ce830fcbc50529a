#!/usr/bin/env python3
"""Counts the instructions that a second costs `ngx serve` in which nothing comes and no deadline is due, by callgrind (valgrind): with
one connection that is open and with 512, what a minute more of waiting costs is shared out. A turn ends after a second at most, so a
second is one turn: the clock's moment is told, and the poll waits. Counts of the same program differ by some 2 %, as a turn may fall on either side.

usage: bench/idle.py
"""
import os
import re
import signal
import subprocess
import sys
import tempfile
import time

sys.path.insert(0, os.path.dirname(os.path.abspath(__file__)))
from serve_instructions import TOP, connect

PORT = 18089
PROGRAM = os.environ.get('NGX', os.path.join(TOP, 'crates/ngx/out/ngx'))
CONFIGURATION = 'http { client_header_timeout 1h; server { listen 127.0.0.1:%d; location / { return 200 hi; } } }\n' % PORT


def instructions(work, connections, seconds):
    """All the instructions of a server that holds this many connections, and waits for this many seconds."""
    counts = os.path.join(work, 'out')
    server = subprocess.Popen(['valgrind', '--tool=callgrind', '--callgrind-out-file=' + counts, PROGRAM, 'serve', os.path.join(work, 'conf')], stderr=subprocess.DEVNULL, stdout=subprocess.DEVNULL)
    links = [connect(PORT) for _ in range(connections)]
    time.sleep(5 + seconds)
    server.send_signal(signal.SIGTERM)
    server.wait()
    for link in links:
        link.close()
    with open(counts) as out:
        return int(re.search(r'^(?:totals|summary): (\d+)', out.read(), re.M).group(1))


def main():
    with tempfile.TemporaryDirectory() as work:
        with open(os.path.join(work, 'conf'), 'w') as out:
            out.write(CONFIGURATION)
        for connections in (1, 512):
            few, many = (instructions(work, connections, seconds) for seconds in (0, 60))
            print('%3d connections: %d instructions a second' % (connections, (many - few) // 60), flush=True)


if __name__ == '__main__':
    main()
