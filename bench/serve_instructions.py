#!/usr/bin/env python3
"""Counts the instructions that a request costs `ngx serve` and nginx (counted.py): requests one after another, on a number of open
connections in turn, for a text of `return`, a file of 5 bytes, one of 20,000 bytes and one of 1 MiB, with the field Host alone or with
those of two browsers, and for a POST with a body of 16 KiB. Counts of the same program on the same machine differ by less than 1 %.

usage: bench/serve_instructions.py [connections, 1]
"""
import os
import sys
import tempfile

sys.path.insert(0, os.path.dirname(os.path.abspath(__file__)))
from browsers import BARE, CHROME, FIREFOX, head
from counted import of_one, servers

POST = 'POST /hi HTTP/1.1\r\nHost: a\r\nContent-Length: 16384\r\n\r\n' + 'z' * 16384
ASKED = {
    'return 200 hi': head(BARE, '/hi'),
    'a file of 5 bytes': head(BARE, '/small.txt'),
    'a file of 20,000 bytes': head(BARE, '/large.txt'),
    'a file of 1 MiB': head(BARE, '/big.txt'),
    "return, Firefox's head": head(FIREFOX, '/hi'),
    "5 bytes, Chrome's head": head(CHROME, '/small.txt'),
    'return, POST of 16 KiB': POST,
}
SITE = 'server { listen 127.0.0.1:PORT; root %s; location /hi { return 200 hi; } }'


def main():
    connections = int(sys.argv[1]) if len(sys.argv) > 1 else 1
    with tempfile.TemporaryDirectory() as work:
        os.chmod(work, 0o755)
        for name, size in (('small.txt', 5), ('large.txt', 20000), ('big.txt', 1048576)):
            with open(os.path.join(work, name), 'w') as out:
                out.write('a' * size)
        for what, request in ASKED.items():
            for name, (words, port) in servers(work, SITE % work).items():
                print('%-24s %-6s %6d' % (what, name, of_one(words, port, request.encode(), connections)), flush=True)


if __name__ == '__main__':
    main()
