#!/usr/bin/env python3
"""Counts what a request costs `ngx serve` and nginx (counted.py) where there is one prefix location, or one server, and where there are
1,000: a file of 5 bytes in a location, and a text of `return` by the name of its server.

usage: bench/many_instructions.py
"""
import os
import sys
import tempfile

sys.path.insert(0, os.path.dirname(os.path.abspath(__file__)))
from browsers import BARE, head
from counted import of_one, servers

COUNTS = (1, 1000)


def with_locations(work, count):
    """A server with as many locations, and a request for a file in the one in the middle."""
    inner = ' '.join('location /p%04d/ { }' % at for at in range(count))
    return 'server { listen 127.0.0.1:PORT; root %s; %s }' % (work, inner), head(BARE, '/p%04d/x.txt' % (count // 2))


def with_servers(work, count):
    """As many servers, and a request for the one in the middle."""
    one = 'server { listen 127.0.0.1:PORT; server_name h%04d.example.org; location / { return 200 a; } }'
    return ' '.join(one % at for at in range(count)), head(['Host: h%04d.example.org' % (count // 2)], '/x')


def main():
    with tempfile.TemporaryDirectory() as work:
        os.chmod(work, 0o755)
        for at in (0, 500):
            os.mkdir(os.path.join(work, 'p%04d' % at))
            with open(os.path.join(work, 'p%04d/x.txt' % at), 'w') as out:
                out.write('hello')
        for what, made in (('locations', with_locations), ('servers', with_servers)):
            for count in COUNTS:
                site, request = made(work, count)
                for name, (words, port) in servers(work, site).items():
                    print('%-4d %-10s %-6s %6d' % (count, what, name, of_one(words, port, request.encode())), flush=True)


if __name__ == '__main__':
    main()
