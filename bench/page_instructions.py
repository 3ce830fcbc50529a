#!/usr/bin/env python3
"""Counts the instructions that a page of included parts costs `ngx serve` and nginx (counted.py): pages one after another on one
connection. The parts have 100 bytes. They are documents of includes too, as where `ssi` is on for a whole server: ten in one page, 39
on three levels, three in each document, and 200 in one page; or they aren't, as where `ssi_types` has only the page's own type: ten in one
page, and 200.

usage: bench/page_instructions.py
"""
import os
import sys
import tempfile

sys.path.insert(0, os.path.dirname(os.path.abspath(__file__)))
from browsers import BARE, head
from counted import of_one, servers

TYPES = 'types { text/html html; text/plain txt; } default_type text/plain;'
SITE = 'server { listen 127.0.0.1:PORT; root %s; ssi on; }'
INCLUDE = '<!--#include virtual="%s" -->'


def put(work, name, text):
    with open(os.path.join(work, name), 'w') as out:
        out.write(text)


def row(count, kind):
    """A page with as many parts of this kind."""
    return '<html>\n' + ''.join('<p>' + INCLUDE % ('/p/%d.%s' % (part, kind)) + '</p>\n' for part in range(count)) + '</html>\n'


def put_site(work):
    os.mkdir(os.path.join(work, 'p'))
    for part in range(200):
        for kind in ('html', 'txt'):
            put(work, 'p/%d.%s' % (part, kind), '%0100d' % part)
    for kind in ('html', 'txt'):
        put(work, 'ten_%s.html' % kind, row(10, kind))
        put(work, 'many_%s.html' % kind, row(200, kind))
    for name, inner in (('levels', ['/one.html'] * 3), ('one', ['/two.html'] * 3), ('two', ['/p/%d.html' % part for part in (1, 2, 3)])):
        put(work, name + '.html', ''.join('<%s>' % name + INCLUDE % path + '</%s>\n' % name for path in inner))


PAGES = {
    'ten documents': ('/ten_html.html', 200),
    '39 documents, nested': ('/levels.html', 60),
    '200 documents': ('/many_html.html', 20),
    'ten plain parts': ('/ten_txt.html', 200),
    '200 plain parts': ('/many_txt.html', 20),
}


def main():
    with tempfile.TemporaryDirectory() as work:
        os.chmod(work, 0o755)
        put_site(work)
        for what, (path, more) in PAGES.items():
            for name, (words, port) in servers(work, SITE % work, TYPES).items():
                print('%-22s %-6s %8d' % (what, name, of_one(words, port, head(BARE, path).encode(), 1, more)), flush=True)


if __name__ == '__main__':
    main()
