#!/usr/bin/env python3
"""Counts the instructions that it costs to read the head of a request and to let it go, by `read_head` of req_head, under callgrind
(valgrind), where the C library clears and copies in loops of vectors: a bare head, those of two browsers, one with as many fields as
may be, and more fields than may be. The library and a program are proved and built in a workspace of their own first; proofs that are in the libraries' out/ are taken along.

usage: bench/heads.py [file for the counts of each function, of Firefox's head]
"""
import os
import re
import shutil
import subprocess
import sys
import tempfile

TOP = os.path.dirname(os.path.dirname(os.path.abspath(__file__)))
sys.path.insert(0, os.path.dirname(os.path.abspath(__file__)))
from browsers import BARE, CHROME, FIREFOX, head


def crates_of(name):
    """The crates of the kit and of the repository that one rests on."""
    with open(f'{TOP}/crates.txt', encoding='utf-8') as file:
        return re.search(rf'^{name}:(.*)$', file.read(), re.M)[1].split()


def build(work):
    """The program, proved and built."""
    rests_on = crates_of('req_head')
    listed = [f"heads: req_head {' '.join(rests_on)}"]
    for name in [*rests_on, 'req_head']:
        if os.path.isdir(f'{TOP}/crates/{name}'):
            shutil.copytree(f'{TOP}/crates/{name}', f'{work}/crates/{name}', symlinks=True)
            listed.append(f"{name}: {' '.join(crates_of(name))}")
    os.makedirs(f'{work}/crates/heads/src')
    shutil.copyfile(f'{TOP}/bench/heads/heads.rt.txt', f'{work}/crates/heads/src/main.rt')
    with open(f'{work}/crates.txt', 'w', encoding='utf-8') as file:
        file.write('\n'.join(listed) + '\n')
    built = subprocess.run(['rt', 'run'], cwd=f'{work}/crates/heads', stdout=subprocess.PIPE, stderr=subprocess.STDOUT, text=True)
    if built.returncode:
        raise SystemExit(built.stdout)
    return f'{work}/crates/heads/out/heads'


def count(program, text, times, out):
    """All the instructions of the program that reads a head `times` times."""
    vectors = {**os.environ, 'GLIBC_TUNABLES': 'glibc.cpu.hwcaps=-ERMS'}
    vectors = {**os.environ, 'GLIBC_TUNABLES': 'glibc.cpu.hwcaps=-ERMS'}
    words = ['valgrind', '--tool=callgrind', f'--callgrind-out-file={out}', program, text, str(times)]
    ran = subprocess.run(words, env=vectors, stdout=subprocess.PIPE, stderr=subprocess.PIPE, text=True, check=True)
    return int(re.search(r'Collected : (\d+)', ran.stderr)[1]), ran.stdout.strip()


def main():
    more = lambda number: [f'X-Field-{place:03}: value' for place in range(number)]
    heads = {
        'a bare head': head(BARE),
        "Firefox's, of 12 fields": head(FIREFOX),
        "Chrome's, of 16 fields": head(CHROME),
        'one of 64 fields': head(BARE + more(63)),
        'one of 65 fields': head(BARE + more(64)),
        'one of 400 fields': head(BARE + more(399)),
        '64 fields, and no end': head(BARE + more(63))[:-2],
        '65 fields, and no end': head(BARE + more(64))[:-2],
        '400 fields, and no end': head(BARE + more(399))[:-2],
    }
    with tempfile.TemporaryDirectory() as work:
        program = build(work)
        for what, text in heads.items():
            (few, _), (many, last) = (count(program, text, times, f'{work}/counts') for times in (100, 1100))
            print(f'{what:24} {len(text):5} bytes {(many - few) // 1000:7}   {last}', flush=True)
            if text == heads["Firefox's, of 12 fields"] and len(sys.argv) > 1:
                with open(sys.argv[1], 'w', encoding='utf-8') as file:
                    subprocess.run(['callgrind_annotate', '--inclusive=no', f'{work}/counts'], stdout=file, check=True)


if __name__ == '__main__':
    main()
