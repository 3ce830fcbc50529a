"""Servers under callgrind, for the scripts here: what a request costs `ngx serve` and Debian's nginx (one process, no access log), in
instructions of the process itself. nginx is left out where it isn't installed.

callgrind counts each byte that the C library clears or copies by `rep stosb` or `rep movsb` as an instruction. With
GLIBC_TUNABLES=glibc.cpu.hwcaps=-ERMS in the environment the library clears and copies by vectors, for both servers.
"""
import os
import re
import shutil
import signal
import socket
import subprocess
import tempfile
import time

TOP = os.path.dirname(os.path.dirname(os.path.abspath(__file__)))
NGX = os.environ.get('NGX', os.path.join(TOP, 'crates/ngx/out/ngx'))
NGX_PORT, NGINX_PORT = 18087, 18088
NGINX_FRONT = 'daemon off; master_process off; pid {work}/pid; error_log {work}/err;\nevents {{ worker_connections 1024; }}\n'


def servers(work, site, types='default_type text/plain;'):
    """The commands that start the two servers on one site, with their ports. `site` is what comes after `http`: `PORT` in it is the port."""
    ngx, nginx = os.path.join(work, 'ngx.conf'), os.path.join(work, 'nginx.conf')
    with open(ngx, 'w') as out:
        out.write('http { keepalive_requests 1000000; %s %s }\n' % (types, site.replace('PORT', str(NGX_PORT))))
    with open(nginx, 'w') as out:
        out.write(NGINX_FRONT.format(work=work))
        out.write('http { keepalive_requests 1000000; %s access_log off; %s }\n' % (types, site.replace('PORT', str(NGINX_PORT))))
    found = {'ngx': ([NGX, 'serve', ngx], NGX_PORT)}
    there = shutil.which('nginx', path=os.environ.get('PATH', '') + ':/usr/sbin')
    if there:
        found['nginx'] = ([there, '-c', nginx], NGINX_PORT)
    return found


def connect(port):
    """A connection, as soon as the server listens."""
    for _ in range(600):
        try:
            return socket.create_connection(('127.0.0.1', port))
        except OSError:
            time.sleep(0.1)
    raise SystemExit('no server listens on port %d' % port)


def ask(link, request):
    """One request, and the response to it, whose length is told or which comes in chunks."""
    link.sendall(request)
    got = b''
    while b'\r\n\r\n' not in got:
        got += link.recv(65536)
    front, body = got.split(b'\r\n\r\n', 1)
    assert front.startswith(b'HTTP/1.1 200'), front
    length = re.search(rb'Content-Length: (\d+)', front)
    if length:
        left = int(length.group(1)) - len(body)
        while left > 0:
            left -= len(link.recv(1 << 20))
        return
    while not body.endswith(b'0\r\n\r\n'):
        body += link.recv(1 << 20)


def instructions(words, port, request, connections, count):
    """All the instructions of a server that answers `count` requests on `connections` connections in turn."""
    with tempfile.TemporaryDirectory() as folder:
        counted = ['valgrind', '--tool=callgrind', '--callgrind-out-file=%s/out' % folder]
        server = subprocess.Popen(counted + words, stderr=subprocess.DEVNULL, stdout=subprocess.DEVNULL)
        links = [connect(port) for _ in range(connections)]
        for number in range(count):
            ask(links[number % connections], request)
        for link in links:
            link.close()
        server.send_signal(signal.SIGTERM)
        server.wait()
        with open('%s/out' % folder) as out:
            return int(re.search(r'^(?:totals|summary): (\d+)', out.read(), re.M).group(1))


def of_one(words, port, request, connections=1, more=800):
    """The instructions of one request: what `more` further ones cost is shared out."""
    few, many = (instructions(words, port, request, connections, connections + count) for count in (100, 100 + more))
    return (many - few) // more
