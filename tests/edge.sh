#!/bin/bash
# Tries the program over real files and real sockets: what the proofs end at. Each case prints a line, good, bad or left out
# with the reason; the status is 1 where one is bad, and 124 where none is but two minutes were too few. Loopback alone, in a folder of its own.
# usage: tests/edge.sh [1..10 or bad..], all of them where none is said; NGX=PROGRAM tests/edge.sh tries another program
set -u
top=$(cd "$(dirname "$0")/.." && pwd)
program=${NGX:-$top/ngx}
work=$(mktemp -d)
trap 'rm -rf "$work"' EXIT
ulimit -n "$(ulimit -H -n)" 2>/dev/null
timeout --preserve-status -k 5 115 python3 - "$program" "$work" "$top" "$@" <<'PY'
import hashlib, os, resource, shutil, signal, socket, stat, subprocess, sys, threading, time
program, work, top = sys.argv[1:4]
wanted = sys.argv[4:]
os.chdir(work)
bad = 0
began = time.time()

def too_late(*_):
    print('bad:  not done in 115 seconds', flush=True)
    sys.exit(1 if bad else 124)
signal.signal(signal.SIGTERM, too_late)

def told(what, good, more=''):
    global bad
    print(('good: ' if good else 'bad:  ') + what + (f' ({more})' if more and not good else ''), flush=True)
    bad |= not good

def left_out(what, why):
    print(f'left out: {what}: {why}', flush=True)

try:
    with socket.create_server(('127.0.0.1', 0)) as s: socket.create_connection(s.getsockname(), 5).close()
except OSError as e:
    left_out('all', f'no loopback here ({e})')
    sys.exit(0)

def free_port():
    with socket.socket() as s:
        s.bind(('127.0.0.1', 0))
        return s.getsockname()[1]

class Server:
    """A program that serves a configuration, ended when it is left."""
    def __init__(self, conf, limit=None, words=(), port=None, host='127.0.0.1'):
        self.port = port or free_port()
        path = f'conf{self.port}'
        open(path, 'w').write(conf.replace('PORT', str(self.port)))
        def lower():
            if limit: resource.setrlimit(resource.RLIMIT_NOFILE, (limit, limit))
        self.run = subprocess.Popen([program, 'serve', path, *words], stdin=subprocess.DEVNULL,
                                    stdout=subprocess.PIPE, stderr=subprocess.PIPE, preexec_fn=lower)
        for _ in range(100):
            if self.run.poll() is not None: break
            try:
                socket.create_connection((host, self.port), timeout=1).close()
                break
            except OSError: time.sleep(0.05)
    def __enter__(self): return self
    def __exit__(self, *_):
        if self.run.poll() is None:
            self.run.kill()
        self.run.communicate()
    def link(self, host='127.0.0.1', buffer=None):
        s = socket.socket(socket.AF_INET6 if ':' in host else socket.AF_INET)
        if buffer: s.setsockopt(socket.SOL_SOCKET, socket.SO_RCVBUF, buffer)
        s.settimeout(20)
        s.connect((host, self.port))
        return s
    def get(self, path, host='127.0.0.1', more=b'', buffer=None):
        """The status and the body of one request, and how the link ended."""
        try: s = self.link(host, buffer)
        except OSError as e: return None, b'', type(e).__name__
        with s:
            s.sendall(f'GET {path} HTTP/1.1\r\nHost: a\r\nConnection: close\r\n\r\n'.encode() + more)
            return answer(s)

def rest_of(s, text=b''):
    """What still comes on a link, after a text, and how it ended."""
    all = bytearray(text)
    try:
        while True:
            part = s.recv(262144)
            if not part: return bytes(all), 'end'
            all += part
    except OSError as e: return bytes(all), type(e).__name__

def parse(text, end):
    head, _, body = text.partition(b'\r\n\r\n')
    try: status = int(head.split(b' ')[1])
    except (IndexError, ValueError): status = None
    return status, body, end

def answer(s): return parse(*rest_of(s))

def chunks(body):
    """A body that came in chunks, or None."""
    all = b''
    while body:
        size, _, body = body.partition(b'\r\n')
        count = int(size, 16)
        if count == 0: return all if body == b'\r\n' else None
        all, body = all + body[:count], body[count + 2:]
    return None

os.mkdir('root')
static = 'http { server { listen 127.0.0.1:PORT; root %s/root; location / { } } }' % work
big = 6 * 1048576
def filled(byte): return bytes([byte]) * big
def put(name, bytes, way='mv'):
    if way == 'mv':
        open(f'root/{name}.new', 'wb').write(bytes)
        os.rename(f'root/{name}.new', f'root/{name}')
    else:
        open(f'root/{name}', 'wb').write(bytes)

one = 'server { listen %s; location / { return 200 "%s"; } } '
def http(*servers): return 'http { ' + ''.join(servers) + '}'
try:
    with socket.socket(socket.AF_INET6) as s: s.bind(('::1', 0))
    has_v6 = True
except OSError: has_v6 = False

def begin(server, name):
    """A request whose peer has read a little and then stopped."""
    s = server.link(buffer=262144)
    s.sendall(f'GET /{name} HTTP/1.1\r\nHost: a\r\nConnection: close\r\n\r\n'.encode())
    text = s.recv(20000)
    time.sleep(0.2)
    return s, text

def whole(got, old):
    text, end = got
    return end == 'end' and text.partition(b'\r\n\r\n')[2] == old

def cut(got, old):
    """A front of the old file, and not all of it."""
    body = got[0].partition(b'\r\n\r\n')[2]
    return len(body) < len(old) and old.startswith(body)

# 1. A file that is replaced, shortened or removed while it is sent.
def replaced():
    with Server(static) as server:
        put('a', filled(1))
        s, text = begin(server, 'a')
        put('a', filled(2))
        status, body, end = server.get('/a')
        told('1. the next request after a file was replaced gets the new file', (status, body == filled(2)) == (200, True), f'{status} {len(body)} {end}')
        told('1. a file that is replaced while it is sent comes whole, the old one', whole(rest_of(s, text), filled(1)))
        put('a', filled(3))
        s, text = begin(server, 'a')
        os.remove('root/a')
        status, _, _ = server.get('/a')
        told('1. a file that was removed is Not Found', status == 404, status)
        told('1. a file that is removed while it is sent comes whole', whole(rest_of(s, text), filled(3)))
        put('a', filled(4))
        s, text = begin(server, 'a')
        os.truncate('root/a', big // 2)
        told('1. a file that is shortened while it is sent is cut', cut(rest_of(s, text), filled(4)))
        put('a', filled(5))
        s, text = begin(server, 'a')
        put('a', filled(6), 'cp')
        got = rest_of(s, text)
        told('1. a file that is written anew in place while it is sent is cut, and never mixed', cut(got, filled(5)), len(got[0]))
        status, body, _ = server.get('/a')
        told('1. and then the new one is sent', (status, body) == (200, filled(6)))
        put('b', b'first')
        got = [server.get('/b')[1]]
        put('b', b'second, longer')
        got.append(server.get('/b')[1])
        put('b', b'2nd')
        got.append(server.get('/b')[1])
        told('1. small files that are replaced in turn are each the present one', got == [b'first', b'second, longer', b'2nd'], got)

# 2. What is neither a file nor a folder.
def special():
    with Server(static) as server:
        os.mkfifo('root/fifo')
        u = socket.socket(socket.AF_UNIX); u.bind('root/socket')
        os.symlink('/dev/null', 'root/device')
        for name in ('fifo', 'socket', 'device'):
            status, _, end = server.get('/' + name)
            told(f'2. a {name} in place of a file is Forbidden, and nothing waits', status == 403, f'{status} {end}')
        put('b', b'b')
        told('2. and other requests are answered', server.get('/b')[:2] == (200, b'b'))

# 3. Other errors of the system.
def errors():
    with Server(static) as server:
        put('b', b'b')
        os.symlink('two', 'root/one'); os.symlink('one', 'root/two')
        told('3. a loop of links is Forbidden', server.get('/one')[0] == 403, server.get('/one')[0])
        told('3. a name that is too long is Not Found', server.get('/' + 'n' * 300)[0] == 404)
        told('3. a path that is too long is Not Found', server.get('/' + 'p/' * 2500)[0] == 404)
        told('3. a path through a file is Not Found', server.get('/b/c')[0] == 404)
        os.symlink('b', 'root/link')
        told('3. a link is followed', server.get('/link')[:2] == (200, b'b'))
        if os.geteuid() == 0: left_out('3. a file without the right to read', 'this user may read all')
        else:
            put('shut', b'x'); os.chmod('root/shut', 0)
            told('3. a file without the right to read is Forbidden', server.get('/shut')[0] == 403)

# A folder that becomes a file, and a file that becomes a folder.
def folders():
    with Server(static) as server:
        os.mkdir('root/both'); open('root/both/in', 'w').write('in')
        # A folder is redirected to where an index is served.
        folder = server.get('/both')[0]
        got = [folder, server.get('/both/in')[:2]]
        shutil.rmtree('root/both'); put('both', b'file')
        got += [server.get('/both')[:2], server.get('/both/in')[0]]
        os.remove('root/both'); os.mkdir('root/both')
        got.append(server.get('/both')[0])
        told('bad input: a folder that becomes a file, and a folder again', got == [folder, (200, b'in'), (200, b'file'), 404, folder] and folder in (301, 404), got)

# Clients that stop reading while their file is removed.
def stopped():
    with Server(static) as server:
        put('c', filled(7))
        links = [begin(server, 'c') for _ in range(4)]
        os.remove('root/c')
        for s, _ in links[:2]: s.close()
        told('bad input: clients that stop reading while their file is removed', all(whole(rest_of(s, text), filled(7)) for s, text in links[2:]))

# A file that is replaced a hundred times a second, under load.
def often():
    with Server(static) as server:
        size = 1000000
        texts = {hashlib.sha1(bytes([k]) * (size + k)).hexdigest() for k in range(50)}
        put('d', bytes([0]) * size)
        stop = time.time() + 5
        count = [0, 0, 0]
        def replace():
            k = 0
            while time.time() < stop:
                k = (k + 1) % 50
                put('d', bytes([k]) * (size + k))
                time.sleep(0.01)
        def ask():
            while time.time() < stop:
                status, body, end = server.get('/d', buffer=262144)
                count[0] += 1
                if status != 200 or end != 'end': count[1] += 1
                elif hashlib.sha1(body).hexdigest() not in texts: count[2] += 1
        threads = [threading.Thread(target=f) for f in [replace] + [ask] * 4]
        for t in threads: t.start()
        for t in threads: t.join()
        told('bad input: a file is replaced a hundred times a second: each response is one of them, whole', count[0] > 3 and count[1:] == [0, 0], f'asked {count[0]}, cut {count[1]}, mixed {count[2]}')

# 3. No descriptors left: 2,000 files with 64 descriptors.
def full():
    os.mkdir('root/many')
    for k in range(2000): open(f'root/many/{k}', 'w').write(f'file {k}')
    with Server(static, limit=64) as server:
        good = 0
        for begin in range(0, 2000, 500):
            with server.link() as s:
                for k in range(begin, begin + 500):
                    s.sendall(f'GET /many/{k} HTTP/1.1\r\nHost: a\r\n\r\n'.encode())
                    text = b''
                    while not text.endswith(f'file {k}'.encode()):
                        part = s.recv(65536)
                        if not part: break
                        text += part
                    good += text.endswith(f'file {k}'.encode())
        told('3. 2,000 files in turn with 64 descriptors', good == 2000, good)
        # Idle links take what descriptors they can get; files are still answered on those that are open.
        links = []
        for k in range(60):
            try: links.append(server.link())
            except OSError: break
        time.sleep(0.5)
        links[0].sendall(b'GET /many/5 HTTP/1.1\r\nHost: a\r\n\r\n')
        try: text = links[0].recv(65536)
        except OSError: text = b''
        told('3. with all descriptors taken a file is still sent, or its link is closed', text == b'' or text.endswith(b'file 5'), text)
        for s in links: s.close()
        time.sleep(1.5)
        told('3. and once they are free again all is answered', server.get('/many/7')[:2] == (200, b'file 7'))

# 4. All addresses, of IPv4 and of IPv6.
def families():
    if not has_v6: left_out('4. listen PORT; listen [::]:PORT;', 'no IPv6 here')
    else:
        for conf, order in ((('PORT; listen [::]:PORT', 'x'), 'IPv4 first'), (('[::]:PORT; listen PORT', 'x'), 'IPv6 first')):
            with Server(http(one % conf)) as server:
                got = [server.get('/', host)[1] for host in ('127.0.0.1', '::1')]
                told(f'4. both all addresses of IPv4 and of IPv6, {order}', got == [b'x', b'x'], f'{got} {server.run.poll()}')
        with Server(http(one % ('[::]:PORT', 'six'), one % ('127.0.0.1:PORT', 'four'))) as server:
            got = [server.get('/', host)[1] for host in ('127.0.0.1', '::1')]
            told('4. all of IPv6 and one of IPv4 are two sockets', got == [b'four', b'six'], got)
        with Server(http(one % ('[::]:PORT', 'six')), host='::1') as server:
            told('4. an IPv6 socket takes no IPv4 peer', (server.get('/', '::1')[1], server.get('/')[0]) == (b'six', None))

# 5. All addresses and one of them at one port.
def wildcards():
    for conf, order in ((('PORT', 'all', '127.0.0.1:PORT', 'one'), 'all first'), (('127.0.0.1:PORT', 'one', 'PORT', 'all'), 'one first')):
        with Server(http(one % conf[:2], one % conf[2:])) as server:
            got = [server.get('/', host)[1] for host in ('127.0.0.1', '127.0.0.2')]
            told(f'5. all addresses and one of them at one port, {order}', got == [b'one', b'all'], f'{got} {server.run.poll()}')
    if has_v6:
        with Server(http(one % ('[::1]:PORT', 'one'), one % ('[::]:PORT', 'all')), host='::1') as server:
            got = server.get('/', '::1')[1]
            told('5. the same of IPv6', got == b'one', f'{got} {server.run.poll()}')

# 6. Turns.
def turns():
    with Server(http(one % ('127.0.0.1:PORT', 'x')), words=('--turns', '40')) as server:
        for _ in range(60): server.get('/')
        try: ended = server.run.wait(timeout=45)
        except subprocess.TimeoutExpired: ended = None
        told('6. serving for 40 turns ends with status 9', ended == 9, ended)
    with Server(http(one % ('127.0.0.1:PORT', 'x'))) as server:
        good = sum(server.get('/')[0] == 200 for _ in range(500))
        told('6. serving without a number of turns serves on', good == 500 and server.run.poll() is None, f'{good} {server.run.poll()}')

# 7. A close loses no answer.
def closes():
    put('e', bytes(range(256)) * 4096)
    with Server(static) as server:
        lost = 0
        for k in range(10):
            status, body, end = server.get('/e', more=b'x' * 300000)
            lost += (status, len(body), end) != (200, 1048576, 'end')
        told('7. an answer comes whole though its peer sent more than was read', lost == 0, f'{lost} of 10, the last: {status} {len(body)} {end}')
        lost = 0
        for k in range(10):
            with server.link() as s:
                s.sendall(b'BAD\r\n\r\n')
                time.sleep(0.02)
                try: s.sendall(b'y' * 2000000)
                except OSError: pass
                status, _, end = answer(s)
                lost += (status, end) != (400, 'end')
        told('7. so does a refusal, while the peer still sends', lost == 0, f'{lost} of 10, the last: {status} {end}')
        with server.link() as s:
            s.sendall(b'BAD\r\n\r\n')
            rest_of(s)
            s.settimeout(10)
            since = time.time()
            try:
                while time.time() < since + 9: s.sendall(b'z'); time.sleep(0.2)
                ended = False
            except OSError: ended = True
            told('7. a peer that never stops sending is closed in some seconds', ended, round(time.time() - since, 1))

# 8. Words.
def words():
    def run(*words, **more):
        got = subprocess.run([program, *words], stdin=subprocess.DEVNULL, capture_output=True, timeout=20, **more)
        return got.returncode, got.stdout.decode(errors='replace'), got.stderr.decode(errors='replace')
    with Server(http(one % ('127.0.0.1:PORT', 'x'))) as server:
        status, _, words = run('serve', f'conf{server.port}')
        told('8. a port in use: the address and the reason', status == 6 and f'127.0.0.1:{server.port}' in words and 'in use' in words, (status, words))
    status, _, words = run('serve', 'none/here.conf')
    told('8. a configuration that is not there: the path and the reason', status in (1, 4) and 'none/here.conf' in words and 'No such file' in words, (status, words))
    status, _, words = run('check', 'root')
    told('8. a folder in place of a configuration: its path', status in (1, 4) and 'root' in words, (status, words))
    got = run('check', os.path.join(top, 'examples/debian/nginx.conf'))
    told("8. Debian's configuration with its default site is read whole", got[0] == 0 and got[1] == 'servers 1 locations 1\n', got)
    if os.geteuid() == 0 and shutil.which('setpriv'):
        open('conf80', 'w').write(http(one % ('127.0.0.1:80', 'x')))
        os.chmod(work, 0o755)
        try:
            low = open('/proc/sys/net/ipv4/ip_unprivileged_port_start').read().strip()
        except OSError: low = '1024'
        if int(low) <= 80: left_out('8. no right for port 80', 'all may listen on it here')
        else:
            status, _, words = run('serve', 'conf80', preexec_fn=lambda: os.setuid(65534))
            if status in (126, 127): left_out('8. no right for port 80', 'the program is not for all')
            else: told('8. no right for a port: the address and the reason', status == 6 and '127.0.0.1:80' in words and 'ermission denied' in words, (status, words))
    else: left_out('8. no right for port 80', 'only root can give up rights here')
    for asked, usage in (['--help'], 'ngx <COMMAND>'), (['-h'], 'ngx <COMMAND>'), (['serve', '--help'], 'ngx serve [OPTIONS] <CONF>'), (['check', 'a', '-h'], 'ngx check <CONF>'):
        got = run(*asked)
        told(f"8. {' '.join(asked)} prints the help", got[0] == 0 and f'\nUsage: {usage}\n' in got[1] and 'Exit status:' in got[1] and not got[2], got)
    for asked in (('check', 'none.conf'), ('replay', 'none.replay')):
        got = run(*asked)
        told(f"8. {' '.join(asked)} says why the file can't be read", f'ngx: {asked[1]}: ' in got[2] and got[1], got)
    for asked in ('--version', '-V'):
        got = run(asked)
        told(f'8. {asked} prints the version', got[0] == 0 and got[1].startswith('ngx ') and got[1].count('\n') == 1 and not got[2], got)
    for asked, why in ((), 'requires a subcommand'), (('frob',), "unrecognized subcommand 'frob'"), (('frob', 'a'), "unrecognized subcommand 'frob'"), (('serve',), 'required arguments were not provided:\n  <CONF>'), (('serve', 'a', '--turns', '0'), "invalid value '0' for '--turns <N>'"), (('check', 'a', 'b'), "unexpected argument 'b'"):
        got = run(*asked)
        told(f"8. {' '.join(asked) or 'no word'}: clap's message, with status 2", got[0] == 2 and why in got[2] and "try '--help'" in got[2] and not got[1], got)

# 9. The connection after the last.
def last():
    with Server(http(one % ('127.0.0.1:PORT', 'x'))) as server:
        time.sleep(0.3)
        links = [server.link() for _ in range(512)]
        def ask_one(s):
            try:
                s.sendall(b'GET / HTTP/1.1\r\nHost: a\r\n\r\n')
                return s.recv(4096).startswith(b'HTTP/1.1 200')
            except OSError: return False
        served = sum(ask_one(s) for s in links)
        with server.link() as s:
            s.settimeout(2)
            since = time.time()
            text, end = rest_of(s)
            told('9. the 513th connection is closed at once without an answer', (served, text, end) == (512, b'', 'end') and time.time() - since < 1, f'{served} {text} {end}')
        links.pop().close()
        time.sleep(0.3)
        told('9. and once one is closed the next is served', server.get('/')[0] == 200)
        for s in links: s.close()

# 10. Bodies that are withheld: into a variable, or until it is known whether a stub is shown.
def withheld():
    pages = f'{work}/pages'
    os.mkdir(pages)
    for name, text in (('large', b'a' * 10000000), ('fits', b'b' * 16384), ('over', b'b' * 16385),
                       ('captured', b'A<!--# include virtual="/$NAME" set="x" -->B<!--# echo var="x" default="none" -->C'),
                       ('stubbed', b'<!--# block name="s" -->stub<!--# endblock -->A<!--# include virtual="/failed" stub="s" -->C')):
        if name == 'captured':
            for part in ('large', 'fits', 'over'): open(f'{pages}/{name}-{part}.html', 'wb').write(text.replace(b'$NAME', part.encode()))
        else: open(f'{pages}/{name}' + ('.html' if name == 'stubbed' else ''), 'wb').write(text)
    failed = b'A[an error occurred while processing the directive]BnoneC'
    with Server('http { server { listen 127.0.0.1:PORT; root %s; ssi on; subrequest_output_buffer_size 16384; location = /failed { error_page 404 /large; return 404; } } }' % pages) as server:
        for part, wanted in (('fits', b'AB' + b'b' * 16384 + b'C'), ('over', failed), ('large', failed)):
            status, body, end = server.get(f'/captured-{part}.html')
            told(f'10. a body for a variable: {part}', (status, chunks(body)) == (200, wanted), f'{status} {len(body)} {end}')
        status, body, end = server.get('/stubbed.html')
        told('10. a stub in place of a failed body of 10 MB', (status, chunks(body)) == (200, b'AstubC'), f'{status} {len(body)} {end}')
        try: most = next(int(line.split()[1]) for line in open(f'/proc/{server.run.pid}/status') if line.startswith('VmHWM'))
        except OSError: most = 0
        told('10. which take no room', most < 9000, f'{most} kB')

cases = [(1, replaced), (2, special), (3, errors), (3, full), (4, families), (5, wildcards), (6, turns), (7, closes),
         (8, words), (9, last), (10, withheld), ('bad', folders), ('bad', stopped), ('bad', often)]
for number, case in cases:
    if not wanted or str(number) in wanted: case()
print(f'{"some are bad" if bad else "all are good"}, in {time.time() - began:.0f} seconds')
sys.exit(bad)
PY
