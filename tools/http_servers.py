#!/usr/bin/env python3
"""Has `lorawan_ns serve` ask a right join server through each HTTP server that is installed here, as operators put them before one.

    http_servers.py [PROGRAM] [--only NAME]      PROGRAM: default crates/lorawan_ns/out/lorawan_ns

The join server is that of join_server.py behind Python's http.server. It answers in each of five forms: with a Content-Length, in
chunks, up to the end of the connection, and behind `100 Continue` or `103 Early Hints`. It is asked itself; through nginx, Caddy,
Apache, HAProxy and lighttpd as reverse proxies, each in its plainest set-up; and through Node, which answers by its own means in each
form but the third. For each, one device sends a Join-Request and takes the Join-Accept. It prints a table: the server, the form of
the join server behind it, the form in which the answer came, and how long the join took or why there was none. Servers that are not
installed are passed over. (`apt-get install nginx-light haproxy lighttpd apache2 caddy nodejs`, and have the system start none of them.)

It ends with status 0 only where each set-up joined. Only loopback is used, and it is no part of the merge gate.
"""
import argparse
import http.server
import json
import os
import shutil
import socket
import struct
import subprocess
import sys
import tempfile
import threading
import time

import join_server
from network import nodes
from network.servers import NotServing, Serve

HERE = os.path.dirname(os.path.abspath(__file__))
PROGRAM = os.path.join(os.path.dirname(HERE), 'crates', 'lorawan_ns', 'out', 'lorawan_ns')
FORMS = 'length', 'chunks', 'close', 'continue', 'hints'
ACCEPT_WITHIN, BEGIN_WITHIN = 8, 20         # seconds
APACHE_MODULES = '/usr/lib/apache2/modules'


# ---------------------------------------------------------------- the join server behind, in each form

class Answers(http.server.BaseHTTPRequestHandler):
    """One exchange in the form of its class. A proxy that speaks HTTP/1.0 gets what HTTP/1.0 has."""
    protocol_version, timeout = 'HTTP/1.1', 10
    join_server = form = None

    def do_POST(self):
        try:
            status, told = 200, self.join_server.answer(self.body()).encode()
        except join_server.NoJoinReq:
            status, told = 400, b'no JoinReq'
        form = self.form if self.request_version == 'HTTP/1.1' or self.form == 'length' else 'close'
        if form == 'continue':
            self.wfile.write(b'HTTP/1.1 100 Continue\r\n\r\n')
        elif form == 'hints':
            self.wfile.write(b'HTTP/1.1 103 Early Hints\r\nLink: </style.css>; rel=preload\r\n\r\n')
        self.send_response(status)
        self.send_header('Content-Type', 'application/json')
        self.send_header('Connection', 'close')
        if form == 'chunks':
            self.send_header('Transfer-Encoding', 'chunked')
        elif form != 'close':
            self.send_header('Content-Length', str(len(told)))
        self.end_headers()
        if form == 'chunks':
            for front in range(0, len(told), 100):
                piece = told[front:front + 100]
                self.wfile.write(b'%X\r\n%s\r\n' % (len(piece), piece))
            told = b'0\r\n\r\n'
        self.wfile.write(told)
        self.close_connection = True

    def body(self):
        if 'chunked' not in self.headers.get('Transfer-Encoding', ''):
            return self.rfile.read(int(self.headers.get('Content-Length', 0)))
        body = b''
        while size := int(self.rfile.readline().split(b';')[0], 16):
            body += self.rfile.read(size)
            self.rfile.readline()
        return body

    def log_message(self, *words):
        pass


def behind(joins, form):
    """A join server that answers in a form; it listens."""
    handler = type('Answers', (Answers,), {'join_server': joins, 'form': form})
    server = join_server.Listener(('127.0.0.1', 0), handler)
    threading.Thread(target=server.serve_forever, args=(0.1,), daemon=True).start()
    return server


# ---------------------------------------------------------------- the servers that are installed

NODE = """
const http = require('http');
http.createServer((request, response) => {
  const ask = http.request({port: BACK, method: 'POST', headers: {'Content-Length': request.headers['content-length']}}, told => {
    const pieces = [];
    told.on('data', piece => pieces.push(piece));
    told.on('end', () => {
      const text = Buffer.concat(pieces);
      if ('FORM' === 'continue') response.writeContinue();
      if ('FORM' === 'hints') response.writeEarlyHints({link: '</style.css>; rel=preload'});
      if ('FORM' !== 'chunks') response.setHeader('Content-Length', text.length);
      response.writeHead(told.statusCode, {'Content-Type': 'application/json'});
      response.write(text.subarray(0, 100));
      response.end(text.subarray(100));
    });
  });
  request.pipe(ask);
}).listen(PORT, '127.0.0.1');
"""
NGINX = """
daemon off; user root; worker_processes 1; pid FOLDER/pid; error_log stderr crit;
events {}
http {
  access_log off; client_body_temp_path FOLDER/body; proxy_temp_path FOLDER/proxy;
  fastcgi_temp_path FOLDER/fastcgi; uwsgi_temp_path FOLDER/uwsgi; scgi_temp_path FOLDER/scgi;
  server { listen 127.0.0.1:PORT; location / { proxy_pass http://127.0.0.1:BACK; } }
}
"""
CADDY = """
{
  admin off
  auto_https off
}
http://:PORT {
  bind 127.0.0.1
  reverse_proxy 127.0.0.1:BACK
}
"""
APACHE = """
ServerRoot FOLDER
ServerName localhost
Listen 127.0.0.1:PORT
PidFile FOLDER/pid
ErrorLog FOLDER/error
User www-data
Group www-data
LoadModule mpm_event_module MODULES/mod_mpm_event.so
LoadModule authz_core_module MODULES/mod_authz_core.so
LoadModule proxy_module MODULES/mod_proxy.so
LoadModule proxy_http_module MODULES/mod_proxy_http.so
ProxyPass / http://127.0.0.1:BACK/
""".replace('MODULES', APACHE_MODULES)
HAPROXY = """
defaults
  mode http
  timeout connect 5s
  timeout client 5s
  timeout server 5s
frontend before
  bind 127.0.0.1:PORT
  default_backend joins
backend joins
  server one 127.0.0.1:BACK
"""
LIGHTTPD = """
server.document-root = "FOLDER"
server.bind = "127.0.0.1"
server.port = PORT
server.modules = ("mod_proxy")
server.stream-response-body = 1
proxy.server = ("" => (("host" => "127.0.0.1", "port" => BACK)))
"""

# name, program, its words behind a file, the file, the forms that the join server behind it has
SERVERS = [
    ('node', 'node', [], NODE, ('length', 'chunks', 'continue', 'hints')),
    ('nginx', 'nginx', ['-c'], NGINX, FORMS),
    ('caddy', 'caddy', ['run', '--adapter', 'caddyfile', '--config'], CADDY, FORMS),
    ('apache', 'apache2', ['-DFOREGROUND', '-f'], APACHE, FORMS),
    ('haproxy', 'haproxy', ['-db', '-f'], HAPROXY, FORMS),
    ('lighttpd', 'lighttpd', ['-D', '-f'], LIGHTTPD, FORMS),
]


def free_port():
    with socket.socket() as sock:
        sock.bind(('127.0.0.1', 0))
        return sock.getsockname()[1]


class Front:
    """A server that is installed, which runs before a join server."""

    def __init__(self, program, words, text, form, back, folder):
        self.where = '127.0.0.1', free_port()
        path = os.path.join(folder, 'server.conf')
        with open(path, 'w', encoding='utf-8') as file:
            for name, value in (('FOLDER', folder), ('PORT', self.where[1]), ('BACK', back), ('FORM', form)):
                text = text.replace(name, str(value))
            file.write(text)
        self.log = open(os.path.join(folder, 'log'), 'w+', encoding='utf-8', errors='replace')
        self.child = subprocess.Popen([program, *words, path], stdin=subprocess.DEVNULL, stdout=self.log, stderr=self.log, cwd=folder,
                                      env={**os.environ, 'HOME': folder, 'XDG_DATA_HOME': folder, 'XDG_CONFIG_HOME': folder})
        end = time.monotonic() + BEGIN_WITHIN
        while not self.listens():
            if self.child.poll() is not None or time.monotonic() > end:
                self.log.seek(0)
                why = self.log.read().strip().splitlines()[-1:] or ['it does not listen']
                self.close()
                raise NotServing(why[0])
            time.sleep(0.05)

    def listens(self):
        try:
            socket.create_connection(self.where, 1).close()
            return True
        except OSError:
            return False

    def close(self):
        self.child.terminate()
        try:
            self.child.wait(10)
        except subprocess.TimeoutExpired:
            self.child.kill()
            self.child.wait()
        self.log.close()


# ---------------------------------------------------------------- one set-up

def form_at(where):
    """The form in which a server answers: its interim statuses, and how the body ends."""
    got = b''
    with socket.create_connection(where, 10) as sock:
        sock.sendall(b'POST / HTTP/1.1\r\nHost: js.local\r\nContent-Type: application/json\r\nContent-Length: 2\r\nConnection: close\r\n\r\n{}')
        while piece := sock.recv(4096):
            got += piece
    found = []
    while got.startswith(b'HTTP/1.1 1'):
        found.append(got[9:12].decode())
        got = got.partition(b'\r\n\r\n')[2]
    head = got.partition(b'\r\n\r\n')[0].lower()
    ends = 'chunks' if b'\r\ntransfer-encoding:' in head else 'length' if b'\r\ncontent-length:' in head else 'close'
    return ' '.join([*found, got[:8].decode(), ends])


def joined(program, roster, node, where):
    """Whether a device joins with a join server at an address: how long it took, or why not."""
    try:
        serve = Serve([program, 'serve', roster, '--join', '%s:%d' % where, '--listen', '127.0.0.1:0', '--window', '20'])
    except NotServing as why:
        return None, str(why)
    try:
        with socket.socket(socket.AF_INET, socket.SOCK_DGRAM) as gateway:
            gateway.connect(serve.where)
            gateway.settimeout(ACCEPT_WITHIN)
            frame, begun = node.join_request(), time.monotonic()
            gateway.send(struct.pack('>BBQQIBhhB', 1, 1, 0xa1, 1_000_000, 868_100_000, 5, -950, 75, len(frame)) + frame)
            try:
                node.accept(gateway.recv(600)[-17:])
            except TimeoutError:
                return None, (serve.errors or ['no answer'])[-1]
            return 1000 * (time.monotonic() - begun), None
    finally:
        serve.close()


def tried(program, roster, node, name, form, where):
    """Prints one set-up's line, and says whether the device joined."""
    took, why = joined(program, roster, node, where)
    print('%-10s %-10s %-28s %s' % (name, form, form_at(where), why or 'joined in %.0f ms' % took), flush=True)
    return took is not None


def main(words):
    parser = argparse.ArgumentParser(description=__doc__, formatter_class=argparse.RawDescriptionHelpFormatter)
    parser.add_argument('program', nargs='?', default=PROGRAM)
    parser.add_argument('--only', metavar='NAME', choices=['python', *(row[0] for row in SERVERS)])
    options = parser.parse_args(words)
    if not os.access(options.program, os.X_OK):
        parser.error('no program at %s: build it as README says' % options.program)
    os.environ['RUST_LOG'] = 'debug'
    node, failed, count = nodes.Node(1, 13), 0, 0
    joins = join_server.JoinServer({(13).to_bytes(8, 'big'): nodes.app_key(1, 13)})
    print('%-10s %-10s %-28s %s' % ('server', 'behind it', 'the answer came in', 'what came of it'))
    with tempfile.TemporaryDirectory() as folder:
        os.chmod(folder, 0o755)
        roster = os.path.join(folder, 'roster.json')
        with open(roster, 'w', encoding='utf-8') as file:
            json.dump(nodes.roster(14, 0, 1), file)
        for form in FORMS:
            server = behind(joins, form)
            if options.only in (None, 'python'):
                count += 1
                failed += not tried(options.program, roster, node, 'python', form, server.server_address)
            for name, program, before, text, forms in SERVERS:
                program = shutil.which(program) or shutil.which('/usr/sbin/' + program)
                if not program or form not in forms or options.only not in (None, name):
                    continue
                count += 1
                inner = tempfile.mkdtemp(dir=folder)
                os.chmod(inner, 0o755)
                try:
                    front = Front(program, before, text, form, server.server_address[1], inner)
                except NotServing as why:
                    failed += 1
                    print('%-10s %-10s does not begin: %s' % (name, form, why))
                    continue
                try:
                    failed += not tried(options.program, roster, node, name, form, front.where)
                finally:
                    front.close()
            server.shutdown()
            server.server_close()
    print('%d of %d set-ups joined' % (count - failed, count))
    return 1 if failed or not count else 0


if __name__ == '__main__':
    sys.exit(main(sys.argv[1:]))
