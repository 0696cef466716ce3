"""The proxies of docs/OPERATOR.md before a join server with TLS: nginx and stunnel, with the very lines of that page, but for names, ports and
files. The join server asks for a client certificate, and nginx's has a path."""
import http.server
import os
import re
import shutil
import socket
import ssl
import subprocess
import threading
import time
import unittest

from live import APP_KEY, LONGEST, TOOLS, wait_for
from serving import Served

import join_server

NGINX, STUNNEL = (shutil.which(name, path=os.environ['PATH'] + ':/usr/sbin') for name in ('nginx', 'stunnel4'))
OPERATOR = os.path.join(os.path.dirname(TOOLS), 'docs', 'OPERATOR.md')


def free_port():
    with socket.socket() as sock:
        sock.bind(('127.0.0.1', 0))
        return sock.getsockname()[1]


def answers(port):
    try:
        socket.create_connection(('127.0.0.1', port), timeout=1).close()
        return True
    except OSError:
        return False


def lines_of(first):
    """The block of OPERATOR that begins with this line."""
    with open(OPERATOR, encoding='utf-8') as file:
        text = file.read()
    block = re.search(r'(?m)^    %s\n((    .*)?\n)+' % re.escape(first), text).group(0)
    return re.sub(r'(?m)^    ', '', block)


class Handler(http.server.BaseHTTPRequestHandler):
    path_wanted, server_of, asked = '/', None, None

    def do_POST(self):
        self.asked.append((self.path, self.headers['Host']))
        if self.path != self.path_wanted:
            self.send_error(404)
            return
        told = self.server_of.answer(self.rfile.read(int(self.headers['Content-Length']))).encode()
        self.send_response(200)
        self.send_header('Content-Length', str(len(told)))
        self.end_headers()
        self.wfile.write(told)

    def log_message(self, *_):
        pass


@unittest.skipUnless(shutil.which('openssl'), 'openssl is not installed')
class Proxies(Served):
    def setUp(self):
        super().setUp()
        self.asked = []
        self.openssl('req', '-x509', '-newkey', 'rsa:2048', '-nodes', '-keyout', 'ca.key', '-out', 'ca.crt', '-days', '2', '-subj', '/CN=ca')
        self.written('names', 'subjectAltName=DNS:localhost')
        for name in ('server', 'client'):
            self.openssl('req', '-newkey', 'rsa:2048', '-nodes', '-keyout', name + '.key', '-out', name + '.csr', '-subj', '/CN=' + name)
            self.openssl('x509', '-req', '-in', name + '.csr', '-CA', 'ca.crt', '-CAkey', 'ca.key', '-CAcreateserial', '-out', name + '.crt',
                         '-days', '2', '-extfile', 'names')
        self.openssl('req', '-x509', '-newkey', 'rsa:2048', '-nodes', '-keyout', 'other.key', '-out', 'other.crt', '-days', '2', '-subj', '/CN=o')

    def openssl(self, *words):
        subprocess.run(['openssl', *words], cwd=self.folder, check=True, capture_output=True)

    def at(self, name):
        return os.path.join(self.folder, name)

    def tls_server(self, path):
        """A join server behind TLS, which asks for a certificate: its port."""
        context = ssl.create_default_context(ssl.Purpose.CLIENT_AUTH, cafile=self.at('ca.crt'))
        context.verify_mode = ssl.CERT_REQUIRED
        context.load_cert_chain(self.at('server.crt'), self.at('server.key'))
        known = join_server.JoinServer({(13).to_bytes(8, 'big'): APP_KEY})
        handler = type('H', (Handler,), {'path_wanted': path, 'server_of': known, 'asked': self.asked})
        server = http.server.ThreadingHTTPServer(('127.0.0.1', 0), handler)
        server.daemon_threads, server.handle_error = True, lambda *_: None
        server.socket = context.wrap_socket(server.socket, server_side=True, do_handshake_on_connect=True)
        threading.Thread(target=server.serve_forever, daemon=True).start()
        self.addCleanup(server.server_close)
        self.addCleanup(server.shutdown)
        return server.server_address[1]

    def changed(self, text, port, behind, certificate='client'):
        """The page's lines with the names, ports and files of this test."""
        for old, new in (('127.0.0.1:8081', '127.0.0.1:%d' % port), ('js.example.com:443', 'localhost:%d' % behind),
                         ('https://js.example.com', 'https://localhost:%d' % behind), ('js.example.com', 'localhost'),
                         ('/etc/ssl/certs/ca-certificates.crt', self.at('ca.crt'))):
            text = text.replace(old, new)
        return re.sub(r'/etc/(nginx|stunnel)/client', self.at(certificate), text)

    def begin(self, words, port):
        child = subprocess.Popen(words, stdout=subprocess.DEVNULL, stderr=subprocess.DEVNULL)
        self.addCleanup(child.wait, LONGEST)
        self.addCleanup(child.terminate)
        wait_for(lambda: answers(port), words[0])

    def joins_by(self, port, *words):
        """Whether a device joins by the proxy."""
        server = self.serve(self.roster([13]), ('127.0.0.1', port), *words, level='info')
        gateway, device = self.gateway(0xa1, server), self.device(13)
        gateway.heard(device.join_request(1))
        end = time.monotonic() + 6
        while time.monotonic() < end:
            if server.log.count('joined'):
                device.accept(gateway.downlink()[1])
                return True
            if server.log.count('not answered'):
                return False
            time.sleep(0.02)
        return False

    @unittest.skipUnless(NGINX, 'nginx is not installed')
    def test_nginx(self):
        for certificate, is_joined in (('client', True), ('other', False)):
            port, behind = free_port(), self.tls_server('/lorawan/joinreq')
            block = self.changed(lines_of('server {'), port, behind, certificate)
            paths = ''.join('%s_temp_path %s;' % (name, self.folder) for name in ('client_body', 'proxy', 'fastcgi', 'uwsgi', 'scgi'))
            text = 'daemon off; user root; pid %s; error_log %s; events {}\nhttp { access_log off; %s\n%s}\n' % (
                self.at('nginx.pid' + certificate), self.at('errors'), paths, block)
            self.begin([NGINX, '-c', self.written('nginx-%s.conf' % certificate, text), '-e', self.at('errors')], port)
            self.assertEqual(self.joins_by(port), is_joined)
            self.assertEqual(len(self.asked), 1)
        self.assertEqual(self.asked[0][0], '/lorawan/joinreq')

    @unittest.skipUnless(STUNNEL, 'stunnel4 is not installed')
    def test_stunnel(self):
        for certificate, is_joined in (('client', True), ('other', False)):
            port, behind = free_port(), self.tls_server('/')
            block = self.changed(lines_of('[join]'), port, behind, certificate)
            self.begin([STUNNEL, self.written('stunnel-%s.conf' % certificate, 'foreground = yes\npid =\n' + block)], port)
            self.assertEqual(self.joins_by(port, '--host', 'js.example.com'), is_joined)
        self.assertEqual(self.asked, [('/', 'js.example.com')])


if __name__ == '__main__':
    unittest.main()
