"""What `serve --status` tells over HTTP: counts, devices and gateways, and a page; who is silent holds nobody up; no key stands in it."""
import base64
import hashlib
import http.client
import json
import math
import os
import re
import shutil
import socket
import subprocess
import time
import unittest

from browser import CHROMIUM, Browser
from json_schema import faults, schema
from live import LONGEST, PROGRAM, TOOLS, Forwarder, rxpk, wait_for
from serving import NOWHERE, Served

MONITORING = os.path.join(TOOLS, 'monitoring')
PROMTOOL, CURL = shutil.which('promtool'), shutil.which('curl')

EUIS = range(1, 9)
WINDOW = ('--window', '20', '--status', '127.0.0.1:0')


def airtime(size):
    """Microseconds that a downlink is on air at SF7 and 125 kHz, by AN1200.13 of Semtech: no CRC, a header, coding rate 4/5."""
    symbols = 8 + max(math.ceil((8 * size - 4 * 7 + 28) / (4 * 7)) * 5, 0)
    return int((8 + 4.25 + symbols) * 1024)


class Told(Served):
    def told(self, *words, level='info'):
        """A server that tells its status, its join server, and where the status is."""
        joins = self.joins(EUIS)
        server = self.serve(self.roster(EUIS), joins.where, *WINDOW, *words, level=level)
        server.log.wait('status at http://')
        where = next(re.search('http://(.*):([0-9]+)/$', line) for line in server.log.all if 'status at' in line)
        self.where = where.group(1), int(where.group(2))
        return server, joins

    def asked(self, path, method='GET', **fields):
        """The status, the head's fields and the body of a response."""
        connection = http.client.HTTPConnection(*self.where, timeout=LONGEST)
        try:
            connection.request(method, path, headers=fields)
            response = connection.getresponse()
            return response.status, response.headers, response.read()
        finally:
            connection.close()

    def list_of(self, name):
        status, fields, body = self.asked('/' + name)
        self.assertEqual((status, fields['Content-Type']), (200, 'application/json'))
        rule = schema(name.partition('?')[0])
        self.assertEqual(list(faults(json.loads(body), rule, rule)), [])
        return json.loads(body)

    def metrics(self):
        status, fields, body = self.asked('/metrics')
        self.assertEqual((status, fields['Content-Type']), (200, 'text/plain; version=0.0.4; charset=utf-8'))
        found = {}
        for line in body.decode().splitlines():
            if not line.startswith('#'):
                name, number = re.fullmatch(r'(?:lorawan_)?(\w+(?:\{\w+="[^"]+"\})?) ([0-9.]+)', line).groups()
                self.assertNotIn(name, found)
                found[name] = float(number) if '.' in number else int(number)
        return found

    def network(self, server):
        """Eight devices that join by two gateways and send frames 0 and 1, the last of them 0 and 5, each heard twice."""
        self.near, self.far = self.gateway(0xa1, server), self.gateway(0xa2, server)
        self.devices = [self.device(eui) for eui in EUIS]
        self.sizes = []
        for device in self.devices:
            self.near.heard(device.join_request(1))
            accept = self.near.downlink()[1]
            device.accept(accept)
            self.sizes.append(len(accept))
        for counter in (0, 1):
            for device in self.devices:
                counter = 5 if counter and device is self.devices[-1] else counter
                frame = device.uplink(counter, 1, b'x', confirmed=True)
                self.near.heard(frame)
                self.far.heard(frame, snr=50)
                frame = self.near.downlink()[1]
                self.sizes.append(len(frame))
                self.assertTrue(device.is_acknowledgement(frame, min(counter, 1)))

    def test_network(self):
        """What is told agrees with what the devices did, and with the counts of the log."""
        server, joins = self.told('--stop-after', '41')
        before = time.time()
        self.assertEqual([(row['devEui'], row['session'], row['heardMs']) for row in self.list_of('devices')['devices']],
                         [('%016x' % eui, None, None) for eui in EUIS])
        self.assertEqual(self.list_of('gateways')['gateways'], [])
        self.assertEqual(self.metrics()['device_last_heard_age_seconds_count'], 0)
        self.network(server)
        devices, gateways, metrics = self.list_of('devices'), self.list_of('gateways'), self.metrics()
        self.assertLess(abs(devices['startMs'] / 1000 + 5 - before), 5)
        self.assertLess(abs((devices['startMs'] + devices['nowMs']) / 1000 - time.time()), 2)
        self.assertEqual([row['devEui'] for row in devices['devices']], ['%016x' % eui for eui in EUIS])
        for row, device in zip(devices['devices'], self.devices):
            last = device is self.devices[-1]
            self.assertEqual((row['session'], row['fCnt'], row['missed']), (1, 5 if last else 1, 4 if last else 0))
            self.assertEqual(row['devAddr'], device.address[::-1].hex())
            self.assertIn(row['gatewayId'], ('%016x' % 0xa1, '%016x' % 0xa2))
            self.assertLessEqual(row['sinceMs'], row['heardMs'])
            self.assertLessEqual(row['heardMs'], devices['nowMs'])
        self.assertEqual({row['gatewayId']: row['frames'] for row in gateways['gateways']}, {'%016x' % 0xa1: 24, '%016x' % 0xa2: 16})
        self.assertEqual((airtime(12), airtime(33)), (41216, 71936))
        self.assertEqual({row['gatewayId']: (row['sent'], row['airtimeMs']) for row in gateways['gateways']},
                         {'%016x' % 0xa1: (24, sum(airtime(size) for size in self.sizes) // 1000), '%016x' % 0xa2: (0, 0)})
        ages = [metrics['device_last_heard_age_seconds_%s' % name] for name in (
            'bucket{le="3600"}', 'bucket{le="21600"}', 'bucket{le="90000"}', 'bucket{le="604800"}', 'bucket{le="+Inf"}', 'count')]
        self.assertEqual(ages, [8] * 6)
        self.assertLessEqual(metrics['device_last_heard_age_seconds_sum'], 8 * devices['nowMs'] / 1000)
        self.assertEqual(metrics['join_server_answer_seconds_count'], 8)
        self.assertGreaterEqual(metrics['acknowledgement_delay_seconds_count'], 1)
        self.assertEqual(metrics['build_info{version="%s"}' % subprocess.run([PROGRAM, '--version'], capture_output=True, text=True).stdout.split()[1]], 1)
        self.assertGreater(metrics['process_resident_memory_bytes'], 1_000_000)
        self.assertLess(abs(metrics['process_open_fds'] - len(os.listdir('/proc/%d/fd' % server.child.pid))), 4)
        self.assertEqual((metrics['devices'], metrics['sessions'], metrics['gateways']), (8, 8, 2))
        self.assertEqual((metrics['open_windows'], metrics['open_tickets'], metrics['datagrams_total']), (0, 0, 40))
        self.assertEqual((metrics['replies_total{reply="opened"}'], metrics['replies_total{reply="closed"}']), (16, 16))
        self.assertEqual(sum(n for name, n in metrics.items() if name.startswith('entries_total')),
                         sum(n for name, n in metrics.items() if name.startswith('replies_total')))
        text = b''.join(self.asked(path)[2] for path in ('/metrics', '/devices', '/gateways')).lower()
        self.assertGreater(len(joins.keys), 8)
        for key in joins.keys:
            for written in (key.hex(), key[::-1].hex()):
                self.assertNotIn(written.encode(), text)
        self.near.send(b'')
        *_, settled = server.lines()
        self.assertEqual(settled, 'settled %d' % sum(n for name, n in metrics.items() if name.startswith('entries_total')))
        counts = server.counts()
        for name, number in metrics.items():
            reply = re.fullmatch(r'(?:replies|refusals)_total\{\w+="(\w+)"\}', name)
            if reply and reply.group(1) != 'G1':
                self.assertEqual(counts[reply.group(1)], number, name)

    def test_requests(self):
        """The page, heads alone, and what is refused."""
        server, _ = self.told('--stop-after', '1')
        status, fields, body = self.asked('/')
        self.assertEqual((status, fields['Content-Type'], fields['Content-Length']), (200, 'text/html; charset=utf-8', str(len(body))))
        self.assertTrue(body.startswith(b'<!doctype html>'))
        self.assertNotIn(b'http', body.replace(b'/devices', b''))
        policy = fields['Content-Security-Policy']
        for tag in ('script', 'style'):
            text = re.search('<%s>(.*?)</%s>' % (tag, tag), body.decode(), re.DOTALL).group(1)
            named = base64.b64encode(hashlib.sha256(text.encode()).digest()).decode()
            self.assertIn("%s-src 'sha256-%s'" % (tag, named), policy)
        for rule in ("default-src 'none'", "base-uri 'none'", "form-action 'none'", "frame-ancestors 'none'"):
            self.assertIn(rule, policy)
        for path in ('/', '/metrics', '/devices', '/gateways', '/healthz', '/devices?limit=1', '/metrics?x'):
            self.assertEqual(self.asked(path, 'HEAD')[::2], (200, b''))
        self.assertEqual(self.asked('/healthz')[::2], (200, b'ok\n'))
        self.assertEqual([row['devEui'] for row in self.list_of('devices?after=%016x&limit=2' % EUIS[2])['devices']],
                         ['%016x' % eui for eui in EUIS[3:5]])
        self.assertEqual(self.list_of('devices?since=0')['devices'], [])
        self.assertEqual([self.asked('/devices?' + query)[0] for query in ('limit=x', 'after=%016x' % 99)], [400, 404])
        self.assertEqual(self.asked('/keys')[::2], (404, b'404 Not Found'))
        status, fields, body = self.asked('/devices', 'DELETE')
        self.assertEqual((status, fields['Allow'], body), (405, 'GET, HEAD', b'405 Method Not Allowed'))
        for text, status in ((b'nonsense\r\n\r\n', b'400'), (b'GET / HTTP/1.1\r\nA: ' + b'a' * 5000, b'431')):
            with socket.create_connection(self.where, LONGEST) as asker:
                asker.sendall(text)
                self.assertIn(b' %s ' % status, asker.recv(100))
        self.gateway(0xa1, server).send(b'')
        self.assertEqual(server.lines(), ['settled 0'])

    @unittest.skipUnless(CURL, 'curl is not installed')
    def test_tags(self):
        """A program that keeps the tag of the list is sent it again only once it has changed, as curl does by its options."""
        server, _ = self.told('--stop-after', '3')
        tags, taken = (os.path.join(self.folder, name) for name in ('tags', 'taken'))

        def fetch():
            """The status, and whether a list came. curl keeps the tag of the last list that came."""
            done = subprocess.run([CURL, '--silent', '--etag-save', tags, '--etag-compare', tags, '--output', taken, '--write-out',
                                   '%{http_code} %{size_download}', 'http://%s:%d/devices' % self.where],
                                  capture_output=True, text=True, timeout=LONGEST, check=True)
            return tuple(int(word) for word in done.stdout.split())
        status, size = fetch()
        self.assertEqual((status, size), (200, os.path.getsize(taken)))
        self.assertEqual([fetch(), fetch()], [(304, 0)] * 2)
        near, device = self.gateway(0xa1, server), self.device(3)
        near.join(device, 1)
        self.assertEqual(fetch()[0], 200)
        with open(taken, encoding='ascii') as file:
            self.assertEqual([row['devEui'] for row in json.load(file)['devices'] if row['session']], ['%016x' % 3])
        self.assertEqual(fetch(), (304, 0))
        near.heard(device.uplink(0, 1, b'x', confirmed=True))
        near.downlink()
        self.assertEqual(fetch()[0], 200)
        first, second = (self.asked('/devices', **{'If-None-Match': tag})[::2] for tag in ('"1"', '*'))
        self.assertEqual((first[0], second[0]), (200, 200))
        tag = self.asked('/devices?limit=1')[1]['ETag']
        self.assertEqual(self.asked('/devices?limit=1', **{'If-None-Match': tag})[::2], (304, b''))
        self.assertEqual(self.asked('/devices?limit=x', **{'If-None-Match': tag})[0], 400)
        near.send(b'')
        server.lines()

    def test_hosts(self):
        """Addresses, `localhost` and the name of an option are met; a page of another name is not, whatever it asks for (DNS rebinding)."""
        server, _ = self.told('--stop-after', '1', '--status-host', 'ns.example')
        for host, status in (('127.0.0.1:9108', 200), ('[::1]', 200), ('localhost', 200), ('NS.example:80', 200), ('ns.example.org', 421),
                             ('evil.example', 421), ('127.0.0.1.evil.example', 421)):
            self.assertEqual(self.asked('/devices', Host=host)[0], status, host)
        with socket.create_connection(self.where, LONGEST) as asker:
            asker.sendall(b'GET / HTTP/1.1\r\nHost: 127.0.0.1\r\nHost: evil.example\r\n\r\n')
            self.assertIn(b' 400 ', asker.recv(100))
        self.gateway(0xa1, server).send(b'')
        self.assertEqual(server.lines(), ['settled 0'])

    def test_record(self):
        """A start with a record knows the sessions and counters of before, and counts what is missed from there."""
        record = os.path.join(self.folder, 'record')
        os.mkdir(record)
        joins = self.joins(EUIS)
        server = self.serve(self.roster(EUIS), joins.where, '--window', '20', '--record', record, '--stop-after', '3', level='info')
        near = self.gateway(0xa1, server)
        device = self.device(3)
        near.join(device, 1)
        for counter in (0, 500):
            near.heard(device.uplink(counter, 1, b'x', confirmed=True))
            near.downlink()
        server.lines()
        server, _ = self.told('--record', record, '--stop-after', '1')
        rows = {row['devEui']: row for row in self.list_of('devices')['devices']}
        self.assertEqual(len(rows), 8)
        self.assertEqual(rows['%016x' % 3], {'devAddr': device.address[::-1].hex(), 'devEui': '%016x' % 3, 'fCnt': 500, 'gatewayId': None,
                                            'heardMs': None, 'missed': 0, 'session': 1, 'sinceMs': None})
        self.assertEqual(self.metrics()['sessions'], 1)
        near = self.gateway(0xa1, server)
        near.heard(device.uplink(503, 1, b'x', confirmed=True))
        near.downlink()
        server.lines()

    def test_lost(self):
        """What the system drops since the buffer of the socket is full is counted and logged."""
        server, _ = self.told('--workers', '1')
        os.kill(server.child.pid, 19)
        gateway = self.gateway(0xa1, server)
        for _ in range(3000):
            gateway.send(bytes(500))
        os.kill(server.child.pid, 18)
        server.log.wait('datagrams lost: the system dropped them')
        wait_for(lambda: self.metrics()['datagrams_total'] + self.metrics()['lost_datagrams_total'] == 3000, 'all 3,000 datagrams')
        said = [re.search('([0-9]+) datagrams lost', line) for line in list(server.log.all)]
        self.assertEqual(sum(int(found.group(1)) for found in said if found), self.metrics()['lost_datagrams_total'])

    def test_forwarders(self):
        """Counts of forwarders, and of each gateway what it sent and what was sent to it; one that sends no frame is listed."""
        server, _ = self.told('--workers', '2', '--forwarders', '127.0.0.1:0', level='debug')
        where = next(line.split()[-1] for line in server.log.all if line.split(']')[-1].startswith(' forwarders '))
        where = where.rpartition(':')[0], int(where.rpartition(':')[2])
        forwarder, quiet = (Forwarder(eui.to_bytes(8, 'big'), where) for eui in (0xa1, 0xa2))
        self.addCleanup(forwarder.close)
        self.addCleanup(quiet.close)
        quiet.pull()
        quiet.send(quiet.up, 0, b'{ "stat" : {"time":"2026-07-18 09:34:10 GMT","rxnb":0}}')
        quiet.up.recv(100)
        forwarder.pull()
        device = self.device(3)
        forwarder.push(rxpk(device.join_request(1), 1_000_000), rxpk(b'x', 1, stat=-1), rxpk(b'x', 1, freq=915.0))
        # Each field of an item in turn.
        left_out = [({'stat': -1}, 'F8, stat says that the CRC is wrong'), ({'stat': 0}, 'F9, stat says that there is no CRC'),
                    ({'stat': '1'}, 'F7, stat is missing or wrong'), ({'freq': None}, 'F7, freq is missing or wrong'),
                    ({'freq': 902.3}, 'F10, freq is not of EU868'), ({'modu': 'OFDM'}, 'F10, modu is not of EU868'),
                    ({'modu': 1}, 'F7, modu is missing or wrong'), ({'datr': 'SF7BW500'}, 'F10, datr is not of EU868'),
                    ({'datr': 7}, 'F7, datr is missing or wrong'), ({'rssi': '-95'}, 'F7, rssi is missing or wrong'),
                    ({'lsnr': []}, 'F7, lsnr is missing or wrong'), ({'tmst': -1}, 'F7, tmst is missing or wrong'),
                    ({'data': '?'}, 'F7, data or size is missing or wrong'), ({'size': 5}, 'F7, data or size is missing or wrong')]
        forwarder.push(*(rxpk(b'x', 1, **changed) for changed, _ in left_out))
        for changed, said in left_out:
            server.log.wait('frame of gateway 00000000000000a1 refused: ' + said)
        downlink = forwarder.downlink(error='TOO_LATE')
        device.accept(base64.b64decode(downlink['data']))
        wait_for(lambda: self.metrics()['forwarder_downlinks_total{outcome="TOO_LATE"}'] == 1, 'an outcome')
        metrics = self.metrics()
        self.assertEqual([metrics['forwarder_%s' % name] for name in (
            'messages_total{kind="push"}', 'messages_total{kind="pull"}', 'messages_total{kind="tx_ack"}', 'frames_total',
            'refusals_total{fault="F8"}', 'refusals_total{fault="F10"}')], [3, 2, 1, 1, 2, 4])
        rows = {row['gatewayId']: row for row in self.list_of('gateways')['gateways']}
        one, two = rows['%016x' % 0xa1], rows['%016x' % 0xa2]
        self.assertEqual((one['frames'], one['sent'], one['refused'], one['airtimeMs'], one['statMs']),
                         (1, 1, 1, airtime(downlink['size']) // 1000, None))
        self.assertIsNotNone(one['pullMs'])
        self.assertEqual((two['frames'], two['sent'], two['heardMs']), (0, 0, None))
        self.assertIsNotNone(two['pullMs'])
        self.assertIsNotNone(two['statMs'])
        self.assertIn('gateway_last_heard_timestamp_seconds{gateway="%016x"}' % 0xa2, metrics)

    @unittest.skipUnless(PROMTOOL, 'promtool is not installed (apt-get install prometheus)')
    def test_promtool(self):
        """Prometheus' own tool finds no fault in the metrics, and none in the rules; and these fire on worked series."""
        server, _ = self.told('--workers', '2', '--forwarders', '127.0.0.1:0')
        self.gateway(0xa1, server).heard(b'x')
        done = subprocess.run([PROMTOOL, 'check', 'metrics'], input=self.asked('/metrics')[2], capture_output=True, timeout=LONGEST)
        self.assertEqual((done.returncode, done.stdout, done.stderr), (0, b'', b''))
        rules = os.path.join(MONITORING, 'lorawan_ns.rules.yml')
        for words in (('check', 'rules', rules), ('test', 'rules', os.path.join(MONITORING, 'lorawan_ns.test.yml'))):
            done = subprocess.run([PROMTOOL, *words], capture_output=True, text=True, timeout=60)
            self.assertEqual(done.returncode, 0, done.stdout + done.stderr)

    def test_board(self):
        """Each metric that the rules and the Grafana board ask for is told."""
        server, _ = self.told('--workers', '2', '--forwarders', '127.0.0.1:0')
        forwarder = self.gateway(0xa1, server)
        forwarder.heard(self.device(3).join_request(1))
        forwarder.downlink()
        told = set(re.findall('^([a-z_]+)', self.asked('/metrics')[2].decode(), re.MULTILINE))
        with open(os.path.join(MONITORING, 'grafana.json'), encoding='utf-8') as file:
            board = json.load(file)
        asked = [target['expr'] for panel in board['panels'] for target in panel['targets']]
        self.assertEqual(len({panel['id'] for panel in board['panels']}), len(board['panels']))
        with open(os.path.join(MONITORING, 'lorawan_ns.rules.yml'), encoding='utf-8') as file:
            asked += [line for line in file.read().splitlines() if not line.lstrip().startswith(('#', 'summary', 'description', 'job'))]
        for text in asked:
            for name in re.findall(r'\b(?:lorawan|process)_[a-z_]+', text):
                self.assertTrue(name in told or name == 'lorawan_ns', name)

    @unittest.skipUnless(CHROMIUM, 'chromium is not installed (apt-get install chromium)')
    def test_page(self):
        """A browser runs the page's script under its policy: the tables have the devices and the gateways."""
        server, _ = self.told()
        self.network(server)
        done = subprocess.run([CHROMIUM, '--headless', '--no-sandbox', '--disable-gpu', '--virtual-time-budget=5000', '--dump-dom',
                               'http://%s:%d/' % self.where], capture_output=True, text=True, timeout=60)
        self.assertIn('running for', done.stdout)
        rows = re.findall('<td class="id"[^>]*>([0-9a-f]{16})</td>', done.stdout)
        self.assertEqual({*rows}, {'%016x' % number for number in (*EUIS, 0xa1, 0xa2)})
        self.assertIn('aria-sort="ascending"', done.stdout)
        self.assertNotIn('Content Security Policy', done.stderr)

    @unittest.skipUnless(CHROMIUM, 'chromium is not installed (apt-get install chromium)')
    def test_rebinding(self):
        """A browser in which another's name has come to lead to the server (DNS rebinding) is given nothing under that name."""
        server, _ = self.told('--status-host', 'ns.example')
        browser = Browser('--host-resolver-rules=MAP *.example 127.0.0.1')
        self.addCleanup(browser.over)
        for name, shown in (('evil.example', '421 Misdirected Request'), ('ns.example', '"devEui"'), ('127.0.0.1', '"devEui"')):
            browser.goes_to('http://%s:%d/devices' % (name, self.where[1]))
            browser.waits_for('document.readyState === "complete" && location.hostname === "%s"' % name, name)
            self.assertIn(shown, browser.of_page('document.body.innerText'))
        browser.goes_to('http://evil.example:%d/' % self.where[1])
        browser.waits_for('document.readyState === "complete" && location.hostname === "evil.example"', 'the refused page')
        self.assertEqual(browser.of_page('fetch("/devices").then(answer => answer.status)'), 421)

    def test_silent_clients(self):
        """Those that send nothing or read nothing hold nobody up, also where there are many; and the server's end waits for none."""
        server, _ = self.told('--stop-after', '2')
        gateway = self.gateway(0xa1, server)
        gateway.send(b'')
        silent = [socket.create_connection(self.where, LONGEST) for _ in range(40)]
        for other in silent:
            self.addCleanup(other.close)
        silent[-1].sendall(b'GET /devices HTTP/1.1\r\n')
        begin = time.monotonic()
        self.assertEqual(self.metrics()['datagrams_total'], 1)
        self.assertEqual(self.asked('/healthz')[0], 200)
        self.assertLess(time.monotonic() - begin, 1)
        self.assertEqual(silent[0].recv(1), b'')
        begin = time.monotonic()
        self.assertEqual(silent[-2].recv(1), b'')
        self.assertLess(time.monotonic() - begin, 4)
        with socket.create_connection(self.where, LONGEST):
            time.sleep(0.3)
            begin = time.monotonic()
            gateway.send(b'')
            self.assertEqual(server.lines(), ['settled 0'])
            self.assertLess(time.monotonic() - begin, 1.5)

    def test_side_by_side(self):
        """Sixteen that read a list slowly each get it whole."""
        server, _ = self.told('--stop-after', '1')
        askers = [socket.create_connection(self.where, LONGEST) for _ in range(16)]
        for asker in askers:
            self.addCleanup(asker.close)
            asker.sendall(b'GET /devices HTTP/1.1\r\nHost: ')
        for asker in reversed(askers):
            asker.sendall(b'localhost\r\n\r\n')
        for asker in askers:
            text = b''
            while piece := asker.recv(100):
                text += piece
            self.assertEqual(len(json.loads(text.partition(b'\r\n\r\n')[2])['devices']), 8)
        self.gateway(0xa1, server).send(b'')
        self.assertEqual(server.lines(), ['settled 0'])

    def test_bad_address(self):
        """An address that is another's ends the start with a fault, and one that is none is a bad argument."""
        taken = socket.socket()
        self.addCleanup(taken.close)
        taken.bind(('127.0.0.1', 0))
        taken.listen()
        for where, status, line in (('127.0.0.1:%d' % taken.getsockname()[1], 1, 'io'), ('there', 2, 'bad arguments: --status')):
            done = subprocess.run([PROGRAM, 'serve', self.roster(EUIS), '--join', '%s:%d' % NOWHERE, '--listen', '127.0.0.1:0', '--status', where],
                                  capture_output=True, text=True, timeout=LONGEST)
            self.assertEqual((done.returncode, done.stderr.splitlines()[-1]), (status, line))


if __name__ == '__main__':
    unittest.main()
