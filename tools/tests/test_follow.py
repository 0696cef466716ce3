"""`follow.py`: each uplink of a record is taken at least once, by a broker, a time-series store and a program, over kills of each part. The
brokers and stores are Debian's; what is not installed is skipped. LONG=1 kills each part 100 times."""
import json
import os
import random
import shutil
import signal
import socket
import sqlite3
import subprocess
import sys
import tempfile
import threading
import time
import unittest
import urllib.parse
import urllib.request

import live
from live import TOOLS
from test_serve_record import Recorded

import follow

KILLS = 100 if os.environ.get('LONG') else 6
FOLLOW = os.path.join(TOOLS, 'follow.py')
PATIENCE = 180      # seconds: a store that was killed reads its log first, which takes long on a busy machine


def wait_for(test, what):
    live.wait_for(test, what, PATIENCE)


def up_line(number, device=13):
    """The `up` line of a device's frame with this counter, whose payload is its counter too."""
    return 'up %016x 1 %d 7 plain - %08x 2 00000000000000a1,00000000000000a2\n' % (device, number, number)


def id_of(number, device=13):
    return '%016x-1-%d' % (device, number)


class Writer:
    """Writes the `up` lines of a record as a server does that is killed now and then: the last line is torn then, and the next start cuts it
    off and writes it again."""

    def __init__(self, folder, devices=3):
        self.path, self.devices, self.count, self.torn = os.path.join(folder, 'up'), devices, 0, 0

    def write(self, lines, is_killed=False):
        with open(self.path, 'ab', buffering=0) as file:
            if self.torn:
                file.truncate(os.path.getsize(self.path) - self.torn)
                self.torn = 0
            for _ in range(lines):
                file.write(up_line(self.count // self.devices, 13 + self.count % self.devices).encode())
                self.count += 1
            if is_killed:
                part = up_line(self.count // self.devices, 13 + self.count % self.devices).encode()
                self.torn = random.randrange(1, len(part))
                file.write(part[:self.torn])

    def ids(self):
        return {id_of(number // self.devices, 13 + number % self.devices) for number in range(self.count)}


class Following(unittest.TestCase):
    def setUp(self):
        folder = tempfile.TemporaryDirectory()
        self.addCleanup(folder.cleanup)
        self.folder = folder.name
        self.record = os.path.join(self.folder, 'record')
        os.mkdir(self.record)
        self.cursor = os.path.join(self.folder, 'cursor')
        self.children = []
        self.addCleanup(self.end_all)

    def end_all(self):
        for child in self.children:
            if child.poll() is None:
                child.kill()
            child.wait(PATIENCE)
            for pipe in filter(None, (child.stdout, child.stderr)):
                pipe.close()

    def run_child(self, words, **more):
        child = subprocess.Popen(words, **more)
        self.children.append(child)
        return child

    def run_server(self, words, where):
        """A broker or a store, once it answers. One that ends before, since another took its port or its folder is locked still, is started
        again."""
        for _ in range(5):
            child = self.run_child(words, stdout=subprocess.DEVNULL, stderr=subprocess.DEVNULL)
            wait_for(lambda: child.poll() is not None or answers(where), words[0])
            if child.poll() is None:
                return child
            time.sleep(1)
        self.fail('%s ends with status %d' % (words[0], child.returncode))

    def follow(self, *words):
        with open(os.path.join(self.folder, 'log'), 'a', encoding='utf-8') as log:
            return self.run_child([sys.executable, FOLLOW, self.record, self.cursor, '--longest-pause', '0.5', *words], stderr=log)

    def follow_to_end(self, *words):
        done = subprocess.run([sys.executable, FOLLOW, self.record, self.cursor, '--until-end', *words], capture_output=True, text=True,
                              timeout=60, check=False)
        self.assertEqual(done.returncode, 0, done.stderr)
        return done.stderr

    def kill(self, child, number=signal.SIGKILL):
        child.send_signal(number)
        child.wait(PATIENCE)


class ToProgram(Following):
    """A program that appends to a file, which is the receipt."""

    def setUp(self):
        super().setUp()
        self.taken = os.path.join(self.folder, 'taken')
        self.words = ['--exec', 'cat >> ' + self.taken]

    def uplinks(self):
        if not os.path.exists(self.taken):
            return []
        with open(self.taken, encoding='ascii') as file:
            return [json.loads(line) for line in file if line.endswith('\n')]

    def test_shape(self):
        """The names are those of docs/FORMATS.md; a line that is no `up` line is passed over, a torn one waits."""
        with open(os.path.join(self.record, 'up'), 'w', encoding='ascii') as file:
            file.write('listening 127.0.0.1:1700\n' + up_line(2).replace('00000002', '74657374') + up_line(3).replace('plain', 'sealed')
                       + 'up 000000000000000d 1 4 - plain 0203 - 1 00000000000000a1\nup 000000000000000d 1 5 7 pla')
        before = time.time()
        self.follow_to_end(*self.words)
        first, second, third = self.uplinks()
        moment = follow.datetime.strptime(first.pop('time'), '%Y-%m-%dT%H:%M:%S.%fZ').replace(tzinfo=follow.timezone.utc).timestamp()
        self.assertAlmostEqual(moment, before, delta=10)
        self.assertEqual(first, {'id': '000000000000000d-1-2', 'devEui': '000000000000000d', 'session': 1, 'fCnt': 2, 'fPort': 7, 'fOpts': '',
                                 'sealed': False, 'payload': '74657374', 'data': 'dGVzdA==',
                                 'rxInfo': [{'gatewayId': '00000000000000a1'}, {'gatewayId': '00000000000000a2'}]})
        self.assertTrue(second['sealed'])
        self.assertEqual((third['fOpts'], third['payload'], third['sealed'], 'fPort' in third), ('0203', '', False, False))

    def test_decode(self):
        decode = os.path.join(self.folder, 'decode.py')
        with open(decode, 'w', encoding='ascii') as file:
            file.write('def decode(payload, port, dev_eui):\n    return {"count": int.from_bytes(payload, "big"), "port": port}\n')
        Writer(self.record).write(7)
        self.follow_to_end(*self.words, '--decode', decode, '--name', 'north')
        last = self.uplinks()[-1]
        self.assertEqual((last['object'], last['id']), ({'count': 2, 'port': 7}, 'north-' + id_of(2)))

    def test_refused_batch(self):
        """A program that ends with another status has not taken its batch: it is handed on again, with the same times."""
        Writer(self.record).write(5)
        again = os.path.join(self.folder, 'again')
        self.words = ['--exec', 'cat >> %s; test -e %s || { touch %s; exit 3; }' % (self.taken, again, again)]
        self.assertIn('status 3', self.follow_to_end(*self.words))
        uplinks = self.uplinks()
        self.assertEqual(len(uplinks), 10)
        self.assertEqual(uplinks[:5], uplinks[5:])
        self.assertEqual(len({(uplink['devEui'], uplink['time']) for uplink in uplinks}), 5)

    def test_from_end(self):
        writer = Writer(self.record)
        writer.write(6)
        self.follow_to_end(*self.words, '--from-end')
        writer.write(3)
        self.follow_to_end(*self.words)
        self.assertEqual([uplink['fCnt'] for uplink in self.uplinks()], [2, 2, 2])

    def test_rotations(self):
        """The file is renamed, also while no follower runs, and twice; then it is cut."""
        writer = Writer(self.record)
        for turn in range(4):
            writer.write(10)
            if turn != 1:
                self.follow_to_end(*self.words)
            writer.write(10)
            os.rename(writer.path, os.path.join(self.record, 'up.%d' % (turn + 1)))
            time.sleep(0.02)
        writer.write(10)
        self.follow_to_end(*self.words)
        ids = [uplink['id'] for uplink in self.uplinks()]
        self.assertEqual((len(ids), set(ids)), (len(set(ids)), writer.ids()))
        os.truncate(writer.path, 0)
        writer.write(4)
        self.follow_to_end(*self.words)
        self.assertLessEqual(writer.ids(), {uplink['id'] for uplink in self.uplinks()})

    def test_copytruncate(self):
        """A file that is cut under a running follower and at once as long again: its new lines are taken."""
        writer = Writer(self.record)
        self.follow(*self.words)
        for _ in range(5):
            writer.write(30)
            wait_for(lambda: writer.ids() <= {uplink['id'] for uplink in self.uplinks()}, 'all lines')
            os.truncate(writer.path, 0)
            writer.write(random.choice([1, 31, 60]))
        wait_for(lambda: writer.ids() <= {uplink['id'] for uplink in self.uplinks()}, 'all lines')

    def test_kills(self):
        """The follower, the writer and the program are killed."""
        writer, child = Writer(self.record), self.follow(*self.words)
        for turn in range(KILLS):
            writer.write(random.randrange(1, 40), turn % 3 == 0)
            time.sleep(random.random() / 10)
            self.kill(child)
            child = self.follow(*self.words)
        writer.write(1)
        wait_for(lambda: writer.ids() <= {uplink['id'] for uplink in self.uplinks()}, 'all lines')

    def test_readings(self):
        """The table of readings.py has a row for each uplink, also of those that are handed on twice."""
        table = os.path.join(self.folder, 'readings.db')
        writer = Writer(self.record)
        writer.write(9)
        for _ in range(2):
            self.follow_to_end('--exec', '%s %s %s' % (sys.executable, os.path.join(TOOLS, 'readings.py'), table))
            os.remove(self.cursor)
        with sqlite3.connect(table) as rows:
            found = rows.execute('SELECT device, session, counter, value FROM readings').fetchall()
        self.assertEqual(sorted(found), sorted(('%016x' % eui, 1, number, number) for eui in (13, 14, 15) for number in range(3)))

    def test_one_at_a_time(self):
        Writer(self.record).write(1)
        self.follow(*self.words)
        wait_for(self.uplinks, 'the first uplink')
        done = subprocess.run([sys.executable, FOLLOW, self.record, self.cursor, *self.words], capture_output=True, text=True, timeout=20,
                              check=False)
        self.assertEqual((done.returncode, done.stderr), (1, 'cannot begin: %s is held by another follower\n' % self.cursor))

    def test_good_end(self):
        Writer(self.record).write(1)
        child = self.follow(*self.words)
        wait_for(self.uplinks, 'the first uplink')
        self.kill(child, signal.SIGTERM)
        self.assertEqual(child.returncode, 0)


class FromServer(Recorded):
    """The record of a real server that is killed again and again."""

    def test_radio(self):
        """With --radio each uplink has what `serve --output json` says of it, but for its times."""
        taken = os.path.join(self.folder, 'taken')
        joins, roster = self.joins([13, 14]), self.roster([13, 14])
        server = self.life(roster, joins.where, '--output', 'json')
        gateway, *devices = self.joined(server, 13, 14)
        other = self.gateway(0xa2, server)
        for counter in range(4):
            for device in devices:
                frame = device.uplink(counter, 7, b'test', confirmed=counter % 2 == 0)
                gateway.heard(frame, snr=75 - counter)
                other.heard(frame, snr=80)
        server.out.wait('devEui', 8)
        words = [sys.executable, FOLLOW, self.record, self.folder + '/cursor', '--until-end', '--exec', 'cat >> ' + taken, '--radio', roster]
        subprocess.run(words, check=True, timeout=60)
        said = {}
        for line in server.out.all:
            uplink = json.loads(line)
            said['%s-%d-%d' % (uplink['devEui'], uplink['session'], uplink['fCnt'])] = uplink
        with open(taken, encoding='ascii') as file:
            uplinks = [json.loads(line) for line in file]
        self.assertEqual(len(uplinks), 8)
        for uplink in uplinks:
            live = said[uplink.pop('id')]
            for name in ('time', 'writtenAt'):
                live.pop(name), uplink.pop(name, None)
            self.assertEqual(uplink, live)
        event = follow.chirpstack({**uplinks[0], 'id': 'x', 'time': 'y'}, 'meters')
        self.assertEqual((event['txInfo']['modulation'], event['dr'], event['rxInfo'][0]['snr'], event['devAddr']),
                         ({'lora': {'bandwidth': 125000, 'spreadingFactor': 7, 'codeRate': 'CR_4_5'}}, 5, uplinks[0]['rxInfo'][0]['snr'], uplinks[0]['devAddr']))
        message = follow.things_stack({**uplinks[0], 'id': 'x', 'time': 'y'}, 'meters')['uplink_message']
        self.assertEqual(message['settings'], {'data_rate': {'lora': {'bandwidth': 125000, 'spreading_factor': 7}}, 'frequency': '868100000'})
        self.assertIn(',snr=8.0,dr=5i,', follow.point_of({**uplinks[0], 'id': 'x', 'time': '2026-12-01T00:00:00.000Z'}, 'uplink'))

    def test_kills(self):
        taken, cursor = os.path.join(self.folder, 'taken'), os.path.join(self.folder, 'cursor')
        words = [sys.executable, FOLLOW, self.record, cursor, '--longest-pause', '0.5', '--exec', 'cat >> ' + taken]

        def begin():
            child = subprocess.Popen(words, stderr=subprocess.DEVNULL)
            self.addCleanup(child.wait, PATIENCE)
            self.addCleanup(child.kill)
            return child

        def ids():
            if not os.path.exists(taken):
                return []
            with open(taken, encoding='ascii') as file:
                return [json.loads(line)['id'] for line in file if line.endswith('\n')]
        joins, roster = self.joins([13, 14, 15]), self.roster([13, 14, 15])
        server, child, counter = self.life(roster, joins.where), begin(), 0
        gateway, *devices = self.joined(server, 13, 14, 15)
        for turn in range(KILLS):
            for _ in range(10):
                for device in devices:
                    gateway.heard(device.uplink(counter, 1, bytes([counter % 256])))
                counter += 1
                time.sleep(0.01)
            time.sleep(random.random() / 5)
            self.kill(server)
            child.kill()
            child.wait(PATIENCE)
            child = begin()
            server = self.life(roster, joins.where)
            gateway = self.gateway(0xa1, server)
        for device in devices:
            gateway.heard(device.uplink(counter, 1, b'last'))
        server.out.wait('up ', 3)
        self.kill(server)
        uplinks = {'%s-%s-%s' % tuple(line.split()[1:4]) for line in self.lines(self.ups)}
        self.assertGreater(len(uplinks), 3 * KILLS)
        wait_for(lambda: uplinks <= set(ids()), 'all uplinks of the record')
        self.assertEqual(set(ids()), uplinks)


class Subscriber(threading.Thread):
    """Keeps what a broker hands out, by MQTT 3.1.1 with a session that stays."""

    def __init__(self, where, topic):
        super().__init__(daemon=True)
        self.where, self.topic, self.messages, self.is_over, self.is_there = where, topic, [], False, threading.Event()
        self.start()

    def run(self):
        while not self.is_over:
            try:
                self.session()
            except (OSError, follow.NotTaken):
                self.is_there.clear()
                time.sleep(0.02)

    def session(self):
        with socket.create_connection(self.where, timeout=5) as sock:
            reader = follow.Mqtt.__new__(follow.Mqtt)
            reader.socket, reader.input = sock, b''
            sock.sendall(follow.mqtt_packet(0x10, follow.mqtt_text('MQTT') + bytes([4, 0, 0, 0]) + follow.mqtt_text('subscriber')))
            assert reader.packet(5)[0] == 0x20
            sock.sendall(follow.mqtt_packet(0x82, b'\0\1' + follow.mqtt_text(self.topic) + b'\1'))
            while not self.is_over:
                try:
                    kind, body = reader.packet(0.5)
                except socket.timeout:
                    continue
                if kind == 0x90:
                    self.is_there.set()
                elif kind & 0xF0 == 0x30:
                    size = int.from_bytes(body[:2], 'big')
                    self.messages.append((body[2:2 + size].decode(), json.loads(body[4 + size:])))
                    sock.sendall(b'\x40\x02' + body[2 + size:4 + size])

    def over(self):
        self.is_over = True
        self.join(PATIENCE)


def free_port():
    with socket.socket() as sock:
        sock.bind(('127.0.0.1', 0))
        return sock.getsockname()[1]


def answers(where):
    try:
        socket.create_connection(where, timeout=1).close()
        return True
    except OSError:
        return False


MOSQUITTO = shutil.which('mosquitto') or shutil.which('mosquitto', path='/usr/sbin')


@unittest.skipUnless(MOSQUITTO, 'mosquitto is not installed')
class ToBroker(Following):
    def setUp(self):
        super().setUp()
        self.where = '127.0.0.1', free_port()
        self.configuration = os.path.join(self.folder, 'mosquitto.conf')
        self.more = ''
        self.broker = None

    def begin_broker(self):
        with open(self.configuration, 'w', encoding='ascii') as file:
            file.write('listener %d 127.0.0.1\nallow_anonymous %s\npersistence true\npersistence_location %s/\nmax_queued_messages 0\n'
                       'user root\n%s' % (self.where[1], 'false' if self.more else 'true', self.folder, self.more))
        self.broker = self.run_server([MOSQUITTO, '-c', self.configuration], self.where)

    def subscribe(self, topic):
        subscriber = Subscriber(self.where, topic)
        self.addCleanup(subscriber.over)
        self.assertTrue(subscriber.is_there.wait(PATIENCE))
        return subscriber

    def mqtt(self, *words):
        return '--mqtt', '%s:%d' % self.where, *words

    def test_shapes(self):
        """The topics and fields by which ChirpStack's and The Things Stack's integrations find an uplink."""
        self.begin_broker()
        subscriber = self.subscribe('#')
        with open(os.path.join(self.record, 'up'), 'w', encoding='ascii') as file:
            file.write(up_line(2).replace('00000002', '74657374'))
        for shape, application in (('plain', 'lorawan'), ('chirpstack', 'meters'), ('tts', 'meters@ttn')):
            self.follow_to_end(*self.mqtt('--shape', shape, '--application', application))
            os.remove(self.cursor)
        wait_for(lambda: len(subscriber.messages) == 3, 'three messages')
        (plain, first), (chirpstack, second), (tts, third) = subscriber.messages
        self.assertEqual((plain, chirpstack, tts), ('lorawan/000000000000000d/up', 'application/meters/device/000000000000000d/event/up',
                                                    'v3/meters@ttn/devices/eui-000000000000000d/up'))
        self.assertEqual((first['id'], first['data']), (id_of(2), 'dGVzdA=='))
        self.assertEqual((second['deviceInfo']['devEui'], second['deviceInfo']['applicationId'], second['fCnt'], second['fPort'], second['data']),
                         ('000000000000000d', 'meters', 2, 7, 'dGVzdA=='))
        self.assertEqual(second['deduplicationId'], str(follow.uuid.uuid5(follow.NAMESPACE, id_of(2))))
        self.assertEqual((third['end_device_ids']['application_ids']['application_id'], third['end_device_ids']['device_id']),
                         ('meters', 'eui-000000000000000d'))
        self.assertEqual({name: third['uplink_message'][name] for name in ('f_port', 'f_cnt', 'frm_payload')},
                         {'f_port': 7, 'f_cnt': 2, 'frm_payload': 'dGVzdA=='})

    def test_kills(self):
        """The follower and the writer are killed and the broker is ended and started again, while the subscriber keeps its session."""
        self.begin_broker()
        subscriber, writer = self.subscribe('lorawan/+/up'), Writer(self.record)
        child = self.follow(*self.mqtt())
        for turn in range(KILLS):
            writer.write(random.randrange(1, 200), turn % 3 == 0)
            time.sleep(random.random() / 5)
            self.kill(child)
            if turn % 2:
                self.kill(self.broker, signal.SIGTERM)      # at which it writes its sessions; what it has taken is its own to keep
                self.begin_broker()
            child = self.follow(*self.mqtt())
        for _ in range(KILLS // 2):
            writer.write(random.randrange(1, 200))
            time.sleep(random.random() / 5)
            self.kill(self.broker, signal.SIGTERM)
            time.sleep(random.random() / 5)
            self.begin_broker()
        wait_for(lambda: writer.ids() <= {message['id'] for _, message in list(subscriber.messages)}, 'all uplinks')
        self.assertIsNone(child.poll())

    def test_password(self):
        password = os.path.join(self.folder, 'password')
        with open(password, 'w', encoding='ascii') as file:
            file.write('secret\n')
        users = os.path.join(self.folder, 'users')
        subprocess.run(['mosquitto_passwd', '-c', '-b', users, 'meters', 'secret'], check=True, capture_output=True)
        self.more = 'password_file %s\n' % users
        self.begin_broker()
        Writer(self.record).write(3)
        self.follow_to_end(*self.mqtt('--user', 'meters', '--password-file', password))
        os.remove(self.cursor)
        child = self.follow(*self.mqtt('--user', 'meters'))
        time.sleep(1)
        self.assertFalse(os.path.exists(self.cursor))
        self.assertIsNone(child.poll())

    def test_tls(self):
        """With a certificate on both sides."""
        if not shutil.which('openssl'):
            self.skipTest('openssl is not installed')
        at = lambda name: os.path.join(self.folder, name)
        subprocess.run(['openssl', 'req', '-x509', '-newkey', 'rsa:2048', '-nodes', '-keyout', at('ca.key'), '-out', at('ca.crt'), '-days', '2',
                        '-subj', '/CN=ca'], check=True, capture_output=True)
        with open(at('names'), 'w', encoding='ascii') as file:
            file.write('subjectAltName=IP:127.0.0.1')
        for name in ('broker', 'follower'):
            subprocess.run(['openssl', 'req', '-newkey', 'rsa:2048', '-nodes', '-keyout', at(name + '.key'), '-out', at(name + '.csr'), '-subj',
                            '/CN=' + name], check=True, capture_output=True)
            subprocess.run(['openssl', 'x509', '-req', '-in', at(name + '.csr'), '-CA', at('ca.crt'), '-CAkey', at('ca.key'), '-CAcreateserial',
                            '-out', at(name + '.crt'), '-days', '2', '-extfile', at('names')], check=True, capture_output=True)
        self.more = ('cafile %s\ncertfile %s\nkeyfile %s\nrequire_certificate true\nuse_identity_as_username true\n'
                     % (at('ca.crt'), at('broker.crt'), at('broker.key')))
        self.begin_broker()
        Writer(self.record).write(3)
        self.follow_to_end(*self.mqtt('--ca', at('ca.crt'), '--cert', at('follower.crt'), '--key', at('follower.key')))
        os.remove(self.cursor)
        self.follow(*self.mqtt('--ca', at('ca.crt')))
        time.sleep(1)
        self.assertFalse(os.path.exists(self.cursor))


def get(where, target, **query):
    """The body of a GET."""
    with urllib.request.urlopen('http://%s:%d%s?%s' % (*where, target, urllib.parse.urlencode(query)), timeout=PATIENCE) as answer:
        return answer.read().decode()


class ToStore(Following):
    def store_kills(self, begin, count, number):
        """Kills the store and the follower by turns; `count` says how many points there are."""
        store, writer = begin(), Writer(self.record)
        child = self.follow(*self.words)
        for turn in range(2 * KILLS):
            writer.write(random.randrange(1, 100), turn % 3 == 0)
            time.sleep(random.random() / 5)
            if turn % 2:
                self.kill(store, number)
                store = begin()
            else:
                self.kill(child)
                child = self.follow(*self.words)
        try:
            wait_for(lambda: self.is_taken(writer), 'the cursor at the end')
        except AssertionError:
            with open(os.path.join(self.folder, 'log'), encoding='utf-8') as log:
                self.fail(log.read()[-2000:])
        wait_for(lambda: count() >= writer.count, 'all points')
        self.assertEqual(count(), writer.count)

    def is_taken(self, writer):
        if not os.path.exists(self.cursor):
            return False
        with open(self.cursor, encoding='ascii') as file:
            return json.load(file)['offset'] == os.path.getsize(writer.path) - writer.torn

    @unittest.skipUnless(shutil.which('influxd'), 'influxdb is not installed')
    def test_influxdb(self):
        """It has a log of what it took: killed as hard as can be, it has each point once, also those that were handed on twice."""
        where, rpc = ('127.0.0.1', free_port()), free_port()
        with open(os.path.join(self.folder, 'influxdb.conf'), 'w', encoding='ascii') as file:
            file.write('reporting-disabled = true\nbind-address = "127.0.0.1:%d"\n[meta]\ndir = "%s/meta"\n[data]\ndir = "%s/data"\nwal-dir = "%s/wal"\n'
                       '[http]\nbind-address = "127.0.0.1:%d"\n' % (rpc, self.folder, self.folder, self.folder, where[1]))
        self.words = ['--influx', 'http://127.0.0.1:%d/write?db=lorawan' % where[1]]

        def begin():
            store = self.run_server(['influxd', '-config', os.path.join(self.folder, 'influxdb.conf')], where)
            urllib.request.urlopen('http://%s:%d/query' % where, data=b'q=CREATE DATABASE lorawan', timeout=PATIENCE).close()
            return store

        def count():
            try:
                rows = json.loads(get(where, '/query', db='lorawan', q='SELECT count(fcnt) FROM uplink'))['results'][0]
            except OSError:
                return 0
            return rows['series'][0]['values'][0][1] if 'series' in rows else 0
        self.store_kills(begin, count, signal.SIGKILL)

    @unittest.skipUnless(shutil.which('victoria-metrics'), 'victoria-metrics is not installed')
    def test_victoria_metrics(self):
        """It keeps the newest points in memory for seconds: it is ended, and not killed. One point an uplink, and no two in a millisecond."""
        where = '127.0.0.1', free_port()
        self.words = ['--influx', 'http://127.0.0.1:%d/write' % where[1]]

        def begin():
            return self.run_server(['victoria-metrics', '-httpListenAddr=127.0.0.1:%d' % where[1], '-storageDataPath=' + self.folder + '/vm',
                                    '-retentionPeriod=1', '-search.latencyOffset=0s'], where)

        def count():
            try:
                rows = [json.loads(line) for line in get(where, '/api/v1/export', **{'match[]': 'uplink_fcnt'}).splitlines()]
            except OSError:
                return 0
            return sum(len(set(zip(row['timestamps'], row['values']))) for row in rows)
        self.store_kills(begin, count, signal.SIGTERM)


if __name__ == '__main__':
    unittest.main()
