"""What an operator does with the Debian package, by docs/OPERATOR.md alone, in a machine that systemd has started: test_package.py has it run
there. It writes `ok`, or what went wrong, to /result."""
import glob
import gzip
import json
import os
import subprocess
import sys
import time
import traceback
import urllib.parse
import urllib.request

sys.path[:0] = ['/tools', '/tools/tests']
from live import APP_KEY, JOIN_EUI, Forwarder, rxpk  # noqa: E402

from device import Device  # noqa: E402

ROSTER, KEYS, RECORD = '/etc/lorawan_ns/roster.json', '/etc/lorawan_ns/keys', '/var/lib/lorawan_ns'
PACKAGES = sorted(glob.glob('/packages/*.deb'), key=lambda path: '.r2' in path)


def done(*words, status=0):
    """What a command writes, which ends with this status."""
    result = subprocess.run(words, capture_output=True, text=True, timeout=120, check=False)
    assert result.returncode == status, '%r: %d\n%s%s' % (words, result.returncode, result.stdout, result.stderr)
    return result.stdout + result.stderr


def wait_for(test, what):
    end = time.monotonic() + 60
    while not test():
        assert time.monotonic() < end, 'waited in vain for %s\n%s' % (what, done('journalctl', '-n', '60', '--no-pager'))
        time.sleep(0.2)


def pid():
    """The server that runs."""
    return int(done('systemctl', 'show', '-P', 'MainPID', 'lorawan_ns'))


def put(path, text, mode='w'):
    os.makedirs(os.path.dirname(path), exist_ok=True)
    with open(path, mode, encoding='ascii') as file:
        file.write(text)


def table(*euis):
    """Roster and keys of these devices, by the tool."""
    put('/srv/devices.csv', 'dev_eui,join_eui,app_key\n' + ''.join('%016x,%016x,%s\n' % (eui, JOIN_EUI, APP_KEY.hex()) for eui in euis))
    old = ['--old', ROSTER] if os.path.exists(ROSTER) else []
    done('lorawan_ns-roster-from-csv', '/srv/devices.csv', '--net-id', '000001', '--roster', ROSTER, '--keys', KEYS, *old)


class Network:
    """Devices and their gateway."""

    def __init__(self):
        self.gateway = Forwarder(bytes.fromhex('00000000000000a1'), ('127.0.0.1', 1700))
        self.gateway.up.settimeout(2)
        self.moment = 0

    def heard(self, frame):
        """Sends a frame. A server that has just begun knows where the gateway is from its next PULL_DATA on."""
        end = time.monotonic() + 60
        while True:
            try:
                self.gateway.down.settimeout(2)
                self.gateway.pull()
                self.gateway.down.settimeout(20)
                self.moment += 10_000_000
                self.gateway.push(rxpk(frame, self.moment % 2**32))
                return
            except OSError:
                assert time.monotonic() < end, 'the server hears nothing\n' + done('journalctl', '-n', '60', '--no-pager')
                time.sleep(0.2)

    def join(self, device, nonce):
        import base64
        self.heard(device.join_request(nonce))
        device.accept(base64.b64decode(self.gateway.downlink()['data']))


def ups():
    try:
        with open(RECORD + '/up', encoding='ascii') as file:
            return [line.split()[1:4] for line in file]
    except FileNotFoundError:
        return []


def commands_of(first):
    """The commands of OPERATOR's block, from this one on."""
    with gzip.open('/usr/share/doc/lorawan-ns/OPERATOR.md.gz', 'rt', encoding='utf-8') as file:
        lines = file.read().splitlines()
    lines = lines[lines.index('    ' + first):]
    return [line.strip() for line in lines[:next(place for place, line in enumerate(lines) if not line.startswith('    '))]]


def got(address, **query):
    with urllib.request.urlopen(address + ('?' + urllib.parse.urlencode(query) if query else ''), timeout=20) as answer:
        return answer.read().decode()


def answers(query):
    """What Prometheus answers to a query: the values, by the labels that are not the job's."""
    try:
        rows = json.loads(got('http://127.0.0.1:9090/api/v1/query', query=query))['data']['result']
    except OSError:
        return None
    return [row['value'][1] for row in rows]


def watches():
    """Prometheus as OPERATOR sets it up, where it is installed: it has the counts, and a rule that fires once the server is not there."""
    assert got('http://127.0.0.1:9108/healthz') == 'ok\n'
    if not os.path.exists('/usr/bin/prometheus'):
        return
    done('systemctl', 'start', 'prometheus')
    for command in commands_of('cp /usr/share/doc/lorawan-ns/examples/monitoring/lorawan_ns.rules.yml /etc/prometheus/'):
        done('bash', '-c', command)
    wait_for(lambda: answers('up{job="lorawan_ns"}') == ['1'], 'the first scrape')
    assert answers('lorawan_devices') == ['2'] and answers('lorawan_sessions') == ['2'], answers('{job="lorawan_ns"}')
    wait_for(lambda: answers('lorawan_device_last_heard_age_seconds_bucket{le="3600"}') == ['2'], 'both devices')
    rules = [rule for group in json.loads(got('http://127.0.0.1:9090/api/v1/rules'))['data']['groups'] for rule in group['rules']]
    assert len(rules) >= 11, rules
    wait_for(lambda: all(rule['health'] == 'ok' for group in json.loads(got('http://127.0.0.1:9090/api/v1/rules'))['data']['groups']
                         for rule in group['rules']), 'each rule once')
    done('systemctl', 'stop', 'lorawan_ns')
    wait_for(lambda: answers('ALERTS{alertname="LorawanServerDown"}') == ['1'], 'the alert')
    done('systemctl', 'start', 'lorawan_ns')
    wait_for(lambda: answers('up{job="lorawan_ns"}') == ['1'], 'another scrape')


def sends(network, device, counter):
    """A confirmed uplink, which is acknowledged and stands in the record."""
    network.heard(device.uplink(counter, 1, bytes([counter]), confirmed=True))
    network.gateway.downlink()
    wait_for(lambda: ['%016x' % device.eui, '1', str(counter)] in ups(), 'uplink %d' % counter)


def scenario():
    done('dpkg', '-i', PACKAGES[0])
    put('/etc/systemd/system/lorawan_ns.service.d/libraries.conf',
        '[Service]\nBindReadOnlyPaths=-/lib/x86_64-linux-gnu/libm.so.6 -/lib/x86_64-linux-gnu/libgcc_s.so.1\n')    # of an unproved build
    table(13)
    done('systemctl', 'daemon-reload')
    done('systemctl', 'enable', '--now', 'lorawan_ns_join_server', 'lorawan_ns')
    wait_for(lambda: pid() and os.path.exists(RECORD + '/up'), 'the server')
    network, first, second = Network(), Device(13, JOIN_EUI, APP_KEY), Device(14, JOIN_EUI, APP_KEY)
    network.join(first, 1)
    sends(network, first, 0)

    # A bad edit of the roster ends nothing.
    before = pid()
    with open(ROSTER, encoding='utf-8') as file:
        good = file.read()
    for bad, why in (('[', 'roster: O1'), (good.replace('"slot": 0', '"slot": 5'), 'does not fit the roster')):
        put(ROSTER, bad)
        done('systemctl', 'reload', 'lorawan_ns', status=1)
        assert why in done('journalctl', '-u', 'lorawan_ns', '--no-pager'), done('journalctl', '-u', 'lorawan_ns', '--no-pager')
        assert pid() == before, 'the server was ended by a bad roster'
    put(ROSTER, good)
    sends(network, first, 1)

    # A device more: neither server is told but by a reload, and the first device keeps its session.
    table(13, 14)
    done('systemctl', 'reload', 'lorawan_ns')
    wait_for(lambda: pid() not in (0, before), 'another server')
    sends(network, first, 2)
    network.join(second, 1)
    sends(network, second, 0)

    watches()
    assert 'Failed with result' not in done('journalctl', '-u', 'lorawan_ns', '--no-pager'), done('journalctl', '--no-pager')

    # Uplinks are handed on.
    put('/etc/lorawan_ns/follow.conf', 'OPTIONS=--exec "cat >> /var/lib/lorawan_ns_follow/taken"\n')
    done('systemctl', 'enable', '--now', 'lorawan_ns_follow')

    def taken():
        try:
            with open('/var/lib/lorawan_ns_follow/taken', encoding='ascii') as file:
                return [json.loads(line)['id'] for line in file]
        except FileNotFoundError:
            return []
    wait_for(lambda: len(taken()) == 4, 'four uplinks')
    with open('/var/lib/lorawan_ns_follow/taken', encoding='ascii') as file:
        assert all('rssi' in json.loads(line)['rxInfo'][0] for line in file), 'no RSSI'

    # An upgrade, over which the sessions last; then a kill.
    before = pid()
    done('dpkg', '-i', PACKAGES[1])
    wait_for(lambda: pid() not in (0, before), 'the new server')
    sends(network, first, 3)
    before = pid()
    done('systemctl', 'kill', '-s', 'KILL', 'lorawan_ns')
    wait_for(lambda: pid() not in (0, before), 'a server after a kill')
    sends(network, second, 1)
    wait_for(lambda: len(taken()) == 6, 'six uplinks')
    assert len(set(taken())) == 6, taken()
    assert done('systemctl', 'is-active', 'lorawan_ns', 'lorawan_ns_join_server', 'lorawan_ns_follow').split() == ['active'] * 3

    # The keys are for the join server alone, the record for the server.
    assert oct(os.stat(KEYS).st_mode & 0o777) == '0o640' and oct(os.stat(ROSTER).st_mode & 0o777) == '0o600'
    done('dpkg', '-P', 'lorawan-ns')
    assert not os.path.exists('/var/lib/private/lorawan_ns') and not os.path.exists('/etc/lorawan_ns')
    subprocess.run(['systemctl', 'is-active', 'lorawan_ns'], check=False, capture_output=True)


if __name__ == '__main__':
    try:
        scenario()
        told = 'ok'
    except BaseException:       # pylint: disable=broad-except
        told = traceback.format_exc()
    put('/result', told + '\n')
    subprocess.run(['systemctl', 'poweroff', '--no-block'], check=False)
