"""The page of the status as its reader sees it, in a browser: 0 to 65,536 devices, light and dark, a phone and a screen, by keyboard, with a
selection, and when the server is gone. A stand-in serves the page of the crate under the server's own policy, with devices of its own. SHOTS=FOLDER
keeps pictures."""
import base64
import http.server
import itertools
import json
import os
import re
import threading
import time
import unittest
import urllib.parse

from browser import CHROMIUM, Browser
from live import TOOLS

CRATE = os.path.join(os.path.dirname(TOOLS), 'crates', 'ns_status', 'src')
START_MS, BEGAN = 1_764_016_995_123, 1_764_017_000


def text_of(file, front, end):
    """A text of the crate between two marks."""
    with open(os.path.join(CRATE, file), encoding='utf-8') as source:
        return source.read().partition(front)[2].partition(end)[0]


PAGE = text_of('page.rt', 'r##"', '"##;')
POLICY = re.search(r'Content-Security-Policy: ([^\\]*)\\r', text_of('response.rt', 'const FIELDS: &str =', ';\n')).group(1)
COUNTS = '''process_start_time_seconds %d
lorawan_devices %d
lorawan_gateways 2
lorawan_open_windows 3
lorawan_open_tickets 0
lorawan_datagrams_total 12345
lorawan_lost_datagrams_total 0
lorawan_dropped_datagrams_total 0
lorawan_failed_receives_total 0
lorawan_replies_total{reply="opened"} 1234567
lorawan_replies_total{reply="copied"} 0
lorawan_replies_total{reply="accepted"} 8
lorawan_refusals_total{fault="G1"} 0
lorawan_forwarder_refusals_total{fault="F8"} 7
lorawan_device_last_heard_age_seconds_bucket{le="90000"} %d
lorawan_device_last_heard_age_seconds_bucket{le="+Inf"} %d
'''


class Stand(http.server.ThreadingHTTPServer):
    """A server with so many devices. `counter` is the last FCnt of each, `is_silent` that it does not answer; `sizes` has the length of each
    list of devices that it sent, `moved` of each list of those that changed."""
    daemon_threads, request_queue_size = True, 64

    def __init__(self, devices, where=('127.0.0.1', 0)):
        super().__init__(where, Handler)
        self.devices, self.counter, self.is_silent, self.sizes, self.moved, self.since = devices, 7, False, [], [], []
        self.where = self.server_address
        self.thread = threading.Thread(target=self.serve_forever, kwargs={'poll_interval': 0.05}, daemon=True)
        self.thread.start()

    def handle_error(self, request, client_address):
        """A page that asks no longer has closed its connection."""

    def over(self):
        self.shutdown()
        self.server_close()

    def device(self, number):
        """One of three has not joined, one was not heard since the start, and one misses two."""
        kind = number % 3
        return {'devAddr': None if kind == 0 else '%08x' % number, 'devEui': '%016x' % (0x70b3d57ed0000000 + number),
                'fCnt': None if kind == 0 else self.counter, 'gatewayId': '00000000000000a1' if kind == 2 else None,
                'heardMs': 60_000 + number % 1000 if kind == 2 else None, 'missed': 2 if kind == 2 else 0, 'session': None if kind == 0 else 1,
                'sinceMs': None if kind == 0 else 1_000}

    def rows(self, query):
        after = int(query['after'], 16) - 0x70b3d57ed0000000 if 'after' in query else -1
        since = int(query['since']) if 'since' in query else None
        if since is not None:
            self.since.append(since)
        wanted = (self.device(number) for number in range(after + 1, self.devices))
        # Of what is asked for since a moment only the third device changes.
        wanted = (row for row in wanted if since is None or row['devEui'].endswith('02'))
        return list(itertools.islice(wanted, int(query.get('limit', self.devices))))


class Handler(http.server.BaseHTTPRequestHandler):
    def log_message(self, *words):
        pass

    def do_GET(self):
        stand = self.server
        while stand.is_silent:
            time.sleep(0.05)
        path, _, query = self.path.partition('?')
        front = {'nowMs': 3_600_000, 'startMs': START_MS}
        kind = 'application/json'
        if path == '/':
            kind, text = 'text/html; charset=utf-8', PAGE
        elif path == '/metrics':
            heard = sum(number % 3 == 2 for number in range(stand.devices))
            kind, text = 'text/plain', COUNTS % (BEGAN, stand.devices, heard, heard)
        elif path == '/devices':
            text = json.dumps({**front, 'devices': stand.rows(dict(urllib.parse.parse_qsl(query)))})
            (stand.moved if 'since=' in query else stand.sizes).append(len(text))
        elif path == '/gateways':
            rows = [{'airtimeMs': 41, 'frames': 5, 'gatewayId': '%016x' % eui, 'heardMs': 60_000, 'pullMs': 60_500, 'refused': eui & 1, 'sent': 3,
                     'statMs': None} for eui in (0xa1, 0xa2)]
            text = json.dumps({**front, 'gateways': rows})
        else:
            self.send_error(404)
            return
        self.send_response(200)
        for name, value in (('Content-Type', kind), ('Content-Length', str(len(text.encode()))), ('Cache-Control', 'no-store'),
                            ('Content-Security-Policy', POLICY)):
            self.send_header(name, value)
        self.end_headers()
        self.wfile.write(text.encode())


# The contrast of each text with what is behind it (WCAG 2.1, 1.4.3), of those that are under 4.5.
CONTRASTS = r'''(() => {
  const part = c => { c /= 255; return c <= 0.03928 ? c / 12.92 : ((c + 0.055) / 1.055) ** 2.4; };
  const colour = text => (text.match(/[\d.]+/g) || []).map(Number);
  const light = c => 0.2126 * part(c[0]) + 0.7152 * part(c[1]) + 0.0722 * part(c[2]);
  const behind = e => { for (; e; e = e.parentElement) { const c = colour(getComputedStyle(e).backgroundColor); if (c.length === 3 || c[3] > 0) return c; } return [255, 255, 255]; };
  const faults = [];
  const walk = document.createTreeWalker(document.body, NodeFilter.SHOW_TEXT);
  let count = 0;
  while (walk.nextNode()) {
    const e = walk.currentNode.parentElement;
    if (!walk.currentNode.data.trim() || ["SCRIPT", "STYLE", "NOSCRIPT"].includes(e.tagName) || e.getClientRects().length === 0) continue;
    count += 1;
    const a = light(colour(getComputedStyle(e).color)), b = light(behind(e)), contrast = (Math.max(a, b) + 0.05) / (Math.min(a, b) + 0.05);
    if (contrast < 4.5) faults.push([walk.currentNode.data.slice(0, 30), contrast]);
  }
  const hint = getComputedStyle(document.getElementById("find"), "::placeholder");
  const a = light(colour(hint.color)), b = light(behind(document.body)), contrast = (Math.max(a, b) + 0.05) / (Math.min(a, b) + 0.05);
  if (contrast < 4.5 || hint.opacity !== "1") faults.push(["the search's hint", contrast]);
  return [count, faults];
})()'''


@unittest.skipUnless(CHROMIUM, 'chromium is not installed (apt-get install chromium)')
class Page(unittest.TestCase):
    @classmethod
    def setUpClass(cls):
        cls.browser = Browser()
        cls.addClassCleanup(cls.browser.over)

    def shows(self, devices, width=1280, scheme='light'):
        """A stand-in whose page the browser shows."""
        stand = Stand(devices)
        self.addCleanup(stand.over)
        self.browser.looks(width, scheme=scheme)
        self.browser.log.clear()
        self.browser.goes_to('http://127.0.0.1:%d/' % stand.where[1])
        self.browser.waits_for('document.querySelector("#state")?.textContent.startsWith("running for")', 'the first answer')
        self.assertEqual(self.browser.log, [])
        return stand

    def of_page(self, expression):
        return self.browser.of_page(expression)

    def texts(self, selector):
        return self.of_page('[...document.querySelectorAll(%s)].map(e => e.textContent)' % json.dumps(selector))

    def picture(self, name):
        if os.environ.get('SHOTS'):
            shot = self.browser.asks('Page.captureScreenshot', format='png', captureBeyondViewport=True)
            with open(os.path.join(os.environ['SHOTS'], name + '.png'), 'wb') as file:
                file.write(base64.b64decode(shot['data']))

    def test_sizes(self):
        """No device, a few, and as many as a server may have; on a phone and on a screen; light and dark: nothing is wider than the window, each
        text is legible, and a phone shows DevEUI, when it was heard and what was missed."""
        for devices in (0, 8, 1000, 65536):
            for width, scheme in ((320, 'light'), (1280, 'dark')) if devices in (0, 1000) else ((320, 'dark'), (1280, 'light')):
                with self.subTest(devices=devices, width=width, scheme=scheme):
                    self.shows(devices, width, scheme)
                    self.picture('%d-%d-%s' % (devices, width, scheme))
                    self.assertLessEqual(self.of_page('document.documentElement.scrollWidth'), width)
                    self.assertEqual(self.of_page('document.querySelectorAll("#devices tbody tr").length'), max(1, min(devices, 200)))
                    if devices == 0:
                        self.assertEqual(self.texts('#devices tbody'), ['The roster has no device.'])
                    if devices == 65536:
                        self.assertIn('200 of 65\u2009536 are shown', self.of_page('document.body.innerText'))
                    count, faults = self.of_page(CONTRASTS)
                    self.assertGreater(count, 40)
                    self.assertEqual(faults, [])
                    self.assertEqual(self.texts('#devices thead button')[:3], ['DevEUI', 'Heard', 'Missed'])
                    if devices and width == 320:
                        self.assertLessEqual(self.of_page('document.querySelector("#devices tbody tr").cells[2].getBoundingClientRect().right'), 320)

    def test_keyboard(self):
        """A table is sorted by keys alone, and says by which column and which way."""
        self.shows(8)
        self.of_page('document.getElementById("find").focus()')
        self.browser.presses('Tab', number=9)
        sorts = '[...document.querySelectorAll("#devices th")].map(e => e.getAttribute("aria-sort"))'
        self.assertEqual(self.of_page('document.activeElement.textContent'), 'DevEUI')
        first = self.texts('#devices tbody td:first-child')
        self.assertEqual(self.of_page(sorts)[0], 'ascending')
        self.browser.presses('Enter', number=13)
        self.assertEqual(self.of_page(sorts)[0], 'descending')
        self.assertEqual(self.texts('#devices tbody td:first-child'), first[::-1])
        for _ in range(2):
            self.browser.presses('Tab', number=9)
        self.assertEqual(self.of_page('document.activeElement.textContent'), 'Missed')
        self.browser.presses(' ', 'Space', 32)
        self.assertEqual(self.of_page(sorts)[:3], [None, None, 'ascending'])
        self.assertEqual(self.of_page('document.activeElement.textContent'), 'Missed')

    def test_search(self):
        """As EUIs are written elsewhere: with `0x`, in capitals, with colons or hyphens; by the address and by the gateway."""
        self.shows(1000)
        for word, count in (('0x70B3D57ED0000005', 1), ('70:b3:d5:7e:d0:00:00:05', 1), ('70-B3-D5-7E-D0-00-00-05', 1), (' 000003e5', 1), ('ffff', 0),
                            ('00000000000000A1', 200)):
            self.of_page('(() => { const e = document.getElementById("find"); e.value = ""; e.focus(); })()')
            self.browser.types(word)
            self.assertEqual(self.of_page('document.querySelectorAll("#devices tbody td.id:first-child").length'), count, word)

    def test_selection(self):
        """What a reader has selected stays selected while the page asks again; then it goes on."""
        stand = self.shows(8)
        self.of_page('getSelection().selectAllChildren(document.querySelector("#devices tbody").rows[2])')
        chosen = self.of_page('getSelection().toString()')
        self.assertIn('70b3d57ed0000002', chosen)
        asked, stand.counter = len(stand.since), 99
        self.wait_for(lambda: len(stand.since) > asked + 1, 'two more questions')
        self.assertEqual(self.of_page('getSelection().toString()'), chosen)
        self.assertNotIn('99', self.texts('#devices td'))
        self.of_page('getSelection().removeAllRanges()')
        self.browser.waits_for('[...document.querySelectorAll("#devices td")].some(e => e.textContent === "99")', 'the new counter')

    def wait_for(self, test, what):
        end = time.monotonic() + 60
        while not test():
            self.assertLess(time.monotonic(), end, what)
            time.sleep(0.1)

    def test_little_is_moved(self):
        """A page that stays open on 65,536 devices asks for all of them once, in pieces, and then for what is new."""
        stand = self.shows(65536)
        self.wait_for(lambda: len(stand.since) >= 2, 'two more questions')
        self.assertEqual(len(stand.sizes), 9)
        self.assertLess(max(stand.moved), 100_000)
        self.assertGreater(sum(stand.sizes), 9_000_000)

    def test_gone(self):
        """When the server is gone or silent, the title says so, what is old is dimmed, and a reader of the screen is told; and then that it is back."""
        stand = self.shows(8)
        self.assertEqual(self.of_page('document.title'), 'LoRaWAN network server')
        dim = 'Number(getComputedStyle(document.querySelector("main")).opacity)'
        self.assertEqual(self.of_page(dim), 1)
        where = stand.where
        stand.over()
        self.browser.waits_for('document.title.startsWith("No answer")', 'the title')
        self.assertLess(self.of_page(dim), 0.7)
        self.assertEqual(self.texts('[role=status][aria-live]'), ['The server gives no answer. What is shown is old.'])
        self.assertEqual(self.of_page('document.querySelectorAll("#devices tbody tr").length'), 8)
        stand = Stand(8, where)
        self.addCleanup(stand.over)
        self.browser.waits_for('!document.title.startsWith("No answer")', 'the title of before')
        self.assertEqual(self.texts('[role=status][aria-live]'), ['The server answers again.'])
        self.assertEqual(self.of_page(dim), 1)
        stand.is_silent = True
        self.browser.waits_for('document.querySelector("#state").textContent.startsWith("no answer within 15 s")', 'the time limit')
        stand.is_silent = False
        self.browser.waits_for('document.querySelector("#state").textContent.startsWith("running for")', 'an answer')

    def test_words(self):
        """Tables have names; counts are grouped, each with a line that explains it, and those that are 0 are folded; the start's time is the
        start's; and who has no JavaScript is told where to look."""
        self.shows(8)
        for table, name in (('devices', 'Devices'), ('gateways', 'Gateways')):
            self.assertEqual(self.of_page('document.getElementById(document.getElementById("%s").getAttribute("aria-labelledby")).textContent' % table), name)
        self.assertEqual(self.texts('#counts h3'), ['Uplinks', 'Joins', 'Datagrams', 'Packet forwarders'])
        shown = self.of_page('[...document.querySelectorAll("#counts > dl div")].map(e => [...e.children].map(c => c.textContent))')
        self.assertIn(['new uplinks', '1\u2009234\u2009567', 'frames with a new counter; each is written once'], shown)
        self.assertEqual([row for row in shown if row[1] == '0'], [])
        self.assertTrue(self.of_page('[...document.querySelectorAll("#counts details")].every(e => !e.open)'))
        self.assertIn('copies', self.texts('#counts details dt'))
        self.assertIn('uplinks waiting for copies', self.texts('#tiles span'))
        self.assertIn('of 8 devices heard within 25 h', self.texts('#tiles span'))
        self.assertEqual(self.texts('#tiles b')[0], '2')
        self.assertIn(self.of_page('new Date(%d).toLocaleString()' % (BEGAN * 1000)), self.texts('#state')[0])
        self.assertRegex(PAGE, r'<noscript><p>This page needs JavaScript\. .*/metrics.*</noscript>')
        self.assertNotIn('window', self.of_page('document.querySelector("main").innerText').lower().replace('within a window', ''))


if __name__ == '__main__':
    unittest.main()
