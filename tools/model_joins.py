"""What the crates for joins and for HTTP answer, for the model: written from docs/FORMATS (parts 6 to 9 and 13), RFC 9110 and RFC 9112, without
the crates' sources. `Worked` takes the lines of crates/worked_texts/data/join_texts.txt, whose form stands at that file's head.
"""
import itertools
import ipaddress
import json
import re

import join_server
import model
import model_frames
import model_http
from model import Fault
from model_json import Json, NotJson, hex_bytes, whole

MOST_HEADS = 16                     # that are looked at for one that is not of status 1xx
MOST_CHUNKS, MOST_TRAILERS = 65536, 4096
MOST_REQUEST, MOST_FIELDS = 4096, 64
SIZES = 39                          # of pieces in which a request for the status is tried
LAST_JOIN_NONCE = 0xFFFFFF
SHOWN = 32                          # bytes of a ResultCode, and characters of a DevEUI's text


# ---------------------------------------------------------------- the texts of the file


def unescaped(text):
    """The bytes of a text in which \\r, \\n, \\t and \\xHH; are a byte, and \\(N PIECE) is a piece N times."""
    marks = {b'r': b'\r', b'n': b'\n', b't': b'\t'}

    def piece(match):
        return unescaped(match[2]) * int(match[1]) if match[1] else bytes([int(match[3], 16)]) if match[3] else marks[match[4]]
    return re.sub(rb'\\(?:\(([0-9]+) (.*?)\)|x([0-9a-f]{2});|([rnt]))', piece, text, flags=re.S)


def in_runs(outcomes):
    """Outcomes in their order, a line for those that stand together: how many there are, and what they are."""
    return ['%d %s' % (len(list(some)), outcome) for outcome, some in itertools.groupby(outcomes)]


# ---------------------------------------------------------------- rosters


def device_line(device):
    """DevEUI, JoinEUI, slot, last nonce and address."""
    last = '-' if device.greatest is None else device.greatest
    return '%016x %016x %d %s %08x' % (device.eui, device.join, device.slot, last, device.address)


def holds(text):
    """What a roster holds: the network, and each device; or its fault."""
    try:
        roster = model.Roster(text, True)
    except Fault as fault:
        return [str(fault)]
    return ['%06x %d %d' % (roster.net_id, roster.offset, roster.delay)] + [device_line(it) for it in roster.devices.values()]


def field(text, key):
    """What stands at a key: a whole number, a text, how long a list is, and the text's hex as two and as three bytes."""
    value = Json(text).read().get(key)
    found = [str(value) if whole(value, 0, 2 ** 64 - 1) else None, json.dumps(value) if isinstance(value, str) else None,
             str(len(value)) if isinstance(value, list) else None]
    found += [None if hex_bytes(value, size) is None else str(list(hex_bytes(value, size))) for size in (2, 3)]
    return ' '.join('None' if it is None else 'Some(%s)' % it for it in found)


# What each field takes, and whether it has that; first those of the network.
NETWORK = (('version', '1 or 2', lambda value, _: whole(value, 1, 2)),
           ('net_id', '6 hex digits', lambda value, _: hex_bytes(value, 3) is not None),
           ('rx1_offset', '0 to 5', lambda value, _: whole(value, 0, 5)),
           ('rx_delay', '0 to 15', lambda value, _: whole(value, 0, 15)),
           ('devices', 'a list', lambda value, _: isinstance(value, list)))
DEVICE = (('dev_eui', '16 hex digits', lambda value, _: hex_bytes(value, 8) is not None),
          ('join_eui', '16 hex digits', lambda value, _: hex_bytes(value, 8) is not None),
          ('slot', '0 to 2097151', lambda value, _: whole(value, 0, 2 ** 64 - 1)),
          ('last_nonce', '0 to 65535', lambda value, version: version == 1 or value is None or whole(value, 0, 65535)))


def wrong_field(item, fields, version):
    """The first field of an object that is missing or wrong, in words."""
    values = item if isinstance(item, dict) else {}
    return next(('%s is missing or wrong: it takes %s' % (name, takes) for name, takes, is_right in fields
                 if not is_right(values.get(name), version)), None)


def shown_device(place, item):
    """A device's place in the list, and the text of its DevEUI, if that is one: `?` in place of what is not visible ASCII."""
    text = item.get('dev_eui') if isinstance(item, dict) else None
    if not isinstance(text, str):
        return 'device %d' % place
    return 'device %d (dev_eui %s)' % (place, ''.join(it if '!' <= it <= '~' else '?' for it in text)[:SHOWN])


def device_fault(place, item, version, seen):
    """The first fault of a device of the list, in words. Its DevEUI is seen from now on."""
    shown, wrong = shown_device(place, item), wrong_field(item, DEVICE, version)
    if wrong:
        return '%s: %s: O2' % (shown, wrong)
    if item['slot'] > 2097151:
        return '%s: slot is over 2097151: O5' % shown
    eui = hex_bytes(item['dev_eui'], 8)
    if eui in seen:
        return '%s: dev_eui is that of an earlier device: O3' % shown
    seen.add(eui)
    return None


def place(text):
    """What the first fault of a roster is about, in words."""
    try:
        root = Json(text).read()
    except NotJson:
        return 'the text is no JSON in UTF-8: O1'
    wrong = wrong_field(root, NETWORK, None)
    if wrong:
        return '%s: O2' % wrong
    if hex_bytes(root['net_id'], 3) > b'\x1f\xff\xff':
        return 'net_id is over 1fffff: O4'
    if len(root['devices']) > 65536:
        return 'devices has more than 65536 devices: O6'
    seen = set()
    faults = (device_fault(at, item, root['version'], seen) for at, item in enumerate(root['devices'], 1))
    return next((fault for fault in faults if fault), 'no fault')


# ---------------------------------------------------------------- what a join server is asked, and answers


def join_req(roster, ticket):
    """The JoinReq about a Join-Request of a roster's first device (part 7)."""
    device = next(iter(roster.devices.values()))
    return json.dumps({
        'DLSettings': '%02x' % (16 * roster.offset), 'DevAddr': '%08x' % device.address, 'DevEUI': '%016x' % device.eui, 'MACVersion': '1.0.4',
        'MessageType': 'JoinReq', 'PHYPayload': ticket.hex(), 'ProtocolVersion': '1.0', 'ReceiverID': '%016x' % device.join,
        'RxDelay': roster.delay, 'SenderID': '%06x' % roster.net_id, 'TransactionID': int.from_bytes(ticket[19:], 'little'),
    }, sort_keys=True, separators=(',', ':'))


def shown_code(text):
    """The first bytes of a ResultCode, and no part of a character."""
    return Json(text).read()['Result']['ResultCode'].encode()[:SHOWN].decode(errors='ignore')


def answered(text, transaction):
    """The parts of a JoinAns, or its first fault, with the ResultCode of a refusal."""
    try:
        accept, nwk, app = model.join_ans(text, transaction)
    except Fault as fault:
        return '%s %s' % (fault, shown_code(text)) if str(fault) == 'A4' else str(fault)
    return '%s %s %s' % (accept.hex(), nwk.hex(), '-' if app is None else app.hex())


def fronts(text, transaction):
    """What the fronts of an answer, the whole not among them, come to: `COUNT OUTCOME` by outcome."""
    return in_runs(answered(text[:size], transaction) for size in range(len(text)))


class JoinServer:
    """The join server for tests: its JoinNonces count on over all devices, and behind the last one from 1."""

    def __init__(self, nonce):
        self.nonce, self.keys = nonce, {}

    def reply(self, text):
        try:
            request = join_server.JoinReq(text)
        except join_server.NoJoinReq:
            return 'B1'
        answer = {'MessageType': 'JoinAns', 'Result': {'ResultCode': 'Success'}, 'TransactionID': request.transaction}
        key = self.keys.get(request.eui)
        if key is None:
            answer['Result']['ResultCode'] = 'Other'
        elif model.cmac(key, request.ticket[:19])[:4] != request.ticket[19:]:
            answer['Result']['ResultCode'] = 'MICFailed'
        else:
            nonce, self.nonce = self.nonce, self.nonce % LAST_JOIN_NONCE + 1
            address, net_id = int.from_bytes(request.address, 'big'), int.from_bytes(request.net_id, 'big')
            join_nonce = nonce.to_bytes(3, 'little')
            accept = model_frames.join_accept(key, join_nonce, net_id, address, request.settings[0], request.delay, b'')
            nwk, app = model.session_keys(key, join_nonce, net_id.to_bytes(3, 'little'), int.from_bytes(request.nonce, 'little'))
            answer.update(PHYPayload=accept.hex(), NwkSKey={'AESKey': nwk.hex(), 'KEKLabel': ''}, AppSKey={'AESKey': app.hex(), 'KEKLabel': ''})
        return json.dumps(answer, sort_keys=True, separators=(',', ':'))


# ---------------------------------------------------------------- HTTP


def exchanged(response, transaction):
    """What a response answers. The texts have none that may answer in two ways."""
    answer, = model_http.exchange(response, transaction)
    return answer


def bytes_that_decide(response):
    """How many bytes of a response that has a head decide what it answers: one more than it has, if the end of the stream does."""
    head = model_http._HEAD.match(response[:model_http.MOST_HEAD])
    fields = {name.lower(): value.strip(b' \t') for name, value in model_http._FIELDS.findall(head[2])}
    if b'content-length' in fields:
        return head.end() + int(fields[b'content-length'])
    return min(len(response), head.end() + model_http.MOST_BODY) + 1


def counts(response, message):
    """How many reads and writes are made, one byte a call and as many as there is room for: a read has room for a head, or for the rest. The
    request's head and its body are a write each."""
    reads = bytes_that_decide(response)
    many = 1 if reads <= min(len(response), model_http.MOST_HEAD) else 2
    return '%d reads and %d writes of a byte, %d and 2 of many' % (reads, len(request_text(message)), many)


def request_text(message):
    """What is written to a join server (part 13)."""
    head = 'POST / HTTP/1.1\r\nHost: js.local\r\nContent-Type: application/json\r\nContent-Length: %d\r\nConnection: close\r\n\r\n'
    return head % len(message) + message.decode()


def host(name):
    return name.decode() if 1 <= len(name) <= 255 and re.fullmatch(rb'[\x21-\x7e]*', name) else 'no host'


def content_of(chunks):
    """The content of a body in chunks (RFC 9112, section 7.1), or None if it is none: malformed, cut short or too long."""
    content, at = b'', 0
    while True:
        line = re.compile(rb'([0-9A-Fa-f]+)[ \t]*(?:;[\t\x20-\x7e\x80-\xff]*)?\r\n').match(chunks, at)
        if line is None or line.end() > MOST_CHUNKS:
            return None
        size, at = int(line[1], 16), line.end()
        if size == 0:
            break
        if chunks[at + size:at + size + 2] != b'\r\n':
            return None
        content, at = content + chunks[at:at + size], at + size + 2
    trailers = re.compile(rb"(?:[A-Za-z0-9!#$%&'*+\-.^_`|~]+:[\t\x20-\x7e\x80-\xff]*\r\n)*\r\n").match(chunks, at)
    return None if trailers is None or len(trailers[0]) > MOST_TRAILERS else content


def plain(response):
    """A response without heads of status 1xx, and with the content of its chunks in their place; None if these are none."""
    for _ in range(MOST_HEADS):
        head = model_http._HEAD.match(response)
        if head is None:
            return response
        if not head[1].startswith(b'1'):
            break
        response = response[head.end():]
    fields = [(name.lower(), value.strip(b' \t').lower()) for name, value in model_http._FIELDS.findall(head[2])]
    codings = [value for name, value in fields if name == b'transfer-encoding']
    is_alone = codings == [b'chunked'] and not any(name == b'content-length' for name, _ in fields)
    if not is_alone or not response.lstrip(b'\r\n').startswith(b'HTTP/1.1'):
        return response
    content = content_of(response[head.end():])
    front = re.sub(rb'(?im)^transfer-encoding:[^\n]*\n', b'', head[0])
    return None if content is None else front + content


def shown(text):
    """A text as Rust's `{:?}` shows it, which for those of the file is as JSON does."""
    return json.dumps(text.decode('latin-1'))


ROUTES = {b'/': 'page', b'/metrics': 'metrics', b'/devices': 'devices', b'/gateways': 'gateways', b'/healthz': 'health'}
# What `--status-host` gives in the file's questions.
STATUS_HOST = 'status.example'


def is_own_host(host):
    """Whether a Host is an address, `localhost` or the name of `--status-host`, with a port or without."""
    name = re.sub(r'(?<=[^:]):\d+$|(?<=\]):\d+$', '', host)
    try:
        ipaddress.ip_address(name.strip('[]'))
        return True
    except ValueError:
        return name.lower() in ('localhost', STATUS_HOST)


def part_of(query):
    """The part of the devices that a query asks for, or that one of its values is none."""
    said = []
    pairs = [it.partition('=') for it in query.split('&')]
    for name, form, base in ('after', r'[0-9a-fA-F]{16}', 16), ('limit', r'[0-9]+', 10), ('since', r'[0-9]+', 10):
        values = [value for it, _, value in pairs if it == name]
        if values and not re.fullmatch(form, values[0]):
            return ' of no part'
        said += [' %s %s' % (name, '%x' % int(values[0], 16) if base == 16 else int(values[0]))] if values else []
    return ''.join(said)


def asked_of_status(text):
    """What a request for the status asks for, or how it is refused (FORMATS, the status over HTTP)."""
    head = re.match(rb'(?:[^\n]*[^\r\n][^\n]*\n)+\r?\n', text[:MOST_REQUEST])
    if head is None:
        return '431 Request Header Fields Too Large' if len(text) > MOST_REQUEST else 'ended'
    line, *fields = head[0].splitlines()[:-1]
    words = re.fullmatch(rb"([A-Za-z0-9!#$%&'*+\-.^_`|~]+) ([\x21-\x7e]+) HTTP/1\.[01]", line)
    if words is None or len(fields) > MOST_FIELDS or not all(model_http._FIELDS.fullmatch(it + b'\n') for it in fields):
        return '400 Bad Request'
    hosts = [it.partition(b':')[2].strip().decode('latin-1') for it in fields if it[:5].lower() == b'host:']
    if len(hosts) > 1:
        return '400 Bad Request'
    if hosts and not is_own_host(hosts[0]):
        return '421 Misdirected Request'
    if words[1] not in (b'GET', b'HEAD'):
        return '405 Method Not Allowed'
    path, _, query = words[2].partition(b'?')
    if path not in ROUTES:
        return '404 Not Found'
    part = part_of(query.decode('latin-1')) if path == b'/devices' else ''
    tags = [it.partition(b':')[2].strip() for it in fields if it[:14].lower() == b'if-none-match:']
    known = re.fullmatch(rb'(?:W/)?"([0-9]{1,19})"', tags[0]) if tags else None
    return ('head of ' if words[1] == b'HEAD' else '') + ROUTES[path] + part + (' known %d' % int(known[1]) if known else '')


# ---------------------------------------------------------------- the status

METRICS = [(name, 'gauge') for name in ('process_start_time_seconds', 'lorawan_open_windows', 'lorawan_open_tickets', 'lorawan_devices',
                                        'lorawan_sessions', 'lorawan_gateways')]
METRICS += [('lorawan_%s_total' % name, 'counter') for name in ('datagrams', 'lost_datagrams', 'dropped_datagrams', 'late_datagrams', 'failed_receives',
                                                                'unanswered_joins', 'stale_tickets', 'unsent_downlinks', 'unwritten_lines', 'refusals',
                                                                'replies', 'entries')]
LABELS = {'lorawan_refusals_total': 'fault', 'lorawan_replies_total': 'reply', 'lorawan_entries_total': 'shard'}
ROW = 'devAddr', 'devEui', 'fCnt', 'gatewayId', 'heardMs', 'missed', 'session', 'sinceMs'
GATEWAY = ['airtimeMs', 'frames', 'gatewayId', 'heardMs', 'pullMs', 'refused', 'sent', 'statMs']


def status_faults(lines):
    """How the texts of the status differ from FORMATS. The numbers are the reader's own, so only their form is looked at, and which are null."""
    end = lines.index(']}') + 1
    gateway, metrics, (same, head) = lines[end + 1], lines[end + 2:-1], json.loads('[%s]' % lines[-1])
    lists, faults = json.loads('\n'.join(lines[:end])), []
    silent, heard, absent = lists['devices']
    faults += ['devices'] * (list(lists) != ['nowMs', 'startMs', 'devices'] or any(tuple(row) != ROW for row in lists['devices']))
    faults += ['a silent device'] * ([name for name in ROW if silent[name] is None] != ['fCnt', 'gatewayId', 'heardMs', 'sinceMs'] or silent['missed'] != 0)
    faults += ['a device that was heard'] * any(heard[name] is None for name in ROW)
    faults += ['a device without a session'] * ([name for name in ROW if absent[name] is not None] != ['devEui', 'missed'])
    faults += ['a gateway'] * (list(json.loads(gateway)) != GATEWAY)
    found = re.findall(r'# HELP (\w+) [^\n]+\n# TYPE (\w+) (\w+)\n((?:[a-z]\w*[ {][^\n]*\n)+)', '\n'.join(metrics) + '\n')
    faults += ['metrics'] * ([(name, kind) for name, typed, kind, _ in found if name == typed][:len(METRICS)] != METRICS)
    for name, _, _, samples in found[:len(METRICS)]:
        label = r'\{%s="\w+"\}' % LABELS[name] if name in LABELS else ''
        faults += ['samples of %s' % name] * (not re.fullmatch(r'(?:%s%s [0-9]+\n)+' % (name, label), samples))
    fields = dict(re.findall(r'(\S+): ([^\r]*)\r\n', head))
    body = '404 Not Found\n'
    is_head = head.startswith('HTTP/1.1 404 Not Found\r\n') and head.endswith('\r\n\r\n') and fields.get('Content-Length') == str(len(body))
    is_same = same.startswith('HTTP/1.1 304 Not Modified\r\n') and same.endswith('\r\n\r\n') and '\r\nETag: W/"1764017000123456"\r\n' in same
    return faults + ['the head of a refusal'] * (not is_head) + ['the head of a list that is the same'] * (not is_same or 'Content-Length' in same)


# ---------------------------------------------------------------- the lines of the file


class Worked:
    """The lines of the file one after the other, and what the questions are about."""

    def __init__(self):
        self.text, self.message, self.transaction = b'', b'', 0
        self.device, self.server = None, None

    def changed(self, rest):
        """A text, or the last one with the first OLD replaced by NEW."""
        old, arrow, new = rest.partition(b' => ')
        return self.text.replace(unescaped(old), unescaped(new), 1) if arrow else unescaped(rest)

    def roster(self):
        return model.Roster(self.text, True)

    def response(self, rest):
        return unescaped(rest) + self.text

    def state(self, word, rest):
        """Takes what the questions are about. Whether the line is such a one."""
        words = rest.decode(errors='replace').split()
        if word == 'text':
            self.text = unescaped(rest)
        elif word == 'message':
            self.message = unescaped(rest)
        elif word == 'transaction':
            self.transaction = int(rest)
        elif word == 'device':
            self.device = model_frames.Device(*(bytes.fromhex(it) for it in words))
        elif word == 'server':
            self.server = JoinServer(int(rest))
        elif word == 'add':
            self.server.keys[bytes.fromhex(words[0])] = bytes.fromhex(words[1])
        else:
            return False
        return True

    def about_roster(self, word, rest):
        if word == 'holds':
            return holds(unescaped(rest))
        if word == 'place':
            return [place(self.changed(rest))]
        if word == 'field':
            return [field(self.text, rest.decode())]
        if word == 'question':
            return [join_req(self.roster(), bytes.fromhex(rest.decode()))]
        euis = [int(it, 16) for it in rest.split()]
        device = self.roster().devices.get(euis[0])
        if word == 'knows':
            return ['yes' if device and device.join == euis[1] else 'no']
        return [device_line(device) if device else 'no device']

    def about_exchange(self, word, rest):
        response = self.response(rest)
        if word == 'exchange':
            return [exchanged(response, self.transaction)]
        if word == 'written':
            outcome = '3 %s %s' % (exchanged(response, self.transaction), request_text(self.message))
            return outcome.split('\n')
        if word == 'ends':
            return in_runs(exchanged(response[:size], self.transaction) for size in range(len(response)))
        if word == 'counts':
            return [counts(response, self.message)]
        if word == 'failed_reads':
            return in_runs(['H2'] * len(response) + [exchanged(response, self.transaction)])
        return ['2 H1']     # `failed_writes`: the head and the body are a write each

    def about_device(self, word, rest):
        if word == 'reply':
            return [self.server.reply(self.changed(rest))]
        nonce, _, frame = rest.decode().partition(' ')
        if word == 'join_request':
            return [self.device.request(int(nonce)).hex()]
        try:
            self.device.accept(int(nonce), bytes.fromhex(frame))
        except Fault as fault:
            return [str(fault)]
        return [self.device.told()]

    def about_text(self, word, rest):
        """What comes of other questions; None if there is no such question."""
        if word == 'answer':
            return [answered(self.changed(rest), self.transaction)]
        if word == 'fronts':
            return fronts(self.text, self.transaction)
        if word == 'host':
            return [host(unescaped(rest))]
        if word == 'decided':
            # the bytes decide, and not the end of the stream
            answer, = set(model_http.exchange(unescaped(rest), self.transaction)) - {'H2'}
            return [answer]
        if word == 'plain':
            response = self.response(rest)
            found = plain(response)
            return ['%d %s' % (len(response) + 1, 'Io' if found is None else shown(found))]
        if word == 'request':
            return ['%d %s' % (SIZES, asked_of_status(unescaped(rest)))]
        return ['no memory, no memory, no memory'] if word == 'words' else None

    def answers(self, word, rest):
        """The lines of the answer to a question."""
        if word == 'scarce':
            first, *others = self.scarce(rest)
            return ['refused, then ' + first] + others
        if word in ('holds', 'place', 'find', 'knows', 'field', 'question'):
            return self.about_roster(word, rest)
        if word in ('exchange', 'written', 'ends', 'counts', 'failed_reads', 'failed_writes'):
            return self.about_exchange(word, rest)
        if word in ('reply', 'join_request', 'accept'):
            return self.about_device(word, rest)
        return self.about_text(word, rest)

    def scarce(self, rest):
        """What a question is answered once it is not refused memory. `closing` is that of the roster with last nonce 6."""
        word, _, rest = rest.partition(b' ')
        if word == b'closing':
            roster = self.roster()
            next(iter(roster.devices.values())).greatest = 6
            return [roster.closing()]
        return self.answers(word.decode(), rest)


def closing(text):
    try:
        return model.Roster(text, True).closing()
    except Fault as fault:
        return str(fault)


def answers_to(line, worked):
    """The lines that a line of the file is answered with; None if only their form is known."""
    word, _, rest = line.partition(b' ')
    if word == b'roster':
        return [closing(bytes.fromhex(rest.decode()))]
    if word == b'response':
        answer = exchanged(bytes.fromhex(rest.decode()), 1)
        return ['%s, %s' % (answer, answer)]
    if word != b'>':
        return [line.decode()]
    word, _, rest = rest.partition(b' ')
    if worked.state(word.decode(), rest):
        return [line.decode()]
    answers = worked.answers(word.decode(), rest)
    return None if answers is None else [line.decode()] + answers
