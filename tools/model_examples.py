"""The worked examples of the project, to which `model.py --selftest` holds the model.

Each expected line comes from the project's formats and rules or from a standard's vectors
(FIPS 197, RFC 4493), none from a program. J, F, H1, H2, JA and ROSTER are the examples'
Join-Request, uplink, two ways in which gateways heard them, join server's answer and roster.
"""
import json

import model

ROSTER = (b'{"version":1,"net_id":"000024","rx1_offset":0,"rx_delay":1,"devices":[{"dev_eui":'
          b'"000000000000000d","join_eui":"0102030401020304","slot":1998321}]}')
J = '0004030201040302010d00000000000000010001000000'
H1 = '010100000000000000a100000000000f424033be27a005fc4a004b'
H2 = '010100000000000000a200000000000f462833be27a005fc180050'
F = '40f17dbe4900020001954378762b11ff0d'
NWK, APP = '44024241ed4ce9a68c6a8bc055233fd3', 'ec925802ae430ca77fd3dd73cb2cc588'
JA = ('{"AppSKey":{"AESKey":"%s","KEKLabel":""},"MessageType":"JoinAns","NwkSKey":{"AESKey":"%s",'
      '"KEKLabel":""},"PHYPayload":"20000102030405060708090a0b0c0d0e0f","Result":{"ResultCode":'
      '"Success"},"TransactionID":1}' % (APP, NWK))
ACCEPTED = 'accepted 000000000000000d %d 49be7df1'
JOIN_DOWN = 'down 00000000000000a%d %d 868100000 5 20000102030405060708090a0b0c0d0e0f'


def heard(frame, how=H1):
    return 'heard %s%02x%s' % (how, len(frame) // 2, frame)


def ticket(nonce, eui=13):
    """A Join-Request whose MIC, as a number, is its nonce."""
    return '000403020104030201' + eui.to_bytes(8, 'little').hex() + (
        nonce.to_bytes(2, 'little').hex() + nonce.to_bytes(4, 'little').hex())


def answer(nonce, nwk=NWK, eui=13, body=JA):
    body = body.replace('"TransactionID":1}', '"TransactionID":%d}' % nonce)
    return 'answer %s %s' % (ticket(nonce, eui), body.replace(NWK, nwk))


def uplink(counter, confirmed=False, nwk=NWK, app=APP, port=1, plain=b'test', options=b''):
    """A data frame of the example's address."""
    address = 0x49BE7DF1
    head = bytes([0x80 if confirmed else 0x40]) + address.to_bytes(4, 'little')
    head += bytes([len(options)]) + (counter % 65536).to_bytes(2, 'little') + options
    if port is not None:
        key = bytes.fromhex(nwk if port == 0 else app)
        head += bytes([port]) + model.payload_cipher(key, model.UP, address, counter, plain)
    return (head + model.data_mic(bytes.fromhex(nwk), model.UP, address, counter, head)).hex()


class Check:
    """A run of the model whose lines are held to what they should be."""
    failures = 0
    count = 0

    def __init__(self, title, roster=ROSTER, served=model.STAGES, **more):
        self.title = title
        self.server = model.Server(model.Roster(roster, 'versions' in served), served, **more)

    def __call__(self, line, *want):
        got = self.server.line(line.encode() if type(line) is str else line)
        same(self.title, tuple(got), want, line)
        return got


def same(title, got, want, what=''):
    Check.count += 1
    if got != want:
        Check.failures += 1
        print('DIFFERS in %s\n  line %s\n  want %s\n  got  %s' % (title, what, want, got))


def fault_of(call, *arguments):
    try:
        call(*arguments)
    except model.Fault as fault:
        return str(fault)
    return 'taken'


def check_ciphers():
    h = bytes.fromhex
    for kind in {model.OwnAes, model.AES}:
        for key, plain, secret in (
                ('2b7e151628aed2a6abf7158809cf4f3c', '3243f6a8885a308d313198a2e0370734',
                 '3925841d02dc09fbdc118597196a0b32'),
                ('000102030405060708090a0b0c0d0e0f', '00112233445566778899aabbccddeeff',
                 '69c4e0d86a7b0430d8cdb78070b4c55a')):
            same('AES', kind(h(key)).encrypt(h(plain)).hex(), secret)
            same('AES', kind(h(key)).decrypt(h(secret)).hex(), plain)
    key = h('2b7e151628aed2a6abf7158809cf4f3c')
    message = h('6bc1bee22e409f96e93d7e117393172aae2d8a571e03ac9c9eb76fac45af8e5130c81c46a35ce411'
                'e5fbc1191a0a52eff69f2445df4f9b17ad2b417be66c3710')
    for length, mac in ((0, 'bb1d6929e95937287fa37d129b756746'),
                        (16, '070a16b46b4d4144f79bdd9dd04a287c'),
                        (40, 'dfa66747de9ae63030ca32611497c827'),
                        (64, '51f0bebf7e3b9d92fc49741779363cfe')):
        same('CMAC', model.cmac(key, message[:length]).hex(), mac)
    above, below, last = model.above, model.below, 2 ** 32 - 1
    for got, want in ((above(None, 2), 2), (above(2, 2), 65538), (above(65535, 0), 65536),
                      (above(last - 1, 65535), last), (above(last, 7), None),
                      (below(None, 0), None), (below(2, 2), 2), (below(2, 3), None),
                      (below(65536, 65535), 65535), (below(last, 0), 4294901760)):
        same('counters', got, want)
    for frame, fault in (('', 1), ('40f17dbe49000200000000', 1), ('41f17dbe4900020000000000', 2),
                         ('60f17dbe4900020000000000', 3), ('40f17dbe490f020000000000', 4),
                         (J[:-2], 5), ('40f17dbe4900020000000000', None),
                         ('40f17dbe490002000500000000', None), (F, None), (J, None)):
        same('frames', model.view_fault(h(frame)), fault, frame)
    same('uplink', uplink(2), F)


def check_stored_run():
    run = Check('the stored run')
    run(heard(J), 'ask ' + J)
    run(heard(J, H2), 'joincopied 2')
    run(heard(J.replace('0d000000', '0e000000')), 'nodevice')
    run(answer(1), ACCEPTED % 1, JOIN_DOWN % (2, 6001000))
    run(answer(1), 'noticket')
    run(heard(F), 'opened 000000000000000d 1 2')
    run(heard(F, H2), 'copied 000000000000000d 1 2 2')
    run('close 000000000000000d 1 2', 'closed 000000000000000d 1 2 -',
        'up 000000000000000d 1 2 1 plain - 74657374 2 00000000000000a1,00000000000000a2')
    run('close 000000000000000d 1 2', 'nowindow')
    run(heard(F), 'old 000000000000000d 1 2')
    run(heard(J), 'nonceold 1')
    run(heard(ticket(5)), 'ask ' + ticket(5))
    run(heard(ticket(6)), 'ask ' + ticket(6))
    run(answer(6, '2b7e151628aed2a6abf7158809cf4f3c'), ACCEPTED % 2, JOIN_DOWN % (1, 6000000))
    run(answer(5), 'joinstale 6')
    same('the closing roster', run.server.roster.closing(),
         '{"devices":[{"dev_eui":"000000000000000d","join_eui":"0102030401020304","last_nonce":6,'
         '"slot":1998321}],"net_id":"000024","rx1_offset":0,"rx_delay":1,"version":2}')
    after = Check('after the closing roster', run.server.roster.closing().encode(),
                  ('joins', 'versions'))
    after(heard(J), 'nonceold 6')
    after(heard(ticket(7)), 'ask ' + ticket(7))


def check_joins():
    run = Check('a nonce of 0')
    run(heard(ticket(0)), 'ask ' + ticket(0))
    run('lost ' + ticket(0), 'joinrefused')
    run(heard(ticket(0)), 'ask ' + ticket(0))
    run = Check('five nonces')
    for nonce in range(4):
        run(heard(ticket(nonce)), 'ask ' + ticket(nonce))
    run(heard(ticket(4)), 'joinbusy')
    run('lost ' + ticket(2), 'joinrefused')
    run(heard(ticket(4)), 'ask ' + ticket(4))
    run = Check('copies of a Join-Request')
    run(heard(J), 'ask ' + J)
    for place in range(2, 17):
        run(heard(J), 'joincopied %d' % place)
    run(heard(J), 'joincrowded')


def joined(title, roster=ROSTER, body=JA, **more):
    run = Check(title, roster, **more)
    run(heard(J), 'ask ' + J)
    run.server.line(answer(1, body=body).encode())
    return run


def check_counters(long):
    run = joined('counters over 65535')
    run(heard(uplink(65535)), 'opened 000000000000000d 1 65535')
    run(heard(uplink(65536)), 'opened 000000000000000d 1 65536')
    if not long:
        return
    run = joined('the last counter')
    for n in range(65535, 2 ** 32, 65536):
        last = heard(uplink(n))
        run(last, 'opened 000000000000000d 1 %d' % n)
        run.server.line(b'close 000000000000000d 1 %d' % n)
    run(last, 'old 000000000000000d 1 4294967295')
    run(heard(uplink(0)), 'nosession')


def check_sessions():
    two = json.loads(ROSTER)
    two['devices'].append(dict(two['devices'][0], dev_eui='000000000000001d'))
    run = joined('a shared slot', json.dumps(two).encode())
    run(heard(ticket(1, 29)), 'ask ' + ticket(1, 29))
    second = '2b7e151628aed2a6abf7158809cf4f3c'
    run(answer(1, second, 29), 'accepted 000000000000001d 1 49be7df1', JOIN_DOWN % (1, 6000000))
    run(heard(uplink(0, nwk=second)), 'opened 000000000000001d 1 0')
    run(heard(uplink(0, nwk=APP)), 'nosession')
    run = joined('a second join')
    run(heard(uplink(0)), 'opened 000000000000000d 1 0')
    run(heard(ticket(2)), 'ask ' + ticket(2))
    run(answer(2, second), ACCEPTED % 2, JOIN_DOWN % (1, 6000000))
    run(heard(uplink(1)), 'opened 000000000000000d 1 1')
    run(heard(uplink(0, nwk=second)), 'opened 000000000000000d 2 0')
    run(heard(uplink(2)), 'nosession')
    run('close 000000000000000d 1 1', 'closed 000000000000000d 1 1 -',
        'up 000000000000000d 1 1 1 plain - 74657374 1 00000000000000a1')
    run = joined('a session that ended before its window closed')
    run(heard(uplink(1, True)), 'opened 000000000000000d 1 1')
    run(heard(ticket(2)), 'ask ' + ticket(2))
    run(answer(2, second), ACCEPTED % 2, JOIN_DOWN % (1, 6000000))
    run(heard(uplink(0, nwk=second)), 'opened 000000000000000d 2 0')
    run('close 000000000000000d 1 1', 'closed 000000000000000d 1 1 -',
        'up 000000000000000d 1 1 1 plain - 74657374 1 00000000000000a1')


def check_datagrams():
    run = Check('datagrams')
    good = heard(F)[6:]
    run('heard ' + H1, 'refused G1')
    run('heard 02' + good[2:], 'refused G2')
    run('heard 0181' + good[4:], 'refused G3')
    run('heard ' + good[:-2], 'refused G4')
    for freq, want in (('337055bf', 'refused G5'), ('337055c0', 'nosession'),
                       ('33db2580', 'nosession'), ('33db2581', 'refused G5')):
        run('heard ' + good.replace('33be27a0', freq), want)
    run('heard ' + good.replace('33be27a005', '33be27a008'), 'refused G6')
    run('hello', 'refused line')


def check_limits():
    run = joined('copies of an uplink')
    run(heard(F), 'opened 000000000000000d 1 2')
    for place in range(2, 17):
        run(heard(F), 'copied 000000000000000d 1 2 %d' % place)
    run(heard(F), 'crowded 000000000000000d 1 2')
    run('close 000000000000000d 1 2', 'closed 000000000000000d 1 2 -',
        'up 000000000000000d 1 2 1 plain - 74657374 16 ' + ','.join(['00000000000000a1'] * 16))
    run = joined('nine frames')
    for n in range(8):
        run(heard(uplink(n)), 'opened 000000000000000d 1 %d' % n)
    run(heard(uplink(8)), 'busy 000000000000000d')
    run.server.line(b'close 000000000000000d 1 3')
    run(heard(uplink(8)), 'opened 000000000000000d 1 8')


def check_acknowledgements():
    for delay in (0, 1):
        for dr, offset in ((5, 0), (3, 5)):
            roster = json.loads(ROSTER)
            roster.update(rx_delay=delay, rx1_offset=offset)
            run = joined('acknowledgements', json.dumps(roster).encode())
            how = H1.replace('00000000000f4240', 'f' * 16).replace('33be27a005',
                                                                   '33be27a0%02x' % dr)
            for number, counter in enumerate((4, 7)):
                run(heard(uplink(counter, True), how), 'opened 000000000000000d 1 %d' % counter)
                signed = bytes.fromhex('60f17dbe4920') + number.to_bytes(2, 'little')
                mic = model.data_mic(bytes.fromhex(NWK), model.DOWN, 0x49BE7DF1, number, signed)
                run('close 000000000000000d 1 %d' % counter,
                    'closed 000000000000000d 1 %d %d' % (counter, number),
                    'up 000000000000000d 1 %d 1 plain - 74657374 1 00000000000000a1' % counter,
                    'down 00000000000000a1 999999 868100000 %d %s' % (
                        max(0, dr - offset), (signed + mic).hex()))
    run = joined('numbers in the order of closing')
    for n in (4, 5):
        run(heard(uplink(n, True)), 'opened 000000000000000d 1 %d' % n)
    for number, n in enumerate((5, 4)):
        same('numbers in the order of closing', 'closed 000000000000000d 1 %d %d' % (n, number),
             run.server.line(b'close 000000000000000d 1 %d' % n)[0])


def check_join_answers():
    def fault(body, transaction=1):
        return fault_of(model.join_ans, body if type(body) is bytes else body.encode(), transaction)
    upper = JA.replace(NWK, '0x' + NWK.upper()).replace(APP, '0x' + APP.upper()).replace(
        '"2000', '"0x2000').replace('0a0b0c0d0e0f', '0A0B0C0D0E0F')
    for body, want in ((JA, 'taken'), (upper, 'taken'), (JA.replace('Success', 'MICFailed'), 'A4'),
                       (JA.replace('":""},"P', '":"k1"},"P'), 'A6'),
                       (JA.replace('":""},"M', '":"k1"},"M'), 'taken'),
                       (JA.replace('"2000', '"4000'), 'A5'), (JA[:-1], 'A1'),
                       ('[' * 127 + ']' * 127, 'A2'), ('[' * 128 + ']' * 128, 'A1'),
                       (JA[:-1] + ',"x":' + '[' * 126 + ']' * 126 + '}', 'taken'),
                       (JA[:-1] + ',"x":' + '[' * 127 + ']' * 127 + '}', 'A1'),
                       (JA[:-1] + ',"x":"\\ud800"}', 'A1'), (JA[:-1] + ',"x":1e999}', 'A1'),
                       (JA[:-1] + ',"TransactionID":-0}', 'A2'),
                       (JA[:-1] + ',"TransactionID":1.0}', 'A2'),
                       (JA[:-1] + ',"TransactionID":2}', 'A3'),
                       (JA[:-1].encode() + b',"x":"\xff"}', 'A1')):
        same('answers of a join server', fault(body), want, body)
    same('answers of a join server', fault(JA, 2), 'A3')
    for end in range(len(JA)):
        same('fronts of an answer', fault(JA[:end]), 'A1', JA[:end])
    run = joined('a wrapped AppSKey', body=JA.replace('":""},"M', '":"k1"},"M'))
    run(heard(F), 'opened 000000000000000d 1 2')
    run('close 000000000000000d 1 2', 'closed 000000000000000d 1 2 -',
        'up 000000000000000d 1 2 1 sealed - 95437876 1 00000000000000a1')
    run(heard(uplink(3, port=0)), 'opened 000000000000000d 1 3')
    run('close 000000000000000d 1 3', 'closed 000000000000000d 1 3 -',
        'up 000000000000000d 1 3 0 plain - 74657374 1 00000000000000a1')
    run(heard(uplink(4, port=None)), 'opened 000000000000000d 1 4')
    run('close 000000000000000d 1 4', 'closed 000000000000000d 1 4 -',
        'up 000000000000000d 1 4 - plain - - 1 00000000000000a1')


def check_rosters():
    text = ROSTER.decode()
    device = text[text.index('[') + 1:-2]
    for body, want in (('[', 'O1'), ('{}', 'O2'), ('[]', 'O2'),
                       (text.replace('"devices"', '"other"'), 'O2'),
                       (text.replace('000024', '200024'), 'O4'),
                       (text.replace('1998321', '2097152'), 'O5'),
                       (text.replace('1998321', '2097151'), 'taken'),
                       (text.replace(device, device + ',' + device), 'O3'),
                       (text.replace(device, ','.join(['{}'] * 65537)), 'O6'),
                       (text.replace(device, ''), 'taken'),
                       (text.replace('"version":1', '"version":2'), 'O2')):
        same('rosters', fault_of(model.Roster, body.encode()), want, body[:80])
    for last, one, two in ((65535, 'taken', 'taken'), (65536, 'taken', 'O2'),
                           ('null', 'taken', 'taken')):
        body = text.replace('1998321', '1998321,"last_nonce":%s' % last)
        same('rosters', fault_of(model.Roster, body.encode(), True), one)
        body = body.replace('"version":1', '"version":2')
        same('rosters', fault_of(model.Roster, body.encode(), True), two)


def check_rounds():
    for later in (False, True):
        run = joined('a confirmed uplink that is sent again')
        x = uplink(2, True)
        run(heard(x), 'opened 000000000000000d 1 2')
        same('its closing', run.server.line(b'close 000000000000000d 1 2')[0],
             'closed 000000000000000d 1 2 0')
        if later:
            run(heard(uplink(3)), 'opened 000000000000000d 1 3')
            run(heard(x), 'old 000000000000000d 1 2')
            continue
        run(heard(x), 'again 000000000000000d 1 2:2')
        run(heard(x, H2), 'copied 000000000000000d 1 2:2 2')
        closed = run.server.line(b'close 000000000000000d 1 2:2')
        same('its second closing', (closed[0], len(closed), closed[1][:24]),
             ('closed 000000000000000d 1 2:2 1', 2, 'down 00000000000000a2 20'))
        run(heard(x), 'again 000000000000000d 1 2:3')
        for line in ('1 2:1', '1 2:', '1 2:0', '1 2:4294967296', '1: 2', '1 :2'):
            run('close 000000000000000d ' + line, 'refused line')


def check_stages():
    run = Check('joins alone', served=('joins',))
    run(heard(J), 'ask ' + J)
    for line in (heard(F), answer(1), 'lost ' + J, 'close 000000000000000d 1 2'):
        run(line, 'refused line')
    run(heard('60' + F[2:]), 'refused V3')
    run = Check('no downlinks', downlinks=False)
    run(heard(J), 'ask ' + J)
    run(answer(1), ACCEPTED % 1)
    run(heard(uplink(2, True)), 'opened 000000000000000d 1 2')
    run('close 000000000000000d 1 2', 'closed 000000000000000d 1 2 -',
        'up 000000000000000d 1 2 1 plain - 74657374 1 00000000000000a1')


def run(long, own_aes):
    """All examples; `long` with the run to the last counter. The status: 1 where one differs."""
    if own_aes:
        model.use_own_aes()
    check_ciphers()
    check_stored_run()
    check_joins()
    check_counters(long)
    check_sessions()
    check_datagrams()
    check_limits()
    check_acknowledgements()
    check_join_answers()
    check_rosters()
    check_rounds()
    check_stages()
    print('%d comparisons, %d differences (%s)' % (Check.count, Check.failures, model.AES.__name__))
    return 1 if Check.failures else 0
