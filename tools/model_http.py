"""What a join server's response answers, for the model: written from RFC 9112, sections 2 to 6, and docs/FORMATS part 13."""
import re

import model

MOST_HEAD, MOST_HEADERS, MOST_BODY = 4096, 32, 8192

_VALUE = rb'[\t\x20-\x7e\x80-\xff]*'
_FIELD = rb"([A-Za-z0-9!#$%&'*+\-.^_`|~]+):(" + _VALUE + rb')\r?\n'
_HEAD = re.compile(rb'(?:\r?\n)*HTTP/1\.[01] ([0-9]{3})(?: ' + _VALUE + rb')?\r?\n((?:' + _FIELD + rb')*)\r?\n')
_FIELDS = re.compile(_FIELD)

# Of what a head may end in: all that may be missing of a front of one, up to the choice of its letters.
_WHOLE = b'\nHTTP/1.1 200\n\n'
_ENDS = [_WHOLE[at:] for at in range(len(_WHOLE))] + [b':\n\n']


def may_become_head(text):
    """Whether some bytes behind these make a head of them."""
    return any(_HEAD.fullmatch(text + end) for end in _ENDS)


def lines_of_fields(text):
    """How many header lines a front of a head has, the last one perhaps not whole."""
    lines = text.lstrip(b'\r\n').split(b'\n')[1:]
    return sum(1 for line in lines if line not in (b'', b'\r'))


def head_faults(text):
    """Which faults bytes without a head may answer."""
    if len(text) >= MOST_HEAD or not may_become_head(text):
        return 'H3',
    return ('H2', 'H3') if lines_of_fields(text) > MOST_HEADERS else ('H2',)


def body_of(status, fields, rest):
    """The body behind a head; raises Fault."""
    if len(fields) > MOST_HEADERS:
        raise model.Fault('H3')
    if status != b'200':
        raise model.Fault('H4')
    named = [(name.lower(), value.strip(b' \t')) for name, value in fields]
    if any(name == b'transfer-encoding' for name, _ in named):
        raise model.Fault('H5')
    lengths = [value for name, value in named if name == b'content-length']
    if len(lengths) > 1 or not all(length.isdigit() for length in lengths):
        raise model.Fault('H3')
    length = int(lengths[0]) if lengths else len(rest)
    if length > MOST_BODY:
        raise model.Fault('H6')
    if length > len(rest):
        raise model.Fault('H2')
    return rest[:length]


def exchange(text, transaction):
    """What the bytes of a response may answer: the parts of a JoinAns in hex, or its fault. There is one answer, but for the end of
    the stream inside a head with too many headers."""
    head = _HEAD.match(text[:MOST_HEAD])
    if head is None:
        return head_faults(text)
    try:
        body = body_of(head.group(1), _FIELDS.findall(head.group(2)), text[head.end():])
    except model.Fault as fault:
        return str(fault),
    try:
        accept, nwk, app = model.join_ans(body, transaction)
    except model.Fault as fault:
        return 'H7 %s' % fault,
    return '%s %s %s' % (accept.hex(), nwk.hex(), app.hex() if app is not None else '-'),
