"""JSON as serde_json reads it into a value, for the model; written from RFC 8259 and that
library's documented limits. An object is a dict, a list a list, a text a str; a whole number
from -2^63 to 2^64 - 1 is an int, any other number a Float.
"""
import re


class NotJson(Exception):
    pass


class Float:
    """A number that is no whole number from -2^63 to 2^64 - 1."""


_NUMBER = re.compile(rb'-?(?:0|[1-9][0-9]*)(\.[0-9]+)?([eE][+-]?[0-9]+)?')
_ESCAPES = {0x22: '"', 0x5C: '\\', 0x2F: '/', 0x62: '\b', 0x66: '\f', 0x6E: '\n', 0x72: '\r',
            0x74: '\t'}


class Json:
    """The value of a text as serde_json reads it: nesting up to 127, no lone surrogates,
    of a key that comes twice the last one."""

    def __init__(self, text):
        self.text, self.at = text, 0

    def read(self):
        value = self.value(0)
        self.space()
        if self.at != len(self.text):
            raise NotJson
        return value

    def peek(self):
        return self.text[self.at] if self.at < len(self.text) else None

    def space(self):
        while self.peek() in (0x20, 0x0A, 0x0D, 0x09):
            self.at += 1

    def expect(self, byte):
        self.space()
        if self.peek() != byte:
            raise NotJson
        self.at += 1

    def value(self, depth):
        self.space()
        first = self.peek()
        if first is None:
            raise NotJson
        for word, value in ((b'null', None), (b'true', True), (b'false', False)):
            if self.text.startswith(word, self.at):
                self.at += len(word)
                return value
        if first == 0x22:
            return self.string()
        if first in b'{[':
            if depth == 127:
                raise NotJson
            self.at += 1
            return self.members(depth + 1) if first == 0x7B else self.items(depth + 1)
        return self.number()

    def items(self, depth):
        found = []
        self.space()
        if self.peek() == 0x5D:
            self.at += 1
            return found
        while True:
            found.append(self.value(depth))
            self.space()
            if self.peek() == 0x2C:
                self.at += 1
                continue
            self.expect(0x5D)
            return found

    def members(self, depth):
        found = {}
        self.space()
        if self.peek() == 0x7D:
            self.at += 1
            return found
        while True:
            self.space()
            key = self.string()
            self.expect(0x3A)
            found[key] = self.value(depth)
            self.space()
            if self.peek() == 0x2C:
                self.at += 1
                continue
            self.expect(0x7D)
            return found

    def number(self):
        match = _NUMBER.match(self.text, self.at)
        if not match:
            raise NotJson
        self.at = match.end()
        if self.peek() is not None and chr(self.peek()) in '0123456789.eE':
            raise NotJson
        text = match.group()
        if match.group(1) is None and match.group(2) is None and len(text) < 25:
            n = int(text)
            if text != b'-0' and -2 ** 63 <= n < 2 ** 64:
                return n
        if float(text) in (float('inf'), float('-inf')):
            raise NotJson
        return Float()

    def four(self):
        digits = self.text[self.at:self.at + 4]
        if not re.fullmatch(rb'[0-9a-fA-F]{4}', digits):
            raise NotJson
        self.at += 4
        return int(digits, 16)

    def string(self):
        if self.peek() != 0x22:
            raise NotJson
        self.at += 1
        out = bytearray()
        while True:
            byte = self.peek()
            if byte is None or byte < 0x20:
                raise NotJson
            self.at += 1
            if byte == 0x22:
                break
            if byte != 0x5C:
                out.append(byte)
                continue
            kind = self.peek()
            self.at += 1
            if kind == 0x75:
                code = self.four()
                if 0xD800 <= code < 0xDC00 and self.text.startswith(b'\\u', self.at):
                    self.at += 2
                    low = self.four()
                    if not 0xDC00 <= low < 0xE000:
                        raise NotJson
                    code = 0x10000 + (code - 0xD800) * 0x400 + low - 0xDC00
                if 0xD800 <= code < 0xE000:
                    raise NotJson
                out += chr(code).encode()
            elif kind in _ESCAPES:
                out += _ESCAPES[kind].encode()
            else:
                raise NotJson
        try:
            return out.decode('utf-8')
        except UnicodeDecodeError:
            raise NotJson from None


def whole(value, low, high):
    """Is this JSON value a whole number in these bounds?"""
    return type(value) is int and low <= value <= high


def hex_bytes(value, *lengths):
    """The bytes of a text of hex digits, with or without 0x, of one of these lengths."""
    if type(value) is not str:
        return None
    digits = value[2:] if value.startswith('0x') else value
    if not re.fullmatch(r'[0-9a-fA-F]*', digits) or len(digits) % 2:
        return None
    found = bytes.fromhex(digits)
    return found if len(found) in lengths else None
