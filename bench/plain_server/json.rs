//! Hex and JSON.

use std::borrow::Cow;
use std::str::from_utf8;

pub const DIGITS: &[u8; 16] = b"0123456789abcdef";

/// The bytes of 32 hex digits, and all values of these in one: above 15 where one is no digit. The compiler makes vectors of them.
#[inline(always)]
fn packed(digits: &[u8; 32]) -> ([u8; 16], u8) {
    let values = digits.map(|digit| {
        let (number, letter) = (digit.wrapping_sub(b'0'), (digit | 32).wrapping_sub(b'a'));
        (if number < 10 { number } else { 255 }).min(if letter < 6 { letter + 10 } else { 255 })
    });
    (std::array::from_fn(|i| values[2 * i] << 4 | values[2 * i + 1]), values.iter().fold(0, |all, value| all | value))
}

/// Reads just as many hex digits as fill the bytes, and says whether that is what they were.
pub fn read_hex(digits: &[u8], bytes: &mut [u8]) -> bool {
    if digits.len() != 2 * bytes.len() {
        return false;
    }
    let ((blocks, rest), (parts, last)) = (digits.as_chunks(), bytes.as_chunks_mut());
    let (mut padded, mut all) = ([b'0'; 32], 0);
    for (part, block) in parts.iter_mut().zip(blocks) {
        let (bytes, values) = packed(block);
        (*part, all) = (bytes, all | values);
    }
    padded[..rest.len()].copy_from_slice(rest);
    let (bytes, values) = packed(&padded);
    last.copy_from_slice(&bytes[..last.len()]);
    all | values < 16
}

pub fn hex_array<const N: usize>(digits: &[u8]) -> Option<[u8; N]> {
    let mut bytes = [0; N];
    read_hex(digits, &mut bytes).then_some(bytes)
}

/// A JSON value; `Other` is a truth value and any number that is no whole number below 2^64.
pub enum Json<'a> {
    Null,
    Whole(u64),
    Text(Cow<'a, str>),
    List(Vec<Json<'a>>),
    Object(Vec<(Cow<'a, str>, Json<'a>)>),
    Other,
}

impl Json<'_> {
    pub fn read(text: &[u8]) -> Option<Json<'_>> {
        let mut reader = JsonReader { text, at: 0 };
        let value = reader.value(0)?;
        reader.mark().is_none().then_some(value)
    }

    /// The member of an object, the last one of that key; none where it is null.
    pub fn get(&self, key: &str) -> Option<&Json<'_>> {
        let Json::Object(members) = self else { return None };
        let (_, value) = members.iter().rev().find(|(k, _)| k == key)?;
        (!matches!(value, Json::Null)).then_some(value)
    }

    pub fn text(&self) -> Option<&str> {
        let Json::Text(text) = self else { return None };
        Some(text)
    }

    pub fn whole(&self, most: u64) -> Option<u64> {
        let Json::Whole(n) = *self else { return None };
        (n <= most).then_some(n)
    }

    /// A text's hex digits, with or without 0x.
    pub fn digits(&self) -> Option<&[u8]> {
        let text = self.text()?;
        Some(text.strip_prefix("0x").unwrap_or(text).as_bytes())
    }
}

pub struct JsonReader<'a> { text: &'a [u8], at: usize }

impl<'a> JsonReader<'a> {
    pub fn peek(&self) -> Option<u8> { self.text.get(self.at).copied() }

    pub fn next(&mut self) -> Option<u8> {
        let byte = self.peek()?;
        self.at += 1;
        Some(byte)
    }

    /// The next byte behind spaces.
    pub fn mark(&mut self) -> Option<u8> {
        loop {
            match self.next()? {
                b' ' | b'\n' | b'\r' | b'\t' => {}
                byte => return Some(byte),
            }
        }
    }

    pub fn word(&mut self, rest: &str, value: Json<'a>) -> Option<Json<'a>> {
        let found = self.text[self.at..].starts_with(rest.as_bytes());
        self.at += rest.len();
        found.then_some(value)
    }

    pub fn value(&mut self, depth: u32) -> Option<Json<'a>> {
        match self.mark()? {
            b'n' => self.word("ull", Json::Null),
            b't' => self.word("rue", Json::Other),
            b'f' => self.word("alse", Json::Other),
            b'"' => self.string().map(Json::Text),
            b'{' | b'[' if depth == 127 => None,
            b'[' => self.items(b']', |r| r.value(depth + 1)).map(Json::List),
            b'{' => self.items(b'}', |r| r.member(depth + 1)).map(Json::Object),
            _ => self.number(),
        }
    }

    /// Items parted by commas, up to the end.
    pub fn items<T>(&mut self, end: u8, item: impl Fn(&mut Self) -> Option<T>) -> Option<Vec<T>> {
        let mut items = Vec::new();
        if self.mark()? == end {
            return Some(items);
        }
        self.at -= 1;
        loop {
            items.push(item(self)?);
            match self.mark()? {
                b',' => {}
                mark => return (mark == end).then_some(items),
            }
        }
    }

    pub fn member(&mut self, depth: u32) -> Option<(Cow<'a, str>, Json<'a>)> {
        let key = if self.mark()? == b'"' { self.string()? } else { return None };
        let value = if self.mark()? == b':' { self.value(depth)? } else { return None };
        Some((key, value))
    }

    /// How many digits come next, at least one.
    pub fn digits(&mut self) -> Option<usize> {
        let count = self.text[self.at..].iter().take_while(|b| b.is_ascii_digit()).count();
        self.at += count;
        (count > 0).then_some(count)
    }

    pub fn number(&mut self) -> Option<Json<'a>> {
        let start = self.at - 1;
        self.at -= (self.text[start] != b'-') as usize;
        let zero = self.peek() == Some(b'0');
        if self.digits()? > 1 && zero {
            return None;
        }
        if self.peek() == Some(b'.') {
            self.at += 1;
            self.digits()?;
        }
        if matches!(self.peek(), Some(b'e' | b'E')) {
            self.at += 1;
            self.at += matches!(self.peek(), Some(b'+' | b'-')) as usize;
            self.digits()?;
        }
        let text = from_utf8(&self.text[start..self.at]).ok()?;
        match text.parse() {
            Ok(n) => Some(Json::Whole(n)),
            Err(_) => text.parse::<f64>().ok()?.is_finite().then_some(Json::Other),
        }
    }

    /// A text behind its first quotation mark.
    pub fn string(&mut self) -> Option<Cow<'a, str>> {
        let (mut start, mut unescaped) = (self.at, Vec::new());
        loop {
            let byte = self.next()?;
            let plain = &self.text[start..self.at - 1];
            match byte {
                0..=0x1f => return None,
                b'"' if unescaped.is_empty() => return from_utf8(plain).ok().map(Cow::Borrowed),
                b'"' => {
                    unescaped.extend_from_slice(plain);
                    return String::from_utf8(unescaped).ok().map(Cow::Owned);
                }
                b'\\' => {
                    unescaped.extend_from_slice(plain);
                    unescaped.extend_from_slice(self.escaped()?.encode_utf8(&mut [0; 4]).as_bytes());
                    start = self.at;
                }
                _ => {}
            }
        }
    }

    /// The character of an escape behind its backslash.
    pub fn escaped(&mut self) -> Option<char> {
        let kind = self.next()?;
        if kind != b'u' {
            let place = b"bfnrt\"\\/".iter().position(|b| *b == kind)?;
            return "\x08\x0c\n\r\t\"\\/".chars().nth(place);
        }
        let first = self.four()?;
        if !(0xd800..0xdc00).contains(&first) || !self.text[self.at..].starts_with(b"\\u") {
            return char::from_u32(first as u32);
        }
        self.at += 2;
        char::decode_utf16([first, self.four()?]).next()?.ok()
    }

    pub fn four(&mut self) -> Option<u16> {
        let digits = self.text.get(self.at..self.at + 4)?;
        self.at += 4;
        hex_array(digits).map(u16::from_be_bytes)
    }
}
