// One HTTP exchange with a join server over memory in plain Rust, timed in the same way as `joinclient` of times.sh.
//
// The head is read by hand, as the crate httparse reads it: empty lines before it, a line feed alone as a line's end, a missing
// reason, values without the white space around them. It is read anew after each read, as a caller of httparse would do it; the
// proved body keeps the place where the bytes end.
use std::hint::black_box;
use std::time::Instant;

#[path = "plain_server/json.rs"]
#[allow(dead_code)]
mod json;

use json::{Json, hex_array, read_hex};

const ROUNDS: u32 = 300;
const HEAD_MAX: usize = 4096;
const BODY_MAX: usize = 8192;

const JOIN_REQ: &str = r#"{"DLSettings":"00","DevAddr":"49be7df1","DevEUI":"000000000000000d","MACVersion":"1.0.4","MessageType":"JoinReq","PHYPayload":"0004030201040302010d00000000000000010001000000","ProtocolVersion":"1.0","ReceiverID":"0102030401020304","RxDelay":1,"SenderID":"000024","TransactionID":1}"#;

const JOIN_ANS: &str = r#"{"AppSKey":{"AESKey":"ec925802ae430ca77fd3dd73cb2cc588","KEKLabel":""},"MessageType":"JoinAns","NwkSKey":{"AESKey":"44024241ed4ce9a68c6a8bc055233fd3","KEKLabel":""},"PHYPayload":"20000102030405060708090a0b0c0d0e0f","Result":{"ResultCode":"Success"},"TransactionID":1}"#;

/// A stream over memory that moves at most so many bytes a call.
struct Memory { input: Vec<u8>, at: usize, output: Vec<u8>, most: usize }

impl Memory {
    fn read(&mut self, buf: &mut [u8]) -> usize {
        let n = buf.len().min(self.most).min(self.input.len() - self.at);
        buf[..n].copy_from_slice(&self.input[self.at..self.at + n]);
        self.at += n;
        n
    }

    fn write_all(&mut self, mut bytes: &[u8]) {
        while !bytes.is_empty() {
            let n = bytes.len().min(self.most);
            self.output.extend_from_slice(&bytes[..n]);
            bytes = &bytes[n..];
        }
    }
}

struct JoinAns { accept: [u8; 33], nwk: [u8; 16], app: Option<[u8; 16]> }

fn join_ans(body: &[u8], transaction: u64) -> Option<JoinAns> {
    fn opened<'a>(envelope: &'a Json) -> Option<Option<&'a [u8]>> {
        let digits = envelope.get("AESKey")?.digits()?;
        let label = envelope.get("KEKLabel").map_or(Some(""), Json::text)?;
        Some(label.is_empty().then_some(digits))
    }
    let root = Json::read(body)?;
    let asked = root.get("MessageType")?.text()? == "JoinAns" && root.get("TransactionID")?.whole(u32::MAX as u64)? == transaction;
    if !asked || root.get("Result")?.get("ResultCode")?.text()? != "Success" {
        return None;
    }
    let digits = root.get("PHYPayload")?.digits()?;
    let (len, mut accept) = (digits.len() / 2, [0; 33]);
    if !matches!(len, 17 | 33) || !read_hex(digits, &mut accept[..len]) || accept[0] & 0xe3 != 0x20 {
        return None;
    }
    let nwk = hex_array(opened(root.get("NwkSKey")?)??)?;
    let app = match root.get("AppSKey").map(opened) {
        Some(envelope) => envelope?.map(|digits| hex_array(digits).ok_or(())).transpose().ok()?,
        None => None,
    };
    Some(JoinAns { accept, nwk, app })
}

/// What reading a head comes to.
enum Head { Partial, Invalid, Whole { start: usize, length: Option<usize> } }

/// The next byte, or no head yet.
macro_rules! next {
    ($bytes:expr, $at:expr) => {{
        let Some(byte) = $bytes.get($at).copied() else { return Head::Partial };
        $at += 1;
        byte
    }};
}

fn is_token(byte: u8) -> bool { byte.is_ascii_alphanumeric() || b"!#$%&'*+-.^_`|~".contains(&byte) }
fn is_value(byte: u8) -> bool { byte == b'\t' || (byte >= b' ' && byte != 0x7f) }

/// How many bytes of a value come next, 32 at a time as the crate httparse looks at them.
fn value_len(bytes: &[u8]) -> usize {
    let mut at = 0;
    for chunk in bytes.chunks_exact(32) {
        if !chunk.iter().fold(true, |all, byte| all & (*byte >= b' ') & (*byte != 0x7f)) { break; }
        at += 32;
    }
    at + bytes[at..].iter().take_while(|byte| is_value(**byte)).count()
}

fn head_of(bytes: &[u8]) -> Head {
    let mut at = 0;
    let mut length = None;
    let mut headers = 0;
    loop {
        match bytes.get(at) {
            Some(b'\n') => at += 1,
            Some(b'\r') => match bytes.get(at + 1) {
                Some(b'\n') => at += 2,
                Some(_) => return Head::Invalid,
                None => return Head::Partial,
            },
            _ => break,
        }
    }
    for want in *b"HTTP/1." {
        if next!(bytes, at) != want { return Head::Invalid; }
    }
    if !matches!(next!(bytes, at), b'0' | b'1') || next!(bytes, at) != b' ' { return Head::Invalid; }
    let mut status = 0;
    for _ in 0..3 {
        let digit = next!(bytes, at);
        if !digit.is_ascii_digit() { return Head::Invalid; }
        status = status * 10 + u32::from(digit - b'0');
    }
    let mut byte = next!(bytes, at);
    if byte == b' ' {
        byte = next!(bytes, at);
        while is_value(byte) { byte = next!(bytes, at); }
    }
    if byte == b'\r' { byte = next!(bytes, at); }
    if byte != b'\n' { return Head::Invalid; }
    loop {
        let mut byte = next!(bytes, at);
        if byte == b'\r' { byte = next!(bytes, at); }
        if byte == b'\n' { break; }
        let name = at - 1;
        while is_token(byte) { byte = next!(bytes, at); }
        if byte != b':' || at - 1 == name || headers == 32 { return Head::Invalid; }
        let name = &bytes[name..at - 1];
        headers += 1;
        let value = at;
        at += value_len(&bytes[at..]);
        let mut byte = next!(bytes, at);
        let value = &bytes[value..at - 1];
        if byte == b'\r' { byte = next!(bytes, at); }
        if byte != b'\n' { return Head::Invalid; }
        if name.eq_ignore_ascii_case(b"Transfer-Encoding") { return Head::Invalid; }
        if name.eq_ignore_ascii_case(b"Content-Length") {
            let value = value.trim_ascii();
            if length.is_some() || value.is_empty() || !value.iter().all(u8::is_ascii_digit) { return Head::Invalid; }
            length = Some(value.iter().fold(0, |n: usize, digit| (n * 10 + usize::from(digit - b'0')).min(BODY_MAX + 1)));
        }
    }
    if status != 200 || length.is_some_and(|n| n > BODY_MAX) { return Head::Invalid; }
    Head::Whole { start: at, length }
}

fn ask(stream: &mut Memory, host: &str, body: &str, transaction: u64) -> Option<JoinAns> {
    use std::io::Write;
    let mut head = [0; 512];
    let mut room = &mut head[..];
    write!(room, "POST / HTTP/1.1\r\nHost: {host}\r\nContent-Type: application/json\r\nContent-Length: {}\r\nConnection: close\r\n\r\n", body.len()).ok()?;
    let rest = room.len();
    stream.write_all(&head[..512 - rest]);
    stream.write_all(body.as_bytes());
    let mut bytes = [0; HEAD_MAX + BODY_MAX + 1];
    let mut filled = 0;
    let (start, length) = loop {
        match head_of(&bytes[..filled]) {
            Head::Whole { start, length } => break (start, length),
            Head::Invalid => return None,
            Head::Partial if filled == HEAD_MAX => return None,
            Head::Partial => {}
        }
        let n = stream.read(&mut bytes[filled..HEAD_MAX]);
        if n == 0 { return None; }
        filled += n;
    };
    let end = start + length.unwrap_or(BODY_MAX + 1);
    while filled < end {
        let n = stream.read(&mut bytes[filled..end]);
        if n == 0 { break; }
        filled += n;
    }
    match length {
        Some(_) if filled < end => None,
        Some(_) => join_ans(&bytes[start..end], transaction),
        None if filled < end => join_ans(&bytes[start..filled], transaction),
        None => None,
    }
}

fn response(headers: usize, letters: usize) -> String {
    let lines = format!("Some: {}\r\n", "v".repeat(letters)).repeat(headers);
    format!("HTTP/1.1 200 OK\r\n{lines}Content-Length: 267\r\n\r\n{JOIN_ANS}")
}

fn measure(name: &str, response: &str, most: usize) {
    let (mut least, mut answered) = (u128::MAX, 0);
    for _ in 0..ROUNDS {
        let mut stream = Memory { input: response.as_bytes().to_vec(), at: 0, output: Vec::new(), most };
        let start = Instant::now();
        let result = ask(black_box(&mut stream), "js.local", JOIN_REQ, 1);
        least = least.min(start.elapsed().as_nanos());
        if black_box(&result).as_ref().is_some_and(|a| a.nwk[0] == 0x44 && a.accept[0] == 0x20 && a.app.is_some()) { answered += 1; }
    }
    println!("{name} {answered}");
    eprintln!("{name} {least} ns");
}

fn main() {
    for (name, one, headers, letters) in [
        ("short_head", "short_head_by_byte", 0, 0),
        ("long_header", "long_header_by_byte", 1, 4000),
        ("many_headers", "many_headers_by_byte", 31, 120),
    ] {
        let response = response(headers, letters);
        measure(name, &response, 1 << 20);
        measure(one, &response, 1);
    }
}
