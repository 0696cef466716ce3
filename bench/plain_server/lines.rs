//! Answer lines.

use crate::*;

static PAIRS: [[u8; 2]; 256] = {
    let mut pairs = [[0; 2]; 256];
    let mut i = 0;
    while i < 256 {
        pairs[i] = [DIGITS[i / 16], DIGITS[i % 16]];
        i += 1;
    }
    pairs
};

/// The text that goes out. Each word has a space before it but a line's first.
pub struct Text(pub Vec<u8>);

impl Text {
    pub fn line(&mut self, word: &str) -> &mut Self {
        self.0.extend_from_slice(word.as_bytes());
        self
    }

    pub fn word(&mut self, word: &[u8]) -> &mut Self {
        self.0.push(b' ');
        self.0.extend_from_slice(word);
        self
    }

    pub fn hex_digits(&mut self, bytes: &[u8]) {
        for block in bytes.chunks(16) {
            let mut digits = [0; 32];
            for (pair, byte) in digits.chunks_exact_mut(2).zip(block) {
                pair.copy_from_slice(&PAIRS[*byte as usize]);
            }
            self.0.extend_from_slice(&digits[..2 * block.len()]);
        }
    }

    /// Hex digits, or `-` where there are none.
    pub fn hex(&mut self, bytes: &[u8]) -> &mut Self {
        self.0.push(if bytes.is_empty() { return self.word(b"-") } else { b' ' });
        self.hex_digits(bytes);
        self
    }

    pub fn eui(&mut self, eui: u64) -> &mut Self { self.hex(&eui.to_be_bytes()) }

    pub fn number(&mut self, n: impl Into<u64>) -> &mut Self {
        let (mut digits, mut at, mut n) = ([0; 20], 20, n.into());
        loop {
            at -= 1;
            digits[at] = b'0' + (n % 10) as u8;
            n /= 10;
            if n == 0 {
                return self.word(&digits[at..]);
            }
        }
    }

    pub fn number_or_dash(&mut self, n: Option<impl Into<u64>>) -> &mut Self {
        match n {
            Some(n) => self.number(n),
            None => self.word(b"-"),
        }
    }

    /// A window's name; its round where that is above the first.
    pub fn window(&mut self, w: &WindowName) -> &mut Self {
        self.eui(w.eui).number(w.session).number(w.fcnt);
        if w.round > 1 {
            let space = self.0.len();
            self.number(w.round).0[space] = b':';
        }
        self
    }

    pub fn end(&mut self) { self.0.push(b'\n'); }

    pub fn reply(&mut self, reply: &Reply) {
        match reply {
            Reply::Opened { window } => self.line("opened").window(window),
            Reply::Copied { window, place } => self.line("copied").window(window).number(*place),
            Reply::Crowded { window } => self.line("crowded").window(window),
            Reply::Old { eui, session, fcnt } => self.line("old").eui(*eui).number(*session).number(*fcnt),
            Reply::Again { window } => self.line("again").window(window),
            Reply::NoSession => self.line("nosession"),
            Reply::Busy { eui } => self.line("busy").eui(*eui),
            Reply::Ask { ticket } => self.line("ask").hex(ticket),
            Reply::JoinCopied { place } => self.line("joincopied").number(*place),
            Reply::JoinCrowded => self.line("joincrowded"),
            Reply::NonceOld { greatest } => self.line("nonceold").number(*greatest),
            Reply::NoDevice => self.line("nodevice"),
            Reply::JoinBusy => self.line("joinbusy"),
            Reply::Accepted { eui, session, addr } => self.line("accepted").eui(*eui).number(*session).hex(&addr.to_be_bytes()),
            Reply::JoinRefused => self.line("joinrefused"),
            Reply::JoinStale { greatest } => self.line("joinstale").number(*greatest),
            Reply::NoTicket => self.line("noticket"),
            Reply::Closed { window, ack } => self.line("closed").window(window).number_or_dash(*ack),
            Reply::NoWindow => self.line("nowindow"),
        }
        .end();
    }

    /// The uplink of a closed window.
    pub fn up<'a>(&mut self, name: &WindowName, data: &Data, session: &Session, copies: impl Iterator<Item = &'a Heard>, count: u8) {
        let mut room = [0; 242];
        let payload = &mut room[..data.payload.len()];
        payload.copy_from_slice(data.payload);
        let mut kind = "plain";
        match (data.port, &session.app) {
            _ if payload.is_empty() => {}
            (Some(0), _) => cipher_in_place(&session.nwk.aes, data.addr, name.fcnt, payload),
            (_, Some(app)) => cipher_in_place(&Aes128::new(app), data.addr, name.fcnt, payload),
            (_, None) => kind = "sealed",
        }
        self.line("up").window(name).number_or_dash(data.port).word(kind.as_bytes()).hex(data.fopts).hex(payload).number(count);
        for (i, heard) in copies.enumerate() {
            self.0.push(if i == 0 { b' ' } else { b',' });
            self.hex_digits(&heard.gateway.to_be_bytes());
        }
        self.end();
    }

    /// A downlink in the first receive window of the best copy.
    pub fn down(&mut self, best: &Heard, (offset, delay): (u8, u64), frame: &[u8]) {
        self.line("down").eui(best.gateway).number(best.moment.wrapping_add(delay)).number(best.freq);
        self.number(best.dr.saturating_sub(offset)).hex(frame).end();
    }
}
