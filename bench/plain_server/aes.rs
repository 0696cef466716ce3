//! AES-128 by four tables (FIPS 197) and CMAC (RFC 4493), as in bench/aes.rs.

use crate::{Key, array};

pub const fn xtime(b: u8) -> u8 { (b << 1) ^ ((b >> 7) * 0x1b) }

pub const fn s_box() -> [u8; 256] {
    let (mut table, mut power, mut inverse) = ([0x63; 256], 1u8, 1u8);
    loop {
        table[power as usize] = inverse ^ inverse.rotate_left(1) ^ inverse.rotate_left(2) ^ inverse.rotate_left(3) ^ inverse.rotate_left(4) ^ 0x63;
        // The next power of 3, and the one before of its inverse.
        power ^= xtime(power);
        inverse ^= inverse << 1;
        inverse ^= inverse << 2;
        inverse ^= inverse << 4;
        inverse ^= (inverse >> 7) * 0x09;
        if power == 1 {
            return table;
        }
    }
}

pub const fn round_tables() -> [[u32; 256]; 4] {
    let mut tables = [[0; 256]; 4];
    let mut i = 0;
    while i < 1024 {
        let s = S_BOX[i % 256];
        tables[i / 256][i % 256] = u32::from_le_bytes([xtime(s), s, s, xtime(s) ^ s]).rotate_left(i as u32 / 256 * 8);
        i += 1;
    }
    tables
}

pub static S_BOX: [u8; 256] = s_box();
pub static ROUND: [[u32; 256]; 4] = round_tables();

pub fn substituted([a, b, c, d]: [u8; 4]) -> u32 {
    u32::from_le_bytes([S_BOX[a as usize], S_BOX[b as usize], S_BOX[c as usize], S_BOX[d as usize]])
}

/// An expanded key. A block is the number that its bytes are, the lowest first.
pub struct Aes128([u32; 44]);

impl Aes128 {
    pub fn new(key: &Key) -> Self {
        let mut k = [0; 44];
        (0..4).for_each(|i| k[i] = u32::from_le_bytes(array(&key[4 * i..])));
        let mut rcon = 1;
        for i in (4..44).step_by(4) {
            k[i] = k[i - 4] ^ substituted(k[i - 1].rotate_right(8).to_le_bytes()) ^ rcon as u32;
            k[i + 1] = k[i - 3] ^ k[i];
            k[i + 2] = k[i - 2] ^ k[i + 1];
            k[i + 3] = k[i - 1] ^ k[i + 2];
            rcon = xtime(rcon);
        }
        Aes128(k)
    }

    pub fn encrypt(&self, block: u128) -> u128 {
        let k = &self.0;
        let places = |a: u32, b: u32, c: u32, d: u32| [a as u8, (b >> 8) as u8, (c >> 16) as u8, (d >> 24) as u8];
        let column = |a, b, c, d| {
            let [a, b, c, d] = places(a, b, c, d);
            ROUND[0][a as usize] ^ ROUND[1][b as usize] ^ ROUND[2][c as usize] ^ ROUND[3][d as usize]
        };
        let first = |i: usize| (block >> (32 * i)) as u32 ^ k[i];
        let (mut a, mut b, mut c, mut d) = (first(0), first(1), first(2), first(3));
        for r in 1..10 {
            let e = column(a, b, c, d) ^ k[4 * r];
            let f = column(b, c, d, a) ^ k[4 * r + 1];
            let g = column(c, d, a, b) ^ k[4 * r + 2];
            let h = column(d, a, b, c) ^ k[4 * r + 3];
            (a, b, c, d) = (e, f, g, h);
        }
        let last = |i: usize, a, b, c, d| ((substituted(places(a, b, c, d)) ^ k[40 + i]) as u128) << (32 * i);
        last(0, a, b, c, d) | last(1, b, c, d, a) | last(2, c, d, a, b) | last(3, d, a, b, c)
    }
}

/// B0 of the MIC and Ai of the payload cipher.
pub fn block(first: u8, dir: u8, addr: u32, fcnt: u32, last: u8) -> u128 {
    first as u128 | (dir as u128) << 40 | (addr as u128) << 48 | (fcnt as u128) << 80 | (last as u128) << 120
}

pub fn doubled(block: u128) -> u128 {
    let n = block.swap_bytes();
    ((n << 1) ^ ((n >> 127) * 0x87)).swap_bytes()
}

/// An expanded key with its first sub-key.
pub struct MacKey { pub aes: Aes128, subkey_1: u128 }

impl MacKey {
    pub fn new(key: &Key) -> Self {
        let aes = Aes128::new(key);
        let subkey_1 = doubled(aes.encrypt(0));
        MacKey { aes, subkey_1 }
    }

    /// The MIC of a data frame, `signed` being the frame without it, at least one byte.
    pub fn mic(&self, dir: u8, addr: u32, fcnt: u32, signed: &[u8]) -> [u8; 4] {
        let mut x = self.aes.encrypt(block(0x49, dir, addr, fcnt, signed.len() as u8));
        let (whole, rest) = signed.split_at((signed.len() - 1) / 16 * 16);
        for part in whole.chunks_exact(16) {
            x = self.aes.encrypt(x ^ u128::from_le_bytes(array(part)));
        }
        let mut last = [0; 16];
        last[..rest.len()].copy_from_slice(rest);
        let subkey = match last.get_mut(rest.len()) {
            None => self.subkey_1,
            Some(end) => {
                *end = 0x80;
                doubled(self.subkey_1)
            }
        };
        array(&self.aes.encrypt(x ^ u128::from_le_bytes(last) ^ subkey).to_le_bytes())
    }
}

/// Enciphers or deciphers an uplink's payload.
pub fn cipher_in_place(aes: &Aes128, addr: u32, fcnt: u32, payload: &mut [u8]) {
    for (part, i) in payload.chunks_mut(16).zip(1..) {
        let stream = aes.encrypt(block(1, 0, addr, fcnt, i)).to_le_bytes();
        part.iter_mut().zip(stream).for_each(|(byte, s)| *byte ^= s);
    }
}
