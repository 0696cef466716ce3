// AES-128 by four tables and AES-CMAC in plain Rust, timed in the same way as `aes` of times.sh.
use std::hint::black_box;
use std::time::Instant;

const CALLS: u32 = 2000;
const ROUNDS: u32 = 300;

const fn xtime(b: u8) -> u8 {
    (b << 1) ^ (if b & 0x80 != 0 { 0x1b } else { 0 })
}

const fn multiply(mut a: u8, mut b: u8) -> u8 {
    let mut sum = 0;
    while a != 0 {
        if a & 1 != 0 {
            sum ^= b;
        }
        a >>= 1;
        b = xtime(b);
    }
    sum
}

const fn s_box() -> [u8; 256] {
    let mut table = [0; 256];
    let mut b = 0;
    while b < 256 {
        let mut inverse = 1;
        let mut i = 0;
        while i < 254 {
            inverse = multiply(inverse, b as u8);
            i += 1;
        }
        let s = inverse;
        table[b] = s ^ s.rotate_left(1) ^ s.rotate_left(2) ^ s.rotate_left(3) ^ s.rotate_left(4) ^ 0x63;
        b += 1;
    }
    table
}

const fn round_table(row: u32) -> [u32; 256] {
    let mut table = [0; 256];
    let mut b = 0;
    while b < 256 {
        let s = S_BOX[b];
        table[b] = u32::from_le_bytes([xtime(s), s, s, xtime(s) ^ s]).rotate_left(8 * row);
        b += 1;
    }
    table
}

static S_BOX: [u8; 256] = s_box();
static T0: [u32; 256] = round_table(0);
static T1: [u32; 256] = round_table(1);
static T2: [u32; 256] = round_table(2);
static T3: [u32; 256] = round_table(3);

fn sub_word(w: u32) -> u32 {
    u32::from_le_bytes(w.to_le_bytes().map(|b| S_BOX[b as usize]))
}

struct Aes128 {
    keys: [u32; 44],
}

impl Aes128 {
    fn new(key: &[u8; 16]) -> Self {
        let mut keys = [0; 44];
        for i in 0..4 {
            keys[i] = u32::from_le_bytes(key[4 * i..4 * i + 4].try_into().unwrap());
        }
        let mut rcon = 1;
        for i in (4..44).step_by(4) {
            keys[i] = keys[i - 4] ^ sub_word(keys[i - 1].rotate_right(8)) ^ rcon as u32;
            keys[i + 1] = keys[i - 3] ^ keys[i];
            keys[i + 2] = keys[i - 2] ^ keys[i + 1];
            keys[i + 3] = keys[i - 1] ^ keys[i + 2];
            rcon = xtime(rcon);
        }
        Aes128 { keys }
    }

    fn encrypt(&self, block: &[u8; 16]) -> [u8; 16] {
        let k = &self.keys;
        let word = |i: usize| u32::from_le_bytes(block[4 * i..4 * i + 4].try_into().unwrap());
        let (mut a, mut b, mut c, mut d) = (word(0) ^ k[0], word(1) ^ k[1], word(2) ^ k[2], word(3) ^ k[3]);
        let column = |a: u32, b: u32, c: u32, d: u32| {
            T0[(a & 255) as usize] ^ T1[(b >> 8 & 255) as usize] ^ T2[(c >> 16 & 255) as usize] ^ T3[(d >> 24) as usize]
        };
        for r in 1..10 {
            let e = column(a, b, c, d) ^ k[4 * r];
            let f = column(b, c, d, a) ^ k[4 * r + 1];
            let g = column(c, d, a, b) ^ k[4 * r + 2];
            let h = column(d, a, b, c) ^ k[4 * r + 3];
            (a, b, c, d) = (e, f, g, h);
        }
        let last = |a: u32, b: u32, c: u32, d: u32| {
            u32::from_le_bytes([
                S_BOX[(a & 255) as usize],
                S_BOX[(b >> 8 & 255) as usize],
                S_BOX[(c >> 16 & 255) as usize],
                S_BOX[(d >> 24) as usize],
            ])
        };
        let mut out = [0; 16];
        out[0..4].copy_from_slice(&(last(a, b, c, d) ^ k[40]).to_le_bytes());
        out[4..8].copy_from_slice(&(last(b, c, d, a) ^ k[41]).to_le_bytes());
        out[8..12].copy_from_slice(&(last(c, d, a, b) ^ k[42]).to_le_bytes());
        out[12..16].copy_from_slice(&(last(d, a, b, c) ^ k[43]).to_le_bytes());
        out
    }
}

fn xor(a: &[u8; 16], b: &[u8; 16]) -> [u8; 16] {
    (u128::from_ne_bytes(*a) ^ u128::from_ne_bytes(*b)).to_ne_bytes()
}

fn doubled(b: &[u8; 16]) -> [u8; 16] {
    let n = u128::from_be_bytes(*b);
    ((n << 1) ^ ((n >> 127) * 0x87)).to_be_bytes()
}

/// The CMAC of a first block and of the bytes after it, at least one.
fn mic(cipher: &Aes128, first: &[u8; 16], signed: &[u8]) -> [u8; 16] {
    let subkey_1 = doubled(&cipher.encrypt(&[0; 16]));
    let mut x = cipher.encrypt(first);
    let whole = (signed.len() - 1) / 16 * 16;
    for block in signed[..whole].chunks_exact(16) {
        x = cipher.encrypt(&xor(&x, block.try_into().unwrap()));
    }
    let rest = &signed[whole..];
    let last = if rest.len() == 16 {
        xor(rest.try_into().unwrap(), &subkey_1)
    } else {
        let mut padded = [0; 16];
        padded[..rest.len()].copy_from_slice(rest);
        padded[rest.len()] = 0x80;
        xor(&padded, &doubled(&subkey_1))
    };
    cipher.encrypt(&xor(&x, &last))
}

fn timed(name: &str, start: [u8; 16], call: impl Fn([u8; 16]) -> [u8; 16]) {
    let mut best = u128::MAX;
    let mut value = start;
    for _ in 0..ROUNDS {
        value = start;
        let clock = Instant::now();
        for _ in 0..CALLS {
            value = call(value);
        }
        best = best.min(clock.elapsed().as_nanos());
    }
    println!("{name} {:02x}{:02x}{:02x}{:02x}", value[0], value[1], value[2], value[3]);
    eprintln!("{name} {} ns", best / CALLS as u128);
}

fn main() {
    let key: [u8; 16] = black_box(std::array::from_fn(|i| i as u8));
    let block: [u8; 16] = black_box(std::array::from_fn(|i| 17 * i as u8));
    let signed = black_box([7; 47]);
    let cipher = Aes128::new(&key);
    timed("block", block, |x| cipher.encrypt(&x));
    timed("key_and_block", key, |x| Aes128::new(&x).encrypt(&block));
    timed("mic", key, |x| mic(&Aes128::new(&x), &block, &signed));
    timed("mic_expanded", block, |x| mic(&cipher, &x, &signed));
}
