//! The network server in plain Rust: what `lorawan_ns replay ROSTER` does, to measure speed and memory of the proved program beside it.
//!
//!     rustc -O --edition 2021 -o plain_server bench/plain_server/main.rs
//!     plain_server replay ROSTER [--trim | --asked] < STEPS     prints what `lorawan_ns replay ROSTER` prints; with --trim shards are trimmed
//!                                            as they grow, as those of `lorawan_ns replay`; with --asked they are, their entries have room
//!                                            for a whole frame, and what is written waits for the end of the input (trimmed.rs)
//!     plain_server serve ROSTER --join ADDR [--listen ADDR] [--workers N] [--join-workers N] [--window MS] [--stop-after N] [--asked]
//!                  [--rest]                  does what `lorawan_ns serve` does; with --asked also what its interface asks for (asked.rs); with
//!                                            --rest workers rest while others are enough (rest.rs)
//!     plain_server receive [--listen ADDR] [--workers N]     receives datagrams by the same calls and does nothing with them
//!     plain_server sizes                     prints the sizes of its types in bytes
//!
//! It is a measure alone and no part of the server: nothing is proved of it, and its AES reads tables at secret addresses. It follows
//! docs/FORMATS.md and tools/model.py, and `tools/compare.py plain_server` compares it with that model. It keeps the same journal: in
//! sixteen shards one entry for each call, with the whole frame in it. Unlike `lorawan_ns` it takes one line at a time and writes as it
//! goes, so the journal and the sessions are all that grows with the steps, and with --trim the sessions alone.
//!
//! It is what an expert would write for speed: AES by four tables of 32-bit words, with the expanded key and CMAC's first sub-key kept
//! for each session; the journal is one `Vec` a shard, of entries of 344 bytes, grown by doubling; windows lie with their device, and
//! copies are places in the journal; maps hash a number by one multiplication; hex is read sixteen bytes at a time; its JSON reader is its
//! own.
use std::collections::HashMap;
use std::hash::{BuildHasherDefault, Hasher};
use std::io::{self, BufRead, BufReader, Write};
use std::ops::Range;
use std::process::ExitCode;

mod aes;
mod asked;
mod json;
mod lines;
mod rest;
mod serve;
mod trimmed;

use aes::*;
use json::*;
use lines::*;
use trimmed::{Packed, Trimmed};

const SHARDS: usize = 16;
const MOST_COPIES: usize = 16;
const MOST_TICKETS: usize = 4;
const MOST_WINDOWS: usize = 8;
const MOST_DEVICES: usize = 65_536;
const INPUT_ROOM: usize = 1 << 18;
const OUTPUT_ROOM: usize = 1 << 16;

type Key = [u8; 16];
type Ticket = [u8; 23];

/// The first bytes of a slice that has enough.
fn array<const N: usize>(bytes: &[u8]) -> [u8; N] { bytes[..N].try_into().unwrap() }

// ---- Calls, replies and the journal's entries

#[derive(Clone, Copy)]
struct Frame { len: u8, bytes: [u8; 255] }

impl Frame {
    fn of(bytes: &[u8]) -> Frame {
        let mut frame = Frame { len: bytes.len() as u8, bytes: [0; 255] };
        frame.bytes[..bytes.len()].copy_from_slice(bytes);
        frame
    }
}

/// How one gateway heard a frame.
#[derive(Clone, Copy)]
struct Heard { gateway: u64, moment: u64, freq: u32, rssi: i16, snr: i16, dr: u8 }

#[derive(Clone, Copy)]
struct WindowName { eui: u64, session: u32, fcnt: u32, round: u32 }

/// What a join server answered: the Join-Accept in the first `len` bytes, and the keys.
#[derive(Clone, Copy)]
struct JoinAns { len: u8, accept: [u8; 33], nwk: Key, app: Option<Key> }

#[allow(dead_code)] // The journal keeps more than is read again.
#[derive(Clone, Copy)]
enum Call<F = Frame> {
    Uplink { frame: F, heard: Heard },
    Join { ticket: Ticket, heard: Heard },
    JoinReply { ticket: Ticket, outcome: Option<JoinAns> },
    Close { window: WindowName },
}

#[derive(Clone, Copy)]
enum Reply {
    Opened { window: WindowName },
    Copied { window: WindowName, place: u8 },
    Crowded { window: WindowName },
    Old { eui: u64, session: u32, fcnt: u32 },
    Again { window: WindowName },
    NoSession,
    Busy { eui: u64 },
    Ask { ticket: Ticket },
    JoinCopied { place: u8 },
    JoinCrowded,
    NonceOld { greatest: u16 },
    NoDevice,
    JoinBusy,
    Accepted { eui: u64, session: u32, addr: u32 },
    JoinRefused,
    JoinStale { greatest: u16 },
    NoTicket,
    Closed { window: WindowName, ack: Option<u32> },
    NoWindow,
}

#[allow(dead_code)]
struct Entry<F = Frame> { number: u64, call: Call<F>, reply: Reply }

impl Entry {
    fn frame(&self) -> &[u8] {
        let Call::Uplink { frame, .. } = &self.call else { unreachable!() };
        &frame.bytes[..frame.len as usize]
    }

    fn heard(&self) -> &Heard {
        let Call::Uplink { heard, .. } = &self.call else { unreachable!() };
        heard
    }
}

// ---- Datagrams, frames and join servers' answers. A refusal is told by what is printed of it.

/// How a datagram's frame was heard.
fn read_datagram(d: &[u8]) -> Result<Heard, &'static str> {
    if d.len() < 28 {
        return Err("G1");
    }
    let heard = Heard {
        gateway: u64::from_be_bytes(array(&d[2..])),
        moment: u64::from_be_bytes(array(&d[10..])),
        freq: u32::from_be_bytes(array(&d[18..])),
        dr: d[22],
        rssi: i16::from_be_bytes(array(&d[23..])),
        snr: i16::from_be_bytes(array(&d[25..])),
    };
    match () {
        _ if d[0] != 1 => Err("G2"),
        _ if d[1] != 1 => Err("G3"),
        _ if d.len() != 28 + d[27] as usize => Err("G4"),
        _ if !(863_000_000..=870_000_000).contains(&heard.freq) => Err("G5"),
        _ if heard.dr > 7 => Err("G6"),
        _ => Ok(heard),
    }
}

/// The parts of a data frame.
struct Data<'a> { bytes: &'a [u8], confirmed: bool, addr: u32, low: u16, fopts: &'a [u8], port: Option<u8>, payload: &'a [u8] }

enum View<'a> {
    Join(Ticket),
    Data(Data<'a>),
}

impl<'a> Data<'a> {
    /// The parts of bytes that `view` takes.
    fn of(bytes: &'a [u8]) -> Self {
        let (fopts, body) = bytes[8..bytes.len() - 4].split_at((bytes[5] & 15) as usize);
        Data {
            bytes,
            confirmed: bytes[0] >> 5 == 4,
            addr: u32::from_le_bytes(array(&bytes[1..])),
            low: u16::from_le_bytes(array(&bytes[6..])),
            fopts,
            port: body.first().copied(),
            payload: body.get(1..).unwrap_or(&[]),
        }
    }
}

fn view(frame: &[u8]) -> Result<View<'_>, &'static str> {
    let head = *frame.first().ok_or("V1")?;
    match head >> 5 {
        _ if head & 3 != 0 => Err("V2"),
        0 => frame.try_into().map(View::Join).map_err(|_| "V5"),
        2 | 4 if frame.len() < 12 => Err("V1"),
        2 | 4 if 8 + (frame[5] & 15) as usize > frame.len() - 4 => Err("V4"),
        2 | 4 => Ok(View::Data(Data::of(frame))),
        _ => Err("V3"),
    }
}

fn dev_eui(ticket: &Ticket) -> u64 { u64::from_le_bytes(array(&ticket[9..])) }
fn nonce(ticket: &Ticket) -> u16 { u16::from_le_bytes(array(&ticket[17..])) }

/// What a join server answered, where it is whole and a success.
fn join_ans(ticket: &Ticket, body: &[u8]) -> Option<JoinAns> {
    // The digits of an envelope's key, unless it is wrapped.
    fn opened<'a>(envelope: &'a Json) -> Option<Option<&'a [u8]>> {
        let digits = envelope.get("AESKey")?.digits()?;
        let label = envelope.get("KEKLabel").map_or(Some(""), Json::text)?;
        Some(label.is_empty().then_some(digits))
    }
    let root = Json::read(body)?;
    let asked = root.get("MessageType")?.text()? == "JoinAns"
        && root.get("TransactionID")?.whole(u32::MAX as u64)? == u32::from_le_bytes(array(&ticket[19..])) as u64;
    if !asked || root.get("Result")?.get("ResultCode")?.text()? != "Success" {
        return None;
    }
    let digits = root.get("PHYPayload")?.digits()?;
    let (len, mut accept) = (digits.len() / 2, [0; 33]);
    if !matches!(len, 17 | 33) || !read_hex(digits, &mut accept[..len]) || accept[0] & 0xe3 != 0x20 {
        return None;
    }
    let nwk = hex_array(opened(root.get("NwkSKey")?)??)?;
    let app = match root.get("AppSKey").map(opened) {
        Some(envelope) => envelope?.map(|digits| hex_array(digits).ok_or(())).transpose().ok()?,
        None => None,
    };
    Some(JoinAns { len: len as u8, accept, nwk, app })
}

/// The least counter above the greatest one with this low half.
fn above(greatest: Option<u32>, low: u16) -> Option<u32> {
    let Some(greatest) = greatest else { return Some(low as u32) };
    let least = greatest.checked_add(1)?;
    least.checked_add(low.wrapping_sub(least as u16) as u32)
}

/// The greatest counter at most the greatest one with this low half.
fn below(greatest: Option<u32>, low: u16) -> Option<u32> {
    let greatest = greatest?;
    greatest.checked_sub((greatest as u16).wrapping_sub(low) as u32)
}

// ---- The roster

struct RosterDevice { eui: u64, join_eui: u64, addr: u32 }

struct Roster { net: [u8; 3], rx1_offset: u8, rx_delay: u8, ack_delay: u64, devices: Vec<RosterDevice> }

impl Roster {
    fn read(text: &[u8]) -> Result<Roster, &'static str> {
        fn hex<const N: usize>(object: &Json, key: &str) -> Result<[u8; N], &'static str> {
            object.get(key).and_then(Json::digits).and_then(hex_array).ok_or("O2")
        }
        fn whole(object: &Json, key: &str, most: u64) -> Result<u64, &'static str> {
            object.get(key).and_then(|v| v.whole(most)).ok_or("O2")
        }
        let root = Json::read(text).ok_or("O1")?;
        let (version, net) = (whole(&root, "version", 1)?, hex::<3>(&root, "net_id")?);
        let (rx1_offset, rx_delay) = (whole(&root, "rx1_offset", 5)? as u8, whole(&root, "rx_delay", 15)?);
        let items = match root.get("devices") {
            Some(Json::List(items)) if version == 1 => items,
            _ => return Err("O2"),
        };
        if net[0] >> 5 != 0 {
            return Err("O4");
        }
        if items.len() > MOST_DEVICES {
            return Err("O6");
        }
        let (mut seen, mut devices) = (Map::default(), Vec::with_capacity(items.len()));
        for item in items {
            let [eui, join_eui] = [hex(item, "dev_eui")?, hex(item, "join_eui")?].map(u64::from_be_bytes);
            let slot = whole(item, "slot", u64::MAX)?;
            if slot > 2_097_151 {
                return Err("O5");
            }
            if seen.insert(eui, ()).is_some() {
                return Err("O3");
            }
            let addr = (net[2] as u32 & 63) << 25 | (eui as u32 % 16) << 21 | slot as u32;
            devices.push(RosterDevice { eui, join_eui, addr });
        }
        Ok(Roster { net, rx1_offset, rx_delay: rx_delay as u8, ack_delay: 1_000_000 * rx_delay.max(1), devices })
    }
}

// ---- Shards

/// A hasher of one number. The maps' keys are the roster's, so nobody else can choose them to collide.
#[derive(Default)]
struct NumberHasher(u64);

impl Hasher for NumberHasher {
    fn write_u64(&mut self, n: u64) {
        let product = n as u128 * 0x9e37_79b9_7f4a_7c15;
        self.0 = (product >> 64) as u64 ^ product as u64;
    }

    fn write(&mut self, _: &[u8]) { unreachable!() }
    fn finish(&self) -> u64 { self.0 }
}

type Map<V> = HashMap<u64, V, BuildHasherDefault<NumberHasher>>;

/// The entries of a shard in which the copies of a frame were heard.
#[derive(Clone, Copy)]
struct Copies { entries: [u32; MOST_COPIES], len: u8 }

impl Copies {
    fn of(entry: u32) -> Self {
        let mut entries = [0; MOST_COPIES];
        entries[0] = entry;
        Copies { entries, len: 1 }
    }

    /// The place of one more copy, from 1, where there is room for it.
    fn add(&mut self, entry: u32) -> Option<u8> {
        *self.entries.get_mut(self.len as usize)? = entry;
        self.len += 1;
        Some(self.len)
    }

    fn heard<'a>(&self, entries: &'a [Entry]) -> impl Iterator<Item = &'a Heard> {
        self.entries.into_iter().take(self.len as usize).map(|entry| entries[entry as usize].heard())
    }

    fn frame<'a>(&self, entries: &'a [Entry]) -> &'a [u8] { entries[self.entries[0] as usize].frame() }
}

/// The first one of the strongest.
fn best<'a>(heard: impl Iterator<Item = &'a Heard>) -> &'a Heard {
    heard.reduce(|best, copy| if (copy.snr, copy.rssi) > (best.snr, best.rssi) { copy } else { best }).unwrap()
}

/// A Join-Request that waits for its answer: how many copies of it were heard, and the best one.
struct OpenTicket { ticket: Ticket, copies: u8, best: Heard }

struct Window {
    session: u32, // by its place in the shard
    fcnt: u32,
    round: u32,
    copies: Copies,
}

/// `round` is that of the last window of the greatest counter.
struct Session { number: u32, greatest: Option<u32>, round: u32, next_ack: u64, nwk: MacKey, app: Option<Key> }

impl Session {
    /// The acknowledgement of a number.
    fn ack_frame(&self, addr: u32, number: u32) -> [u8; 12] {
        let mut frame = [0x60, 0, 0, 0, 0, 0x20, 0, 0, 0, 0, 0, 0];
        frame[1..5].copy_from_slice(&addr.to_le_bytes());
        frame[6..8].copy_from_slice(&(number as u16).to_le_bytes());
        let mic = self.nwk.mic(1, addr, number, &frame[..8]);
        frame[8..].copy_from_slice(&mic);
        frame
    }
}

struct Device {
    eui: u64,
    join_eui: u64,
    addr: u32,
    greatest_nonce: Option<u16>,
    sessions: u32,
    active: Option<u32>,  // the session of the last uplink, by its place in the shard
    pending: Option<u32>, // the session of the last join, where no uplink came in it yet
    tickets: Vec<OpenTicket>,
    windows: Vec<Window>,
}

impl Device {
    /// The greatest nonce, where the ticket's is at most that.
    fn spent(&self, ticket: &Ticket) -> Option<u16> { self.greatest_nonce.filter(|greatest| nonce(ticket) <= *greatest) }
    fn live(&self) -> impl Iterator<Item = u32> { [self.active, self.pending].into_iter().flatten() }
}

/// A device and its session in which a frame's MIC fits, by their places, and the frame's counter.
struct Fit { device: usize, session: u32, fcnt: u32 }

#[derive(Default)]
struct Shard {
    entries: Vec<Entry>,
    devices: Vec<Device>, // in order of their addresses, and of the roster at one address
    by_eui: Map<u32>,
    by_addr: Map<Range<u32>>,
    sessions: Vec<Session>, // all that were accepted, since open windows need the keys of ended ones
}

impl Shard {
    fn new(roster: &Roster, shard: u64) -> Self {
        let mut own: Vec<_> = roster.devices.iter().filter(|d| shard_of(d.eui) as u64 == shard).collect();
        own.sort_by_key(|d| d.addr);
        let mut made = Shard::default();
        made.devices.reserve_exact(own.len());
        for (place, &&RosterDevice { eui, join_eui, addr }) in (0..).zip(&own) {
            made.by_eui.insert(eui, place);
            made.by_addr.entry(addr as u64).or_insert(place..place).end = place + 1;
            let (active, pending, tickets, windows) = (None, None, Vec::new(), Vec::new());
            made.devices.push(Device { eui, join_eui, addr, greatest_nonce: None, sessions: 0, active, pending, tickets, windows });
        }
        made
    }

    fn device(&mut self, eui: u64) -> Option<&mut Device> {
        let place = *self.by_eui.get(&eui)?;
        Some(&mut self.devices[place as usize])
    }

    fn join(&mut self, ticket: &Ticket, heard: &Heard) -> Reply {
        let join_eui = u64::from_le_bytes(array(&ticket[1..]));
        let Some(device) = self.device(dev_eui(ticket)).filter(|d| d.join_eui == join_eui) else { return Reply::NoDevice };
        if let Some(greatest) = device.spent(ticket) {
            return Reply::NonceOld { greatest };
        }
        if let Some(open) = device.tickets.iter_mut().find(|t| t.ticket == *ticket) {
            if open.copies as usize == MOST_COPIES {
                return Reply::JoinCrowded;
            }
            open.copies += 1;
            open.best = *best([&open.best, heard].into_iter());
            return Reply::JoinCopied { place: open.copies };
        }
        if device.tickets.len() == MOST_TICKETS {
            return Reply::JoinBusy;
        }
        device.tickets.reserve_exact(1);
        device.tickets.push(OpenTicket { ticket: *ticket, copies: 1, best: *heard });
        Reply::Ask { ticket: *ticket }
    }

    /// The best copy of an open Join-Request.
    fn best_copy(&mut self, ticket: &Ticket) -> Option<Heard> {
        self.device(dev_eui(ticket))?.tickets.iter().find(|open| open.ticket == *ticket).map(|open| open.best)
    }

    /// Ends a join: the reply, and the best copy of the Join-Request where it was open.
    fn join_reply(&mut self, ticket: &Ticket, outcome: Option<&JoinAns>) -> (Reply, Option<Heard>) {
        let session = self.sessions.len() as u32;
        let Some(device) = self.device(dev_eui(ticket)) else { return (Reply::NoTicket, None) };
        let Some(place) = device.tickets.iter().position(|t| t.ticket == *ticket) else { return (Reply::NoTicket, None) };
        let best = Some(device.tickets.swap_remove(place).best);
        let Some(answer) = outcome else { return (Reply::JoinRefused, best) };
        if let Some(greatest) = device.spent(ticket) {
            return (Reply::JoinStale { greatest }, best);
        }
        device.greatest_nonce = Some(nonce(ticket));
        device.sessions += 1;
        device.pending = Some(session);
        let (eui, number, addr) = (device.eui, device.sessions, device.addr);
        self.sessions.push(Session { number, greatest: None, round: 0, next_ack: 0, nwk: MacKey::new(&answer.nwk), app: answer.app });
        (Reply::Accepted { eui, session: number, addr }, best)
    }

    /// The reply to a copy of the frame of an open window.
    fn copy(&mut self, at_addr: Range<usize>, data: &Data) -> Option<Reply> {
        let entry = self.entries.len() as u32;
        for device in &mut self.devices[at_addr] {
            for Window { session, fcnt, round, copies } in device.windows.iter_mut().rev() {
                if *fcnt as u16 == data.low && copies.frame(&self.entries) == data.bytes {
                    let window = WindowName { eui: device.eui, session: self.sessions[*session as usize].number, fcnt: *fcnt, round: *round };
                    return Some(copies.add(entry).map_or(Reply::Crowded { window }, |place| Reply::Copied { window, place }));
                }
            }
        }
        None
    }

    /// The first fit of the devices at the frame's address.
    fn first_fit(&self, at_addr: Range<usize>, data: &Data, recover: fn(Option<u32>, u16) -> Option<u32>) -> Option<Fit> {
        let (signed, mic) = data.bytes.split_at(data.bytes.len() - 4);
        for device in at_addr {
            for session in self.devices[device].live() {
                let Session { greatest, nwk, .. } = &self.sessions[session as usize];
                match recover(*greatest, data.low) {
                    Some(fcnt) if nwk.mic(0, data.addr, fcnt, signed) == mic => return Some(Fit { device, session, fcnt }),
                    _ => {}
                }
            }
        }
        None
    }

    fn window_of(&self, fit: &Fit, round: u32) -> WindowName {
        WindowName { eui: self.devices[fit.device].eui, session: self.sessions[fit.session as usize].number, fcnt: fit.fcnt, round }
    }

    fn uplink(&mut self, data: &Data) -> Reply {
        let Some(places) = self.by_addr.get(&(data.addr as u64)) else { return Reply::NoSession };
        let at_addr = places.start as usize..places.end as usize;
        if let Some(reply) = self.copy(at_addr.clone(), data) {
            return reply;
        }
        if let Some(fit) = self.first_fit(at_addr.clone(), data, above) {
            return self.open(&fit, 1);
        }
        let Some(fit) = self.first_fit(at_addr, data, below) else { return Reply::NoSession };
        let Session { greatest, round, .. } = self.sessions[fit.session as usize];
        let same = |w: &Window| w.session == fit.session && w.fcnt == fit.fcnt;
        if !data.confirmed || greatest != Some(fit.fcnt) || round == u32::MAX || self.devices[fit.device].windows.iter().any(same) {
            let WindowName { eui, session, fcnt, .. } = self.window_of(&fit, 1);
            return Reply::Old { eui, session, fcnt };
        }
        self.open(&fit, round + 1)
    }

    /// Opens a window of a round, where the device has room for one.
    fn open(&mut self, fit: &Fit, round: u32) -> Reply {
        let (window, entry) = (self.window_of(fit, round), self.entries.len() as u32);
        let device = &mut self.devices[fit.device];
        if device.windows.len() == MOST_WINDOWS {
            return Reply::Busy { eui: device.eui };
        }
        if device.pending == Some(fit.session) {
            device.active = device.pending.take();
        }
        let session = &mut self.sessions[fit.session as usize];
        (session.greatest, session.round) = (Some(fit.fcnt), round);
        device.windows.reserve_exact(1);
        device.windows.push(Window { session: fit.session, fcnt: fit.fcnt, round, copies: Copies::of(entry) });
        if round == 1 { Reply::Opened { window } } else { Reply::Again { window } }
    }

    /// Takes out a window, with the number of its acknowledgement.
    fn take_out(&mut self, name: &WindowName) -> Option<(Window, Option<u32>)> {
        let device = &mut self.devices[*self.by_eui.get(&name.eui)? as usize];
        let number = |w: &Window| self.sessions[w.session as usize].number;
        let place = device.windows.iter().position(|w| w.fcnt == name.fcnt && w.round == name.round && number(w) == name.session)?;
        let window = device.windows.swap_remove(place);
        let session = &mut self.sessions[window.session as usize];
        let mut ack = None;
        if Data::of(window.copies.frame(&self.entries)).confirmed && device.live().any(|s| s == window.session) {
            ack = u32::try_from(session.next_ack).ok();
            session.next_ack += ack.is_some() as u64;
        }
        Some((window, ack))
    }
}

fn shard_of(eui: u64) -> usize { eui as usize % SHARDS }
fn shards_of(roster: &Roster) -> Vec<Shard> { (0..SHARDS as u64).map(|shard| Shard::new(roster, shard)).collect() }

// ---- The server

/// A shard as `replay` calls it. A receive window is the offset of its data rate and its delay.
trait Replayed {
    type Frame; // in its entries

    fn shard(&mut self) -> &mut Shard;
    fn log(&mut self, call: Call<Self::Frame>, reply: Reply);
    fn hear(&mut self, data: &Data, heard: Heard, out: &mut Text);
    fn close(&mut self, window: WindowName, rx1: (u8, u64), out: &mut Text);
}

impl Replayed for Shard {
    type Frame = Frame;

    fn shard(&mut self) -> &mut Shard { self }

    /// Adds the entry of a call.
    fn log(&mut self, call: Call, reply: Reply) {
        let number = self.entries.len() as u64;
        self.entries.push(Entry { number, call, reply });
    }

    fn hear(&mut self, data: &Data, heard: Heard, out: &mut Text) {
        let reply = self.uplink(data);
        out.reply(&reply);
        self.log(Call::Uplink { frame: Frame::of(data.bytes), heard }, reply);
    }

    fn close(&mut self, window: WindowName, rx1: (u8, u64), out: &mut Text) {
        let closed = self.take_out(&window);
        let reply = closed.as_ref().map_or(Reply::NoWindow, |(_, ack)| Reply::Closed { window, ack: *ack });
        out.reply(&reply);
        if let Some((Window { session, copies, .. }, ack)) = closed {
            let (session, data) = (&self.sessions[session as usize], Data::of(copies.frame(&self.entries)));
            if window.round == 1 {
                out.up(&window, &data, session, copies.heard(&self.entries), copies.len);
            }
            if let Some(n) = ack {
                out.down(best(copies.heard(&self.entries)), rx1, &session.ack_frame(data.addr, n));
            }
        }
        self.log(Call::Close { window }, reply);
    }
}

struct Server<S> { rx1: (u8, u64), shards: Vec<S>, datagram: Vec<u8>, out: Text }

impl<S: Replayed> Server<S> {
    fn new(roster: &Roster, shard: fn(Shard) -> S) -> Self {
        let shards = shards_of(roster).into_iter().map(shard).collect();
        Server { rx1: (roster.rx1_offset, roster.ack_delay), shards, datagram: Vec::new(), out: Text(Vec::new()) }
    }

    /// Answers a step line, or says why it is refused.
    fn step(&mut self, line: &[u8]) -> Result<(), &'static str> {
        let (kind, rest) = split_word(line.strip_suffix(b"\r").unwrap_or(line))?;
        match kind {
            b"heard" => self.heard(rest)?,
            b"lost" => self.join_reply(hex_array(rest).ok_or("line")?, None),
            b"answer" => {
                let (ticket, body) = split_word(rest)?;
                let ticket = hex_array(ticket).ok_or("line")?;
                self.join_reply(ticket, join_ans(&ticket, body));
            }
            b"close" => {
                let window = window_name(rest)?;
                self.shards[shard_of(window.eui)].close(window, self.rx1, &mut self.out);
            }
            _ => return Err("line"),
        }
        Ok(())
    }

    fn heard(&mut self, digits: &[u8]) -> Result<(), &'static str> {
        self.datagram.resize(digits.len() / 2, 0);
        if digits.is_empty() || !read_hex(digits, &mut self.datagram) {
            return Err("line");
        }
        let heard = read_datagram(&self.datagram)?;
        match view(&self.datagram[28..])? {
            View::Join(ticket) => {
                let shard = &mut self.shards[shard_of(dev_eui(&ticket))];
                let reply = shard.shard().join(&ticket, &heard);
                self.out.reply(&reply);
                shard.log(Call::Join { ticket, heard }, reply);
            }
            View::Data(data) => self.shards[(data.addr >> 21) as usize % SHARDS].hear(&data, heard, &mut self.out),
        }
        Ok(())
    }

    fn join_reply(&mut self, ticket: Ticket, outcome: Option<JoinAns>) {
        let shard = &mut self.shards[shard_of(dev_eui(&ticket))];
        let (reply, best) = shard.shard().join_reply(&ticket, outcome.as_ref());
        self.out.reply(&reply);
        if let (Reply::Accepted { .. }, Some(best), Some(answer)) = (&reply, best, &outcome) {
            self.out.down(&best, (0, 5_000_000), &answer.accept[..answer.len as usize]);
        }
        shard.log(Call::JoinReply { ticket, outcome }, reply);
    }
}

/// The bytes before the first space and those behind it.
fn split_word(line: &[u8]) -> Result<(&[u8], &[u8]), &'static str> {
    let at = line.iter().position(|b| *b == b' ').ok_or("line")?;
    Ok((&line[..at], &line[at + 1..]))
}

fn window_name(words: &[u8]) -> Result<WindowName, &'static str> {
    let (eui, rest) = split_word(words)?;
    let (session, fcnt) = split_word(rest)?;
    let eui = u64::from_be_bytes(hex_array(eui).ok_or("line")?);
    let session = decimal(session)?;
    let Some(colon) = fcnt.iter().position(|b| *b == b':') else {
        return Ok(WindowName { eui, session, fcnt: decimal(fcnt)?, round: 1 });
    };
    let round = decimal(&fcnt[colon + 1..])?;
    if round < 2 {
        return Err("line");
    }
    Ok(WindowName { eui, session, fcnt: decimal(&fcnt[..colon])?, round })
}

/// The number below 2^32 of one or more decimal digits.
fn decimal(digits: &[u8]) -> Result<u32, &'static str> {
    let add = |n: u32, d: &u8| n.checked_mul(10)?.checked_add(d.is_ascii_digit().then(|| d - b'0')? as u32);
    (!digits.is_empty()).then(|| digits.iter().try_fold(0, add)).flatten().ok_or("line")
}

// ---- The program

/// Answers the step lines of standard input, and writes as it goes, or all at the end.
fn replay<S: Replayed>(server: &mut Server<S>, waits: bool) -> io::Result<()> {
    let mut input = BufReader::with_capacity(INPUT_ROOM, io::stdin().lock());
    let mut output = io::stdout().lock();
    let mut line = Vec::new();
    while input.read_until(b'\n', &mut line)? > 0 {
        if let Err(refused) = server.step(line.strip_suffix(b"\n").unwrap_or(&line)) {
            server.out.line("refused").word(refused.as_bytes()).end();
        }
        line.clear();
        if !waits && server.out.0.len() >= OUTPUT_ROOM {
            output.write_all(&server.out.0)?;
            server.out.0.clear();
        }
    }
    output.write_all(&server.out.0)?;
    output.flush()
}

fn read_roster(path: &str) -> Result<Roster, String> {
    let text = std::fs::read(path).map_err(|_| format!("cannot read {path}"))?;
    Roster::read(&text).map_err(|fault| format!("roster: {fault}"))
}

fn run<S: Replayed>(path: &str, shard: fn(Shard) -> S, waits: bool) -> Result<(), String> {
    let roster = read_roster(path)?;
    let mut server = Server::new(&roster, shard);
    drop(roster);
    replay(&mut server, waits).map_err(|_| "io".to_string())?;
    std::mem::forget(server); // The system takes its memory back at once.
    Ok(())
}

fn main() -> ExitCode {
    let words: Vec<String> = std::env::args().skip(1).collect();
    let ended = match &words.iter().map(String::as_str).collect::<Vec<_>>()[..] {
        ["replay", path] => run(path, |shard| shard, false),
        ["replay", path, "--trim"] => run(path, Trimmed::<Packed>::new, false),
        ["replay", path, "--asked"] => run(path, Trimmed::<Vec<Entry>>::new, true),
        ["serve", path, ref options @ ..] => read_roster(path).and_then(|roster| serve::serve(&roster, options)),
        ["receive", ref options @ ..] => serve::receive(options),
        ["sizes"] => {
            println!("Entry {}\nCall {}\nReply {}", size_of::<Entry>(), size_of::<Call>(), size_of::<Reply>());
            println!("Device {}\nSession {}\nWindow {}", size_of::<Device>(), size_of::<Session>(), size_of::<Window>());
            Ok(())
        }
        _ => {
            eprintln!("plain_server replay ROSTER [--trim | --asked] < STEPS\nplain_server serve ROSTER --join ADDR ..\nplain_server receive ..\nplain_server sizes");
            return ExitCode::from(2);
        }
    };
    let Err(fault) = ended else { return ExitCode::SUCCESS };
    eprintln!("{fault}");
    ExitCode::from(1)
}
