//! `serve .. --asked`: what the interface of the proved server asks of any server, in plain Rust. It is the floor beside which `serve` is measured.
//!
//! Beside what `serve` of this program does
//!
//! - a call is made in one place from its datagram, and goes by value into its entry and into the receipt that each call gives;
//! - windows hold their frame and their copies, since a trim may drop the entries of these while the window is open;
//! - a shard is trimmed in place once `TRIM` further entries were made, as many as by default: of each device what its session and its
//!   windows need stays;
//! - a late copy of a frame is no call: the frames whose windows were closed are kept in rows of four;
//! - each reply and each shard's entries are counted, and gateways' addresses are written only where they change;
//! - a closer takes the windows that are due, 64 at most, makes a receipt of each with its uplink in it, in a list, and writes the lines of
//!   these once the acknowledgements are sent.
//!
//! Session keys stay expanded, maps hash by one multiplication, and nothing that is not listed is done: no log, no record, no status.

use crate::rest::Pace;
use crate::serve::{CloseJob, Live};
use crate::*;
use std::net::SocketAddr;
use std::sync::atomic::{AtomicU64, Ordering};
use std::sync::mpsc::{Receiver, Sender, TryRecvError};
use std::sync::Mutex;
use std::thread;
use std::time::{Duration, Instant};

const TRIM: u64 = 5_000;
const AT_A_TIME: usize = 64;
const NAP: Duration = Duration::from_millis(3);
const LATE_MS: u64 = 2000;

/// An open window, with the frame and the copies of it.
pub struct OwnWindow { pub name: WindowName, session: u32, frame: Frame, heard: [Heard; MOST_COPIES], pub len: u8 }

impl OwnWindow {
    pub fn data(&self) -> Data<'_> { Data::of(&self.frame.bytes[..self.frame.len as usize]) }
    pub fn heard(&self) -> &[Heard] { &self.heard[..self.len as usize] }
}

/// What goes up with a closing.
struct Uplink {
    name: WindowName,
    fport: Option<u8>,
    fopts: (u8, [u8; 15]),
    sealed: bool,
    payload: (u8, [u8; 242]),
    heard: [Heard; MOST_COPIES],
    len: u8,
}

struct Downlink { best: Heard, frame: [u8; 12] }

/// What a call got.
struct Receipt { shard: u8, number: u64, call: Call, reply: Reply, uplink: Option<Uplink>, downlink: Option<Downlink> }

impl Receipt {
    fn empty() -> Receipt {
        let window = WindowName { eui: 0, session: 0, fcnt: 0, round: 0 };
        Receipt { shard: 0, number: 0, call: Call::Close { window }, reply: Reply::NoWindow, uplink: None, downlink: None }
    }
}

/// A shard whose windows hold their copies.
#[derive(Default)]
pub struct Own { pub shard: Shard, windows: Vec<Vec<Box<OwnWindow>>>, closed: Vec<Box<OwnWindow>>, pub made: u64 }

impl Own {
    pub fn new(shard: Shard) -> Own {
        let windows = shard.devices.iter().map(|_| Vec::new()).collect();
        Own { shard, windows, closed: Vec::with_capacity(AT_A_TIME), made: 0 }
    }

    /// Makes a call: its entry is added, and the receipt put in the place of another.
    fn step(&mut self, call: &Call, receipt: &mut Receipt) {
        receipt.uplink = None;
        receipt.downlink = None;
        let reply = match call {
            Call::Uplink { frame, heard } => self.uplink(&Data::of(&frame.bytes[..frame.len as usize]), heard),
            Call::Close { window } => self.close(window, receipt),
            Call::Join { ticket, heard } => self.shard.join(ticket, heard),
            Call::JoinReply { ticket, outcome } => self.shard.join_reply(ticket, outcome.as_ref()).0,
        };
        self.shard.entries.push(Entry { number: self.made, call: *call, reply });
        receipt.number = self.made;
        receipt.call = *call;
        receipt.reply = reply;
        self.made += 1;
    }

    pub fn uplink(&mut self, data: &Data, heard: &Heard) -> Reply {
        let Some(places) = self.shard.by_addr.get(&(data.addr as u64)) else { return Reply::NoSession };
        let places = places.start as usize..places.end as usize;
        for window in self.windows[places.clone()].iter_mut().flat_map(|windows| windows.iter_mut().rev()) {
            if window.frame.bytes[..window.frame.len as usize] == *data.bytes {
                let name = window.name;
                let Some(room) = window.heard.get_mut(window.len as usize) else { return Reply::Crowded { window: name } };
                *room = *heard;
                window.len += 1;
                return Reply::Copied { window: name, place: window.len };
            }
        }
        if let Some(fit) = self.shard.first_fit(places.clone(), data, above) {
            return self.open(&fit, 1, data.bytes, heard);
        }
        let Some(fit) = self.shard.first_fit(places, data, below) else { return Reply::NoSession };
        let Session { greatest, round, .. } = self.shard.sessions[fit.session as usize];
        let same = |w: &Box<OwnWindow>| w.session == fit.session && w.name.fcnt == fit.fcnt;
        if !data.confirmed || greatest != Some(fit.fcnt) || round == u32::MAX || self.windows[fit.device].iter().any(same) {
            let WindowName { eui, session, fcnt, .. } = self.shard.window_of(&fit, 1);
            return Reply::Old { eui, session, fcnt };
        }
        self.open(&fit, round + 1, data.bytes, heard)
    }

    fn open(&mut self, fit: &Fit, round: u32, bytes: &[u8], heard: &Heard) -> Reply {
        let name = self.shard.window_of(fit, round);
        let device = &mut self.shard.devices[fit.device];
        if self.windows[fit.device].len() == MOST_WINDOWS {
            return Reply::Busy { eui: device.eui };
        }
        if device.pending == Some(fit.session) {
            device.active = device.pending.take();
        }
        let session = &mut self.shard.sessions[fit.session as usize];
        (session.greatest, session.round) = (Some(fit.fcnt), round);
        let window = match self.closed.pop() {
            Some(mut window) => {
                (window.name, window.session, window.len, window.heard[0]) = (name, fit.session, 1, *heard);
                window.frame.len = bytes.len() as u8;
                window.frame.bytes[..bytes.len()].copy_from_slice(bytes);
                window
            }
            None => Box::new(OwnWindow { name, session: fit.session, frame: Frame::of(bytes), heard: [*heard; MOST_COPIES], len: 1 }),
        };
        self.windows[fit.device].push(window);
        if round == 1 { Reply::Opened { window: name } } else { Reply::Again { window: name } }
    }

    /// Takes out a window, with the number of its acknowledgement. Its memory is for `reuse`.
    pub fn take_out(&mut self, name: &WindowName) -> Option<(Box<OwnWindow>, Option<u32>)> {
        let same = |w: &Box<OwnWindow>| w.name.fcnt == name.fcnt && w.name.round == name.round && w.name.session == name.session;
        let place = *self.shard.by_eui.get(&name.eui)? as usize;
        let at = self.windows[place].iter().position(same)?;
        let window = self.windows[place].swap_remove(at);
        let mut ack = None;
        if window.data().confirmed && self.shard.devices[place].live().any(|s| s == window.session) {
            let next = &mut self.shard.sessions[window.session as usize].next_ack;
            ack = u32::try_from(*next).ok();
            *next += ack.is_some() as u64;
        }
        Some((window, ack))
    }

    pub fn session(&self, window: &OwnWindow) -> &Session { &self.shard.sessions[window.session as usize] }

    /// Keeps the memory of a closed window for one that opens.
    pub fn reuse(&mut self, window: Box<OwnWindow>) {
        if self.closed.len() < AT_A_TIME {
            self.closed.push(window);
        }
    }

    fn close(&mut self, name: &WindowName, receipt: &mut Receipt) -> Reply {
        let Some((window, ack)) = self.take_out(name) else { return Reply::NoWindow };
        let (data, session) = (window.data(), self.session(&window));
        if name.round == 1 {
            receipt.uplink = Some(uplink_of(&window, &data, session));
        }
        if let Some(number) = ack {
            receipt.downlink = Some(Downlink { best: *best(window.heard().iter()), frame: session.ack_frame(data.addr, number) });
        }
        self.reuse(window);
        Reply::Closed { window: *name, ack }
    }

    /// Whether an answer may rest on an entry.
    pub fn keeps<F>(&self, entry: &Entry<F>) -> bool {
        let Shard { devices, by_eui, sessions, .. } = &self.shard;
        let live = |eui: u64, number| devices[by_eui[&eui] as usize].live().map(|s| &sessions[s as usize]).find(|s| s.number == number);
        let is_last = |w: &WindowName| live(w.eui, w.session).is_some_and(|session| session.greatest == Some(w.fcnt));
        let is_open = |w: &WindowName| self.windows[by_eui[&w.eui] as usize].iter().any(|o| o.name.fcnt == w.fcnt && o.name.session == w.session);
        match (&entry.reply, &entry.call) {
            (Reply::Opened { window } | Reply::Again { window }, _) => is_last(window) || is_open(window),
            (Reply::Copied { window, .. }, _) => is_open(window),
            (Reply::Closed { window, ack: Some(_) }, _) => is_last(window),
            (Reply::Accepted { eui, session, .. }, _) => live(*eui, *session).is_some(),
            (Reply::Ask { .. } | Reply::JoinCopied { .. }, Call::Join { ticket, .. }) => {
                devices[by_eui[&dev_eui(ticket)] as usize].tickets.iter().any(|open| open.ticket == *ticket)
            }
            _ => false,
        }
    }

    /// Drops the entries on which no answer rests, and gives the number of the next one.
    fn trim(&mut self) -> u64 {
        let mut entries = std::mem::take(&mut self.shard.entries);
        entries.retain(|entry| self.keeps(entry));
        self.shard.entries = entries;
        self.made
    }
}

/// The uplink of a window that is closed, deciphered.
fn uplink_of(window: &OwnWindow, data: &Data, session: &Session) -> Uplink {
    let (mut payload, mut fopts) = ([0; 242], [0; 15]);
    payload[..data.payload.len()].copy_from_slice(data.payload);
    fopts[..data.fopts.len()].copy_from_slice(data.fopts);
    let plain = &mut payload[..data.payload.len()];
    let mut sealed = false;
    match (data.port, &session.app) {
        _ if plain.is_empty() => {}
        (Some(0), _) => cipher_in_place(&session.nwk.aes, data.addr, window.name.fcnt, plain),
        (_, Some(app)) => cipher_in_place(&Aes128::new(app), data.addr, window.name.fcnt, plain),
        (_, None) => sealed = true,
    }
    Uplink {
        name: window.name,
        fport: data.port,
        fopts: (data.fopts.len() as u8, fopts),
        sealed,
        payload: (data.payload.len() as u8, payload),
        heard: window.heard,
        len: window.len,
    }
}

/// A frame by its address, counter and MIC, and when its window is closed.
#[derive(Clone, Copy, Default, PartialEq, Eq)]
struct Named { addr: u32, mic: u32, low: u16 }

#[derive(Clone, Copy, Default)]
struct Row([(Named, u64); 4]);

/// What all threads share beside that of `serve`.
pub struct Asked {
    shards: Vec<Mutex<Own>>,
    lates: Vec<Mutex<Vec<Row>>>,
    replies: [AtomicU64; 19],
    made: [AtomicU64; SHARDS],
    changes: AtomicU64,
    start: Instant,
}

fn place_of(reply: &Reply) -> usize {
    match reply {
        Reply::Opened { .. } => 0,
        Reply::Copied { .. } => 1,
        Reply::Crowded { .. } => 2,
        Reply::Old { .. } => 3,
        Reply::Again { .. } => 4,
        Reply::NoSession => 5,
        Reply::Closed { .. } => 6,
        Reply::Ask { .. } => 7,
        Reply::Accepted { .. } => 8,
        _ => 9,
    }
}

impl Asked {
    pub fn new(shards: Vec<Shard>) -> Asked {
        Asked {
            shards: shards.into_iter().map(|shard| Mutex::new(Own::new(shard))).collect(),
            lates: (0..SHARDS).map(|_| Mutex::new(vec![Row::default(); 1024])).collect(),
            replies: Default::default(),
            made: Default::default(),
            changes: AtomicU64::new(1),
            start: Instant::now(),
        }
    }

    fn now_ms(&self) -> u64 { self.start.elapsed().as_millis() as u64 }

    /// When the window of a frame is closed, where that is kept.
    fn due(&self, frame: &Named) -> Option<u64> {
        let rows = self.lates[(frame.addr >> 21) as usize % SHARDS].lock().unwrap();
        rows[frame.mic as usize % 1024].0.iter().find(|kept| kept.0 == *frame).map(|kept| kept.1)
    }

    fn note(&self, frame: Named, due: u64) {
        let mut rows = self.lates[(frame.addr >> 21) as usize % SHARDS].lock().unwrap();
        let row = &mut rows[frame.mic as usize % 1024].0;
        row.copy_within(0..3, 1);
        row[0] = (frame, due);
    }

    /// Makes a call, and counts what came of it.
    fn call(&self, shard: usize, call: &Call, receipt: &mut Receipt) {
        receipt.shard = shard as u8;
        self.shards[shard].lock().unwrap().step(call, receipt);
        self.replies[place_of(&receipt.reply)].fetch_add(1, Ordering::SeqCst);
        self.made[shard].fetch_add(1, Ordering::SeqCst);
    }

    pub fn total(&self) -> u64 { self.shards.iter().map(|shard| shard.lock().unwrap().made).sum() }
}

/// What a gateway worker keeps of the gateways it heard last.
struct Noted([(u64, Option<SocketAddr>, u64); 64]);

impl Live<'_> {
    /// Answers datagrams.
    pub fn hear_asked(&self, asked: &Asked, closes: &Sender<CloseJob>, asks: &Sender<Ticket>) {
        let (mut buffer, mut receipt, mut noted) = ([0; 512], Receipt::empty(), Noted([(0, None, 0); 64]));
        let (mut call, mut pace) = (Receipt::empty().call, Pace::default());
        while self.read.load(Ordering::SeqCst) < self.options.stop_after {
            let Ok((len, peer)) = self.receive(&mut pace, &mut buffer) else { continue };
            if self.read.fetch_add(1, Ordering::SeqCst) >= self.options.stop_after {
                break;
            }
            self.take_asked(asked, &buffer[..len], peer, closes, asks, &mut noted, &mut call, &mut receipt);
        }
        self.listening.fetch_sub(1, Ordering::SeqCst);
    }

    #[allow(clippy::too_many_arguments)]
    fn take_asked(
        &self, asked: &Asked, datagram: &[u8], peer: SocketAddr, closes: &Sender<CloseJob>, asks: &Sender<Ticket>, noted: &mut Noted,
        call: &mut Call, receipt: &mut Receipt,
    ) {
        let Ok(heard) = read_datagram(datagram) else { return };
        let place = &mut noted.0[heard.gateway as usize % 64];
        let changes = asked.changes.load(Ordering::SeqCst);
        if *place != (heard.gateway, Some(peer), changes) {
            let mut peers = self.peers.lock().unwrap();
            if peers.insert(heard.gateway, peer) != Some(peer) {
                asked.changes.fetch_add(1, Ordering::SeqCst);
            }
            *place = (heard.gateway, Some(peer), asked.changes.load(Ordering::SeqCst));
        }
        match view(&datagram[28..]) {
            Ok(View::Join(ticket)) => {
                *call = Call::Join { ticket, heard };
                let shard = shard_of(dev_eui(&ticket));
                asked.call(shard, call, receipt);
                if let Reply::Ask { ticket } = receipt.reply {
                    let _ = asks.send(ticket);
                }
            }
            Ok(View::Data(data)) => {
                let bytes = data.bytes;
                let mic = u32::from_le_bytes(array(&bytes[bytes.len() - 4..]));
                let named = Named { addr: data.addr, mic, low: data.low };
                if asked.due(&named).is_some_and(|due| (due..due + LATE_MS).contains(&asked.now_ms())) {
                    return;
                }
                put_uplink(call, bytes, heard);
                asked.call((data.addr >> 21) as usize % SHARDS, call, receipt);
                if let Reply::Opened { window } | Reply::Again { window } = receipt.reply {
                    asked.note(named, asked.now_ms() + self.options.window.as_millis() as u64);
                    let _ = closes.send(CloseJob { window, due: Instant::now() + self.options.window });
                }
            }
            Err(_) => {}
        }
    }

    /// Closes windows as they are due, some at a time.
    pub fn close_all_asked(&self, asked: &Asked, jobs: &Receiver<CloseJob>) {
        let mut held = None;
        // The shards are not trimmed all at once: at first their marks lie a sixteenth of so many entries apart.
        let mut marks: [u64; SHARDS] = std::array::from_fn(|shard| shard as u64 * (TRIM / SHARDS as u64));
        loop {
            let first = match held.take().map(Ok).unwrap_or_else(|| jobs.recv()) {
                Ok(job) => job,
                Err(_) => break,
            };
            let is_deaf = || self.listening.load(Ordering::SeqCst) == 0;
            let now = Instant::now();
            if first.due > now && !is_deaf() {
                thread::sleep((first.due - now).max(NAP).min(Duration::from_millis(100)));
                held = Some(first);
                continue;
            }
            let mut batch = Vec::with_capacity(AT_A_TIME);
            batch.push(first);
            while batch.len() < AT_A_TIME {
                match jobs.try_recv() {
                    Ok(job) if job.due <= now || is_deaf() => batch.push(job),
                    Ok(job) => {
                        held = Some(job);
                        break;
                    }
                    Err(TryRecvError::Empty | TryRecvError::Disconnected) => break,
                }
            }
            self.close_batch(asked, &batch);
            for (shard, mark) in marks.iter_mut().enumerate() {
                if asked.made[shard].load(Ordering::SeqCst).saturating_sub(*mark) >= TRIM {
                    *mark = asked.shards[shard].lock().unwrap().trim();
                }
            }
        }
        self.flush();
    }

    fn close_batch(&self, asked: &Asked, batch: &[CloseJob]) {
        let mut receipts = Vec::with_capacity(batch.len());
        for job in batch {
            let mut receipt = Receipt::empty();
            asked.call(shard_of(job.window.eui), &Call::Close { window: job.window }, &mut receipt);
            if let Some(uplink) = &receipt.uplink {
                self.output.lock().unwrap().sent(uplink);
            }
            receipts.push(receipt);
        }
        for receipt in &receipts {
            if let Some(Downlink { best, frame }) = &receipt.downlink {
                self.send(best, self.roster.rx1_offset, self.roster.ack_delay, frame);
            }
        }
        self.flush();
    }

    /// Asks the join server for each ticket.
    pub fn ask_all_asked(&self, asked: &Asked, jobs: &Mutex<Receiver<Ticket>>) {
        let mut receipt = Receipt::empty();
        loop {
            let job = jobs.lock().unwrap().recv();
            let Ok(ticket) = job else { return };
            let outcome = self.ask(&ticket).and_then(|body| join_ans(&ticket, &body));
            let shard = shard_of(dev_eui(&ticket));
            let best = asked.shards[shard].lock().unwrap().shard.best_copy(&ticket);
            asked.call(shard, &Call::JoinReply { ticket, outcome }, &mut receipt);
            if let (Reply::Accepted { .. }, Some(best), Some(answer)) = (receipt.reply, best, outcome) {
                self.send(&best, 0, 5_000_000, &answer.accept[..answer.len as usize]);
            }
        }
    }
}

/// Puts the call of a frame in the place of the one before: no more of the frame is written than it has bytes.
fn put_uplink(call: &mut Call, bytes: &[u8], now: Heard) {
    if let Call::Uplink { frame, heard } = call {
        frame.len = bytes.len() as u8;
        frame.bytes[..bytes.len()].copy_from_slice(bytes);
        *heard = now;
        return;
    }
    *call = Call::Uplink { frame: Frame::of(bytes), heard: now };
}

impl Text {
    /// The line of an uplink that goes out.
    fn sent(&mut self, up: &Uplink) {
        let kind: &[u8] = if up.sealed { b"sealed" } else { b"plain" };
        let (fopts, payload) = (&up.fopts.1[..up.fopts.0 as usize], &up.payload.1[..up.payload.0 as usize]);
        self.line("up").window(&up.name).number_or_dash(up.fport).word(kind).hex(fopts).hex(payload).number(up.len);
        for (i, heard) in up.heard[..up.len as usize].iter().enumerate() {
            self.0.push(if i == 0 { b' ' } else { b',' });
            self.hex_digits(&heard.gateway.to_be_bytes());
        }
        self.end();
    }
}
