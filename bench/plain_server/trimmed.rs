//! `replay .. --trim`: shards are trimmed as they grow, as those of `lorawan_ns replay`. `replay .. --asked`: the same with entries as the
//! interface of the proved server lends them.
//!
//! Windows hold their frame and their copies (`Own`), so no entry is read again but by trims. The `up` and `down` lines are written straight
//! from a closed window, whose memory the next one takes. Of the entries' frames `--trim` keeps no more than their bytes, one behind the
//! other. With `--asked` each entry has room for a whole frame (it is a slice of `Entry` that a caller reads), and what is written waits for
//! the end of the input (`replay` of main.rs), since nothing is written where a read fails.

use crate::asked::Own;
use crate::*;

/// A shard is trimmed once it holds twice what its last trim left, and so many entries.
const TRIM_FROM: usize = 512;

/// Entries of which the frames are kept in some way.
pub trait Journal {
    type Frame; // in its entries

    fn with_capacity(entries: usize) -> Self;
    fn push(&mut self, entry: Entry<Self::Frame>, frame: &[u8]);
    fn frame(bytes: &[u8]) -> Self::Frame;
    fn len(&self) -> usize;
    /// Keeps some of the entries, and makes room for so many.
    fn retain(&mut self, is_kept: impl FnMut(&Entry<Self::Frame>) -> bool, room: impl Fn(usize) -> usize);
}

/// Entries that have the length of their frame, whose bytes lie one behind the other.
pub struct Packed { entries: Vec<Entry<u8>>, frames: Vec<u8> }

impl Journal for Packed {
    type Frame = u8;

    fn with_capacity(entries: usize) -> Packed { Packed { entries: Vec::with_capacity(entries), frames: Vec::new() } }

    #[inline(always)]
    fn push(&mut self, entry: Entry<u8>, frame: &[u8]) {
        self.frames.extend_from_slice(frame);
        self.entries.push(entry);
    }

    fn frame(bytes: &[u8]) -> u8 { bytes.len() as u8 }
    fn len(&self) -> usize { self.entries.len() }

    fn retain(&mut self, mut is_kept: impl FnMut(&Entry<u8>) -> bool, room: impl Fn(usize) -> usize) {
        let Packed { entries, frames } = self;
        let (mut from, mut to) = (0, 0);
        entries.retain(|entry| {
            let len = if let Call::Uplink { frame, .. } = entry.call { frame as usize } else { 0 };
            let stays = is_kept(entry);
            if stays {
                frames.copy_within(from..from + len, to);
                to += len;
            }
            from += len;
            stays
        });
        frames.truncate(to);
        entries.reserve_exact(room(entries.len()) - entries.len());
    }
}

/// Entries with room for a whole frame, in one slice.
impl Journal for Vec<Entry> {
    type Frame = Frame;

    fn with_capacity(entries: usize) -> Vec<Entry> { Vec::with_capacity(entries) }

    #[inline(always)]
    fn push(&mut self, entry: Entry, _: &[u8]) { Vec::push(self, entry) }

    fn frame(bytes: &[u8]) -> Frame { Frame::of(bytes) }
    fn len(&self) -> usize { Vec::len(self) }

    fn retain(&mut self, is_kept: impl FnMut(&Entry) -> bool, room: impl Fn(usize) -> usize) {
        Vec::retain(self, is_kept);
        self.reserve_exact(room(Vec::len(self)) - Vec::len(self));
    }
}

/// A shard with its journal.
pub struct Trimmed<J> { own: Own, journal: J, most: usize }

impl<J: Journal> Trimmed<J> {
    pub fn new(shard: Shard) -> Trimmed<J> {
        Trimmed { own: Own::new(shard), journal: J::with_capacity(TRIM_FROM), most: TRIM_FROM }
    }

    #[inline(never)]
    fn trim(&mut self) {
        let Trimmed { own, journal, most } = self;
        let room = |len: usize| TRIM_FROM.max(2 * len);
        journal.retain(|entry| own.keeps(entry), room);
        *most = room(journal.len());
    }

    #[inline(always)]
    fn add(&mut self, call: Call<J::Frame>, reply: Reply, frame: &[u8]) {
        self.journal.push(Entry { number: self.own.made, call, reply }, frame);
        self.own.made += 1;
        if self.journal.len() >= self.most {
            self.trim();
        }
    }
}

impl<J: Journal> Replayed for Trimmed<J> {
    type Frame = J::Frame;

    fn shard(&mut self) -> &mut Shard { &mut self.own.shard }

    #[inline(always)]
    fn log(&mut self, call: Call<J::Frame>, reply: Reply) { self.add(call, reply, &[]) }

    fn hear(&mut self, data: &Data, heard: Heard, out: &mut Text) {
        let reply = self.own.uplink(data, &heard);
        out.reply(&reply);
        self.add(Call::Uplink { frame: J::frame(data.bytes), heard }, reply, data.bytes);
    }

    fn close(&mut self, window: WindowName, rx1: (u8, u64), out: &mut Text) {
        let closed = self.own.take_out(&window);
        let reply = closed.as_ref().map_or(Reply::NoWindow, |(_, ack)| Reply::Closed { window, ack: *ack });
        out.reply(&reply);
        if let Some((closed, ack)) = closed {
            let (data, session) = (closed.data(), self.own.session(&closed));
            if window.round == 1 {
                out.up(&window, &data, session, closed.heard().iter(), closed.len);
            }
            if let Some(n) = ack {
                out.down(best(closed.heard().iter()), rx1, &session.ack_frame(data.addr, n));
            }
            self.own.reuse(closed);
        }
        self.log(Call::Close { window }, reply);
    }
}
