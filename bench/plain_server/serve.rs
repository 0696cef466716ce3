//! `serve` and `receive`: gateways over UDP and a join server over TCP, by std's threads, channels and sockets.
//!
//! As `lorawan_ns serve` it has workers that hear gateways, workers that ask the join server, and a closer; sixteen shards behind a lock
//! each; one `recv_from` a datagram, with a limit of 100 ms; the address of each gateway in a map; lines gathered and written before the
//! closer waits.

use crate::asked::Asked;
use crate::rest::{Pace, Resting};
use crate::*;
use std::io::Read;
use std::net::{SocketAddr, TcpStream, UdpSocket};
use std::sync::atomic::{AtomicU64, Ordering};
use std::sync::mpsc::{Receiver, Sender, TryRecvError, channel};
use std::sync::{Arc, Mutex};
use std::thread;
use std::time::{Duration, Instant};

const EXCHANGE: Duration = Duration::from_secs(4);
const LISTEN: Duration = Duration::from_millis(100);

pub struct Options {
    join: SocketAddr,
    listen: SocketAddr,
    workers: u64,
    join_workers: u64,
    pub window: Duration,
    pub stop_after: u64,
    /// Whether all is done that the interface of the proved server asks for (`asked.rs`).
    asked: bool,
    /// Whether gateway workers rest while the others are enough (`rest.rs`).
    rest: bool,
}

impl Options {
    fn read(words: &[&str]) -> Result<Options, String> {
        let addr = SocketAddr::from(([127, 0, 0, 1], 0));
        let window = Duration::from_millis(200);
        let (asked, rest) = (words.contains(&"--asked"), words.contains(&"--rest"));
        let words: Vec<&str> = words.iter().copied().filter(|word| !["--asked", "--rest"].contains(word)).collect();
        let mut found = Options { join: addr, listen: addr, workers: 4, join_workers: 1, window, stop_after: u64::MAX, asked, rest };
        for pair in words.chunks(2) {
            let value = *pair.get(1).ok_or("an option without its value")?;
            let bad = |_| format!("bad value: {value}");
            let whole = || value.parse::<u64>().map_err(|_| format!("bad value: {value}"));
            match pair[0] {
                "--join" => found.join = value.parse().map_err(bad)?,
                "--listen" => found.listen = value.parse().map_err(bad)?,
                "--workers" => found.workers = whole()?,
                "--join-workers" => found.join_workers = whole()?,
                "--window" => found.window = Duration::from_millis(whole()?),
                "--stop-after" => found.stop_after = whole()?,
                other => return Err(format!("no option {other}")),
            }
        }
        Ok(found)
    }
}

/// What all threads share.
pub struct Live<'a> {
    pub roster: &'a Roster,
    pub options: Options,
    socket: UdpSocket,
    resting: Resting,
    shards: Vec<Mutex<Shard>>,
    pub peers: Mutex<Map<SocketAddr>>,
    pub read: AtomicU64,
    pub listening: AtomicU64, // how many workers hear gateways
    pub output: Mutex<Text>,
}

pub struct CloseJob { pub window: WindowName, pub due: Instant }

fn listen(options: &Options) -> Result<UdpSocket, String> {
    let socket = UdpSocket::bind(options.listen).map_err(|_| "io")?;
    socket.set_read_timeout(Some(LISTEN)).map_err(|_| "io")?;
    println!("listening {}", socket.local_addr().map_err(|_| "io")?);
    Ok(socket)
}

/// Receives datagrams until so many came.
pub fn receive(words: &[&str]) -> Result<(), String> {
    let options = Options::read(words)?;
    let socket = listen(&options)?;
    let read = AtomicU64::new(0);
    thread::scope(|scope| {
        for _ in 0..options.workers {
            scope.spawn(|| {
                let mut buffer = [0; 512];
                while read.load(Ordering::SeqCst) < options.stop_after {
                    if socket.recv_from(&mut buffer).is_ok() {
                        read.fetch_add(1, Ordering::SeqCst);
                    }
                }
            });
        }
    });
    Ok(())
}

/// Serves until so many datagrams came.
pub fn serve(roster: &Roster, words: &[&str]) -> Result<(), String> {
    let options = Options::read(words)?;
    let socket = listen(&options)?;
    let (workers, join_workers) = (options.workers, options.join_workers);
    let (shards, asked) = match options.asked {
        false => (shards_of(roster), None),
        true => (Vec::new(), Some(Asked::new(shards_of(roster)))),
    };
    let shards = shards.into_iter().map(Mutex::new).collect();
    let (peers, read, listening, output, resting) = Default::default();
    let output: Mutex<Vec<u8>> = output;
    let output = Mutex::new(Text(output.into_inner().unwrap()));
    let live = Live { roster, options, socket, resting, shards, peers, read, listening, output };
    live.listening.store(workers, Ordering::SeqCst);
    let (closes, close_jobs) = channel();
    let (asks, ask_jobs) = channel();
    let ask_jobs = Arc::new(Mutex::new(ask_jobs));
    thread::scope(|scope| {
        for _ in 0..workers {
            let (live, asked, closes, asks) = (&live, &asked, closes.clone(), asks.clone());
            scope.spawn(move || match asked {
                None => live.hear(&closes, &asks),
                Some(asked) => live.hear_asked(asked, &closes, &asks),
            });
        }
        for _ in 0..join_workers {
            let (live, asked, jobs) = (&live, &asked, ask_jobs.clone());
            scope.spawn(move || match asked {
                None => live.ask_all(&jobs),
                Some(asked) => live.ask_all_asked(asked, &jobs),
            });
        }
        drop((closes, asks));
        match &asked {
            None => live.close_all(&close_jobs),
            Some(asked) => live.close_all_asked(asked, &close_jobs),
        }
    });
    let own = live.shards.iter().map(|shard| shard.lock().unwrap().entries.len() as u64).sum::<u64>();
    let total = own + asked.as_ref().map_or(0, Asked::total);
    live.output.lock().unwrap().line("settled").number(total).end();
    live.flush();
    std::mem::forget((live, asked));
    Ok(())
}

impl Live<'_> {
    /// Receives the next datagram.
    pub fn receive(&self, pace: &mut Pace, buffer: &mut [u8; 512]) -> io::Result<(usize, SocketAddr)> {
        if !self.options.rest || self.options.workers == 1 {
            return self.socket.recv_from(buffer);
        }
        if std::mem::take(&mut pace.waited) {
            self.resting.rest(self.options.workers);
        }
        let start = Instant::now();
        let heard = self.socket.recv_from(buffer)?;
        if pace.comes(start.elapsed()) {
            self.resting.wake();
        }
        Ok(heard)
    }

    /// Answers datagrams.
    fn hear(&self, closes: &Sender<CloseJob>, asks: &Sender<Ticket>) {
        let (mut buffer, mut pace) = ([0; 512], Pace::default());
        while self.read.load(Ordering::SeqCst) < self.options.stop_after {
            let Ok((len, peer)) = self.receive(&mut pace, &mut buffer) else { continue };
            if self.read.fetch_add(1, Ordering::SeqCst) >= self.options.stop_after {
                break;
            }
            self.take(&buffer[..len], peer, closes, asks);
        }
        self.listening.fetch_sub(1, Ordering::SeqCst);
    }

    fn take(&self, datagram: &[u8], peer: SocketAddr, closes: &Sender<CloseJob>, asks: &Sender<Ticket>) {
        let Ok(heard) = read_datagram(datagram) else { return };
        self.peers.lock().unwrap().insert(heard.gateway, peer);
        match view(&datagram[28..]) {
            Ok(View::Join(ticket)) => {
                let mut shard = self.shards[shard_of(dev_eui(&ticket))].lock().unwrap();
                let reply = shard.join(&ticket, &heard);
                shard.log(Call::Join { ticket, heard }, reply);
                drop(shard);
                if let Reply::Ask { ticket } = reply {
                    let _ = asks.send(ticket);
                }
            }
            Ok(View::Data(data)) => {
                let frame = Frame::of(data.bytes);
                let mut shard = self.shards[(data.addr >> 21) as usize % SHARDS].lock().unwrap();
                let reply = shard.uplink(&data);
                shard.log(Call::Uplink { frame, heard }, reply);
                drop(shard);
                if let Reply::Opened { window } | Reply::Again { window } = reply {
                    let _ = closes.send(CloseJob { window, due: Instant::now() + self.options.window });
                }
            }
            Err(_) => {}
        }
    }

    /// Closes windows as they are due, and writes lines before it waits.
    fn close_all(&self, jobs: &Receiver<CloseJob>) {
        loop {
            let job = match jobs.try_recv() {
                Ok(job) => job,
                Err(TryRecvError::Disconnected) => break,
                Err(TryRecvError::Empty) => {
                    self.flush();
                    let Ok(job) = jobs.recv() else { break };
                    job
                }
            };
            self.wait_until(job.due);
            self.close(job.window);
            if self.output.lock().unwrap().0.len() >= 8192 {
                self.flush();
            }
        }
        self.flush();
    }

    fn wait_until(&self, due: Instant) {
        loop {
            let left = due.saturating_duration_since(Instant::now());
            if left.is_zero() || self.listening.load(Ordering::SeqCst) == 0 {
                return;
            }
            self.flush();
            thread::sleep(left.min(LISTEN));
        }
    }

    pub fn flush(&self) {
        let mut output = self.output.lock().unwrap();
        if io::stdout().write_all(&output.0).is_err() || io::stdout().flush().is_err() {
            std::process::exit(1);
        }
        output.0.clear();
    }

    fn close(&self, window: WindowName) {
        let mut shard = self.shards[shard_of(window.eui)].lock().unwrap();
        let closed = shard.take_out(&window);
        let reply = closed.as_ref().map_or(Reply::NoWindow, |(_, ack)| Reply::Closed { window, ack: *ack });
        let mut down = None;
        if let Some((Window { session, copies, .. }, ack)) = closed {
            let (session, data) = (&shard.sessions[session as usize], Data::of(copies.frame(&shard.entries)));
            if window.round == 1 {
                self.output.lock().unwrap().up(&window, &data, session, copies.heard(&shard.entries), copies.len);
            }
            if let Some(number) = ack {
                down = Some((*best(copies.heard(&shard.entries)), session.ack_frame(data.addr, number)));
            }
        }
        shard.log(Call::Close { window }, reply);
        drop(shard);
        if let Some((best, frame)) = down {
            self.send(&best, self.roster.rx1_offset, self.roster.ack_delay, &frame);
        }
    }

    /// Sends a downlink to where its gateway was heard last.
    pub fn send(&self, best: &Heard, offset: u8, delay: u64, frame: &[u8]) {
        let Some(peer) = self.peers.lock().unwrap().get(&best.gateway).copied() else { return };
        let mut datagram = vec![1, 0x81];
        datagram.extend_from_slice(&best.gateway.to_be_bytes());
        datagram.extend_from_slice(&best.moment.wrapping_add(delay).to_be_bytes());
        datagram.extend_from_slice(&best.freq.to_be_bytes());
        datagram.extend_from_slice(&[best.dr.saturating_sub(offset), 0, 0, 0, 0, frame.len() as u8]);
        datagram.extend_from_slice(frame);
        let _ = self.socket.send_to(&datagram, peer);
    }

    /// Asks the join server for each ticket.
    fn ask_all(&self, jobs: &Mutex<Receiver<Ticket>>) {
        loop {
            let job = jobs.lock().unwrap().recv();
            let Ok(ticket) = job else { return };
            let outcome = self.ask(&ticket).and_then(|body| join_ans(&ticket, &body));
            let mut shard = self.shards[shard_of(dev_eui(&ticket))].lock().unwrap();
            let (reply, best) = shard.join_reply(&ticket, outcome.as_ref());
            shard.log(Call::JoinReply { ticket, outcome }, reply);
            drop(shard);
            if let (Reply::Accepted { .. }, Some(best), Some(answer)) = (reply, best, outcome) {
                self.send(&best, 0, 5_000_000, &answer.accept[..answer.len as usize]);
            }
        }
    }

    /// The body of the join server's answer.
    pub fn ask(&self, ticket: &Ticket) -> Option<Vec<u8>> {
        let eui = dev_eui(ticket);
        let device = self.roster.devices.iter().find(|d| d.eui == eui)?;
        let mut phy = Text(Vec::new());
        phy.hex_digits(ticket);
        let [a, b, c] = self.roster.net;
        let body = format!(
            concat!(
                "{{\"DLSettings\":\"{:02x}\",\"DevAddr\":\"{:08x}\",\"DevEUI\":\"{:016x}\",\"MACVersion\":\"1.0.4\",\"MessageType\":\"JoinReq\",",
                "\"PHYPayload\":\"{}\",\"ProtocolVersion\":\"1.0\",\"ReceiverID\":\"{:016x}\",\"RxDelay\":{},\"SenderID\":\"{:02x}{:02x}{:02x}\",",
                "\"TransactionID\":{}}}"
            ),
            16 * self.roster.rx1_offset, device.addr, eui, String::from_utf8(phy.0).ok()?, device.join_eui, self.roster.rx_delay, a, b, c,
            u32::from_le_bytes(array(&ticket[19..])),
        );
        let mut stream = TcpStream::connect_timeout(&self.options.join, EXCHANGE).ok()?;
        stream.set_read_timeout(Some(EXCHANGE)).ok()?;
        let head = "POST / HTTP/1.1\r\nHost: localhost\r\nContent-Type: application/json\r\nConnection: close\r\n";
        stream.write_all(format!("{head}Content-Length: {}\r\n\r\n{body}", body.len()).as_bytes()).ok()?;
        response_body(&mut stream)
    }
}

/// The body of a response with a Content-Length.
fn response_body(stream: &mut TcpStream) -> Option<Vec<u8>> {
    let (mut bytes, mut buffer) = (Vec::new(), [0; 4096]);
    loop {
        let read = stream.read(&mut buffer).ok().filter(|n| *n > 0)?;
        bytes.extend_from_slice(&buffer[..read]);
        let Some(start) = bytes.windows(4).position(|part| part == b"\r\n\r\n") else { continue };
        let head = String::from_utf8(bytes[..start].to_ascii_lowercase()).ok()?;
        let length = head.lines().find_map(|line| line.strip_prefix("content-length:"))?.trim().parse::<usize>().ok()?;
        if bytes.len() >= start + 4 + length {
            return head.starts_with("http/1.1 200").then(|| bytes[start + 4..start + 4 + length].to_vec());
        }
    }
}
