//! A server that answers the benchmarks' client and knows nothing of locks: each request is granted, each release
//! succeeds. It is there in two forms that differ in nothing else, a thread for each connection and event loops, so
//! that what the form costs is seen apart from what a server does. For each message it works for so many microseconds.
//!
//! It writes `listening`, and serves until it is killed.

use std::collections::HashMap;
use std::env::args;
use std::io::{self, Read, Write};
use std::net::{TcpListener, TcpStream};
use std::os::fd::AsRawFd;
use std::process::exit;
use std::sync::mpsc::{channel, Receiver, Sender};
use std::thread;
use std::time::{Duration, Instant};

const USAGE: &str =
    "usage: bare PORT MICROSECONDS [LOOPS], without LOOPS a thread for each connection";

const TEXT: u8 = 1;
const CLOSE: u8 = 8;

/// What the system's header files say of epoll on x86-64.
#[repr(C, packed)]
#[derive(Clone, Copy)]
struct Event {
    events: u32,
    key: u64,
}

const READABLE: u32 = 1;
const CLOSED: u32 = 0x2000;
const BY_EDGE: u32 = 1 << 31;
const ADD: i32 = 1;

extern "C" {
    fn epoll_create1(flags: i32) -> i32;
    fn epoll_ctl(poll: i32, what: i32, file: i32, event: *mut Event) -> i32;
    fn epoll_wait(poll: i32, events: *mut Event, most: i32, milliseconds: i32) -> i32;
}

/// A connection: its bytes that weren't answered yet, and how many requests it made.
struct Peer {
    stream: TcpStream,
    bytes: Vec<u8>,
    reply: Vec<u8>,
    is_open: bool,
    requests: u64,
    work: Duration,
}

impl Peer {
    fn new(stream: TcpStream, work: Duration) -> io::Result<Peer> {
        stream.set_nodelay(true)?;
        let (bytes, reply) = (Vec::new(), Vec::new());
        let (is_open, requests) = (false, 0);
        Ok(Peer {
            stream,
            bytes,
            reply,
            is_open,
            requests,
            work,
        })
    }

    /// Reads once, and answers what is whole by then; false where the connection is over.
    fn go_on(&mut self) -> bool {
        let mut room = [0; 2_048];
        match self.stream.read(&mut room) {
            Ok(count) if count > 0 => self.bytes.extend_from_slice(&room[..count]),
            Err(error) if error.kind() == io::ErrorKind::WouldBlock => return true,
            _ => return false,
        }
        if !self.is_open {
            return self.shake_hands();
        }
        while let Some((kind, body)) = self.take_frame() {
            if kind == CLOSE || !self.answer(&body) {
                return false;
            }
        }
        true
    }

    fn shake_hands(&mut self) -> bool {
        if !self.bytes.ends_with(b"\r\n\r\n") {
            return true;
        }
        self.bytes.clear();
        self.is_open = true;
        let head =
            "HTTP/1.1 101 Switching Protocols\r\nConnection: Upgrade\r\nUpgrade: websocket\r\n\
                    Sec-WebSocket-Accept: s3pPLMBiTxaQ9kYGzzhZRbK+xOo=\r\n\
                    Sec-WebSocket-Protocol: weblocks.push\r\n\r\n";
        self.stream.write_all(head.as_bytes()).is_ok()
    }

    /// The first frame, if it is whole: one of fewer than 126 bytes, as all of the client's are.
    fn take_frame(&mut self) -> Option<(u8, Vec<u8>)> {
        let size = (*self.bytes.get(1)? & 127) as usize;
        let mask: [u8; 4] = self.bytes.get(2..6)?.try_into().ok()?;
        let body = self.bytes.get(6..6 + size)?;
        let body = body
            .iter()
            .zip(mask.iter().cycle())
            .map(|(byte, key)| byte ^ key)
            .collect();
        let kind = self.bytes[0] & 15;
        self.bytes.drain(..6 + size);
        Some((kind, body))
    }

    /// Works, and answers by the message's number, which is its kind: 0 opens, 1 requests, 2 releases.
    fn answer(&mut self, body: &[u8]) -> bool {
        let until = Instant::now() + self.work;
        while Instant::now() < until {}
        let text = match body.get(6) {
            Some(b'1') => {
                self.requests += 1;
                let it = self.requests;
                format!(
                    r#"{{"id":1,"notices":[{{"phase":"granted","request":{it}}}],"ok":{{"request":{it}}}}}"#
                )
            }
            Some(b'2') => r#"{"id":2,"notices":[],"ok":{"answer":"released"}}"#.to_owned(),
            _ => r#"{"id":0,"notices":[],"ok":{"client":1}}"#.to_owned(),
        };
        self.reply.clear();
        self.reply
            .extend_from_slice(&[0x80 | TEXT, text.len() as u8]);
        self.reply.extend_from_slice(text.as_bytes());
        self.stream.write_all(&self.reply).is_ok()
    }
}

/// Serves what it is sent: each is read whenever bytes came.
fn run_loop(poll: i32, peers: Receiver<Peer>) {
    let mut served = HashMap::new();
    let mut events = [Event { events: 0, key: 0 }; 1_024];
    loop {
        // (a peer is sent before its stream is registered, so it is there once that is reported)
        let count = unsafe { epoll_wait(poll, events.as_mut_ptr(), events.len() as i32, -1) };
        served.extend(
            peers
                .try_iter()
                .map(|it| (it.stream.as_raw_fd() as u64, it)),
        );
        for event in events.iter().take(count.max(0) as usize) {
            let key = event.key;
            if !served.get_mut(&key).is_some_and(Peer::go_on) {
                served.remove(&key);
            }
        }
    }
}

fn give(poll: i32, to: &Sender<Peer>, peer: Peer) -> io::Result<()> {
    let file = peer.stream.as_raw_fd();
    peer.stream.set_nonblocking(true)?;
    to.send(peer).map_err(io::Error::other)?;
    let mut event = Event {
        events: READABLE | CLOSED | BY_EDGE,
        key: file as u64,
    };
    match unsafe { epoll_ctl(poll, ADD, file, &mut event) } {
        0 => Ok(()),
        _ => Err(io::Error::last_os_error()),
    }
}

fn serve_by_loops(listener: TcpListener, work: Duration, count: usize) -> io::Result<()> {
    let mut loops = Vec::new();
    for _ in 0..count {
        let poll = unsafe { epoll_create1(0) };
        let (to, peers) = channel();
        thread::spawn(move || run_loop(poll, peers));
        loops.push((poll, to));
    }
    for (place, stream) in listener.incoming().enumerate() {
        let (poll, to) = &loops[place % count];
        give(*poll, to, Peer::new(stream?, work)?)?;
    }
    Ok(())
}

fn serve_by_threads(listener: TcpListener, work: Duration) -> io::Result<()> {
    for stream in listener.incoming() {
        let mut peer = Peer::new(stream?, work)?;
        thread::spawn(move || while peer.go_on() {});
    }
    Ok(())
}

fn main() -> io::Result<()> {
    let words: Vec<f64> = args().skip(1).map_while(|it| it.parse().ok()).collect();
    let (port, work, loops) = match words[..] {
        [port, work] => (port as u16, work, 0),
        [port, work, loops] if loops >= 1.0 => (port as u16, work, loops as usize),
        _ => {
            eprintln!("{USAGE}");
            exit(2)
        }
    };
    let work = Duration::from_nanos((work * 1e3) as u64);
    let listener = TcpListener::bind(("127.0.0.1", port))?;
    println!("listening");
    match loops {
        0 => serve_by_threads(listener, work),
        _ => serve_by_loops(listener, work, loops),
    }
}
