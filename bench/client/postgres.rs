//! An advisory lock of PostgreSQL, by prepared statements: the server lets the session wait for it.

use crate::cycles::{Counts, Locker};
use crate::frames::{bad, Stream};
use std::io;

pub struct Client {
    stream: Stream,
    lock: Vec<u8>,
    unlock: Vec<u8>,
}

/// A message of PostgreSQL's protocol, version 3.
fn message(kind: u8, parts: &[&[u8]]) -> Vec<u8> {
    let body = parts.concat();
    let mut all = vec![kind];
    all.extend_from_slice(&(body.len() as u32 + 4).to_be_bytes());
    all.extend(body);
    all
}

const SYNC: &[u8] = b"S\0\0\0\x04";

/// A statement with one parameter, an int8, under a name of its own.
fn parse(name: &[u8], statement: &[u8]) -> Vec<u8> {
    message(
        b'P',
        &[
            name,
            b"\0",
            statement,
            b"\0",
            &1u16.to_be_bytes(),
            &20u32.to_be_bytes(),
        ],
    )
}

/// Has a statement executed with this value of its parameter, in binary.
fn execute(name: &[u8], value: u64) -> Vec<u8> {
    let one = 1u16.to_be_bytes();
    let bind = [
        b"\0",
        name,
        b"\0",
        &one,
        &one,
        &one,
        &8u32.to_be_bytes(),
        &value.to_be_bytes(),
        &[0, 0],
    ];
    [
        message(b'B', &bind),
        message(b'E', &[b"\0", &[0; 4]]),
        SYNC.to_vec(),
    ]
    .concat()
}

impl Client {
    pub fn open(port: u16, key: u64) -> io::Result<Client> {
        let (lock, unlock) = (execute(b"lock", key), execute(b"unlock", key));
        let mut client = Client {
            stream: Stream::connect(port)?,
            lock,
            unlock,
        };
        let words = b"user\0postgres\0database\0postgres\0\0";
        let length = words.len() as u32 + 8;
        client
            .stream
            .send(&[&length.to_be_bytes(), &196_608u32.to_be_bytes(), &words[..]].concat())?;
        client.await_ready()?;
        let lock = parse(b"lock", b"SELECT pg_advisory_lock($1)");
        let unlock = parse(b"unlock", b"SELECT pg_advisory_unlock($1)");
        client.stream.send(&[&lock[..], &unlock, SYNC].concat())?;
        client.await_ready()?;
        Ok(client)
    }

    /// Reads the messages up to the one that the server is ready, and answers whether a row had the value true.
    fn await_ready(&mut self) -> io::Result<bool> {
        let mut is_true = false;
        loop {
            let kind = self.stream.take(1)?[0];
            let size = self
                .stream
                .take(4)?
                .iter()
                .fold(0, |all, it| all << 8 | *it as usize);
            let body = self.stream.take(size - 4)?;
            match kind {
                b'Z' => return Ok(is_true),
                b'D' => is_true = body.ends_with(b"t"),
                b'E' => return Err(bad(&String::from_utf8_lossy(body))),
                _ => {}
            }
        }
    }
}

impl Locker for Client {
    fn cycle(&mut self, _counts: &mut Counts) -> io::Result<()> {
        self.stream.send(&self.lock)?;
        self.await_ready()?;
        self.stream.send(&self.unlock)?;
        match self.await_ready()? {
            true => Ok(()),
            false => Err(bad("the lock was not held")),
        }
    }

    fn end(&mut self) -> io::Result<()> {
        self.stream.send(&message(b'X', &[]))
    }
}
