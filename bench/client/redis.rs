//! A lock of Redis: a key that is set where it isn't there, and tried again until it is.

use crate::cycles::{Counts, Locker};
use crate::frames::{bad, Stream};
use std::io;

pub struct Client {
    stream: Stream,
    lock: Vec<u8>,
    unlock: Vec<u8>,
}

/// A command in Redis's protocol.
fn command(words: &[&str]) -> Vec<u8> {
    let mut text = format!("*{}\r\n", words.len());
    for word in words {
        text += &format!("${}\r\n{word}\r\n", word.len());
    }
    text.into_bytes()
}

impl Client {
    pub fn open(port: u16, name: &str) -> io::Result<Client> {
        let lock = command(&["SET", name, "held", "NX", "PX", "30000"]);
        Ok(Client {
            stream: Stream::connect(port)?,
            lock,
            unlock: command(&["DEL", name]),
        })
    }
}

impl Locker for Client {
    fn cycle(&mut self, counts: &mut Counts) -> io::Result<()> {
        loop {
            self.stream.send(&self.lock)?;
            match self.stream.take_until(b"\r\n")? {
                b"+OK\r\n" => break,
                b"$-1\r\n" => counts.polls += 1,
                other => return Err(bad(&String::from_utf8_lossy(other))),
            }
        }
        self.stream.send(&self.unlock)?;
        match self.stream.take_until(b"\r\n")? {
            b":1\r\n" => Ok(()),
            other => Err(bad(&String::from_utf8_lossy(other))),
        }
    }
}
