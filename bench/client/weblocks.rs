//! A lock of `weblocks`, over a connection of its own.

use crate::cycles::{Counts, Locker};
use crate::frames::{bad, Socket};
use std::io::{self, Write};

/// The host of the origin that all clients have, unless each has its own.
pub const HOST: &str = "a.test";

/// How a client is told of a grant for which it has to wait.
#[derive(Clone, Copy, PartialEq)]
pub enum Telling {
    /// By the replies to its polls.
    Polled,
    /// By a push.
    Pushed,
}

/// Where a text begins in another.
pub fn find(hay: &[u8], needle: &[u8]) -> Option<usize> {
    hay.windows(needle.len()).position(|it| it == needle)
}

fn wrong(text: &[u8]) -> io::Error {
    bad(&format!(
        "the server said {}",
        String::from_utf8_lossy(text)
    ))
}

/// An agent, and the name that it locks.
pub struct Client {
    socket: Socket,
    telling: Telling,
    request: Vec<u8>,
    message: Vec<u8>,
    text: Vec<u8>,
}

impl Client {
    /// The handshake's target is the origin, by which servers share origins out.
    pub fn open(port: u16, host: &str, name: &str, telling: Telling) -> io::Result<Client> {
        let subprotocol = if telling == Telling::Pushed {
            Some("weblocks.push")
        } else {
            None
        };
        let request = format!(r#"{{"id":1,"name":"{name}","op":"request"}}"#).into_bytes();
        let target = format!("/?origin=https%3A%2F%2F{host}");
        let open = format!(r#"{{"id":0,"op":"open","url":"https://{host}/"}}"#);
        let (message, text) = (Vec::new(), Vec::new());
        let mut client = Client {
            socket: Socket::connect(port, &target, subprotocol)?,
            telling,
            request,
            message,
            text,
        };
        client.socket.send(open.as_bytes())?;
        client.receive()?;
        Ok(client)
    }

    fn receive(&mut self) -> io::Result<()> {
        self.socket.receive(&mut self.text)?;
        match find(&self.text, b"\"ok\":") {
            Some(_) => Ok(()),
            None => Err(wrong(&self.text)),
        }
    }

    fn is_granted(&self) -> bool {
        find(&self.text, b"\"phase\":\"granted\"").is_some()
    }

    pub fn send_request(&mut self) -> io::Result<()> {
        self.socket.send(&self.request)
    }

    /// The request's number, and whether it is granted at once.
    pub fn take_reply(&mut self) -> io::Result<(u64, bool)> {
        self.receive()?;
        let key = b"\"ok\":{\"request\":";
        let at = find(&self.text, key).ok_or_else(|| wrong(&self.text))? + key.len();
        let digits = self.text[at..].iter().take_while(|it| it.is_ascii_digit());
        let number = digits.fold(0, |all, it| all * 10 + (*it - b'0') as u64);
        Ok((number, self.is_granted()))
    }

    /// Waits for the push that tells the grant.
    pub fn take_push(&mut self) -> io::Result<()> {
        self.receive()?;
        match self.text.starts_with(b"{\"id\":null,") && self.is_granted() {
            true => Ok(()),
            false => Err(wrong(&self.text)),
        }
    }

    /// Waits until the request is granted.
    pub fn await_grant(&mut self, counts: &mut Counts) -> io::Result<()> {
        if self.telling == Telling::Pushed {
            counts.pushes += 1;
            return self.take_push();
        }
        loop {
            counts.polls += 1;
            self.socket.send(br#"{"id":3,"op":"poll"}"#)?;
            self.receive()?;
            if self.is_granted() {
                return Ok(());
            }
        }
    }

    pub fn send_release(&mut self, number: u64) -> io::Result<()> {
        self.message.clear();
        write!(
            self.message,
            r#"{{"id":2,"op":"release","request":{number}}}"#
        )?;
        self.socket.send(&self.message)
    }

    pub fn take_release(&mut self) -> io::Result<()> {
        self.receive()?;
        match find(&self.text, b"\"released\"") {
            Some(_) => Ok(()),
            None => Err(wrong(&self.text)),
        }
    }
}

impl Locker for Client {
    fn cycle(&mut self, counts: &mut Counts) -> io::Result<()> {
        self.send_request()?;
        let (number, is_granted) = self.take_reply()?;
        if !is_granted {
            self.await_grant(counts)?;
        }
        self.send_release(number)?;
        self.take_release()
    }

    fn end(&mut self) -> io::Result<()> {
        self.socket.close()
    }
}
