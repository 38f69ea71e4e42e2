//! A client's side of a WebSocket (RFC 6455), as far as servers of locks need it: a message is one frame.

use std::io::{self, Read, Write};
use std::net::TcpStream;

const TEXT: u8 = 1;
const CLOSE: u8 = 8;
const PING: u8 = 9;
const PONG: u8 = 10;

pub fn bad(what: &str) -> io::Error {
    io::Error::new(io::ErrorKind::InvalidData, what.to_owned())
}

/// A stream, and what was read of it and not taken yet.
pub struct Stream {
    stream: TcpStream,
    buffer: Vec<u8>,
    from: usize,
    to: usize,
}

impl Stream {
    pub fn connect(port: u16) -> io::Result<Stream> {
        let stream = TcpStream::connect(("127.0.0.1", port))?;
        stream.set_nodelay(true)?;
        Ok(Stream {
            stream,
            buffer: vec![0; 16_384],
            from: 0,
            to: 0,
        })
    }

    pub fn send(&mut self, bytes: &[u8]) -> io::Result<()> {
        self.stream.write_all(bytes)
    }

    /// Reads until so many bytes are there.
    fn await_bytes(&mut self, count: usize) -> io::Result<()> {
        while self.to - self.from < count {
            self.buffer.copy_within(self.from..self.to, 0);
            self.to -= self.from;
            self.from = 0;
            if self.buffer.len() < count {
                self.buffer.resize(count, 0);
            }
            match self.stream.read(&mut self.buffer[self.to..])? {
                0 => return Err(io::ErrorKind::UnexpectedEof.into()),
                read => self.to += read,
            }
        }
        Ok(())
    }

    /// Takes so many bytes.
    pub fn take(&mut self, count: usize) -> io::Result<&[u8]> {
        self.await_bytes(count)?;
        self.from += count;
        Ok(&self.buffer[self.from - count..self.from])
    }

    /// Takes what comes up to this text, which is taken too.
    pub fn take_until(&mut self, end: &[u8]) -> io::Result<&[u8]> {
        let mut count = end.len();
        self.await_bytes(count)?;
        while &self.buffer[self.from + count - end.len()..self.from + count] != end {
            count += 1;
            self.await_bytes(count)?;
        }
        self.take(count)
    }
}

/// A connection after its handshake.
pub struct Socket {
    stream: Stream,
    frame: Vec<u8>,
}

impl Socket {
    /// With a subprotocol, the server has to select it.
    pub fn connect(port: u16, target: &str, subprotocol: Option<&str>) -> io::Result<Socket> {
        let mut stream = Stream::connect(port)?;
        let asked = subprotocol.map_or(String::new(), |it| {
            format!("Sec-WebSocket-Protocol: {it}\r\n")
        });
        let head = format!(
            "GET {target} HTTP/1.1\r\nHost: 127.0.0.1:{port}\r\nConnection: Upgrade\r\nUpgrade: websocket\r\n\
             Sec-WebSocket-Version: 13\r\nSec-WebSocket-Key: dGhlIHNhbXBsZSBub25jZQ==\r\n{asked}\r\n"
        );
        stream.send(head.as_bytes())?;
        let answer = String::from_utf8_lossy(stream.take_until(b"\r\n\r\n")?).to_lowercase();
        let is_selected = subprotocol.map_or(true, |it| {
            answer.contains(&format!("sec-websocket-protocol: {it}\r\n"))
        });
        if !answer.starts_with("http/1.1 101 ") || !is_selected {
            return Err(bad(&format!("the handshake was answered {answer:?}")));
        }
        Ok(Socket {
            stream,
            frame: Vec::new(),
        })
    }

    /// Sends a frame of less than 65,536 bytes, by one write. Its mask of zeros leaves the text as it is.
    fn send_frame(&mut self, kind: u8, body: &[u8]) -> io::Result<()> {
        self.frame.clear();
        self.frame.push(0x80 | kind);
        if body.len() < 126 {
            self.frame.push(0x80 | body.len() as u8);
        } else {
            self.frame.push(0x80 | 126);
            self.frame
                .extend_from_slice(&(body.len() as u16).to_be_bytes());
        }
        self.frame.extend_from_slice(&[0; 4]);
        self.frame.extend_from_slice(body);
        self.stream.send(&self.frame)
    }

    pub fn send(&mut self, text: &[u8]) -> io::Result<()> {
        self.send_frame(TEXT, text)
    }

    /// The next message. Pings are answered.
    pub fn receive(&mut self, text: &mut Vec<u8>) -> io::Result<()> {
        loop {
            let (kind, short) = match *self.stream.take(2)? {
                [first, second] => (first & 15, second as usize),
                _ => unreachable!(),
            };
            let size = match short {
                126 => self
                    .stream
                    .take(2)?
                    .iter()
                    .fold(0, |all, it| all << 8 | *it as usize),
                127 => self
                    .stream
                    .take(8)?
                    .iter()
                    .fold(0, |all, it| all << 8 | *it as usize),
                _ => short,
            };
            text.clear();
            text.extend_from_slice(self.stream.take(size)?);
            match kind {
                TEXT => return Ok(()),
                PING => self.send_frame(PONG, text)?,
                CLOSE => {
                    return Err(bad(&format!(
                        "the server closed: {:?}",
                        String::from_utf8_lossy(text)
                    )))
                }
                _ => {}
            }
        }
    }

    /// Sends a close frame, and waits until the server has ended the connection.
    pub fn close(&mut self) -> io::Result<()> {
        self.send_frame(CLOSE, &1000u16.to_be_bytes())?;
        while self.stream.take(1).is_ok() {}
        Ok(())
    }
}
