//! A lock of etcd, over its HTTP gateway: the server lets the call wait for it.

use crate::cycles::{Counts, Locker};
use crate::frames::{bad, Stream};
use crate::weblocks::find;
use std::io;

pub struct Client {
    stream: Stream,
    lock: String,
}

const DIGITS: &[u8; 64] = b"ABCDEFGHIJKLMNOPQRSTUVWXYZabcdefghijklmnopqrstuvwxyz0123456789+/";

fn base64(data: &[u8]) -> String {
    let mut text = String::new();
    for piece in data.chunks(3) {
        let bits =
            piece.iter().fold(0usize, |all, it| all << 8 | *it as usize) << (8 * (3 - piece.len()));
        for place in 0..4 {
            let digit = DIGITS[bits >> (18 - 6 * place) & 63] as char;
            text.push(if place <= piece.len() { digit } else { '=' });
        }
    }
    text
}

/// The text of this member.
fn member(json: &str, key: &str) -> io::Result<String> {
    let mark = format!("\"{key}\":\"");
    let at = json.find(&mark).ok_or_else(|| bad(json))? + mark.len();
    Ok(json[at..].chars().take_while(|it| *it != '"').collect())
}

impl Client {
    pub fn open(port: u16, name: &str) -> io::Result<Client> {
        let mut client = Client {
            stream: Stream::connect(port)?,
            lock: String::new(),
        };
        let lease = member(&client.post("/v3/lease/grant", r#"{"TTL":600}"#)?, "ID")?;
        client.lock = format!(
            r#"{{"name":"{}","lease":"{lease}"}}"#,
            base64(name.as_bytes())
        );
        Ok(client)
    }

    fn post(&mut self, path: &str, body: &str) -> io::Result<String> {
        let length = body.len();
        let head =
            format!("POST {path} HTTP/1.1\r\nHost: 127.0.0.1\r\nContent-Type: application/json");
        self.stream
            .send(format!("{head}\r\nContent-Length: {length}\r\n\r\n{body}").as_bytes())?;
        let answer = self.stream.take_until(b"\r\n\r\n")?.to_ascii_lowercase();
        let key = b"content-length: ";
        let at = find(&answer, key).ok_or_else(|| bad("an answer of no length"))? + key.len();
        let digits = answer[at..].iter().take_while(|it| it.is_ascii_digit());
        let size = digits.fold(0, |all, it| all * 10 + (*it - b'0') as usize);
        Ok(String::from_utf8_lossy(self.stream.take(size)?).into_owned())
    }
}

impl Locker for Client {
    fn cycle(&mut self, _counts: &mut Counts) -> io::Result<()> {
        let lock = self.lock.clone();
        let key = member(&self.post("/v3/lock/lock", &lock)?, "key")?;
        self.post("/v3/lock/unlock", &format!(r#"{{"key":"{key}"}}"#))?;
        Ok(())
    }
}
