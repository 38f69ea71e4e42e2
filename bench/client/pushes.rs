//! How long a push is on its way: from the release that grants a lock to the socket of who waits for it.

use crate::frames::bad;
use crate::weblocks::{Client, Telling, HOST};
use std::io;
use std::time::{Duration, Instant};

/// The lock of one name goes round among the connections, one of which waits for it at a time. All of them are this
/// thread's, which reads the push first and the release's reply then. The times are sorted.
pub fn run(port: u16, connections: usize, rounds: usize) -> io::Result<Vec<Duration>> {
    let mut clients = (0..connections)
        .map(|_| Client::open(port, HOST, "one", Telling::Pushed))
        .collect::<io::Result<Vec<_>>>()?;
    let mut holder = 0;
    clients[holder].send_request()?;
    let mut held = clients[holder].take_reply()?.0;
    let mut times = Vec::with_capacity(rounds);
    for round in 0..rounds {
        let waiter = (holder + 1 + round % (connections - 1)) % connections;
        clients[waiter].send_request()?;
        let (waits, is_granted) = clients[waiter].take_reply()?;
        if is_granted {
            return Err(bad("a lock was granted twice"));
        }
        let released = Instant::now();
        clients[holder].send_release(held)?;
        clients[waiter].take_push()?;
        times.push(released.elapsed());
        clients[holder].take_release()?;
        (holder, held) = (waiter, waits);
    }
    times.sort_unstable();
    Ok(times)
}
