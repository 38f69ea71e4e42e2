//! Cycles for a long time, by peers some of which go away in the middle of one, and come again.

use crate::cycles::Counts;
use crate::weblocks::{Client, Telling, HOST};
use std::io;
use std::sync::atomic::{AtomicU64, Ordering};
use std::thread;

/// What is to be done, and what was.
pub struct Soak {
    pub port: u16,
    pub telling: Telling,
    pub connections: u64,
    pub cycles: u64,
    /// Connections that are dropped in all, at most.
    pub drops: u64,
    pub begun: AtomicU64,
    pub dropped: AtomicU64,
}

/// Where in a cycle a peer goes away.
#[derive(Clone, Copy, PartialEq)]
enum Leaves {
    Never,
    AfterRequest,
    AfterReply,
    WithLock,
    AfterRelease,
}

/// Pseudo-random numbers (xorshift64*).
struct Random(u64);

impl Random {
    fn below(&mut self, bound: u64) -> u64 {
        self.0 ^= self.0 >> 12;
        self.0 ^= self.0 << 25;
        self.0 ^= self.0 >> 27;
        (self.0.wrapping_mul(0x2545_F491_4F6C_DD1D) >> 33) % bound
    }
}

impl Soak {
    /// Where the peer goes away in the cycle that begins: in one of so many that the drops are spread over all.
    fn chance(&self, random: &mut Random) -> Leaves {
        let every = (self.cycles / self.drops.max(1)).max(1);
        if random.below(every) != 0 || self.dropped.fetch_add(1, Ordering::Relaxed) >= self.drops {
            return Leaves::Never;
        }
        match random.below(4) {
            0 => Leaves::AfterRequest,
            1 => Leaves::AfterReply,
            2 => Leaves::WithLock,
            _ => Leaves::AfterRelease,
        }
    }

    /// Whether a cycle of all is left, which then is the caller's.
    fn begins(&self) -> bool {
        self.begun.fetch_add(1, Ordering::Relaxed) < self.cycles
    }

    /// One peer's part: two of them have a name.
    fn peer(&self, number: u64) -> io::Result<Counts> {
        let name = format!("name-{}", number / 2);
        let mut random = Random(0x9E37_79B9_7F4A_7C15 ^ (number + 1));
        let mut counts = Counts::default();
        let mut client = Client::open(self.port, HOST, &name, self.telling)?;
        while self.begins() {
            let leaves = self.chance(&mut random);
            cycle_until(&mut client, leaves, &mut counts)?;
            if leaves != Leaves::Never {
                drop(client);
                client = Client::open(self.port, HOST, &name, self.telling)?;
            }
        }
        Ok(counts)
    }

    /// All peers, which go away without a word in the end too.
    pub fn run(&self) -> io::Result<Counts> {
        let each = thread::scope(|scope| {
            let spawned: Vec<_> = (0..self.connections)
                .map(|it| scope.spawn(move || self.peer(it)))
                .collect();
            spawned
                .into_iter()
                .map(|it| it.join().unwrap())
                .collect::<io::Result<Vec<_>>>()
        })?;
        let mut all = Counts::default();
        for it in each {
            all.polls += it.polls;
            all.pushes += it.pushes;
        }
        Ok(all)
    }
}

/// A cycle up to where the peer goes away, or whole.
fn cycle_until(client: &mut Client, leaves: Leaves, counts: &mut Counts) -> io::Result<()> {
    client.send_request()?;
    if leaves == Leaves::AfterRequest {
        return Ok(());
    }
    let (number, is_granted) = client.take_reply()?;
    if leaves == Leaves::AfterReply {
        return Ok(());
    }
    if !is_granted {
        client.await_grant(counts)?;
    }
    if leaves == Leaves::WithLock {
        return Ok(());
    }
    client.send_release(number)?;
    if leaves == Leaves::AfterRelease {
        return Ok(());
    }
    client.take_release()
}
