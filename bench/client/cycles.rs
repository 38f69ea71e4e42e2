//! Cycles of a lock and its release, a thread a connection.

use std::io;
use std::sync::Barrier;
use std::thread;
use std::time::{Duration, Instant};

/// What was sent and read besides a request, a release and their replies.
#[derive(Clone, Copy, Default)]
pub struct Counts {
    /// Messages that only asked again.
    pub polls: u64,
    /// Grants that were told without asking.
    pub pushes: u64,
}

/// A connection that locks a name.
pub trait Locker {
    /// Locks and releases once.
    fn cycle(&mut self, counts: &mut Counts) -> io::Result<()>;

    /// Ends the connection, so that the server knows.
    fn end(&mut self) -> io::Result<()> {
        Ok(())
    }
}

/// What a run took.
pub struct Run {
    pub cycles: usize,
    pub seconds: f64,
    /// Of each cycle its time, in their order.
    pub times: Vec<Duration>,
    pub counts: Counts,
    /// The processor's seconds of this program.
    pub cpu: f64,
}

/// The value at this share of the sorted times, in microseconds.
pub fn at(times: &[Duration], share: f64) -> f64 {
    let place = (times.len().saturating_sub(1) as f64 * share) as usize;
    times.get(place).map_or(0.0, |it| it.as_secs_f64() * 1e6)
}

/// The processor's seconds that this program has used, in ticks of a hundredth.
pub fn cpu_seconds() -> io::Result<f64> {
    let line = std::fs::read_to_string("/proc/self/stat")?;
    let (_, fields) = line.rsplit_once(") ").unwrap_or(("", ""));
    let ticks = fields
        .split(' ')
        .skip(11)
        .take(2)
        .filter_map(|it| it.parse::<u64>().ok())
        .sum::<u64>();
    Ok(ticks as f64 / 100.0)
}

struct Share {
    begin: Instant,
    end: Instant,
    times: Vec<Duration>,
    counts: Counts,
}

/// All connections are there before the first cycle, and until the last.
fn one_share(made: io::Result<Box<dyn Locker>>, cycles: usize, all: &Barrier) -> io::Result<Share> {
    all.wait();
    let mut locker = made?;
    let mut counts = Counts::default();
    let mut times = Vec::with_capacity(cycles);
    let begin = Instant::now();
    let mut last = begin;
    let mut result = Ok(());
    for _ in 0..cycles {
        result = locker.cycle(&mut counts);
        if result.is_err() {
            break;
        }
        let now = Instant::now();
        times.push(now - last);
        last = now;
    }
    result?;
    locker.end()?;
    Ok(Share {
        begin,
        end: last,
        times,
        counts,
    })
}

/// Runs as many cycles on each connection, which `make` opens by its number.
pub fn run<F>(make: F, connections: usize, cycles: usize) -> io::Result<Run>
where
    F: Fn(usize) -> io::Result<Box<dyn Locker>> + Sync,
{
    let each = (cycles / connections).max(1);
    let all = Barrier::new(connections);
    let before = cpu_seconds()?;
    let shares = thread::scope(|scope| {
        let (make, all) = (&make, &all);
        let spawned: Vec<_> = (0..connections)
            .map(|number| scope.spawn(move || one_share(make(number), each, all)))
            .collect();
        spawned
            .into_iter()
            .map(|it| it.join().unwrap())
            .collect::<io::Result<Vec<_>>>()
    })?;
    let begin = shares.iter().map(|it| it.begin).min().unwrap();
    let end = shares.iter().map(|it| it.end).max().unwrap();
    let mut times = Vec::with_capacity(each * connections);
    let mut counts = Counts::default();
    for share in &shares {
        times.extend_from_slice(&share.times);
        counts.polls += share.counts.polls;
        counts.pushes += share.counts.pushes;
    }
    times.sort_unstable();
    let cpu = cpu_seconds()? - before;
    Ok(Run {
        cycles: times.len(),
        seconds: (end - begin).as_secs_f64(),
        times,
        counts,
        cpu,
    })
}
