//! The client of the benchmarks, in plain Rust, so that it takes less than the servers that it is for.
//!
//! It writes one line, a JSON object, which the scripts beside it read.

mod cycles;
mod etcd;
mod frames;
mod postgres;
mod pushes;
mod redis;
mod soak;
mod weblocks;

use cycles::{at, cpu_seconds, Locker, Run};
use frames::bad;
use std::io;
use std::process::exit;
use std::sync::atomic::{AtomicU64, Ordering};
use weblocks::Telling;

const USAGE: &str =
    "usage: client cycles SERVER --port P [--connections K] [--cycles N] [--names own|one] [--origins own|one]
       client pushes --port P [--connections K] [--rounds N]
       client soak SERVER --port P [--connections K] [--cycles N] [--drops N]

SERVER is polled or pushed, of `weblocks`; or redis, postgres or etcd, which cycles alone knows, and which have no
origins.";

fn usage() -> ! {
    eprintln!("{USAGE}");
    exit(2)
}

struct Words {
    port: u16,
    connections: usize,
    count: u64,
    drops: u64,
    has_one_name: bool,
    has_one_origin: bool,
}

fn number<T: std::str::FromStr>(text: &str) -> T {
    text.parse().unwrap_or_else(|_| usage())
}

fn options(words: &[String]) -> Words {
    let mut read = Words {
        port: 0,
        connections: 1,
        count: 10_000,
        drops: 0,
        has_one_name: false,
        has_one_origin: true,
    };
    for pair in words.chunks(2) {
        match pair {
            [option, value] => match option.as_str() {
                "--port" => read.port = number(value),
                "--connections" => read.connections = number(value),
                "--cycles" | "--rounds" => read.count = number(value),
                "--drops" => read.drops = number(value),
                "--names" if value == "own" || value == "one" => read.has_one_name = value == "one",
                "--origins" if value == "own" || value == "one" => {
                    read.has_one_origin = value == "one"
                }
                _ => usage(),
            },
            _ => usage(),
        }
    }
    read
}

fn telling(server: &str) -> Telling {
    match server {
        "polled" => Telling::Polled,
        "pushed" => Telling::Pushed,
        _ => usage(),
    }
}

fn locker(server: &str, words: &Words, place: usize) -> io::Result<Box<dyn Locker>> {
    let host = match words.has_one_origin {
        true => weblocks::HOST.to_string(),
        false => format!("a{place}.test"),
    };
    let place = if words.has_one_name { 0 } else { place };
    let name = format!("name-{place}");
    Ok(match server {
        "redis" => Box::new(redis::Client::open(words.port, &name)?),
        "postgres" => Box::new(postgres::Client::open(words.port, place as u64)?),
        "etcd" => Box::new(etcd::Client::open(words.port, &name)?),
        _ => Box::new(weblocks::Client::open(
            words.port,
            &host,
            &name,
            telling(server),
        )?),
    })
}

fn run_cycles(server: &str, words: &Words) -> io::Result<()> {
    let make = |place| locker(server, words, place);
    let Run {
        cycles,
        seconds,
        times,
        counts,
        cpu,
    } = cycles::run(make, words.connections, words.count as usize)?;
    let (median, longest) = (at(&times, 0.5), at(&times, 0.99));
    let (polls, pushes) = (counts.polls, counts.pushes);
    println!(
        r#"{{"cycles":{cycles},"seconds":{seconds},"median":{median},"p99":{longest},"polls":{polls},"pushes":{pushes},"cpu":{cpu}}}"#
    );
    Ok(())
}

fn run_pushes(words: &Words) -> io::Result<()> {
    if words.connections < 2 {
        return Err(bad("one connection alone hands nothing over"));
    }
    let times = pushes::run(words.port, words.connections, words.count as usize)?;
    let (median, longest, most) = (at(&times, 0.5), at(&times, 0.99), at(&times, 1.0));
    println!(
        r#"{{"rounds":{},"median":{median},"p99":{longest},"most":{most}}}"#,
        times.len()
    );
    Ok(())
}

fn run_soak(server: &str, words: &Words) -> io::Result<()> {
    let soak = soak::Soak {
        port: words.port,
        telling: telling(server),
        connections: words.connections as u64,
        cycles: words.count,
        drops: words.drops,
        begun: AtomicU64::new(0),
        dropped: AtomicU64::new(0),
    };
    let counts = soak.run()?;
    let dropped = soak.dropped.load(Ordering::Relaxed).min(soak.drops);
    let (cycles, polls, pushes, cpu) = (soak.cycles, counts.polls, counts.pushes, cpu_seconds()?);
    println!(
        r#"{{"cycles":{cycles},"dropped":{dropped},"polls":{polls},"pushes":{pushes},"cpu":{cpu}}}"#
    );
    Ok(())
}

fn main() {
    let words: Vec<String> = std::env::args().skip(1).collect();
    let told = match words.iter().map(String::as_str).collect::<Vec<_>>()[..] {
        ["cycles", server, ..] => run_cycles(server, &options(&words[2..])),
        ["pushes", ..] => run_pushes(&options(&words[1..])),
        ["soak", server, ..] => run_soak(server, &options(&words[2..])),
        _ => usage(),
    };
    if let Err(why) = told {
        eprintln!("client: {why}");
        exit(1);
    }
}
