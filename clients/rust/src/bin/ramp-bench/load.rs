//! The connections, and what they are asked.

use crate::histogram::Histogram;
use crate::newest::Newest;
use crate::options::{Mix, Options, Place};
use crate::wire::{Answers, Batch, Kind, Outcome, Requests, KINDS};
use ramp_client::Config;
use std::collections::BTreeMap;
use std::io::{self, Read, Write};
use std::net::TcpStream;
use std::sync::Barrier;
use std::thread;
use std::time::{Duration, Instant};

/// An answer is waited for so long.
const PATIENCE: Duration = Duration::from_secs(5);

/// How many bytes of requests are drawn for all connections together, and how many batches for each.
const MOST_BYTES: usize = 1 << 25;
const MOST_BATCHES: usize = 4096;

/// A connection, and the bytes of answers that were not taken yet.
pub struct Connection {
    stream: TcpStream,
    answers: Answers,
    came: Vec<u8>,
    begin: usize,
    end: usize,
}

/// What came of a kind of request.
#[derive(Clone)]
pub struct Counted {
    /// Of the requests that were answered well.
    pub times: Histogram,
    /// How many requests were answered otherwise.
    pub failed: u64,
    /// These by cause, and those of reads before puts.
    pub errors: BTreeMap<String, u64>,
    /// Whether any was more than a `restart`.
    pub is_refused: bool,
}

impl Counted {
    fn new() -> Counted {
        Counted { times: Histogram::new(), failed: 0, errors: BTreeMap::new(), is_refused: false }
    }

    pub fn join(&mut self, other: &Counted) {
        self.times.join(&other.times);
        self.failed += other.failed;
        self.is_refused |= other.is_refused;
        for (name, count) in &other.errors {
            *self.errors.entry(name.clone()).or_default() += count;
        }
    }
}

/// What a mix came to.
pub struct Figures {
    pub mix: Mix,
    pub seconds: f64,
    pub counted: [Counted; KINDS.len()],
    /// How many puts stand above all that was done at their keys before they were sent, and of how many; where this is counted.
    pub newest: Option<(u64, u64)>,
    /// What ended connections before their time.
    pub faults: Vec<String>,
}

impl Figures {
    /// All kinds together.
    pub fn all(&self) -> Counted {
        let mut all = Counted::new();
        self.counted.iter().for_each(|counted| all.join(counted));
        all
    }
}

/// The connections, with their keys written.
pub fn connect(options: &Options) -> Result<Vec<Connection>, String> {
    let mut connections = Vec::new();
    for place in 0..options.connections {
        let stream = match &options.place {
            Place::Ramp(config) => open_ramp(config, options, place),
            Place::Redis(host, port) => open_redis(host, *port).map_err(|error| format!("no connection to {host}:{port}: {error}")),
        }?;
        connections.push(Connection { stream, answers: Answers::new(options), came: vec![0; 1 << 16], begin: 0, end: 0 });
    }
    if options.fills {
        // Each tenant has keys of its own.
        for connection in connections.iter_mut().take(options.tenants.len().max(1)) {
            fill(connection, options)?;
        }
    }
    Ok(connections)
}

fn open_ramp(config: &Config, options: &Options, place: usize) -> Result<TcpStream, String> {
    let config = match options.tenants.len() {
        0 => config.clone(),
        count => config.clone().for_tenant(&options.tenants[place % count]).map_err(|error| error.to_string())?,
    };
    let opened = config.connect().and_then(ramp_client::Client::into_stream);
    opened.map_err(|error| format!("connection {} of {}: {error}", place + 1, options.connections))
}

fn open_redis(host: &str, port: u16) -> io::Result<TcpStream> {
    let stream = TcpStream::connect((host, port))?;
    stream.set_nodelay(true)?;
    stream.set_read_timeout(Some(PATIENCE))?;
    stream.set_write_timeout(Some(PATIENCE))?;
    Ok(stream)
}

fn fill(connection: &mut Connection, options: &Options) -> Result<(), String> {
    for request in Requests::new(options, Mix::default(), options.seed).fill() {
        connection.stream.write_all(&request.bytes).map_err(told)?;
        let mut refused = None;
        connection.take(&request.asked, |_, outcome, _, _| refused = Some(outcome).filter(|outcome| *outcome != Outcome::Good))?;
        if let Some(outcome) = refused {
            let name = name_of(outcome);
            return Err(format!("the keys can't be written: {name}; give the server more room, or this program fewer --keys, or --no-fill"));
        }
    }
    Ok(())
}

/// Has a mix asked over all connections at a time.
pub fn measure(options: &Options, mix: Mix, connections: &mut [Connection]) -> Figures {
    let barrier = Barrier::new(connections.len());
    let newest = Some(Newest::new(options.keys, options.items)).filter(|_| options.counts_newest);
    let told: Vec<Asked> = thread::scope(|scope| {
        let count = connections.len();
        let asking: Vec<_> = connections
            .iter_mut()
            .enumerate()
            .map(|(place, connection)| {
                let (barrier, newest) = (&barrier, newest.as_ref());
                scope.spawn(move || {
                    let mut requests = Requests::new(options, mix, options.seed.wrapping_add(place as u64));
                    let batches = batches(&mut requests, options.depth, MOST_BYTES / count);
                    barrier.wait();
                    Asked::new(options, count, place, newest).run(connection, &batches, &mut requests, options.depth)
                })
            })
            .collect();
        asking.into_iter().filter_map(|thread| thread.join().ok()).collect()
    });
    let mut figures = Figures {
        mix,
        seconds: 0.0,
        counted: [Counted::new(), Counted::new(), Counted::new()],
        newest: newest.as_ref().map(Newest::taken),
        faults: Vec::new(),
    };
    for asked in told {
        figures.seconds = figures.seconds.max(asked.measured.as_secs_f64());
        figures.counted.iter_mut().zip(&asked.counted).for_each(|(all, one)| all.join(one));
        figures.faults.extend(asked.fault);
    }
    figures
}

/// Batches that are sent again and again: drawn before the time is taken, so that drawing costs none of it.
fn batches(requests: &mut Requests, depth: usize, most_bytes: usize) -> Vec<Batch> {
    let (mut all, mut bytes) = (Vec::new(), 0);
    while all.len() < 2 || (bytes < most_bytes && all.len() < MOST_BATCHES) {
        let batch = requests.batch(depth);
        bytes += batch.bytes.len();
        all.push(batch);
    }
    all
}

/// What one connection was asked.
struct Asked<'n> {
    counted: [Counted; KINDS.len()],
    fault: Option<String>,
    begun: Instant,
    /// From when to when answers count. A count of requests has no end.
    counts_from: Instant,
    ends: Option<Instant>,
    left: u64,
    /// The time between batches, and when the next one is due, where there is a rate.
    pace: Option<(Duration, Instant)>,
    measured: Duration,
    newest: Option<&'n Newest>,
}

impl<'n> Asked<'n> {
    fn new(options: &Options, connections: usize, place: usize, newest: Option<&'n Newest>) -> Asked<'n> {
        let begun = Instant::now();
        let counts_from = if options.count.is_some() { begun } else { begun + options.warmup };
        let batches = |rate: f64| rate / (connections * options.depth) as f64;
        // The batches of the connections are due one after the other.
        let first = |pace: Duration| begun + pace.mul_f64(place as f64 / connections as f64);
        let pace = options.rate.map(|rate| Duration::from_secs_f64(1.0 / batches(rate)));
        Asked {
            counted: [Counted::new(), Counted::new(), Counted::new()],
            fault: None,
            begun,
            counts_from,
            ends: Some(counts_from + options.time).filter(|_| options.count.is_none()),
            left: options.count.unwrap_or(u64::MAX),
            pace: pace.map(|pace| (pace, first(pace))),
            measured: Duration::from_secs(0),
            newest,
        }
    }

    fn run(mut self, connection: &mut Connection, batches: &[Batch], requests: &mut Requests, depth: usize) -> Asked<'n> {
        let mut last = self.begun;
        for batch in batches.iter().cycle() {
            if self.left == 0 || self.ends.map_or(false, |ends| last >= ends) {
                break;
            }
            let size = self.left.min(depth as u64);
            self.left -= size;
            // Only the last batch of a count is shorter than the others.
            let asked = if size == depth as u64 { self.ask(connection, batch) } else { self.ask(connection, &requests.batch(size as usize)) };
            match asked {
                Ok(answered) => last = answered,
                Err(fault) => {
                    self.fault = Some(fault);
                    break;
                }
            }
        }
        let until = self.ends.map_or(last, |ends| ends.min(last.max(self.counts_from)));
        self.measured = until.saturating_duration_since(self.counts_from);
        self
    }

    /// The time from which the next batch counts: when it is due, or now.
    fn wait_until_due(&mut self) -> Instant {
        let now = Instant::now();
        match &mut self.pace {
            None => now,
            Some((pace, next)) => {
                let due = *next;
                *next += *pace;
                thread::sleep(due.saturating_duration_since(now));
                due
            }
        }
    }

    /// Sends a batch, takes its answers, and returns when the last of them was there.
    fn ask(&mut self, connection: &mut Connection, batch: &Batch) -> Result<Instant, String> {
        let sent = self.wait_until_due();
        let newest = self.newest;
        let befores: Vec<u64> = newest.map_or(Vec::new(), |it| batch.firsts.iter().map(|first| it.before(*first)).collect());
        connection.stream.write_all(&batch.bytes).map_err(told)?;
        let (counts_from, ends) = (self.counts_from, self.ends);
        let (counted, mut last, mut place) = (&mut self.counted, sent, 0);
        connection.take(&batch.asked, |(kind, is_counted), outcome, stamp, now| {
            last = now;
            if let Some(newest) = newest.filter(|_| kind == Kind::Put && outcome == Outcome::Good) {
                newest.note(batch.firsts[place], befores[place], stamp);
            }
            place += 1;
            if now < counts_from || ends.map_or(false, |ends| now > ends) {
                return;
            }
            let of_kind = &mut counted[kind as usize];
            if outcome != Outcome::Good {
                *of_kind.errors.entry(name_of(outcome)).or_default() += 1;
                of_kind.is_refused |= outcome != Outcome::Restart;
                of_kind.failed += u64::from(is_counted);
            } else if is_counted {
                of_kind.times.add(now.saturating_duration_since(sent).as_nanos() as u64);
            }
        })?;
        Ok(last)
    }
}

impl Connection {
    /// Takes an answer to each of these lines, and reports each with the stamp of the last put that is done, and the time when it was there.
    fn take(&mut self, asked: &[(Kind, bool)], mut report: impl FnMut((Kind, bool), Outcome, u64, Instant)) -> Result<(), String> {
        let (mut place, mut searched) = (0, self.begin);
        let mut now = Instant::now();
        while place < asked.len() {
            match self.came[searched..self.end].iter().position(|byte| *byte == b'\n') {
                Some(length) => {
                    let end = searched + length;
                    let taken = self.answers.take(asked[place].0, &self.came[self.begin..end])?;
                    self.begin = end + 1;
                    searched = self.begin;
                    if let Some(outcome) = taken {
                        report(asked[place], outcome, self.answers.stamp, now);
                        place += 1;
                    }
                }
                None => {
                    self.came.copy_within(self.begin..self.end, 0);
                    self.end -= self.begin;
                    self.begin = 0;
                    searched = self.end;
                    self.fill()?;
                    now = Instant::now();
                }
            }
        }
        Ok(())
    }

    fn fill(&mut self) -> Result<(), String> {
        if self.end == self.came.len() {
            return Err("an answer without an end came".into());
        }
        match self.stream.read(&mut self.came[self.end..]).map_err(told)? {
            0 => Err("the server closed the connection".into()),
            count => {
                self.end += count;
                Ok(())
            }
        }
    }
}

fn told(error: io::Error) -> String {
    match error.kind() {
        io::ErrorKind::WouldBlock | io::ErrorKind::TimedOut => format!("no answer came within {PATIENCE:?}"),
        _ => format!("the connection was lost: {error}"),
    }
}

fn name_of(outcome: Outcome) -> String {
    match outcome {
        Outcome::Good => "good".into(),
        Outcome::Restart => "restart".into(),
        Outcome::Error => "error".into(),
        Outcome::Refused(number) => match ramp_client::Refusal::of(number) {
            Some(refusal) => format!("{number} {}", refusal.name),
            None => number.to_string(),
        },
    }
}
