//! The command-line arguments.

use ramp_client::{check, Config, Part};
use std::time::Duration;

pub const HELP: &str = "\
ramp-bench [OPTIONS] [URL]: measure the throughput and the latency of a running server

URL defaults to ramp://127.0.0.1:7000/t. With redis://127.0.0.1:6379 the same load is put on a Redis server, as MSET and MGET.

Each connection sends a batch of --depth requests, and waits for all of their answers before it sends the next. Latency is measured from the time
when a request was sent to the time when its answer was read. With --rate it is measured from the time when the request was due: so the requests
that a stalled server holds up are counted, too.

  --connections N  connections, each in a thread of its own, 1 to 1000 (4)
  --depth N        requests in flight on each connection, 1 to 64 (1)
  --mix MIX        put, get or find, or weights as in put=1,get=4 (put=1,get=1). If given more than once, each is measured in turn, over the
                   same connections
  --keys N         number of different keys, 1 to 65536 (64)
  --items N        keys of a put or a get, 1 to 16 (4)
  --size N         bytes of a value, 0 to 128, or a range as in 1-128 (16)
  --tenants A,B    tenants that the connections are spread over, instead of the URL's
  --seconds S      how long each mix is measured (5)
  --count N        requests of each connection and mix, instead of --seconds
  --warmup S       seconds of load before each measurement (0.5)
  --rate N         total requests per second; without it, as many as are answered
  --read-first     send a get of its keys before each put, as the clients do by default; both count as one request
  --no-fill        do not write the keys first
  --newest         count the puts whose stamp is above all that was done at their keys before they were sent: only these can be read; of one
                   tenant of a ramp server
  --seed N         seed of the random draws (1)
  --wait           wait for a line on standard input before each mix
  --csv, --json    machine-readable figures; latencies in microseconds
  --help           print this help

The figures are of the requests that were answered well. Where any was not, the first line says how many, by refusal number. Exit status: 1 where
a request was refused, or an answer was missing or malformed; a restart of a read is no refusal. 2 where an argument is wrong.";

/// What is asked, and how often beside the others.
#[derive(Clone, Copy, Debug, Default, PartialEq, Eq)]
pub struct Mix {
    pub put: u32,
    pub get: u32,
    pub find: u32,
}

/// How the figures are written.
#[derive(Clone, Copy, Debug, PartialEq, Eq)]
pub enum Form {
    Text,
    Csv,
    Json,
}

#[derive(Clone, Debug, PartialEq)]
pub enum Place {
    Ramp(Config),
    /// A host and a port.
    Redis(String, u16),
}

#[derive(Clone, Debug, PartialEq)]
pub struct Options {
    pub url: String,
    pub place: Place,
    pub tenants: Vec<String>,
    pub connections: usize,
    pub depth: usize,
    pub mixes: Vec<Mix>,
    pub keys: usize,
    pub items: usize,
    pub sizes: (usize, usize),
    pub time: Duration,
    pub count: Option<u64>,
    pub warmup: Duration,
    pub rate: Option<f64>,
    pub reads_first: bool,
    pub counts_newest: bool,
    pub fills: bool,
    pub seed: u64,
    pub waits: bool,
    pub form: Form,
}

impl Options {
    /// Of the words behind the program's name; `None` where help is asked for.
    pub fn of(words: impl IntoIterator<Item = String>) -> Result<Option<Options>, String> {
        let mut words = words.into_iter();
        let mut options = Options::plain()?;
        let mut url = None;
        while let Some(word) = words.next() {
            match word.as_str() {
                "--help" | "-h" => return Ok(None),
                "--read-first" => options.reads_first = true,
                "--newest" => options.counts_newest = true,
                "--no-fill" => options.fills = false,
                "--wait" => options.waits = true,
                "--csv" => options.form = Form::Csv,
                "--json" => options.form = Form::Json,
                name if name.starts_with('-') => {
                    known(name)?;
                    let value = words.next().ok_or_else(|| format!("{name} takes a value: --help says which"))?;
                    options.set(name, &value)?;
                }
                _ if url.is_some() => return Err(format!("{word:?} is a second URL, and one is measured")),
                _ => url = Some(word),
            }
        }
        if let Some(url) = url {
            options.place = place(&url)?;
            options.url = url;
        }
        options.finished().map(Some)
    }

    fn plain() -> Result<Options, String> {
        let url = String::from("ramp://127.0.0.1:7000/t");
        Ok(Options {
            place: place(&url)?,
            url,
            tenants: Vec::new(),
            connections: 4,
            depth: 1,
            mixes: Vec::new(),
            keys: 64,
            items: 4,
            sizes: (16, 16),
            time: Duration::from_secs(5),
            count: None,
            warmup: Duration::from_millis(500),
            rate: None,
            reads_first: false,
            counts_newest: false,
            fills: true,
            seed: 1,
            waits: false,
            form: Form::Text,
        })
    }

    fn set(&mut self, name: &str, value: &str) -> Result<(), String> {
        match name {
            "--connections" => self.connections = number(name, value, 1, 1000)?,
            "--depth" => self.depth = number(name, value, 1, 64)?,
            "--mix" => self.mixes.push(mix(value)?),
            "--keys" => self.keys = number(name, value, 1, 65536)?,
            "--items" => self.items = number(name, value, 1, 16)?,
            "--size" => {
                let (least, most) = value.split_once('-').unwrap_or((value, value));
                self.sizes = (number(name, least, 0, 128)?, number(name, most, 0, 128)?);
            }
            "--tenants" => self.tenants = value.split(',').map(Into::into).collect(),
            "--seconds" => self.time = seconds(name, value, 0.001)?,
            "--count" => self.count = Some(number(name, value, 1, 1 << 40)? as u64),
            "--warmup" => self.warmup = seconds(name, value, 0.0)?,
            "--rate" => self.rate = Some(number(name, value, 1, 100_000_000)? as f64),
            "--seed" => self.seed = number(name, value, 0, usize::MAX)? as u64,
            _ => return Err(unknown(name)),
        }
        Ok(())
    }

    /// The options as they go together.
    fn finished(mut self) -> Result<Options, String> {
        if self.mixes.is_empty() {
            self.mixes.push(Mix { put: 1, get: 1, find: 0 });
        }
        if self.sizes.0 > self.sizes.1 {
            return Err(format!("--size {}-{} goes down: the lesser one comes first", self.sizes.0, self.sizes.1));
        }
        if self.items > self.keys {
            return Err(format!("--items {} of --keys {}: a request's keys differ, so there are at least as many", self.items, self.keys));
        }
        let is_redis = matches!(self.place, Place::Redis(..));
        if is_redis && (self.mixes.iter().any(|mix| mix.find > 0) || self.reads_first || !self.tenants.is_empty()) {
            return Err("a Redis server has no find, no tenants, and nothing to read before a put".into());
        }
        if self.counts_newest && (is_redis || !self.tenants.is_empty()) {
            return Err("--newest is of one tenant of a ramp server".into());
        }
        for tenant in &self.tenants {
            check(Part::Tenant, tenant).map_err(|error| error.to_string())?;
        }
        Ok(self)
    }
}

/// The options that take a value.
const OF_VALUES: [&str; 12] =
    ["--connections", "--depth", "--mix", "--keys", "--items", "--size", "--tenants", "--seconds", "--count", "--warmup", "--rate", "--seed"];

fn known(name: &str) -> Result<(), String> {
    OF_VALUES.contains(&name).then_some(()).ok_or_else(|| unknown(name))
}

fn unknown(name: &str) -> String {
    let is_address = ["--port", "-p", "--tenant", "-t", "--host", "--client", "-c"].contains(&name.split('=').next().unwrap_or(name));
    let right = if is_address { "the address is a URL, as in ramp-bench ramp://127.0.0.1:7000/t" } else { "--help lists them" };
    format!("there is no option {name}: {right}")
}

fn place(url: &str) -> Result<Place, String> {
    if let Some(address) = url.strip_prefix("redis://") {
        let (host, port) = address.trim_end_matches('/').rsplit_once(':').ok_or_else(|| format!("{url:?} has no port: redis://127.0.0.1:6379"))?;
        let port = port.parse().map_err(|_| format!("{url:?} has no port from 1 to 65535: redis://127.0.0.1:6379"))?;
        return Ok(Place::Redis(host.into(), port));
    }
    Config::new(url).map(Place::Ramp).map_err(|error| error.to_string())
}

fn number(name: &str, text: &str, least: usize, most: usize) -> Result<usize, String> {
    let number = text.parse().ok().filter(|number| (least..=most).contains(number));
    number.ok_or_else(|| format!("{name} takes a number from {least} to {most}, and not {text:?}"))
}

fn seconds(name: &str, text: &str, least: f64) -> Result<Duration, String> {
    let seconds = text.parse().ok().filter(|seconds| (least..=86_400.0).contains(seconds));
    seconds.map(Duration::from_secs_f64).ok_or_else(|| format!("{name} takes seconds, {least} to 86400, and not {text:?}"))
}

fn mix(text: &str) -> Result<Mix, String> {
    let wrong = || format!("--mix takes put, get or find, or parts as in put=1,get=4, and not {text:?}");
    let mut mix = Mix::default();
    for part in text.split(',') {
        let (name, weight) = part.split_once('=').unwrap_or((part, "1"));
        let weight = weight.parse().ok().filter(|weight| *weight <= 1_000_000).ok_or_else(wrong)?;
        match name {
            "put" => mix.put = weight,
            "get" => mix.get = weight,
            "find" => mix.find = weight,
            _ => return Err(wrong()),
        }
    }
    Some(mix).filter(|mix| mix.put + mix.get + mix.find > 0).ok_or_else(wrong)
}

#[cfg(test)]
mod tests {
    use super::*;

    fn of(text: &str) -> Result<Option<Options>, String> {
        Options::of(text.split_whitespace().map(Into::into))
    }

    #[test]
    fn what_is_wrong_is_told_with_what_is_right() {
        for (words, told) in [
            ("--depth 0", "--depth takes a number from 1 to 64, and not \"0\""),
            ("--depth", "--depth takes a value: --help says which"),
            ("--mix set", "--mix takes put, get or find, or parts as in put=1,get=4, and not \"set\""),
            ("--mix put=0", "--mix takes put, get or find, or parts as in put=1,get=4, and not \"put=0\""),
            ("--seconds nan", "--seconds takes seconds, 0.001 to 86400, and not \"nan\""),
            ("--size 9-8", "--size 9-8 goes down: the lesser one comes first"),
            ("--keys 3", "--items 4 of --keys 3: a request's keys differ, so there are at least as many"),
            ("--speed 9", "there is no option --speed: --help lists them"),
            ("--speed", "there is no option --speed: --help lists them"),
            ("--port 7000", "there is no option --port: the address is a URL, as in ramp-bench ramp://127.0.0.1:7000/t"),
            ("-p 7000", "there is no option -p: the address is a URL, as in ramp-bench ramp://127.0.0.1:7000/t"),
            ("--tenant=t", "there is no option --tenant=t: the address is a URL, as in ramp-bench ramp://127.0.0.1:7000/t"),
            ("a b", "the URL \"a\" is none, and takes ramp://HOST:PORT/TENANT"),
            ("ramp://127.0.0.1:1/t b", "\"b\" is a second URL, and one is measured"),
            ("redis://127.0.0.1:1 --mix find", "a Redis server has no find, no tenants, and nothing to read before a put"),
        ] {
            let words = if words == "a b" { "a" } else { words };
            assert_eq!(of(words).map(|_| ()), Err(told.into()), "{words}");
        }
        assert_eq!(of("--csv --help"), Ok(None));
        let options = of("--mix put --mix get=4,find --size 1-128 ramp://127.0.0.1:7000/t").ok().flatten();
        let expected = [Mix { put: 1, get: 0, find: 0 }, Mix { put: 0, get: 4, find: 1 }];
        assert_eq!(options.map(|it| (it.mixes, it.sizes)), Some((expected.to_vec(), (1, 128))));
    }
}
