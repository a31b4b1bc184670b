//! Where a client connects, and how it behaves.

use crate::client::Client;
use crate::error::{Error, Fault, Part};
use crate::line;
use crate::pool::Pool;
use crate::retry::Retry;
use std::str::FromStr;
use std::time::Duration;

/// The default timeout of an answer.
pub const TIMEOUT: Duration = Duration::from_secs(5);

/// The client numbers that are drawn from by default at an older server: as many as a tenant can have.
const NUMBERS: std::ops::RangeInclusive<u16> = 1..=1024;

/// Where a client connects, and how it behaves.
///
/// ```
/// use ramp_client::Config;
/// use std::time::Duration;
///
/// let config: Config = "ramp://127.0.0.1:7000/t?timeout=0.5".parse()?;
/// assert_eq!((config.host(), config.port(), config.tenant()), ("127.0.0.1", 7000, "t"));
/// let pool = config.timeout(Duration::from_secs(1)).pool(8); // connects when it is first used
/// # Ok::<(), ramp_client::Error>(())
/// ```
#[derive(Clone, Debug, PartialEq)]
pub struct Config {
    pub(crate) host: String,
    pub(crate) port: u16,
    pub(crate) tenant: String,
    pub(crate) numbers: Vec<u16>,
    /// Whether the program named these numbers. Else the server gives one.
    pub(crate) has_numbers: bool,
    pub(crate) timeout: Duration,
    pub(crate) retry: Retry,
    pub(crate) reads_first: bool,
}

impl Config {
    /// Parses `ramp://HOST:PORT/TENANT`. It may be followed by `?` and, separated by `&`, `client=NUMBER`, `timeout=SECONDS`, and
    /// `newest=server` to ask for a server that runs with `--newest`, where no put reads its keys first.
    pub fn new(url: &str) -> Result<Config, Error> {
        parse(url).map_err(|why| line::invalid(Part::Url, url, "", Fault::Other(why)))
    }

    pub fn host(&self) -> &str {
        &self.host
    }

    pub fn port(&self) -> u16 {
        self.port
    }

    pub fn tenant(&self) -> &str {
        &self.tenant
    }

    /// The same for another tenant, whose name is 1 to 16 bytes of `a-z 0-9 _`.
    pub fn for_tenant(self, tenant: &str) -> Result<Config, Error> {
        line::check(Part::Tenant, tenant)?;
        Ok(Config { tenant: tenant.into(), ..self })
    }

    /// The timeout of an answer.
    pub fn answer_timeout(&self) -> Duration {
        self.timeout
    }

    /// The client numbers that are drawn from, where the program named them or an older server gives none.
    pub fn allowed_numbers(&self) -> &[u16] {
        &self.numbers
    }

    /// Sets the timeout of each answer: 5 seconds by default, and at least a millisecond.
    pub fn timeout(self, timeout: Duration) -> Config {
        Config { timeout, ..self }
    }

    /// Sets the client number, 1 to 65535. A second session of the same number at the same time is refused.
    pub fn client(self, number: u16) -> Config {
        self.numbers([number])
    }

    /// Sets the client numbers that are drawn from. By default the server gives one that is free; an older server gives none, and the number is
    /// drawn from 1 to 1024. A number counts against the tenant's `--clients`, 16 by default, for as long as the server runs. So the numbers that this
    /// program used before are tried first.
    pub fn numbers(self, numbers: impl IntoIterator<Item = u16>) -> Config {
        Config { numbers: numbers.into_iter().collect(), has_numbers: true, ..self }
    }

    /// Sets what is retried.
    pub fn retry(self, retry: Retry) -> Config {
        Config { retry, ..self }
    }

    /// Asks that the server runs with `--newest`, so that no put reads its keys first. One that tells otherwise is an error; an older one, which tells
    /// nothing, is believed to.
    pub fn newest_by_server(self) -> Config {
        Config { reads_first: false, ..self }
    }

    /// Opens a session.
    pub fn connect(self) -> Result<Client, Error> {
        Client::open(self)
    }

    /// A pool of at most this many sessions, and at least 1. Each is opened when it is first needed.
    pub fn pool(self, size: usize) -> Pool {
        Pool::new(self, size)
    }

    /// The server and the tenant, for which numbers are remembered.
    pub(crate) fn place(&self) -> String {
        format!("{}:{}/{}", self.host, self.port, self.tenant)
    }
}

impl FromStr for Config {
    type Err = Error;

    fn from_str(url: &str) -> Result<Config, Error> {
        Config::new(url)
    }
}

fn parse(url: &str) -> Result<Config, String> {
    let form = || String::from("is none");
    let rest = url.strip_prefix("ramp://").ok_or_else(form)?;
    let (place, options) = rest.split_once('?').unwrap_or((rest, ""));
    let (server, tenant) = place.split_once('/').ok_or_else(form)?;
    let (host, port) = server.rsplit_once(':').ok_or_else(form)?;
    let is_bracketed = host.starts_with('[') && host.ends_with(']') && host.len() > 2;
    let host = if is_bracketed { &host[1..host.len() - 1] } else { host };
    let is_host_byte = |byte: u8| byte.is_ascii_alphanumeric() || matches!(byte, b'.' | b'-' | b'_') || (is_bracketed && byte == b':');
    if host.is_empty() || !host.bytes().all(is_host_byte) {
        return Err("has no name or address of a host".into());
    }
    let port = number(port).ok_or("has no port from 1 to 65535")?;
    line::check(Part::Tenant, tenant).map_err(|_| "has no tenant's name of 1 to 16 bytes of a-z 0-9 _")?;
    let numbers = NUMBERS.collect();
    let mut config = Config {
        host: host.into(),
        port,
        tenant: tenant.into(),
        numbers,
        has_numbers: false,
        timeout: TIMEOUT,
        retry: Retry::default(),
        reads_first: true,
    };
    for option in options.split('&').filter(|option| !option.is_empty()) {
        config = with_option(config, option)?;
    }
    Ok(config)
}

fn with_option(config: Config, option: &str) -> Result<Config, String> {
    let known = || format!("has the option {option:?}: known are client=1 to 65535, timeout=SECONDS, and newest=server or client");
    match option.split_once('=').ok_or_else(known)? {
        ("client", text) => Ok(config.client(number(text).ok_or_else(known)?)),
        ("timeout", text) => {
            let seconds: f64 = text.parse().map_err(|_| known())?;
            // A day is as good as for ever, and no clock overflows.
            let is_time = (0.001..=86_400.0).contains(&seconds);
            Ok(config.timeout(Duration::from_secs_f64(Some(seconds).filter(|_| is_time).ok_or_else(known)?)))
        }
        ("newest", "server") => Ok(config.newest_by_server()),
        ("newest", "client") => Ok(Config { reads_first: true, ..config }),
        _ => Err(known()),
    }
}

/// A number from 1 to 65535 in digits.
fn number(text: &str) -> Option<u16> {
    let is_plain = text.bytes().all(|byte| byte.is_ascii_digit());
    text.parse().ok().filter(|number| is_plain && *number > 0)
}
