//! One connection: sends lines and receives answers, each within the timeout.

use crate::error::Error;
use crate::line::{self, Request, LINE_LIMIT};
use crate::{Answer, ServerInfo};
use std::borrow::Borrow;
use std::io::{self, Read, Write};
use std::net::{TcpStream, ToSocketAddrs};
use std::time::{Duration, Instant};

/// A connection that was idle for longer is checked for a close by the server before it is used.
const FRESH: Duration = Duration::from_millis(20);

/// The shortest timeout: a socket accepts none of 0.
const LEAST_WAIT: Duration = Duration::from_millis(1);

/// A connection, and the received bytes that were not consumed yet.
pub(crate) struct Link {
    stream: TcpStream,
    timeout: Duration,
    /// The socket's current read timeout: less than `timeout` after a part of an answer.
    waits: Duration,
    came: Vec<u8>,
    begin: usize,
    end: usize,
    last_used: Instant,
    /// The client number of its session, 0 before the session is open.
    pub(crate) number: u16,
    /// The greatest counter of all stamps that the session wrote or read.
    pub(crate) counter: u64,
    /// What the server told of itself; none of an older one.
    pub(crate) server: Option<ServerInfo>,
    /// Whether its puts are the newest without a read before them.
    pub(crate) is_newest: bool,
    /// Whether answers are outstanding. Then the connection is of no further use: the next answer would belong to an earlier request.
    is_midway: bool,
}

/// Why a connection gives no further answers.
struct Ended {
    error: Error,
    /// Whether a part of the requests was sent, and may have been served.
    is_begun: bool,
}

impl Ended {
    fn of_answer(error: &Error) -> Ended {
        let error = match error {
            Error::OutcomeUnknown(why) => Error::ConnectionLost(why.clone()),
            other => other.clone(),
        };
        Ended { error, is_begun: true }
    }

    /// The error of a request that was left without an answer.
    fn of(&self, is_write: bool) -> Error {
        told(self.error.clone(), is_write && self.is_begun)
    }
}

impl Link {
    pub(crate) fn open(host: &str, port: u16, timeout: Duration) -> Result<Link, Error> {
        let timeout = timeout.max(LEAST_WAIT);
        let cannot = |error: io::Error| Error::CannotConnect(format!("no connection to {host}:{port}: {error}"));
        let mut last = Error::CannotConnect(format!("no address of {host} is known"));
        for address in (host, port).to_socket_addrs().map_err(cannot)? {
            match TcpStream::connect_timeout(&address, timeout) {
                // With no listener, a socket that is assigned this very port connects to itself.
                Ok(stream) if stream.local_addr().ok() == stream.peer_addr().ok() => last = nobody(host, port),
                Ok(stream) => return Link::of(stream, timeout).map_err(cannot),
                Err(error) if error.kind() == io::ErrorKind::ConnectionRefused => last = nobody(host, port),
                Err(error) => last = cannot(error),
            }
        }
        Err(last)
    }

    fn of(stream: TcpStream, timeout: Duration) -> io::Result<Link> {
        stream.set_nodelay(true)?;
        stream.set_read_timeout(Some(timeout))?;
        stream.set_write_timeout(Some(timeout))?;
        let came = vec![0; 4 * LINE_LIMIT];
        let last_used = Instant::now();
        Ok(Link {
            stream,
            timeout,
            waits: timeout,
            came,
            begin: 0,
            end: 0,
            last_used,
            number: 0,
            counter: 0,
            server: None,
            is_newest: false,
            is_midway: false,
        })
    }

    /// Whether requests may be sent: no answer is outstanding, no unrequested bytes have arrived, and the server has not closed it.
    pub(crate) fn is_ready(&self) -> bool {
        let is_quiet = || {
            self.stream.set_nonblocking(true).is_ok()
                && matches!(self.stream.peek(&mut [0]), Err(error) if error.kind() == io::ErrorKind::WouldBlock)
                && self.stream.set_nonblocking(false).is_ok()
        };
        !self.is_midway && self.begin == self.end && (self.last_used.elapsed() < FRESH || is_quiet())
    }

    /// The connection itself. All received bytes were consumed.
    pub(crate) fn into_stream(self) -> TcpStream {
        self.stream
    }

    /// Sends these requests, few enough for the sockets' buffers, and returns an answer to each. After the first missing answer no more are
    /// read: the remaining requests get the same error, and writes get `OutcomeUnknown` if any part of the requests was sent.
    pub(crate) fn exchange<R: Borrow<Request>>(&mut self, requests: &[R]) -> Vec<Result<Answer, Error>> {
        let mut text = String::new();
        for request in requests.iter().map(Borrow::borrow) {
            text.push_str(request.line());
            text.push('\n');
        }
        let mut ended = self.send(&text).err();
        let mut answers = Vec::with_capacity(requests.len());
        for request in requests.iter().map(Borrow::borrow) {
            let answer = match &ended {
                Some(ended) => Err(ended.of(request.is_write())),
                None => self.take(request),
            };
            if let (None, Err(error)) = (&ended, &answer) {
                ended = Some(error).filter(|error| error.ends_connection()).map(Ended::of_answer);
            }
            answers.push(answer);
        }
        self.rest(ended.is_none());
        answers
    }

    /// Sends a line as it is, and returns its answer as it is.
    pub(crate) fn ask(&mut self, line: &str) -> Result<String, Error> {
        let is_write = line.starts_with("put ");
        self.send(&format!("{line}\n")).map_err(|ended| ended.of(is_write))?;
        let answer = self.receive().map_err(|error| told(error, is_write))?.to_owned();
        self.rest(true);
        Ok(answer)
    }

    /// Records whether all requests were answered.
    fn rest(&mut self, is_answered: bool) {
        self.is_midway = !is_answered;
        self.last_used = Instant::now();
    }

    fn take(&mut self, request: &Request) -> Result<Answer, Error> {
        let (number, seen) = (self.number, self.counter);
        let line = self.receive().map_err(|error| told(error, request.is_write()))?;
        let answer = line::read_answer(request, number, line)?;
        let counter = line::counter_of(&answer);
        // A write has a greater counter than all that its session wrote and read before.
        if request.is_write() && counter <= seen {
            return Err(line::false_answer(request.line(), line));
        }
        self.counter = seen.max(counter);
        Ok(answer)
    }

    fn send(&mut self, text: &str) -> Result<(), Ended> {
        let begun = Instant::now();
        self.is_midway = true;
        let mut rest = text.as_bytes();
        while !rest.is_empty() {
            let is_begun = rest.len() < text.len();
            let ended = |error| Ended { error, is_begun };
            match self.stream.write(rest) {
                Ok(0) => return Err(ended(closed())),
                Ok(sent) => rest = &rest[sent..],
                Err(error) if error.kind() == io::ErrorKind::Interrupted => {}
                Err(error) => return Err(ended(self.error_of(&error))),
            }
            if !rest.is_empty() && begun.elapsed() > self.timeout {
                return Err(Ended { error: self.late(), is_begun: true });
            }
        }
        Ok(())
    }

    /// Receives the next line, and returns it without its LF.
    fn receive(&mut self) -> Result<&str, Error> {
        let mut searched = self.begin;
        let mut begun = None;
        let length = loop {
            if let Some(at) = self.came[searched..self.end].iter().position(|byte| *byte == b'\n') {
                break searched + at - self.begin;
            }
            let has = self.end - self.begin;
            if has >= LINE_LIMIT {
                return Err(Error::FalseAnswer(format!(
                    "{LINE_LIMIT} bytes came without a line's end, and no answer of ramp has that: trust nothing that comes from there"
                )));
            }
            searched = has;
            self.fill(begun.get_or_insert_with(Instant::now))?;
        };
        let line = self.begin..self.begin + length;
        self.begin = line.end + 1;
        let line = &self.came[line];
        std::str::from_utf8(line).map_err(|_| line::false_answer("a line", &String::from_utf8_lossy(line)))
    }

    /// Reads more bytes from the socket, until the timeout of an answer that was awaited since then. Moves unconsumed bytes to the front.
    fn fill(&mut self, begun: &Instant) -> Result<(), Error> {
        self.came.copy_within(self.begin..self.end, 0);
        self.end -= self.begin;
        self.begin = 0;
        loop {
            let left = self.timeout.saturating_sub(begun.elapsed());
            self.wait_for(if self.end == 0 { self.timeout } else { left.max(LEAST_WAIT) });
            match self.stream.read(&mut self.came[self.end..]) {
                Ok(0) => return Err(closed()),
                Ok(_) if left.is_zero() => return Err(self.late()),
                Ok(count) => {
                    self.end += count;
                    return Ok(());
                }
                Err(error) if error.kind() == io::ErrorKind::Interrupted && !left.is_zero() => {}
                Err(error) => return Err(self.error_of(&error)),
            }
        }
    }

    /// Sets the socket's read timeout. If that fails, the next read reports it.
    fn wait_for(&mut self, time: Duration) {
        if self.waits != time {
            let _ = self.stream.set_read_timeout(Some(time));
            self.waits = time;
        }
    }

    fn late(&self) -> Error {
        // A server that has no room for a session accepts the connection, and says nothing.
        let hint = if self.number == 0 { ": has the server room for a further session (--sessions)?" } else { "" };
        Error::NoAnswer(format!("no answer came within {:?}{hint}", self.timeout))
    }

    fn error_of(&self, error: &io::Error) -> Error {
        match error.kind() {
            io::ErrorKind::WouldBlock | io::ErrorKind::TimedOut => self.late(),
            _ => Error::ConnectionLost(format!("the server closed the connection ({error})")),
        }
    }
}

fn closed() -> Error {
    Error::ConnectionLost("the server closed the connection".into())
}

fn nobody(host: &str, port: u16) -> Error {
    Error::CannotConnect(format!("nobody listens at {host}:{port}: is `rampd --port {port}` running there?"))
}

/// The error of a call without an answer. A write that the server may have received is unknown.
fn told(error: Error, is_unknown: bool) -> Error {
    match error {
        Error::ConnectionLost(_) | Error::NoAnswer(_) if is_unknown => Error::OutcomeUnknown(error.to_string()),
        other => other,
    }
}
