//! Lines that are sent together.

use crate::client::Client;
use crate::error::Error;
use crate::line::{self, Request};
use crate::link::Link;
use crate::{Answer, Write};
use std::borrow::Cow;
use std::fmt;

/// How many lines of a pipeline are sent before their answers are read. The requests and answers of so many fit the sockets' buffers.
pub const MOST_UNDER_WAY: usize = 16;

/// A line of a pipeline. A put that is not blind reads its keys first, unless the server's puts are the newest.
#[derive(Clone, Debug)]
pub(crate) struct Line {
    pub(crate) request: Request,
    pub(crate) is_blind: bool,
}

/// Calls that are sent together, and are answered in order. They are not one transaction: each has its own answer or error.
///
/// The keys of a put are read before it, each key once in a pipeline. A read that is answered `restart`, and a line that is retried, is sent
/// again after all others: so a read may see what a later line of the pipeline wrote.
pub struct Pipeline<'a> {
    client: &'a mut Client,
    lines: Vec<Line>,
}

/// How many lines it has, and whose they are.
impl fmt::Debug for Pipeline<'_> {
    fn fmt(&self, to: &mut fmt::Formatter<'_>) -> fmt::Result {
        write!(to, "Pipeline {{ {} lines, {:?} }}", self.lines.len(), self.client)
    }
}

impl<'c> Pipeline<'c> {
    pub(crate) fn new(client: &'c mut Client) -> Pipeline<'c> {
        Pipeline { client, lines: Vec::new() }
    }

    /// As [`Client::put`].
    pub fn put<'a, I>(&mut self, items: I) -> Result<&mut Self, Error>
    where
        I: IntoIterator,
        I::Item: Into<Write<'a>>,
    {
        self.write(items, false)
    }

    /// As [`Client::put_blind`].
    pub fn put_blind<'a, I>(&mut self, items: I) -> Result<&mut Self, Error>
    where
        I: IntoIterator,
        I::Item: Into<Write<'a>>,
    {
        self.write(items, true)
    }

    /// As [`Client::get`].
    pub fn get<K: AsRef<str>>(&mut self, keys: &[K]) -> Result<&mut Self, Error> {
        self.add(line::get(keys)?)
    }

    /// As [`Client::find`].
    pub fn find(&mut self, tag: &str) -> Result<&mut Self, Error> {
        self.add(line::find(tag)?)
    }

    /// As [`Client::keep`].
    pub fn keep(&mut self, versions: u8) -> Result<&mut Self, Error> {
        self.add(line::keep(versions)?)
    }

    /// Sends the lines, and returns an answer to each. The pipeline is empty afterwards.
    ///
    /// If the connection is lost, reads without an answer are retried as [`Retry`](crate::Retry) says. A write without an answer is
    /// [`Error::OutcomeUnknown`], and is not sent again.
    pub fn run(&mut self) -> Vec<Result<Answer, Error>> {
        let lines = std::mem::take(&mut self.lines);
        self.client.run(&lines)
    }

    fn write<'a, I>(&mut self, items: I, is_blind: bool) -> Result<&mut Self, Error>
    where
        I: IntoIterator,
        I::Item: Into<Write<'a>>,
    {
        let items: Vec<Write<'a>> = items.into_iter().map(Into::into).collect();
        self.lines.push(Line { request: line::put(&items)?, is_blind });
        Ok(self)
    }

    fn add(&mut self, request: Request) -> Result<&mut Self, Error> {
        self.lines.push(Line { request, is_blind: true });
        Ok(self)
    }
}

/// Sends these lines, at most [`MOST_UNDER_WAY`] in flight, and returns an answer to each.
pub(crate) fn exchange(link: &mut Link, lines: &[Line]) -> Vec<Result<Answer, Error>> {
    let (requests, is_own) = with_reads(lines, link.is_newest);
    let mut all = Vec::with_capacity(requests.len());
    for group in requests.chunks(MOST_UNDER_WAY) {
        all.extend(link.exchange(group));
    }
    let mut answers: Vec<Result<Answer, Error>> = Vec::with_capacity(lines.len());
    let mut torn = None;
    for (answer, is_own) in all.into_iter().zip(is_own) {
        match answer {
            // The server that acknowledged the write is not to be trusted: its read before the write was inconsistent.
            Err(Error::Refused { refusal, has_ended }) if !is_own && refusal.name == "Torn" => torn = Some(Error::Refused { refusal, has_ended }),
            _ if !is_own => {}
            answer => answers.push(torn.take().map_or(answer, Err)),
        }
    }
    answers
}

/// The requests of these lines, with the reads that go before writes, where puts are not the newest anyway. Each is paired with whether it is a
/// line's own.
fn with_reads(lines: &[Line], is_newest: bool) -> (Vec<Cow<'_, Request>>, Vec<bool>) {
    let (mut requests, mut is_own) = (Vec::new(), Vec::new());
    let mut read: Vec<&str> = Vec::new();
    for line in lines {
        if let (Request::Put { keys, .. }, false) = (&line.request, line.is_blind || is_newest) {
            let unread: Vec<&str> = keys.iter().map(String::as_str).filter(|key| !read.contains(key)).collect();
            if !unread.is_empty() {
                requests.push(Cow::Owned(line::read_of(&unread)));
                is_own.push(false);
            }
            read.extend(unread);
        }
        if let Request::Get { line } = &line.request {
            read.extend(line::keys_of(line));
        }
        requests.push(Cow::Borrowed(&line.request));
        is_own.push(true);
    }
    (requests, is_own)
}
