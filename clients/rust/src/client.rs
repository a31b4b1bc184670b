//! A session of one client.

use crate::codec::{self, Content};
use crate::config::Config;
use crate::error::{Error, Fault, Part};
use crate::line::{self, Request};
use crate::link::Link;
use crate::numbers;
use crate::pipeline::{self, Line, Pipeline};
use crate::{Answer, Item, ServerInfo, Write};
use std::fmt;
use std::net::TcpStream;
use std::sync::Arc;
use std::thread;

/// How often a read is repeated if a version that it needs was collected in the meantime.
pub const MOST_RESTARTS: usize = 100;

/// How many numbers are tried in one packet: the first time, the second, and from then on. The answers fit the sockets' buffers.
const NUMBERS_AT_ONCE: [usize; 3] = [4, 60, 1024];

/// A session of one client, for one thread at a time. For several threads there is [`Pool`](crate::Pool).
///
/// A call waits for its answer until the timeout. If the connection was lost, the next call opens another one, and may get another client number.
pub struct Client {
    config: Arc<Config>,
    link: Option<Link>,
    /// The number and the counter of the session before.
    before: Option<(u16, u64)>,
    /// What the server told of itself at the last connection, if there was one and it did.
    server: Option<ServerInfo>,
    has_opened: bool,
    /// Whether the server knows neither `hello TENANT any` nor `info`.
    is_older: bool,
    new_stores: u64,
}

/// The address, the tenant and the number, and nothing that was written or read.
impl fmt::Debug for Client {
    fn fmt(&self, to: &mut fmt::Formatter<'_>) -> fmt::Result {
        let Config { host, port, tenant, .. } = &*self.config;
        write!(to, "Client {{ ramp://{host}:{port}/{tenant}, client {} }}", self.number())
    }
}

impl Client {
    /// A session at `ramp://HOST:PORT/TENANT`, as [`Config::new`] reads it.
    pub fn connect(url: &str) -> Result<Client, Error> {
        Config::new(url)?.connect()
    }

    pub(crate) fn open(config: Config) -> Result<Client, Error> {
        let mut client = Client::unconnected(Arc::new(config));
        client.reconnect()?;
        Ok(client)
    }

    /// A client that connects on first use.
    pub(crate) fn unconnected(config: Arc<Config>) -> Client {
        Client { config, link: None, before: None, server: None, has_opened: false, is_older: false, new_stores: 0 }
    }

    /// The client number; 0 while there is no connection.
    pub fn number(&self) -> u16 {
        self.link.as_ref().map_or(0, |link| link.number)
    }

    /// How often it connected again and found another store. Then the server was started anew, and all that was written before is gone. An older
    /// server does not tell which store it has: there the client notices it where its number's counter is below what it had been.
    pub fn new_stores(&self) -> u64 {
        self.new_stores
    }

    /// What the server told of itself when this client last connected; `None` before that, and of an older server.
    pub fn server(&self) -> Option<&ServerInfo> {
        self.server.as_ref()
    }

    /// Writes 1 to 16 items, all or none, and returns the stamp of the write.
    ///
    /// This write is newer than every write to its keys that was done before it began. Unless the server tells that its writes are so anyway, the
    /// keys are read first, in the same packet.
    pub fn put<'a, I>(&mut self, items: I) -> Result<String, Error>
    where
        I: IntoIterator,
        I::Item: Into<Write<'a>>,
    {
        self.write(items, false)
    }

    /// Writes 1 to 16 items, all or none, without reading their keys first.
    ///
    /// Use it where only this session writes these keys, where it has just read them, or where the server runs with `--newest`. Otherwise
    /// the write may get a lower stamp than an earlier write of another client. Then it is done, and never read.
    pub fn put_blind<'a, I>(&mut self, items: I) -> Result<String, Error>
    where
        I: IntoIterator,
        I::Item: Into<Write<'a>>,
    {
        self.write(items, true)
    }

    /// Reads 1 to 16 items atomically, in the order of the keys. It returns nothing older than a write that was done before it began.
    pub fn get<K: AsRef<str>>(&mut self, keys: &[K]) -> Result<Vec<Item>, Error> {
        let request = line::get(keys)?;
        self.read(request)
    }

    /// Reads the items that carry this tag. More than 16 are refused (23).
    pub fn find(&mut self, tag: &str) -> Result<Vec<Item>, Error> {
        let request = line::find(tag)?;
        self.read(request)
    }

    /// Sets how many committed versions of an item collections keep, 1 to 255, for the whole tenant.
    pub fn keep(&mut self, versions: u8) -> Result<u8, Error> {
        let request = line::keep(versions)?;
        match self.call(Line { request, is_blind: true })? {
            Answer::Kept(versions) => Ok(versions),
            other => Err(unfit(&other)),
        }
    }

    /// Writes a text of any letters, with spaces, under this key, and returns the stamp of the write. JSON is such a text.
    ///
    /// It stands under `KEY.0`, `KEY.1`, .. to `KEY.f`, as few as hold it, as [`codec::encode_record`] has it: one transaction, 2,046 bytes of encoded
    /// text at most. The key has 30 bytes at most.
    pub fn put_text(&mut self, key: &str, text: &str) -> Result<String, Error> {
        self.put(&codec::encode_record(key, &Content::Text(text.into()))?)
    }

    /// Reads what [`Client::put_text`] wrote, all of it or none; `None` if nothing was written. A text of several keys takes a second get.
    ///
    /// [`Group::WrongUse`](crate::Group::WrongUse) where something else stands there.
    pub fn get_text(&mut self, key: &str) -> Result<Option<String>, Error> {
        match self.content(key)? {
            None => Ok(None),
            Some(Content::Text(text)) => Ok(Some(text)),
            Some(Content::Bytes(_)) => Err(line::invalid(Part::Record, key, "", Fault::Other("has bytes and no text: get_bytes reads it".into()))),
        }
    }

    /// Writes at most 1,636 bytes of any kind under this key, as [`Client::put_text`].
    pub fn put_bytes(&mut self, key: &str, bytes: &[u8]) -> Result<String, Error> {
        self.put(&codec::encode_record(key, &Content::Bytes(bytes.into()))?)
    }

    /// Reads what [`Client::put_bytes`] wrote, as [`Client::get_text`].
    pub fn get_bytes(&mut self, key: &str) -> Result<Option<Vec<u8>>, Error> {
        match self.content(key)? {
            None => Ok(None),
            Some(Content::Bytes(bytes)) => Ok(Some(bytes)),
            Some(Content::Text(_)) => Err(line::invalid(Part::Record, key, "", Fault::Other("has text and no bytes: get_text reads it".into()))),
        }
    }

    /// The record of this key. Its first key says how many it has; where there are more, all that a record can have are read together.
    fn content(&mut self, key: &str) -> Result<Option<Content>, Error> {
        let keys = codec::record_keys(key);
        let first = self.get(&keys[..1])?;
        let is_short = first.iter().all(|item| item.value.as_ref().map_or(true, |value| value.starts_with('0')));
        let items = if is_short { first } else { self.get(&keys)? };
        codec::decode_record(key, &items)
    }

    /// A pipeline: several calls that are sent together.
    pub fn pipeline(&mut self) -> Pipeline<'_> {
        Pipeline::new(self)
    }

    /// Sends a line as it is, once, and returns its answer as it is, refusals included. If it ends the session, the next call opens another.
    pub fn ask(&mut self, line: &str) -> Result<String, Error> {
        let line = line::whole(line.into())?;
        self.reconnect()?;
        let answer = match &mut self.link {
            Some(link) => link.ask(&line),
            None => Err(Error::ConnectionLost("the connection was closed".into())),
        };
        let has_ended = matches!(&answer, Ok(answer) if line::ends_session(answer));
        if has_ended || matches!(&answer, Err(error) if error.ends_connection()) {
            self.disconnect();
        }
        answer
    }

    /// Ends the session and waits until the server has released its client number. Dropping a client ends the session without waiting.
    pub fn close(mut self) -> Result<(), Error> {
        let ended = match &mut self.link {
            Some(link) if link.is_ready() => link.exchange(&[Request::Bye]).pop().map_or(Ok(()), |answer| answer.map(|_| ())),
            _ => Ok(()),
        };
        self.disconnect();
        ended
    }

    /// Returns the connection, with its open session, to a program that speaks the protocol by itself. Its reads and writes have the timeout.
    pub fn into_stream(mut self) -> Result<TcpStream, Error> {
        self.reconnect()?;
        let link = self.link.take().ok_or_else(|| Error::ConnectionLost("the connection was closed".into()))?;
        Ok(link.into_stream())
    }

    fn write<'a, I>(&mut self, items: I, is_blind: bool) -> Result<String, Error>
    where
        I: IntoIterator,
        I::Item: Into<Write<'a>>,
    {
        let items: Vec<Write<'a>> = items.into_iter().map(Into::into).collect();
        let request = line::put(&items)?;
        match self.call(Line { request, is_blind })? {
            Answer::Done(stamp) => Ok(stamp),
            other => Err(unfit(&other)),
        }
    }

    fn read(&mut self, request: Request) -> Result<Vec<Item>, Error> {
        match self.call(Line { request, is_blind: true })? {
            Answer::Items(items) => Ok(items),
            other => Err(unfit(&other)),
        }
    }

    fn call(&mut self, line: Line) -> Result<Answer, Error> {
        self.run(&[line]).pop().unwrap_or_else(|| Err(Error::ConnectionLost("no line was asked".into())))
    }

    /// Returns an answer to each line. Lines that are retried, and reads that are answered `restart`, are sent again after the others.
    pub(crate) fn run(&mut self, lines: &[Line]) -> Vec<Result<Answer, Error>> {
        let mut answers = self.run_once(lines);
        let (mut tried, mut restarts) = (1, 0);
        loop {
            let retry = self.config.retry;
            let is_failed = |answer: &Result<Answer, Error>| matches!(answer, Err(error) if retry.tries_again(error, tried));
            let is_restart = |answer: &Result<Answer, Error>| restarts < MOST_RESTARTS && matches!(answer, Err(Error::Restarted { .. }));
            let again: Vec<usize> = (0..lines.len()).filter(|place| is_failed(&answers[*place]) || is_restart(&answers[*place])).collect();
            if again.is_empty() {
                return answers;
            }
            if answers.iter().any(is_failed) {
                thread::sleep(retry.pause_after(tried));
                tried += 1;
            }
            restarts += 1;
            let asked: Vec<Line> = again.iter().map(|place| lines[*place].clone()).collect();
            for (place, answer) in again.into_iter().zip(self.run_once(&asked)) {
                answers[place] = answer;
            }
        }
    }

    fn run_once(&mut self, lines: &[Line]) -> Vec<Result<Answer, Error>> {
        let answers = match self.link() {
            Ok(link) => pipeline::exchange(link, lines),
            Err(error) => vec![Err(error); lines.len()],
        };
        let is_spent = |answer: &Result<Answer, Error>| match answer {
            Err(Error::Refused { refusal, .. }) => refusal.ends_session(),
            Err(error) => error.ends_connection(),
            Ok(_) => false,
        };
        if answers.iter().any(is_spent) {
            self.disconnect();
        }
        answers
    }

    /// Connects, with retries.
    fn reconnect(&mut self) -> Result<(), Error> {
        let mut tried = 1;
        loop {
            let opened = self.link().map(|_| ());
            match &opened {
                Err(error) if self.config.retry.tries_again(error, tried) => thread::sleep(self.config.retry.pause_after(tried)),
                Err(_) => {
                    // A connection without a session would only use up one of the server's.
                    self.disconnect();
                    return opened;
                }
                Ok(()) => return opened,
            }
            tried += 1;
        }
    }

    /// The connection with its open session, opened if there is none.
    fn link(&mut self) -> Result<&mut Link, Error> {
        if matches!(&self.link, Some(link) if !link.is_ready()) {
            self.disconnect();
        }
        let mut link = match self.link.take() {
            Some(link) => link,
            None => Link::open(&self.config.host, self.config.port, self.config.timeout)?,
        };
        let opened = if link.number == 0 { self.say_hello(&mut link) } else { Ok(()) };
        match opened {
            Ok(()) => {
                self.note_store(&link);
                Ok(self.link.insert(link))
            }
            Err(error) => {
                // The connection is kept: a later hello may succeed, when another session has ended.
                self.link = Some(link).filter(|_| matches!(error, Error::Refused { .. }));
                Err(error)
            }
        }
    }

    /// Notes which store the open session is of, and whether it is another one than before.
    fn note_store(&mut self, link: &Link) {
        let before = self.before.take();
        let (store, old) = (link.server.as_ref().map(|its| its.store), self.server.as_ref().map(|its| its.store));
        let is_new = match (store, old) {
            (None, None) => matches!(before, Some((number, counter)) if number == link.number && link.counter < counter),
            _ => self.has_opened && store != old,
        };
        self.new_stores += u64::from(is_new);
        self.server = link.server.clone();
        self.has_opened = true;
    }

    /// Opens the session under a number that the server gives; or, where the program named numbers or the server is an older one, under the first
    /// that is free: of those that this program used before, and then of the others.
    fn say_hello(&mut self, link: &mut Link) -> Result<(), Error> {
        if !self.config.has_numbers && !self.is_older {
            let last = self.before.map(|(number, _)| Some(number));
            let numbers: Vec<Option<u16>> = last.into_iter().chain([None]).collect();
            let opened = greet(link, &self.config, &numbers, true);
            self.is_older = matches!(&opened, Err(Error::Refused { refusal, .. }) if refusal.name == "BadLine");
            if !self.is_older {
                return opened;
            }
            // A strict one ends at a line that it does not know.
            if !link.is_ready() {
                *link = Link::open(&self.config.host, self.config.port, self.config.timeout)?;
            }
        }
        let place = self.config.place();
        let (order, had) = numbers::in_order(&place, &self.config.numbers);
        let opened = first_free(link, &self.config, &order, !self.is_older);
        // The remembered numbers that this session does not use are remembered again.
        order[..had].iter().rev().filter(|number| **number != link.number).for_each(|number| numbers::give_back(&place, *number));
        opened
    }

    fn disconnect(&mut self) {
        if let Some(link) = self.link.take() {
            if link.number > 0 {
                self.before = Some((link.number, link.counter));
                numbers::give_back(&self.config.place(), link.number);
            }
        }
    }
}

impl Drop for Client {
    fn drop(&mut self) {
        self.disconnect();
    }
}

/// Opens the session under the first of these numbers that is free. Many are tried in one packet.
fn first_free(link: &mut Link, config: &Config, order: &[u16], asks_info: bool) -> Result<(), Error> {
    let mut last = line::invalid(Part::Number, "", "", Fault::Other("is missing".into()));
    let mut sizes = NUMBERS_AT_ONCE.iter();
    let (mut rest, mut size) = (order, 0);
    while !rest.is_empty() {
        size = *sizes.next().unwrap_or(&size);
        let (group, others) = rest.split_at(size.min(rest.len()));
        rest = others;
        let numbers: Vec<Option<u16>> = group.iter().copied().map(Some).collect();
        match greet(link, config, &numbers, asks_info && order.len() == 1) {
            Ok(()) if asks_info && order.len() > 1 => {
                return link.exchange(&[Request::Info]).pop().map_or(Ok(()), |answer| inform(link, config, answer))
            }
            Err(Error::Refused { refusal, has_ended }) if matches!(refusal.name, "Busy" | "ClientsFull") => {
                keep_cause(&mut last, Error::Refused { refusal, has_ended })
            }
            other => return other,
        }
    }
    Err(last)
}

/// Says hello with these numbers, or for one that the server gives, in one packet, and asks what the server is. Once one of them has opened the
/// session, the remaining `hello`s are refused and change nothing. It is refused where none was free, and `BadLine` of an older server.
fn greet(link: &mut Link, config: &Config, numbers: &[Option<u16>], asks_info: bool) -> Result<(), Error> {
    let mut last = line::invalid(Part::Number, "", "", Fault::Other("is missing".into()));
    let mut requests: Vec<Request> = numbers.iter().map(|number| line::hello(&config.tenant, *number)).collect();
    requests.extend(Some(Request::Info).filter(|_| asks_info));
    let mut answers = link.exchange(&requests).into_iter();
    for (number, answer) in numbers.iter().zip(answers.by_ref()) {
        match (answer, number) {
            (Ok(Answer::Ready(_)), Some(number)) if link.number == 0 => link.number = *number,
            (Ok(Answer::ReadyAs(_, number)), None) if link.number == 0 => link.number = number,
            (Ok(answer), _) => return Err(unfit(&answer)),
            (Err(_), _) if link.number != 0 => {}
            (Err(Error::Refused { refusal, has_ended }), _) if matches!(refusal.name, "Busy" | "ClientsFull" | "BadLine") => {
                keep_cause(&mut last, Error::Refused { refusal, has_ended })
            }
            (Err(error), _) => return Err(error),
        }
    }
    match answers.next() {
        _ if link.number == 0 => Err(last),
        Some(answer) => inform(link, config, answer),
        None => {
            link.is_newest = !config.reads_first;
            Ok(())
        }
    }
}

/// Of several causes for which no number was free, the one that says most: only `Busy` gives way.
fn keep_cause(last: &mut Error, cause: Error) {
    if !matches!(last, Error::Refused { refusal, .. } if refusal.name != "Busy") {
        *last = cause;
    }
}

/// Takes what the server tells of itself. An older one refuses that.
fn inform(link: &mut Link, config: &Config, answer: Result<Answer, Error>) -> Result<(), Error> {
    link.server = match answer {
        Ok(Answer::Info(server)) => Some(server),
        Ok(other) => return Err(unfit(&other)),
        Err(Error::Refused { .. }) => None,
        Err(error) => return Err(error),
    };
    link.is_newest = link.server.as_ref().map_or(!config.reads_first, |server| server.newest);
    if config.reads_first || link.is_newest {
        return Ok(());
    }
    let why = "is asked of a server that was started without --newest, whose puts are the newest only where the client reads first";
    Err(line::invalid(Part::Url, "newest=server", "", Fault::Other(why.into())))
}

/// Never happens: an answer is decoded by its request, and so is of the request's kind.
pub(crate) fn unfit(answer: &Answer) -> Error {
    Error::FalseAnswer(format!("this is no answer to such a line: {answer:?}"))
}
