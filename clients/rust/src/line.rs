//! Encodes requests as lines, and decodes answers strictly.

use crate::codec::MOST_SIGNS;
use crate::error::{Error, Fault, Invalid, Part};
use crate::refusal::Refusal;
use crate::{Answer, Item, ServerInfo, Write};

/// A line with its LF is shorter than this.
pub(crate) const LINE_LIMIT: usize = 4096;

/// The greatest counter of a stamp.
const MOST_COUNTER: u64 = (1 << 40) - 1;

/// The most bytes of a value.
pub(crate) const MOST_VALUE: usize = 128;

/// The most items of a transaction.
pub(crate) const MOST_ITEMS: usize = 16;

/// A request: its line, and what its answer has to match.
#[derive(Clone, Debug, PartialEq, Eq)]
pub(crate) enum Request {
    Hello { line: String, is_any: bool },
    Put { line: String, keys: Vec<String> },
    Get { line: String },
    Find { line: String, tag: String },
    Keep { line: String, versions: u8 },
    Info,
    Bye,
}

impl Request {
    pub(crate) fn is_write(&self) -> bool {
        matches!(self, Request::Put { .. })
    }

    pub(crate) fn line(&self) -> &str {
        match self {
            Request::Hello { line, .. } | Request::Put { line, .. } | Request::Get { line } => line,
            Request::Find { line, .. } | Request::Keep { line, .. } => line,
            Request::Info => "info",
            Request::Bye => "bye",
        }
    }
}

fn is_name_byte(byte: u8) -> bool {
    matches!(byte, b'a'..=b'z' | b'0'..=b'9' | b'_' | b'.' | b'/' | b'-')
}

fn is_tenant_byte(byte: u8) -> bool {
    matches!(byte, b'a'..=b'z' | b'0'..=b'9' | b'_')
}

fn is_value_byte(byte: u8) -> bool {
    matches!(byte, b'!'..=b'~')
}

/// What is allowed as a key, a tag, a value or a name.
struct Rule {
    part: Part,
    least: usize,
    most: usize,
    is_allowed: fn(u8) -> bool,
    /// Which bytes these are, as text.
    allowed: &'static str,
}

const KEY: Rule = Rule { part: Part::Key, least: 1, most: 32, is_allowed: is_name_byte, allowed: "of a-z 0-9 _ . / -" };
const TAG: Rule = Rule { part: Part::Tag, most: 16, ..KEY };
const TENANT: Rule = Rule { part: Part::Tenant, least: 1, most: 16, is_allowed: is_tenant_byte, allowed: "of a-z 0-9 _" };
const VALUE: Rule = Rule { part: Part::Value, least: 0, most: MOST_VALUE, is_allowed: is_value_byte, allowed: "from ! to ~" };

impl Rule {
    fn takes(&self) -> String {
        format!("{} to {} bytes {}", self.least, self.most, self.allowed)
    }

    fn fault(&self, text: &str) -> Option<Fault> {
        let at = text.bytes().position(|byte| !(self.is_allowed)(byte));
        match at {
            _ if !(self.least..=self.most).contains(&text.len()) => Some(Fault::Length(text.len())),
            Some(at) => Some(Fault::Byte { at, byte: text.as_bytes()[at] }),
            None => None,
        }
    }

    fn allows(&self, text: &str) -> bool {
        self.fault(text).is_none()
    }

    /// Returns the text if it is allowed. Otherwise it might be read as several words, or as another line.
    fn check<'a>(&self, key: &str, text: &'a str) -> Result<&'a str, Error> {
        self.fault(text).map_or(Ok(text), |fault| Err(invalid(self.part, text, key, fault)))
    }
}

impl Part {
    /// What is allowed, as text.
    pub(crate) fn takes(self) -> String {
        match self {
            Part::Key => KEY.takes(),
            Part::Tag => TAG.takes(),
            Part::Value => VALUE.takes(),
            Part::Tenant => TENANT.takes(),
            Part::Line => format!("1 to {} bytes without a line's end", LINE_LIMIT - 2),
            Part::Items => format!("1 to {MOST_ITEMS} different keys"),
            Part::Number => "a number from 1 to 65535".into(),
            Part::Url => "ramp://HOST:PORT/TENANT".into(),
            Part::Record => format!("a key of 1 to {} bytes, and up to {MOST_SIGNS} bytes once encoded", KEY.most - 2),
        }
    }
}

/// Checks a key, a tag, a value or a tenant's name. Any other part is an error.
pub fn check(part: Part, text: &str) -> Result<(), Error> {
    let rule = match part {
        Part::Key => &KEY,
        Part::Tag => &TAG,
        Part::Value => &VALUE,
        Part::Tenant => &TENANT,
        other => return Err(invalid(other, text, "", Fault::Other("is neither a key, a tag, a value nor a tenant's name".into()))),
    };
    rule.check("", text).map(|_| ())
}

/// The error of an argument that can't be sent.
pub(crate) fn invalid(part: Part, given: &str, key: &str, fault: Fault) -> Error {
    Error::Invalid(Invalid { part, given: begin(given), key: begin(key), fault })
}

/// The first 64 bytes, or slightly fewer, of whole characters.
fn begin(text: &str) -> String {
    let mut most = text.len().min(64);
    while !text.is_char_boundary(most) {
        most -= 1;
    }
    text[..most].into()
}

/// Returns the line if it is a single line that is neither empty nor too long.
pub(crate) fn whole(line: String) -> Result<String, Error> {
    let end = line.bytes().position(|byte| byte == b'\n');
    match end {
        _ if line.is_empty() || line.len() + 1 >= LINE_LIMIT => Err(invalid(Part::Line, &line, "", Fault::Length(line.len()))),
        Some(at) => Err(invalid(Part::Line, &line, "", Fault::Byte { at, byte: b'\n' })),
        None => Ok(line),
    }
}

/// Opens a session as this client, or as one whose number the server gives.
pub(crate) fn hello(tenant: &str, number: Option<u16>) -> Request {
    let client = number.map_or("any".into(), |number| number.to_string());
    Request::Hello { line: format!("hello {tenant} {client}"), is_any: number.is_none() }
}

pub(crate) fn put(items: &[Write<'_>]) -> Result<Request, Error> {
    let mut line = String::from("put");
    for item in items {
        let key = KEY.check("", item.key)?;
        let tag = if item.tag.is_empty() { "" } else { TAG.check(key, item.tag)? };
        let sign = if tag.is_empty() { "" } else { "#" };
        for word in [" ", key, sign, tag, "=", VALUE.check(key, item.value)?] {
            line.push_str(word);
        }
    }
    let keys: Vec<&str> = items.iter().map(|item| item.key).collect();
    check_keys(&keys)?;
    Ok(Request::Put { line: whole(line)?, keys: keys.into_iter().map(Into::into).collect() })
}

pub(crate) fn get<K: AsRef<str>>(keys: &[K]) -> Result<Request, Error> {
    let mut line = String::from("get");
    for key in keys {
        line.push(' ');
        line.push_str(KEY.check("", key.as_ref())?);
    }
    let keys: Vec<&str> = keys.iter().map(AsRef::as_ref).collect();
    check_keys(&keys)?;
    Ok(Request::Get { line: whole(line)? })
}

/// Checks that one transaction may have these keys.
fn check_keys(keys: &[&str]) -> Result<(), Error> {
    let twice = keys.iter().enumerate().find(|(place, key)| keys[..*place].contains(key));
    if let Some((_, key)) = twice {
        return Err(invalid(Part::Items, key, "", Fault::Other("are there twice".into())));
    }
    if keys.is_empty() || keys.len() > MOST_ITEMS {
        return Err(invalid(Part::Items, &keys.join(" "), "", Fault::Other(format!("are {}", keys.len()))));
    }
    Ok(())
}

/// The keys of a `get` line.
pub(crate) fn keys_of(line: &str) -> impl Iterator<Item = &str> {
    line.split(' ').skip(1)
}

/// A read of these keys, which were checked before.
pub(crate) fn read_of(keys: &[&str]) -> Request {
    Request::Get { line: format!("get {}", keys.join(" ")) }
}

pub(crate) fn find(tag: &str) -> Result<Request, Error> {
    TAG.check("", tag)?;
    Ok(Request::Find { line: format!("find {tag}"), tag: tag.into() })
}

pub(crate) fn keep(versions: u8) -> Result<Request, Error> {
    if versions == 0 {
        return Err(invalid(Part::Number, "0", "", Fault::Other("is no number of versions to keep, which is 1 to 255".into())));
    }
    Ok(Request::Keep { line: format!("keep {versions}"), versions })
}

/// Decodes the answer, without its LF, to a request of the client of this number. Anything else is [`Error::FalseAnswer`].
pub(crate) fn read_answer(request: &Request, number: u16, line: &str) -> Result<Answer, Error> {
    read_refusal(request, line).unwrap_or_else(|| {
        let answer = match request {
            Request::Hello { is_any, .. } => {
                line.strip_prefix("ready ").and_then(|rest| if *is_any { read_ready_as(rest) } else { read_ready(rest) })
            }
            Request::Info => line.strip_prefix("info ").and_then(read_info).map(Answer::Info),
            Request::Put { .. } => line.strip_prefix("done ").filter(|stamp| is_stamp_of(stamp, number)).map(|stamp| Answer::Done(stamp.into())),
            Request::Get { line: asked } => read_items(line, asked),
            Request::Find { tag, .. } => read_list(line, tag),
            Request::Keep { versions, .. } => Some(Answer::Kept(*versions)).filter(|_| line.strip_prefix("keep ") == Some(&versions.to_string())),
            Request::Bye => Some(Answer::Bye).filter(|_| line == "bye"),
        };
        answer.ok_or_else(|| false_answer(request.line(), line))
    })
}

pub(crate) fn false_answer(asked: &str, line: &str) -> Error {
    Error::FalseAnswer(format!("{:?} is no answer of ramp to {:?}: trust nothing that comes from there", begin(line), begin(asked)))
}

/// Decodes `refused`, `ended` and `restart`, if the request may be answered so.
fn read_refusal(request: &Request, line: &str) -> Option<Result<Answer, Error>> {
    let (first, rest) = line.split_once(' ')?;
    let number = || read_number(rest, 255).and_then(|number| Refusal::of(number as u8));
    match (first, request) {
        // A partition can refuse a COMMIT of the write so, after others have committed it.
        ("refused", Request::Put { .. }) if matches!(rest, "10" | "25" | "30") => {
            Some(Err(Error::OutcomeUnknown(format!("the write was refused with {rest}, which leaves open whether it was done"))))
        }
        ("refused", _) => number().map(|refusal| Err(Error::Refused { refusal, has_ended: false })),
        ("ended", _) => number().filter(|refusal| can_end(request, refusal)).map(|refusal| Err(Error::Refused { refusal, has_ended: true })),
        ("restart", Request::Get { .. } | Request::Find { .. }) => {
            let (key, floor) = rest.split_once(' ').filter(|(key, floor)| KEY.allows(key) && is_stamp(floor))?;
            match request {
                Request::Get { line: asked } if !keys_of(asked).any(|asked| asked == key) => None,
                _ => Some(Err(Error::Restarted { key: key.into(), floor: floor.into() })),
            }
        }
        _ => None,
    }
}

/// Whether the session can't be used after this answer.
pub(crate) fn ends_session(answer: &str) -> bool {
    let number = answer.strip_prefix("refused ").or_else(|| answer.strip_prefix("ended ")).and_then(|rest| read_number(rest, 255));
    answer == "bye" || number.and_then(|number| Refusal::of(number as u8)).map_or(false, |refusal| refusal.ends_session())
}

/// Whether the transaction of this request can fail so.
fn can_end(request: &Request, refusal: &Refusal) -> bool {
    match request {
        Request::Put { .. } => matches!(refusal.name, "FullSlots" | "FullItems" | "Clash" | "Torn" | "Discarded"),
        Request::Get { .. } => refusal.name == "Torn",
        Request::Find { .. } => matches!(refusal.name, "Torn" | "TooMany"),
        _ => false,
    }
}

fn read_ready(rest: &str) -> Option<Answer> {
    read_number(rest, MOST_COUNTER).map(Answer::Ready)
}

fn read_ready_as(rest: &str) -> Option<Answer> {
    let (counter, client) = rest.split_once(" as ")?;
    let client = read_number(client, u64::from(u16::MAX)).filter(|client| *client > 0)?;
    Some(Answer::ReadyAs(read_number(counter, MOST_COUNTER)?, client as u16))
}

/// Decodes what a server tells of itself. A later version may tell more behind that.
fn read_info(rest: &str) -> Option<ServerInfo> {
    let mut words = rest.split(' ');
    let version = words.next()?.strip_prefix("version=").filter(|version| !version.is_empty())?;
    let store = read_number(words.next()?.strip_prefix("store=")?, u64::MAX)?;
    let newest = match words.next()? {
        "newest=yes" => true,
        "newest=no" => false,
        _ => return None,
    };
    Some(ServerInfo { version: version.into(), store, newest })
}

/// Decodes items, which have to be of the keys of this `get` line, in its order.
fn read_items(line: &str, asked: &str) -> Option<Answer> {
    let (mut items, mut words) = (Vec::with_capacity(MOST_ITEMS), line.strip_prefix("read ")?.split(' '));
    for key in keys_of(asked) {
        items.push(read_item(words.next()?).filter(|item| item.key == key)?);
    }
    Some(Answer::Items(items)).filter(|_| words.next().is_none())
}

/// Decodes a list of at most 16 items, which all have to carry this tag.
fn read_list(line: &str, tag: &str) -> Option<Answer> {
    let words = line.strip_prefix("list")?;
    let items: Vec<Item> = match words.strip_prefix(' ') {
        Some(words) => words.split(' ').map(read_item).collect::<Option<_>>()?,
        None if words.is_empty() => Vec::new(),
        None => return None,
    };
    let is_asked = items.iter().all(|item| item.tag == tag && item.value.is_some());
    let is_twice = |(place, item): (usize, &Item)| items[..place].iter().any(|other| other.key == item.key);
    let fits = items.len() <= MOST_ITEMS && is_asked && !items.iter().enumerate().any(is_twice);
    Some(Answer::Items(items)).filter(|_| fits)
}

/// `KEY@STAMP=VALUE`, `KEY@STAMP#TAG=VALUE`, or `KEY@0.0` of an item that nobody wrote.
fn read_item(word: &str) -> Option<Item> {
    let (head, value) = word.split_once('=').map_or((word, None), |(head, value)| (head, Some(value)));
    let (key, stamp) = head.split_once('@')?;
    let (stamp, tag) = stamp.split_once('#').map_or((stamp, None), |(stamp, tag)| (stamp, Some(tag)));
    let is_initial = stamp == "0.0" && value.is_none() && tag.is_none();
    let is_written = is_stamp(stamp) && value.map_or(false, |value| VALUE.allows(value)) && tag.map_or(true, |tag| TAG.allows(tag));
    if !KEY.allows(key) || !(is_initial || is_written) {
        return None;
    }
    Some(Item { key: key.into(), value: value.map(Into::into), tag: tag.unwrap_or("").into(), stamp: stamp.into() })
}

/// A decimal number without a sign or a leading zero.
fn read_number(text: &str, most: u64) -> Option<u64> {
    let is_plain = text.bytes().all(|byte| byte.is_ascii_digit()) && (text.len() == 1 || !text.starts_with('0'));
    text.parse().ok().filter(|number| is_plain && *number <= most)
}

/// The client number of a write's stamp.
fn client_of(stamp: &str) -> Option<u16> {
    let (counter, client) = stamp.split_once('.')?;
    let client = read_number(client, u64::from(u16::MAX))?;
    let counter = read_number(counter, MOST_COUNTER)?;
    Some(client as u16).filter(|_| counter > 0 && client > 0)
}

fn is_stamp(text: &str) -> bool {
    client_of(text).is_some()
}

fn is_stamp_of(text: &str, number: u16) -> bool {
    client_of(text) == Some(number)
}

/// The greatest counter in an answer.
pub(crate) fn counter_of(answer: &Answer) -> u64 {
    let counter = |stamp: &str| stamp.split_once('.').and_then(|(counter, _)| counter.parse().ok()).unwrap_or(0);
    match answer {
        Answer::Ready(counter) | Answer::ReadyAs(counter, _) => *counter,
        Answer::Done(stamp) => counter(stamp),
        Answer::Items(items) => items.iter().map(|item| counter(&item.stamp)).max().unwrap_or(0),
        Answer::Kept(_) | Answer::Info(_) | Answer::Bye => 0,
    }
}
