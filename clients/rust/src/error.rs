//! Why a call has no answer.

use crate::refusal::Refusal;
use std::fmt;

/// Why a call failed. [`Error::group`] says what a program can do about it.
#[derive(Clone, Debug, PartialEq, Eq)]
#[non_exhaustive]
pub enum Error {
    /// No connection could be made; the text says why.
    CannotConnect(String),
    /// The connection was lost before the answer came. The call changed nothing.
    ConnectionLost(String),
    /// No answer came before the timeout, and the connection was closed. The call changed nothing.
    NoAnswer(String),
    /// A write was sent, and its answer is missing, or is a refusal that leaves the outcome open (10, 25, 30). The write is done or will be, as
    /// a whole, or it never will be. It is not sent again, since a second write would have another stamp. A `get` of its keys shows the
    /// outcome: a stamp contains the client number.
    OutcomeUnknown(String),
    /// The store refused the call, which changed nothing. With `has_ended` the transaction began and failed; a write is then never read.
    Refused { refusal: Refusal, has_ended: bool },
    /// A read was repeated [`MOST_RESTARTS`](crate::MOST_RESTARTS) times, and each time a version that it needed was collected.
    Restarted { key: String, floor: String },
    /// All sessions of the pool were in use until the timeout.
    PoolInUse { size: usize },
    /// An argument that can't be sent, or a value that the codec can't decode. Nothing was sent.
    Invalid(Invalid),
    /// The keys of a record were not written by one transaction: something else writes one of them.
    NotWhole(String),
    /// The server sent something that is not an answer to the request. The connection was closed.
    FalseAnswer(String),
}

/// What a program can do about an error.
#[derive(Clone, Copy, Debug, PartialEq, Eq)]
pub enum Group {
    /// The call can't succeed as it is: correct the program.
    WrongUse,
    /// The server has no room: give it more, or use less.
    Room,
    /// Nothing was changed. The same call may succeed later.
    TryAgain,
    /// There is no connection, and nothing was changed. The same call may succeed once the server is reachable.
    Lost,
    /// The outcome of a write is unknown: read its keys.
    Unknown,
    /// An answer was wrong: trust no answer of this server.
    TrustNothing,
}

/// An argument that can't be sent, and why.
#[derive(Clone, Debug, PartialEq, Eq)]
pub struct Invalid {
    pub part: Part,
    /// The first 64 bytes of what was given.
    pub given: String,
    /// The key that the value or tag belongs to, or empty.
    pub key: String,
    pub fault: Fault,
}

/// What is wrong with an argument.
#[derive(Clone, Debug, PartialEq, Eq)]
#[non_exhaustive]
pub enum Fault {
    /// Its length in bytes is too small or too great.
    Length(usize),
    /// The first byte that is not allowed, and its offset.
    Byte { at: usize, byte: u8 },
    /// Something else, as text.
    Other(String),
}

/// Which kind of argument is wrong.
#[derive(Clone, Copy, Debug, PartialEq, Eq)]
#[non_exhaustive]
pub enum Part {
    Items,
    Key,
    Tag,
    Value,
    Tenant,
    Number,
    Url,
    Line,
    Record,
}

impl Error {
    /// The group that the error belongs to.
    pub fn group(&self) -> Group {
        match self {
            Error::CannotConnect(_) | Error::ConnectionLost(_) | Error::NoAnswer(_) => Group::Lost,
            Error::Restarted { .. } | Error::PoolInUse { .. } => Group::TryAgain,
            Error::OutcomeUnknown(_) => Group::Unknown,
            Error::Refused { refusal, .. } => refusal.group,
            Error::Invalid(_) | Error::NotWhole(_) => Group::WrongUse,
            Error::FalseAnswer(_) => Group::TrustNothing,
        }
    }

    /// Whether the connection can't be used any more.
    pub(crate) fn ends_connection(&self) -> bool {
        matches!(self.group(), Group::Lost | Group::Unknown) || matches!(self, Error::FalseAnswer(_))
    }
}

impl Part {
    fn name(self) -> &'static str {
        match self {
            Part::Items => "items",
            Part::Key => "key",
            Part::Tag => "tag",
            Part::Value => "value",
            Part::Tenant => "tenant's name",
            Part::Number => "number",
            Part::Url => "URL",
            Part::Line => "line",
            Part::Record => "record",
        }
    }
}

impl fmt::Display for Invalid {
    fn fmt(&self, out: &mut fmt::Formatter<'_>) -> fmt::Result {
        let Invalid { part, given, key, fault } = self;
        write!(out, "the {}", part.name())?;
        if !key.is_empty() {
            write!(out, " of {key}")?;
        }
        match fault {
            Fault::Length(length) => write!(out, " {given:?} has {length} bytes")?,
            Fault::Byte { at, byte } => write!(out, " {given:?} has the byte 0x{byte:02x} at {at}")?,
            Fault::Other(why) => write!(out, " {given:?} {why}")?,
        }
        write!(out, ", and takes {}", part.takes())
    }
}

impl fmt::Display for Error {
    fn fmt(&self, out: &mut fmt::Formatter<'_>) -> fmt::Result {
        match self {
            Error::CannotConnect(why) | Error::ConnectionLost(why) | Error::NoAnswer(why) | Error::NotWhole(why) | Error::FalseAnswer(why) => {
                out.write_str(why)
            }
            Error::OutcomeUnknown(why) => write!(out, "{why}: the write is done or not, and a get of its keys shows which"),
            Error::PoolInUse { size } => write!(out, "all {size} clients of the pool are in use: give it more, or wait longer"),
            Error::Invalid(invalid) => invalid.fmt(out),
            Error::Refused { refusal, has_ended } => write!(out, "{} {refusal}", if *has_ended { "ended" } else { "refused" }),
            Error::Restarted { key, floor } => {
                write!(out, "the versions of {key} below {floor} were collected while it was read; a greater keep helps")
            }
        }
    }
}

impl std::error::Error for Error {}
