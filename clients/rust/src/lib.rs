#![doc = include_str!("../README.md")]
#![forbid(unsafe_code)]
#![warn(missing_debug_implementations)]

mod client;
pub mod codec;
mod config;
mod error;
mod line;
mod link;
mod numbers;
mod pipeline;
mod pool;
mod refusal;
mod retry;

pub use client::{Client, MOST_RESTARTS};
pub use config::{Config, TIMEOUT};
pub use error::{Error, Fault, Group, Invalid, Part};
pub use line::check;
pub use pipeline::{Pipeline, MOST_UNDER_WAY};
pub use pool::{Pool, Taken};
pub use refusal::{Refusal, REFUSALS};
pub use retry::Retry;

/// An item to be written.
#[derive(Clone, Copy, Debug, PartialEq, Eq)]
pub struct Write<'a> {
    /// 1 to 32 bytes of `a-z 0-9 _ . / -`.
    pub key: &'a str,
    /// Up to 16 bytes of the same; empty for none.
    pub tag: &'a str,
    /// Up to 128 bytes from `!` to `~`. [`codec`] encodes other text and bytes.
    pub value: &'a str,
}

impl<'a> Write<'a> {
    /// An item without a tag.
    pub fn new(key: &'a str, value: &'a str) -> Self {
        Write { key, tag: "", value }
    }

    /// The same item with this tag.
    pub fn tagged(self, tag: &'a str) -> Self {
        Write { tag, ..self }
    }
}

impl<'a> From<(&'a str, &'a str)> for Write<'a> {
    fn from((key, value): (&'a str, &'a str)) -> Self {
        Write::new(key, value)
    }
}

impl<'a> From<&'a (String, String)> for Write<'a> {
    fn from((key, value): &'a (String, String)) -> Self {
        Write::new(key, value)
    }
}

impl<'a> From<&Write<'a>> for Write<'a> {
    fn from(write: &Write<'a>) -> Self {
        *write
    }
}

/// Gives this tag to each of these items that has none.
pub fn tagged<'a, I>(tag: &'a str, items: I) -> impl Iterator<Item = Write<'a>>
where
    I: IntoIterator,
    I::Item: Into<Write<'a>>,
{
    items.into_iter().map(Into::into).map(move |write: Write<'a>| if write.tag.is_empty() { write.tagged(tag) } else { write })
}

/// An item that was read.
#[derive(Clone, Debug, PartialEq, Eq)]
pub struct Item {
    pub key: String,
    /// `None` if the item was never written.
    pub value: Option<String>,
    /// Empty where it has none.
    pub tag: String,
    /// `COUNTER.CLIENT` of its write, or `0.0` if it was never written.
    pub stamp: String,
}

/// What a server tells of itself.
#[derive(Clone, Debug, PartialEq, Eq)]
pub struct ServerInfo {
    pub version: String,
    /// The number of its store, which is another one each time that it starts.
    pub store: u64,
    /// Whether each put is the newest without a read before it.
    pub newest: bool,
}

/// The answer to a call.
#[derive(Clone, Debug, PartialEq, Eq)]
pub enum Answer {
    /// The session is open, with the client's counter.
    Ready(u64),
    /// The session is open, with the client's counter, and under this number, which the server gave.
    ReadyAs(u64, u16),
    /// What the server is.
    Info(ServerInfo),
    /// The write is done, with its stamp.
    Done(String),
    /// The items that were read or found.
    Items(Vec<Item>),
    /// How many versions of an item collections keep from now on.
    Kept(u8),
    /// The session has ended.
    Bye,
}
