//! The refusals of the store, as docs/FORMATS.md has them.

use crate::error::Group;
use std::fmt;

/// A refusal: its number, its name, why it comes, and what to do.
#[derive(Clone, Copy, Debug, PartialEq, Eq)]
pub struct Refusal {
    pub number: u8,
    pub group: Group,
    pub name: &'static str,
    pub cause: &'static str,
    pub cure: &'static str,
}

const fn refusal(number: u8, group: Group, name: &'static str, cause: &'static str, cure: &'static str) -> Refusal {
    Refusal { number, group, name, cause, cure }
}

/// Each refusal that a line of a session can be answered.
pub const REFUSALS: [Refusal; 20] = [
    refusal(10, Group::WrongUse, "NoTenant", "the server has no tenant of this name", "name one of the tenants that the server was started with"),
    refusal(11, Group::WrongUse, "NoSession", "this connection has said no hello", "say hello first"),
    refusal(
        12,
        Group::TryAgain,
        "Busy",
        "the client has a session on another connection, or this connection has one already",
        "take another client number, or end the other session",
    ),
    refusal(13, Group::WrongUse, "BadItems", "no item, more than 16, or one key twice", "give 1 to 16 different keys"),
    refusal(
        14,
        Group::Room,
        "StampsUsed",
        "the client's counter is at its end: it began there, or read an item that did",
        "take a client that has read no such item; docs/OPERATING.md says more",
    ),
    refusal(
        15,
        Group::Room,
        "FullSlots",
        "a partition keeps as many versions of the tenant as it has slots",
        "each item keeps `keep` versions: start the server with --slots of at least (keep + 1) times the items of a partition, or lower keep",
    ),
    refusal(
        16,
        Group::Room,
        "FullItems",
        "an item is new, and a partition has as many items of the tenant as it has room for",
        "start the server with more --items: an item is never freed",
    ),
    refusal(19, Group::TryAgain, "Stopped", "the session was stopped, as a partition refused one of its calls", "connect again"),
    refusal(20, Group::TryAgain, "Clash", "another record of this key and stamp is kept", "write again"),
    refusal(22, Group::TrustNothing, "Torn", "a reply was inconsistent", "trust no answer of this server, and keep its verdict"),
    refusal(23, Group::WrongUse, "TooMany", "a search found more than 16 items", "search for a narrower tag"),
    refusal(
        24,
        Group::Room,
        "ClientsFull",
        "the client is new, and the tenant has as many as it may",
        "take a number that was used before, or start the server with more --clients",
    ),
    refusal(25, Group::TryAgain, "Late", "a partition was handed a call of the session after a later one", "connect again"),
    refusal(26, Group::Room, "RowsUsed", "the tenant has sent as many messages as it may", "start the server anew"),
    refusal(
        27,
        Group::Room,
        "FullMarks",
        "as many clients have a mark at a partition as the tenant may have",
        "start the server with more --clients",
    ),
    refusal(28, Group::TryAgain, "Discarded", "a stamp of this client was discarded that is no less", "write again"),
    refusal(30, Group::Room, "OutOfMemory", "the server found no memory", "give the server more memory, or less to keep"),
    refusal(40, Group::WrongUse, "BadLine", "the line fits none of the forms", "see docs/FORMATS.md"),
    refusal(41, Group::WrongUse, "LineTooLong", "4096 bytes stood without a line's end", "send shorter lines; this connection is closed"),
    refusal(42, Group::WrongUse, "Cut", "the input ended inside a line", "end the last line; this connection is closed"),
];

impl Refusal {
    /// The refusal of this number, where there is one.
    pub fn of(number: u8) -> Option<Refusal> {
        REFUSALS.into_iter().find(|refusal| refusal.number == number)
    }

    /// Whether the session can't be used after it.
    pub(crate) fn ends_session(&self) -> bool {
        matches!(self.name, "NoTenant" | "NoSession" | "Stopped" | "Torn" | "Late" | "OutOfMemory" | "LineTooLong" | "Cut")
    }

    /// Whether a client repeats the call by itself: the call was not done, and a new stamp or a new session may help.
    pub fn is_sent_again(&self) -> bool {
        matches!(self.name, "Stopped" | "Clash" | "Discarded")
    }
}

impl fmt::Display for Refusal {
    fn fmt(&self, out: &mut fmt::Formatter<'_>) -> fmt::Result {
        write!(out, "{} {}: {}: {}", self.number, self.name, self.cause, self.cure)
    }
}
