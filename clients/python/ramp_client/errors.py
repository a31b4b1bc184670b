"""What a call raises. Each error belongs to one group, which says what to do about it.

| group | what it means | what to do |
|---|---|---|
| `WrongUse` | the call can't be answered as it stands | mend the program |
| `NoRoom` | the server is full | give it more room, or use less |
| `TryAgain` | not now | call again, after a pause |
| `TrustNothing` | an answer was false | trust no answer of this server |
| `Lost` | there is no connection, or it broke off; no write was sent on it | start the server, or call again |
| `OutcomeUnknown` | a write was sent, and it is not known whether it was done | read the items, and decide |"""
from __future__ import annotations

from typing import Optional

from .limits import LINE_LIMIT, MOST_ITEMS


class RampError(Exception):
    """The base of all errors of this package."""


class WrongUse(RampError):
    """The call can't be answered as it stands: the program has to be mended."""


class NoRoom(RampError):
    """The server has no room for it."""


class TryAgain(RampError):
    """It failed for now. The same call may do well after a pause."""


class TrustNothing(RampError):
    """An answer was false. Trust no answer of this server, and keep its verdict."""


class Lost(RampError):
    """There is no connection, or it broke off. No write was in flight on it: such a write raises `OutcomeUnknown`."""


class OutcomeUnknown(RampError):
    """A write was sent, and its answer is missing, or does not say whether it was done. All of it is done, or will be, or none of it. The
    client never sends it again.

    `why` is what happened: a `ConnectionLost`, a `NoAnswer`, a `FalseAnswer`, or the `Refused` of 10, 25 or 30.
    `client` is the number under which it was sent. A read of its items shows whether it was done, if its values are not those before."""

    def __init__(self, why: RampError, client: int):
        self.why, self.client = why, client
        super().__init__(why, client)

    def __str__(self) -> str:
        return f"the write of client {self.client} is done or not: {self.why}"


class Invalid(WrongUse, ValueError):
    """A key, tag, value, address or number that can't be sent. Nothing was sent.

    `kind` says of what it is, `key` which item's; `length` where that is wrong; `offset` and `byte` where a byte may not stand there."""

    def __init__(self, text: str, kind: str = "", key: Optional[str] = None, length: Optional[int] = None, offset: Optional[int] = None, byte: Optional[int] = None):
        self.text, self.kind, self.key, self.length, self.offset, self.byte = text, kind, key, length, offset, byte
        super().__init__(text, kind, key, length, offset, byte)

    def __str__(self) -> str:
        return self.text


class NotWhole(WrongUse):
    """The keys of a record were not written by one write: something else writes one of them."""


class Closed(WrongUse):
    """The client or the pool was closed."""


class Restarted(TryAgain):
    """A read was repeated so often, and each time a version that it needed was collected. A greater `keep` helps."""

    def __init__(self, key: str, floor: str, times: int):
        self.key, self.floor, self.times = key, floor, times
        super().__init__(key, floor, times)

    def __str__(self) -> str:
        return f"the versions of {self.key} below {self.floor} were collected while it was read, {self.times} times; a greater keep helps"


class InUse(TryAgain, TimeoutError):
    """All clients of a pool, or the one client, were in use for as long as the call may wait."""


class FalseAnswer(TrustNothing):
    """This is no answer to the line that was sent: the server is not `ramp serve`, or is not sound. The connection is closed."""


class CannotConnect(Lost):
    """No connection was made; the text says why."""


class ConnectionLost(Lost):
    """The connection ended before the answer."""


class NoAnswer(ConnectionLost, TimeoutError):
    """No answer came in time. The connection is closed, so that a late answer is never taken for that of another call."""


class NewStore(Lost):
    """The connection was opened again, and the store behind it is another one: what was written to the one before is gone. It is raised where
    `new_store="raise"` asks for it, before the call is sent. The next call goes to the new store."""


class Refused(RampError):
    """The store refused a line, or ended its transaction: `number`, `name`, `cause` and `cure` say why. Its class is that of its group, too.

    A refused line changes nothing; a write that may be done nevertheless raises `OutcomeUnknown`. With `has_ended` the transaction began
    and ended so; a write then is never read."""

    def __init__(self, number: int, has_ended: bool = False):
        self.number, self.has_ended = number, has_ended
        self.name, self.cause, self.cure, _ = REFUSALS[number]
        super().__init__(number, has_ended)

    def __str__(self) -> str:
        return f"{'ended' if self.has_ended else 'refused'} {self.number} {self.name}: {self.cause}: {self.cure}"


class RefusedUse(Refused, WrongUse):
    """Refusals 10, 11, 13, 23 and 40 to 42."""


class RefusedRoom(Refused, NoRoom):
    """Refusals 14 to 16, 24, 26, 27 and 30."""


class RefusedNow(Refused, TryAgain):
    """Refusals 12, 19, 20, 25 and 28."""


class Torn(Refused, TrustNothing):
    """Refusal 22."""


REFUSALS: dict[int, tuple[str, str, str, type[Refused]]] = {
    10: ("NoTenant", "the server has no tenant of this name", "name one of the tenants that the server was started with", RefusedUse),
    11: ("NoSession", "this connection has said no hello", "say hello first", RefusedUse),
    12: ("Busy", "the client has a session on another connection, or this connection has one already", "take another client number, or end the other session", RefusedNow),
    13: ("BadItems", f"no item, more than {MOST_ITEMS}, or one key twice", f"give 1 to {MOST_ITEMS} different keys", RefusedUse),
    14: ("StampsUsed", "the client's counter is at its end: it began there, or read an item that did",
         "take a client that has read no such item; docs/OPERATING.md says more", RefusedRoom),
    15: ("FullSlots", "a partition keeps as many versions of the tenant as it has slots",
         "each item keeps `keep` versions: start the server with --slots of at least (keep + 1) times the items of a partition, or lower keep", RefusedRoom),
    16: ("FullItems", "an item is new, and a partition has as many items of the tenant as it has room for", "start the server with more --items: an item is never freed", RefusedRoom),
    19: ("Stopped", "the session was stopped, as a partition refused one of its calls", "connect again", RefusedNow),
    20: ("Clash", "another record of this key and stamp is kept", "write again; where it lasts, the server has a fault", RefusedNow),
    22: ("Torn", "a reply was inconsistent", "trust no answer of this server, and keep its verdict", Torn),
    23: ("TooMany", f"a search found more than {MOST_ITEMS} items", "search for a narrower tag", RefusedUse),
    24: ("ClientsFull", "the number is new, and the tenant has had as many numbers as it may", "end a session whose number can be used again, or start the server with more --clients", RefusedRoom),
    25: ("Late", "a partition was handed a call of the session after a later one", "connect again", RefusedNow),
    26: ("RowsUsed", "the tenant has sent as many messages as it may", "start the server anew", RefusedRoom),
    27: ("FullMarks", "as many clients have a mark at a partition as the tenant may have", "start the server with more --clients", RefusedRoom),
    28: ("Discarded", "a stamp of this client was discarded that is no less", "write again; where it lasts, the server has a fault", RefusedNow),
    30: ("OutOfMemory", "the server found no memory", "end sessions; give the server more memory, or less to keep", RefusedRoom),
    40: ("BadLine", "the line fits none of the forms", "see help, or docs/FORMATS.md", RefusedUse),
    41: ("LineTooLong", f"{LINE_LIMIT} bytes stood without a line's end", "send shorter lines; this connection is closed", RefusedUse),
    42: ("Cut", "the input ended inside a line", "end the last line; this connection is closed", RefusedUse),
}
"""Of each number that a session can be refused by: its name, its cause, what to do, and its class."""


MAY_BE_DONE = frozenset((10, 25, 30))
"""Refusals that leave open whether a write was done: a partition can refuse one of its COMMITs so, after others have committed."""


def refusal(number: int, has_ended: bool = False) -> Refused:
    """The error of this number, in the class of its group."""
    return REFUSALS[number][3](number, has_ended)
