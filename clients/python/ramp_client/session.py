"""What a client does, without doing it: a session is driven by generators that yield what a connection has to do.

So the client of threads and that of asyncio are one; each brings its own connection (`wire.py`, `async_wire.py`) and drives the same steps."""
from __future__ import annotations

import logging
import os
import random
import threading
from typing import Generator, Iterator, NamedTuple, Optional, Sequence, TypeVar, Union

from . import lines
from .errors import MAY_BE_DONE, CannotConnect, ConnectionLost, FalseAnswer, Invalid, NewStore, NoAnswer, OutcomeUnknown, RampError, Refused, Restarted
from .lines import ANY, Call, ServerInfo
from .policy import RAISE, SERVER, Options

log = logging.getLogger("ramp_client")

MOST_IN_FLIGHT = 16
"""How many calls of a pipeline are sent before their answers are read: what both sides may then send fits the socket buffers."""

MOST_NUMBER = 1024
"""A client of an older server chooses its number from 1 to this: as many as a tenant can have, so that trying them all finds every number that was ever used."""

BAD_LINE = 40
"""By which number an older server refuses a line that it does not know."""

BATCHES = (4, 60, 1024)
"""How many hellos are sent in one piece, the first time, the second time and so on. The server accepts the first that it can."""


class Connect(NamedTuple):
    """Open a connection to the address of these options."""

    options: Options


class Exchange:
    """Write these bytes, and read `count` lines into `answers`, without their LFs. What came before a fault stays there."""

    __slots__ = ("data", "count", "answers")

    def __init__(self, data: bytes, count: int, answers: list[str]):
        self.data, self.count, self.answers = data, count, answers


class Pause(NamedTuple):
    """Wait so many seconds."""

    seconds: float


class Drop(NamedTuple):
    """Close the connection, if there is one."""


Action = Union[Connect, Exchange, Pause, Drop]
T = TypeVar("T")
Steps = Generator[Action, None, T]


class Stale(ConnectionError):
    """The connection was closed before this exchange: nothing of it was sent."""


class Ended(ConnectionError):
    """The connection was closed before the last answer."""


class Overlong(ConnectionError):
    """More came than was asked for: a line without an end, or an answer to no line."""


class Late(TimeoutError):
    """A connection or an answer did not come in time."""


class Numbers:
    """The client numbers that this process has used and that are free again. A tenant has only so many, so they are used again."""

    def __init__(self) -> None:
        self._lock = threading.Lock()
        self._free: dict[tuple[str, int, str], list[int]] = {}

    def take(self, options: Options) -> Optional[int]:
        with self._lock:
            free = self._free.get((options.host, options.port, options.tenant))
            return free.pop() if free else None

    def give_back(self, options: Options, number: int) -> None:
        with self._lock:
            free = self._free.setdefault((options.host, options.port, options.tenant), [])
            if number not in free and len(free) < MOST_NUMBER:
                free.append(number)


NUMBERS = Numbers()
if hasattr(os, "register_at_fork"):
    # Another thread may hold the lock at a fork, and none of the child would give it back.
    os.register_at_fork(after_in_child=NUMBERS.__init__)  # type: ignore[misc]


def batches(first: Optional[int], is_drawn: bool = True) -> Iterator[list[int]]:
    """Numbers to say hello with: this one first, then all others in batches of growing size, in random order or from the greatest down."""
    wanted = random.sample(range(1, MOST_NUMBER + 1), MOST_NUMBER) if is_drawn else list(range(MOST_NUMBER, 0, -1))
    if first:
        wanted = [first, *(number for number in wanted if number != first)]
    begin = 0
    for size in BATCHES:
        yield wanted[begin:begin + size]
        begin += size


class Session:
    """A client's session, and what it knows of its connection. `number` is 0 where none is open. `counter` is the greatest that it wrote or read, or
    that the server gave it. `server` is what the server told of itself at the last connection, None where it is an older one that does not. `opened`
    counts its connections, and `new_stores` those at which the store was another one than before. Where `draws` is not set, it tries the numbers of an
    older server from the greatest down, so that programs that run one after the other use up few of them."""

    def __init__(self, options: Options):
        self.options = options
        self.number = 0
        self.counter = 0
        self.opened = 0
        self.new_stores = 0
        self.draws = True
        self.server: Optional[ServerInfo] = None
        self._is_older = False
        self._last: Optional[int] = options.client
        self._is_connected = False
        self._counters: dict[int, int] = {}

    def lose(self) -> None:
        """The connection is gone, or is about to be."""
        if self.number:
            self._counters[self.number] = self.counter
        if self.number and self.options.client is None:
            self._last = self.number
        self.number = 0
        self._is_connected = False

    def give_back(self) -> None:
        """The number may be drawn again by other clients of this process."""
        self.lose()
        if self._last and self.options.client is None:
            NUMBERS.give_back(self.options, self._last)
            self._last = None

    def open(self) -> Steps[None]:
        """Opens the session, tried again as the policy has it."""
        yield from self.run([])

    def close(self) -> Steps[None]:
        """Ends the session. The client's number is free again afterwards, unless the connection was lost."""
        answers: list[str] = []
        try:
            if self.number:
                yield Exchange(b"bye\n", 1, answers)
        except OSError:
            pass
        finally:
            self.give_back()
        yield Drop()

    def run(self, calls: Sequence[Call]) -> Steps[None]:
        """Settles each call: afterwards it has a value or an error. Where there is no call, an error of the session itself is raised."""
        retry = self.options.retry
        left = list(calls)
        attempt = 1
        while left or not (calls or self.number):
            failure = yield from self._try(left)
            left = [call for call in left if not call.is_settled]
            if failure is None:
                continue
            if attempt >= retry.attempts or not retry.covers(failure):
                for call in left:
                    call.fail(failure)
                if not calls:
                    raise failure
                return
            attempt += 1
            pause = retry.pause_before(attempt)
            log.info("%s: attempt %d of %d in %.3f s, after: %s", self.options.where, attempt, retry.attempts, pause, failure)
            yield Pause(pause)

    def _try(self, calls: Sequence[Call]) -> Steps[Optional[RampError]]:
        """Asks for these calls once, and returns why those that are not settled then are not; None where they have to begin anew."""
        failure: Optional[RampError] = None
        try:
            if not self.number:
                yield from self._open()
            known: set[str] = set()
            for begin in range(0, len(calls), MOST_IN_FLIGHT):
                failure = (yield from self._ask(calls[begin:begin + MOST_IN_FLIGHT], known)) or failure
                if not self.number:
                    break
        except RampError as error:
            failure = error
        return failure

    def _open(self) -> Steps[None]:
        options = self.options
        if not self._is_connected:
            yield from self._connect()
        try:
            yield from self._hello()
        except OSError as error:
            yield from self._drop()
            if isinstance(error, Late):
                raise NoAnswer(f"{options.where} gave no answer to hello in {options.timeout} s: has the server room for a further session (--sessions)?") from None
            raise self._told(error) from None
        except (FalseAnswer, Invalid):
            yield from self._drop()
            raise

    def _connect(self) -> Steps[None]:
        options = self.options
        try:
            yield Connect(options)
        except Late:
            raise NoAnswer(f"no connection to {options.where} in {options.timeout} s") from None
        except ConnectionRefusedError:
            raise CannotConnect(f"nobody listens at {options.where}: is `rampd --port {options.port} {options.tenant}` running there, "
                                "and has it room for a further connection?") from None
        except OSError as error:
            raise CannotConnect(f"no connection to {options.where}: {error}") from None
        self._is_connected = True

    def _hello(self) -> Steps[None]:
        """Opens the session as this client, or as one whose number the server gives, or else as one that no session has."""
        options = self.options
        refused: Optional[Refused] = None
        if options.client is None and not self._is_older:
            refused = yield from self._say([self._last, None] if self._last else [None], True)
            self._is_older = refused is not None and refused.number == BAD_LINE
            if self._is_older and not self._is_connected:
                yield from self._connect()
        if self._is_older and self._last is None:
            self._last = NUMBERS.take(options)
        for batch in [[options.client]] if options.client else batches(self._last, self.draws) if self._is_older else ():
            refused = (yield from self._say(batch, not self._is_older)) or refused
            if self.number:
                return
        if not self.number:
            assert refused is not None
            raise refused

    def _say(self, numbers: Sequence[Optional[int]], asks_info: bool) -> Steps[Optional[Refused]]:
        """Says hello with these numbers, in one piece, and then asks the server what it is. The session is open if one was free; else it returns why not."""
        hellos = [lines.hello(self.options.tenant, number) for number in numbers]
        asked = [*hellos, lines.info()] if asks_info else hellos
        answers: list[str] = []
        try:
            yield Exchange("".join(call.line + "\n" for call in asked).encode(), len(asked), answers)
        except ConnectionError:
            # An older server that is strict ends at a line that it does not know.
            if not (None in numbers and answers[-1:] == [f"refused {BAD_LINE}"]):
                raise
            yield from self._drop()
        taken: Optional[tuple[int, int]] = None
        refused: Optional[Refused] = None
        for call, answer in zip(hellos, answers):
            try:
                ready = call.read(answer)
            except Refused as error:
                if error.number not in ((12, 24, BAD_LINE) if call.keys == [ANY] else (12, 24)) or (taken and error.number == 24):
                    raise error if not taken else call.false(answer)
                refused = error if refused is None or refused.number == 12 else refused
            else:
                if taken:
                    raise call.false(answer)
                taken = ready
        if taken:
            self._begin(*taken, self._informed(asked[-1], answers[-1]) if asks_info else None)
            return None
        return refused

    def _informed(self, call: Call, answer: str) -> Optional[ServerInfo]:
        """What the server reports of itself, if it knows the line."""
        options = self.options
        try:
            server: ServerInfo = call.read(answer)
        except Refused:
            return None
        if options.newest == SERVER and not server.newest:
            raise Invalid(f"newest={SERVER}: the server at {options.where} was started without --newest, so its puts are the newest only where the client reads first", "newest")
        return server

    def _begin(self, counter: int, number: int, server: Optional[ServerInfo]) -> None:
        """The session is open. Where the server does not tell which store it has: a store never lowers a client's counter, so one below what this client had
        shows that the store is a new one."""
        before, self.server = self.server, server
        had = self._counters.get(number, 0)
        if before or server:
            is_new = self.opened > 0 and (server and server.store) != (before and before.store)
            why = f"its number is {server.store if server else 'not told'}, and was {before.store if before else 'not told'}"
        else:
            is_new = counter < had
            why = f"the counter of client {number} is {counter}, and was {had}"
        self.number, self.counter = number, counter
        self.opened += 1
        if is_new:
            self.new_stores += 1
            self._counters.clear()
            text = f"{self.options.where}: the store is a new one, and what was written to the one before is gone: {why}"
            log.warning("%s", text)
            if self.options.new_store == RAISE:
                raise NewStore(text)

    def _ask(self, calls: Sequence[Call], known: set[str]) -> Steps[Optional[RampError]]:
        """Sends these calls, each put after a read of its keys that are not `known` yet, and settles those that are answered for good."""
        asked = list(self._with_reads(calls, known))
        answers: list[str] = []
        number = self.number
        failure: Optional[RampError] = None
        fault: Optional[RampError] = None
        is_sent = True
        try:
            yield Exchange("".join(call.line + "\n" for call in asked).encode(), len(asked), answers)
        except OSError as error:
            fault = self._told(error)
            is_sent = not isinstance(error, Stale)
        answered = 0
        for call, answer in zip(asked, answers):
            answered += 1
            try:
                failure = self._take(call, answer) or failure
            except FalseAnswer as error:
                fault = error
                call.fail(error)
                break
        if fault:
            for call in asked[answered:] if is_sent else []:
                if call.is_write:
                    call.fail(OutcomeUnknown(fault, number))
            self.lose()
        if not self._is_connected:
            yield Drop()
        return fault or failure

    def _with_reads(self, calls: Sequence[Call], known: set[str]) -> Iterator[Call]:
        is_newest = self.server.newest if self.server else self.options.newest == SERVER
        for call in calls:
            if call.reads_first and not is_newest:
                unread = [key for key in call.keys if key not in known]
                if unread:
                    yield lines.reading(unread)
                known.update(unread)
            elif call.word == "read":
                known.update(call.keys)
            yield call

    def _take(self, call: Call, answer: str) -> Optional[RampError]:
        """Settles a call by its answer, or returns why it has to be asked for again."""
        try:
            value = call.read(answer)
        except Restarted as error:
            call.restarts += 1
            if call.restarts > self.options.retry.restarts:
                call.fail(error)
            return None
        except Refused as error:
            return self._refused(call, error)
        if call.word == "done":
            self._check_stamp(call, answer, value)
        elif call.word == "read":
            self.counter = max(self.counter, call.seen)
        call.settle(value)
        return None

    def _refused(self, call: Call, error: Refused) -> Optional[RampError]:
        number = self.number
        if error.number in (10, 11, 19, 22, 25, 30, 41, 42):
            self.lose()
        if call.is_write and error.number in MAY_BE_DONE:
            call.fail(OutcomeUnknown(error, number))
        elif self.options.retry.covers(error):
            return error
        else:
            call.fail(error)
        return None

    def _check_stamp(self, call: Call, answer: str, stamp: str) -> None:
        """A stamp is this client's, and above all that the session wrote and read."""
        counter, client = map(int, stamp.split("."))
        if client != self.number or counter <= self.counter:
            raise call.false(answer)
        self.counter = counter

    def _drop(self) -> Steps[None]:
        self.lose()
        yield Drop()

    def _told(self, error: OSError) -> RampError:
        """An error of the connection in words."""
        where = self.options.where
        if isinstance(error, Late):
            return NoAnswer(f"{where} gave no answer in {self.options.timeout} s")
        if isinstance(error, Overlong):
            return FalseAnswer(f"{where} {error}: is this `ramp serve`?")
        if isinstance(error, Ended):
            return ConnectionLost(f"{where} closed the connection before its answer")
        if isinstance(error, Stale):
            return ConnectionLost(f"{where} closed the connection; nothing was sent on it")
        return ConnectionLost(f"the connection to {where} was lost: {error}")
