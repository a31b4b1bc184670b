"""A connection of the client of asyncio: bytes out, lines in, each within its time."""
from __future__ import annotations

import asyncio
import select
from typing import Any, Optional, cast

from .limits import LINE_LIMIT
from .policy import Options
from .session import Ended, Exchange, Late, Overlong, Stale
from .wire import UNASKED, UNENDED, cut_lines


class _Stream(asyncio.Protocol):
    """One connection, until it is closed."""

    def __init__(self, timeout: Optional[float]) -> None:
        self.timeout = timeout
        self.transport: Optional[asyncio.Transport] = None
        self.fault: Optional[OSError] = None
        self._loop = asyncio.get_running_loop()
        self._begun = ""
        self._wanted: Optional[Exchange] = None
        self._turn: Optional[asyncio.Future[None]] = None
        self._ends = 0.0

    def connection_made(self, transport: asyncio.BaseTransport) -> None:
        self.transport = cast(asyncio.Transport, transport)

    def data_received(self, data: bytes) -> None:
        wanted = self._wanted
        if wanted is None:
            self.end(Overlong(UNASKED))
            return
        before = len(wanted.answers)
        self._begun = cut_lines(self._begun, data, wanted)
        if len(wanted.answers) == wanted.count:
            self._tell(Overlong(UNASKED) if self._begun else None)
        elif len(self._begun) > LINE_LIMIT:
            self.end(Overlong(UNENDED))
        elif len(wanted.answers) > before and self.timeout is not None:
            self._ends = self._loop.time() + self.timeout

    def eof_received(self) -> None:
        self.end(Ended())

    def connection_lost(self, error: Optional[Exception]) -> None:
        self.end(Ended())

    def end(self, fault: OSError) -> None:
        """Closes the connection. An exchange that waits for an answer fails with this fault."""
        self.fault = self.fault or fault
        if self.transport is not None:
            self.transport.abort()
        self._tell(fault)

    async def exchange(self, wanted: Exchange) -> None:
        """Sends and reads. Each answer has its own time, from the one before it on."""
        assert self.transport is not None
        if self._has_news():
            # One turn of the event loop polls the sockets, and the next one runs the callbacks.
            await asyncio.sleep(0)
            await asyncio.sleep(0)
        if self.fault is not None:
            raise self.fault if isinstance(self.fault, Overlong) else Stale()
        self._wanted, self._turn = wanted, self._loop.create_future()
        timer = None
        if self.timeout is not None:
            self._ends = self._loop.time() + self.timeout
            timer = self._loop.call_at(self._ends, self._look_at_time)
        try:
            self.transport.write(wanted.data)
            await self._turn
        finally:
            if timer is not None:
                timer.cancel()
            self._wanted = self._turn = None

    def _has_news(self) -> bool:
        """Whether the peer has closed, or said something, that the event loop has not seen yet."""
        number = self.transport.get_extra_info("socket").fileno() if self.transport is not None and self.fault is None else -1
        if number < 0 or not hasattr(select, "poll"):
            return False
        poll = select.poll()
        poll.register(number, select.POLLIN)
        return bool(poll.poll(0))

    def _look_at_time(self) -> None:
        if self._turn is None or self._turn.done():
            return
        if self._loop.time() < self._ends:
            self._loop.call_at(self._ends, self._look_at_time)
        else:
            self.end(Late())

    def _tell(self, fault: Optional[OSError]) -> None:
        if self._turn is not None and not self._turn.done():
            if fault is None:
                self._turn.set_result(None)
            else:
                self._turn.set_exception(fault)


class AsyncWire:
    """One connection at a time. It is used by one task at a time."""

    def __init__(self) -> None:
        self._stream: Optional[_Stream] = None

    async def connect(self, options: Options) -> None:
        self.close()
        loop = asyncio.get_running_loop()
        making: Any = loop.create_connection(lambda: _Stream(options.timeout), options.host, options.port)
        try:
            _, self._stream = await asyncio.wait_for(making, options.timeout)
        except asyncio.TimeoutError:
            raise Late from None

    async def exchange(self, wanted: Exchange) -> None:
        if self._stream is None:
            raise Stale
        await self._stream.exchange(wanted)

    def close(self) -> None:
        if self._stream is not None:
            self._stream.end(Ended())
        self._stream = None
