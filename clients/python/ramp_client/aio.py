"""Clients for programs with asyncio: `AsyncClient` and `AsyncPool`, with the calls of `Client` and `Pool`, each to be awaited."""
from __future__ import annotations

import asyncio
from abc import ABC, abstractmethod
from collections import deque
from contextlib import asynccontextmanager
from typing import Any, AsyncIterator, Deque, Generic, Mapping, Optional, Sequence, TypeVar

from . import contents, lines
from .async_wire import AsyncWire
from .client import Batch, check_pool, described
from .errors import Closed, InUse, Invalid, WrongUse
from .lines import Call, Item, ServerInfo
from .policy import CLIENT, TIMEOUT, WARN, Retry, read_url
from .session import Connect, Exchange, Pause, Session, Steps

T = TypeVar("T")


class _Shared(Generic[T]):
    """Things that are each used by one task at a time. Tasks that wait for one are served in order of arrival."""

    def __init__(self, things: list[T]):
        self._free = things
        self._waiting: Deque[asyncio.Future[T]] = deque()
        self._is_closed = False

    async def take(self, seconds: Optional[float], late: str) -> T:
        """Returns the thing that was given back last, or waits up to `seconds` for one; then it raises `InUse` with this text."""
        if self._is_closed:
            raise Closed("this pool was closed")
        if self._free and not self._waiting:
            return self._free.pop()
        loop = asyncio.get_running_loop()
        turn: asyncio.Future[T] = loop.create_future()
        self._waiting.append(turn)
        timer = None if seconds is None else loop.call_later(seconds, self._expire, turn, InUse(late))
        try:
            return await turn
        except asyncio.CancelledError:
            # It may have been handed over just before.
            if turn.done() and not turn.cancelled() and turn.exception() is None:
                self.give_back(turn.result())
            raise
        finally:
            if timer is not None:
                timer.cancel()

    def give_back(self, thing: T) -> None:
        while self._waiting:
            turn = self._waiting.popleft()
            if not turn.done():
                turn.set_result(thing)
                return
        self._free.append(thing)

    def close(self) -> list[T]:
        """Returns what is free. Tasks that wait, and later callers, get `Closed`."""
        self._is_closed = True
        while self._waiting:
            self._expire(self._waiting.popleft(), Closed("this pool was closed"))
        free, self._free = self._free, []
        return free

    @staticmethod
    def _expire(turn: asyncio.Future[T], error: Exception) -> None:
        if not turn.done():
            turn.set_exception(error)


class AsyncCalls(ABC):
    """The calls of `Calls`, to be awaited."""

    async def put(self, items: Mapping[str, str], tag: str = "", tags: Optional[Mapping[str, str]] = None, blind: bool = False) -> str:
        """As `Calls.put`. If the task is cancelled while it waits, the write is done or not, as with `OutcomeUnknown`."""
        return await self._one(lines.put(items, tag, tags, lines.reads_first(blind)))  # type: ignore[no-any-return]

    async def get(self, *keys: str) -> dict[str, Item]:
        """As `Calls.get`."""
        return await self._one(lines.get(keys))  # type: ignore[no-any-return]

    async def find(self, tag: str) -> dict[str, Item]:
        """As `Calls.find`."""
        return await self._one(lines.find(tag))  # type: ignore[no-any-return]

    async def keep(self, versions: int) -> int:
        """As `Calls.keep`."""
        return await self._one(lines.keep(versions))  # type: ignore[no-any-return]

    async def put_text(self, texts: Mapping[str, str], tag: str = "", tags: Optional[Mapping[str, str]] = None, blind: bool = False) -> str:
        """As `Calls.put_text`."""
        return await self._one(contents.put(contents.TEXT, texts, tag, tags, lines.reads_first(blind)))  # type: ignore[no-any-return]

    async def get_text(self, *names: str) -> dict[str, Optional[str]]:
        """As `Calls.get_text`."""
        return await self._contents(contents.TEXT, names)

    async def put_json(self, documents: Mapping[str, Any], tag: str = "", tags: Optional[Mapping[str, str]] = None, blind: bool = False) -> str:
        """As `Calls.put_json`."""
        return await self._one(contents.put(contents.JSON, documents, tag, tags, lines.reads_first(blind)))  # type: ignore[no-any-return]

    async def get_json(self, *names: str) -> dict[str, Any]:
        """As `Calls.get_json`."""
        return await self._contents(contents.JSON, names)

    async def put_bytes(self, data: Mapping[str, bytes], tag: str = "", tags: Optional[Mapping[str, str]] = None, blind: bool = False) -> str:
        """As `Calls.put_bytes`."""
        return await self._one(contents.put(contents.BYTES, data, tag, tags, lines.reads_first(blind)))  # type: ignore[no-any-return]

    async def get_bytes(self, *names: str) -> dict[str, Optional[bytes]]:
        """As `Calls.get_bytes`."""
        return await self._contents(contents.BYTES, names)

    def pipeline(self) -> AsyncPipeline:
        """Calls that are sent together, when the block ends: `async with client.pipeline() as p: done, read = p.put({"x": "1"}), p.get("x")`. The calls
        themselves are not awaited. Behind the block `read.result()` is what the get returns, or raises its error. See `Pipeline`."""
        return AsyncPipeline(self)

    async def _one(self, call: Call) -> Any:
        await self._run([call])
        return call.result()

    async def _contents(self, kind: contents.Kind, names: Sequence[str]) -> dict[str, Any]:
        steps = contents.get(kind, names)
        try:
            keys = next(steps)
            while True:
                keys = steps.send(await self.get(*keys))
        except StopIteration as end:
            return end.value  # type: ignore[no-any-return]

    @abstractmethod
    async def _run(self, calls: Sequence[Call]) -> None:
        """Settles these calls."""


class AsyncPipeline(Batch):
    """As `Pipeline`, with `async with`. Its calls are not awaited: each returns its `Pending` at once."""

    def __init__(self, runner: AsyncCalls):
        super().__init__()
        self._runner = runner

    async def __aenter__(self) -> AsyncPipeline:
        return self

    async def __aexit__(self, kind: Any, *_: Any) -> None:
        calls = self._taken()
        if kind is None and calls:
            await self._runner._run(calls)


class AsyncClient(AsyncCalls):
    """A session with a server, over one connection, for one event loop. It connects when it is first used, and again when its connection
    was lost.

    Tasks may share one: a call waits, at most `timeout` seconds, until the call of another task has ended. An `AsyncPool` lets them run
    concurrently."""

    def __init__(self, url: str, *, client: Optional[int] = None, timeout: Optional[float] = TIMEOUT, newest: str = CLIENT, retry: Optional[Retry] = None,
                 new_store: str = WARN):
        self.options = read_url(url, client, timeout, newest, retry, new_store)
        self._session = Session(self.options)
        self._wire = AsyncWire()
        self._turns = _Shared([self._wire])
        self._loop: Optional[asyncio.AbstractEventLoop] = None
        self._is_closed = False

    def __repr__(self) -> str:
        return described(self)

    @property
    def number(self) -> int:
        """The number of its client; 0 where no session is open."""
        return self._session.number

    @property
    def counter(self) -> int:
        """The greatest counter that this client wrote or read; the next stamp is above it."""
        return self._session.counter

    @property
    def opened(self) -> int:
        """How many connections it has opened: more than 1 where it connected again."""
        return self._session.opened

    @property
    def new_stores(self) -> int:
        """As `Client.new_stores`."""
        return self._session.new_stores

    @property
    def server(self) -> Optional[ServerInfo]:
        """As `Client.server`."""
        return self._session.server

    async def open(self) -> None:
        """Connects now, if it has not. It raises what a call would raise."""
        await self._hold(self._session.open())

    async def close(self) -> None:
        """Ends the session. The client's number is free again when this returns, unless the connection was lost."""
        if not self._is_closed:
            await self._hold(self._session.close())
            self._is_closed = True

    async def ask(self, line: str) -> str:
        """As `Client.ask`."""
        return await self._one(lines.raw(line))  # type: ignore[no-any-return]

    async def _run(self, calls: Sequence[Call]) -> None:
        await self._hold(self._session.run(calls))

    async def _hold(self, steps: Steps[None]) -> None:
        """Runs these steps while no other task uses the client."""
        loop = asyncio.get_running_loop()
        self._loop = self._loop or loop
        if self._loop is not loop:
            raise WrongUse("this client belongs to another event loop: open one in each")
        await self._turns.take(self.options.timeout, f"the client was in use by other tasks for {self.options.timeout} s: an AsyncPool lets tasks go on at the same time")
        try:
            if self._is_closed:
                raise Closed("this client was closed")
            await self._drive(steps)
        finally:
            self._turns.give_back(self._wire)

    async def _drive(self, steps: Steps[None]) -> None:
        """Does what the steps ask for. If the task is cancelled, the connection is closed: the answer still to come would be taken for another call's."""
        try:
            action = next(steps)
            while True:
                try:
                    if isinstance(action, Exchange):
                        await self._wire.exchange(action)
                    elif isinstance(action, Connect):
                        await self._wire.connect(action.options)
                    elif isinstance(action, Pause):
                        await asyncio.sleep(action.seconds)
                    else:
                        self._wire.close()
                except OSError as error:
                    action = steps.throw(error)
                else:
                    action = next(steps)
        except StopIteration:
            pass
        except BaseException:
            self._wire.close()
            self._session.lose()
            raise

    async def __aenter__(self) -> AsyncClient:
        await self.open()
        return self

    async def __aexit__(self, *_: Any) -> None:
        await self.close()


class AsyncPool(AsyncCalls):
    """At most `size` sessions, for any number of tasks of one event loop. A call takes a free session, or waits for one, first come first
    served, at most `wait` seconds. See `Pool`."""

    def __init__(self, url: str, *, size: int = 16, wait: Optional[float] = 30.0, timeout: Optional[float] = TIMEOUT, newest: str = CLIENT, retry: Optional[Retry] = None,
                 new_store: str = WARN):
        check_pool(size, wait)
        self.size, self.wait = size, wait
        clients = [AsyncClient(url, timeout=timeout, newest=newest, retry=retry, new_store=new_store) for _ in range(size)]
        if clients[0].options.client is not None:
            raise Invalid("the clients of a pool draw their numbers: name none in its URL", "client")
        self._clients = clients
        self._shared = _Shared(list(clients))
        self._is_closed = False

    def __repr__(self) -> str:
        return f"<ramp_client.AsyncPool {self._clients[0].options.url}, {'closed' if self._is_closed else f'of {self.size} clients'}>"

    @property
    def new_stores(self) -> int:
        """As `Pool.new_stores`."""
        return sum(client.new_stores for client in self._clients)

    @asynccontextmanager
    async def client(self) -> AsyncIterator[AsyncClient]:
        """A client for this task alone, for several calls: `async with pool.client() as client:`."""
        client = await self._take()
        try:
            yield client
        finally:
            await self._give_back(client)

    async def close(self) -> None:
        """Ends all sessions; those in use end when they are given back. Calls that wait for a session raise `Closed`."""
        self._is_closed = True
        for client in self._shared.close():
            await client.close()

    async def _run(self, calls: Sequence[Call]) -> None:
        client = await self._take()
        try:
            await client._run(calls)
        finally:
            await self._give_back(client)

    async def _take(self) -> AsyncClient:
        return await self._shared.take(self.wait, f"all {self.size} clients of the pool were in use for {self.wait} s")

    async def _give_back(self, client: AsyncClient) -> None:
        if self._is_closed:
            await client.close()
        else:
            self._shared.give_back(client)

    async def __aenter__(self) -> AsyncPool:
        return self

    async def __aexit__(self, *_: Any) -> None:
        await self.close()
