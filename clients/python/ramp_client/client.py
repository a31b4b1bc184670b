"""Clients for programs with threads: `Client`, one session, and `Pool`, several of them."""
from __future__ import annotations

import os
import threading
import time
from abc import ABC, abstractmethod
from contextlib import contextmanager
from typing import Any, Callable, Generic, Iterator, Mapping, Optional, Sequence, TypeVar

from . import contents, lines
from .errors import Closed, InUse, Invalid, WrongUse
from .lines import Call, Item, ServerInfo
from .policy import CLIENT, TIMEOUT, WARN, Retry, check_seconds, read_url
from .session import Connect, Exchange, Pause, Session, Steps
from .wire import Wire

T = TypeVar("T")


class Pending(Generic[T]):
    """The answer to a call of a pipeline. It is there when the pipeline has ended."""

    def __init__(self, call: Call):
        self._call = call

    def result(self) -> T:
        """What the call of this name returns by itself, or its error."""
        if not self._call.is_settled:
            raise WrongUse("the pipeline has not ended, or was left by an exception")
        told: T = self._call.result()
        return told

    def __repr__(self) -> str:
        state = "not answered yet" if not self._call.is_settled else "answered" if self._call.error is None else type(self._call.error).__name__
        return f"<ramp_client.{type(self).__name__}: {state}>"


class PendingContents(Pending[dict[str, Any]]):
    """As `Pending`, of contents."""

    def __init__(self, call: Call, kind: contents.Kind, names: Sequence[str]):
        super().__init__(call)
        self._kind, self._names = kind, names

    def result(self) -> dict[str, Any]:
        return contents.read_at_once(self._kind, self._names, super().result())


class Batch:
    """Calls that are collected, to be sent together. Each raises `Invalid` at once where it is wrong by itself; its answer, or its error, comes from `result()`
    of what it returns, once the pipeline has ended."""

    def __init__(self) -> None:
        self._calls: list[Call] = []

    def put(self, items: Mapping[str, str], tag: str = "", tags: Optional[Mapping[str, str]] = None, blind: bool = False) -> Pending[str]:
        """As `Calls.put`: the result is the stamp. Keys that the pipeline has read or written before are not read again, so no other client may write
        them meanwhile. Where the connection is lost the result raises `OutcomeUnknown` for each put that was sent and not answered."""
        return Pending(self._add(lines.put(items, tag, tags, lines.reads_first(blind))))

    def get(self, *keys: str) -> Pending[dict[str, Item]]:
        """As `Calls.get`: the result has the items. It sees the puts before it in the pipeline."""
        return Pending(self._add(lines.get(keys)))

    def find(self, tag: str) -> Pending[dict[str, Item]]:
        """As `Calls.find`: the result has the items that carry the tag, at most 16."""
        return Pending(self._add(lines.find(tag)))

    def keep(self, versions: int) -> Pending[int]:
        """As `Calls.keep`: the result is the number."""
        return Pending(self._add(lines.keep(versions)))

    def put_text(self, texts: Mapping[str, str], tag: str = "", tags: Optional[Mapping[str, str]] = None, blind: bool = False) -> Pending[str]:
        """As `Calls.put_text`: the result is the stamp."""
        return Pending(self._add(contents.put(contents.TEXT, texts, tag, tags, lines.reads_first(blind))))

    def get_text(self, *names: str) -> Pending[dict[str, Optional[str]]]:
        """As `Calls.get_text`, by one get of 16 keys: of one text all of it, of several as many keys of each as fit (`Invalid` where one has more)."""
        return self._contents(contents.TEXT, names)

    def put_json(self, documents: Mapping[str, Any], tag: str = "", tags: Optional[Mapping[str, str]] = None, blind: bool = False) -> Pending[str]:
        """As `Calls.put_json`: the result is the stamp."""
        return Pending(self._add(contents.put(contents.JSON, documents, tag, tags, lines.reads_first(blind))))

    def get_json(self, *names: str) -> Pending[dict[str, Any]]:
        """As `Calls.get_json`, by one get of 16 keys, as `get_text`."""
        return self._contents(contents.JSON, names)

    def put_bytes(self, data: Mapping[str, bytes], tag: str = "", tags: Optional[Mapping[str, str]] = None, blind: bool = False) -> Pending[str]:
        """As `Calls.put_bytes`: the result is the stamp."""
        return Pending(self._add(contents.put(contents.BYTES, data, tag, tags, lines.reads_first(blind))))

    def get_bytes(self, *names: str) -> Pending[dict[str, Optional[bytes]]]:
        """As `Calls.get_bytes`, by one get of 16 keys, as `get_text`."""
        return self._contents(contents.BYTES, names)

    def _contents(self, kind: contents.Kind, names: Sequence[str]) -> PendingContents:
        return PendingContents(self._add(lines.get(contents.keys_at_once(kind, names))), kind, names)

    def __repr__(self) -> str:
        return f"<ramp_client.{type(self).__name__} of {len(self._calls)} calls>"

    def _add(self, call: Call) -> Call:
        self._calls.append(call)
        return call

    def _taken(self) -> list[Call]:
        calls, self._calls = self._calls, []
        return calls


class Calls(ABC):
    """What can be asked of a store. `Client` and `Pool` have these calls; `AsyncClient` and `AsyncPool` have them too, to be awaited."""

    def put(self, items: Mapping[str, str], tag: str = "", tags: Optional[Mapping[str, str]] = None, blind: bool = False) -> str:
        """Writes 1 to 16 items, or none of them, and returns the stamp of the write. Each carries its own tag of `tags`, or else `tag`.

        The write is newer than every write that was done before it began: the next read returns it, or a concurrent one. Where the server does
        not report that its puts are so by themselves, the client reads the keys first, in the same piece of data, which takes no further round
        trip. `blind=True` leaves that read out, which is right if no other client writes these keys, or if this client reads them each time
        before it writes. Otherwise a blind write may get a lower stamp there than what others wrote; it is then done, and no read returns it.

        `OutcomeUnknown` if its answer was lost, or a partition refused a call of it (10, 25 or 30): then it may be done."""
        return self._one(lines.put(items, tag, tags, lines.reads_first(blind)))  # type: ignore[no-any-return]

    def get(self, *keys: str) -> dict[str, Item]:
        """Reads 1 to 16 items: of each write all of it or none, and nothing older than what was done before."""
        return self._one(lines.get(keys))  # type: ignore[no-any-return]

    def find(self, tag: str) -> dict[str, Item]:
        """Reads the items that carry this tag, 16 at most (`RefusedUse` 23 where there are more)."""
        return self._one(lines.find(tag))  # type: ignore[no-any-return]

    def keep(self, versions: int) -> int:
        """From now on collections keep so many committed versions of an item, 1 to 255, of this tenant."""
        return self._one(lines.keep(versions))  # type: ignore[no-any-return]

    def put_text(self, texts: Mapping[str, str], tag: str = "", tags: Optional[Mapping[str, str]] = None, blind: bool = False) -> str:
        """Writes texts of any letters, with spaces, each under its name, as `put` writes items: `put_text({"note": "two words"})`.

        A text stands under `note.0`, and, where it is longer than 126 bytes, `note.1` and so on to `note.f`: 16 keys of all texts together, and 2,046
        bytes at most. A tag stands at the first of them. It is the form of `codec.encode_record`. `Invalid` where a text is too long."""
        return self._one(contents.put(contents.TEXT, texts, tag, tags, lines.reads_first(blind)))  # type: ignore[no-any-return]

    def get_text(self, *names: str) -> dict[str, Optional[str]]:
        """Reads what `put_text` wrote under these names: of each write all of it or none. None where nothing was written. It takes one get, or two where
        a text has several keys. `Invalid` where something else than a text stands there, `NotWhole` where something wrote one of its keys alone."""
        return self._contents(contents.TEXT, names)

    def put_json(self, documents: Mapping[str, Any], tag: str = "", tags: Optional[Mapping[str, str]] = None, blind: bool = False) -> str:
        """Writes what JSON has, as `put_text` writes texts: `put_json({"doc": {"title": "Bikes", "pages": [1, 2]}})`."""
        return self._one(contents.put(contents.JSON, documents, tag, tags, lines.reads_first(blind)))  # type: ignore[no-any-return]

    def get_json(self, *names: str) -> dict[str, Any]:
        """Reads what `put_json` wrote under these names, as `get_text`. None where nothing was written, and of a JSON null."""
        return self._contents(contents.JSON, names)

    def put_bytes(self, data: Mapping[str, bytes], tag: str = "", tags: Optional[Mapping[str, str]] = None, blind: bool = False) -> str:
        """Writes bytes of any kind, as `put_text` writes texts: at most 1,636 of them."""
        return self._one(contents.put(contents.BYTES, data, tag, tags, lines.reads_first(blind)))  # type: ignore[no-any-return]

    def get_bytes(self, *names: str) -> dict[str, Optional[bytes]]:
        """Reads what `put_bytes` wrote under these names, as `get_text`."""
        return self._contents(contents.BYTES, names)

    def pipeline(self) -> Pipeline:
        """Calls that are sent together, when the block ends: `with client.pipeline() as p: done, read = p.put({"x": "1"}), p.get("x")`. Behind it
        `read.result()` is what the get returns, or raises its error. See `Pipeline`."""
        return Pipeline(self)

    def _one(self, call: Call) -> Any:
        self._run([call])
        return call.result()

    def _contents(self, kind: contents.Kind, names: Sequence[str]) -> dict[str, Any]:
        steps = contents.get(kind, names)
        try:
            keys = next(steps)
            while True:
                keys = steps.send(self.get(*keys))
        except StopIteration as end:
            return end.value  # type: ignore[no-any-return]

    @abstractmethod
    def _run(self, calls: Sequence[Call]) -> None:
        """Settles these calls."""


class Pipeline(Batch):
    """Calls that are sent together when the `with` block ends, and are answered in their order. Each returns a `Pending`.

    They are not one transaction: each has its own answer or error. A read that has to restart is repeated after all others, so it may see
    what a later call wrote. Nothing is sent if the block is left by an exception."""

    def __init__(self, runner: Calls):
        super().__init__()
        self._runner = runner

    def __enter__(self) -> Pipeline:
        return self

    def __exit__(self, kind: Any, *_: Any) -> None:
        calls = self._taken()
        if kind is None and calls:
            self._runner._run(calls)


class Client(Calls):
    """A session with a server, over one connection. It connects when it is first used, and again when its connection was lost.

    Threads may share one: a call waits, at most `timeout` seconds, until the call of another thread has ended. A `Pool` lets them run
    concurrently. A forked process connects anew."""

    def __init__(self, url: str, *, client: Optional[int] = None, timeout: Optional[float] = TIMEOUT, newest: str = CLIENT, retry: Optional[Retry] = None,
                 new_store: str = WARN):
        self.options = read_url(url, client, timeout, newest, retry, new_store)
        self._begin()
        self._is_closed = False

    def __repr__(self) -> str:
        return described(self)

    def _begin(self) -> None:
        self._lock = threading.Lock()
        self._process = os.getpid()
        self._session = Session(self.options)
        self._wire = Wire()

    @property
    def number(self) -> int:
        """The number of its client; 0 where no session is open."""
        return self._session.number

    @property
    def counter(self) -> int:
        """The greatest counter that this client wrote or read; the next stamp is above it."""
        return self._session.counter

    @property
    def opened(self) -> int:
        """How many connections it has opened: more than 1 where it connected again."""
        return self._session.opened

    @property
    def new_stores(self) -> int:
        """How often it connected again and found another store: then the server was started anew, and what was written before is gone. Each time is
        logged as a WARNING, too, and with `new_store="raise"` the call raises `NewStore`. An older server does not tell which store it has: there
        the client notices it where its number's counter is below what it had been."""
        return self._session.new_stores

    @property
    def server(self) -> Optional[ServerInfo]:
        """What the server told of itself when this client last connected: `version`, `store`, the number of its store, and `newest`, whether puts need
        no read before them. None where it has not connected, and of an older server, which reports nothing."""
        return self._session.server

    def open(self) -> None:
        """Connects now, if it has not. It raises what a call would raise."""
        self._hold(self._session.open)

    def close(self) -> None:
        """Ends the session. The client's number is free again when this returns, unless the connection was lost."""
        if not self._is_closed:
            self._hold(self._session.close)
            self._is_closed = True

    def ask(self, line: str) -> str:
        """The answer to a line as it stands, without its LF: for prompts and tests. It is never sent again by itself."""
        return self._one(lines.raw(line))  # type: ignore[no-any-return]

    def _run(self, calls: Sequence[Call]) -> None:
        self._hold(lambda: self._session.run(calls))

    def _hold(self, begin: Callable[[], Steps[None]]) -> None:
        """Runs these steps while no other thread uses the client."""
        if self._process != os.getpid():
            self._wire.close()
            self._begin()
        if not self._lock.acquire(timeout=-1 if self.options.timeout is None else self.options.timeout):
            raise InUse(f"the client was in use by another thread for {self.options.timeout} s: a Pool lets threads go on at the same time")
        try:
            if self._is_closed:
                raise Closed("this client was closed")
            self._drive(begin())
        finally:
            self._lock.release()

    def _drive(self, steps: Steps[None]) -> None:
        """Does what the steps ask for. If this is interrupted, the connection is closed: the answer still to come would be taken for another call's."""
        try:
            action = next(steps)
            while True:
                try:
                    if isinstance(action, Exchange):
                        self._wire.exchange(action)
                    elif isinstance(action, Connect):
                        self._wire.connect(action.options)
                    elif isinstance(action, Pause):
                        time.sleep(action.seconds)
                    else:
                        self._wire.close()
                except OSError as error:
                    action = steps.throw(error)
                else:
                    action = next(steps)
        except StopIteration:
            pass
        except BaseException:
            self._wire.close()
            self._session.lose()
            raise

    def __enter__(self) -> Client:
        self.open()
        return self

    def __exit__(self, *_: Any) -> None:
        self.close()


def described(client: Any) -> str:
    """A client of either kind, for `repr`: the address and the client number alone."""
    state = "closed" if client._is_closed else f"client {client.number}" if client.number else "not connected"
    return f"<ramp_client.{type(client).__name__} {client.options.url}, {state}>"


def check_pool(size: Any, wait: Any) -> None:
    """Checks what a pool of either kind is given."""
    if not isinstance(size, int) or isinstance(size, bool) or size < 1:
        raise Invalid(f"a pool has at least 1 client, as in size=8, and not {size!r}", "size")
    check_seconds("wait", wait, may_be_zero=True)


class Pool(Calls):
    """At most `size` sessions, for any number of threads. A call takes one that is free, or waits for one, `wait` seconds at most.

    Sessions are opened on demand, and each uses one of the tenant's client numbers: the server's `--clients` and `--sessions` have to allow
    as many. Open a pool in each process, after a fork and not before it."""

    def __init__(self, url: str, *, size: int = 16, wait: Optional[float] = 30.0, timeout: Optional[float] = TIMEOUT, newest: str = CLIENT, retry: Optional[Retry] = None,
                 new_store: str = WARN):
        check_pool(size, wait)
        self.size, self.wait = size, wait
        self._process = os.getpid()
        self._clients = [Client(url, timeout=timeout, newest=newest, retry=retry, new_store=new_store) for _ in range(size)]
        if self._clients[0].options.client is not None:
            raise Invalid("the clients of a pool draw their numbers: name none in its URL", "client")
        self._free = list(self._clients)
        self._changed = threading.Condition()
        self._is_closed = False

    def __repr__(self) -> str:
        return f"<ramp_client.Pool {self._clients[0].options.url}, {'closed' if self._is_closed else f'of {self.size} clients'}>"

    @property
    def new_stores(self) -> int:
        """How often its clients noticed that the store was a new one, as `Client.new_stores`: each of them does so by itself, when it connects again."""
        return sum(client.new_stores for client in self._clients)

    @contextmanager
    def client(self) -> Iterator[Client]:
        """A client for this thread alone, for several calls: `with pool.client() as client:`."""
        client = self._take()
        try:
            yield client
        finally:
            self._give_back(client)

    def close(self) -> None:
        """Ends all sessions; those in use end when they are given back. Calls that wait for a session raise `Closed`."""
        with self._changed:
            self._is_closed = True
            free, self._free = self._free, []
            self._changed.notify_all()
        for client in free:
            client.close()

    def _run(self, calls: Sequence[Call]) -> None:
        with self.client() as client:
            client._run(calls)

    def _take(self) -> Client:
        if self._process != os.getpid():
            raise WrongUse("this pool was opened before a fork: open one in each process")
        with self._changed:
            if not self._changed.wait_for(lambda: self._free or self._is_closed, self.wait):
                raise InUse(f"all {self.size} clients of the pool were in use for {self.wait} s")
            if self._is_closed:
                raise Closed("this pool was closed")
            return self._free.pop()

    def _give_back(self, client: Client) -> None:
        with self._changed:
            is_closed = self._is_closed
            if not is_closed:
                self._free.append(client)
                self._changed.notify()
        if is_closed:
            client.close()

    def __enter__(self) -> Pool:
        return self

    def __exit__(self, *_: Any) -> None:
        self.close()


def connect(url: str, *, client: Optional[int] = None, timeout: Optional[float] = TIMEOUT, newest: str = CLIENT, retry: Optional[Retry] = None,
            new_store: str = WARN) -> Client:
    """A client that is connected: `connect("ramp://127.0.0.1:7000/t")`.

    `client` is its number, else the server gives one that no session has. `timeout` is in seconds, for each answer. `newest="server"` asks that the
    server was started with --newest, so that no put has to read before. `new_store="raise"` has the call raise `NewStore` that finds another store
    behind the address than the one before."""
    session = Client(url, client=client, timeout=timeout, newest=newest, retry=retry, new_store=new_store)
    session.open()
    return session

