"""Runs the shared cases of clients/cases.txt with a client: of each line whose result is another one, it says so."""
from __future__ import annotations

import asyncio
import pathlib
import re
import threading
from typing import Any, Callable, Optional, Union

import ramp_client
from ramp_client import codec, lines

from servers import ALL, Scripted, Server, text_of

CASES = pathlib.Path(__file__).resolve().parents[2] / "cases.txt"

GROUPS = {ramp_client.WrongUse: "wrong", ramp_client.NoRoom: "room", ramp_client.TryAgain: "again", ramp_client.TrustNothing: "distrust",
          ramp_client.Lost: "lost", ramp_client.OutcomeUnknown: "unknown"}


def error_words(error: ramp_client.RampError) -> str:
    group = [name for kind, name in GROUPS.items() if isinstance(error, kind)]
    assert len(group) == 1, error
    assert str(error).strip(), error
    return f"error {group[0]} {error.number if isinstance(error, ramp_client.Refused) else type(error).__name__}"


class InLoop:
    """An asynchronous client, driven from this thread: its calls are those of the other one."""

    def __init__(self, loop: asyncio.AbstractEventLoop, client: Any):
        self._loop, self.own = loop, client

    def wait(self, coroutine: Any) -> Any:
        return asyncio.run_coroutine_threadsafe(coroutine, self._loop).result(ALL)

    def __getattr__(self, name: str) -> Callable[..., Any]:
        return lambda *args, **how: self.wait(getattr(self.own, name)(*args, **how))

    def pipe(self, fill: Callable[[Any], list[Any]]) -> list[Any]:
        async def run() -> list[Any]:
            async with self.own.pipeline() as pipeline:
                pending = fill(pipeline)
            return pending
        return self.wait(run())  # type: ignore[no-any-return]


class Loop:
    """An event loop in a thread of its own."""

    def __enter__(self) -> asyncio.AbstractEventLoop:
        self.loop = asyncio.new_event_loop()
        self.thread = threading.Thread(target=self.loop.run_forever, daemon=True)
        self.thread.start()
        return self.loop

    def __exit__(self, *_: object) -> None:
        self.loop.call_soon_threadsafe(self.loop.stop)
        self.thread.join(ALL)
        self.loop.close()


class Blocking:
    """The client of threads."""

    def __init__(self, client: ramp_client.Client):
        self.own = client

    def __getattr__(self, name: str) -> Any:
        return getattr(self.own, name)

    def pipe(self, fill: Callable[[Any], list[Any]]) -> list[Any]:
        with self.own.pipeline() as pipeline:
            pending = fill(pipeline)
        return pending


def make_client(loop: Optional[asyncio.AbstractEventLoop], url: str, **how: Any) -> Union[Blocking, InLoop]:
    if loop is None:
        return Blocking(ramp_client.Client(url, **how))
    client = ramp_client.AsyncClient(url, **how)
    return InLoop(loop, client)


def item_words(item: ramp_client.Item) -> str:
    if item.value is None:
        return f"{item.key}@{item.stamp}"
    return f"{item.key}@{item.stamp}{'#' + item.tag if item.tag else ''}={item.value}"


def answer_words(word: str, told: Any) -> str:
    """A result, as the line of its answer has it."""
    if word in ("put", "blind"):
        return f"done {told}"
    if word in ("get", "find"):
        return " ".join(["read" if word == "get" else "list", *map(item_words, told.values())])
    return f"keep {told}"


def written(tokens: list[str]) -> tuple[dict[str, str], dict[str, str]]:
    """The items and the tags of a put."""
    items, tags = {}, {}
    for token in tokens:
        head, _, value = text_of(token).partition("=")
        key, _, tag = head.partition("#")
        items[key] = value
        if tag:
            tags[key] = tag
    return items, tags


def ask(target: Any, words: list[str]) -> Any:
    """A call of a client or of a pipeline."""
    word, rest = words[0], words[1:]
    if word in ("put", "blind"):
        items, tags = written(rest)
        return target.put(items, tags=tags, blind=word == "blind")
    if word == "get":
        return target.get(*map(text_of, rest))
    return target.find(text_of(rest[0])) if word == "find" else target.keep(int(rest[0]))


class Runner:
    """Runs cases, with the client of threads where there is no loop."""

    def __init__(self, loop: Optional[asyncio.AbstractEventLoop]):
        self.loop = loop
        self.clients: dict[str, Any] = {}
        self.server: Any = None
        self.is_script = False
        self.script: list[str] = []
        self.wrong: list[str] = []
        self.count = 0

    def run(self, text: str) -> None:
        for number, line in enumerate(text.splitlines(), 1):
            if line and not line.startswith("#"):
                try:
                    self.line(line)
                except (AssertionError, OSError) as error:
                    self.wrong.append(f"line {number}: {line[:100]}: {error!r}")
        self.end()

    def line(self, line: str) -> None:
        words, arrow, wanted = line.partition(" => ")
        first = words.split(" ")[0]
        if not arrow:
            self.setting(first, line)
            return
        self.count += 1
        try:
            told = self.told(first, words)
        except ramp_client.RampError as error:
            told = error_words(error)
        wanted = " ".join(map(text_of, wanted.split(" ")))
        if told != wanted:
            raise AssertionError(f"it is {told[:200]!r}")

    def setting(self, first: str, line: str) -> None:
        if first == "serve":
            self.end()
            self.server, self.is_script = Server(*line.split(" ")[1:]), False
        elif first == "script":
            self.end()
            self.is_script = True
        else:
            self.script.append(line)

    def end(self) -> None:
        """Ends the server and the clients of the cases before."""
        clients, self.clients = self.clients, {}
        server, self.server, self.script = self.server, None, []
        if isinstance(server, Server):
            with server:
                for client in clients.values():
                    client.close()
                verdict = server.stop()
            assert verdict and all(line.endswith(" yes") for line in verdict), verdict
        elif server is not None:
            for client in clients.values():
                client.own._session.lose()  # without a bye, which the script does not have
                client.close()
            server.end()

    def told(self, first: str, words: str) -> str:
        tokens = [text_of(token) for token in words.split(" ")[1:]]
        if first == "false":
            return self.false(words)
        told = getattr(self, f"told_{first}", None)
        return told(tokens) if told else self.call(words.split(" "))

    def told_check(self, tokens: list[str]) -> str:
        kind, text = tokens
        try:
            lines.check(kind, text)
        except ramp_client.Invalid as error:
            if error.length is not None:
                return f"length {error.length}"
            return f"byte {error.offset} {error.byte:02x}"
        return "ok"

    def told_encode(self, tokens: list[str]) -> str:
        return codec.encode_text(tokens[1]) if tokens[0] == "text" else codec.encode_bytes(bytes.fromhex(tokens[1]))

    def told_decode(self, tokens: list[str]) -> str:
        return codec.decode_text(tokens[1]) if tokens[0] == "text" else codec.decode_bytes(tokens[1]).hex()

    def told_record(self, tokens: list[str]) -> str:
        key, _, tag = tokens[0].partition("#")
        items = codec.encode_record(key, tokens[2] if tokens[1] == "text" else bytes.fromhex(tokens[2]))
        return " ".join(f"{own}{'#' + tag if tag and n == 0 else ''}={value}" for n, (own, value) in enumerate(items.items()))

    def told_unrecord(self, tokens: list[str]) -> str:
        items = {}
        for token in tokens[1:]:
            item = lines.read_item(token)
            assert item is not None, token
            items[item.key] = item
        content = codec.decode_record(tokens[0], items)
        return "none" if content is None else f"text {content}" if isinstance(content, str) else f"bytes {content.hex()}"

    def told_url(self, tokens: list[str]) -> str:
        told = ramp_client.read_url(tokens[0])
        return f"{told.host} {told.port} {told.tenant} {told.client or '-'} {told.timeout:g} {told.newest}"

    def told_refusal(self, tokens: list[str]) -> str:
        error = lines.refusal(int(tokens[0]))
        again = " sent again" if error.number in ramp_client.Retry().refusals else ""
        return f"{error.name} {error_words(error).split(' ')[1]}{again}"

    def told_connect(self, name: str, words: list[str]) -> str:
        if self.server is None:
            self.server = Scripted(self.script)
        options = dict(word.split("=") for word in words[2:])
        retry = ramp_client.Retry(attempts=int(options.get("attempts", 8)), pause=0.01)
        client = make_client(self.loop, self.server.url(words[0], ""), client=None if words[1] == "any" else int(words[1]), retry=retry,
                             timeout=float(options.get("timeout", 20)), newest=options.get("newest", "client"))
        client.open()
        self.clients[name] = client
        return "ready"

    def call(self, words: list[str]) -> str:
        name, word, rest = words[0], words[1], words[2:]
        if word == "connect":
            return self.told_connect(name, rest)
        client = self.clients[name]
        if word == "close":
            client.close()
            return "bye"
        if word == "new_stores":
            return str(client.own.new_stores)
        if word == "pipe":
            parts = [part.split(" ") for part in " ".join(rest).split(" ; ")]
            pending = client.pipe(lambda pipeline: [ask(pipeline, part) for part in parts])
            return " ; ".join(answer_words(part[0], it.result()) for part, it in zip(parts, pending))
        return answer_words(word, ask(client, words[1:]))

    def false(self, words: str) -> str:
        found = re.fullmatch("false '([^']*)' (.*)", words)
        assert found is not None, words
        self.end()
        self.script = ["accept", "hear hello t 5", "hear info", "say ready 0", "say refused 40", f"hear {found[1]}", f"say {found[2]}"]
        self.call(["a", "connect", "t", "5", "attempts=1"])
        call = found[1].split(" ")
        try:
            return self.call(["a", "blind" if call[0] == "put" else call[0], *call[1:]])
        finally:
            self.end()
