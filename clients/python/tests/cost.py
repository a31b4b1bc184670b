#!/usr/bin/env python3
"""The CPU time that a call takes in the client, compared with redis-py: microseconds per call, the median of several interleaved rounds.

Needs redis-server and the Python package redis. Both servers run beside it; their time is not counted."""
from __future__ import annotations

import asyncio
import pathlib
import statistics
import subprocess
import sys
import tempfile
import time
from typing import Any, Awaitable, Callable

sys.path.insert(0, str(pathlib.Path(__file__).resolve().parents[1]))

import ramp_client
from servers import Server

try:
    import redis
    import redis.asyncio
except ImportError:
    sys.exit("cost: without the package redis there is nothing to compare with (Debian: python3-redis)")

ROUNDS, CALLS, DEPTH = 7, 400, 16
KEYS = ["k1", "k2", "k3", "k4"]
ITEMS = {key: "v" * 20 for key in KEYS}
FORMS = ["get of 1", "get of 4", "put of 4", "put of 4, blind", f"{DEPTH} gets of 4, pipelined", f"{DEPTH} puts of 4, pipelined"]


def plain(ramp: ramp_client.Client, other: Any) -> list[tuple[Callable[[], object], Callable[[], object]]]:
    """Of each form a call of ramp and one of Redis."""
    def gets() -> None:
        with ramp.pipeline() as pipeline:
            for _ in range(DEPTH):
                pipeline.get(*KEYS)

    def puts() -> None:
        with ramp.pipeline() as pipeline:
            for _ in range(DEPTH):
                pipeline.put(ITEMS)

    def mgets() -> None:
        pipeline = other.pipeline(transaction=False)
        for _ in range(DEPTH):
            pipeline.mget(KEYS)
        pipeline.execute()

    def msets() -> None:
        pipeline = other.pipeline(transaction=False)
        for _ in range(DEPTH):
            pipeline.mset(ITEMS)
        pipeline.execute()

    def mset() -> object:
        return other.mset(ITEMS)

    return [(lambda: ramp.get("k1"), lambda: other.get("k1")), (lambda: ramp.get(*KEYS), lambda: other.mget(KEYS)), (lambda: ramp.put(ITEMS), mset),
            (lambda: ramp.put(ITEMS, blind=True), mset), (gets, mgets), (puts, msets)]


def in_loop(ramp: ramp_client.AsyncClient, other: Any) -> list[tuple[Callable[[], Awaitable[object]], Callable[[], Awaitable[object]]]]:
    async def gets() -> None:
        async with ramp.pipeline() as pipeline:
            for _ in range(DEPTH):
                pipeline.get(*KEYS)

    async def puts() -> None:
        async with ramp.pipeline() as pipeline:
            for _ in range(DEPTH):
                pipeline.put(ITEMS)

    async def mgets() -> None:
        pipeline = other.pipeline(transaction=False)
        for _ in range(DEPTH):
            pipeline.mget(KEYS)
        await pipeline.execute()

    async def msets() -> None:
        pipeline = other.pipeline(transaction=False)
        for _ in range(DEPTH):
            pipeline.mset(ITEMS)
        await pipeline.execute()

    return [(lambda: ramp.get("k1"), lambda: other.get("k1")), (lambda: ramp.get(*KEYS), lambda: other.mget(KEYS)), (lambda: ramp.put(ITEMS), lambda: other.mset(ITEMS)),
            (lambda: ramp.put(ITEMS, blind=True), lambda: other.mset(ITEMS)), (gets, mgets), (puts, msets)]


def calls_of(form: str) -> int:
    return CALLS // 8 if "pipelined" in form else CALLS


def timed(call: Callable[[], object], times: int) -> float:
    begin = time.process_time()
    for _ in range(times):
        call()
    return (time.process_time() - begin) / times * 1e6


async def timed_in_loop(call: Callable[[], Awaitable[object]], times: int) -> float:
    begin = time.process_time()
    for _ in range(times):
        await call()
    return (time.process_time() - begin) / times * 1e6


def tell(name: str, told: dict[str, tuple[list[float], list[float]]]) -> None:
    for form, (own, theirs) in told.items():
        print(f"{name:8} {form:28} ramp_client {statistics.median(own):7.1f} us   redis-py {statistics.median(theirs):7.1f} us   {statistics.median(own) / statistics.median(theirs):5.2f}")


def with_threads(url: str, port: int) -> None:
    told: dict[str, tuple[list[float], list[float]]] = {form: ([], []) for form in FORMS}
    with ramp_client.connect(url) as ramp, redis.Redis(port=port, decode_responses=True) as other:
        for _ in range(ROUNDS):
            for form, (own, theirs) in zip(FORMS, plain(ramp, other)):
                told[form][0].append(timed(own, calls_of(form)))
                told[form][1].append(timed(theirs, calls_of(form)))
    tell("threads", told)


async def with_tasks(url: str, port: int) -> None:
    told: dict[str, tuple[list[float], list[float]]] = {form: ([], []) for form in FORMS}
    async with ramp_client.AsyncClient(url) as ramp, redis.asyncio.Redis(port=port, decode_responses=True) as other:
        for _ in range(ROUNDS):
            for form, (own, theirs) in zip(FORMS, in_loop(ramp, other)):
                told[form][0].append(await timed_in_loop(own, calls_of(form)))
                told[form][1].append(await timed_in_loop(theirs, calls_of(form)))
    tell("asyncio", told)


def connects(count: int) -> float:
    """Milliseconds of a connect, beside so many sessions: the middle of 15."""
    with Server("--sessions", "1024", "--clients", "1024", "t") as server:
        others = [ramp_client.connect(server.url()) for _ in range(count)]
        times = []
        for _ in range(15):
            begin = time.perf_counter()
            with ramp_client.connect(server.url()):
                times.append(time.perf_counter() - begin)
            ramp_client.session.NUMBERS = ramp_client.session.Numbers()  # as a process that has used no number yet
        for client in others:
            client.close()
    return statistics.median(times) * 1e3


def main() -> None:
    print(f"connect: beside no session {connects(0):.2f} ms, beside 400 {connects(400):.2f} ms, beside 1000 {connects(1000):.2f} ms", flush=True)
    with tempfile.TemporaryDirectory() as place, Server("--sessions", "4", "--epoch", "20000", "t") as server:
        path = f"{place}/redis.conf"
        with socket_port() as (holder, port):
            holder.close()
            pathlib.Path(path).write_text(f"port {port}\nbind 127.0.0.1\nsave ''\nappendonly no\ndir {place}\n", "ascii")
            other = subprocess.Popen(["redis-server", path], stdout=subprocess.DEVNULL)
        try:
            time.sleep(1)
            with_threads(server.url(), port)
            asyncio.run(with_tasks(server.url(), port))
        finally:
            other.terminate()
            other.wait(10)


class socket_port:
    """A port that was free just now."""

    def __enter__(self) -> tuple[Any, int]:
        import socket
        holder = socket.create_server(("127.0.0.1", 0))
        return holder, holder.getsockname()[1]

    def __exit__(self, *_: object) -> None:
        pass


if __name__ == "__main__":
    main()
