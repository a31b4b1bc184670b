#!/usr/bin/env python3
"""200 threads over one Pool, and 2,000 tasks over one AsyncPool, over a server that is killed and started again twice, and over connections
that are cut all the time: each get has to be right, and each put's outcome told truly. `load.py --seconds 60` is the long form; ./test
runs a short one."""
from __future__ import annotations

import argparse
import asyncio
import collections
import pathlib
import random
import socket
import sys
import threading
import time
from typing import Any, Callable

sys.path.insert(0, str(pathlib.Path(__file__).resolve().parents[1]))

import ramp_client
from history import DONE, NOT_DONE, UNKNOWN, Get, History, Put, stamp_of
from servers import ALL, Server

KEYS = [f"k{n}" for n in range(48)]
WORDS = ["--sessions", "64", "--clients", "1024", "--slots", "4096", "--items", "512", "--epoch", "20000", "t"]


class Restarts:
    """A server on one port, which is killed and started again in between."""

    def __init__(self, history: History):
        self.history = history
        self.begun = threading.Event()
        self.server = Server(*WORDS)
        self.port = self.server.port

    def restart(self) -> None:
        self.history.generation += 1
        self.server.__exit__()
        ends = time.monotonic() + ALL
        while True:
            try:
                self.server = Server(*WORDS, port=self.port)
                break
            except OSError:
                if time.monotonic() > ends:
                    raise
                time.sleep(0.02)
        self.history.generation += 1

    def run(self, seconds: float) -> None:
        """Restarts it twice in these seconds, from when the workers have begun."""
        self.begun.wait(ALL)
        for _ in range(2):
            time.sleep(seconds / 3)
            self.restart()
        time.sleep(seconds / 3)


class Cuts:
    """Shuts a connection of these clients down, every so often, while its client may be waiting for an answer."""

    def __init__(self, socket_of: Callable[[Any], Any], clients: list[Any]):
        self.count = 0
        self._socket_of, self._clients = socket_of, clients
        self._ended = threading.Event()
        self._thread = threading.Thread(target=self._run)

    def _run(self) -> None:
        draw = random.Random(1)
        while not self._ended.wait(0.03):
            try:
                self._socket_of(draw.choice(self._clients)).shutdown(socket.SHUT_RDWR)
                self.count += 1
            except (OSError, AttributeError):
                pass  # it has none just now

    def __enter__(self) -> None:
        self._thread.start()

    def __exit__(self, *_: object) -> None:
        self._ended.set()
        self._thread.join(ALL)


def outcome_of(error: ramp_client.RampError) -> str:
    """What a put's error says of it."""
    return UNKNOWN if isinstance(error, (ramp_client.OutcomeUnknown, ramp_client.FalseAnswer)) else NOT_DONE


def told_of(items: dict[str, ramp_client.Item]) -> dict[str, tuple[object, tuple[int, int]]]:
    return {key: (item.value, stamp_of(item.stamp)) for key, item in items.items()}


class Worker:
    """Draws what a thread or a task does next."""

    def __init__(self, history: History, name: int, counts: collections.Counter[str]):
        self.history, self.name, self.counts = history, name, counts
        self.draw = random.Random(name)
        self.puts = 0

    def next(self) -> tuple[list[str], str]:
        """Keys, and a value where they are to be written."""
        keys = self.draw.sample(KEYS, self.draw.randint(1, 4))
        if self.draw.random() < 0.5:
            return keys, ""
        self.puts += 1
        return keys, f"{self.name}.{self.puts}"

    def got(self, begin: float, first: int, items: dict[str, ramp_client.Item]) -> None:
        last, end = self.history.generation, time.perf_counter()
        self.history.gets.append(Get(begin, end, first, last, told_of(items)))  # type: ignore[arg-type]
        self.counts["get"] += 1

    def failed(self, what: str, error: ramp_client.RampError) -> None:
        """Counts an error; one that this load has no cause for is a fault."""
        self.counts[f"{what}: {type(error).__name__}"] += 1
        if not isinstance(error, (ramp_client.Lost, ramp_client.OutcomeUnknown, ramp_client.TryAgain, ramp_client.Closed)):
            self.history.strange.append(f"{what}: {error!r}: {error}")

    def told(self, put: Put, stamp: str) -> None:
        self.history.end_put(put, DONE, stamp)
        self.counts["put"] += 1

    def untold(self, put: Put, error: ramp_client.RampError) -> None:
        self.history.end_put(put, outcome_of(error), None)
        self.failed("put", error)

    def run(self, pool: ramp_client.Pool) -> None:
        """Works until the pool is closed."""
        while True:
            keys, value = self.next()
            begin, first = time.perf_counter(), self.history.generation
            put = self.history.begin_put(value, keys) if value else None
            try:
                if put:
                    self.told(put, pool.put(dict.fromkeys(keys, value)))
                else:
                    self.got(begin, first, pool.get(*keys))
            except ramp_client.RampError as error:
                if put:
                    self.untold(put, error)
                elif not isinstance(error, ramp_client.Closed):
                    self.failed("get", error)
                if isinstance(error, ramp_client.Closed):
                    return

    async def run_in_loop(self, pool: ramp_client.AsyncPool) -> None:
        while True:
            keys, value = self.next()
            begin, first = time.perf_counter(), self.history.generation
            put = self.history.begin_put(value, keys) if value else None
            try:
                if put:
                    self.told(put, await pool.put(dict.fromkeys(keys, value)))
                else:
                    self.got(begin, first, await pool.get(*keys))
            except ramp_client.RampError as error:
                if put:
                    self.untold(put, error)
                elif not isinstance(error, ramp_client.Closed):
                    self.failed("get", error)
                if isinstance(error, ramp_client.Closed):
                    return


def with_threads(url: str, history: History, seconds: float, count: int, size: int, counts: collections.Counter[str], begun: threading.Event) -> None:
    with ramp_client.Pool(url, size=size, wait=None, timeout=20) as pool:
        threads = [threading.Thread(target=Worker(history, name, counts).run, args=(pool,), daemon=True) for name in range(count)]
        cuts = Cuts(lambda client: client._wire._socket, pool._clients)
        with cuts:
            for thread in threads:
                thread.start()
            begun.set()
            time.sleep(seconds)
            pool.close()
            for thread in threads:
                thread.join(2 * ALL)
                if thread.is_alive():
                    history.strange.append("a thread hangs")
                    return
        counts["cut"] += cuts.count


def with_tasks(url: str, history: History, seconds: float, count: int, size: int, counts: collections.Counter[str], begun: threading.Event) -> None:
    async def run() -> None:
        async with ramp_client.AsyncPool(url, size=size, wait=None, timeout=20) as pool:
            cuts = Cuts(lambda client: client._wire._stream.transport.get_extra_info("socket"), list(pool._shared._free))
            with cuts:
                tasks = [asyncio.ensure_future(Worker(history, name, counts).run_in_loop(pool)) for name in range(count)]
                await asyncio.sleep(0)  # each has begun behind it
                begun.set()
                await asyncio.sleep(seconds)
                await pool.close()
                await asyncio.wait_for(asyncio.gather(*tasks), 2 * ALL)
            counts["cut"] += cuts.count

    asyncio.run(run())


def check(name: str, run: Callable[..., None], seconds: float, count: int, size: int) -> bool:
    """Runs one form over a server that is restarted twice, and says what came out."""
    history = History()
    counts: collections.Counter[str] = collections.Counter()
    restarts = Restarts(history)
    with_restarts = threading.Thread(target=restarts.run, args=(seconds,))
    with_restarts.start()
    try:
        run(f"ramp://127.0.0.1:{restarts.port}/t", history, seconds, count, size, counts, restarts.begun)
        with_restarts.join(2 * ALL)
        verdict = restarts.server.stop()
    finally:
        with_restarts.join(2 * ALL)
        restarts.server.__exit__()
    faults = history.faults()
    if verdict != ["checked t yes"]:
        faults.append(f"the server says {verdict}")
    if not counts["put"] or not counts["get"] or history.generation != 4:
        faults.append(f"too little was done: {dict(counts)}, generation {history.generation}")
    told = ", ".join(f"{number} {what}" for what, number in sorted(counts.items()))
    print(f"{name}: {count} of them for {seconds:g} s over a server restarted twice: {told}; {len(faults)} faults", flush=True)
    for fault in faults[:20]:
        print(f"{name}: {fault}", flush=True)
    return not faults


def main() -> int:
    parser = argparse.ArgumentParser(description=__doc__)
    parser.add_argument("--seconds", type=float, default=60)
    parser.add_argument("--threads", type=int, default=200)
    parser.add_argument("--tasks", type=int, default=2000)
    parser.add_argument("--size", type=int, default=32, help="sessions of a pool")
    words = parser.parse_args()
    is_right = check("threads", with_threads, words.seconds, words.threads, words.size)
    is_right = check("tasks", with_tasks, words.seconds, words.tasks, words.size) and is_right
    return 0 if is_right else 1


if __name__ == "__main__":
    sys.exit(main())
