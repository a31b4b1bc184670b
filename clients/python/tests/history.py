"""A history of puts and gets over servers that are restarted, and what has to hold of it.

Times are of one clock. A generation is even while a server runs, and odd from before it is killed until it is known that the next one
listens. So a call whose generation is the same even number before and after it was answered by that server. In an odd one the server
before may answer yet, and the next one already."""
from __future__ import annotations

import bisect
import threading
import time
from typing import Optional

Stamp = tuple[int, int]

UNDER_WAY, DONE, UNKNOWN, NOT_DONE = "in flight", "done", "unknown", "not done"


def stamp_of(text: str) -> Stamp:
    counter, client = text.split(".")
    return int(counter), int(client)


def oldest(generation: int) -> int:
    """The oldest server, by its even number, that may answer in this generation."""
    return generation - generation % 2


def newest(generation: int) -> int:
    """The newest one."""
    return generation + generation % 2


class Put:
    """A put: its keys, all with one value that no other put has, and what became of it."""

    __slots__ = ("keys", "begin", "end", "first", "last", "outcome", "stamp")

    def __init__(self, keys: list[str], begin: float, first: int):
        self.keys, self.begin, self.first = keys, begin, first
        self.end, self.last = float("inf"), 1 << 30
        self.outcome = UNDER_WAY
        self.stamp: Optional[Stamp] = None


class Get:
    """A get that was answered: of each key its value and stamp."""

    __slots__ = ("begin", "end", "first", "last", "told")

    def __init__(self, begin: float, end: float, first: int, last: int, told: dict[str, tuple[Optional[str], Stamp]]):
        self.begin, self.end, self.first, self.last, self.told = begin, end, first, last, told


class History:
    """What all workers asked and were answered."""

    def __init__(self) -> None:
        self.generation = 0
        self.puts: dict[str, Put] = {}
        self.gets: list[Get] = []
        self.failed_gets = 0
        self.strange: list[str] = []
        self._lock = threading.Lock()

    def begin_put(self, value: str, keys: list[str]) -> Put:
        put = Put(keys, time.perf_counter(), self.generation)
        with self._lock:
            self.puts[value] = put
        return put

    def end_put(self, put: Put, outcome: str, stamp: Optional[str]) -> None:
        put.last, put.end = self.generation, time.perf_counter()
        put.stamp = stamp_of(stamp) if stamp else None
        put.outcome = outcome

    def faults(self) -> list[str]:
        """What does not hold; nothing where each get is right and each put's outcome was reported truly."""
        found = list(self.strange)
        done = self._done_by_key()
        for get in self.gets:
            found += self._get_faults(get, done)
        for value, put in self.puts.items():
            found += self._put_faults(value, put, done)
        return found

    def _done_by_key(self) -> dict[tuple[int, str], tuple[list[float], list[Stamp]]]:
        """Of each generation and key: when puts that were done there ended, ascending, and the greatest stamp until then."""
        done: dict[tuple[int, str], list[tuple[float, Stamp]]] = {}
        for put in self.puts.values():
            if put.outcome == DONE and put.first == put.last and put.first % 2 == 0 and put.stamp:
                for key in put.keys:
                    done.setdefault((put.first, key), []).append((put.end, put.stamp))
        greatest = {}
        for name, ended in done.items():
            ended.sort()
            stamps: list[Stamp] = []
            for _, stamp in ended:
                stamps.append(max(stamp, stamps[-1]) if stamps else stamp)
            greatest[name] = ([end for end, _ in ended], stamps)
        return greatest

    @staticmethod
    def _before(done: dict[tuple[int, str], tuple[list[float], list[Stamp]]], generation: int, key: str, begin: float) -> Stamp:
        """The greatest stamp of a put of this key that was done before."""
        ends, stamps = done.get((generation, key), ([], []))
        place = bisect.bisect_left(ends, begin)
        return stamps[place - 1] if place else (0, 0)

    def _get_faults(self, get: Get, done: dict[tuple[int, str], tuple[list[float], list[Stamp]]]) -> list[str]:
        found = []
        is_sure = get.first == get.last and get.first % 2 == 0
        for key, (value, stamp) in get.told.items():
            if is_sure and stamp < self._before(done, get.first, key, get.begin):
                found.append(f"{key} is read at {stamp}, and {self._before(done, get.first, key, get.begin)} was done before")
            if value is None:
                continue
            put = self.puts.get(value)
            if put is None or key not in put.keys:
                found.append(f"{key} is read as {value}, which nobody wrote there")
                continue
            if put.outcome == NOT_DONE:
                found.append(f"{key} is read as {value}, which was reported as not done")
            if put.stamp and put.stamp != stamp:
                found.append(f"{key} is read as {value} at {stamp}, and was done at {put.stamp}")
            if get.end < put.begin or oldest(get.first) > newest(put.last) or oldest(put.first) > newest(get.last):
                found.append(f"{key} is read as {value} where that was not written")
            for other in put.keys:
                if other in get.told and get.told[other][1] < stamp:
                    found.append(f"{key} is read as {value} at {stamp}, and {other} of the same put at {get.told[other][1]}")
        return found

    def _put_faults(self, value: str, put: Put, done: dict[tuple[int, str], tuple[list[float], list[Stamp]]]) -> list[str]:
        if put.outcome == UNDER_WAY:
            return [f"{value} was never answered"]
        if put.outcome != DONE or put.first != put.last or put.first % 2 or not put.stamp:
            return []
        return [f"{value} was done at {put.stamp}, below {self._before(done, put.first, key, put.begin)} of {key}, which was done before"
                for key in put.keys if put.stamp < self._before(done, put.first, key, put.begin)]
