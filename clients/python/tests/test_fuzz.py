"""Both clients against servers that are hostile: each call ends with a right answer or an error of the client's own, and never with a wrong item."""
from __future__ import annotations

import collections
import random
import socket
import time
import unittest
from typing import Any, Optional

import ramp_client

from cases import Loop, make_client
from servers import Listener

ROUNDS = 120
TIMEOUT = 0.1


class Hostile:
    """A server that answers rightly, or in one of many wrong ways. The value of an item names its key and the line that asked for it."""

    def __init__(self, seed: int):
        self.draw = random.Random(seed)
        self.asked = 0
        self.ways: collections.Counter[str] = collections.Counter()
        self.listener = Listener(self.serve)

    def serve(self, connection: socket.socket) -> None:
        self.client, self.counter = "1", 0
        while True:
            piece = connection.recv(1 << 16)
            while piece and not piece.endswith(b"\n"):
                piece += connection.recv(1 << 16)
            # A piece has a get and a put, or more, and is answered as one.
            if not piece or not self.answer(connection, [line.split(" ") for line in piece.decode().splitlines()]):
                return

    def right(self, words: list[str]) -> str:
        """The right answer to a line."""
        self.asked += 1
        if words[0] == "hello":
            is_first, is_any = not self.counter, words[2] == "any"
            if is_first:
                self.client = "16" if is_any else words[2]
            self.counter = max(self.counter, 1)
            return ("ready 0 as 16" if is_any else "ready 0") if is_first else "refused 12"
        if words[0] == "info":
            return "info version=0.3.0 store=7 newest=no"
        if words[0] == "get":
            return " ".join(["read", *(f"{key}@{self.counter}.7=v.{key}.{self.asked}" for key in words[1:])])
        if words[0] == "find":
            return f"list {words[1]}@{self.counter}.7#{words[1]}=v.{words[1]}.{self.asked}"
        if words[0] == "put":
            self.counter += 1
            return f"done {self.counter}.{self.client}"
        return "bye"

    def answer(self, connection: socket.socket, piece: list[list[str]]) -> bool:
        """Answers a piece in some way; whether the connection goes on."""
        right = [self.right(words) for words in piece]
        data = "".join(line + "\n" for line in right).encode()
        way = "right" if self.draw.random() < 0.4 else self.draw.choice(list(WAYS))
        self.ways[way] += 1
        for told in WAYS[way](self, right, data):
            if told is None:
                time.sleep(TIMEOUT * 1.5)
            elif not told:
                return False
            else:
                connection.sendall(told)
        return True


def bytewise(server: Hostile, right: list[str], data: bytes) -> list[Optional[bytes]]:
    return [data[n:n + 1] for n in range(len(data))]


def cut(server: Hostile, right: list[str], data: bytes) -> list[Optional[bytes]]:
    return [data[:server.draw.randrange(len(data))] or b"r", b""]


def late(server: Hostile, right: list[str], data: bytes) -> list[Optional[bytes]]:
    return [None, data]


def half_late(server: Hostile, right: list[str], data: bytes) -> list[Optional[bytes]]:
    place = server.draw.randrange(len(data))
    return [data[:place] or data[:1], None, data[place:] or data[-1:]]


def twice(server: Hostile, right: list[str], data: bytes) -> list[Optional[bytes]]:
    return [data + data]


def ahead(server: Hostile, right: list[str], data: bytes) -> list[Optional[bytes]]:
    return [b"done 9.9\n" + data]


def behind(server: Hostile, right: list[str], data: bytes) -> list[Optional[bytes]]:
    return [data[:data.index(b"\n") + 1] + b"read k1@1.1=v.k1.0\n" + data[data.index(b"\n") + 1:]]


def other_key(server: Hostile, right: list[str], data: bytes) -> list[Optional[bytes]]:
    return [data.replace(b"read k", b"read j").replace(b"#k", b"#j").replace(b"done ", b"done 1")]


def other_order(server: Hostile, right: list[str], data: bytes) -> list[Optional[bytes]]:
    return ["".join(" ".join([*line.split(" ")[:1], *line.split(" ")[:0:-1]]) + "\n" for line in reversed(right)).encode()]


def fewer(server: Hostile, right: list[str], data: bytes) -> list[Optional[bytes]]:
    return ["".join(" ".join(line.split(" ")[:-1]) + "\n" for line in right).encode()]


def long_line(server: Hostile, right: list[str], data: bytes) -> list[Optional[bytes]]:
    return [data[:-1] + b"a" * 4096 + b"\n"]


def endless(server: Hostile, right: list[str], data: bytes) -> list[Optional[bytes]]:
    return [b"read k1@1.1=" + b"a" * 100000]


def garbage(server: Hostile, right: list[str], data: bytes) -> list[Optional[bytes]]:
    return [server.draw.randbytes(server.draw.randint(1, 200)) + b"\n"]


def control(server: Hostile, right: list[str], data: bytes) -> list[Optional[bytes]]:
    place = server.draw.randrange(len(data) - 1)
    return [data[:place] + bytes([server.draw.choice([0, 9, 11, 13, 127, 128, 255])]) + data[place + 1:]]


def refusals(server: Hostile, right: list[str], data: bytes) -> list[Optional[bytes]]:
    return [f"{server.draw.choice(['refused', 'ended', 'restart'])} {server.draw.choice(['', '0', '12', '15', '17', '19', '30', '99', '-1', '1' * 30, 'x 1.1'])}\n".encode()]


def shut(server: Hostile, right: list[str], data: bytes) -> list[Optional[bytes]]:
    return [b""]


def shut_behind(server: Hostile, right: list[str], data: bytes) -> list[Optional[bytes]]:
    return [data, b""]


def another(server: Hostile, right: list[str], data: bytes) -> list[Optional[bytes]]:
    return [b"HTTP/1.1 400 Bad Request\r\nContent-Length: 0\r\n\r\n", b""]


WAYS: dict[str, Any] = {way.__name__: way for way in (bytewise, cut, late, half_late, twice, ahead, behind, other_key, other_order, fewer, long_line, endless, garbage,
                                                      control, refusals, shut, shut_behind, another)}
WAYS["right"] = lambda server, right, data: [data]


class Fuzz(unittest.TestCase):
    def call(self, client: Any, server: Hostile, draw: random.Random) -> str:
        """One call, and what became of it. An item that it returns is the one that was asked for, told to a line of this call."""
        keys = draw.sample(["k1", "k2", "k3"], draw.randint(1, 3))
        before = server.asked
        kind = draw.choice(["get", "put", "blind", "find", "pipe"])
        try:
            if kind == "get":
                items = client.get(*keys)
                self.assertEqual(list(items), keys)
            elif kind == "find":
                items = client.find(keys[0])
            elif kind == "pipe":
                first, stamp = client.pipe(lambda pipeline: [pipeline.get(*keys), pipeline.put({"k1": "1"})])
                items = first.result()
                self.assertRegex(stamp.result(), r"^[0-9]+\.[0-9]+$")
            else:
                self.assertRegex(client.put(dict.fromkeys(keys, "1"), blind=kind == "blind"), r"^[0-9]+\.[0-9]+$")
                items = {}
        except ramp_client.RampError as error:
            self.assertTrue(str(error))
            return type(error).__name__
        for key, item in items.items():
            self.assertEqual(item.key, key)
            self.assertIn(key, keys)
            name, asked = item.value.rsplit(".", 1)
            self.assertEqual(name, f"v.{key}")
            self.assertGreater(int(asked), before)
        return "right"

    def run_with(self, loop: Any, seed: int) -> None:
        server = Hostile(seed)
        client = make_client(loop, server.listener.url(), client=5, timeout=TIMEOUT, retry=ramp_client.Retry(attempts=1, restarts=2))
        draw = random.Random(seed)
        told = collections.Counter(self.call(client, server, draw) for _ in range(ROUNDS))
        client.own._session.lose()
        client.close()
        server.listener.end()
        for name in ("right", "ConnectionLost", "FalseAnswer", "NoAnswer", "OutcomeUnknown"):
            self.assertGreater(told[name], 0, f"seed {seed}: {told}, {server.ways}")

    def test_client_of_threads(self) -> None:
        self.run_with(None, 1)

    def test_client_of_asyncio(self) -> None:
        with Loop() as loop:
            self.run_with(loop, 2)


if __name__ == "__main__":
    unittest.main()
