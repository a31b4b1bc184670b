"""A connection of the client of threads: bytes out, lines in, each within its time."""
from __future__ import annotations

import select
import socket
import time
from typing import Any, Optional

from .limits import LINE_LIMIT
from .policy import Options
from .session import Ended, Exchange, Late, Overlong, Stale

CHUNK = 1 << 16
UNASKED = "sent what nobody asked for"
UNENDED = f"sent {LINE_LIMIT} bytes without a line's end"


def cut_lines(begun: str, told: bytes, wanted: Exchange) -> str:
    """Appends whole lines to the answers, as many as are missing, and returns the rest.

    Decoding as Latin-1 keeps each byte as one character, so a byte that is not ASCII is found when the line is read."""
    *whole, rest = (begun + told.decode("latin-1")).split("\n", wanted.count - len(wanted.answers))
    wanted.answers += whole
    return rest


class Wire:
    """One connection at a time. It is used by one thread at a time."""

    def __init__(self) -> None:
        self._socket: Optional[socket.socket] = None
        self._poll: Any = None
        self._timeout: Optional[float] = None
        self._begun = ""

    def connect(self, options: Options) -> None:
        self.close()
        self._timeout = options.timeout
        try:
            self._socket = socket.create_connection((options.host, options.port), options.timeout)
        except socket.timeout:
            raise Late from None
        self._socket.setsockopt(socket.IPPROTO_TCP, socket.TCP_NODELAY, 1)
        if hasattr(select, "poll"):
            self._poll = select.poll()
            self._poll.register(self._socket, select.POLLIN)

    def exchange(self, wanted: Exchange) -> None:
        """Sends and reads. Each answer has its own time, from the one before it on."""
        connection = self._socket
        if connection is None:
            raise Stale
        self._look_for_news(connection)
        try:
            connection.sendall(wanted.data)
            while len(wanted.answers) < wanted.count:
                self._read_lines(connection, wanted)
        except socket.timeout:
            raise Late from None
        if self._begun:
            raise Overlong(UNASKED)

    def close(self) -> None:
        if self._socket is not None:
            self._socket.close()
        self._socket = None
        self._begun = ""

    def _look_for_news(self, connection: socket.socket) -> None:
        """Checks whether the peer has closed the connection, or sent something unasked, since the last exchange."""
        if self._poll.poll(0) if self._poll else select.select([connection], [], [], 0)[0]:
            try:
                told = connection.recv(CHUNK)
            except OSError:
                told = b""
            raise Overlong(UNASKED) if told else Stale()

    def _read_lines(self, connection: socket.socket, wanted: Exchange) -> None:
        """Reads until one answer more is there at least."""
        before = len(wanted.answers)
        ends = time.monotonic() + self._timeout if self._timeout is not None else None
        is_short = False
        try:
            while True:
                told = connection.recv(CHUNK)
                if not told:
                    raise Ended
                self._begun = cut_lines(self._begun, told, wanted)
                if len(self._begun) > LINE_LIMIT:
                    raise Overlong(UNENDED if len(wanted.answers) < wanted.count else UNASKED)
                if len(wanted.answers) > before:
                    return
                if ends is not None:
                    connection.settimeout(max(ends - time.monotonic(), 0.000001))
                    is_short = True
        finally:
            if is_short:
                connection.settimeout(self._timeout)
