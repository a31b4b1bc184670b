"""Servers for tests: `ramp serve`, and one that says what a script has it say. All listen at 127.0.0.1 alone."""
from __future__ import annotations

import os
import pathlib
import re
import socket
import subprocess
import threading
from typing import Callable, Optional

TOP = pathlib.Path(__file__).resolve().parents[3]
ALL = 120.0
"""Seconds that a test waits for anything at most."""


def program() -> str:
    """The program under test: RAMP_PROGRAM, else the proved one, else the one of ./try."""
    named = os.environ.get("RAMP_PROGRAM")
    for path in [named] if named else [TOP / "crates/ramp/out/ramp", TOP / ".tried/ramp"]:
        if path and os.access(path, os.X_OK):
            return str(path)
    raise SystemExit(f"no program: {named or 'neither ./ramp nor ./try has built one'}; RAMP_PROGRAM names it")


class Server:
    """`ramp serve --stay` with these words, until it is stopped or killed."""

    def __init__(self, *words: str, port: int = 0):
        self.process = subprocess.Popen([program(), "serve", "--stay", "--port", str(port), *words], stdin=subprocess.PIPE, stdout=subprocess.PIPE, text=True)
        assert self.process.stdout is not None
        told = self.process.stdout.readline()
        if not told.startswith("listening "):
            self.kill()
            raise OSError(f"serve {' '.join(words)} at port {port}: {told!r}")
        self.port = int(told.split()[1])

    def url(self, tenant: str = "t", options: str = "?timeout=20") -> str:
        """Its address, with a timeout that suits a machine on which others are at work."""
        return f"ramp://127.0.0.1:{self.port}/{tenant}{options}"

    def stop(self) -> list[str]:
        """Ends it well, and returns the lines of the verdict."""
        told, _ = self.process.communicate(timeout=2 * ALL)
        return told.splitlines()

    def kill(self) -> None:
        self.process.kill()
        self.process.communicate()

    def __enter__(self) -> Server:
        return self

    def __exit__(self, *_: object) -> None:
        if self.process.poll() is None:
            self.kill()
        for stream in (self.process.stdin, self.process.stdout):
            if stream is not None:
                stream.close()


class Listener:
    """A listener whose connections, one at a time, are handled by a function in a thread of its own."""

    def __init__(self, handle: Callable[[socket.socket], None]):
        self._listener = socket.create_server(("127.0.0.1", 0))
        self.port = self._listener.getsockname()[1]
        self._handle = handle
        self._now: Optional[socket.socket] = None
        self.fault: Optional[BaseException] = None
        self._thread = threading.Thread(target=self._serve, daemon=True)
        self._thread.start()

    def url(self, tenant: str = "t", options: str = "") -> str:
        return f"ramp://127.0.0.1:{self.port}/{tenant}{options}"

    def _serve(self) -> None:
        while True:
            try:
                connection, _ = self._listener.accept()
            except OSError:
                return
            self._now = connection
            try:
                connection.setsockopt(socket.IPPROTO_TCP, socket.TCP_NODELAY, 1)
                connection.settimeout(ALL)
                self._handle(connection)
            except OSError:
                pass
            except BaseException as error:  # told by `end`
                self.fault = self.fault or error
            finally:
                connection.close()

    def end(self) -> None:
        """Stops listening, and raises what went wrong in its thread."""
        try:
            self._listener.shutdown(socket.SHUT_RDWR)
        except OSError:
            pass
        self._listener.close()
        self._thread.join(0.05)
        if self._thread.is_alive() and self._now is not None:
            try:
                self._now.shutdown(socket.SHUT_RDWR)
            except OSError:
                pass
        self._thread.join(ALL)
        if self.fault is not None:
            raise self.fault


def text_of(token: str) -> str:
    """What a token of the cases stands for: %XX is a byte, {N*TEXT} a repetition, '' the empty text."""
    if token == "''":
        return ""
    token = re.sub(r"\{(\d+)\*([^{}]*)\}", lambda found: int(found[1]) * found[2], token)
    data = re.sub(rb"%([0-9A-Fa-f]{2})", lambda found: bytes([int(found[1], 16)]), token.encode())
    return data.decode("utf-8", "surrogateescape")


class Scripted:
    """A server of script: lines `accept`, `hear LINE`, `say TEXT`, `raw TEXT`, `shut` and `wait`, as the cases have them."""

    def __init__(self, script: list[str]):
        self.left = list(script)
        self._listener = Listener(self._follow)
        self.url = self._listener.url

    def _follow(self, connection: socket.socket) -> None:
        if not self.left or self.left.pop(0) != "accept":
            raise AssertionError("a connection that the script does not have")
        with connection.makefile("rb") as lines:
            while self.left and self.left[0] != "accept":
                word, _, rest = self.left[0].partition(" ")
                text = text_of(rest).encode("utf-8", "surrogateescape")
                if word == "hear":
                    heard = lines.readline()
                    if heard != text + b"\n":
                        raise AssertionError(f"expected {text!r}, heard {heard!r}")
                elif word in ("say", "raw"):
                    connection.sendall(text + (b"\n" if word == "say" else b""))
                self.left.pop(0)
                if word == "shut":
                    return
            lines.read()  # until the client has closed

    def end(self) -> None:
        self._listener.end()
        if self.left:
            raise AssertionError(f"not done of the script: {self.left}")
