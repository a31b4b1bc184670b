"""Where the server is, and what a client does by itself if a call fails."""
from __future__ import annotations

import math
import random
import re
import urllib.parse
from dataclasses import dataclass, field
from typing import Any, Optional

from .errors import CannotConnect, ConnectionLost, Invalid, NoAnswer, RampError, Refused
from .lines import check

CLIENT = "client"
"""Of `newest`: a put reads its keys first, so that it is the newest, unless the server reports that its puts are."""

SERVER = "server"
"""Of `newest`: the server's puts are the newest (--newest). One that reports otherwise is `Invalid`; one that reports nothing is believed."""

WARN, RAISE = "warn", "raise"
"""Of `new_store`: what happens where a connection was opened again and the store behind it is another one."""

TIMEOUT = 5.0
"""Seconds that each answer may take, where no timeout is given."""


@dataclass(frozen=True)
class Retry:
    """What is tried again, how often, and with what pause. `Retry(attempts=1)` tries nothing again.

    | what failed | what is tried again |
    |---|---|
    | no connection was made, or it was closed before anything was sent on it | any call |
    | the connection was lost before the answer | a read (get, find, keep). A put raises `OutcomeUnknown`, and is never sent again: its second stamp would be another one, above writes that others did in between |
    | refused or ended by a number of `refusals` | any call: such a put is not done and never read. After 19 the client connects again first |
    | `hello` answered 12 (in use) | the `hello` |
    | no answer in time; any other refusal; a false answer | nothing |

    Apart from these, a read that is answered `restart` is asked for again at once, `restarts` times at most."""

    attempts: int = 8
    """How often a call is tried in all."""

    pause: float = 0.05
    """Seconds before the second try. Each further pause is twice as long; each is drawn from half of that to all of it."""

    longest: float = 1.0
    """The longest pause. Of 8 attempts the pauses take at most 3.55 seconds in all, as long as a server may take to come back."""

    refusals: frozenset[int] = field(default_factory=lambda: frozenset((19, 20, 28)))
    restarts: int = 100

    def __post_init__(self) -> None:
        numbers: dict[str, tuple[type, ...]] = {"attempts": (int,), "restarts": (int,), "pause": (int, float), "longest": (int, float)}
        for name, kinds in numbers.items():
            if not isinstance(value := getattr(self, name), kinds):
                raise Invalid(f"{name} of a Retry is a {'number of seconds' if float in kinds else 'whole number'}, and not {value!r}", "retry")
        if not isinstance(self.refusals, (frozenset, set)) or not all(isinstance(it, int) for it in self.refusals):
            raise Invalid(f"refusals of a Retry is a set of numbers, as in frozenset((19, 20, 28)), and not {self.refusals!r}", "retry")
        if self.attempts < 1 or self.restarts < 0 or not 0 <= self.pause <= self.longest < math.inf:
            raise Invalid(f"{self!r}: at least 1 attempt, 0 restarts, and pauses of 0 seconds up to the longest", "retry")

    def pause_before(self, attempt: int) -> float:
        """Seconds before this try, from the second on."""
        return min(self.longest, self.pause * 2.0 ** min(attempt - 2, 64)) * random.uniform(0.5, 1.0)

    def covers(self, error: RampError) -> bool:
        """Whether a call that so failed, and is not done, is tried again."""
        if isinstance(error, Refused):
            return error.number in self.refusals or error.number == 12
        return isinstance(error, (CannotConnect, ConnectionLost)) and not isinstance(error, NoAnswer)


def check_seconds(name: str, seconds: Any, may_be_zero: bool = False) -> None:
    """Checks a time that a program gave; None is one without an end."""
    if seconds is None or (isinstance(seconds, (int, float)) and not isinstance(seconds, bool) and 0 <= seconds < math.inf and (seconds or may_be_zero)):
        return
    raise Invalid(f"{name} is a number of seconds{'' if may_be_zero else ' above 0'}, as in {name}=5, or None, and not {seconds!r}", name)


@dataclass(frozen=True)
class Options:
    """A server's address, and how a client speaks to it. `read_url` and keyword arguments make it."""

    host: str
    port: int
    tenant: str
    client: Optional[int] = None
    timeout: Optional[float] = TIMEOUT
    newest: str = CLIENT
    retry: Retry = field(default_factory=Retry)
    new_store: str = WARN

    def __post_init__(self) -> None:
        check("tenant", self.tenant)
        if not isinstance(self.port, int) or not 1 <= self.port <= 65535:
            raise Invalid(f"a port is 1 to 65535, and not {self.port!r}", "port")
        if self.client is not None and (not isinstance(self.client, int) or not 1 <= self.client <= 65535):
            raise Invalid(f"a client's number is 1 to 65535, and not {self.client!r}", "client")
        check_seconds("timeout", self.timeout)
        if self.newest not in (CLIENT, SERVER):
            raise Invalid(f"newest is {CLIENT} or {SERVER}, and not {self.newest!r}", "newest")
        if self.new_store not in (WARN, RAISE):
            raise Invalid(f"new_store is {WARN} or {RAISE}, and not {self.new_store!r}", "new_store")
        if not isinstance(self.retry, Retry):
            raise Invalid(f"retry takes a Retry, as in retry=Retry(attempts=3), and not {self.retry!r}", "retry")

    @property
    def where(self) -> str:
        return f"[{self.host}]:{self.port}" if ":" in self.host else f"{self.host}:{self.port}"

    @property
    def url(self) -> str:
        """The address, without the options."""
        return f"ramp://{self.where}/{self.tenant}"


FORM = "ramp://HOST:PORT/TENANT, and behind it ?client=NUMBER&timeout=SECONDS&newest=server as needed"


def read_url(url: str, client: Optional[int] = None, timeout: Optional[float] = TIMEOUT, newest: str = CLIENT, retry: Optional[Retry] = None,
             new_store: str = WARN) -> Options:
    """The options that a URL names, and these where it names none."""
    if not isinstance(url, str):
        raise Invalid(f"{url!r} is no URL: {FORM}", "url")
    url = re.sub(r"//[^/?#]*@", "//***@", url)  # the part before the @ may be a password
    try:
        parts = urllib.parse.urlsplit(url)
        host, port = parts.hostname, parts.port
        pairs = urllib.parse.parse_qsl(parts.query, keep_blank_values=True, strict_parsing=True) if parts.query else []
    except ValueError as error:
        raise Invalid(f"{url!r}: {error}: {FORM}", "url") from None
    tenant = parts.path[1:]
    if parts.scheme != "ramp" or not host or not port or "@" in parts.netloc or "/" in tenant or not tenant or "#" in url:
        raise Invalid(f"{url!r} is not {FORM}", "url")
    named = dict(pairs)
    if strangers := set(named) - {"client", "timeout", "newest"}:
        raise Invalid(f"{url!r}: no option {', '.join(sorted(strangers))}: {FORM}", "url")
    if "client" in named:
        client = int(named["client"]) if named["client"].isdecimal() and named["client"].isascii() else 0
    if "timeout" in named:
        try:
            timeout = float(named["timeout"])
        except ValueError:
            raise Invalid(f"{url!r}: {named['timeout']!r} is no number of seconds", "timeout") from None
    return Options(host, port, tenant, client, timeout, named.get("newest", newest), Retry() if retry is None else retry, new_store)
