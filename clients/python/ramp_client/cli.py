"""`ramp-cli`, a client at a terminal, in a pipe, or for one command."""
from __future__ import annotations

import argparse
import io
import json
import logging
import os
import re
import sys
from typing import NoReturn, Optional, TextIO

from .client import Client
from .errors import Invalid, RampError, Refused
from .metrics import Sizes
from .policy import Retry, read_url
from .prompt import Show, ask, edited, run
from .typed import GOOD, LISTED, REFUSED, USAGE, Answer, Asking, error_answer, misuse

HOST, PORT, TENANT = "127.0.0.1", 7000, "t"
PIPE_CLOSED, INTERRUPTED = 141, 130

ABOUT = "A client of `ramp serve` and rampd: a prompt; with a COMMAND one request; with lines at standard input, these."
MORE = f"""commands:
{LISTED}

The address is ramp://HOST:PORT/TENANT, with ?client=NUMBER and &timeout=SECONDS as needed. Without one it is that of RAMP_URL, or
ramp://{HOST}:{PORT}/{TENANT}; PORT and TENANT may be left out. Options stand before the command.

At the prompt Tab completes commands, keys and tags that were seen. The history is kept in ~/.local/state/ramp/history (XDG_STATE_HOME).
Lines of a pipe end with LF or CR LF, and each has an answer. To standard error go the error of a single command, and what is to be
said of the connection: that it was opened again, and that the store is a new one.

status: 0  all was answered well
        1  refused, by the store or before it was sent; or nothing stands there (get-text, get-json)
        2  a wrong option, address or command
        3  a write was sent, and is done or not: its answer is missing
        4  no connection, or it was lost
        5  an answer was false: trust no answer of this server
Of several lines the greatest counts."""


class Parser(argparse.ArgumentParser):
    """Says what is wrong in a sentence."""

    def error(self, message: str) -> NoReturn:
        print(f"ramp-cli: {message}; --help says what is right", file=sys.stderr)
        sys.exit(USAGE)


def parser() -> Parser:
    it = Parser(prog="ramp-cli", usage="ramp-cli [OPTIONS] [ramp://HOST:PORT/TENANT] [COMMAND ..]", description=ABOUT, epilog=MORE, allow_abbrev=False,
                formatter_class=argparse.RawDescriptionHelpFormatter)
    it.add_argument("-p", "--port", type=int, metavar="N", help="the server's port, instead of the address's")
    it.add_argument("-t", "--tenant", metavar="NAME", help="the tenant, instead of the address's")
    it.add_argument("-c", "--client", type=int, metavar="N", help="client number, 1 to 65535; without it one that is free")
    it.add_argument("--timeout", type=float, metavar="S", help="seconds that each answer may take (5)")
    it.add_argument("--status", type=int, metavar="PORT", help="port of the server's metrics, from which `info` reads sizes")
    it.add_argument("--json", action="store_true", help="print each answer as a JSON object, one a line")
    it.add_argument("--no-history", action="store_true", help="neither read nor keep a history")
    it.add_argument("--version", action="version", version=f"ramp-cli {version()}")
    it.add_argument("words", nargs=argparse.REMAINDER, help=argparse.SUPPRESS)
    return it


def version() -> str:
    from . import __version__
    return __version__


def address(named: Optional[str], port: Optional[int], tenant: Optional[str]) -> str:
    """The whole address, of one that may leave out its port and tenant."""
    url = named or os.environ.get("RAMP_URL") or f"ramp://{HOST}"
    found = re.fullmatch(r"(ramp://)(\[[^]/?@]*\]|[^:/?@\[]*)(?::(\d*))?(?:/([^?]*))?(\?.*)?", url)
    if not found:
        return url
    scheme, host, own_port, own_tenant, query = found.groups()
    return f"{scheme}{host or HOST}:{(own_port or PORT) if port is None else port}/{tenant or own_tenant or TENANT}{query or ''}"


def open_client(named: Optional[str], options: argparse.Namespace) -> Client:
    """The client of these options. `Invalid` where they are wrong."""
    url = address(named, options.port, options.tenant)
    read = read_url(url)
    # Lost connections are opened again at the next line, so that nobody waits long.
    retry = Retry(attempts=3, pause=0.05, longest=0.1)
    number = read.client if options.client is None else options.client
    client = Client(url.partition("?")[0], client=number, timeout=read.timeout if options.timeout is None else options.timeout, newest=read.newest, retry=retry)
    client._session.draws = False
    return client


def printing(is_json: bool, out: TextIO, errors: TextIO) -> Show:
    """Prints answers there, and those that are no good ones to `errors`."""
    def show(answer: Answer) -> None:
        print(json.dumps(answer.fields) if is_json else answer.line, file=errors if answer.status else out, flush=True)
    return show


def run_command(asking: Asking, words: list[str], is_json: bool) -> int:
    """One command. What is no answer goes to standard error, so that a script reads answers alone."""
    return ask(asking, words, printing(is_json, sys.stdout, sys.stdout if is_json else sys.stderr), printing(is_json, sys.stderr, sys.stderr))


def run_lines(asking: Asking, options: argparse.Namespace) -> int:
    """The lines of standard input, at a prompt where that is a terminal."""
    show, client = printing(options.json, sys.stdout, sys.stdout), asking.client
    if not sys.stdin.isatty():
        return run(asking, show, printing(options.json, sys.stderr, sys.stderr), False)
    print(f"client {client.number} of tenant {client.options.tenant} at {client.options.where}; `help` lists the commands, Ctrl-D ends")
    with edited(asking, not options.no_history):
        run(asking, show, show, True)
    return GOOD


def start(words: list[str]) -> int:
    options = parser().parse_args(words)
    words = options.words
    named = words.pop(0) if words and "://" in words[0] else None
    if words and words[0] != "help" and (wrong := misuse(words)):
        parser().error(f"{wrong}, and no address, which begins with ramp://" if words[0].isdecimal() and not named else wrong)
    if words[:1] == ["help"]:
        parser().print_help()
        return GOOD
    try:
        client = open_client(named, options)
    except Invalid as error:
        source = "RAMP_URL: " if error.kind == "url" and not named and "RAMP_URL" in os.environ else ""
        parser().error(f"{source}{error}")
    try:
        client.open()
        asking = Asking(client, Sizes(options.status))
        return run_command(asking, words, options.json) if words else run_lines(asking, options)
    except RampError as error:
        told = error_answer(error)
        where = f"tenant {client.options.tenant} at {client.options.where}: " if isinstance(error, Refused) else ""
        print(json.dumps(told.fields) if options.json else f"ramp-cli: {where}{error}", file=sys.stdout if options.json else sys.stderr)
        return told.status or REFUSED
    finally:
        close(client)


def close(client: Client) -> None:
    try:
        client.close()
    except RampError:
        pass


def main(words: Optional[list[str]] = None) -> int:
    """`ramp-cli` with these words, or those of the command line. Its status."""
    for stream in (sys.stdin, sys.stdout, sys.stderr):
        if isinstance(stream, io.TextIOWrapper):
            stream.reconfigure(errors="surrogateescape" if stream is sys.stdin else "backslashreplace")
    # What the client logs, an answer or a notice says here.
    logging.getLogger("ramp_client").addHandler(logging.NullHandler())
    try:
        return start(sys.argv[1:] if words is None else words)
    except BrokenPipeError:
        # Whoever read the answers has ended, and Python would complain when it flushes.
        os.dup2(os.open(os.devnull, os.O_WRONLY), sys.stdout.fileno())
        return PIPE_CLOSED
    except KeyboardInterrupt:
        print(file=sys.stderr)
        return INTERRUPTED
