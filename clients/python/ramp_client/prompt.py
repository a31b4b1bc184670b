"""The prompt: lines with a history and completion, and one that goes on when the server comes back."""
from __future__ import annotations

import contextlib
import os
import pathlib
import sys
from typing import Any, Callable, Iterator, Optional

from .typed import COMMANDS, GONE, GOOD, HELP, Answer, Asking, answer, words_of

MOST_LINES = 1000
"""How many lines the history keeps."""

ENDS = ("bye", "quit", "exit")

Show = Callable[[Answer], None]


def history_path() -> pathlib.Path:
    """Where the history is kept over sessions. `OSError` where this user has no folder for it."""
    state = os.environ.get("XDG_STATE_HOME", "")
    # As the specification of these folders has it, one that is not absolute is ignored.
    try:
        base = pathlib.Path(state) if os.path.isabs(state) else pathlib.Path.home() / ".local" / "state"
    except (RuntimeError, KeyError):
        # Neither HOME nor the system's list of users has one, as in a container.
        raise OSError("there is no home folder, which HOME or XDG_STATE_HOME would name") from None
    return base / "ramp" / "history"


def find_readline() -> Any:
    try:
        import readline
    except ImportError:
        return None
    return readline


class History:
    """The history in its file, which its owner alone may read. Programs that end at the same time each append their lines."""

    def __init__(self, readline: Any, path: pathlib.Path):
        self._readline, self._path = readline, path
        self._before = 0

    def load(self) -> None:
        """Reads the file, or begins it. `OSError` where it can't be read or written."""
        self._path.parent.mkdir(mode=0o700, parents=True, exist_ok=True)
        os.close(os.open(self._path, os.O_CREAT | os.O_RDWR, 0o600))
        self._path.chmod(0o600)
        self._readline.set_history_length(MOST_LINES)
        self._readline.read_history_file(self._path)
        self._before = self._readline.get_current_history_length()

    def save(self) -> None:
        """Adds the lines of this session to the file."""
        new = self._readline.get_current_history_length() - self._before
        if new > 0 and hasattr(self._readline, "append_history_file"):
            self._readline.append_history_file(new, self._path)
        elif new > 0:
            self._readline.write_history_file(self._path)


class Completion:
    """Completes the names of commands, then keys and tags that were seen."""

    def __init__(self, asking: Asking):
        self._seen = asking.seen
        self._found: list[str] = []

    def candidates(self, before: str, text: str) -> list[str]:
        """How the text may go on, if this stands before it in its line."""
        words = before.split()
        if not words:
            return [f"{name} " for name in (*COMMANDS, "help", "bye") if name.startswith(text)]
        kind = COMMANDS[words[0]].completes if words[0] in COMMANDS else ""
        if kind == "items":
            return self._items(text)
        things = self._seen.tags if kind == "tags" else self._seen.keys if kind == "keys" else set()
        return [f"{it} " for it in sorted(things) if it.startswith(text)]

    def _items(self, text: str) -> list[str]:
        key, sharp, tag = text.partition("#")
        if sharp:
            return [f"{key}#{it}=" for it in sorted(self._seen.tags) if it.startswith(tag)]
        return [f"{it}=" for it in sorted(self._seen.keys) if it.startswith(text)]

    def install(self, readline: Any) -> None:
        def complete(text: str, state: int) -> Optional[str]:
            if state == 0:
                self._found = self.candidates(readline.get_line_buffer()[:readline.get_begidx()], text)
            return self._found[state] if state < len(self._found) else None

        readline.set_completer(complete)
        readline.set_completer_delims(" \t")
        readline.parse_and_bind("bind ^I rl_complete" if "libedit" in (readline.__doc__ or "") else "tab: complete")


@contextlib.contextmanager
def edited(asking: Asking, keeps_history: bool) -> Iterator[None]:
    """Lines are edited, and completed, while this lasts, and the history is kept."""
    readline = find_readline()
    if readline is None:
        yield
        return
    Completion(asking).install(readline)
    history: Optional[History] = None
    try:
        if keeps_history:
            opened = History(readline, history_path())
            opened.load()
            history = opened
    except OSError as error:
        print(f"ramp-cli: the history is not kept: {error}", file=sys.stderr)
    try:
        yield
    finally:
        with contextlib.suppress(OSError):
            if history:
                history.save()


def notices(asking: Asking, opened: int, new_stores: int) -> Iterator[Answer]:
    """What a call showed of its connection, beside its answer."""
    client = asking.client
    if client.opened > opened > 0:
        line = f"-- connected again to {client.options.where}, as client {client.number}"
        yield Answer(line, {"notice": "connected", "address": client.options.where, "client": client.number})
    if client.new_stores > new_stores:
        asking.seen.keys.clear()
        asking.seen.tags.clear()
        yield Answer("-- the server was started anew: its store is a new one, and all that was written before is gone", {"notice": "new store"})


def ask(asking: Asking, words: list[str], show: Show, notify: Show) -> int:
    """Has a command asked, shows what is to be said of the connection, and then the answer. Its status."""
    opened, new_stores = asking.client.opened, asking.client.new_stores
    told = answer(asking, words)
    for notice in notices(asking, opened, new_stores):
        notify(notice)
    show(told)
    return told.status


def read_words(prompt: str) -> Optional[list[str]]:
    """The words of the next line; None at the end of the input."""
    try:
        return words_of(input(prompt))
    except EOFError:
        if prompt:
            print()
        return None


def run(asking: Asking, show: Show, notify: Show, is_typed: bool) -> int:
    """Asks for lines until `bye` or the end of the input, and shows their answers. The greatest status."""
    status, client = GOOD, asking.client
    while True:
        prompt = f"{client.options.tenant}/{client.number or '-'}> " if is_typed else ""
        try:
            words = read_words(prompt)
            if words is None or words in ([it] for it in ENDS):
                return status
            if words[:1] == ["help"]:
                show(Answer(HELP, {"help": HELP}))
            elif words:
                last = ask(asking, words, show, notify)
                status = max(status, last)
                if last == GONE and is_typed:
                    notify(Answer("-- the next line tries to connect again", {"notice": "not connected"}))
        except KeyboardInterrupt:
            if not is_typed:
                raise
            print()
