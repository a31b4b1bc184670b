"""Lines as somebody types them: what each asks a client for, and its answer as a line or as JSON."""
from __future__ import annotations

import json
import time
from dataclasses import dataclass, field
from typing import Any, Callable, Mapping, NamedTuple, Optional

from .client import Client
from .errors import REFUSALS, Invalid, Lost, OutcomeUnknown, RampError, Refused, Restarted, TrustNothing
from .limits import MOST_ITEMS
from .lines import Item, check
from .metrics import Sizes, size_words

GOOD, REFUSED, USAGE, UNKNOWN, GONE, FALSE = 0, 1, 2, 3, 4, 5
"""What an answer comes to: the exit statuses of `ramp-cli`."""

BAD_ITEMS, BAD_LINE, BUSY = 13, 40, 12
NUMBERS = {"keys": BAD_ITEMS, **dict.fromkeys(("key", "tag", "value", "item", "keep", "line"), BAD_LINE)}
"""By which number the store refuses what a client does not send: of each kind of what is wrong."""


class Answer(NamedTuple):
    """An answer as a line, as the fields of a JSON object, and its status."""

    line: str
    fields: Mapping[str, Any]
    status: int = GOOD


@dataclass
class Seen:
    """The keys and tags that were typed or answered, for completion."""

    keys: set[str] = field(default_factory=set)
    tags: set[str] = field(default_factory=set)

    def items(self, items: Mapping[str, Item]) -> None:
        self.keys.update(items)
        self.tags.update(item.tag for item in items.values() if item.tag)


@dataclass
class Asking:
    """What commands need: the client, where its server's sizes can be read, and what was seen."""

    client: Client
    sizes: Sizes
    seen: Seen = field(default_factory=Seen)


def item_words(item: Item) -> str:
    """An item as an answer of the store has it."""
    tag = f"#{item.tag}" if item.tag else ""
    return f"{item.key}@{item.stamp}" + ("" if item.value is None else f"{tag}={item.value}")


def items_answer(word: str, items: Mapping[str, Item]) -> Answer:
    told = {item.key: {"value": item.value, "tag": item.tag or None, "stamp": item.stamp} for item in items.values()}
    return Answer(" ".join([word, *map(item_words, items.values())]), {word: told})


def refused(number: int, why: str, **more: Any) -> Answer:
    """The answer to a line that was not sent, since the store refuses it by this number."""
    name = REFUSALS[number][0]
    return Answer(f"refused {number} {name}: {why}", {"refused": number, "name": name, "message": why, **more}, REFUSED)


def invalid_answer(error: Invalid) -> Answer:
    places = {"kind": error.kind, "key": error.key, "length": error.length, "offset": error.offset, "byte": error.byte}
    known = {name: value for name, value in places.items() if value is not None}
    if error.kind in NUMBERS:
        return refused(NUMBERS[error.kind], str(error), **known)
    return Answer(f"refused: {error}", {"refused": None, "name": "Invalid", "message": str(error), **known}, REFUSED)


def refusal_answer(error: Refused) -> Answer:
    word = "ended" if error.has_ended else "refused"
    status = FALSE if isinstance(error, TrustNothing) else REFUSED
    return Answer(str(error), {word: error.number, "name": error.name, "message": f"{error.cause}: {error.cure}"}, status)


def error_answer(error: RampError) -> Answer:
    """What a call raised, as an answer."""
    if isinstance(error, Invalid):
        return invalid_answer(error)
    if isinstance(error, Refused):
        return refusal_answer(error)
    if isinstance(error, Restarted):
        return Answer(f"restart {error.key} {error.floor}: {error}", {"restart": error.key, "floor": error.floor, "message": str(error)}, REFUSED)
    for kind, word, status in ((OutcomeUnknown, "unknown", UNKNOWN), (Lost, "lost", GONE), (TrustNothing, "false", FALSE)):
        if isinstance(error, kind):
            return Answer(f"{word}: {error}", {word: type(error).__name__, "message": str(error)}, status)
    return Answer(f"refused: {error}", {"refused": None, "name": type(error).__name__, "message": str(error)}, REFUSED)


# --- The commands ----------------------------------------------------------------------------------------------------------------------


def read_items(words: list[str]) -> tuple[dict[str, str], dict[str, str]]:
    """The values and the tags that the words of a put name."""
    items: dict[str, str] = {}
    tags: dict[str, str] = {}
    for place, word in enumerate(words, 1):
        head, equals, value = word.partition("=")
        key, sharp, tag = head.partition("#")
        if not equals:
            raise Invalid(f"item {place}: {word!r} is not KEY=VALUE or KEY#TAG=VALUE. A value has no spaces: put-text takes a text", "item")
        check("key", key)
        if key in items:
            raise Invalid(f"the key {key!r} stands twice: give 1 to {MOST_ITEMS} different keys", "keys", key)
        items[key] = value
        if sharp:
            tags[key] = check("tag", tag, key)
    return items, tags


def put(asking: Asking, words: list[str]) -> Answer:
    items, tags = read_items(words)
    stamp = asking.client.put(items, tags=tags)
    asking.seen.keys.update(items)
    asking.seen.tags.update(tags.values())
    return Answer(f"done {stamp}", {"done": stamp})


def get(asking: Asking, words: list[str]) -> Answer:
    items = asking.client.get(*words)
    asking.seen.items(items)
    return items_answer("read", items)


def find(asking: Asking, words: list[str]) -> Answer:
    items = asking.client.find(words[0])
    asking.seen.items(items)
    asking.seen.tags.add(words[0])
    return items_answer("list", items)


def keep(asking: Asking, words: list[str]) -> Answer:
    if not words[0].isdecimal() or not words[0].isascii():
        raise Invalid(f"keep takes 1 to 255, and not {words[0]!r}", "keep")
    versions = asking.client.keep(int(words[0]))
    return Answer(f"keep {versions}", {"keep": versions})


def put_text(asking: Asking, words: list[str]) -> Answer:
    stamp = asking.client.put_text({words[0]: " ".join(words[1:])})
    asking.seen.keys.add(words[0])
    return Answer(f"done {stamp}", {"done": stamp})


def put_json(asking: Asking, words: list[str]) -> Answer:
    try:
        content = json.loads(" ".join(words[1:]))
    except ValueError as error:
        raise Invalid(f"content of {words[0]!r} is no JSON: {error}", "json", words[0]) from None
    stamp = asking.client.put_json({words[0]: content})
    asking.seen.keys.add(words[0])
    return Answer(f"done {stamp}", {"done": stamp})


def content_answer(word: str, key: str, content: Any, line: str) -> Answer:
    if content is None:
        return Answer(f"none: no {word} stands under {key}", {word: {key: None}}, REFUSED)
    return Answer(line, {word: {key: content}})


def get_text(asking: Asking, words: list[str]) -> Answer:
    text = asking.client.get_text(words[0])[words[0]]
    return content_answer("text", words[0], text, text or "")


def get_json(asking: Asking, words: list[str]) -> Answer:
    content = asking.client.get_json(words[0])[words[0]]
    return content_answer("json", words[0], content, json.dumps(content, ensure_ascii=False))


def info(asking: Asking, _: list[str]) -> Answer:
    client = asking.client
    begun = time.perf_counter()
    client.get("ramp-cli")
    took = (time.perf_counter() - begun) * 1000
    server = client.server
    told: dict[str, Any] = {"address": client.options.where, "tenant": client.options.tenant, "client": client.number, "counter": client.counter,
                            **({"version": server.version, "store": server.store, "newest": "yes" if server.newest else "no"} if server else {}),
                            "round_trip_ms": round(took, 3), "reconnects": client.opened - 1, **asking.sizes.read(client.options)}
    rows = [f"{name.replace('_ms', ', ms').replace('_', ' '):16}{size_words(value)}" for name, value in told.items()]
    return Answer("\n".join(rows), {"info": told})


def hello(asking: Asking, _: list[str]) -> Answer:
    client = asking.client
    return refused(BUSY, f"the session is open, as client {client.number} of tenant {client.options.tenant}")


class Command(NamedTuple):
    """A command: what it takes, what it does, its least and most words, what is completed in it, and whether its second word is the rest of the line."""

    form: str
    meaning: str
    least: int
    most: Optional[int]
    run: Callable[[Asking, list[str]], Answer]
    completes: str = ""
    has_rest: bool = False


COMMANDS = {
    "put": Command("KEY=VALUE KEY#TAG=VALUE ..", f"writes all items, 1 to {MOST_ITEMS}, or none of them", 1, None, put, "items"),
    "get": Command("KEY ..", f"reads items, 1 to {MOST_ITEMS}: of each write all of them or none", 1, None, get, "keys"),
    "find": Command("TAG", f"reads the items that carry a tag, {MOST_ITEMS} at most", 1, 1, find, "tags"),
    "put-text": Command("KEY TEXT", "writes a text, with spaces and any letters, over KEY.0, KEY.1, ..", 2, None, put_text, "keys", True),
    "get-text": Command("KEY", "reads it", 1, 1, get_text, "keys"),
    "put-json": Command("KEY JSON", "writes JSON, in the same way", 2, None, put_json, "keys", True),
    "get-json": Command("KEY", "reads it", 1, 1, get_json, "keys"),
    "keep": Command("K", "has collections keep the K latest versions of an item, 1 to 255", 1, 1, keep),
    "info": Command("", "address, tenant, client number, counter, the server's version and store, whether its puts are newest, round trip, and sizes with --status", 0, 0, info),
}
HIDDEN = {"hello": Command("TENANT CLIENT", "", 0, None, hello)}
"""Of the session's lines: answered, and listed nowhere, since the client has said it."""

LISTED = "\n".join(f"  {f'{name} {it.form}':35} {it.meaning}" for name, it in COMMANDS.items())

HELP = LISTED + """
  help                                this
  bye                                 ends the session, as the end of the input does
A key or a tag has bytes of a-z 0-9 _ . / -, a value those from ! to ~: no spaces. A put is newer than each one that was done before it."""


def words_of(line: str) -> list[str]:
    """The words of a line, which may end with CR LF. A text or JSON stays as it was typed, but for spaces at its ends."""
    words = line.split()
    command = COMMANDS.get(words[0]) if words else None
    return line.strip().split(None, 2) if command and command.has_rest else words


def misuse(words: list[str]) -> Optional[str]:
    """A sentence where these are no words of a command."""
    command = COMMANDS.get(words[0]) or HIDDEN.get(words[0])
    if command is None:
        return f"{words[0]!r} is no command, as {', '.join(COMMANDS)} are"
    if len(words) <= command.least or (command.most is not None and len(words) > command.most + 1):
        return f"the form is: {words[0]} {command.form}".rstrip()
    return None


def answer(asking: Asking, words: list[str]) -> Answer:
    """Has a command asked, and returns the answer, whatever becomes of it."""
    if wrong := misuse(words):
        return refused(BAD_ITEMS if words in (["put"], ["get"]) else BAD_LINE, wrong)
    command = COMMANDS.get(words[0]) or HIDDEN[words[0]]
    try:
        return command.run(asking, words[1:])
    except RampError as error:
        return error_answer(error)
