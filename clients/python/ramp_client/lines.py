"""Lines out and answers in: what may stand in a line, and what an answer to it says.

An answer is read strictly: what is no answer to its line is a `FalseAnswer`, and never an item."""
from __future__ import annotations

import re
from typing import Any, Callable, Mapping, NamedTuple, NoReturn, Optional, Sequence

from .errors import REFUSALS, FalseAnswer, Invalid, Refused, Restarted, refusal
from .limits import LENGTHS, LINE_LIMIT, MOST_ITEMS

MOST_COUNTER = (1 << 40) - 1

ANY = "any"
"""In place of a client's number: one that is free."""


class ServerInfo(NamedTuple):
    """What a server reports of itself: its version, the number of its store, which is another one each time that it starts, and whether each put is the
    newest without a read before it."""

    version: str
    store: int
    newest: bool


def _kind(kind: str, sign: str, words: str) -> tuple[int, int, str, str]:
    least, most = LENGTHS[kind]
    return least, most, sign, f"{least} to {most} bytes {words}"


KINDS = {
    "key": _kind("key", r"[a-z0-9_./-]", "of a-z 0-9 _ . / -"),
    "tag": _kind("tag", r"[a-z0-9_./-]", "of a-z 0-9 _ . / -"),
    "value": _kind("value", r"[!-~]", "from ! to ~; put_text, put_json and put_bytes write others"),
    "tenant": _kind("tenant", r"[a-z0-9_]", "of a-z 0-9 _"),
}
"""Of each kind of word: its least and most bytes, those that may stand in it, and this in words."""

_PATTERNS = {kind: f"{sign}{{{least},{most}}}" for kind, (least, most, sign, _) in KINDS.items()}
_WORDS = {kind: re.compile(pattern).fullmatch for kind, pattern in _PATTERNS.items()}
_NUMBER = re.compile(r"0|[1-9][0-9]{0,18}").fullmatch
_STAMP = r"([1-9][0-9]{0,12})\.([1-9][0-9]{0,4})"
_STAMPED = re.compile(_STAMP).fullmatch
_INFO = re.compile(r"version=([!-~]{1,64}) store=(0|[1-9][0-9]{0,19}) newest=(yes|no)(?: [!-~]+)*").fullmatch  # later versions may tell more
_WRITTEN = re.compile(f"({_PATTERNS['key']})@{_STAMP}(?:#({_PATTERNS['tag']}))?=({_PATTERNS['value']})").fullmatch


class Item(NamedTuple):
    """An item that was read. Of an item that nobody wrote the value is None and the stamp `0.0`."""

    key: str
    value: Optional[str]
    tag: str
    stamp: str

    @property
    def counter(self) -> int:
        """The counter of its write's stamp. Of two stamps the one with the greater counter is the later one, then that of the greater client."""
        return int(self.stamp.partition(".")[0])

    @property
    def client(self) -> int:
        """The number of the client that wrote it; 0 of an item that nobody wrote."""
        return int(self.stamp.partition(".")[2])


def _tell(kind: str, text: Any, key: Optional[str]) -> NoReturn:
    """Says what is wrong with a word that does not fit."""
    least, most, sign, range_in_words = KINDS[kind]
    of = kind if key is None else f"{kind} of {key!r}"
    if not isinstance(text, str):
        raise Invalid(f"{of}: {text!r} is no str: a {kind} has {range_in_words}", kind, key)
    data = text.encode("utf-8", "surrogatepass")
    if not least <= len(data) <= most:
        raise Invalid(f"{of}: {len(data)} bytes: a {kind} has {range_in_words}", kind, key, length=len(data))
    offset = next(place for place, byte in enumerate(data) if not re.fullmatch(sign, chr(byte)))
    raise Invalid(f"{of}: byte {offset} is 0x{data[offset]:02x} in {text!r}: a {kind} has {range_in_words}", kind, key, offset=offset, byte=data[offset])


def check(kind: str, text: Any, key: Optional[str] = None) -> str:
    """The text, where it is one word of this kind: key, tag, value or tenant. Another one would be read as other words, or as another line."""
    if not isinstance(text, str) or not _WORDS[kind](text):
        _tell(kind, text, key)
    return text


def _brief(thing: Any) -> str:
    """What was given instead, in few signs."""
    text = repr(thing)
    return f"the {type(thing).__name__} {text if len(text) <= 60 else text[:57] + '...'}"


def _count(keys: Sequence[str]) -> None:
    if not 1 <= len(keys) <= MOST_ITEMS or len(set(keys)) < len(keys):
        twice = next((key for place, key in enumerate(keys) if key in keys[:place]), None)
        named = f"; {twice!r} stands twice" if twice is not None else ""
        raise Invalid(f"{len(keys)} keys, {len(set(keys))} of them different: give 1 to {MOST_ITEMS} different keys{named}", "keys", twice, length=len(keys))


class Call:
    """A line that is sent, and what became of it: `value` or `error` once it is settled. `seen` is the greatest counter that a get returned."""

    __slots__ = ("line", "keys", "word", "ends", "is_write", "reads_first", "restarts", "seen", "is_settled", "value", "error", "_read")

    def __init__(self, line: str, keys: Sequence[str], word: str, ends: tuple[int, ...], read: Callable[[Call, str], Any], is_write: bool = False, reads_first: bool = False):
        self.line, self.keys, self.word, self.ends, self._read = line, keys, word, ends, read
        self.is_write, self.reads_first = is_write, reads_first
        self.restarts = 0
        self.seen = 0
        self.is_settled = False
        self.value: Any = None
        self.error: Optional[Exception] = None

    def settle(self, value: Any) -> None:
        self.is_settled, self.value, self.error = True, value, None

    def fail(self, error: Exception) -> None:
        self.is_settled, self.error = True, error

    def result(self) -> Any:
        if self.error is not None:
            raise self.error
        return self.value

    def read(self, answer: str) -> Any:
        """What an answer says. It raises `Refused`, `Restarted` (with the times so far) or `FalseAnswer`."""
        word, space, rest = answer.partition(" ")
        if word == self.word and (rest or (not space and word in ("list", "bye"))):
            return self._read(self, rest)
        if word in ("refused", "ended"):
            raise self._refusal(word, rest, answer)
        if word == "restart" and self.word in ("read", "list"):
            key, _, floor = rest.partition(" ")
            if _stamp(floor) and (key in self.keys if self.word == "read" else _WORDS["key"](key)):
                raise Restarted(key, floor, self.restarts + 1)
        raise self.false(answer)

    def false(self, answer: str) -> FalseAnswer:
        return FalseAnswer(f"{answer[:80]!r} is no answer to {self.line[:80]!r}: is this `ramp serve`?")

    def _refusal(self, word: str, rest: str, answer: str) -> Exception:
        number = int(rest) if _NUMBER(rest) else 0
        if number not in REFUSALS or (word == "ended" and number not in self.ends):
            return self.false(answer)
        return refusal(number, word == "ended")


def _stamp(text: str) -> Optional[tuple[int, int]]:
    """The counter and the client of a stamp, where it is one of a write."""
    found = _STAMPED(text)
    if not found:
        return None
    counter, client = int(found[1]), int(found[2])
    return (counter, client) if counter <= MOST_COUNTER and client <= 65535 else None


def read_item(word: str) -> Optional[Item]:
    """An item as an answer has it: `KEY@STAMP=VALUE`, `KEY@STAMP#TAG=VALUE` or `KEY@0.0`."""
    found = _WRITTEN(word)
    if found:
        key, counter, client, tag, value = found.groups()
        if (len(counter) > 12 and int(counter) > MOST_COUNTER) or (len(client) > 4 and int(client) > 65535):
            return None
        return Item(key, value, tag or "", f"{counter}.{client}")
    key = word[:-4]
    return Item(key, None, "", "0.0") if word.endswith("@0.0") and _WORDS["key"](key) else None


def _items(call: Call, rest: str) -> dict[str, Item]:
    """The items of a get, which are those that were asked for, in their order."""
    words = rest.split(" ")
    told: dict[str, Item] = {}
    if len(words) != len(call.keys):
        raise call.false(f"read {rest}")
    for word, key in zip(words, call.keys):
        item = read_item(word)
        if item is None or item.key != key:
            raise call.false(f"read {rest}")
        told[key] = item
        call.seen = max(call.seen, item.counter)
    return told


def _listed(call: Call, rest: str) -> dict[str, Item]:
    """The items of a search: written, different, under its tag, `MOST_ITEMS` at most."""
    told: dict[str, Item] = {}
    words = rest.split(" ") if rest else []
    for word in words:
        item = read_item(word)
        if item is None or item.value is None or item.tag != call.keys[0] or item.key in told:
            raise call.false(f"list {rest}")
        told[item.key] = item
    if len(told) > MOST_ITEMS:
        raise call.false(f"list {rest}")
    return told


def _done(call: Call, rest: str) -> str:
    if _stamp(rest) is None:
        raise call.false(f"done {rest}")
    return rest


def _kept(call: Call, rest: str) -> int:
    if rest != call.keys[0]:
        raise call.false(f"keep {rest}")
    return int(rest)


def _ready(call: Call, rest: str) -> tuple[int, int]:
    """The counter of the session, and its client's number: the one that was asked for, or the one that the server gave."""
    counter, word, given = rest.partition(" as ") if call.keys[0] == ANY else (rest, " as ", call.keys[0])
    if not (word and _NUMBER(counter) and int(counter) <= MOST_COUNTER and _NUMBER(given) and 1 <= int(given) <= 65535):
        raise call.false(f"ready {rest}")
    return int(counter), int(given)


def _informed(call: Call, rest: str) -> ServerInfo:
    found = _INFO(rest)
    if not found:
        raise call.false(f"info {rest}")
    return ServerInfo(found[1], int(found[2]), found[3] == "yes")


def _gone(call: Call, rest: str) -> None:
    if rest:
        raise call.false(f"bye {rest}")


def check_put(call: str, items: Any, tags: Any) -> None:
    """Checks that a write has a mapping of keys, and one of tags to some of them."""
    if not isinstance(items, Mapping):
        raise Invalid(f"{call} takes a dict, as in {call}({{'x': '1', 'y': '2'}}), and not {_brief(items)}", "items")
    if tags is not None and not isinstance(tags, Mapping):
        raise Invalid(f"tags is a dict of keys and their tags, as in tags={{'x': 'red'}}, and not {_brief(tags)}", "tag")
    if tags and (strangers := set(tags) - set(items)):
        raise Invalid(f"tags of what is not written: {', '.join(sorted(map(repr, strangers)))}", "tag")


def put(items: Mapping[str, str], tag: str = "", tags: Optional[Mapping[str, str]] = None, reads_first: bool = False) -> Call:
    """A write of these items, each with its own tag of `tags`, or else `tag`."""
    check_put("put", items, tags)
    keys = list(items)
    _count(keys)
    words = ["put"]
    for key, value in items.items():
        own = tags.get(key, tag) if tags else tag
        check("key", key)
        check("value", value, key)
        words.append(f"{key}#{check('tag', own, key)}={value}" if own != "" else f"{key}={value}")
    return Call(" ".join(words), keys, "done", (15, 16, 20, 22, 27, 28), _done, True, reads_first)


def reads_first(blind: bool) -> bool:
    """Whether a put reads its keys first, where the server asks for that."""
    if not isinstance(blind, bool):
        raise Invalid(f"blind is True or False, and not {_brief(blind)}", "blind")
    return not blind


def check_keys(call: str, keys: Sequence[Any]) -> None:
    """Checks that a read has keys, and not a list of them."""
    for key in keys:
        if isinstance(key, (list, tuple, set, frozenset)):
            raise Invalid(f"{call} takes keys one after the other, as in {call}('x', 'y'), and not {_brief(key)}; {call}(*keys) takes those of a list", "key")
        check("key", key)


def get(keys: Sequence[str]) -> Call:
    check_keys("get", keys)
    _count(keys)
    return reading(keys)


def reading(keys: Sequence[str]) -> Call:
    """A get of keys that were looked at before."""
    return Call("get " + " ".join(keys), keys, "read", (22,), _items)


def find(tag: str) -> Call:
    return Call(f"find {check('tag', tag)}", [tag], "list", (22, 23), _listed)


def keep(versions: int) -> Call:
    if not isinstance(versions, int) or isinstance(versions, bool) or not 1 <= versions <= 255:
        raise Invalid(f"keep takes 1 to 255, and not {versions!r}", "keep")
    return Call(f"keep {versions}", [str(versions)], "keep", (), _kept)


def hello(tenant: str, number: Optional[int]) -> Call:
    """Opens a session as this client, or, where it is None, as one whose number the server gives."""
    client = ANY if number is None else str(number)
    return Call(f"hello {tenant} {client}", [client], "ready", (), _ready)


def info() -> Call:
    return Call("info", [], "info", (), _informed)


def bye() -> Call:
    return Call("bye", [], "bye", (), _gone)


class _Raw(Call):
    """A line as somebody typed it; its answer is returned as it is."""

    __slots__ = ()

    def read(self, answer: str) -> str:
        return answer


def raw(line: str) -> Call:
    """A line of one's own. It is never sent again, since it may be a write."""
    if not isinstance(line, str):
        raise Invalid(f"a line is a str, as in ask('get x'), and not {_brief(line)}", "line")
    data = line.encode()
    if b"\n" in data or len(data) >= LINE_LIMIT - 1:
        raise Invalid(f"a line of {len(data)} bytes: it has at most {LINE_LIMIT - 2}, and no LF", "line", length=len(data))
    return _Raw(line, [], "", (), lambda call, rest: rest, True)
