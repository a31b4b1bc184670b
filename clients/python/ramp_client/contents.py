"""Text, JSON and bytes of any kind, each as a record of `codec`: over KEY.0, KEY.1, .., as few keys as hold it."""
from __future__ import annotations

import json
from typing import Any, Callable, Generator, Mapping, NamedTuple, Optional, Sequence, Union

from . import codec, lines
from .errors import Invalid
from .limits import MOST_ITEMS
from .lines import Call, Item

Content = Union[str, bytes, None]


class Kind(NamedTuple):
    """How contents of a kind become text or bytes, and back. `name` is what the calls have behind `put_` and `get_`."""

    name: str
    encode: Callable[[str, Any], Union[str, bytes]]
    decode: Callable[[str, Any], Any]


HINT = "put_text and get_text are for a str, put_bytes and get_bytes for bytes, put_json and get_json for what JSON has"


def _typed(kind: type) -> Callable[[str, Any], Any]:
    def check(key: str, content: Any) -> Any:
        if not isinstance(content, kind):
            raise Invalid(f"content of {key!r} is of type {type(content).__name__}, and not {kind.__name__}: {HINT}", "content", key)
        return content
    return check


def _to_json(key: str, content: Any) -> str:
    try:
        return json.dumps(content, ensure_ascii=False, allow_nan=False, separators=(",", ":"))
    except (TypeError, ValueError) as error:
        raise Invalid(f"content of {key!r} is no JSON: {error}", "content", key) from None


def _of_json(key: str, content: Any) -> Any:
    try:
        return json.loads(content)
    except (TypeError, ValueError) as error:
        raise Invalid(f"content of {key!r} is no JSON: {error}: {HINT}", "content", key) from None


TEXT = Kind("text", _typed(str), _typed(str))
BYTES = Kind("bytes", _typed(bytes), _typed(bytes))
JSON = Kind("json", _to_json, _of_json)


def put(kind: Kind, contents: Mapping[str, Any], tag: str, tags: Optional[Mapping[str, str]], reads_first: bool) -> Call:
    """The write of these contents. The tag of each stands at its first key."""
    lines.check_put(f"put_{kind.name}", contents, tags)
    items: dict[str, str] = {}
    own_tags = {}
    for key, content in contents.items():
        parts = codec.encode_record(lines.check("key", key), kind.encode(key, content))
        if twice := items.keys() & parts.keys():
            raise Invalid(f"the keys {', '.join(sorted(twice))} stand twice: the record {key!r} is one with another of this write", "keys", key)
        items.update(parts)
        own_tags[f"{key}.0"] = tags.get(key, tag) if tags else tag
    if len(items) > MOST_ITEMS:
        raise Invalid(f"the contents take {len(items)} keys of 128 bytes, and a write has at most {MOST_ITEMS}: write less at once", "keys", length=len(items))
    return lines.put(items, "", own_tags, reads_first)


def get(kind: Kind, keys: Sequence[str]) -> Generator[list[str], Mapping[str, Item], dict[str, Any]]:
    """Yields the keys to get, is sent what stands there, and returns the contents, None of a record that was never written.

    The first get reads the first key of each. If those say that there are more, the next get reads all of them, so what is returned is of one get."""
    lines.check_keys(f"get_{kind.name}", keys)
    parts = dict.fromkeys(keys, 1)
    while True:
        names = [name for key in keys for name in codec.record_keys(key, parts[key])]
        if len(names) > MOST_ITEMS:
            raise Invalid(f"the contents stand under {len(names)} keys, and a get has at most {MOST_ITEMS}: read fewer at once", "keys", length=len(names))
        items = yield names
        told = {key: codec.parts_of(items[f"{key}.0"]) for key in keys}
        if all(told[key] <= parts[key] for key in keys):
            return {key: _decoded(kind, key, codec.decode_record(key, items)) for key in keys}
        parts = told


def keys_at_once(kind: Kind, keys: Sequence[str]) -> list[str]:
    """The keys of one get that reads as many parts of each content as a get has room for."""
    lines.check_keys(f"get_{kind.name}", keys)
    if not 1 <= len(keys) <= MOST_ITEMS:
        raise Invalid(f"{len(keys)} keys: give 1 to {MOST_ITEMS}", "keys", length=len(keys))
    return [name for key in keys for name in codec.record_keys(key, MOST_ITEMS // len(keys))]


def read_at_once(kind: Kind, keys: Sequence[str], items: Mapping[str, Item]) -> dict[str, Any]:
    """The contents that a get of `keys_at_once` read. `Invalid` where one has more keys than were read of it."""
    most = MOST_ITEMS // len(keys)
    for key in keys:
        if (parts := codec.parts_of(items[f"{key}.0"])) > most:
            raise Invalid(f"the content of {key!r} stands under {parts} keys, and a pipeline reads {most} of each of {len(keys)} contents: read fewer at once", "keys", key, length=parts)
    return {key: _decoded(kind, key, codec.decode_record(key, items)) for key in keys}


def _decoded(kind: Kind, key: str, content: Content) -> Any:
    return None if content is None else kind.decode(key, content)
