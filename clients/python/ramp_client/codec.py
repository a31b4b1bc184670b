"""Text and bytes as values, which have 0 to 128 bytes from `!` to `~`, and a record over the keys of one transaction.

    client.put({"note": codec.encode_text("two words")})                       # two+words
    codec.decode_text(client.get("note")["note"].value)

    client.put(codec.encode_record("doc", json.dumps(document)))               # up to 2,046 signs, over doc.0 to doc.f
    codec.decode_record("doc", client.get(*codec.record_keys("doc")))          # all of it, or None

- **Text** is written as in the query of a URL: a byte from ! to ~ but % and + stands for itself, a space is +, any other byte of the UTF-8 is
  %XX. It can be read at the prompt.
- **Bytes** are base 85 with the alphabet of RFC 1924: 102 of them fit a value."""
from __future__ import annotations

import base64
import re
import urllib.parse
from typing import Mapping, Optional, Union

from .errors import Invalid, NotWhole
from .lines import KINDS, Item, check

VALUE_LIMIT = KINDS["value"][1]
_DIGITS = "0123456789abcdef"
MOST_PARTS = len(_DIGITS)
RECORD_LIMIT = MOST_PARTS * VALUE_LIMIT - 2
"""How many signs a record has at most: so many bytes of plain text, or 1,636 bytes of any kind."""

_SIGNS = "!\"#$&'()*,-./:;<=>?@[\\]^_`{|}~"
"""What stands for itself in a text, in addition to letters and digits."""

_BAD_ESCAPE = re.compile("%(?![0-9A-Fa-f]{2})")


def encode_text(text: str) -> str:
    """The text as a value."""
    return _fitting(_text_signs(text), "text")


def decode_text(value: str) -> str:
    """The text that `encode_text` made this value of. A value without % and + is its own text."""
    return _text_of(check("value", value))


def encode_bytes(data: bytes) -> str:
    """The bytes, at most 102, as a value."""
    if not isinstance(data, (bytes, bytearray, memoryview)):
        raise Invalid(f"bytes: {data!r} is of type {type(data).__name__}: encode_bytes takes bytes, encode_text a str", "bytes")
    return _fitting(base64.b85encode(data).decode(), "bytes")


def decode_bytes(value: str) -> bytes:
    """The bytes that `encode_bytes` made this value of."""
    return _bytes_of(check("value", value))


def record_keys(key: str, parts: int = MOST_PARTS) -> list[str]:
    """The keys under which a record of this name stands: `key.0`, `key.1`, .. Who knows that it is short reads fewer of them."""
    if not isinstance(parts, int) or not 1 <= parts <= MOST_PARTS:
        raise Invalid(f"a record has 1 to {MOST_PARTS} keys, and not {parts!r}", "record", key)
    return [check("key", f"{key}.{digit}", key) for digit in _DIGITS[:parts]]


def encode_record(key: str, content: Union[str, bytes]) -> dict[str, str]:
    """The items of a record, as few as hold it, for one `put`: with others of the same transaction they are at most 16.

    The first value begins with how many there are, less one, and with how they are written. A tag belongs to the first alone:
    `put(encode_record("doc", text), tags={"doc.0": "draft"})`."""
    if isinstance(content, str):
        form, signs = "t", _text_signs(content)
        if len(signs) > len(content) and len(dense := base64.b85encode(content.encode()).decode()) < len(signs):
            form, signs = "u", dense
    elif isinstance(content, (bytes, bytearray, memoryview)):
        form, signs = "b", base64.b85encode(content).decode()
    else:
        raise Invalid(f"record of {key!r}: its content is of type {type(content).__name__}: a record has a str or bytes; put_json takes more", "record", key)
    if len(signs) > RECORD_LIMIT:
        raise Invalid(f"record of {key!r}: {len(signs)} signs, and at most {RECORD_LIMIT}: that is as many letters, or 1636 bytes of any kind", "record", key, length=len(signs))
    parts = (len(signs) + 1) // VALUE_LIMIT + 1
    signs = _DIGITS[parts - 1] + form + signs
    return {own: signs[n * VALUE_LIMIT:(n + 1) * VALUE_LIMIT] for n, own in enumerate(record_keys(key, parts))}


def decode_record(key: str, items: Mapping[str, Item]) -> Union[str, bytes, None]:
    """The content of a record, of what a `get` of its keys gave; None where it was never written.

    `NotWhole` if its keys were not written by one write: then something else writes one of them. Keys after its last are ignored."""
    if not isinstance(items, Mapping):
        raise Invalid(f"record of {key!r}: decode_record takes what a get of its keys returned, and not a {type(items).__name__}", "record", key)
    first = items.get(f"{key}.0")
    if first is None:
        raise Invalid(f"record of {key!r}: the key '{key}.0' was not read", "record", key)
    if first.value is None:
        return None
    digit, form = first.value[:1], first.value[1:2]
    if digit not in _DIGITS or not digit or form not in ("t", "u", "b"):
        raise Invalid(f"record of {key!r}: {first.value[:8]!r} is no beginning of a record", "record", key)
    signs = first.value[2:] + "".join(_part(key, items, own, first.stamp) for own in record_keys(key, _DIGITS.index(digit) + 1)[1:])
    return _text_of(signs) if form == "t" else _decoded(_bytes_of(signs)) if form == "u" else _bytes_of(signs)


def parts_of(first: Item) -> int:
    """How many keys the record has that begins with this item; 1 where it begins none."""
    return max(_DIGITS.find((first.value or "0")[:1]), 0) + 1


def _part(key: str, items: Mapping[str, Item], own: str, stamp: str) -> str:
    item = items.get(own)
    if item is None:
        raise Invalid(f"record of {key!r}: it has the key {own!r}, too, which was not read", "record", key)
    if item.value is None or item.stamp != stamp:
        raise NotWhole(f"record of {key!r}: {own!r} was written by {item.stamp} and '{key}.0' by {stamp}: something writes one of them alone")
    return item.value


def _fitting(signs: str, kind: str) -> str:
    if len(signs) > VALUE_LIMIT:
        raise Invalid(f"{kind} of {len(signs)} signs, and a value has at most {VALUE_LIMIT}: encode_record takes up to {RECORD_LIMIT}", kind, length=len(signs))
    return signs


def _text_signs(text: str) -> str:
    if not isinstance(text, str):
        raise Invalid(f"text: {text!r} is of type {type(text).__name__}: encode_text takes a str, encode_bytes bytes", "text")
    try:
        return urllib.parse.quote_plus(text, safe=_SIGNS)
    except UnicodeEncodeError as error:
        raise Invalid(f"text: half of a surrogate pair at {error.start} is no Unicode", "text", offset=error.start) from None


def _text_of(signs: str) -> str:
    if bad := _BAD_ESCAPE.search(signs):
        raise Invalid(f"text: byte {bad.start()} of {signs!r} is a % without two digits", "text", offset=bad.start(), byte=0x25)
    return _decoded(urllib.parse.unquote_to_bytes(signs.replace("+", " ")))


def _decoded(data: bytes) -> str:
    try:
        return data.decode()
    except UnicodeDecodeError as error:
        raise Invalid(f"text: byte {error.start} of its {len(data)} is no UTF-8", "text", offset=error.start, byte=data[error.start]) from None


def _bytes_of(signs: str) -> bytes:
    try:
        data = base64.b85decode(signs)
    except ValueError:
        data = None
    if data is None or base64.b85encode(data).decode() != signs:
        raise Invalid(f"bytes: {signs!r} is no base 85 of bytes", "bytes")
    return data
