"""The limits of the store, as docs/FORMATS.md of the server has them."""

LINE_LIMIT = 4096
"""A line with its LF is shorter than this many bytes."""

MOST_ITEMS = 16
"""A transaction has at most this many items, and a search finds no more."""

LENGTHS = {"key": (1, 32), "tag": (1, 16), "value": (0, 128), "tenant": (1, 16)}
"""Of each kind of word: its least and most bytes."""
