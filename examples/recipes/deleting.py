"""Deletion.

There is none: an item keeps its slot for as long as the server runs. A tombstone is a put of an empty value without a tag: no search finds
it, and readers treat it as missing. It takes as much room as an item. So a program with many short-lived items reuses their keys: here a
queue of at most 8 jobs runs for ever in 8 items, on a server that has room for no more.

Server: ramp serve --stay --epoch 1000 --sessions 8 --parts 1 --items 8 --slots 64 t"""
import sys

import ramp_client

PLACES = [f"job/{n}" for n in range(8)]


def free_places(client):
    """The keys that hold no job: never written, or deleted."""
    return [key for key, item in client.get(*PLACES).items() if not item.value]


def add(client, text):
    """Stores a job under a free key, and returns the key. Only one client adds: two might choose the same key."""
    key = free_places(client)[0]
    client.put({key: text}, tag="waiting")
    return key


def delete(client, *keys):
    """Writes tombstones, in one transaction. It could write other items with them."""
    client.put({key: "" for key in keys})


def main(url):
    with ramp_client.connect(url) as client:
        for n in range(100):
            first = add(client, f"print-{n}")
            second = add(client, f"send-{n}")
            assert set(client.find("waiting")) == {first, second}
            delete(client, first, second)
        print("200 jobs, one after the other, in", len(PLACES), "items; now waiting:", len(client.find("waiting")))

        # All 8 items are deleted, and yet a ninth key finds no room, where the server has room for 8.
        for key in PLACES:
            client.put({key: "x"})
        delete(client, *PLACES)
        try:
            client.put({"job/8": ""})
            print("a new key had room: this server was started with more --items than 8")
        except ramp_client.NoRoom as refused:
            print("a new key:", refused)
        assert len(free_places(client)) == 8


if __name__ == "__main__":
    main(sys.argv[1])
