"""More than 16 items under a tag.

A search returns 16 items at most, and is refused if more items carry the tag. So a list has pages: the tags `open.0`, `open.1`, .. have PAGE
items each. A further item counts the items that were ever added, and is written with each new one. One client adds; any number read.

Server: ramp serve --stay --epoch 1000 --sessions 8 t"""
import sys

import ramp_client

PAGE = 16
"""The most items that a search returns."""


def add(client, name, key, value):
    """Appends an item to a list. Only one client appends to a list: so the count that it reads is still right when it writes."""
    count = int(client.get(f"count/{name}")[f"count/{name}"].value or "0")
    client.put({key: value, f"count/{name}": str(count + 1)}, tags={key: f"{name}.{count // PAGE}"})


def pages(client, name):
    """The items of a list, a page at a time. Each page is read atomically; a later page may be newer."""
    count = int(client.get(f"count/{name}")[f"count/{name}"].value or "0")
    for page in range((count + PAGE - 1) // PAGE):
        yield client.find(f"{name}.{page}")


def main(url):
    with ramp_client.connect(url) as client:
        for n in range(50):
            add(client, "open", f"order/{n:03}", f"book-{n}")
        # An order that is closed leaves its page: it is put without the tag, or with another one.
        client.put({"order/007": "book-7"}, tag="closed")
        found = [key for page in pages(client, "open") for key in page]
        print(f"{len(found)} open orders, from {found[0]} to {found[-1]}")
        assert len(found) == 49 and "order/007" not in found

        with client.pipeline() as pipeline:
            for n in range(PAGE + 1):
                pipeline.put({f"plain/{n}": "1"}, tag="plain")
        try:
            client.find("plain")
        except ramp_client.RefusedUse as refused:
            print(f"{PAGE + 1} under one tag:", refused)
        else:
            raise AssertionError(f"{PAGE + 1} items were found")


if __name__ == "__main__":
    main(sys.argv[1])
