"""A counter without a common writer: each client counts in its own item.

Each item has one writer, so no increment is lost. The total is read with one get of all items, of which there are 16 at most. For
comparison, the same number of increments is done on one item by two clients that read and then write it: what they lose is printed.

Server: ramp serve --stay --epoch 1000 --sessions 16 t"""
import sys
import threading

import ramp_client

THREADS, EACH = 2, 100


def count_in_own(url, n):
    key = f"tickets/{n}"
    with ramp_client.connect(url) as client:
        total = int(client.get(key)[key].value or "0")  # a new session goes on from the last one, whatever its number was
        for _ in range(EACH):
            total += 1
            client.put({key: str(total)}, blind=True)  # nobody else writes it


def count_in_one(url, _):
    """Wrong: another client may write between the read and the write."""
    with ramp_client.connect(url) as client:
        for _ in range(EACH):
            client.put({"tickets": str(int(client.get("tickets")["tickets"].value or "0") + 1)})


def in_threads(count, url):
    threads = [threading.Thread(target=count, args=(url, n)) for n in range(THREADS)]
    for thread in threads:
        thread.start()
    for thread in threads:
        thread.join()


def totals(url):
    """The sum of the items of the clients, and the one item for both."""
    with ramp_client.connect(url) as client:
        *own, one = (int(item.value or "0") for item in client.get(*(f"tickets/{n}" for n in range(THREADS)), "tickets").values())
    return sum(own), one


def main(url):
    own_before, one_before = totals(url)
    in_threads(count_in_own, url)
    in_threads(count_in_one, url)
    own, one = totals(url)
    own, one = own - own_before, one - one_before
    print(f"an item each: {THREADS * EACH - own} lost of {THREADS * EACH}")
    print(f"one item for both: {THREADS * EACH - one} lost of {THREADS * EACH}")
    assert own == THREADS * EACH


if __name__ == "__main__":
    main(sys.argv[1])
