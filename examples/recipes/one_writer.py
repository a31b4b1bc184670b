"""Counters, and other read-modify-write.

Two clients that read a counter, add one and write it back lose increments: a put does not check what it overwrites. So an item has one
writer, and other clients send their changes to that writer. Here a thread owns the counter. What arrives during one put goes into the next
one, so 10,000 increments take far fewer puts. None is lost, and each caller returns once its own increment is stored.

Server: ramp serve --stay --epoch 1000 --sessions 16 t"""
import queue
import sys
import threading

import ramp_client

THREADS, EACH = 8, 1250


class Counter:
    """A counter whose only writer is this object's thread."""

    def __init__(self, client, key):
        self.client, self.key = client, key
        self.asked = queue.Queue()
        threading.Thread(target=self.write, daemon=True).start()

    def add(self, number):
        """Returns once the sum is stored."""
        stored = threading.Event()
        self.asked.put((number, stored))
        stored.wait()

    def write(self):
        total = int(self.client.get(self.key)[self.key].value or "0")
        while True:
            batch = [self.asked.get()]
            while not self.asked.empty():
                batch.append(self.asked.get())
            total += sum(number for number, _ in batch)
            self.client.put({self.key: str(total)}, blind=True)  # nobody else writes it
            for _, stored in batch:
                stored.set()


def main(url):
    with ramp_client.connect(url) as client:
        before = int(client.get("visits")["visits"].value or "0")
        counter = Counter(client, "visits")
        threads = [threading.Thread(target=lambda: [counter.add(1) for _ in range(EACH)]) for _ in range(THREADS)]
        for thread in threads:
            thread.start()
        for thread in threads:
            thread.join()
        total = int(client.get("visits")["visits"].value) - before
        print(f"one writer: {THREADS * EACH - total} lost of {THREADS * EACH}")
        assert total == THREADS * EACH


if __name__ == "__main__":
    main(sys.argv[1])
