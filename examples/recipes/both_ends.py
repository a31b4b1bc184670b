"""Both ends of a link.

Who follows whom is stored at both ends, so that each end can be read by its own key. Both ends are written in one transaction. A reader in
a loop checks that they always agree. For comparison, two separate puts write the same, and the reader sees the moments between them.

Server: ramp serve --stay --epoch 1000 --sessions 8 t"""
import sys
import threading
import time

import ramp_client

SECONDS = 0.5


def follow(client, who, whom, state):
    """One transaction: both ends or none."""
    client.put({f"follows/{who}/{whom}": state, f"followers/{whom}/{who}": state})


def follow_in_two_steps(client, who, whom, state):
    client.put({f"follows/{who}/{whom}": state})
    client.put({f"followers/{whom}/{who}": state})


def count_halves(pool, write, who, whom):
    """How many reads saw the two ends differ while the link was written again and again, and how many reads there were."""
    def toggle():
        begun, n = time.monotonic(), 0
        while time.monotonic() - begun < SECONDS:
            write(pool, who, whom, "yes" if n % 2 else "no")
            n += 1

    writer = threading.Thread(target=toggle)
    writer.start()
    halves = reads = 0
    while writer.is_alive():
        ends = pool.get(f"follows/{who}/{whom}", f"followers/{whom}/{who}").values()
        halves += len({end.value for end in ends}) > 1
        reads += 1
    writer.join()
    return halves, reads


def main(url):
    with ramp_client.Pool(url, size=2) as pool:
        halves, reads = count_halves(pool, follow, "ada", "grace")
        print(f"one transaction: {halves} of {reads} reads saw half of a link")
        assert halves == 0 and reads > 0
        halves, reads = count_halves(pool, follow_in_two_steps, "ada", "alan")
        print(f"two puts: {halves} of {reads} reads saw half of a link")


if __name__ == "__main__":
    main(sys.argv[1])
