"""Moving a model over from Redis.

`stock` and `sold` are on two nodes of a Redis cluster. There, MULTI over both is refused, and a reader sees two plain SETs half done. Here
the same write is one put over two partitions, and no reader sees half of it. `redis_two_nodes.py`, in the same folder, starts the cluster.
Without redis-server only the second part runs.

Server: ramp serve --stay --epoch 1000 --sessions 8 t"""
import shutil
import sys
import threading
import time

import ramp_client
import redis_two_nodes

SECONDS = 0.5


def count_halves(write, read):
    """How many reads saw the two keys differ while they were written again and again, and how many reads there were."""
    def write_often():
        begun, n = time.monotonic(), 0
        while time.monotonic() - begun < SECONDS:
            write(str(n))
            n += 1

    writer = threading.Thread(target=write_often)
    writer.start()
    halves = reads = 0
    while writer.is_alive():
        stock, sold = read()
        halves += stock != sold
        reads += 1
    writer.join()
    return halves, reads


def in_redis():
    with redis_two_nodes.cluster("stock", "sold") as ports:
        (stock, sold), reading = ([redis_two_nodes.Connection(port) for port in ports] for _ in range(2))
        stock.ask("MULTI")
        print("redis, MULTI:", stock.ask("SET", "stock", "1"), "/", stock.ask("SET", "sold", "1"), "/", stock.ask("EXEC"))
        print("redis, MSET:", stock.ask("MSET", "stock", "1", "sold", "1"))
        halves, reads = count_halves(lambda value: (stock.ask("SET", "stock", value), sold.ask("SET", "sold", value)),
                                     lambda: (reading[0].ask("GET", "stock"), reading[1].ask("GET", "sold")))
        print(f"redis, two SETs: {halves} of {reads} reads saw half")


def main(url):
    in_redis() if shutil.which("redis-server") else print("redis-server is not installed: only the second part runs")
    with ramp_client.Pool(url, size=2) as pool:
        halves, reads = count_halves(lambda value: pool.put({"stock": value, "sold": value}), lambda: [item.value for item in pool.get("stock", "sold").values()])
    print(f"here, one put: {halves} of {reads} reads saw half")
    assert halves == 0 and reads > 0


if __name__ == "__main__":
    main(sys.argv[1])
