"""Values over 128 bytes, and any text or bytes.

A value has at most 128 bytes from ! to ~. `put_json`, `put_text` and `put_bytes` write what has more: under several keys, `note.0`, `note.1`, .., which one
transaction writes. So it is read whole or not at all. `codec` encodes short text and bytes as one value.

Server: ramp serve --stay --epoch 1000 --sessions 8 t"""
import sys
import threading
import time

import ramp_client
from ramp_client import codec

SECONDS = 0.5


def write(client, document):
    client.put_json({"note": document})


def read(client):
    return client.get_json("note")["note"]


def write_often(pool):
    begun, n = time.monotonic(), 0
    while time.monotonic() - begun < SECONDS:
        # The length varies: what a longer record leaves in further keys is ignored.
        write(pool, {"version": n, "lines": [f"line {n}: {'é' * 20}"] * (n % 12)})
        n += 1


def main(url):
    with ramp_client.Pool(url, size=2) as pool:
        pool.put({"title": codec.encode_text("Two words, 100 %")})
        print(codec.decode_text(pool.get("title")["title"].value))
        pool.put({"digest": codec.encode_bytes(bytes(range(102)))})
        assert codec.decode_bytes(pool.get("digest")["digest"].value) == bytes(range(102))
        write(pool, {"version": 0, "lines": []})

        writer = threading.Thread(target=write_often, args=(pool,))
        writer.start()
        reads = last = 0
        while writer.is_alive():
            note = read(pool)
            version, lines = note["version"], note["lines"]
            assert version >= last and lines == [f"line {version}: {'é' * 20}"] * (version % 12)
            last = version
            reads += 1
        writer.join()
        print(f"{read(pool)['version'] + 1} writes of a record, {reads} reads, each of a whole one")


if __name__ == "__main__":
    main(sys.argv[1])
