"""Reading while `keep` is small.

A collection keeps the `keep` latest versions of each item. A read that needs an older version is answered `restart`, and the client repeats
it by itself. No wrong answer is returned. A greater `keep` makes restarts rarer, and needs more room: slots for keep + 1 versions of each
item. Here 3 programs write the same 16 keys without a pause, and the server collects after every call, which is far more often than by
default. So with keep 1 some versions are gone before a read asks for them: it goes on until one is, for 20 s at most.

Server: ramp serve --stay --epoch 1000 --sessions 16 --parts 8 --every 1 t"""
import subprocess
import sys
import time

import ramp_client

KEYS = [f"kept/{n}" for n in range(16)]
SECONDS, LONGEST, DEPTH, WRITERS = 1, 20, 16, 3


def write(url):
    """What each of the programs does: it sends puts in pipelines."""
    with ramp_client.connect(url) as client:
        begun = time.monotonic()
        while time.monotonic() - begun < SECONDS:
            with client.pipeline() as pipeline:
                for n in range(DEPTH):
                    pipeline.put({key: str(n) for key in KEYS})


def read(client):
    """How many reads of a pipeline were answered `restart`. This client does not repeat them, so that they can be counted."""
    with client.pipeline() as pipeline:
        pending = [pipeline.get(*KEYS) for _ in range(DEPTH)]
    restarts = 0
    for it in pending:
        try:
            assert len({item.stamp for item in it.result().values()}) == 1
        except ramp_client.Restarted:
            restarts += 1
    return restarts


def main(url):
    with ramp_client.connect(url, retry=ramp_client.Retry(restarts=0)) as client:
        for keep in (1, 2, 8):
            client.keep(keep)
            restarts, reads, begun = 0, 0, time.monotonic()
            while reads == 0 or keep == 1 and restarts == 0 and time.monotonic() - begun < LONGEST:
                writers = [subprocess.Popen([sys.executable, __file__, url, "write"]) for _ in range(WRITERS)]
                while any(writer.poll() is None for writer in writers):
                    restarts, reads = restarts + read(client), reads + DEPTH
                assert all(writer.wait() == 0 for writer in writers)
            print(f"keep {keep}: {restarts} of {reads} reads were answered `restart`, all others were whole")
        client.keep(2)  # as the server had it


if __name__ == "__main__":
    write(sys.argv[1]) if len(sys.argv) > 2 else main(sys.argv[1])
