"""Many programs, and client numbers.

Each session has a client number. A number counts against `--clients` for as long as the server runs. So programs share a few numbers:
`connect` tries many in one packet, and takes one that no session uses. Here 8 programs, 4 at a time, have 3 sessions each, on a server
that allows 12 numbers.

Server: ramp serve --stay --epoch 1000 --sessions 32 --clients 12 t"""
import subprocess
import sys

import ramp_client

PROGRAMS, AT_A_TIME, SESSIONS = 8, 4, 3


def program(url, name):
    """What each program does: it opens some sessions, and prints their numbers."""
    clients = [ramp_client.connect(url) for _ in range(SESSIONS)]
    for n, client in enumerate(clients):
        client.put({f"program/{name}/{n}": "was-here"})
    print(*(client.number for client in clients))
    for client in clients:
        client.close()


def main(url):
    numbers = set()
    for first in range(0, PROGRAMS, AT_A_TIME):
        names = [str(name) for name in range(first, first + AT_A_TIME)]
        programs = [subprocess.Popen([sys.executable, __file__, url, name], stdout=subprocess.PIPE, text=True) for name in names]
        for running in programs:
            said, _ = running.communicate()
            assert running.returncode == 0
            numbers.update(said.split())
    print(f"{PROGRAMS * SESSIONS} sessions of {PROGRAMS} programs had {len(numbers)} different numbers")

    # More sessions at a time than numbers are refused, with what would help. Where the server's --sessions are fewer, a further one waits for a place.
    clients = []
    try:
        while True:
            clients.append(ramp_client.connect(url, timeout=2, retry=ramp_client.Retry(attempts=1)))
    except (ramp_client.NoRoom, ramp_client.NoAnswer) as error:
        print(f"after {len(clients)} sessions at a time:", error)
    assert len(numbers) <= len(clients)
    for client in clients:
        client.close()


if __name__ == "__main__":
    program(*sys.argv[1:]) if len(sys.argv) > 2 else main(sys.argv[1])
