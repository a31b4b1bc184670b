"""A Redis cluster of two nodes on the loopback interface, which `from_redis.py` shows. Nothing is stored on disk."""
import contextlib
import socket
import subprocess
import tempfile
import time


class Connection:
    """Asks a node, and returns its answers as text."""

    def __init__(self, port):
        self.socket = socket.create_connection(("127.0.0.1", port), 10)
        self.lines = self.socket.makefile("rb")

    def ask(self, *words):
        data = b"".join(b"$%d\r\n%s\r\n" % (len(word), word.encode()) for word in words)
        self.socket.sendall(b"*%d\r\n" % len(words) + data)
        line = self.lines.readline().decode().rstrip()
        return self.lines.read(int(line[1:]) + 2)[:-2].decode() if line[0] == "$" and line != "$-1" else line[1:]


def start(folder, name, stack):
    """A node, which ends with the stack, and a connection to it."""
    with socket.create_server(("127.0.0.1", 0)) as free:
        # A node takes a second port, which is 10,000 above this one.
        port = free.getsockname()[1] % 20000 + 20000
    command = ["redis-server", "--port", str(port), "--bind", "127.0.0.1", "--dir", folder, "--save", "", "--cluster-enabled", "yes",
               "--cluster-config-file", f"{name}.conf", "--logfile", f"{folder}/{name}.log"]
    running = stack.enter_context(subprocess.Popen(command))
    stack.callback(running.kill)
    for _ in range(400):
        with contextlib.suppress(ConnectionRefusedError):
            return port, Connection(port)
        time.sleep(0.05)
    raise SystemExit("redis-server does not start")


@contextlib.contextmanager
def cluster(*keys):
    """The ports of two nodes, of which each has one of these two keys."""
    with tempfile.TemporaryDirectory() as folder, contextlib.ExitStack() as stack:
        (port, node), (other_port, other) = start(folder, "a", stack), start(folder, "b", stack)
        slots = [int(node.ask("CLUSTER", "KEYSLOT", key)) for key in keys]
        node.ask("CLUSTER", "ADDSLOTSRANGE", "0", str(min(slots)))
        other.ask("CLUSTER", "ADDSLOTSRANGE", str(min(slots) + 1), "16383")
        node.ask("CLUSTER", "MEET", "127.0.0.1", str(other_port))
        while not all("cluster_state:ok" in each.ask("CLUSTER", "INFO") for each in (node, other)):
            time.sleep(0.05)
        yield (port, other_port) if slots[0] < slots[1] else (other_port, port)
