"""What the benches start and ask what it used: a program that answers each line that it is given, and servers over sockets."""
import os
import pathlib
import signal
import subprocess
import sys
import tempfile
import threading

from of_tools import give_up

RAMPD = pathlib.Path(__file__).resolve().parent.parent / "service" / "rampd"
TICK = os.sysconf("SC_CLK_TCK")


class Program:
    def __init__(self, command):
        self.command = [str(word) for word in command]
        self.process = subprocess.Popen(self.command, stdin=subprocess.PIPE, stdout=subprocess.PIPE)

    def processor_seconds(self):
        """The CPU time that it has used so far, as Linux counts it for its one thread."""
        return int(pathlib.Path(f"/proc/{self.process.pid}/schedstat").read_text().split()[0]) / 1e9

    def peak_mib(self):
        """The most memory that it has held so far."""
        status = pathlib.Path(f"/proc/{self.process.pid}/status").read_text()
        return int(status.split("VmHWM:")[1].split()[0]) / 1024

    def serve(self, lines):
        """Has these lines answered, and returns the answers."""
        giver = threading.Thread(target=self.give, args=("".join(line + "\n" for line in lines).encode(),))
        giver.start()
        answers = [self.process.stdout.readline().rstrip(b"\n").decode() for _ in lines]
        giver.join()
        return answers

    def give(self, text):
        self.process.stdin.write(text)
        self.process.stdin.flush()

    def end(self):
        """Ends its input, after which it must end well and write no more."""
        rest, _ = self.process.communicate()
        if self.process.returncode != 0 or rest:
            sys.exit(f"{self.command}: status {self.process.returncode}, {len(rest)} bytes more")


class Running:
    """A server that was started: the process that was started for it, the number of its own, and its port."""

    def __init__(self, process, server, port):
        self.process, self.server, self.port = process, server, port

    def processor_seconds(self):
        """The CPU time of all threads of the server, the ended ones among them."""
        fields = pathlib.Path(f"/proc/{self.server}/stat").read_text().rpartition(")")[2].split()
        return (int(fields[11]) + int(fields[12])) / TICK

    def bytes(self, kind):
        """The memory that it holds (VmRSS), or the most that it has held so far (VmHWM)."""
        status = pathlib.Path(f"/proc/{self.server}/status").read_text()
        return int(status.split(f"{kind}:")[1].split()[0]) * 1024

    def kill(self):
        """Ends it without its last lines, as its verdict takes far longer than what is measured."""
        os.kill(self.server, signal.SIGKILL)
        self.process.wait()


class Service(Running):
    """The server of service/rampd over a program, as its users start it: with its defaults, but for these options and tenants."""

    def __init__(self, program, *words, before=()):
        self.log = tempfile.TemporaryFile("w+")
        command = [*before, RAMPD, "--program", program, "--port", "0", *map(str, words)]
        process = subprocess.Popen(command, stdin=subprocess.DEVNULL, stdout=subprocess.PIPE, stderr=self.log, text=True)
        listening = process.stdout.readline().split()
        if listening[:1] != ["listening"]:
            process.wait()
            give_up(f"rampd {' '.join(map(str, words))}: {self.last_of_log()}")
        super().__init__(process, int(pathlib.Path(f"/proc/{process.pid}/task/{process.pid}/children").read_text().split()[0]), int(listening[1]))

    def last_of_log(self):
        self.log.seek(0)
        return (self.log.read().splitlines() or ["it said nothing"])[-1]

    def end(self):
        """Ends it as a user does, and returns its last lines and its status."""
        self.process.send_signal(signal.SIGTERM)
        told, _ = self.process.communicate()
        return told, self.process.returncode
