"""A server under a tool of valgrind, which counts all that its threads do in user space: for 4 of 64 keys with values of 16 bytes over one connection,
pipelined 16 deep. Other work on the machine does not show."""
import os
import signal
import socket
import subprocess
import sys
import tempfile

from of_tools import give_up, proved_program

DEEP = 16
WARM = 30 * DEEP
MODES = {"as rampd starts it": ["--unrecorded", "--newest", "--strict"], "ramp serve": []}


def keys(nth):
    return [f"k{(7 * nth + 13 * place) % 64:02}" for place in range(4)]


def put(nth):
    return "put " + " ".join(f"{key}={nth:016}" for key in keys(nth))


def get(nth):
    return "get " + " ".join(keys(nth))


def ask(link, answers, lines, word):
    """Sends the lines, DEEP at a time, and sees that each answer begins with the word."""
    for first in range(0, len(lines), DEEP):
        piece = lines[first:first + DEEP]
        link.sendall("".join(line + "\n" for line in piece).encode())
        for line in piece:
            if not (answer := answers.readline()).startswith(word):
                give_up(f"{line!r} was answered {answer!r}")


def told_of(tool, program, options, line, word, requests):
    """What the tool says of a server that answers the first puts, and so many of these requests."""
    with tempfile.TemporaryFile("w+") as told:
        server = subprocess.Popen(["valgrind", *tool, program, "serve", "--slots", "65536", *options, "t"], stdout=subprocess.PIPE, stderr=told, text=True)
        try:
            port = int(server.stdout.readline().split()[1])
            with socket.create_connection(("127.0.0.1", port)) as link, link.makefile("r", newline="\n") as answers:
                ask(link, answers, ["hello t 1"], "ready")
                ask(link, answers, [put(nth) for nth in range(WARM)], "done")
                ask(link, answers, [line(nth) for nth in range(requests)], word)
                server.send_signal(signal.SIGTERM)
                server.wait()
        finally:
            server.kill()
            server.wait()
        told.seek(0)
        return told.read()


def per_request(tool, numbers_in, requests):
    """For each mode of a server, and for puts and gets, the numbers that the tool counts per request: how much more a server counts that answers
    `requests` more. They are for the words of the script: REQUESTS and PROGRAM."""
    words = sys.argv[1:]
    requests, program = int(words[0]) if words else requests, words[1] if len(words) > 1 else proved_program()
    if not requests or not os.access(program, os.X_OK):
        give_up("[REQUESTS [PROGRAM]] are 1 or more, and a build of ramp that can be run", 2)
    for mode, options in MODES.items():
        base = numbers_in(told_of(tool, program, options, put, "done", 0))
        of_each = [numbers_in(told_of(tool, program, options, line, word, requests)) for line, word in ((put, "done"), (get, "read"))]
        yield mode, *([(now - then) / requests for now, then in zip(of_one, base)] for of_one in of_each)
