#!/usr/bin/env python3
"""Proves the crates of the program, several at a time, and builds it: crates/ramp/out/ramp. Reports each crate that is proved, on standard error.

It begins with the crates that have the longest chains of others behind them, and gives these most of the processors. RT_JOBS is how many crates at a
time; without it one for each processor, where memory allows. What an earlier run or `rt check` has proved of the same text is not proved again. Its copies lie in TMPDIR, and are links where that is in this file system. Status 1 where a
crate is not proved; then what rt said of it is shown.
"""
import glob
import os
import shutil
import signal
import subprocess
import sys
import tempfile
import time
import zlib

from begin import begin

TOP = os.path.dirname(os.path.dirname(os.path.realpath(__file__)))
PROGRAM = "ramp"
# How much memory has to be free for one more crate, in bytes.
ROOM = 4_000_000_000
# A crate is as urgent as the one with the longest chain behind it where its own chain is this part of that at least.
NEAR = 0.9
# What copies of this tree are named after.
ROOM_OF = f"{PROGRAM}-{zlib.crc32(TOP.encode()):08x}"
BEGUN = time.monotonic()


def below(crate, rows, found):
    """Adds the crates that this one stands on, and itself, each after those that it stands on."""
    if crate in rows and crate not in found:
        for name in rows[crate]:
            below(name, rows, found)
        found[crate] = [name for name in rows[crate] if name in rows]
    return found


def rows():
    """The lines of crates.txt by the crate that each is for."""
    with open(f"{TOP}/crates.txt", encoding="utf-8") as file:
        return {line.partition(":")[0].split()[0]: line for line in file if not line.startswith("#") and ":" in line}


def crates(top):
    """The crates that one stands on, and itself, each with those that it stands on, lowest first."""
    return below(top, {name: line.partition(":")[2].split() for name, line in rows().items()}, {})


def lines(crate):
    """How many lines of code a crate has, as a measure of the time that its proof takes."""
    count = 0
    for folder, _, names in os.walk(f"{TOP}/crates/{crate}/src"):
        for name in names:
            with open(f"{folder}/{name}", "rb") as file:
                count += file.read().count(b"\n")
    return count


def chains(stands_on):
    """How long the longest chain of crates is that begins with each."""
    behind = dict.fromkeys(stands_on, 0)
    for crate in reversed(stands_on):
        behind[crate] += lines(crate)
        for name in stands_on[crate]:
            behind[name] = max(behind[name], behind[crate])
    return behind


def has_room():
    """Whether there is free memory for one more crate."""
    with open("/proc/meminfo", encoding="utf-8") as file:
        return any(line.startswith("MemAvailable:") and int(line.split()[1]) * 1024 >= ROOM for line in file)


def linked(one, other):
    """Copies a folder of a library by links, since no proof writes into one, or its files where the copy lies in another file system. Ends the run where neither can be."""
    os.makedirs(os.path.dirname(other), exist_ok=True)
    if subprocess.run(["cp", "-al", one, other], stderr=subprocess.DEVNULL).returncode:
        shutil.rmtree(other, ignore_errors=True)
        if subprocess.run(["cp", "-a", one, other], stderr=subprocess.DEVNULL).returncode:
            sys.exit(f"{one} could not be copied: either the disk is full, or a gate in this tree has set it aside; run this again when that has ended")


class Proof:
    """A crate that rt works at, in a copy of what it stands on, since one rt at a time works over a library."""

    def __init__(self, room, crate, nice, flags):
        self.room, self.log, self.out = f"{room}/{crate}", f"{room}/{crate}.log", f"{TOP}/crates/{crate}/out"
        self.copy = f"{self.room}/crates/{crate}/out"
        for name in crates(crate):
            for part in ("src", "specs", "proofs"):
                if os.path.isdir(f"{TOP}/crates/{name}/{part}"):
                    shutil.copytree(f"{TOP}/crates/{name}/{part}", f"{self.room}/crates/{name}/{part}")
            if os.path.isdir(library := f"{TOP}/crates/{name}/out/rlib"):
                linked(library, f"{self.room}/crates/{name}/out/rlib")
        with open(f"{self.room}/crates.txt", "w", encoding="utf-8") as file:
            file.writelines(rows()[name] for name in crates(crate))
        shutil.copy(f"{TOP}/HANDLES", self.room)
        os.makedirs(self.copy, exist_ok=True)
        self.move(self.out, self.copy, "incremental")
        with open(self.log, "wb") as log:
            self.rt = subprocess.Popen(["nice", "-n", nice, "rt", "lib", *flags], cwd=os.path.dirname(self.copy), stdin=subprocess.DEVNULL, stdout=log, stderr=subprocess.STDOUT)

    @staticmethod
    def move(one, other, name):
        """Moves a folder from one to another, in place of what is there."""
        if os.path.isdir(f"{one}/{name}"):
            os.makedirs(other, exist_ok=True)
            shutil.rmtree(f"{other}/{name}", ignore_errors=True)
            shutil.move(f"{one}/{name}", f"{other}/{name}")

    def end(self):
        """Brings back what rt made, once it has ended. Gives what removes the copy meanwhile."""
        status = self.rt.wait()
        self.move(self.copy, self.out, "incremental")
        if not status:
            self.move(self.copy, self.out, "rlib")
        return subprocess.Popen(["rm", "-rf", self.room])


def clear(rooms):
    """Removes what builds that were killed left, and gives the work that was kept there back to the crates that it is of."""
    for room in rooms:
        if not os.path.exists(f"/proc/{os.path.basename(room).split('-')[2]}"):
            for kept in glob.glob(f"{room}/*/crates/*/out/incremental"):
                out = os.path.dirname(kept)
                Proof.move(out, f"{TOP}/crates/{os.path.basename(os.path.dirname(out))}/out", "incremental")
            shutil.rmtree(room)


def urgency(chain, others):
    """How nice rt is to be, and how many jobs it may have, for a crate with such a chain behind it, beside others; rt's own choice is up to four."""
    longest = max([chain, *others])
    return ("0", []) if chain == longest else ("0", ["--jobs", "2"]) if chain >= NEAR * longest else ("4", ["--jobs", "1"])


def tell(what):
    passed = time.monotonic() - BEGUN
    print(f"ramp: {what} ({passed // 60:.0f} min {passed % 60:.0f} s)", file=sys.stderr)


def prove(stands_on, room):
    """Proves each of these crates behind those that it stands on. Gives the log of the first that is not proved, or None."""
    behind, running, proved, removals, has_waited = chains(stands_on), {}, set(), [], False
    most = int(os.environ.get("RT_JOBS") or len(os.sched_getaffinity(0)))
    left = sorted(stands_on, key=behind.get, reverse=True)
    try:
        while left or running:
            for crate in [name for name in left if proved.issuperset(stands_on[name])][: most - len(running)]:
                if running and not has_room():
                    if not has_waited:
                        tell(f"{crate} waits for memory: {len(running)} of {most} crates are proved at a time")
                    has_waited = True
                    break
                left.remove(crate)
                running[crate] = Proof(room, crate, *urgency(behind[crate], [behind[name] for name in (*left, *running)]))
            time.sleep(0.1)
            for crate in [name for name, proof in running.items() if proof.rt.poll() is not None]:
                proof = running.pop(crate)
                removals.append(proof.end())
                if proof.rt.returncode:
                    return proof.log
                proved.add(crate)
                tell(f"{len(proved)} of {len(stands_on) + 1}: {crate} is proved")
    finally:
        for proof in running.values():
            proof.rt.terminate()
            removals.append(proof.end())
        for removal in removals:
            removal.wait()
    return None


def build(log):
    """Proves the program itself, over its libraries, and builds it. Gives the log where that fails."""
    with open(log, "wb") as file:
        # It prints its help, once it is built.
        status = subprocess.run(["rt", "run", "--", "--help"], cwd=f"{TOP}/crates/{PROGRAM}", stdin=subprocess.DEVNULL, stdout=file, stderr=subprocess.STDOUT).returncode
    return log if status else None


def main():
    for number in (signal.SIGTERM, signal.SIGINT, signal.SIGHUP):
        signal.signal(number, lambda *_: sys.exit(1))
    libraries = {name: names for name, names in crates(PROGRAM).items() if name != PROGRAM}
    clear(glob.glob(f"{tempfile.gettempdir()}/{ROOM_OF}-*"))
    # Not in this tree, which the gate looks through: it refuses a second crates.txt.
    with tempfile.TemporaryDirectory(prefix=f"{ROOM_OF}-{os.getpid()}-") as room:
        if log := prove(libraries, room) or build(f"{room}/{PROGRAM}.log"):
            with open(log, encoding="utf-8", errors="replace") as file:
                sys.stderr.write(file.read())
            return 1
    return 0


if __name__ == "__main__":
    sys.exit(begin(main, __doc__, {}, "rt"))
