"""Feeds streams of mixed calls to `fss feed`, and prints calls a second, the greatest memory, and how both grow from
some calls to four times as many. Called by `run`."""
import pathlib
import random
import subprocess
import sys
import time

TOP = pathlib.Path(__file__).resolve().parents[2]
sys.path[:0] = [str(TOP / "examples"), str(TOP / "bench")]

import memory
import nfs3

# How often each kind of call comes, of a hundred.
SHARES = {"create": 20, "lookup": 25, "write": 15, "read": 15, "readdir": 5, "rename": 10, "remove": 10}

# How many names a directory gets before the next one is made.
NAMES = 100

BLOCK = 4096


class Tree:
    """What the calls so far have made, so that each further call succeeds."""

    def __init__(self, number):
        self.random = random.Random(number)
        self.next_fileid = 16
        self.directory, self.room = None, 0
        self.files = []
        self.made = 0

    def give(self):
        """The number of the next new file; all are of the first of sixteen lanes."""
        fileid = self.next_fileid
        self.next_fileid += 16
        return fileid

    def fresh_name(self):
        self.made += 1
        return f"file-{self.made}"

    def take_room(self):
        """Room for one name in the newest directory, or the call that makes another one."""
        if self.room == 0:
            self.directory, self.room = self.give(), NAMES
            return nfs3.mkdir(1, f"directory-{self.directory}")
        self.room -= 1
        return None

    def create(self):
        if call := self.take_room():
            return call
        name = self.fresh_name()
        self.files.append((self.directory, name, self.give()))
        return nfs3.create(self.directory, name)

    def call(self):
        """The next call."""
        kind = self.random.choices(list(SHARES), SHARES.values())[0]
        if kind == "create" or not self.files:
            return self.create()
        at = self.random.randrange(len(self.files))
        directory, name, fileid = self.files[at]
        if kind == "lookup":
            return nfs3.lookup(directory, name)
        if kind == "write":
            return nfs3.write(fileid, BLOCK * self.random.randrange(4), self.random.randbytes(BLOCK))
        if kind == "read":
            return nfs3.read(fileid, BLOCK * self.random.randrange(4), BLOCK)
        if kind == "readdir":
            return nfs3.readdir(directory)
        if kind == "remove":
            self.files[at] = self.files[-1]
            self.files.pop()
            return nfs3.remove(directory, name)
        if call := self.take_room():
            return call
        other = self.fresh_name()
        self.files[at] = (self.directory, other, fileid)
        return nfs3.rename(directory, name, self.directory, other)


def write_stream(path, number, calls):
    tree = Tree(number)
    with open(path, "wb") as stream:
        for xid in range(calls):
            stream.write(nfs3.record(xid, tree.call()))


def run(program, stream, replies):
    """One run: its seconds and its greatest memory in KiB."""
    with open(stream, "rb") as source, open(replies, "wb") as sink:
        began = time.perf_counter()
        process = subprocess.Popen([program, "feed"], stdin=source, stdout=sink)
        greatest = 0
        while process.poll() is None:
            greatest = memory.greatest(process.pid, greatest)
            time.sleep(0.001)
        spent = time.perf_counter() - began
    if process.returncode != 0:
        sys.exit(f"status {process.returncode}")
    return spent, greatest


def look(replies, calls):
    """Each call has its reply, of status OK."""
    with open(replies, "rb") as stream:
        wanted = 0
        for xid, status, _ in nfs3.results(stream):
            if (xid, status) != (wanted, 0):
                sys.exit(f"reply {wanted} has xid {xid} and status {status}")
            wanted += 1
    if wanted != calls:
        sys.exit(f"{wanted} replies to {calls} calls")


def measure(program, folder, number, calls, rounds):
    """The seconds of the best round, and the greatest memory in KiB."""
    stream, replies = folder / "calls", folder / "replies"
    write_stream(stream, number, calls)
    results = [run(program, stream, replies) for _ in range(rounds)]
    look(replies, calls)
    spent, most = min(spent for spent, _ in results), max(most for _, most in results)
    print(f"{calls:,} calls: {calls / spent:,.0f} calls a second, {most:,} KiB")
    stream.unlink()
    replies.unlink()
    return spent, most


def main():
    program, folder, number = sys.argv[1], pathlib.Path(sys.argv[2]), int(sys.argv[3])
    calls, rounds = int(sys.argv[4]), int(sys.argv[5])
    few = measure(program, folder, number, calls, rounds)
    many = measure(program, folder, number, 4 * calls, rounds)
    print(f"growth over four times as many calls: {many[0] / few[0]:.2f} in time, {many[1] / few[1]:.2f} in memory")


main()
