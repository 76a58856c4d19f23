"""What a server takes while nobody calls it, and what it keeps.

usage: rest.py PROGRAM [PART]

- 1,000 clients that are bound and say nothing: the processor's time that the server takes in half a minute, and its memory.
- Calls of the probe over one connection: how much its memory grows by a call, between the first fifth of them and the last.
- Connections one after the other, each with a bind and two calls of the probe: how its memory grows by a connection, in
  steps, and how long their journals are as text.
"""
import os
import struct
import subprocess
import sys
import tempfile
import time

import wire

OPEN, CLOSE = 0, 1
REST = 30
TICKS = os.sysconf("SC_CLK_TCK")


class Server:
    def __init__(self, program, room, connections):
        self.port, self.log = wire.free_port(), os.path.join(room, "log")
        with open(self.log, "wb") as log:
            self.child = subprocess.Popen([program, "serve", "127.0.0.1:%d" % self.port, "--connections", str(connections)],
                                          stdin=subprocess.DEVNULL, stdout=subprocess.DEVNULL, stderr=log)
        if not wire.await_listening(self.port, self.child):
            sys.exit("rest.py: the server doesn't listen")

    def memory(self):
        """What it has, in octets."""
        with open("/proc/%d/status" % self.child.pid, encoding="ascii") as file:
            return next(int(line.split()[1]) * 1024 for line in file if line.startswith("VmRSS:"))

    def seconds(self):
        """The processor's time that it took."""
        with open("/proc/%d/stat" % self.child.pid, encoding="ascii") as file:
            parts = file.read().rsplit(")", 1)[1].split()
        return (int(parts[11]) + int(parts[12])) / TICKS

    def bound(self):
        link = wire.Connection(self.port, wire.PROBE)
        if link.group is None:
            sys.exit("rest.py: a bind was refused")
        return link

    def end(self):
        if self.child.wait(120) != 0:
            sys.exit("rest.py: the server ends with %d" % self.child.returncode)
        return os.path.getsize(self.log)


def pair(link, n):
    """Opens a handle of the probe, and closes it."""
    answer = link.ask(OPEN, struct.pack("<I", n))
    if not isinstance(answer, bytes) or not isinstance(link.ask(CLOSE, answer[:20]), bytes):
        sys.exit("rest.py: a call wasn't done")


def silent(program, room, count, rest):
    server = Server(program, room, count)
    links = [server.bound() for _ in range(count)]
    time.sleep(min(rest, 5))
    begun, before = time.monotonic(), server.seconds()
    time.sleep(rest)
    share = (server.seconds() - before) / (time.monotonic() - begun)
    memory = server.memory()
    for it in links:
        it.link.close()
    server.end()
    print("%-44s %8.2f %% of a processor, %.1f MiB" % ("%d bound clients that say nothing" % count, share * 100, memory / 2**20), flush=True)


def kept(program, room, calls):
    server = Server(program, room, 1)
    with server.bound() as link:
        for n in range(calls // 10):
            pair(link, n)
        before = server.memory()
        for n in range(calls // 10, calls // 2):
            pair(link, n)
        after = server.memory()
    text = server.end()
    print("%-44s %8.0f octets a call, %.0f in the text of its journal" % (
        "%d calls of the probe" % calls, (after - before) / (calls * 0.8), text / calls), flush=True)


def in_turn(program, room, count):
    server = Server(program, room, count)
    steps, came = 5, []
    for step in range(steps):
        for n in range(count // steps):
            with server.bound() as link:
                pair(link, n)
        came.append(server.memory())
    text = server.end()
    each = [(b - a) / (count // steps) for a, b in zip(came, came[1:])]
    print("%-44s %8.0f octets a connection (%s), %.0f in the text of its journal" % (
        "%d connections one after the other" % count, sum(each) / len(each), " ".join("%.0f" % it for it in each), text / count))


def main(program, part="1"):
    program, part = os.path.abspath(program), int(part)
    with tempfile.TemporaryDirectory(prefix="dcerpc-rest-") as room:
        silent(program, room, max(1000 // part, 1), max(REST // part, 1))
        kept(program, room, max(200000 // part, 10))
        in_turn(program, room, max(10000 // part, 5))


if __name__ == "__main__":
    if len(sys.argv) not in (2, 3):
        sys.exit(__doc__)
    main(*sys.argv[1:])
