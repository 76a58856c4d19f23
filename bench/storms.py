"""Storms of cancels on a server over the loopback.

usage: storms.py PROGRAM [PART]

LONG=4 has the long call read 4 MiB, and PATIENCE=600 waits so many seconds for each thing: for a slow build.

A call runs long on one connection: it reads 16 MiB of a file of the store, and has its cursor to itself meanwhile. On a
second connection of the group a call of that cursor waits. One storm sends 10,000 co_cancels for that call at once: it
gets one fault, its journal has one Cancel, and what comes after its end changes nothing. The other storm sends 10,000
pairs of a request and its co_cancel, as many at a time as have room in a running call: each is answered once, and each
that waited by the fault, of which the journal has one Cancel. A try in which the long call was over too early counts for
nothing, and there is another one. Each journal has to be legal, each group to be shut, with no call left that waits.
"""
import os
import re
import struct
import subprocess
import sys
import tempfile
import threading
import time

import wire

OPEN, APPEND, READ = 0, 1, 2
CANCELLED = 0x1C00000D
LONG = int(os.environ.get("LONG", 16)) << 20
PATIENCE = float(os.environ.get("PATIENCE", 120))
TRIES = 40


class Wrong(Exception):
    """What came of a storm and may not."""


def name(text):
    octets = text.encode("ascii") + b"\0"
    return struct.pack("<III", len(octets), 0, len(octets)) + octets


def opened(link, text):
    """A cursor at the begin of a file, which is made if it isn't there."""
    answer = link.ask(OPEN, name(text))
    if not isinstance(answer, bytes) or answer[-4:] != bytes(4):
        raise Wrong("a file isn't opened: %r" % (answer,))
    return answer[:20]


def append(cursor, octets):
    return cursor + struct.pack("<II", len(octets), len(octets)) + octets


def read(cursor, most):
    return cursor + struct.pack("<I", most)


class Server:
    def __init__(self, program, room, connections):
        self.program, self.port = program, wire.free_port()
        self.out, self.log = os.path.join(room, "out"), os.path.join(room, "log")
        with open(self.out, "wb") as out, open(self.log, "wb") as log:
            self.child = subprocess.Popen([program, "serve", "127.0.0.1:%d" % self.port, "--connections", str(connections)],
                                          stdin=subprocess.DEVNULL, stdout=out, stderr=log)
        if not wire.await_listening(self.port, self.child):
            raise Wrong("the server doesn't listen")

    def bound(self, group=0):
        link = wire.Connection(self.port, wire.STORE, group, PATIENCE)
        if link.group is None:
            raise Wrong("a bind was refused")
        return link

    def end(self):
        """The journals, once the last connection has gone."""
        try:
            status = self.child.wait(PATIENCE)
        except subprocess.TimeoutExpired:
            raise Wrong("the server doesn't end") from None
        with open(self.out, encoding="ascii") as file:
            lines = file.read().splitlines()
        if status != 0 or not all(it.endswith(" closed") for it in lines[:-1]):
            raise Wrong("the server ends with status %d" % status)
        with open(self.log, encoding="ascii") as file:
            journals = re.split(r"^(?=group )", file.read(), flags=re.M)[1:]
        for it in journals:
            self.judge(it)
        return journals

    def judge(self, journal):
        """It is legal and its group is shut, without a call that waits."""
        file = self.log + ".one"
        with open(file, "w", encoding="ascii") as it:
            it.write(journal)
        ran = subprocess.run([self.program, "audit", file], stdin=subprocess.DEVNULL, capture_output=True, timeout=PATIENCE)
        if ran.returncode != 0:
            raise Wrong("a journal isn't legal: %s" % ran.stdout.decode().strip())
        if not journal.rstrip("\n").split("\n")[-1].startswith("shut"):
            raise Wrong("a group isn't shut")

    def kill(self):
        if self.child.poll() is None:
            self.child.kill()
        self.child.wait()


def fill(server):
    """Fills the file `long`, by a connection of its own."""
    with server.bound() as link:
        cursor = opened(link, "long")
        for _ in range(4):
            answer = link.ask(APPEND, append(cursor, bytes(LONG // 4)))
            if not isinstance(answer, bytes):
                raise Wrong("an append isn't done: %08x" % answer)


class Pair:
    """Two connections of a group: on the first a call runs long, and it answers only that."""

    def __init__(self, server):
        self.server, self.first = server, server.bound()
        self.second = server.bound(self.first.group)
        self.cursor = opened(self.first, "long")

    def begin(self):
        """Begins the long call; its answer is taken by a thread beside, so that its put needn't wait."""
        call = self.first.begin(READ, read(self.cursor, LONG))
        self.came = "nothing within %d seconds" % PATIENCE
        self.taker = threading.Thread(target=self.take, args=(call,))
        self.taker.start()

    def take(self, call):
        try:
            it = self.first.outcome(call)
            self.came = it if isinstance(it, bytes) else "fault %08x" % it
        except (EOFError, OSError, ValueError) as error:
            self.came = str(error)

    def done(self):
        self.taker.join(PATIENCE)
        if not isinstance(self.came, bytes):
            raise Wrong("the long call isn't answered: %s" % self.came)
        if len(self.came) < LONG:
            raise Wrong("the long call's answer has %d octets" % len(self.came))
        self.first.link.close()
        self.second.link.close()


def cancels(journal):
    """How many Cancels each call of the second connection has, and which waited when it came."""
    calls = re.findall(r"^accept (\d+) 2 ", journal, re.M)
    taken = set(re.findall(r"^take (\d+) ", journal, re.M))
    counts = dict.fromkeys(calls, 0)
    for call in re.findall(r"^cancel (\d+)$", journal, re.M):
        counts[call] = counts.get(call, 0) + 1
    return counts, taken


def one_call(program, room, count, pause):
    """So many co_cancels for one call. Answers whether it waited."""
    server = Server(program, room, 3)
    try:
        fill(server)
        pair = Pair(server)
        pair.begin()
        time.sleep(pause)
        call = pair.second.next_call()
        pair.second.put(wire.request(call, READ, read(pair.cursor, 1)) + wire.co_cancel(call) * count)
        answer = pair.second.outcome(call)
        # (what comes next is the next call's answer, so there was one)
        opened(pair.second, "other")
        pair.done()
        journal = server.end()[-1]
    finally:
        server.kill()
    counts, taken = cancels(journal)
    call = min(counts, key=int)
    if counts[call] > 1:
        raise Wrong("%d co_cancels for one call have %d Cancels" % (count, counts[call]))
    waited = call not in taken
    if waited and (counts[call] != 1 or answer != CANCELLED):
        raise Wrong("a call that waited was answered by %r, with %d Cancels" % (answer, counts[call]))
    if not waited and not isinstance(answer, bytes):
        raise Wrong("a call that didn't wait was answered by %08x" % answer)
    return waited


def many_rounds(program, room, count, pause):
    """So many pairs of a request and its co_cancel. Answers how many of the calls waited, and the seconds of all."""
    server = Server(program, room, 3)
    try:
        fill(server)
        pair = Pair(server)
        calls = [pair.second.next_call() for _ in range(count)]
        stub = read(pair.cursor, 1)
        octets = b"".join(wire.request(it, READ, stub) + wire.co_cancel(it) for it in calls)
        pair.begin()
        time.sleep(pause)
        begun = time.monotonic()
        pair.second.put(octets)
        answers = [pair.second.outcome(it) for it in calls]
        took = time.monotonic() - begun
        opened(pair.second, "other")
        pair.done()
        journal = server.end()[-1]
    finally:
        server.kill()
    counts, taken = cancels(journal)
    counts.pop(max(counts, key=int))
    faults = sum(it == CANCELLED for it in answers)
    waited = [it for it in counts if it not in taken]
    if len(counts) != count or faults != len(waited) or any(counts[it] != 1 for it in waited):
        raise Wrong("%d calls, %d faults, %d that waited" % (len(counts), faults, len(waited)))
    if any(it > 1 for it in counts.values()) or any(not isinstance(it, bytes) and it != CANCELLED for it in answers):
        raise Wrong("a call has more than one Cancel, or another answer")
    return len(waited), took


def main(program, part="1"):
    program, most = os.path.abspath(program), 10000 // int(part) or 1
    with tempfile.TemporaryDirectory(prefix="dcerpc-storms-") as room:
        tries = 1
        while not one_call(program, room, most, 0.002 * (tries % 5)):
            tries += 1
            if tries > TRIES:
                raise Wrong("no call waited, in %d tries" % TRIES)
        print("%d co_cancels for one call that waits: one Cancel, one fault (try %d)" % (most, tries), flush=True)
        done = tries = made = 0
        seconds = 0.0
        while done < most:
            tries += 1
            waited, took = many_rounds(program, room, min(2000, most), 0.002 * (tries % 5))
            done, made, seconds = done + waited, made + min(2000, most), seconds + took
            if tries > TRIES:
                raise Wrong("%d rounds beside a running call, in %d tries" % (done, TRIES))
        print("%d rounds of a request and its co_cancel beside a running call: as many Cancels and faults, no call left "
              "(%d rounds in %d tries, %.1f us each)" % (done, made, tries, seconds * 1e6 / made))


if __name__ == "__main__":
    if len(sys.argv) not in (2, 3):
        sys.exit(__doc__)
    try:
        main(*sys.argv[1:])
    except (Wrong, EOFError, OSError, ValueError) as error:
        sys.exit("storms.py: %s" % error)
