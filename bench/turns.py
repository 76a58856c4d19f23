"""Whom the end of a call wakes, on a server over the loopback.

usage: turns.py PROGRAM [PART]

LONG=4 has the long call read 4 MiB, and PATIENCE=600 waits so many seconds for each thing: for a slow build.

A link that waits rests for ten seconds where nobody wakes it. So a call that is answered later than SOON seconds after what
it waited for was not woken by it, and is told. Each story is a group of its own, whose first connection runs a long call of
a cursor meanwhile. Each journal has to be legal, each group to be shut.

- One, two and sixteen connections append to one cursor in turn, each as often.
- A call of another cursor is answered before the long call.
- Sixteen sizes of one view, which share it, are asked for at once.
- Three calls of the cursor wait, one behind the other. The one in the middle is cancelled, is orphaned, or loses its
  client; the last runs once the first is over.
"""
import os
import socket
import struct
import sys
import tempfile
import threading
import time

import wire
from storms import APPEND, CANCELLED, LONG, PATIENCE, READ, Pair, Server, Wrong, append, fill, opened, read

VIEW, SIZE, UNVIEW = 4, 5, 6
ORPHANED = 19
SOON = float(os.environ.get("SOON", 3))


class Asked:
    """A call whose answer is taken by a thread beside, with the time when it came."""

    def __init__(self, link, operation, stub):
        self.link, self.call = link, link.begin(operation, stub)
        self.came, self.when = None, None
        self.taker = threading.Thread(target=self.take)
        self.taker.start()

    def take(self):
        try:
            self.came = self.link.outcome(self.call)
        except (EOFError, OSError, ValueError) as error:
            self.came = error
        self.when = time.monotonic()

    def done(self, what, since=None):
        """Its answer, which is a response and came soon behind that time."""
        self.taker.join(PATIENCE)
        if not isinstance(self.came, bytes):
            raise Wrong("%s: %r" % (what, self.came))
        if since is not None and self.when - since > SOON:
            raise Wrong("%s: %.1f seconds after what it waited for" % (what, self.when - since))
        return self.came


def row(program, room, connections, count):
    """So many connections append to one cursor, each so often. Answers the calls a second."""
    server = Server(program, room, connections)
    try:
        first = server.bound()
        cursor = opened(first, "row")
        links = [first] + [server.bound(first.group) for _ in range(connections - 1)]
        worst = [0.0] * connections

        def work(at):
            for _ in range(count):
                begun = time.monotonic()
                answer = links[at].ask(APPEND, append(cursor, b"12345678"))
                if not isinstance(answer, bytes):
                    worst[at] = float("inf")
                    return
                worst[at] = max(worst[at], time.monotonic() - begun)

        threads = [threading.Thread(target=work, args=(at,)) for at in range(connections)]
        begun = time.monotonic()
        for it in threads:
            it.start()
        for it in threads:
            it.join(PATIENCE)
        took = time.monotonic() - begun
        for it in links:
            it.link.close()
        server.end()
    finally:
        server.kill()
    if max(worst) > SOON + took / count:
        raise Wrong("an append of %d in a row took %.1f seconds" % (connections, max(worst)))
    return connections * count / took


def other_cursor(program, room):
    """A call of another cursor isn't kept by those that wait. Answers whether the long call was still out."""
    server = Server(program, room, 4)
    try:
        fill(server)
        pair = Pair(server)
        third = server.bound(pair.first.group)
        other = opened(third, "other")
        pair.begin()
        waits = Asked(pair.second, READ, read(pair.cursor, 1))
        third.ask(APPEND, append(other, b"1"))
        out = pair.taker.is_alive()
        pair.done_first()
        waits.done("a call behind the long one", pair.when)
        pair.close(third)
        server.end()
    finally:
        server.kill()
    return out


def readers(program, room, count):
    """So many sizes of one view at once."""
    server = Server(program, room, count + 1)
    try:
        first = server.bound()
        cursor = opened(first, "seen")
        first.ask(APPEND, append(cursor, bytes(8)))
        answer = first.ask(VIEW, cursor)
        view = answer[:20]
        links = [server.bound(first.group) for _ in range(count)]
        asked = [Asked(it, SIZE, view) for it in links]
        since = time.monotonic()
        for it in asked:
            if struct.unpack_from("<Q", it.done("a size of a view that others share", since))[0] != 8:
                raise Wrong("a size isn't that of the file")
        first.ask(UNVIEW, view)
        for it in [first, *links]:
            it.link.close()
        server.end()
    finally:
        server.kill()


def middle(program, room, how):
    """Of three calls of the cursor that wait, the second goes. Answers whether it waited by then."""
    server = Server(program, room, 5)
    try:
        fill(server)
        pair = Pair(server)
        third, fourth = server.bound(pair.first.group), server.bound(pair.first.group)
        pair.begin()
        waits = Asked(pair.second, READ, read(pair.cursor, 1))
        time.sleep(0.002)
        call = third.begin(READ, read(pair.cursor, 1))
        time.sleep(0.002)
        last = Asked(fourth, READ, read(pair.cursor, 1))
        time.sleep(0.002)
        if how == "cancelled":
            third.put(wire.co_cancel(call))
        elif how == "orphaned":
            third.put(wire.pdu(ORPHANED, wire.FIRST | wire.LAST, call))
        else:
            third.link.close()
        out = pair.taker.is_alive()
        if how == "cancelled":
            answer = third.outcome(call)
            out = out and answer == CANCELLED
        pair.done_first()
        waits.done("the first behind the long call", pair.when)
        last.done("the last, where the one before it was %s" % how, max(pair.when, waits.when))
        pair.close(*([fourth] if how == "lost" else [third, fourth]))
        server.end()
    finally:
        server.kill()
    return out


def done_first(self):
    """The long call is answered, and when."""
    self.taker.join(PATIENCE)
    self.when = time.monotonic()
    if not isinstance(self.came, bytes) or len(self.came) < LONG:
        raise Wrong("the long call isn't answered: %r" % (self.came if not isinstance(self.came, bytes) else len(self.came)))


def close(self, *others):
    for it in (self.first, self.second, *others):
        # (an answer that came although its call was orphaned is read, since the system resets a connection that has octets)
        it.link.shutdown(socket.SHUT_WR)
        while it.link.recv(1 << 16):
            pass
        it.link.close()


Pair.done_first, Pair.close = done_first, close


def until(what, try_it):
    for at in range(1, 41):
        if try_it():
            print("%s (try %d)" % (what, at), flush=True)
            return
    raise Wrong("%s: it was never so, in 40 tries" % what)


def main(program, part="1"):
    count = max(1, 500 // int(part))
    with tempfile.TemporaryDirectory(prefix="dcerpc-turns-") as room:
        for connections in (1, 2, 16):
            print("%d connections append to one cursor in turn: %.0f calls a second, none late" % (connections, row(program, room, connections, count)), flush=True)
        until("a call of another cursor is answered while one of the cursor runs long", lambda: other_cursor(program, room))
        readers(program, room, 16)
        print("sixteen sizes of one view: none late", flush=True)
        for how in ("cancelled", "orphaned", "lost"):
            until("the call in the middle is %s, and the last isn't late" % how, lambda: middle(program, room, how))


if __name__ == "__main__":
    if len(sys.argv) not in (2, 3):
        sys.exit(__doc__)
    try:
        main(*sys.argv[1:])
    except (Wrong, EOFError, OSError, ValueError) as error:
        sys.exit("turns.py: %s" % error)
