"""How many instructions of a processor a call takes in the server, by `valgrind --tool=callgrind`.

usage: instructions.py PROGRAM [PART]

A server of one connection is run with few calls and once more with many; what the further calls took, by their number, is
a call's. The calls are pairs of a probe's open and close. Of a system call those of the program count, and not those of the
system. Those of the connection's thread answer calls. Those of the main thread print the call's part of the journal at the end.
"""
import glob
import os
import re
import struct
import subprocess
import sys
import tempfile

import wire

OPEN, CLOSE = 0, 1


def calls_of_probe(link, count):
    for n in range(count // 2):
        handle = link.ask(OPEN, struct.pack("<I", n))[:20]
        if not isinstance(link.ask(CLOSE, handle), bytes):
            sys.exit("instructions.py: a close wasn't done")


def instructions_in(counts):
    with open(counts, encoding="latin-1") as it:
        return int(re.search(r"^(?:summary|totals): (\d+)", it.read(), re.M)[1])


def served(program, interface, calls, count):
    """The instructions of a server whose one connection makes so many calls: of its main thread, and of all others."""
    with tempfile.TemporaryDirectory() as room:
        port, out = wire.free_port(), os.path.join(room, "counts")
        command = ["valgrind", "--tool=callgrind", "--separate-threads=yes", "--callgrind-out-file=" + out, program,
                   "serve", "127.0.0.1:%d" % port, "--connections", "1"]
        with open(os.path.join(room, "log"), "wb") as log:
            child = subprocess.Popen(command, stdin=subprocess.DEVNULL, stdout=subprocess.DEVNULL, stderr=log)
            if not wire.await_listening(port, child, 120):
                sys.exit("instructions.py: the server doesn't listen")
            with wire.Connection(port, interface) as link:
                calls(link, count)
            if child.wait(300) != 0:
                sys.exit("instructions.py: the server ends with %d" % child.returncode)
        threads = [instructions_in(name) for name in sorted(glob.glob(out + "-*"))]
        return threads[0], sum(threads[1:])


def main():
    program, part = sys.argv[1], int(sys.argv[2]) if len(sys.argv) > 2 else 1
    few, many = 2000 // part, 10000 // part
    runs = [served(program, wire.PROBE, calls_of_probe, count) for count in (few, many)]
    printed, answered = ((second - first) / (many - few) for first, second in zip(*runs))
    print("%-36s %8.0f instructions, %.0f of them to print it at the end" % ("a call of the probe", answered + printed, printed))


main()
