#!/usr/bin/env python3
"""Runs the examples of README.md and docs/WALKTHROUGH.md, and compares their outputs: each block that begins with
```console. The program is DCERPC, or ./dcerpc. Prints what differs, and then ends with 1.

A block that begins with `./dcerpc serve` is a server: the blocks after it run while it does, up to the next server. Its
output is compared once it has ended, with its own boot word in place of the one that is printed. A line `...` stands for
any lines."""

import difflib
import os
import re
import socket
import subprocess
import sys
import tempfile
import time

TOP = os.path.dirname(os.path.dirname(os.path.abspath(__file__)))
PROGRAM = os.path.abspath(os.environ.get("DCERPC", os.path.join(TOP, "dcerpc")))
PORT = "5000"
BOOT = re.compile(r"^group \d+ boot ([0-9a-f]{16})$", re.M)


def blocks(name):
    with open(os.path.join(TOP, name), encoding="utf-8") as file:
        return re.findall(r"^```console\n(.*?)^```$", file.read(), re.S | re.M)


def steps(block):
    """The commands of a block, each with the output that it is to have."""
    found = []
    for line in block.splitlines(keepends=True):
        if line.startswith("$ "):
            found.append([line[2:].rstrip("\n"), ""])
        else:
            found[-1][1] += line
    return found


def on_wire(boot):
    """A boot word as it stands in handles: the first fields of a UUID, little-endian."""
    return "".join(boot[at:to][i:i + 2] for at, to in ((0, 8), (8, 12), (12, 16)) for i in range(to - at - 2, -1, -2))


def with_boot(text, boot):
    old = BOOT.search(text)
    if old and boot:
        text = text.replace(old.group(1), boot.group(1)).replace(on_wire(old.group(1)), on_wire(boot.group(1)))
    return text


def is_same(wanted, came):
    pattern = "".join("(?:.*\n)*" if line == "...\n" else re.escape(line) for line in wanted.splitlines(keepends=True))
    return re.fullmatch(pattern, came) is not None


class Tour:
    def __init__(self, room):
        self.room, self.server, self.wanted, self.failed, self.passed = room, None, "", 0, 0
        with socket.socket() as free:
            free.bind(("127.0.0.1", 0))
            self.port = str(free.getsockname()[1])

    def judge(self, command, wanted, came):
        if is_same(with_boot(wanted, BOOT.search(came)), came):
            self.passed += 1
            return
        self.failed += 1
        print("differs: $ %s" % command)
        sys.stdout.writelines(difflib.unified_diff(wanted.splitlines(True), came.splitlines(True), "written", "printed"))

    def with_port(self, command):
        return command.replace("127.0.0.1:" + PORT, "127.0.0.1:" + self.port).replace("127.0.0.1 " + PORT, "127.0.0.1 " + self.port)

    def start(self, command, wanted):
        self.end()
        self.wanted = (command, wanted)
        self.server = subprocess.Popen(["bash", "-c", "exec " + self.with_port(command)], cwd=self.room, stdout=subprocess.PIPE,
                                       stderr=subprocess.STDOUT, text=True)
        entry = "0100007F:%04X" % int(self.port)
        for _ in range(600):
            with open("/proc/net/tcp", encoding="ascii") as file:
                if any(line.split()[1] == entry and line.split()[3] == "0A" for line in file.readlines()[1:]):
                    return
            time.sleep(0.1)
        self.server.kill()

    def end(self):
        if self.server:
            try:
                came = self.server.communicate(timeout=60)[0]
            except subprocess.TimeoutExpired:
                self.server.kill()
                came = self.server.communicate()[0]
            self.judge(*self.wanted, came)
            self.server = None

    def go(self, block):
        for command, wanted in steps(block):
            if command.startswith("./dcerpc serve"):
                self.start(command, wanted)
            else:
                # (standard output alone, but where a command says otherwise)
                ran = subprocess.run(["bash", "-c", self.with_port(command)], cwd=self.room, stdout=subprocess.PIPE,
                                     stderr=subprocess.DEVNULL, text=True, timeout=120)
                self.judge(command, wanted, ran.stdout)


def main():
    os.environ["DCERPC_SAY"] = "no"
    with tempfile.TemporaryDirectory() as room:
        for name in os.listdir(TOP):
            if not name.startswith(".") and name != "dcerpc":
                os.symlink(os.path.join(TOP, name), os.path.join(room, name))
        os.symlink(PROGRAM, os.path.join(room, "dcerpc"))
        tour = Tour(room)
        for name in ("README.md", "docs/WALKTHROUGH.md"):
            for block in blocks(name):
                tour.go(block)
            tour.end()
    print("%d examples passed, %d failed" % (tour.passed, tour.failed))
    return 1 if tour.failed else 0


if __name__ == "__main__":
    sys.exit(main())
