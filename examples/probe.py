#!/usr/bin/env python3
"""A caller of the probe in Python's standard library alone: it binds, opens a handle, closes it, and reads the fault that a
second close of it gets.

usage: probe.py HOST PORT
"""
import socket
import struct
import sys
import uuid

PROBE = uuid.UUID("5f0c7a12-3b4d-4e6f-8a90-b1c2d3e4f506"), 1
NDR = uuid.UUID("8a885d04-1ceb-11c9-9fe8-08002b104860"), 2
REQUEST, RESPONSE, FAULT, BIND, BIND_ACK = 0, 2, 3, 11, 12
FIRST, LAST, NOT_RUN = 0x01, 0x02, 0x20
HEADER = "<BBBB4sHHI"  # version 5.0, kind, flags, data representation, length, authentication, call id
LITTLE = b"\x10\0\0\0"
PROBE_OPEN, PROBE_CLOSE = 0, 1
MOST = 4280


class Fault(Exception):
    """A call that failed: its status, and whether the server says that it didn't run."""

    def __init__(self, status, is_not_run):
        super().__init__(f"fault {status:08x}, {'not run' if is_not_run else 'run'}")


def syntax(identifier, version):
    return identifier.bytes_le + struct.pack("<I", version)


class Connection:
    def __init__(self, host, port):
        self.socket = socket.create_connection((host, port))
        self.call = 0

    def put(self, kind, body):
        self.call += 1
        header = struct.pack(HEADER, 5, 0, kind, FIRST | LAST, LITTLE, 16 + len(body), 0, self.call)
        self.socket.sendall(header + body)

    def octets(self, count):
        got = b""
        while len(got) < count:
            more = self.socket.recv(count - len(got))
            if not more:
                raise EOFError("the server closed the connection")
            got += more
        return got

    def take(self):
        """A PDU: its kind, its flags and its body."""
        header = struct.unpack(HEADER, self.octets(16))
        return header[2], header[3], self.octets(header[5] - 16)

    def bind(self, interface):
        """Binds to an interface in a new association group, and answers the group."""
        element = struct.pack("<HBB", 0, 1, 0) + syntax(*interface) + syntax(*NDR)
        self.put(BIND, struct.pack("<HHIBBH", MOST, MOST, 0, 1, 0, 0) + element)
        kind, _, body = self.take()
        if kind != BIND_ACK:
            raise Fault(0, True)
        return struct.unpack_from("<I", body, 4)[0]

    def request(self, operation, stub):
        """Calls an operation, and answers the stub of its response, which may come in fragments."""
        self.put(REQUEST, struct.pack("<IHH", len(stub), 0, operation) + stub)
        answer, flags = b"", 0
        while not flags & LAST:
            kind, flags, body = self.take()
            if kind == FAULT:
                raise Fault(struct.unpack_from("<I", body, 8)[0], bool(flags & NOT_RUN))
            answer += body[8:]
        return answer


def told(handle):
    """A context handle in words. Its identifier is the server's boot word, the group and the serial."""
    if handle == bytes(20):
        return "the null handle"
    _, boot, group, serial = struct.unpack(">IQII", handle[:4] + uuid.UUID(bytes_le=handle[4:]).bytes)
    return f"handle {serial} of group {group}" if boot else "a handle of no boot word"


def main(host, port):
    connection = Connection(host, int(port))
    print(f"bound in group {connection.bind(PROBE)}")

    answer = connection.request(PROBE_OPEN, struct.pack("<I", 5))
    handle, result = answer[:20], struct.unpack("<I", answer[20:])[0]
    print(f"probe_open(5): {told(handle)}, result {result}")

    answer = connection.request(PROBE_CLOSE, handle)
    print(f"probe_close: {told(answer[:20])}, result {struct.unpack('<I', answer[20:])[0]}")
    try:
        connection.request(PROBE_CLOSE, handle)
    except Fault as fault:
        print(f"probe_close of the same handle: {fault}")


if __name__ == "__main__":
    if len(sys.argv) != 3:
        sys.exit(__doc__.strip())
    main(*sys.argv[1:])
