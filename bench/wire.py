"""A client of a served program, by its octets: the PDUs that the scripts beside it send and take."""
import socket
import struct
import time
import uuid

REQUEST, RESPONSE, FAULT, BIND, BIND_ACK, CO_CANCEL, ORPHANED = 0, 2, 3, 11, 12, 18, 19
FIRST, LAST = 1, 2
MOST = 4280
NDR = uuid.UUID("8a885d04-1ceb-11c9-9fe8-08002b104860").bytes_le + struct.pack("<I", 2)


def syntax(identifier, version):
    return uuid.UUID(identifier).bytes_le + struct.pack("<I", version)


PROBE = syntax("5f0c7a12-3b4d-4e6f-8a90-b1c2d3e4f506", 1)
STORE = syntax("9b1d3c7e-52f4-4a0b-8e6d-1f0c2a3b4d5e", 1)


def pdu(kind, flags, call, body=b""):
    return struct.pack("<BBBB4sHHI", 5, 0, kind, flags, b"\x10\0\0\0", 16 + len(body), 0, call) + body


def bind(interface, group=0):
    body = struct.pack("<HHIBBH", MOST, MOST, group, 1, 0, 0) + struct.pack("<HBB", 0, 1, 0) + interface + NDR
    return pdu(BIND, FIRST | LAST, 1, body)


def request(call, operation, stub, most=MOST - 24):
    """The fragments of a request."""
    parts = [stub[at:at + most] for at in range(0, len(stub), most)] or [b""]
    return b"".join(pdu(REQUEST, (FIRST if n == 0 else 0) | (LAST if n == len(parts) - 1 else 0), call,
                        struct.pack("<IHH", len(stub), 0, operation) + it) for n, it in enumerate(parts))


def co_cancel(call):
    return pdu(CO_CANCEL, FIRST | LAST, call)


def free_port():
    with socket.socket() as it:
        it.bind(("127.0.0.1", 0))
        return it.getsockname()[1]


def is_listening(port):
    """Whether somebody listens there, by the system's table: nobody connects for it."""
    with open("/proc/net/tcp", encoding="ascii") as rows:
        return any(row.split()[1:4] == ["0100007F:%04X" % port, "00000000:0000", "0A"] for row in rows)


def await_listening(port, child, seconds=10):
    """Waits until the child listens, and answers whether it does."""
    until = time.monotonic() + seconds
    while time.monotonic() < until and child.poll() is None:
        if is_listening(port):
            return True
        time.sleep(0.01)
    return False


class Connection:
    """A connection that is bound, unless its bind was refused: then there is no group."""

    def __init__(self, port, interface, group=0, patience=120):
        self.link = socket.create_connection(("127.0.0.1", port), timeout=patience)
        self.call, self.came, self.at = 1, b"", 0
        self.put(bind(interface, group))
        kind, _, _, body = self.take()
        self.group = struct.unpack_from("<I", body, 4)[0] if kind == BIND_ACK else None

    def __enter__(self):
        return self

    def __exit__(self, *_):
        self.link.close()

    def put(self, octets):
        self.link.sendall(octets)

    def octets(self, count):
        while len(self.came) - self.at < count:
            it = self.link.recv(1 << 18)
            if not it:
                raise EOFError("the server closed the connection")
            self.came, self.at = self.came[self.at:] + it, 0
        self.at += count
        return self.came[self.at - count:self.at]

    def take(self):
        """A PDU: its kind, its flags, its call id and its body."""
        head = self.octets(16)
        length, _, call = struct.unpack_from("<HHI", head, 8)
        return head[2], head[3], call, self.octets(length - 16)

    def next_call(self):
        self.call += 1
        return self.call

    def begin(self, operation, stub):
        """Begins a call, and answers its call id."""
        call = self.next_call()
        self.put(request(call, operation, stub))
        return call

    def outcome(self, call):
        """What a call comes to: its response's stub, or the status of its fault."""
        parts, flags = [], 0
        while not flags & LAST:
            kind, flags, of, body = self.take()
            if of != call or kind not in (RESPONSE, FAULT):
                raise ValueError("a PDU of kind %d and call %d, where call %d is out" % (kind, of, call))
            if kind == FAULT:
                return struct.unpack_from("<I", body, 8)[0]
            parts.append(body[8:])
        return b"".join(parts)

    def ask(self, operation, stub):
        return self.outcome(self.begin(operation, stub))
