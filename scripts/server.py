"""What the launcher can see of a server that it has started, and how it asks it to stop: by the system's own means, since
the program takes no signs."""
import ctypes
import os
import socket
import struct

PIDFD_GETFD = 438  # (on every architecture)
LISTENS = "0A"


def inodes_of(pid):
    """The sockets of a process: the inode of each with its descriptor there."""
    found = {}
    try:
        for fd in os.listdir(f"/proc/{pid}/fd"):
            try:
                kind = os.readlink(f"/proc/{pid}/fd/{fd}")
            except OSError:
                continue
            if kind.startswith("socket:["):
                found[kind[8:-1]] = int(fd)
    except OSError:
        pass
    return found


def address_of(word):
    """An address as /proc/net/tcp has it: four octets in the machine's order, and the port."""
    host, port = word.split(":")
    return f"{socket.inet_ntoa(struct.pack('=I', int(host, 16)))}:{int(port, 16)}"


def listening(pid):
    """Where the process listens, as A.B.C.D:PORT, or None."""
    try:
        with open(f"/proc/{pid}/net/tcp", encoding="ascii") as rows:
            at = {row.split()[9]: row.split()[1] for row in rows if row.split()[3] == LISTENS}
    except (OSError, IndexError):
        return None
    return next((address_of(at[it]) for it in inodes_of(pid) if it in at), None)


def borrowed(process, fd):
    """A socket of the process, which it shares with this one from then on, or None where the system doesn't allow it."""
    got = ctypes.CDLL(None, use_errno=True).syscall(PIDFD_GETFD, process, fd, 0)
    if got < 0:
        return None
    try:
        return socket.socket(fileno=got)
    except OSError:
        os.close(got)
        return None


def shut(pid, is_door):
    """Ends the sockets of the process: those that listen, or else the others. Answers how many it ended."""
    count = 0
    try:
        process = os.pidfd_open(pid)
    except (OSError, AttributeError):
        return 0
    try:
        for fd in inodes_of(pid).values():
            it = borrowed(process, fd)
            if it is None:
                continue
            with it:
                try:
                    if bool(it.getsockopt(socket.SOL_SOCKET, socket.SO_ACCEPTCONN)) == is_door:
                        it.shutdown(socket.SHUT_RDWR)
                        count += 1
                except OSError:
                    pass  # (it has ended meanwhile)
    finally:
        os.close(process)
    return count


def close_door(pid):
    """Lets nobody else in. The server goes on with those who are."""
    return shut(pid, True)


def end_links(pid):
    """Ends the connections that there are, as if their clients had gone."""
    return shut(pid, False)
