"""Runs the program for a person, or a server: its outputs and its status are those of the program.

usage: supervise.py PROGRAM WORD..

Where a person reads standard error, it says once a server listens, and explains after the program's end. A server is asked
to stop by SIGINT and SIGTERM: at the first nobody else is let in, at the second its connections end, at the third it is
killed."""
import ctypes
import os
import re
import signal
import socket
import subprocess
import sys
import threading

import explain
import server

READ_AT_MOST = 1 << 20
PR_SET_PDEATHSIG = 1
SIGNS = {signal.SIGINT, signal.SIGTERM}
STOPPED = "stopped: its door was shut; the lines and journals of those that were served are printed"
WATCHED = SIGNS | {signal.SIGCHLD, signal.SIGHUP}


def say(text):
    try:
        os.write(2, f"dcerpc: {text}\n".encode())
    except OSError:
        pass  # (nobody reads)


def speaks():
    """Whether a person reads standard error."""
    wish = os.environ.get("DCERPC_SAY", "")
    return wish == "yes" or wish != "no" and os.isatty(2)


class Copied:
    """The program's standard output, where that is a terminal: it is copied there, and its end is kept."""

    def __init__(self):
        self.taken, self.to = os.pipe()
        self.kept = b""
        self.copier = threading.Thread(target=self.copy, daemon=True)

    def start(self):
        os.close(self.to)
        self.copier.start()

    def copy(self):
        try:
            while octets := os.read(self.taken, 1 << 16):
                left = octets
                while left:
                    left = left[os.write(1, left):]
                self.kept = (self.kept + octets)[-READ_AT_MOST:]
        except OSError:
            pass
        # (the program meets the failure at its next output)
        os.close(self.taken)

    def text(self):
        self.copier.join()
        return self.kept


class Filed:
    """The program's standard output, where that is a file: what was put is read back there."""

    def __init__(self):
        self.to, self.begin = None, os.lseek(1, 0, os.SEEK_CUR)

    def start(self):
        pass

    def text(self):
        try:
            with open("/proc/self/fd/1", "rb") as it:
                it.seek(max(self.begin, os.fstat(1).st_size - READ_AT_MOST))
                return it.read(READ_AT_MOST)
        except OSError:
            return b""


class Unseen:
    """A standard output of which nothing is seen, as a pipe: the program writes there by itself."""

    to = None

    def start(self):
        pass

    def text(self):
        return b""


def output():
    if os.isatty(1):
        return Copied()
    try:
        os.lseek(1, 0, os.SEEK_CUR)
        return Filed()
    except OSError:
        return Unseen()


def with_port(words):
    """The words of a server, with a free port in place of port 0: its endpoint map is to have it."""
    chosen = list(words)
    for place, word in enumerate(words):
        given = re.fullmatch(r"([0-9]+(?:\.[0-9]+){3}):0+", word)
        if given:
            with socket.socket() as door:
                try:
                    door.bind((given[1], 0))
                except OSError:
                    return chosen  # (the server meets that, too)
                chosen[place] = "%s:%d" % door.getsockname()
    return chosen


def start(program, words, out):
    """Starts the program, which ends where the launcher is killed."""

    def before():
        ctypes.CDLL(None).prctl(PR_SET_PDEATHSIG, signal.SIGKILL)
        signal.pthread_sigmask(signal.SIG_UNBLOCK, WATCHED)
        if words[:1] == ["serve"]:
            # (a terminal sends it to both, and the launcher answers it)
            signal.signal(signal.SIGINT, signal.SIG_IGN)

    return subprocess.Popen([program, *words], executable=program, stdout=out.to, preexec_fn=before)


def listened(at, is_spoken):
    """Tells where the server listens."""
    if is_spoken:
        say(f"listening at {at}")
    file = os.environ.get("DCERPC_LISTENING")
    if file:
        try:
            with open(f"{file}.new", "w", encoding="ascii") as it:
                it.write(f"{at}\n")
            os.replace(f"{file}.new", file)
        except OSError as error:
            say(f"{file} can't be written: {error.strerror}")


def watch_door(pid, is_spoken, ended):
    """Looks until the server listens, at most half a minute."""
    for _ in range(600):
        at = server.listening(pid)
        if at:
            listened(at, is_spoken)
            return
        if ended.wait(0.05):
            return


def stop(pid, times):
    """Asks a server to stop, for the so manieth time. Answers what that comes to."""
    if times == 1 and server.close_door(pid):
        return "nobody else is let in; the server ends once its connections have. A second sign ends them, a third kills it"
    if times == 2 and server.end_links(pid) + server.close_door(pid):
        return "its connections are ended. A third sign kills it, and what it would print is lost"
    os.kill(pid, signal.SIGKILL)
    return "killed: its lines and journals are lost"


def wait(child, is_server, is_spoken):
    """Waits for the program's end, and hands on what the launcher is told meanwhile. Answers how the program ended, and how often
    it was asked to stop."""
    times = 0
    while child.poll() is None:
        told = signal.sigwaitinfo(WATCHED)
        if told.si_signo == signal.SIGCHLD:
            continue
        if is_server and told.si_signo in SIGNS:
            times += 1
            came = stop(child.pid, times)
            if is_spoken:
                say(came)
        elif told.si_code <= 0:
            # (what a terminal sends comes to the program too)
            os.kill(child.pid, told.si_signo)
    return child.returncode, times


def end_as(status):
    """Ends as the program did."""
    if status < 0:
        if -status not in (signal.SIGKILL, signal.SIGSTOP):
            signal.signal(-status, signal.SIG_DFL)
        signal.pthread_sigmask(signal.SIG_UNBLOCK, {-status})
        os.kill(os.getpid(), -status)
    os._exit(status if status >= 0 else 128 - status)


def main(program, *words):
    is_spoken, is_server = speaks(), words[:1] == ("serve",)
    out = output() if is_spoken else Unseen()
    signal.pthread_sigmask(signal.SIG_BLOCK, WATCHED)
    child = start(program, with_port(words) if is_server else list(words), out)
    out.start()
    ended = threading.Event()
    if is_server:
        threading.Thread(target=watch_door, args=(child.pid, is_spoken, ended), daemon=True).start()
    status, times = wait(child, is_server, is_spoken)
    ended.set()
    if is_spoken:
        said = out.text().decode("utf-8", "replace")
        if times and status >= 0:
            say(STOPPED)
        for line in explain.ended(list(words), status, said):
            say(line)
    end_as(status)


if __name__ == "__main__":
    main(*sys.argv[1:])
