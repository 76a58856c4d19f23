"""How much of the stack the deepest inputs take, on each thread that the program starts.

usage: stack.py PROGRAM [PART]

An input is given again and again, with less stack each time, down to the least with which the program says what it says
with ample stack. Of the thread of `main` the limit of the process is lowered (`ulimit -s`; what the system puts there at
the start, some KiB of words, counts). Of the threads that the program starts a library in C that is loaded in front gives
another size than is asked for. The deepest messages are those of the cases (`stubs_deep.txt`), and some of types that nest by
value as deep as they may.
"""
import os
import re
import resource
import struct
import subprocess
import sys
import tempfile

import wire

TOP = os.path.dirname(os.path.dirname(os.path.abspath(__file__)))
STEP = 4
PATIENCE = 600
MIB = 1 << 20
# What the product gives, in KiB: the launcher to the thread of main, and to that of a server; the program to the thread of
# a connection; the limit of a server to the thread of a call.
MAIN, SERVER, CONNECTION, CALL = 8192, 4096, 4096, 4096
HEAD = "[uuid(5f0c7a12-3b4d-4e6f-8a90-b1c2d3e4f506)]interface i{"
ECHO = wire.syntax("5f0c7a12-3b4d-4e6f-8a90-b1c2d3e4f506", 0)
NOTHING = "boot 0000000000000001\n"

SIZER = r"""
#define _GNU_SOURCE
#include <dlfcn.h>
#include <pthread.h>
#include <stdlib.h>

/* A thread for which the program asks for a size has OWN_STACK KiB in its place, and any other one CALL_STACK. */
int pthread_create(pthread_t *thread, const pthread_attr_t *with, void *(*start)(void *), void *given) {
    static int (*create)(pthread_t *, const pthread_attr_t *, void *(*)(void *), void *);
    pthread_attr_t plain, sized;
    size_t usual = 0, asked = 0;
    const char *word;
    int status;
    if (!create) create = (int (*)(pthread_t *, const pthread_attr_t *, void *(*)(void *), void *))dlsym(RTLD_NEXT, "pthread_create");
    pthread_attr_init(&plain);
    pthread_attr_getstacksize(&plain, &usual);
    pthread_attr_destroy(&plain);
    asked = usual;
    if (with) pthread_attr_getstacksize(with, &asked);
    word = getenv(asked == usual ? "CALL_STACK" : "OWN_STACK");
    if (!word) return create(thread, with, start, given);
    pthread_attr_init(&sized);
    status = pthread_attr_setstacksize(&sized, atol(word) * 1024);
    if (!status) status = create(thread, &sized, start, given);
    pthread_attr_destroy(&sized);
    return status;
}
"""


def fail(why):
    sys.exit("stack.py: %s" % why)


# ---- inputs


def brackets():
    """Interface texts with brackets at 64 levels: that of the interface is the first."""
    yield "structures", HEAD + "typedef " + "struct{" * 63 + "long a;" + "}a;" * 62 + "}b;}"
    yield "unions", HEAD + "typedef " + "union switch(long t){case 1:" * 62 + "long a;" + "}a;" * 61 + "}b;}"
    yield "unions by their switches", HEAD + "typedef " + "union switch(" * 62 + "long" + " t){case 1:long a;}" * 62 + "b;}"
    yield "types of switch_type", HEAD + "typedef " + "struct{[switch_type(" * 21 + "long" + ")]union{case 1:long a;}u;}" * 21 + "b;}"
    yield "lists and structures of parameters", HEAD + "void f([in]" + "struct{" * 62 + "long a;" + "}a;" * 61 + "}b);}"


def long_texts(most):
    """Interface texts as long as they may be, in which names lead to names."""

    def filled(begin, each, end="}"):
        parts, size, n = [begin], len(begin) + len(end), 0
        while True:
            it = each(n)
            size += len(it)
            if size > most:
                return "".join(parts) + end
            parts.append(it)
            n += 1

    yield "structures that hold the one before", filled(HEAD + "struct t0{long a;};", lambda n: "struct t%d{struct t%d a;};" % (n + 1, n))
    yield "structures that point to the one before", filled(HEAD + "struct t0{long a;};", lambda n: "struct t%d{[unique]struct t%d*a;};" % (n + 1, n))
    yield "arrays of the one before", filled(HEAD + "typedef long a0;", lambda n: "typedef a%d a%d[1];" % (n, n + 1))
    yield "names of the one before", filled(HEAD + "typedef long a0;", lambda n: "typedef a%d a%d;" % (n, n + 1))
    yield "stars of one parameter", HEAD + "void f([in]long" + "*" * (most - 80) + "a);}"
    yield "structures in one another's members", filled(HEAD + "struct{struct{struct{long a;}b;}c;", lambda n: "struct{struct{long d;}e;}f%d;" % n, "}g;}")


def messages():
    """The deepest messages of the cases, and some of types that nest as deep as they may: what each is, its interface text,
    its stub and its value in words."""
    with open(os.path.join(TOP, "crates/cases/data/stubs_deep.txt"), encoding="ascii") as file:
        text = file.read()
    yield from (it.groups() for it in re.finditer(r"^# (.*)\n(\[uuid.*)\n--\nrequest little ([0-9a-f]+) == (.*)\n==$", text, re.M))
    for kind in KINDS:
        yield block_message(kind, MOST_READ)


def stubs():
    """The same with their stubs as octets."""
    for what, idl, stub, value in messages():
        yield what, idl, bytes.fromhex(stub), value


# How a structure, an array and a union are declared around what is inside of them, their tag, and their value.
KINDS = {
    "structures": ("struct{%s a;}", "", "", "{", "}"),
    "arrays": ("%s", "[1]", "", "[", "]"),
    "unions": ("union switch(long t){case 1:%s a;}", "", "01000000", "(1: ", ")"),
}
# The most levels by value, of a message that is read, and of a value that is read of a text beside its parameter's own
# reference.
BY_VALUE, MOST_READ, MOST_TEXT = 256, 4112, 6167


def block_message(kind, levels):
    """A message of so many levels, in blocks that nest by value as deep as they may: each is a structure around others of the
    kind around a pointer to the block before."""
    around, size, tag, begin, end = KINDS[kind]
    text, inner, stub, value, name = [HEAD], "long", "07000000", "7", 0
    blocks = [levels % BY_VALUE] * (levels % BY_VALUE > 0) + [BY_VALUE] * (levels // BY_VALUE)
    for n, block in enumerate(blocks):
        text.append("typedef [unique]%s*a%d;" % (inner, name))
        for _ in range(block - 2):
            text.append("typedef %s a%d%s;" % (around % ("a%d" % name), name + 1, size))
            name += 1
        text.append("typedef struct{a%d a;}a%d;" % (name, name + 1))
        inner, name = "a%d" % (name + 1), name + 2
        stub = tag * (block - 2) + struct.pack("<I", 0x20000 + 4 * (len(blocks) - 1 - n)).hex() + stub
        value = "{" + begin * (block - 2) + "&" + value + end * (block - 2) + "}"
    text.append("void f([in,out]%s*p);}" % inner)
    return "%s, %d levels by value and %d in all" % (kind, BY_VALUE, levels), "".join(text), stub, "(%s)" % value


def handle(group, serial):
    """A handle as a journal has it, of the boot word 1."""
    return "00000000%016x%08x%08x" % (1, group, serial)


def journals(octets, count):
    """Journals as long as they may be, and such as hold much open at once."""

    def filled(lines):
        parts, size, n = ["group 1 boot 0000000000000001\njoin 1\n"], 0, 0
        while size < octets - 500:
            n += 1
            it = lines(n)
            size += len(it)
            parts.append(it)
        return "".join(parts)

    yield "calls", filled(lambda k: "accept %d 1 1.0 little answer - -\ntake %d -\nend %d - out:-\n" % (k, k, k))
    yield "connections", filled(lambda n: "join %d\n" % (n + 1))
    opened = "group 1 boot 0000000000000001\njoin 1\naccept 1 1 1.0 little answer opens:0:1 -\ntake 1 none\nend 1 issue:1:5 out:-\n"
    yield "calls that wait for one handle", opened + "".join(
        "accept %d 1 1.0 little answer holds:0:%s -\n" % (k, handle(1, 1)) for k in range(2, count)) + "".join(
        "take %d 5\nend %d none out:-\n" % (k, k) for k in range(2, count)) + "leave 1\nshut 1:0:5\n"
    yield "one line", filled_line(octets)


def filled_line(octets):
    """A journal with one Shut of as many handles as there is room for."""
    parts = ["group 1 boot 0000000000000001\nbase 1 1 0 4294967295 - "]
    each = ["%d:0:5" % n for n in range(1, octets // 30)]
    return parts[0] + ",".join(each) + "\n"


# ---- runs


class Program:
    def __init__(self, path, room):
        self.path, self.room = os.path.abspath(path), room
        self.sizer = os.path.join(room, "sizer.so")
        source = os.path.join(room, "sizer.c")
        with open(source, "w", encoding="ascii") as file:
            file.write(SIZER)
        subprocess.run(["cc", "-O1", "-shared", "-fPIC", "-o", self.sizer, source, "-ldl"], check=True)

    def file(self, name, content):
        path = os.path.join(self.room, name)
        with open(path, "wb") as file:
            file.write(content if isinstance(content, bytes) else content.encode("ascii"))
        return path

    def start(self, words, main, threads=None):
        """Starts it with so many KiB for the thread of main, and for the others as the words of `threads` say."""
        env = {"ASAN_OPTIONS": os.environ.get("ASAN_OPTIONS", "")}
        if threads:
            env.update({name: str(kib) for name, kib in threads.items()}, LD_PRELOAD=self.sizer)
        hard = resource.getrlimit(resource.RLIMIT_STACK)[1]
        return subprocess.Popen([self.path, *words], stdin=subprocess.DEVNULL, stdout=subprocess.PIPE, stderr=subprocess.DEVNULL,
                                env=env, preexec_fn=lambda: resource.setrlimit(resource.RLIMIT_STACK, (main * 1024, hard)))

    def run(self, words, main):
        """Its status and what it says."""
        child = self.start(words, main)
        try:
            said = child.communicate(timeout=PATIENCE)[0]
        except subprocess.TimeoutExpired:
            child.kill()
            child.communicate()
            fail("no end within %d seconds: %s" % (PATIENCE, " ".join(words)))
        return child.returncode, said


def least(works, given):
    """The least number of KiB with which it works, of those that are whole steps."""
    if not works(given):
        return None
    low, high = 0, given // STEP
    while high - low > 1:
        half = (low + high) // 2
        if works(half * STEP):
            high = half
        else:
            low = half
    return high * STEP


class Sheet:
    def __init__(self):
        self.failed, self.most = 0, {}

    def line(self, thread, what, given, works):
        came = least(works, given)
        if came is None:
            self.failed += 1
            print("%-20s %-72s more than the %d KiB given" % (thread, what, given), flush=True)
            return
        self.most[thread] = max(self.most.get(thread, 0), came)
        print("%-20s %-72s %6d KiB of %d" % (thread, what, came, given), flush=True)


# ---- the thread of main


class Main:
    def __init__(self, program, sheet):
        self.program, self.sheet = program, sheet

    def command(self, what, words, statuses):
        """A command of files, which ends with one of the statuses and says the same with less stack."""
        wanted = self.program.run(words, 1 << 20)
        if wanted[0] not in statuses:
            fail("%s: status %d" % (what, wanted[0]))
        self.sheet.line(words[0], what, MAIN, lambda kib: self.program.run(words, kib) == wanted)

    def texts(self, most):
        nothing = self.program.file("nothing", NOTHING)
        for kind, texts in (("brackets at 64 levels, ", brackets()), ("1 MiB, ", long_texts(most))):
            for what, text in texts:
                path = self.program.file("text", text)
                self.command(kind + what, ["idl", path], (0, 2, 5))
                self.command(kind + what, ["replay", "--idl", path, nothing], (0, 2, 5))

    def scripts(self, most):
        for what, idl, stub, _ in stubs():
            text = self.program.file("text", idl)
            sent = wire.bind(ECHO) + wire.request(2, 0, stub)
            lines = ["boot 0000000000000001", "open 1", "send 1 " + sent.hex(), "run 1", "finish 1", "lose 1"]
            path = self.program.file("script", "\n".join(lines) + "\n")
            said = self.program.run(["replay", "--idl", text, path], 1 << 20)[1].decode()
            if "".join(it.split(" ")[1][48:] for it in said.splitlines()[1:]) != stub.hex():
                fail("%s: the answer isn't the echo" % what)
            self.command("the deepest stub, " + what, ["replay", "--idl", text, path], (0,))
        line = "open 1\nsend 1 " + "0" * ((most - 60) // 2 * 2) + "\n"
        self.command("a line of %d MiB" % (most // MIB), ["replay", self.program.file("script", NOTHING + line)], (0,))
        self.command("many lines", ["replay", self.program.file("script", NOTHING + "open 1\n" + "run 1\n" * (most // 8))], (0,))

    def audits(self, most, count):
        for what, text in journals(most, count):
            self.command(what, ["audit", self.program.file("journal", text)], (0, 2))


# ---- the threads of a server


class Server:
    """A server of one connection, on which the echo of a stub is asked for."""

    def __init__(self, program, sheet):
        self.program, self.sheet = program, sheet

    def answers(self, text, stub, main, threads):
        """Whether it echoes the stub, and ends as it should."""
        port = wire.free_port()
        child = self.program.start(["serve", "127.0.0.1:%d" % port, "--connections", "1", "--idl", text], main, threads)
        try:
            if not wire.await_listening(port, child):
                return False
            with wire.Connection(port, ECHO) as link:
                if link.ask(0, stub) != stub:
                    return False
            said = child.communicate(timeout=PATIENCE)[0]
            return child.returncode == 0 and said.startswith(b"connection 1 closed\n")
        except (EOFError, OSError):
            return False
        finally:
            child.kill()
            child.communicate()

    def line(self, thread, what, text, stub, given, name):
        rest = {"OWN_STACK": 65536, "CALL_STACK": 65536}
        path = self.program.file("text", text)
        if not self.answers(path, stub, MAIN, rest):
            fail("%s: no echo" % what)
        self.sheet.line(thread, what, given, lambda kib: self.answers(path, stub, MAIN, {**rest, name: kib}))

    def lines(self):
        for what, idl, stub, _ in stubs():
            self.line("serve, a connection", "the deepest stub, " + what, idl, stub, CONNECTION, "OWN_STACK")
        for what, idl, stub, _ in stubs():
            # (with 65,600 octets more it is no brief call, and runs in a thread of its own)
            text = re.sub(r"void f\((.*)\);\}$", r"void f(\1,[in,out]long*n,[in,out,size_is(*n)]byte d[]);}", idl)
            long_stub = stub + bytes(-len(stub) % 4) + struct.pack("<II", 65600, 65600) + bytes(65600)
            for thread, given, name in (("serve, a connection", CONNECTION, "OWN_STACK"), ("serve, a call", CALL, "CALL_STACK")):
                self.line(thread, "the deepest stub in a long call, " + what, text, long_stub, given, name)
        text = self.program.file("text", HEAD + "void f([in,out]long*n);}")
        self.sheet.line("serve, main", "a round of one connection", SERVER, lambda kib: self.answers(text, bytes(4), kib, None))

    def callers(self):
        """The thread of main of a caller, which reads and writes the deepest values, against a server with ample stack."""
        for what, idl, _, value in messages():
            text = self.program.file("text", idl)
            script = self.program.file("calls", "bind 1 new\nstart 1 f %s\nwait 1\nclose 1\n" % value)
            # (an outcome has its values alone, without the heap)
            wanted = "1 bound 1\n1 done %s\n" % value.split(" heap ")[0]
            self.sheet.line("call", "the deepest value, " + what, MAIN, lambda kib: self.called(text, script, kib) == (0, wanted))
        for kind in KINDS:
            # (the text is read, but there is no memory for a message of so many levels)
            what, idl, _, value = block_message(kind, MOST_TEXT)
            text = self.program.file("text", idl)
            script = self.program.file("calls", "bind 1 new\nstart 1 f %s\nwait 1\nclose 1\n" % value)
            wanted = self.called(text, script, 1 << 20)
            if wanted[0] != 5:
                fail("%s: status %d" % (what, wanted[0]))
            self.sheet.line("call", "the deepest text, " + what, MAIN, lambda kib: self.called(text, script, kib) == wanted)

    def called(self, text, script, main):
        port = wire.free_port()
        child = self.program.start(["serve", "127.0.0.1:%d" % port, "--connections", "1", "--idl", text], MAIN,
                                   {"OWN_STACK": 65536, "CALL_STACK": 65536})
        try:
            if not wire.await_listening(port, child):
                fail("the server of a caller doesn't listen")
            status, said = self.program.run(["call", "127.0.0.1:%d" % port, text, script], main)
            return status, said.decode()
        finally:
            child.kill()
            child.communicate()


def main(path, part="1"):
    part = int(part)
    with tempfile.TemporaryDirectory(prefix="dcerpc-stack-") as room:
        program, sheet = Program(path, room), Sheet()
        threads, commands = Server(program, sheet), Main(program, sheet)
        threads.lines()
        threads.callers()
        commands.scripts(64 * MIB // part)
        commands.texts(MIB // part)
        commands.audits(64 * MIB // part, 400000 // part)
    for thread, most in sheet.most.items():
        print("%-20s at most %d KiB" % (thread, most))
    return 1 if sheet.failed else 0


if __name__ == "__main__":
    if len(sys.argv) not in (2, 3):
        sys.exit(__doc__)
    sys.exit(main(*sys.argv[1:]))
