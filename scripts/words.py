"""The words that the program takes and the statuses that it ends with: the one list from which the help of the launcher,
the man page and the completions are made."""
from typing import NamedTuple


class Option(NamedTuple):
    name: str
    value: str
    says: str
    is_needed: bool = False


class Command(NamedTuple):
    name: str
    operands: tuple
    options: tuple
    does: str
    example: str

    @property
    def usage(self):
        words = [self.name, *self.operands]
        for it in self.options:
            words.append(f"{it.name} {it.value}" if it.is_needed else f"[{it.name} {it.value}]")
        return "dcerpc " + " ".join(words)


IDL = Option("--idl", "FILE", "serves an echo of the interface of this interface text too")
CONNECTIONS = Option("--connections", "N", "how many connections are served, 1 to 1000000", is_needed=True)

COMMANDS = (
    Command(
        "serve", ("ADDRESS",), (CONNECTIONS, IDL),
        "serves the next N connections that come to the address, side by side, and then prints what each came to and, on "
        "standard error, the journal of each group",
        "dcerpc serve 127.0.0.1:5000 --connections 2",
    ),
    Command(
        "call", ("ADDRESS", "IDL", "SCRIPT"), (),
        "makes the calls of a script with the server that listens at the address, as the interface text says them",
        "dcerpc call 127.0.0.1:5000 probe.idl probe.calls",
    ),
    Command(
        "replay", ("FILE",), (IDL,),
        "plays a written interleaving of connections, and prints the octets answered and, on standard error, the journals",
        "dcerpc replay plain_success.script",
    ),
    Command(
        "idl", ("FILE",), (),
        "reads and checks an interface text, and prints its canonical form",
        "dcerpc idl probe.idl",
    ),
    Command(
        "audit", ("FILE",), (),
        "judges the journals of a file of at most 64 MiB; dcerpc-explain audit FILE takes a longer one",
        "dcerpc audit plain.journal",
    ),
    Command(
        "load", ("NUMBER", "N"), (),
        "makes an interleaving of N steps, 0 to 100000, from a number, replays it and prints what came of it",
        "dcerpc load 7 1000",
    ),
)

# What each operand or value is: the form that a person reads, and whether it names a file.
OPERANDS = {
    "ADDRESS": ("an IPv4 address and a port, A.B.C.D:PORT, such as 127.0.0.1:5000", False),
    "IDL": ("a file with an interface text", True),
    "SCRIPT": ("a file with a script of calls", True),
    "FILE": ("a file", True),
    "NUMBER": ("a number below 2^64", False),
    "N": ("a number", False),
}

STATUSES = {
    0: "done",
    1: "the words aren't a command with its operands and options",
    2: "a file is refused, or a journal has a breach",
    3: "a file can't be loaded",
    4: "an output failed",
    5: "memory ran out",
    6: "of call: a bind was refused or a call failed",
    7: "of serve: it can't listen there, or can let nobody in; of call: nobody listens at the address",
    8: "of serve: a connection didn't end after a whole PDU, or was refused; of call: a connection was lost",
    124: "of a build that isn't proved: a check that is made as it runs failed",
    125: "of the launcher: the program isn't built, and can't be",
}

ENVIRONMENT = {
    "DCERPC_SAY": "yes: the launcher explains also where standard error is no terminal; no: it never does",
    "DCERPC_LISTENING": "a file into which the launcher of serve writes the address once the server listens",
    "DCERPC_MEMORY": "the most memory that a server may take, such as 512M or 4G, or none; else it is three quarters of the "
    "machine's",
}


def command(name):
    """The command of this name, or None."""
    return next((it for it in COMMANDS if it.name == name), None)
