"""What the program's lines and statuses say, in words."""
import re

import departures
import faults
import idl_text
import words as vocabulary

LARGEST = {"idl": "1 MiB", "replay": "64 MiB", "call": "64 MiB", "audit": "64 MiB", "serve": "1 MiB"}
ADDRESS = re.compile(r"(?:\d+\.){3}\d+:\d+")


def usage():
    """The commands, a line each."""
    found = ["it takes one of these commands:"]
    found += [f"  {it.usage}" for it in vocabulary.COMMANDS]
    return [*found, "README.md has the rest; an example: " + vocabulary.COMMANDS[0].example]


def wrong_words(given):
    """What is wrong with words that are no command."""
    if not given:
        return ["no command is given", *usage()]
    if given[0] in ("--help", "-h", "help", "--version", "-V"):
        return usage()
    command = vocabulary.command(given[0])
    if command is None:
        return [f"there is no command `{given[0]}`", *usage()]
    return [*departing(command, given[1:]), f"the form is: {command.usage}", f"an example: {command.example}"]


def sorted_words(command, given):
    """The operands and the options among the words after a command, and what departs there."""
    operands, options, wrong, given = [], {}, [], list(given)
    while given:
        word = given.pop(0)
        if word == "--":
            return [*operands, *given], options, wrong
        if not word.startswith("-") or word == "-":
            operands.append(word)
            continue
        name, has_value, value = word.partition("=")
        known = any(it.name == name for it in command.options)
        if not known:
            wrong.append(f"{command.name} has no option {name}")
        if name in options:
            wrong.append(f"{name} is given twice")
        if not has_value:
            value = given.pop(0) if given and known else None
        if known and value is None:
            wrong.append(f"{name} needs a value")
        options[name] = value
    return operands, options, wrong


def departing(command, given):
    operands, options, found = sorted_words(command, given)
    if len(operands) < len(command.operands):
        found.append(f"missing: {' '.join(command.operands[len(operands):])}")
    elif len(operands) > len(command.operands):
        found.append(f"one word too many: {operands[len(command.operands)]}")
    found += [f"missing: {it.name} {it.value}, {it.says}" for it in command.options if it.is_needed and it.name not in options]
    return found + [wrong for it in zip(command.operands, operands) for wrong in wrong_operand(*it)] + [
        f"--connections: `{it}` is no number from 1 to 1000000, in digits without leading zeros"
        for it in [options.get("--connections")]
        if it is not None and not (re.fullmatch("[1-9][0-9]{0,6}", it) and int(it) <= 1_000_000)
    ]


def wrong_operand(kind, word):
    """What departs in one operand."""
    if kind == "ADDRESS":
        if not ADDRESS.fullmatch(word):
            return [f"`{word}` is no address: {vocabulary.OPERANDS[kind][0]}. Names aren't looked up, so 127.0.0.1 for localhost"]
        numbers = re.split("[.:]", word)
        if any(str(int(it)) != it for it in numbers) or max(map(int, numbers[:4])) > 255 or int(numbers[4]) > 65_535:
            return [f"`{word}` is no address: its numbers have no leading zeros, the four are below 256 and the port is below 65536"]
    if kind in ("NUMBER", "N") and not re.fullmatch(departures.NUMBER, word):
        return [f"`{word}` is no number in digits without leading zeros"]
    if kind == "N" and int(word) > 100_000 or kind == "NUMBER" and int(word) >= 1 << 64:
        return [f"`{word}` is too large"]
    return []


def read(file):
    with open(file, encoding="utf-8", errors="surrogateescape", newline="") as it:
        return it.read()


def files_of(given):
    """The files that the words name: an interface text's, and the script's or journals'."""
    command = vocabulary.command(given[0]) if given else None
    if command is None:
        return None, None
    operands, options, _ = sorted_words(command, given[1:])
    if command.name == "idl":
        return operands[0], None
    if command.name == "call":
        return operands[1], operands[2]
    return options.get("--idl"), operands[0] if command.name in ("replay", "audit") else None


def refused_idl(kind, number, at, file):
    """A fault or a breach of an interface text."""
    known = faults.IDL_FAULTS if kind == "idl" else faults.IDL_RULES
    found = [f"{'fault' if kind == 'idl' else 'rule'} {number}, {known.get(number, 'unknown')}"]
    if file is None:
        return [*found, f"at octet {at} of the interface text, from 0"]
    # (octets are counted, so each is a character here)
    with open(file, encoding="latin-1", newline="") as it:
        text = it.read()
    where, lines = idl_text.shown(text, at)
    found = [f"{file}: {where}: {found[0]}", *lines]
    expected = idl_text.expected(text, at) if (kind, number) == ("idl", 2) else []
    return [*found, f"expected: {' or '.join(expected)}"] if expected else found


def refusal(line, given):
    """What `refused: ..` says, by the words and the files that they name."""
    idl, other = files_of(given)
    name = given[0] if given else ""
    match = re.fullmatch(r"refused: (idl|check) fault (\d+) at (\d+)", line)
    if match:
        return refused_idl(match[1], int(match[2]), int(match[3]), idl)
    match = re.fullmatch(r"refused: (script|journal) line (\d+)", line)
    if match and other:
        judge = departures.of_journal if match[1] == "journal" else departures.of_calls if name == "call" else departures.of_replay
        return [f"{other}: {departures.why(read(other), int(match[2]), judge)}"]
    if match:
        return [f"line {match[2]} of the {match[1]}, counted from 1, is none that may stand there"]
    if line == "refused: file too long":
        more = "; `dcerpc-explain audit FILE` judges it by pieces" if name == "audit" else ""
        return [f"the file has more than {LARGEST.get(name, '64 MiB, of an interface text 1 MiB')}{more}"]
    return wrong_words(given) if line == "refused: words" and given is not None else []


LINES = (
    (re.compile(r"(\d+) fault ([0-9a-f]{8}) (run|not-run)"), lambda it: faults.status(it[2]) + (
        "; the call didn't run" if it[3] == "not-run" else "; the call may have begun, so a second try may run it twice")),
    (re.compile(r"(\d+) refused (\d+)"), lambda it: f"the bind was refused: {faults.REFUSALS.get(int(it[2]), 'unknown reason')}"),
    (re.compile(r"(\d+) lost"), lambda it: "the connection was lost with a call out: whether it ran isn't known"),
    (re.compile(r"connection (\d+) cut (\d+)"), lambda it: f"its client ended it within a PDU, {it[2]} octets after the last whole one"),
    (re.compile(r"connection (\d+) link"), lambda it: "its socket failed, or took nothing for a minute"),
    (re.compile(r"connection (\d+) refused"), lambda it: "the server closed it: its bind was refused, or it broke the protocol"),
    (re.compile(r"connection (\d+) memory"), lambda it: "memory ran out on it"),
    (re.compile(r"end .* fault:([0-9a-f]{8})"), lambda it: faults.status(it[1])),
    (re.compile(r"group (\d+) breach (\d+)"), lambda it: f"entry {it[2]} of group {it[1]}'s journal, from 0, isn't allowed there; "
     "`dcerpc-explain audit FILE` says why"),
    (re.compile(r"stats (\d+) (\d+) (\d+) (\d+)"), lambda it: f"{it[1]} requests came; {it[3]} PDUs came and {it[4]} were put"),
    (re.compile(r"0x([0-9a-fA-F]{8})|([0-9a-f]{8})"), lambda it: faults.status(it[1] or it[2])),
)


def line(text, given=None):
    """What a line of the program says, in words: no lines where it says it itself."""
    if text.startswith("refused: "):
        return refusal(text, given if given is not None else []) if given is not None or text != "refused: words" else usage()
    for pattern, says in LINES:
        match = pattern.fullmatch(text)
        if match:
            return [says(match)]
    return []


def at_door(given):
    """What status 7 says, by the command."""
    name, at = given[0], next((it for it in given[1:] if ADDRESS.fullmatch(it)), "the address")
    if name == "call":
        return [f"nobody listens at {at}, or it can't be reached"]
    return [f"{at} can't be listened at: the port is taken already, or the address isn't this machine's, or it needs leave; "
            "or the server could let nobody else in"]


def unloaded(given):
    """Which file can't be loaded."""
    found = []
    for file in files_of(given):
        if file is not None:
            try:
                with open(file, "rb") as it:
                    it.read(1)
            except OSError as error:
                found.append(f"{file} can't be read: {error.strerror}")
    return found or ["a file can't be read"]


def breaches(file, verdicts):
    """Why journals of a file are breaches, in words."""
    import audit_log

    return [it.strip() for it in audit_log.reasons(file, verdicts)]


SAID = {
    4: ["an output failed: standard output or standard error is closed, full, or a pipe that nobody reads"],
    5: ["memory ran out; DCERPC_MEMORY bounds that of a server"],
    124: ["a check that is made as the program runs failed, in a build that isn't proved: what it printed above says where"],
}


def ended(given, status, said):
    """What a person is told after the program's end: by the words, the status and the last of what it put."""
    lines = [it for it in said.split("\n") if it]
    try:
        if status == 1:
            return wrong_words(given)
        if status == 2 and lines and lines[-1].startswith("refused: "):
            return refusal(lines[-1], given)
        if status == 3:
            return unloaded(given)
        if status == 7:
            return at_door(given)
        if status == 2 and given[0] == "audit":
            return breaches(files_of(given)[1], lines)
        if status in (2, 6, 8):
            told = [(it, line(it)) for it in lines]
            found = [f"{it}: {why}" for it, whys in told for why in whys if not it.startswith("stats ")]
            return found or [f"status {status}: {vocabulary.STATUSES[status]}"]
    except OSError:
        pass  # (a file is gone, or was a pipe)
    if status < 0:
        return [f"ended by signal {-status}"]
    return SAID.get(status, [])
