"""Why a line departs, for a person: of a replay script, of a script of calls, of journals."""
import re

from idl_text import plain

NUMBER = "(?:0|[1-9][0-9]*)"
OCTETS = "(?:-|(?:[0-9a-f]{2})+)"
CONNECTION_MOST = 1_000_000

REPLAY_FORMS = {
    "boot": ("boot X, with 16 hexadecimal digits in small letters", "boot [0-9a-f]{16}"),
    "open": ("open C", f"open {NUMBER}"),
    "send": ("send C HEX, with two small hexadecimal digits an octet, or -", f"send {NUMBER} {OCTETS}"),
    "run": ("run C", f"run {NUMBER}"),
    "finish": ("finish C", f"finish {NUMBER}"),
    "lose": ("lose C", f"lose {NUMBER}"),
}
CALL_FORMS = {
    "bind": ("bind C new, or bind C with D", f"bind {NUMBER} (?:new|with {NUMBER})"),
    "start": ("start C OPERATION (v, v), and after it heap [v, v] where there is one", rf"start {NUMBER} [A-Za-z_]\w* \(.*\).*"),
    "cancel": ("cancel C", f"cancel {NUMBER}"),
    "wait": ("wait C", f"wait {NUMBER}"),
    "close": ("close C", f"close {NUMBER}"),
}
LIST = "(?:-|[^ ]+)"
JOURNAL_FORMS = {
    "group": ("group G boot X", f"group {NUMBER} boot [0-9a-f]{{16}}"),
    "base": ("base COUNT JOINS ACCEPTS OPENS CONNS HANDLES", f"base(?: {NUMBER}){{4}} {LIST} {LIST}"),
    "base-call": ("base-call K C I.O ORDER REPLY SLOTS STUB STAGE", rf"base-call {NUMBER} {NUMBER} {NUMBER}\.{NUMBER} "
                  rf"(?:little|big) (?:answer|maybe) {LIST} {OCTETS} (?:waiting|taken(?:-cancel)?(?:-orphan)?)"),
    "join": ("join C", f"join {NUMBER}"),
    "leave": ("leave C", f"leave {NUMBER}"),
    "accept": ("accept K C I.O ORDER REPLY SLOTS STUB", rf"accept {NUMBER} {NUMBER} {NUMBER}\.{NUMBER} (?:little|big) "
               rf"(?:answer|maybe) {LIST} {OCTETS}"),
    "take": ("take K COOKIES", f"take {NUMBER} {LIST}"),
    "deny": ("deny K S", f"deny {NUMBER} {NUMBER}"),
    "cancel": ("cancel K", f"cancel {NUMBER}"),
    "orphan": ("orphan K", f"orphan {NUMBER}"),
    "end": ("end K RESULTS SAID", f"end {NUMBER} {LIST} (?:out:{OCTETS}|fault:[0-9a-f]{{8}})"),
    "shut": ("shut DUE", f"shut {LIST}"),
}


def lines_of(text):
    """The lines of a text, and whether the last one has its line feed."""
    lines = text.split("\n")
    return (lines[:-1], True) if lines[-1] == "" else (lines, False)


def of_form(line, forms):
    """Why a line has none of the forms, or None."""
    verb = line.split(" ")[0]
    if not line:
        return "the line is empty"
    if line.startswith("#") or line.startswith("//"):
        return "there are no comments"
    if line != line.strip() or "  " in line or "\t" in line or "\r" in line:
        return "one space stands between two words, and none before the first or after the last"
    if verb not in forms:
        return f"`{plain(verb)}` begins no line; one begins with {', '.join(forms)}"
    says, pattern = forms[verb]
    return None if re.fullmatch(pattern, line) else f"the form is: {says}"


def numbered(line):
    """Whether the number of a connection is in its range."""
    words = line.split(" ")
    at = [words[1]] if len(words) > 1 and words[1].isdigit() else []
    at += [words[3]] if len(words) > 3 and words[2] == "with" and words[3].isdigit() else []
    return all(1 <= int(it) <= CONNECTION_MOST for it in at)


def of_replay(lines, number):
    """Why line `number` departs from a replay script, by those before it."""
    line, opened, lost = lines[number - 1], set(), set()
    for it in lines[1:number - 1]:
        verb, connection = it.split(" ")[:2]
        (opened if verb == "open" else lost if verb == "lose" else set()).add(connection)
    why = of_form(line, REPLAY_FORMS)
    if why:
        return why
    verb, connection = line.split(" ")[:2]
    if (verb == "boot") != (number == 1):
        return "the first line is `boot X`, and no other is"
    if verb != "boot" and not numbered(line):
        return f"a connection is from 1 to {CONNECTION_MOST}"
    if verb == "open" and connection in opened:
        return f"connection {connection} is opened already"
    if verb not in ("boot", "open") and connection not in opened:
        return f"connection {connection} isn't opened"
    if verb in ("send", "lose") and connection in lost:
        return f"connection {connection} is lost already"
    return None


def of_calls(lines, number):
    """Why line `number` departs from a script of calls, by those before it."""
    line, bound, out = lines[number - 1], set(), set()
    for it in lines[:number - 1]:
        verb, connection = it.split(" ")[:2]
        if verb in ("bind", "close"):
            (bound.add if verb == "bind" else bound.discard)(connection)
            out.discard(connection)
        elif verb in ("start", "wait"):
            (out.add if verb == "start" else out.discard)(connection)
    why = of_form(line, CALL_FORMS)
    if why:
        return why
    verb, connection, *rest = line.split(" ")
    if not numbered(line):
        return f"a connection is from 1 to {CONNECTION_MOST}"
    if verb == "bind":
        if connection in bound:
            return f"connection {connection} is bound already"
        if rest[0] == "with" and rest[1] not in bound:
            return f"connection {rest[1]}, whose group is to be joined, isn't bound"
    elif connection not in bound:
        return f"connection {connection} isn't bound"
    elif verb == "start" and connection in out:
        return f"connection {connection} has a call out: `wait {connection}` comes first"
    elif verb in ("wait", "cancel") and connection not in out:
        return f"connection {connection} has no call out"
    if verb == "start":
        return f"the interface text has no operation {rest[0]} that takes these values, or `$hN` names no handle that came"
    return None


def of_journal(lines, number):
    """Why line `number` departs from journals."""
    line = lines[number - 1]
    before = lines[number - 2].split(" ")[0] if number > 1 else ""
    why = of_form(line, JOURNAL_FORMS)
    if why:
        return why
    verb = line.split(" ")[0]
    if number == 1 and verb != "group":
        return "a journal begins with its heading, group G boot X"
    if verb == "base" and before != "group":
        return "a base stands after a heading alone"
    if verb == "base-call" and before not in ("base", "base-call"):
        return "a call of a base stands after its base alone"
    return None


def why(text, number, judge):
    """The line that departs and why, in words."""
    lines, is_ended = lines_of(text)
    if number > len(lines):
        return "the text ends too early" if lines else "the file is empty"
    line = lines[number - 1]
    shown = plain(line, 100)
    if number == len(lines) and not is_ended:
        return f"line {number}, `{shown}`: it has no line feed at its end"
    try:
        said = judge(lines, number)
    except (ValueError, IndexError):
        said = None
    return f"line {number}, `{shown}`: {said or 'it may not come here, or a number is out of its range'}"
