"""Why an entry isn't allowed after those before it, in words."""
import journal


def why(group, line):
    """Why this entry may not come next, or None where it may."""
    verb, *words = line.split(" ")
    if group.shut_at is not None:
        return f"the group has ended: its shut is entry {group.shut_at}"
    if verb == "shut":
        return shut(group, words[0])
    if group.is_due():
        return "a shut is due: no connection is open and no call runs"
    return CHECKS[verb](group, words)


def at_end(group):
    """Why a journal may not end here, or None."""
    return "a shut is missing at the end: no connection is open and no call runs" if group.is_due() else None


def shut(group, word):
    if not group.is_due():
        runs = sorted(it.number for it in group.calls.values() if it.taken is not None)
        if not group.joins:
            return "a shut isn't due: nobody has joined"
        held = f"connection {min(group.open)} is open" if group.open else f"call {runs[0]} runs"
        return f"a shut isn't due: {held}"
    wanted = ",".join(f"{it}:{kind}:{cookie}" for it, (kind, cookie) in sorted(group.handles.items())) or "-"
    return None if word == wanted else f"it has to list the live handles by rising serial: {wanted}"


def join(group, words):
    if int(words[0]) != group.joins + 1:
        return f"the next connection has the number {group.joins + 1}"
    return None if int(words[0]) < journal.MOST else "numbers of connections end at 2^32 - 1"


def accept(group, words):
    number, connection = int(words[0]), int(words[1])
    slots = journal.slots_of(words[5])
    serials = [int(it.word) for it in slots if it.use == "opens"]
    wanted = [*range(group.opens + 1, group.opens + 1 + len(serials))]
    if number != group.accepts + 1:
        return f"the next call has the number {group.accepts + 1}"
    if connection not in group.open:
        return group.past.get(("connection", connection), f"connection {connection} hasn't joined")
    if len(slots) > 4:
        return "a call has at most four slots"
    if serials != wanted:
        return f"the serials of its opens slots have to go on from {group.opens}"
    return None if max([number, *serials]) < journal.MOST else "numbers and serials end at 2^32 - 1"


def absent(group, number):
    return group.past.get(("call", number), f"call {number} was never accepted")


def take(group, words):
    number, cookies = int(words[0]), journal.items(words[1])
    call = group.calls.get(number)
    if call is None:
        return absent(group, number)
    if call.taken is not None:
        return f"call {number} was taken already"
    blocker = group.blocker(call)
    if blocker:
        other, word = blocker
        state = "runs" if other.taken is not None else "waits and came before"
        return f"call {number} has to wait for call {other.number}, which {state}: both name serial {int(word[32:], 16)}, and one use is exclusive"
    fault = group.at_fault(call)
    if fault:
        return f"call {number} has to be denied for its slot {fault[0]}, which {fault[1]}"
    wanted = ["none" if it.use == "opens" else str(group.handles[group.serial(it.word)][1]) for it in call.slots]
    return None if cookies == wanted else f"its slots are given {','.join(wanted) or '-'}"


def deny(group, words):
    number, at = int(words[0]), int(words[1])
    call = group.calls.get(number)
    if call is None:
        return absent(group, number)
    if call.taken is not None:
        return f"call {number} runs"
    fault = group.at_fault(call)
    if fault is None:
        return f"no slot of call {number} is at fault"
    return None if fault[0] == at else f"its first slot at fault is {fault[0]}, which {fault[1]}"


def mark(name, word):
    def check(group, words):
        call = group.calls.get(int(words[0]))
        if call is None:
            return absent(group, int(words[0]))
        return f"call {words[0]} was {word} already" if getattr(call, name) else None

    return check


def end(group, words):
    number, results = int(words[0]), journal.items(words[1])
    call = group.calls.get(number)
    if call is None:
        return absent(group, number)
    if call.taken is None:
        return f"call {number} waits, and was never taken"
    if len(results) != len(call.slots):
        return f"it has {len(results)} results, and call {number} has {len(call.slots)} slots"
    for at, (slot, result) in enumerate(zip(call.slots, results)):
        if not suits(slot, result):
            return f"the result of slot {at}, `{result}`, isn't one of {allowed(slot)}"
    return None


def allowed(slot):
    return {"changes": "keep:COOKIE, close", "opens": f"issue:{slot.word}:COOKIE, none"}.get(slot.use, "none")


def suits(slot, result):
    what, *rest = result.split(":")
    if slot.use == "changes":
        return what in ("keep", "close")
    if slot.use == "opens":
        return what == "none" or what == "issue" and rest[0] == slot.word
    return what == "none"


def leave(group, words):
    connection = int(words[0])
    if connection in group.open:
        return None
    return group.past.get(("connection", connection), f"connection {connection} hasn't joined")


CHECKS = {
    "join": join,
    "accept": accept,
    "take": take,
    "deny": deny,
    "cancel": mark("is_cancelled", "cancelled"),
    "orphan": mark("is_orphaned", "orphaned"),
    "end": end,
    "leave": leave,
}
