"""Journals of association groups, read line by line, and which entry may come next (docs/JOURNAL.md).

The program's `audit` judges journals; this says in words why an entry isn't allowed, and draws them."""
from dataclasses import dataclass, field

EXCLUSIVE = ("holds", "changes")
NULL = "0" * 40
MOST = 1 << 32


@dataclass
class Slot:
    use: str
    kind: int
    word: str  # (a handle as it travels, or of an `opens` slot the serial)

    @property
    def names(self):
        """The handle that it names, unless that is null."""
        return None if self.use == "opens" or self.word == NULL else self.word

    def __str__(self):
        return f"{self.use}:{self.kind}:{self.word}"


@dataclass
class Call:
    number: int
    connection: int
    asked: str  # (the words from the operation to the stub)
    slots: list
    accepted: int = 0
    taken: int | None = None
    is_cancelled: bool = False
    is_orphaned: bool = False

    @property
    def stage(self):
        marks = "-cancel" * self.is_cancelled + "-orphan" * self.is_orphaned
        return "waiting" if self.taken is None else "taken" + marks


def items(word):
    return [] if word == "-" else word.split(",")


def slots_of(word):
    found = []
    for it in items(word):
        use, kind, named = it.split(":")
        found.append(Slot(use, int(kind), named))
    return found


def handles_of(word):
    """The handles of a base or of a Shut: by serial, each its kind and its cookie."""
    return {int(it.split(":")[0]): (int(it.split(":")[1]), int(it.split(":")[2])) for it in items(word)}


def conflict(one, other):
    """The handle over which two calls conflict, or None."""
    for it in one.slots:
        for that in other.slots:
            if it.names and it.names == that.names and (it.use in EXCLUSIVE or that.use in EXCLUSIVE):
                return it.names
    return None


@dataclass
class Group:
    """What a journal says up to some entry."""

    id: int
    boot: str
    count: int = 0
    joins: int = 0
    accepts: int = 0
    opens: int = 0
    open: set = field(default_factory=set)
    calls: dict = field(default_factory=dict)
    handles: dict = field(default_factory=dict)
    shut_at: int | None = None
    past: dict = field(default_factory=dict)  # (what became of calls, connections and handles, for words)

    @staticmethod
    def headed(line):
        words = line.split(" ")
        return Group(int(words[1]), words[3])

    def heading(self):
        return f"group {self.id} boot {self.boot}"

    def base(self, line):
        """Reads a line of the base."""
        words = line.split(" ")
        if words[0] == "base":
            self.count, self.joins, self.accepts, self.opens = map(int, words[1:5])
            self.open, self.handles = {int(it) for it in items(words[5])}, handles_of(words[6])
            return
        call = self.asked(words)
        call.accepted = -1
        call.taken = None if words[8] == "waiting" else -1
        call.is_cancelled, call.is_orphaned = "cancel" in words[8], "orphan" in words[8]
        self.calls[call.number] = call

    def base_lines(self):
        """The lines of the base that says what this journal says."""
        conns = ",".join(map(str, sorted(self.open))) or "-"
        handles = ",".join(f"{it}:{kind}:{cookie}" for it, (kind, cookie) in sorted(self.handles.items())) or "-"
        yield f"base {self.count} {self.joins} {self.accepts} {self.opens} {conns} {handles}"
        for number, call in sorted(self.calls.items()):
            yield f"base-call {number} {call.connection} {call.asked} {call.stage}"

    def asked(self, words):
        return Call(int(words[1]), int(words[2]), " ".join(words[3:8]), slots_of(words[6]), self.count)

    def serial(self, word):
        """The serial of a handle of this group, or None."""
        if word[:8] != "0" * 8 or word[8:24] != self.boot or int(word[24:32], 16) != self.id:
            return None
        return int(word[32:], 16)

    def is_due(self):
        return self.joins > 0 and not self.open and self.shut_at is None and all(it.taken is None for it in self.calls.values())

    def blocker(self, call):
        """The call that a waiting one waits for, and the handle over which, or None."""
        order = sorted(self.calls.values(), key=lambda it: (it.taken is None, it.number))
        for other in order:
            if other is not call and (other.taken is not None or other.number < call.number):
                word = conflict(call, other)
                if word:
                    return other, word
        return None

    def at_fault(self, call):
        """The first slot at fault of a call, and why, or None."""
        for at, it in enumerate(call.slots):
            why = None if it.use == "opens" else self.unusable(call, at, it)
            if why:
                return at, why
        return None

    def unusable(self, call, at, slot):
        if slot.names is None:
            return "is null"
        serial = self.serial(slot.names)
        if serial is None:
            return "is of another group or another start of the server"
        if serial not in self.handles:
            return self.past.get(("handle", serial), f"names serial {serial}, which was never issued") + " and isn't live"
        if self.handles[serial][0] != slot.kind:
            return f"names serial {serial}, which is of kind {self.handles[serial][0]} and not {slot.kind}"
        same = [it for it in call.slots if it.names == slot.names]
        if any(it.names == slot.names for it in call.slots[:at]) and any(it.use in EXCLUSIVE for it in same):
            return f"names serial {serial} a second time, and one of the two uses is exclusive"
        return None

    def enter(self, line):
        """Follows an entry that is allowed."""
        words = line.split(" ")
        getattr(self, f"enter_{words[0]}")(words)
        self.count += 1

    def enter_join(self, words):
        self.joins += 1
        self.open.add(int(words[1]))

    def enter_accept(self, words):
        call = self.asked(words)
        self.accepts += 1
        self.opens += sum(it.use == "opens" for it in call.slots)
        self.calls[call.number] = call

    def enter_take(self, words):
        self.calls[int(words[1])].taken = self.count

    def drop(self, number, how):
        self.past["call", number] = f"call {number} {how} at entry {self.count}"
        return self.calls.pop(number)

    def enter_deny(self, words):
        self.drop(int(words[1]), "was denied")

    def marked(self, number, mark, how):
        call = self.calls[number]
        if call.taken is None:
            self.drop(number, how)
        else:
            setattr(call, mark, True)

    def enter_cancel(self, words):
        self.marked(int(words[1]), "is_cancelled", "was cancelled as it waited")

    def enter_orphan(self, words):
        self.marked(int(words[1]), "is_orphaned", "was orphaned as it waited")

    def enter_end(self, words):
        call = self.drop(int(words[1]), "ended")
        for slot, result in zip(call.slots, items(words[2])):
            what, *rest = result.split(":")
            if what == "issue":
                self.handles[int(rest[0])] = (slot.kind, int(rest[1]))
            elif what == "keep":
                serial = self.serial(slot.word)
                self.handles[serial] = (self.handles[serial][0], int(rest[0]))
            elif what == "close":
                serial = self.serial(slot.word)
                self.handles.pop(serial, None)
                self.past["handle", serial] = f"names serial {serial}, which call {call.number} closed at entry {self.count}"

    def enter_leave(self, words):
        connection = int(words[1])
        self.open.discard(connection)
        self.past["connection", connection] = f"connection {connection} left at entry {self.count}"
        for it in [it for it in self.calls.values() if it.connection == connection and it.taken is None]:
            self.drop(it.number, "was dropped as its connection left")

    def enter_shut(self, words):
        self.shut_at, self.handles = self.count, {}
