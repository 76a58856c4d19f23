"""What a picture of a journal shows: the spans of its connections, calls and handles, by the places of its entries."""
from dataclasses import dataclass, field

import breaches
import departures
import idl_text
import journal


@dataclass
class Connection:
    number: int
    joined: int
    left: int | None = None
    how: str = "joined"


@dataclass
class Bar:
    """A call, from its Accept to its End."""

    call: journal.Call
    accepted: int
    waits_for: int | None = None
    taken: int | None = None
    ended: int | None = None
    fate: str = ""
    marks: list = field(default_factory=list)  # (each its place and what it is)


@dataclass
class Thread:
    """A handle, from its issue to its close or rundown, with the calls that used it."""

    serial: int
    kind: int
    issued: int
    issuer: int | None
    users: list = field(default_factory=list)
    ended: int | None = None
    closer: int | None = None
    fate: str = "is live"


@dataclass
class Story:
    group: journal.Group
    first: int = 0
    entries: list = field(default_factory=list)
    connections: dict = field(default_factory=dict)
    bars: dict = field(default_factory=dict)
    threads: dict = field(default_factory=dict)
    breach: str | None = None

    def begin(self):
        """What stands in the base is there from the beginning on."""
        group = self.group
        self.first = group.count
        for it in sorted(group.open):
            self.connections[it] = Connection(it, -1, how="is open in the base")
        for number, call in group.calls.items():
            self.connections.setdefault(call.connection, Connection(call.connection, -1, -1, "is in the base"))
            self.bars[number] = Bar(call, -1, taken=None if call.taken is None else -1)
        for serial, (kind, _) in group.handles.items():
            self.threads[serial] = Thread(serial, kind, -1, None)
        for number, bar in self.bars.items():
            if bar.taken is not None:
                self.use(number)

    def enter(self, line):
        """Follows an entry; answers whether it is allowed."""
        why = breaches.why(self.group, line)
        if why:
            self.breach = f"entry {self.group.count}, {line[:80]}: {why}"
            return False
        at = len(self.entries)
        verb, *words = line.split(" ")
        # (the call and the handles as they stand before the entry)
        call = self.group.calls.get(int(words[0])) if verb in ("take", "deny", "cancel", "orphan", "end") else None
        live = set(self.group.handles)
        self.entries.append(line)
        self.group.enter(line)
        getattr(self, verb)(at, words, call)
        for serial in live - set(self.group.handles):
            thread = self.threads[serial]
            thread.ended, thread.closer = at, int(words[0]) if verb == "end" else None
            thread.fate = f"closed by call {words[0]}" if verb == "end" else "run down"
        return True

    def use(self, number):
        for slot in self.bars[number].call.slots:
            serial = self.group.serial(slot.names) if slot.names else None
            if serial in self.threads and number not in self.threads[serial].users:
                self.threads[serial].users.append(number)

    def join(self, at, words, _):
        self.connections[int(words[0])] = Connection(int(words[0]), at)

    def accept(self, at, words, _):
        call = self.group.calls[int(words[0])]
        blocker = self.group.blocker(call)
        self.bars[call.number] = Bar(call, at, waits_for=blocker[0].number if blocker else None)

    def take(self, at, words, call):
        self.bars[call.number].taken = at
        self.use(call.number)

    def settle(self, number, at, fate):
        self.bars[number].ended, self.bars[number].fate = at, fate

    def deny(self, at, words, call):
        self.settle(call.number, at, f"denied for its slot {words[1]}")

    def mark(self, at, call, what):
        self.bars[call.number].marks.append((at, what))
        if call.taken is None:
            self.settle(call.number, at, f"{what} as it waited")

    def cancel(self, at, words, call):
        self.mark(at, call, "cancelled")

    def orphan(self, at, words, call):
        self.mark(at, call, "orphaned")

    def end(self, at, words, call):
        said = words[2].partition(":")
        self.settle(call.number, at, f"fault {said[2]}" if said[0] == "fault" else "answered")
        for slot, result in zip(call.slots, journal.items(words[1])):
            if result.startswith("issue:"):
                serial = int(result.split(":")[1])
                self.threads[serial] = Thread(serial, slot.kind, at, call.number)

    def leave(self, at, words, _):
        self.connections[int(words[0])].left = at
        for bar in self.bars.values():
            if bar.call.connection == int(words[0]) and bar.taken is None and bar.ended is None:
                self.settle(bar.call.number, at, "dropped as its connection left")

    def shut(self, at, words, _):
        pass


def stories(text):
    """The story of each journal of a text. A line that is none of a journal ends it, with a ValueError that says why."""
    found, is_over = [], False
    lines, _ = departures.lines_of(text)
    for number, line in enumerate(lines, 1):
        why = departures.of_form(line, departures.JOURNAL_FORMS)
        verb = line.split(" ")[0]
        if why or not found and verb != "group":
            raise ValueError(f"line {number}, `{idl_text.plain(line, 80)}`: {why or 'a journal begins with group G boot X'}")
        if verb == "group":
            found.append(Story(journal.Group.headed(line)))
            is_over = is_begun = False
        elif verb in ("base", "base-call"):
            found[-1].group.base(line)
        else:
            if not is_begun:
                found[-1].begin()
                is_begun = True
            is_over = is_over or not found[-1].enter(line)
    return found
