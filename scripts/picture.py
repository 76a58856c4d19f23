"""Draws journals as SVG: a lane for each connection, a bar for each call, a thread for each handle."""
import html

import story

COLOURS = ("#0072b2", "#d55e00", "#009e73", "#cc79a7", "#e69f00", "#56b4e9", "#7b3294", "#8c6d31")
RUNS, WAITS, DENIED = "#5b7083", "#c9d3dc", "#c0392b"
# (beside the number of a call, and so that few threads lie on another)
SHIFTS = (7, -7, 5, -5, 8, -8, 6, -6)
LEFT, RIGHT, ROW, GAP, HEAD, FOOT, LEGEND = 96, 30, 22, 24, 46, 30, 62
STYLE = (
    "text{font:11px sans-serif;fill:#223}.small{font-size:9px;fill:#667}.title{font-size:13px;font-weight:bold}"
    ".on{fill:#fff}.lane{stroke:#9ab;stroke-width:1.5}.grid{stroke:#eef1f4}.thread{fill:none;stroke-width:2}"
)


def tag(name, inside="", **attributes):
    said = "".join(f' {key.rstrip("_").replace("_", "-")}="{html.escape(str(value))}"' for key, value in attributes.items())
    return f"<{name}{said}>{inside}</{name}>"


def titled(shape, title):
    return tag("g", tag("title", html.escape(title)) + shape)


def text(x, y, said, **more):
    return tag("text", html.escape(said), x=f"{x:.1f}", y=f"{y:.1f}", **more)


def line(x1, y1, x2, y2, **more):
    return tag("line", x1=f"{x1:.1f}", y1=f"{y1:.1f}", x2=f"{x2:.1f}", y2=f"{y2:.1f}", **more)


def rect(x, y, width, height, **more):
    return tag("rect", x=f"{x:.1f}", y=f"{y:.1f}", width=f"{max(width, 1.5):.1f}", height=height, **more)


def dot(x, y, size, **more):
    return tag("circle", cx=f"{x:.1f}", cy=f"{y:.1f}", r=size, **more)


def mark(what, x, y):
    """A mark of what befell a call."""
    if what == "cancelled":
        return tag("path", d=f"M{x:.1f} {y - 6:.1f}l5 9h-10z", fill="#f1c40f", stroke="#222")
    if what == "orphaned":
        return tag("path", d=f"M{x:.1f} {y - 6:.1f}l5 6l-5 6l-5-6z", fill="#fff", stroke="#222")
    return tag("path", d=f"M{x - 4:.1f} {y - 4:.1f}l8 8m0-8l-8 8", stroke=DENIED, stroke_width=2, fill="none")


class Panel:
    """The picture of one journal, from a height on."""

    def __init__(self, told, top):
        self.told, self.top = told, top
        count = max(len(told.entries), 1)
        self.step = max(9.0, min(64.0, 1500 / count))
        self.width = LEFT + self.step * (count + 1) + RIGHT
        self.rows, self.tops = {}, {}
        self.bottom = top + HEAD
        for number in sorted(told.connections):
            self.tops[number] = self.bottom
            self.bottom += GAP + ROW * self.stack(number)
        self.height = self.bottom - top + FOOT

    def x(self, at):
        """Where an entry stands; what was there before the first is left of it."""
        return LEFT + self.step * ((len(self.told.entries) if at is None else at) + 0.75)

    def stack(self, connection):
        """Gives each call of a connection a row in its lane, so that none lies on another, and answers how many rows those are."""
        free = []
        for bar in sorted((it for it in self.told.bars.values() if it.call.connection == connection), key=lambda it: it.accepted):
            row = next((at for at, it in enumerate(free) if it <= bar.accepted), len(free))
            free[row:row + 1] = [len(self.told.entries) if bar.ended is None else bar.ended]
            self.rows[bar.call.number] = row
        return max(len(free), 1)

    def y(self, connection, call=None):
        return self.tops[connection] + (GAP + ROW) / 2 + ROW * self.rows.get(call, 0)

    def y_of(self, number):
        """The height of a call's bar."""
        return self.y(self.told.bars[number].call.connection, number)

    def heading(self):
        group = self.told.group
        said = f"group {group.id}, boot {group.boot}: {len(self.told.entries)} entries"
        if self.told.first:
            said += f" after a base of {self.told.first}"
        yield text(8, self.top + 18, said, class_="title")

    def grid(self):
        every = next(it for it in (1, 2, 5, 10, 20, 50, 100, 1000, 10 ** 9) if it * self.step >= 24)
        for at, entry in enumerate(self.told.entries):
            if at % every == 0:
                x = self.x(at)
                yield line(x, self.top + HEAD - 8, x, self.bottom, class_="grid")
                said = text(x, self.bottom + 13, str(self.told.first + at), class_="small", text_anchor="middle")
                yield titled(said, f"entry {self.told.first + at}: {entry[:120]}")

    def lane(self, it):
        y, begin, end = self.y(it.number), self.x(it.joined), self.x(it.left)
        yield text(8, y + 4, f"connection {it.number}")
        left = "" if it.left is None else f", left at entry {self.told.first + it.left}"
        yield titled(line(begin, y, end, y, class_="lane"), f"connection {it.number} {it.how}{left}")
        if it.joined >= 0:
            yield titled(dot(begin, y, 4, fill="#fff", stroke="#456"), f"join {it.number}, entry {self.told.first + it.joined}")

    def leave(self, it):
        y, x = self.y(it.number), self.x(it.left)
        if it.left is None or it.left < 0:
            return ""
        bar = line(x, y - 13, x, y + 13, stroke="#1c2833", stroke_width=3)
        return titled(bar, f"leave {it.number}, entry {self.told.first + it.left}")

    def about(self, bar):
        call = bar.call
        operation, order, reply, slots, stub = call.asked.split(" ")
        said = [f"call {call.number} of connection {call.connection}: operation {operation}, {order}-endian, {reply}"]
        said += [f"handles: {slots}", f"stub: {0 if stub == '-' else len(stub) // 2} octets"]
        said += [f"waits for call {bar.waits_for}"] if bar.waits_for else []
        return "\n".join([*said, bar.fate or ("still runs" if bar.taken is not None else "still waits")])

    def bar(self, bar):
        y, begin, end = self.y_of(bar.call.number), self.x(bar.accepted), self.x(bar.ended)
        taken = end if bar.taken is None else self.x(bar.taken)
        shape = rect(begin, y - 9, taken - begin, 18, fill=WAITS, stroke="#8a98a5")
        if bar.taken is not None:
            shape += rect(taken, y - 9, end - taken, 18, fill=RUNS, stroke="#3f505f")
        for at, what in bar.marks:
            shape += mark(what, self.x(at), y - 12)
        if bar.fate.startswith("denied") or bar.fate.startswith("dropped"):
            shape += mark("denied", end, y)
        if bar.fate.startswith("fault"):
            shape += text(end + 2, y - 11, "fault", class_="small")
        yield titled(shape, self.about(bar))

    def label(self, bar):
        """The number of a call, where there is room for it."""
        begin, end = self.x(bar.accepted), self.x(bar.ended)
        taken = end if bar.taken is None else self.x(bar.taken)
        said, room = str(bar.call.number), max(taken - begin, end - taken)
        if room < 7 * len(said) + 4:
            return ""
        at, where = (begin, "") if taken - begin >= end - taken else (taken, "on")
        said = f"call {said}" if room >= 44 else said
        return text(at + 4, self.y_of(bar.call.number) + 4, said, class_=where, pointer_events="none")

    def path(self, thread):
        """The points of a thread: where its handle is issued, through the calls that use it, to its end."""
        shift = SHIFTS[thread.serial % len(SHIFTS)]
        first = self.y_of(thread.issuer) if thread.issuer else self.top + HEAD - 8
        points = [(self.x(thread.issued), first + shift)]
        for it in thread.users:
            bar, y = self.told.bars[it], self.y_of(it) + shift
            points += [(max(self.x(bar.taken), points[-1][0]), y), (self.x(bar.ended), y)]
        if thread.closer is None:
            points.append((max(self.x(thread.ended), points[-1][0]), points[-1][1]))
        return points

    def thread(self, thread):
        colour = COLOURS[(thread.serial - 1) % len(COLOURS)]
        points = self.path(thread)
        x, y = points[0]
        drawn = f"M{x:.1f} {y:.1f}"
        for to_x, to_y in points[1:]:
            # (it stays at its height until it is used again)
            bend = min(max(to_x - x, 2), 36)
            drawn += f"H{to_x - bend:.1f}C{to_x - bend / 3:.1f} {y:.1f} {to_x - bend / 1.5:.1f} {to_y:.1f} {to_x:.1f} {to_y:.1f}"
            x, y = to_x, to_y
        shape = tag("path", d=drawn, class_="thread", stroke=colour) + dot(*points[0], 3.5, fill=colour)
        if thread.ended is not None:
            is_closed = thread.closer is not None
            shape += dot(x, y, 4, fill="#fff" if is_closed else colour, stroke=colour, stroke_width=2)
        used = ", ".join(map(str, thread.users)) or "none"
        issued = f"issued by call {thread.issuer}" if thread.issuer else "in the base"
        return titled(shape, f"handle {thread.serial} of kind {thread.kind}: {issued}, used by calls {used}, {thread.fate}")

    def ending(self):
        shut = self.told.group.shut_at
        if shut is not None:
            x = self.x(shut - self.told.first)
            both = "".join(line(x + it, self.top + HEAD - 8, x + it, self.bottom, stroke="#222", stroke_width=1.5) for it in (-2, 2))
            yield titled(both + text(x - 8, self.top + HEAD - 13, "shut", class_="small"), f"entry {shut}: {self.told.entries[-1][:200]}")
        if self.told.breach:
            x = self.x(None)
            bar = line(x, self.top + HEAD - 8, x, self.bottom, stroke=DENIED, stroke_width=3, stroke_dasharray="5 3")
            yield titled(bar + text(x - 20, self.top + HEAD - 13, "breach", fill=DENIED), self.told.breach)

    def draw(self):
        yield from self.heading()
        yield from self.grid()
        for it in self.told.connections.values():
            yield from self.lane(it)
        for it in self.told.bars.values():
            yield from self.bar(it)
        for it in self.told.threads.values():
            yield self.thread(it)
        for it in self.told.bars.values():
            yield self.label(it)
        for it in self.told.connections.values():
            yield self.leave(it)
        yield from self.ending()


def legend(y):
    """What the signs mean, in two rows."""
    yield rect(8, y, 26, 14, fill=WAITS, stroke="#8a98a5") + text(38, y + 11, "a call waits")
    yield rect(118, y, 26, 14, fill=RUNS, stroke="#3f505f") + text(148, y + 11, "it runs")
    yield line(204, y + 7, 236, y + 7, stroke=COLOURS[0], stroke_width=2) + text(240, y + 11, "a handle, through its calls")
    yield dot(400, y + 7, 3.5, fill=COLOURS[0]) + text(408, y + 11, "issued")
    yield dot(456, y + 7, 4, fill="#fff", stroke=COLOURS[0], stroke_width=2) + text(464, y + 11, "closed")
    yield dot(512, y + 7, 4, fill=COLOURS[0]) + text(520, y + 11, "run down, at the shut")
    y += 24
    yield dot(14, y + 7, 4, fill="#fff", stroke="#456") + text(24, y + 11, "join")
    yield line(62, y, 62, y + 14, stroke="#456", stroke_width=3) + text(70, y + 11, "leave")
    yield mark("cancelled", 118, y + 9) + text(128, y + 11, "cancel")
    yield mark("orphaned", 184, y + 8) + text(194, y + 11, "orphan")
    yield mark("denied", 254, y + 7) + text(264, y + 11, "denied or dropped")
    yield line(384, y, 384, y + 14, stroke="#222", stroke_width=1.5) + line(388, y, 388, y + 14, stroke="#222", stroke_width=1.5)
    yield text(396, y + 11, "shut") + text(440, y + 11, "numbers below: entries from the group's first", class_="small")


def drawn(journals):
    """The picture of a text of journals, all of it."""
    panels, top = [], 8
    for told in story.stories(journals):
        panels.append(Panel(told, top))
        top += panels[-1].height + 12
    width = max([700, *[it.width for it in panels]])
    height = top + LEGEND
    inside = [tag("style", STYLE), rect(0, 0, width, height, fill="#fff")]
    for it in panels:
        inside += it.draw()
    inside += legend(top + 4)
    return tag("svg", "\n".join(inside), xmlns="http://www.w3.org/2000/svg", width=f"{width:.0f}", height=height,
               viewBox=f"0 0 {width:.0f} {height}") + "\n"
