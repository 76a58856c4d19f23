"""Judges journals of any length by the program's `audit`, which takes 64 MiB at a time: a log is cut at its headings, and a
journal that is longer than that by bases. Says in words why a journal is a breach."""
import os
import subprocess
import sys
import tempfile
from dataclasses import dataclass

import breaches
import departures
import idl_text
import journal

TOP = os.path.dirname(os.path.dirname(os.path.realpath(__file__)))
PIECE_MOST = int(os.environ.get("DCERPC_PIECE", 60 << 20))  # (the tests cut small ones)
BREACH, REFUSED = 2, 2


@dataclass
class Part:
    """A journal, or a part of one that is too long for a file."""

    line: int  # (of its heading in the log, or of its first entry)
    head: list  # (its heading, and the lines of its base)
    lines: list
    size: int = 0
    is_first: bool = True
    is_last: bool = True
    began: int = 0  # (the line of the journal's heading)
    is_whole: bool = True  # (its last line has a line feed)

    def begun(self):
        """The group in front of the first entry."""
        group = journal.Group.headed(self.head[0])
        for line in self.head[1:]:
            group.base(line)
        return group

    def line_in_log(self, number):
        """The line of the log that is this line of the part."""
        return self.line + (number - 1 if self.is_first else number - 1 - len(self.head))


class Refused(Exception):
    """A line that is none of a journal, by its number in the log, and why."""


def numbered(file):
    with open(file, encoding="utf-8", errors="surrogateescape", newline="\n") as it:
        yield from enumerate(it, 1)


def group_after(part):
    """The group after a part's entries, or None where one of them isn't allowed."""
    try:
        group = part.begun()
        for line in part.lines:
            if breaches.why(group, line):
                return None
            group.enter(line)
        return group
    except (ValueError, IndexError, KeyError):
        return None  # (the program says what is wrong)


def cut(part, number):
    """Ends a part that is as long as a file may be, and answers the one that goes on after it; or the part itself where a Shut is
    due, which stays with what it ends; or None where nothing that follows counts, since the journal has a breach or ended."""
    group = group_after(part)
    if group is None or group.shut_at is not None:
        return None
    if group.is_due():
        return part
    part.is_last = False
    head = [group.heading(), *group.base_lines()]
    return Part(number, head, [], sum(map(len, head)), is_first=False, began=part.began)


def unfit(line, before, part):
    """Why a line isn't one of journals, by its form and its place, or None."""
    verb = line.split(" ")[0]
    why = departures.of_form(line, departures.JOURNAL_FORMS)
    if why is None and part is None and verb != "group":
        return "a journal begins with its heading, group G boot X"
    if why is None and (verb == "base" and before != "group" or verb == "base-call" and before not in ("base", "base-call")):
        return "a base stands after a heading alone, and its calls after it"
    return why


def parts(file):
    """The journals of a log one by one, long ones in parts. The first line that is none of a journal is the last of its part: the
    program refuses it."""
    part, before, is_over = None, "", False
    for number, whole in numbered(file):
        line = whole.rstrip("\n")
        is_fit = whole.endswith("\n") and unfit(line, before, part) is None
        before = line.split(" ")[0] if is_fit else ""
        if before == "group" or part is None:
            if part:
                yield part
            part, is_over = Part(number, [line], [], began=number), False
        elif before in ("base", "base-call"):
            part.head.append(line)
        elif is_over and is_fit:
            continue
        else:
            after = cut(part, number) if is_fit and part.size > PIECE_MOST else part
            if after is None:
                # (the line in which a breach shows, at the latest)
                is_over, after = True, part
            elif after is not part:
                yield part
                part = after
            part.lines.append(line)
        part.size += len(line) + 1
        part.is_whole = whole.endswith("\n")
        if not is_fit:
            break
    if part:
        yield part


def pieces(file):
    """The parts of a log by files that `audit` takes."""
    found, size = [], 0
    for part in parts(file):
        if found and size + part.size > PIECE_MOST:
            yield found
            found, size = [], 0
        found.append(part)
        size += part.size
    yield found


def refused(found, number):
    """A line that the program refuses, as one of the log."""
    for part in found:
        lines = [*part.head, *part.lines]
        if number <= len(lines):
            line, before = lines[number - 1], lines[number - 2].split(" ")[0] if number > 1 else ""
            is_cut = number == len(lines) and not part.is_whole
            why = "it has no line feed at its end" if is_cut else unfit(line, before, part if number > 1 else None)
            why = why or "it may not stand there, or a number is out of its range"
            return Refused(part.line_in_log(number), f"`{idl_text.plain(line, 100)}`: {why}")
        number -= len(lines)
    return RuntimeError("audit refuses a line that isn't there")


def written(found, it):
    """Writes parts to a file."""
    for part in found:
        it.write("\n".join([*part.head, *part.lines]) + "\n" * part.is_whole)
    it.flush()


def audited(found):
    """What the program says of these parts: a verdict for each."""
    if not found:
        return []
    with tempfile.NamedTemporaryFile("w", encoding="utf-8", errors="surrogateescape", newline="\n") as it:
        written(found, it)
        ran = subprocess.run(
            [f"{TOP}/dcerpc", "audit", it.name], stdin=subprocess.DEVNULL, stdout=subprocess.PIPE, text=True,
            env={**os.environ, "DCERPC_SAY": "no"})
    verdicts = ran.stdout.splitlines()
    if ran.returncode == REFUSED and verdicts and verdicts[0].startswith("refused: journal line "):
        raise refused(found, int(verdicts[0].split(" ")[-1]))
    if ran.returncode not in (0, BREACH) or len(verdicts) != len(found):
        raise RuntimeError(f"audit ends with status {ran.returncode}: {ran.stdout.strip() or 'nothing'}")
    return verdicts


def reason(part, at):
    """The line of a breach, if it isn't after the last one, and why it is one, in words."""
    group = part.begun()
    first = group.count
    for line in part.lines[:at - first]:
        if breaches.why(group, line):
            return line, "an entry before it isn't allowed either"
        group.enter(line)
    if at - first >= len(part.lines):
        return None, breaches.at_end(group)
    return part.lines[at - first], breaches.why(group, part.lines[at - first])


def told(name, part, verdict):
    """A breach in words."""
    at = int(verdict.split(" ")[-1])
    try:
        line, why = reason(part, at)
    except (ValueError, IndexError, KeyError):
        line, why = None, None
    id, boot = part.head[0].split(" ")[1::2]
    where = f"entry {at}, `{idl_text.plain(line, 100)}`" if line else f"place {at}"
    return f"    {name}: group {id} of boot {boot}, from line {part.began} on: {where}: {why or 'it is not known why'}"


def reasons(name, verdicts):
    """Why the journals of a file are breaches that the program says are."""
    return [told(name, part, verdict) for part, verdict in zip(parts(name), verdicts) if " breach " in verdict]


def judge_file(name):
    """Prints the verdicts on a file's journals, as `audit` does, and below each breach why. Answers how many there are and how
    many are breaches."""
    count = wrong = 0
    is_broken = False
    for found in pieces(name):
        for part, verdict in zip(found, audited(found) if found else []):
            is_breach = " breach " in verdict and not is_broken
            if is_breach or part.is_last and not is_broken:
                print(verdict)
                count += 1
            if is_breach:
                wrong += 1
                print(told(name, part, verdict))
            # (what follows a breach within one journal isn't judged)
            is_broken = (is_broken or is_breach) and not part.is_last
    return count, wrong


def judge(names):
    status = 0
    for name in names:
        try:
            count, wrong = judge_file(name)
            print(f"{name}: {count} journals, {count - wrong} legal, {wrong} a breach")
            status = max(status, BREACH if wrong else 0)
        except Refused as error:
            print(f"refused: journal line {error.args[0]}\n    {name}: {error.args[1]}")
            status = max(status, REFUSED)
        except OSError as error:
            print(f"dcerpc: {name} can't be read: {error.strerror}", file=sys.stderr)
            status = 3
        except RuntimeError as error:
            print(f"dcerpc: {error}", file=sys.stderr)
            status = 5
    return status
