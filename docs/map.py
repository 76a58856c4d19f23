#!/usr/bin/env python3
"""Draws what can be drawn of the map of crates: docs/map.py writes it, docs/map.py --check says whether it is as written.

From crates.txt come the column "Stands on" of the tables in docs/ARCHITECTURE.md and the picture docs/map.svg. A crate
is shown with the crates that it names, but for those that another of these stands on. From the sources comes the table of
the lemmas that proofs of other crates use."""

import os
import re
import sys
from html import escape

TOP = os.path.dirname(os.path.dirname(os.path.abspath(__file__)))
MAP = os.path.join(TOP, "docs", "ARCHITECTURE.md")
PICTURE = os.path.join(TOP, "docs", "map.svg")
ROW = re.compile(r"^\| `([a-z0-9_]+)` \|[^|]*\|")


def subjects_of(text):
    """Subjects in order, each with its crates, and what each crate names."""
    subjects, names = [], {}
    for line in text.splitlines():
        if line.startswith("#"):
            subjects.append((re.match(r"#\s*([a-z]+)", line).group(1), []))
        elif ":" in line:
            head, rest = line.split(":", 1)
            crate = head.split()[0]
            subjects[-1][1].append(crate)
            names[crate] = rest.split()
    return subjects, names


def reach(names, crate, known):
    """All that a crate stands on, through others too."""
    if crate not in known:
        known[crate] = set()
        for name in names.get(crate, []):
            known[crate] |= {name} | reach(names, name, known)
    return known[crate]


def shown(names, crate, known):
    listed = names[crate]
    below = set().union(*(reach(names, name, known) for name in listed)) if listed else set()
    return [name for name in listed if name not in below]


def with_columns(text, names):
    known, lines = {}, []
    for line in text.splitlines():
        found = ROW.match(line)
        if found and found.group(1) in names:
            stands = ", ".join("`%s`" % name for name in shown(names, found.group(1), known)) or "nothing"
            line = "| `%s` | %s |%s" % (found.group(1), stands, line[found.end():])
        lines.append(line)
    return "\n".join(lines) + "\n"


def lemmas(subjects):
    """For each crate whose lemmas proofs of others use: these others."""
    order = [crate for _, crates in subjects for crate in crates]
    used = {crate: set() for crate in order}
    for crate in order:
        for folder, _, files in os.walk(os.path.join(TOP, "crates", crate)):
            if os.path.basename(folder) not in ("src", "proofs", "specs"):
                continue
            for name in files:
                if name.endswith((".rt", ".antt")):
                    with open(os.path.join(folder, name), encoding="utf-8") as file:
                        for found in re.findall(r"Rattle\.([a-z0-9_]+)\.proofs\b", file.read()):
                            if found != crate and found in used:
                                used[found].add(crate)
    users = {crate for found in used.values() for crate in found}
    lines = ["Proofs of %d of the %d crates use lemmas of another:" % (len(users), len(order)), ""]
    lines += ["| Lemmas of | Are used in proofs of |", "|---|---|"]
    for crate in order:
        if used[crate]:
            lines.append("| `%s` | %s |" % (crate, ", ".join("`%s`" % name for name in order if name in used[crate])))
    return "\n".join(lines)


def with_lemmas(text, subjects):
    begin, end = "<!-- lemmas -->\n", "<!-- end of lemmas -->"
    before, rest = text.split(begin, 1)
    return before + begin + lemmas(subjects) + "\n" + end + rest.split(end, 1)[1]


WIDTH, LEFT, CHIP, LINE, GAP = 1180, 130, 22, 26, 14


def rows_of(crates):
    """Chips of a subject, line by line: each with its place and width."""
    rows, row, at = [], [], 0
    for crate in crates:
        width = 16 + 7 * len(crate)
        if row and at + width > WIDTH - LEFT - 250:
            rows.append(row)
            row, at = [], 0
        row.append((crate, at, width))
        at += width + 8
    return rows + [row]


def picture(subjects, names):
    home = {crate: subject for subject, crates in subjects for crate in crates}
    place = {subject: at for at, (subject, _) in enumerate(subjects)}
    edges = {}
    for crate in home:
        for name in names[crate]:
            if name in home and home[name] != home[crate]:
                edges.setdefault((home[crate], home[name]), []).append("%s stands on %s" % (crate, name))
    drawn, top, middle = [], 60, {}
    for subject, crates in subjects:
        rows = rows_of(crates)
        height = LINE * len(rows) + 12
        middle[subject] = top + height / 2
        drawn.append('<rect class="subject" x="10" y="%d" width="%d" height="%d" rx="6"/>' % (top, WIDTH - 250, height))
        drawn.append('<text class="name" x="22" y="%d">%s</text>' % (top + height / 2 + 5, escape(subject)))
        for number, row in enumerate(rows):
            for crate, at, width in row:
                y = top + 8 + LINE * number
                drawn.append('<g><title>%s</title><rect class="crate" x="%d" y="%d" width="%d" height="%d" rx="4"/>'
                             '<text x="%d" y="%d">%s</text></g>' % (
                                 escape("%s stands on %s" % (crate, ", ".join(names[crate]) or "nothing")),
                                 LEFT + at, y, width, CHIP, LEFT + at + 8, y + 15, crate))
        top += height + GAP
    for (above, below), pairs in sorted(edges.items()):
        if below == "base" or above == "tests":
            continue
        back = place[below] > place[above]
        from_y, to_y = middle[above] + (4 if back else -4), middle[below] + (-4 if back else 4)
        x = WIDTH - 240
        bend = x + 28 + 13 * abs(place[above] - place[below])
        drawn.append('<path class="%s" marker-end="url(#%s)" d="M%d %d C%d %d %d %d %d %d"><title>%s</title></path>' % (
            "back" if back else "arc", "orange" if back else "grey", x, from_y, bend, from_y, bend, to_y, x + 6, to_y,
            escape("; ".join(pairs))))
    style = ("text{font:12px monospace;fill:#222}.name{font:bold 15px sans-serif}.note{font:13px sans-serif}"
             ".subject{fill:#f3f5f8;stroke:#c3cad4}.crate{fill:#fff;stroke:#8fa3bd}"
             ".arc,.back{fill:none;stroke:#8fa3bd;stroke-width:1.3}.back{stroke:#d9822b;stroke-dasharray:5 3}")
    heads = "".join('<marker id="%s" viewBox="0 0 8 8" refX="7" refY="4" markerWidth="7" markerHeight="7" orient="auto">'
                    '<path d="M0 0L8 4L0 8z" fill="%s"/></marker>' % pair
                    for pair in (("grey", "#8fa3bd"), ("orange", "#d9822b")))
    note = ("An arrow leads from a subject to one whose crates it stands on; all stand on base, and tests on all. "
            "Dashed: it stands on one further down.")
    return ('<svg xmlns="http://www.w3.org/2000/svg" viewBox="0 0 %d %d" font-size="12"><title>The crates of dcerpc</title>'
            '<style>%s</style><defs>%s</defs><rect width="100%%" height="100%%" fill="#fff"/>'
            '<text class="note" x="10" y="30">%s</text>\n%s\n</svg>\n' % (
                WIDTH, top, style, heads, escape(note), "\n".join(drawn)))


def read(path):
    if not os.path.exists(path):
        return ""
    with open(path, encoding="utf-8") as file:
        return file.read()


def main():
    subjects, names = subjects_of(read(os.path.join(TOP, "crates.txt")))
    text = read(MAP)
    wanted = {MAP: with_lemmas(with_columns(text, names), subjects), PICTURE: picture(subjects, names)}
    if sys.argv[1:] == ["--check"]:
        stale = [path for path in wanted if read(path) != wanted[path]]
        for path in stale:
            print("%s: not as docs/map.py draws it" % os.path.relpath(path, TOP))
        return 1 if stale else 0
    for path, made in wanted.items():
        with open(path, "w", encoding="utf-8") as file:
            file.write(made)
    return 0


if __name__ == "__main__":
    sys.exit(main())
