#!/usr/bin/env python3
"""Checks that the documents and the repository say the same: prints what differs, and then ends with 1.

Each crate of crates.txt is in docs/ARCHITECTURE.md, once; each crate, file and function that documents name in backticks
is there; each link leads to a file, and to a heading in it."""

import os
import re
import sys

TOP = os.path.dirname(os.path.dirname(os.path.abspath(__file__)))
FOLDERS = ("src", "specs", "proofs", "data", "must-fail")
WORDS_OF_OTHERS = {"atomic_table", "cmd_out"}


def read(path):
    with open(path, encoding="utf-8") as file:
        return file.read()


def documents():
    found = ["README.md"]
    for folder in ("docs", "mutants", "examples"):
        place = os.path.join(TOP, folder)
        if os.path.isdir(place):
            found += [os.path.join(folder, name) for name in sorted(os.listdir(place)) if name.endswith(".md")]
    return found


def crates():
    lines = read(os.path.join(TOP, "crates.txt")).splitlines()
    return [line.split(":")[0].split()[0] for line in lines if ":" in line and not line.startswith("#")]


def outside_gate():
    place = os.path.join(TOP, "bench", "crates")
    return [name for name in os.listdir(place) if os.path.isdir(os.path.join(place, name))] if os.path.isdir(place) else []


def anchors(path):
    headings = re.findall(r"^#+ (.*)$", re.sub(r"```.*?```", "", read(path), flags=re.S), re.M)
    return {re.sub(r"[^\w\- ]", "", heading.lower()).replace(" ", "-") for heading in headings}


def links(name, text):
    for target in re.findall(r"\]\(([^)\s]+)\)", text):
        if re.match(r"[a-z]+:", target):
            continue
        path, _, anchor = target.partition("#")
        place = os.path.normpath(os.path.join(TOP, os.path.dirname(name), path)) if path else os.path.join(TOP, name)
        if not os.path.exists(place):
            yield "link to %s, which isn't there" % target
        elif anchor and place.endswith(".md") and anchor not in anchors(place):
            yield "link to %s, which has no such heading" % target


def has_function(crate, names):
    """Whether the crate's sources have the last name as a function, or as a type, constant or definition."""
    last = re.escape(names[-1])
    wanted = re.compile(r"\b(fn|struct|enum|trait|type|const|def|abbrev|record|data)\b[^\n]*\b%s\b|^(pub )?%s\b" % (last, last), re.M)
    for folder, _, files in os.walk(os.path.join(TOP, "crates", crate)):
        if "out" in folder.split(os.sep):
            continue
        for name in files:
            if name.endswith((".rt", ".antt")) and wanted.search(read(os.path.join(folder, name))):
                return True
    return False


def has_file(word):
    places = [TOP, os.path.join(TOP, "crates"), os.path.join(TOP, "docs")]
    ends = ("", ".antt", ".rt")
    return "/out" in word or any(os.path.exists(os.path.join(place, word + end)) for place in places for end in ends)


def words(name, text, known, outside):
    text = re.sub(r"```.*?```", "", text, flags=re.S)
    for word in sorted(set(re.findall(r"`([^`\n]+)`", text))):
        head = re.split(r"[:/]", word)[0]
        if "::" in word and re.fullmatch(r"[a-z0-9_]+(::[A-Za-z0-9_]+)+(\(\))?", word):
            if head in known and not has_function(head, word.replace("()", "").split("::")[1:]):
                yield "`%s`, which isn't in the crate" % word
            elif head not in known and head not in outside and "_" in head:
                yield "`%s`, of a crate that isn't there" % word
        elif re.fullmatch(r"[\w.\-]+(/[\w.\-]+)+/?", word):
            if (head in known or head in ("docs", "bench", "crates", "mutants", "tools", "examples")) and not has_file(word):
                if not (word.count("/") == 1 and word.split("/")[1] in FOLDERS):
                    yield "file %s, which isn't there" % word
            elif word.split("/")[1] in FOLDERS and head not in known and head not in outside and head.islower():
                yield "file %s, of a crate that isn't there" % word


def crate_column(text):
    return re.findall(r"^\| `([a-z0-9_]+)` \| [^|]*\|", re.split(r"^## The way", text, flags=re.M)[0], re.M)


def named_crates(text, known, outside, old):
    for word in sorted(set(re.findall(r"`([a-z][a-z0-9]*(?:_[a-z0-9]+)+)`", text))):
        if word in old and word not in known and word not in outside:
            yield "crate `%s`, which isn't there" % word


def main():
    known, outside = set(crates()), set(outside_gate())
    old = set(sys.argv[1:])
    wrong = []
    rows = crate_column(read(os.path.join(TOP, "docs", "ARCHITECTURE.md")))
    wrong += ["docs/ARCHITECTURE.md: no row for `%s`" % crate for crate in crates() if crate not in rows]
    wrong += ["docs/ARCHITECTURE.md: a row for `%s`, which isn't in crates.txt" % row for row in rows if row not in known]
    wrong += ["docs/ARCHITECTURE.md: more than one row for `%s`" % row for row in sorted(set(rows)) if rows.count(row) > 1]
    for name in documents():
        text = read(os.path.join(TOP, name))
        for problems in (links(name, text), words(name, text, known, outside), named_crates(text, known, outside, old)):
            wrong += ["%s: %s" % (name, problem) for problem in problems]
    print("\n".join(wrong) if wrong else "the documents agree")
    return 1 if wrong else 0


if __name__ == "__main__":
    sys.exit(main())
