#!/usr/bin/env python3
"""Lays crates of the repository into a folder of their own, to be proved and built there.

    lay.py FOLDER NAME..    lays the crates NAME and all that they stand on, those of bench/ among them, and prints
                            the checksum of their files

A file that is laid already and is the same stays untouched, and so does what the toolchain made there (out/), so a
later run proves only what changed. A crate of bench/ stands in bench/crates/NAME, each of its .rt and .antt files with
.txt behind its name, and its line in bench/lines.txt.
"""
import hashlib
import os
import re
import sys

TOP = os.path.dirname(os.path.dirname(os.path.realpath(__file__)))
# What of a crate isn't laid: what the toolchain made of it, and its edits.
LEFT = ("out", "must-fail")


def read(path):
    with open(path, "rb") as file:
        return file.read()


def lines_of(path):
    """The lines of crates, by their names; each with the names behind its colon."""
    found = {}
    for line in read(path).decode().splitlines():
        said = re.fullmatch(r"\s*(\w+)[^:#]*:([^#]*).*", line)
        if said:
            found[said[1]] = line, said[2].split()
    return found


def every_crate():
    """The lines of all crates, those of bench/ among them, and the names of the latter."""
    gate, beside = lines_of(f"{TOP}/crates.txt"), lines_of(f"{TOP}/bench/lines.txt")
    return {**gate, **beside}, beside.keys()


def stands_on(lines, names):
    """The crates of those names and all below them, each behind those that it stands on itself."""
    order = []

    def take(name):
        if name in lines and name not in order:
            for below in lines[name][1]:
                take(below)
            order.append(name)

    for name in names:
        take(name)
    return order


def files_of(name, is_beside):
    """The files of a crate, by their paths in its folder."""
    top = f"{TOP}/bench/crates/{name}" if is_beside else f"{TOP}/crates/{name}"
    found = {}
    for folder, folders, files in os.walk(top):
        if folder == top:
            folders[:] = [it for it in folders if it not in LEFT]
        for file in files:
            path = os.path.relpath(f"{folder}/{file}", top)
            found[re.sub(r"(\.(rt|antt))\.txt$", r"\1", path)] = read(f"{folder}/{file}")
    return found


def lay(folder, names, more=None):
    """Lays the crates of those names and all below them, and further files of some, by the crates' names. Returns the
    checksum of all that is laid."""
    lines, beside = every_crate()
    order = stands_on(lines, names)
    wanted = {"crates.txt": "".join(lines[it][0] + "\n" for it in order).encode(), "HANDLES": read(f"{TOP}/HANDLES")}
    for name in order:
        files = {**files_of(name, name in beside), **(more or {}).get(name, {})}
        wanted.update({f"crates/{name}/{path}": files[path] for path in files})
    take_away(folder, wanted)
    for path in wanted:
        put(f"{folder}/{path}", wanted[path])
    return hashlib.sha256(repr(sorted(wanted.items())).encode()).hexdigest()


def take_away(folder, wanted):
    """Takes away the files that aren't wanted. What the toolchain made stays, also of a crate that isn't laid now."""
    for at, folders, files in os.walk(folder):
        if "out" in folders:
            folders.remove("out")
        for file in files:
            path = os.path.relpath(f"{at}/{file}", folder)
            if path.startswith("crates/") and path not in wanted:
                os.remove(f"{at}/{file}")


def put(path, content):
    """Writes a file, unless it is so already."""
    if not os.path.isfile(path) or read(path) != content:
        os.makedirs(os.path.dirname(path), exist_ok=True)
        with open(path, "wb") as file:
            file.write(content)


if __name__ == "__main__":
    if len(sys.argv) < 3:
        sys.exit(__doc__)
    print(lay(sys.argv[1], sys.argv[2:]))
