"""Writes the texts of the built-in interfaces, which stand in the sources as constants NAME_IDL, to a folder: each NAME.idl.

usage: interfaces.py CRATES FOLDER
"""
import os
import re
import sys

CONSTANT = re.compile(r'pub const ([A-Z]+)_IDL: &str =\s*"((?:[^"\\]|\\.)*)";', re.S)
ESCAPES = {"n": "\n", "t": "\t", '"': '"', "\\": "\\"}


def spelled(inside):
    """The text of a literal: an escaped line feed and the spaces after it are none of it."""
    inside = re.sub(r"\\\n\s*", "", inside)
    return re.sub(r"\\(.)", lambda it: ESCAPES[it[1]], inside)


def main(crates, folder):
    for at, _, names in sorted(os.walk(crates)):
        for name in sorted(it for it in names if it.endswith(".rt")):
            with open(f"{at}/{name}", encoding="utf-8") as it:
                found = CONSTANT.findall(it.read())
            for what, inside in found:
                with open(f"{folder}/{what.lower()}.idl", "w", encoding="utf-8") as it:
                    it.write(spelled(inside))


if __name__ == "__main__":
    main(*sys.argv[1:])
