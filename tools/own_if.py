#!/usr/bin/env python3
"""Gives the repository's own `if◌then◌else◌` another name, `when◌then◌else◌`, since the library has an operator of that name that does not chain.

usage: tools/own_if.py [FOLDER]     run once, after tools/snake_names.py

Turned is the word `if` in the code of .antt files, in the ghost items and clauses of .rt files, and in must-fail edits of either.
"""

import os
import re
import sys

from snake_names import CLAUSE, files_of

WORD = re.compile(r"(?<![\w'₀-])if(?=◌then◌else◌|[\s(]|$)")


def turned(text):
    return WORD.sub("when", text)


def turned_antt(line):
    at = re.match(r"^\s*--", line)
    if at:
        return line
    code, dashes, comment = line.partition(" -- ")
    return turned(code) + dashes + comment


def turned_rt(text):
    lines, depth = [], 0
    for line in text.split("\n"):
        if not line.lstrip().startswith("//") and (depth or CLAUSE.match(line)):
            depth += line.count("{") - line.count("}")
            line = turned(line)
        lines.append(line)
    return "\n".join(lines)


def turned_edit(text):
    is_code = re.search(r"^file: .*\.rt$", text, re.M)
    lines = []
    for line in text.split("\n"):
        is_text = re.match(r"(old|new): ", line)
        lines.append(turned(line) if is_text and (not is_code or CLAUSE.match(line[5:])) else line)
    return "\n".join(lines)


def main():
    root = sys.argv[1] if len(sys.argv) > 1 else "."
    for path in files_of(root):
        with open(path, encoding="utf-8") as it:
            text = it.read()
        kind = os.path.splitext(path)[1]
        if kind == ".antt":
            new = "\n".join(turned_antt(line) for line in text.split("\n"))
        else:
            new = {".rt": turned_rt, ".edit": turned_edit}.get(kind, str)(text)
        if new != text:
            with open(path, "w", encoding="utf-8") as it:
                it.write(new)


if __name__ == "__main__":
    main()
