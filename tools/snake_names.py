#!/usr/bin/env python3
"""Spells the repository's own definitions and lemmas as today's Rattle does: a dash in a name becomes an underscore.

usage: tools/snake_names.py [FOLDER]     FOLDER is a checkout that port.py has turned; without it, the current folder

A name is the repository's own where a file of specs/ or proofs/ declares it. In a Proof.antt the names of goals stay, since Rattle makes them.
Changed are .antt files; in .rt files the ghost items and clauses; in must-fail edits the texts, of those of .rt files the clauses; in comments and pages what stands between
backticks; in pages also names that port.py turned, but no sample's folder. Names that fall together are printed, and then nothing is changed.
"""

import os
import re
import sys

HEAD = r"(?:(?:abbrev|unfoldable|pub|data|record|ruleset)\s+)*"
DECLARED = re.compile(rf"^\s*{HEAD}([^\s(){{}}\[\].,;:=λ]+(?: [^\s(){{}}\[\].,;:=λ]+)*) :(?: (.*))?$")
WORD = re.compile(r"[^\s(){}\[\].,;`\"]+")
TICKED = re.compile(r"`[^`]*`")
CLAUSE = re.compile(r"^\s*(?:pub )?(?:ghost\b|requires\b|ensures\b)")


def files_of(root):
    for top in ("crates", "docs", "samples"):
        for folder, dirs, files in os.walk(os.path.join(root, top)):
            dirs[:] = sorted(it for it in dirs if it != "out")
            for file in sorted(files):
                if file.endswith((".antt", ".rt", ".edit", ".md")):
                    yield os.path.join(folder, file)
    for file in ("README.md", "CONTRIBUTING.md"):
        yield os.path.join(root, file)


def declared_in(text):
    """Each declared name, with whether it is a goal's, which Rattle names."""
    for line in text.split("\n"):
        found = DECLARED.match(line)
        if found:
            for name in found.group(1).split():
                yield name, (found.group(2) or "").startswith("tie.")


def turned(text, names):
    return WORD.sub(lambda it: names.get(it.group(), it.group()), text)


def in_ticks(text, names):
    return TICKED.sub(lambda it: turned(it.group(), names), text)


def turned_antt(text, names):
    lines = []
    for line in text.split("\n"):
        code, dashes, comment = line.partition("--") if re.match(r"^\s*--|.*\s-- ", line) else (line, "", "")
        lines.append(turned(code, names) + dashes + in_ticks(comment, names))
    return "\n".join(lines)


def turned_rt(text, names):
    lines, depth = [], 0
    for line in text.split("\n"):
        is_comment = line.lstrip().startswith("//")
        if is_comment:
            lines.append(in_ticks(line, names))
        elif depth or CLAUSE.match(line):
            lines.append(turned(line, names))
            depth += line.count("{") - line.count("}")
        else:
            lines.append(line)
    return "\n".join(lines)


def turned_edit(text, names):
    is_code = re.search(r"^file: .*\.rt$", text, re.M)
    lines = []
    for line in text.split("\n"):
        is_text = re.match(r"(old|new): ", line)
        clause = is_text and (not is_code or CLAUSE.match(line[5:]))
        lines.append(turned(line, names) if clause else in_ticks(line, names))
    return "\n".join(lines)


def main():
    root = sys.argv[1] if len(sys.argv) > 1 else "."
    texts = {}
    for path in files_of(root):
        with open(path, encoding="utf-8") as it:
            texts[path] = it.read()
    declared, goals = set(), {}
    for path, text in texts.items():
        if path.endswith(".antt"):
            for name, is_goal in declared_in(text):
                if is_goal:
                    goals.setdefault(path, set()).add(name)
                else:
                    declared.add(name)
    names = {it: it.replace("-", "_") for it in declared if "-" in it.strip("-") and re.match(r"[A-Za-z]", it)}
    together = [f"{it} {to}" for it, to in names.items() if to in declared]
    together += [f"{a} {b}" for a in names for b in names if a < b and names[a] == names[b]] if len(set(names.values())) < len(names) else []
    if together:
        print("fall together:", *together, sep="\n  ")
        return 1
    samples = os.path.join(root, "samples")
    folders = os.listdir(samples) if os.path.isdir(samples) else []
    spelled = {it.replace("_", "-"): it for it in {*declared, *names.values()} if "_" in it and "-" not in it}
    pages = {it: to for it, to in spelled.items() if it not in folders}
    changed = 0
    for path, text in texts.items():
        here = {it: to for it, to in names.items() if it not in goals.get(path, ())}
        turn = {".antt": turned_antt, ".rt": turned_rt, ".edit": turned_edit}.get(os.path.splitext(path)[1])
        new = turn(text, here) if turn else in_ticks(text, pages)
        if new != text:
            changed += 1
            with open(path, "w", encoding="utf-8") as it:
                it.write(new)
    print(f"{len(names)} names, {changed} files changed")
    return 0


if __name__ == "__main__":
    raise SystemExit(main())
