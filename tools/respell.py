#!/usr/bin/env python3
"""Respells the repository's own definitions and lemmas: words in snake case, facts and types in upper camel case.

usage: python3 tools/respell.py [TOP]     (TOP: the top of a checkout, by default the one that this file lies in)

tools/spelling.tsv has a row for each name: old, a tab, new. Whole names alone turn, all at once. A name turns in the code of .antt files, in the
clauses and ghost lines of .rt files, and in code spans of comments and of docs/. A name that Rattle makes, behind `c.`, `goal.`, `w.`, `l.` or
`g.`, stays. A second run writes nothing more. It was run once, right after the kit's own script, when the repository came to a newer Rattle.
"""

import os
import re
import sys

HERE = os.path.dirname(os.path.realpath(__file__))
NAME = re.compile(r'[^\s(){}.;,@"«»`]+')
MADE = re.compile(r"(?:^|[^\w'-])(?:c|goal|w|l|g)\.$")


def rows():
    with open(os.path.join(HERE, "spelling.tsv"), encoding="utf-8") as f:
        return dict(line.rstrip("\n").split("\t") for line in f if "\t" in line)


def code(text, table):
    """The text with each name of the table respelled, but for those that Rattle makes."""

    def turn(m):
        name = m.group()
        if name not in table or MADE.search(text[max(0, m.start() - 6) : m.start()]):
            return name
        return table[name]

    return NAME.sub(turn, text)


def prose(text, table):
    """The text with the names in its code spans respelled."""
    return re.sub(r"`[^`\n]+`", lambda m: code(m.group(), table), text)


def antt(text, table):
    lines = []
    for line in text.split("\n"):
        at = re.search(r"(?:^|\s)--(?:\s|$)", line)
        cut = at.start() if at else len(line)
        lines.append(code(line[:cut], table) + prose(line[cut:], table))
    return "\n".join(lines)


def rt(text, table):
    """Rust has no name with a dash and none in lower camel case, so those turn wherever they stand outside comments."""
    ghost = {o: n for o, n in table.items() if "-" in o or re.search(r"[a-z0-9][A-Z]", o)}
    lines = []
    for line in text.split("\n"):
        if line.lstrip().startswith("//"):
            lines.append(prose(line, ghost))
        else:
            lines.append("".join(part if part.startswith('"') else code(part, ghost) for part in re.split(r'("(?:[^"\\]|\\.)*")', line)))
    return "\n".join(lines)


def main():
    top = os.path.realpath(sys.argv[1] if len(sys.argv) > 1 else os.path.dirname(HERE))
    table = rows()
    changed = 0
    for folder, dirs, files in os.walk(top):
        dirs[:] = sorted(d for d in dirs if d not in ("out", "target", ".git", "tools"))
        for name in sorted(files):
            turn = {".antt": antt, ".rt": rt, ".md": prose}.get(os.path.splitext(name)[1])
            if turn is None:
                continue
            path = os.path.join(folder, name)
            with open(path, encoding="utf-8") as f:
                old = f.read()
            new = turn(old, table)
            if new != old:
                changed += 1
                with open(path, "w", encoding="utf-8") as f:
                    f.write(new)
    print(f"respell: {len(table)} names, {changed} files changed")


if __name__ == "__main__":
    main()
