#!/usr/bin/env python3
"""Brings the repository's own definitions and lemmas to the kit's spelling: `tools/respell.py [TOP]`.

Words are in snake case, types in camel case. Each row of respell.tsv has an old name, a tab, the new one, and where the
name is so spelled in one place alone, a tab and that file. Functions of src/, exported names, strings, inputs and outputs
keep their names, and so do the names that the kit makes. A second run changes nothing.

Whole names turn: in .antt and .rt files and in the texts of edits outside of strings and comments; in comments and in pages
between backticks, and also bare where a name has a capital within, since no word of English has.
"""

import os
import pathlib
import re
import sys

HERE = pathlib.Path(__file__).resolve().parent
WORD = re.compile(r"(?<![\w'-])[A-Za-z][\w']*(?:-[\w']+)*(?![\w'-])")
CAMEL = re.compile(r"(?<![\w'-])[a-z][a-z0-9]*[A-Z]\w*(?![\w'-])")
SPAN = re.compile(r"`[^`\n]*`")
PARTS = {
    ".antt": re.compile(r'(?P<text>"(?:[^"\\\n]|\\.)*")|(?P<comment>(?<![^\s(){}.;,])--[^\n]*)'),
    ".rt": re.compile(r"(?P<text>\"(?:[^\"\\\n]|\\.)*\")|(?P<comment>//[^\n]*)"),
    ".edit": re.compile(r"(?P<text>\"(?:[^\"\\\n]|\\.)*\")|(?P<comment>^(?:#|file:)[^\n]*)", re.M),
}


def rows():
    everywhere, only = {}, {}
    for line in (HERE / "respell.tsv").read_text().splitlines():
        old, new, *place = line.split("\t")
        if place:
            only.setdefault(place[0], {})[old] = new
        else:
            everywhere[old] = new
    return everywhere, only


def turned_words(text, names, word=WORD):
    return word.sub(lambda m: names.get(m[0], m[0]), text)


def turned_prose(text, names):
    """Names between backticks, and bare ones with a capital within."""
    text = SPAN.sub(lambda m: turned_words(m[0], names), text)
    return turned_words(text, names, CAMEL)


def turned(text, names, kind):
    parts = PARTS.get(kind)
    if parts is None:
        return turned_prose(text, names)
    made, at = [], 0
    for part in parts.finditer(text):
        made.append(turned_words(text[at : part.start()], names))
        made.append(part[0] if part["text"] else turned_prose(part[0], names))
        at = part.end()
    return "".join(made) + turned_words(text[at:], names)


def files(top):
    for folder in ("crates", "docs"):
        for place, folders, names in os.walk(top / folder):
            folders[:] = [each for each in folders if each != "out"]
            yield from (pathlib.Path(place) / name for name in sorted(names))
    yield top / "README.md"


def main():
    top = pathlib.Path(sys.argv[1] if len(sys.argv) > 1 else HERE.parent)
    everywhere, only = rows()
    changed = 0
    for path in files(top):
        if path.suffix not in (*PARTS, ".md"):
            continue
        names = everywhere | only.get(str(path.relative_to(top)), {})
        old = path.read_text()
        new = turned(old, names, path.suffix)
        if new != old:
            path.write_text(new)
            changed += 1
    print(f"respell: {changed} files")


main()
