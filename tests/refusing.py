"""Where must-fail edits are refused: what `rt` says of each, held against the place that the edit names.

    # fails at FILE, FACT: TEXT

FILE, below the crate, has the first error that is told; FACT is the goal or the theorem that is said not to be shown;
TEXT stands in the error's line of the edited file, or in the line of the function that begins there. In src/, where
functions share names of goals, TEXT is wanted too. `rt` tells only the beginning of an error: of a long line the name of a
fact may be cut off, and where none of it is told an edit names none.
"""

import re
from typing import NamedTuple, Optional

import planting

TOLD = re.compile(r"^rt: must-fail (\S+?)/(\S+?\.edit): (.*(?:\n(?!rt: |\d+ passed).*)*)", re.M)
NO_EDIT = re.compile(r"^rt: (\S+: BAD EDIT: .*)", re.M)
NAMED = re.compile(r"^# fails at (\S+?)(?:, (\S+?))?(?:: (.+?))?$", re.M)
REFUSED = "refused, as it must be: "
ERROR = re.compile(r"(note: |)(?:\./)?(\S+?):(\d+):\d+: (error: |)(.*)", re.S)
FACT_OF_ERROR = re.compile(r"`([^`]+)(`?)")
FACT_OF_NOTE = re.compile(r"\(`([^`]+)(`?)")
TOLD_AT_MOST = 160


class Place(NamedTuple):
    """Where an edit fails: a file, the fact that is not shown, if it has a name, and the text of a line."""

    file: str
    fact: Optional[str]
    text: Optional[str]

    def __str__(self):
        fact = f", {self.fact}" if self.fact else ""
        text = f": {self.text}" if self.text else ""
        return f"# fails at {self.file}{fact}{text}"


def named(edit):
    """The place that an edit names: exactly one, and enough of it."""
    found = NAMED.findall(edit.read_text())
    if len(found) != 1:
        raise ValueError(f"{len(found)} lines '# fails at FILE, FACT: TEXT', not one")
    file, fact, text = found[0]
    if not (fact or text):
        raise ValueError("it names neither a fact nor the text of a line")
    if file.startswith("src/") and not text:
        raise ValueError("it names a place in src/ without the text of its line")
    return Place(file, fact or None, text or None)


def line_at(text, number):
    """The line of that number, or where an attribute stands there the line of the function below it."""
    lines = text.splitlines()[number - 1:] or [""]
    if lines[0].lstrip().startswith("#["):
        lines = [line for line in lines if re.search(r"\bfn ", line)] or lines
    return lines[0].strip()


def edited(edit, folder, file):
    """The text of a crate's file with the edit made."""
    texts = planting.planted(edit, folder)
    path = folder / file
    return texts[path] if path in texts else path.read_text()


def failed(edit, folder, said):
    """The place of the first error that is told of an edit, and whether the fact's name is cut off."""
    first = said[len(REFUSED):]
    found = ERROR.match(first)
    # what is neither is advice on a proof, and then no error has a place
    if not said.startswith(REFUSED) or not found or not (found[1] or found[4]):
        raise ValueError(said)
    note, file, line, _, message = found.groups()
    fact = FACT_OF_NOTE.search(message) if note else FACT_OF_ERROR.match(message)
    is_cut = bool(fact) and not fact[2] and len(first) >= TOLD_AT_MOST
    return Place(file, fact[1] if fact else None, line_at(edited(edit, folder, file), int(line))), is_cut


def stands(text, line):
    """Whether a text stands in a line, and not within a longer word."""
    before = r"(?<!\w)" if re.match(r"\w", text) else ""
    behind = r"(?!\w)" if re.search(r"\w$", text) else ""
    return re.search(before + re.escape(text) + behind, line) is not None


def agree(place, found, is_cut):
    """Whether an edit failed where it says: of a name that is cut off what is told is the beginning of the fact's."""
    same = place.fact == found.fact or is_cut and (place.fact or "").startswith(found.fact)
    return place.file == found.file and same and (not place.text or stands(place.text, found.text))


def fault(edit, folder, said):
    """What is wrong with an edit of which that is said, or None."""
    try:
        found, is_cut = failed(edit, folder, said)
    except (OSError, ValueError) as error:
        return str(error)
    try:
        place = named(edit)
    except ValueError as error:
        return f"{error}\n    it failed at {found}"
    if agree(place, found, is_cut):
        return None
    return f"it failed elsewhere than it says\n    named  {place}\n    failed {found}"


def faults(edits, log):
    """What is wrong with these edits, and what is none, by what a run of `rt` said; it has to tell of each edit."""
    yield from NO_EDIT.findall(log)
    said = {(crate, name): text for crate, name, text in TOLD.findall(log)}
    for edit in edits:
        folder = edit.parent.parent
        wrong = fault(edit, folder, said.get((folder.name, edit.name), "nothing was told of it"))
        if wrong:
            yield f"{folder.name}/{edit.name}: {wrong}"
