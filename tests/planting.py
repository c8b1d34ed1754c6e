"""Edits as texts: a `file:` line holds for the pairs of `old:` and `new:` after it; each old text stands once."""

WORDS = ("file", "old", "new", "family")


def fields(edit):
    """The lines of an edit that say something, each as a word and what follows it."""
    for line in edit.read_text().splitlines():
        word, _, rest = line.partition(":")
        if word in WORDS:
            yield word, rest[1:]


def family(edit):
    """The family of sheets that an edit is said to be found by, if it names one."""
    return dict(fields(edit)).get("family")


def planted(edit, folder):
    """The texts of the files that an edit changes in a folder, edited, by their paths."""
    texts, path, old = {}, None, None
    for word, rest in fields(edit):
        if word == "file":
            path = folder / rest
        elif word == "old":
            old = rest
        elif word == "new":
            text = texts[path] if path in texts else path.read_text()
            if text.count(old) != 1:
                raise ValueError(f"{edit.name}: the old text stands {text.count(old)} times in {path.name}")
            texts[path] = text.replace(old, rest)
    return texts


def plant(edit, folder):
    """Makes the replacements of an edit in a folder: what stood in each file before. Fails with nothing replaced."""
    texts = planted(edit, folder)
    before = {path: path.read_text() for path in texts}
    for path, text in texts.items():
        path.write_text(text)
    return before
