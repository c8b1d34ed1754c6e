"""The text of a sheet: one line a record or a question, in the notation of document 01; a path has points."""

import re
from typing import NamedTuple

from sheet_bytes import (COMPATIBILITY, HEADER_MAPS, LABELLING, MOST_FEATURES, MOST_ITEMS, MOST_NUMBER,
                         MOST_VARIABLES, ORDERING, PATH, SELECTION, Item, Sheet, Statement, count_named,
                         smallest_map, write_sheet)

TOKEN = re.compile(r"[0-9]+|<=|[A-Za-z]+|\S")
SIGNS = {ORDERING: "<=", COMPATIBILITY: "~", SELECTION: "[ ]", LABELLING: "( )"}
WORDS = "variables, header or bytes"


class TextError(Exception):
    """What is wrong with a text, and where: line and column count from 1."""

    def __init__(self, line, column, what):
        super().__init__(line, column, what)
        self.line, self.column, self.what = line, column, what


class Token(NamedTuple):
    """A number, a sign or a word, and its column."""

    word: str
    column: int


class Line:
    """One line of a text, its tokens taken from left to right, and the remark behind them."""

    def __init__(self, number, text):
        code, _, remark = text.partition("#")
        self.number, self.remark = number, remark.strip()
        self.tokens = [Token(m.group(), m.start() + 1) for m in TOKEN.finditer(code)]
        self.tokens.append(Token("", len(code.rstrip()) + 1))  # the end of the line
        self.next = 0

    def fail(self, column, what):
        """Ends the reading with an error in this line."""
        raise TextError(self.number, column, what)

    def peek(self):
        """The next token, which stays."""
        return self.tokens[self.next]

    def take(self, *words):
        """The next token, which must be one of the words."""
        token = self.peek()
        if token.word not in words:
            self.fail(token.column, "expected %s" % " or ".join(w or "the end of the line" for w in words))
        self.next += 1
        return token

    def take_number(self, what):
        """The next token, which must be a number; what it is to be is told otherwise."""
        token = self.peek()
        if not is_number(token.word):
            self.fail(token.column, "expected %s, a number in base ten" % what)
        self.next += 1
        return token

    def ranged(self, token, most, what):
        """The value of a number, which must not be above the most."""
        digits = token.word.lstrip("0") or "0"
        if len(digits) > len(str(most)) or int(digits) > most:
            self.fail(token.column, "%s above %d" % (what, most))
        return int(digits)


def is_number(word):
    """Whether a token is a number: digits come in tokens of their own."""
    return word[:1] in tuple("0123456789")


class Draft:
    """What the lines of a text say, while they are read."""

    def __init__(self):
        self.sheet = Sheet("line")
        self.named = []  # each variable with its line and column
        self.map_at = None  # line and column of the header's map
        self.raw = None  # the bytes of a text of bytes
        self.written = None  # the first line that is not of bytes

    def variable(self, line, token):
        """A variable; whether it is below n is known at the end of the text."""
        value = line.ranged(token, MOST_VARIABLES - 1, "a variable")
        self.named.append((value, line, token.column))
        return value


def read_sign(line, asked):
    """What follows the first number of a statement; a point only where it is asked."""
    if line.peek().word == "." and not asked:
        line.fail(line.peek().column, "a path can only be asked, behind ?")
    return line.take("<=", "≤", "~", "[", "(", *["."] * asked).word


def read_path(line):
    """The features of a path, from behind its first point on."""
    path = []
    while True:
        token = line.take_number("a feature")
        if len(path) == MOST_FEATURES:
            line.fail(token.column, "a path of more than %d features" % MOST_FEATURES)
        path.append(line.ranged(token, MOST_NUMBER, "a feature"))
        if line.peek().word != ".":
            return tuple(path)
        line.take(".")


def read_statement(draft, line, asked=False):
    """One statement, the column where it starts, and the column of its subject; where it is asked, it may be a path."""
    first = line.take_number("a statement")
    sign = read_sign(line, asked)
    if sign == "(":
        label = line.ranged(first, MOST_NUMBER, "a label")
        token = line.take_number("a variable")
        line.take(")")
        return Statement(LABELLING, draft.variable(line, token), label, None), first.column, token.column
    subject, feature = draft.variable(line, first), None
    if sign == ".":
        return Statement(PATH, subject, None, None, read_path(line)), first.column, first.column
    if sign == "[":
        feature = line.ranged(line.take_number("a feature"), MOST_NUMBER, "a feature")
        line.take("]")
    kind = {"[": SELECTION, "~": COMPATIBILITY}.get(sign, ORDERING)
    other = draft.variable(line, line.take_number("a variable"))
    return Statement(kind, subject, feature, other), first.column, first.column


def read_record(draft, line):
    """A record: statements about one subject, at most one of each kind."""
    statements = []
    while True:
        statement, start, column = read_statement(draft, line)
        if statements and statement.subject != statements[0].subject:
            line.fail(column, "subject %d beside subject %d: a line of its own is needed" % (
                statement.subject, statements[0].subject))
        if statement.kind in [s.kind for s in statements]:
            line.fail(start, "a second statement with %s: a line of its own is needed" % SIGNS[statement.kind])
        statements.append(statement)
        if line.take(",", "").word == "":
            return Item(sorted(statements), line.number, line.remark)


def read_question(draft, line):
    """A question: one statement or path behind its sign."""
    line.take("?")
    statement, _, _ = read_statement(draft, line, True)
    if line.peek().word == ",":
        line.fail(line.peek().column, "a question asks one thing")
    line.take("")
    return Item([statement], line.number, line.remark)


def read_setting(draft, line):
    """The line that sets the variable count or the header's map."""
    word = line.take("variables", "header")
    token = line.take_number("a number of variables" if word.word == "variables" else "a map")
    line.take("")
    if word.word == "variables":
        if draft.sheet.variables is not None:
            line.fail(word.column, "the variable count is set twice")
        draft.sheet.variables = line.ranged(token, MOST_VARIABLES, "a variable count")
        if draft.sheet.variables == 0:
            line.fail(token.column, "a sheet has 1 to 128 variables")
    else:
        if draft.sheet.map is not None:
            line.fail(word.column, "the header's map is set twice")
        if token.word not in [str(m) for m in HEADER_MAPS]:
            line.fail(token.column, "the map of a header is 1, 3, 5 or 7")
        draft.sheet.map, draft.map_at = int(token.word), (line, token.column)


def read_raw(draft, line):
    """A line of bytes as they are."""
    word = line.take("bytes")
    if draft.written:
        line.fail(word.column, "bytes beside line %d: a text has either bytes or statements" % draft.written)
    draft.raw = draft.raw if draft.raw is not None else bytearray()
    while line.peek().word != "":
        draft.raw.append(line.ranged(line.take_number("a byte"), 255, "a byte"))


def read_line(draft, line):
    """One line, whatever it is."""
    first = line.peek()
    if first.word == "":
        return
    if first.word == "bytes":
        return read_raw(draft, line)
    if draft.raw is not None:
        line.fail(first.column, "a text has either bytes or statements, and this one has bytes")
    draft.written = draft.written or line.number
    if first.word == "?":
        add_item(line, first, draft.sheet.questions, read_question(draft, line), "questions")
    elif is_number(first.word):
        add_item(line, first, draft.sheet.records, read_record(draft, line), "records")
    elif first.word in ("variables", "header"):
        read_setting(draft, line)
    else:
        line.fail(first.column, "expected a statement, ? or one of the words %s" % WORDS)


def add_item(line, first, items, item, what):
    """One record or question more, where there is room."""
    if len(items) == MOST_ITEMS:
        line.fail(first.column, "more than %d %s" % (MOST_ITEMS, what))
    items.append(item)


def finish(draft):
    """What is known at the end of the text: the variable count and the header's map."""
    sheet = draft.sheet
    if sheet.variables is None:
        sheet.variables = count_named(sheet)
    for value, line, column in draft.named:
        if value >= sheet.variables:
            line.fail(column, "a variable that is not below %d" % sheet.variables)
    least = smallest_map(sheet)
    if sheet.map is None:
        sheet.map = least
    elif least & ~sheet.map:
        line, column = draft.map_at
        what = "record" if least & ~sheet.map & 2 else "question"
        line.fail(column, "header %d has no %s count, and the text has a %s" % (sheet.map, what, what))


def read_text(text):
    """The sheet that a text says, or None for a text of bytes; and its bytes."""
    draft = Draft()
    for number, line in enumerate(text.split("\n"), 1):
        read_line(draft, Line(number, line))
    if draft.raw is not None:
        return None, bytes(draft.raw)
    finish(draft)
    return draft.sheet, write_sheet(draft.sheet)


def decode(data):
    """The text in some bytes, which must be UTF-8."""
    try:
        return data.decode("utf-8")
    except UnicodeDecodeError as error:
        before = data[:error.start]
        start = before.rfind(b"\n") + 1
        raise TextError(before.count(b"\n") + 1, len(before[start:].decode("utf-8")) + 1,
                        "this is no text in UTF-8; a sheet's own bytes are read with `read`, or with --sheet")


def statement_text(s):
    """A statement in the notation of document 01, or a path: the variable and the features, with points between."""
    if s.kind == PATH:
        return ".".join(str(number) for number in (s.subject,) + s.path)
    if s.kind == LABELLING:
        return "%d(%d)" % (s.number, s.subject)
    if s.kind == SELECTION:
        return "%d[%d]%d" % (s.subject, s.number, s.other)
    return "%d %s %d" % (s.subject, SIGNS[s.kind], s.other)


def item_text(item):
    """A record's line."""
    return ", ".join(statement_text(s) for s in item.statements)


def question_text(item):
    """A question's line."""
    return "? " + item_text(item)


def item_lines(sheet):
    """Records and questions as lines, each with its number and place in a comment."""
    lines = [(item_text(item), "record %d, %s %d" % (k, sheet.places, item.place))
             for k, item in enumerate(sheet.records)]
    lines += [(question_text(item), "question %d, %s %d" % (k, sheet.places, item.place))
              for k, item in enumerate(sheet.questions)]
    width = max((len(line) for line, _ in lines), default=0)
    return ["%-*s  # %s" % (width, line, note) for line, note in lines]


def write_text(sheet):
    """The text of a sheet; what it leaves unsaid is as `read_text` takes it."""
    lines = []
    if sheet.map != smallest_map(sheet):
        lines.append("header %d" % sheet.map)
    if sheet.variables != count_named(sheet):
        lines.append("variables %d" % sheet.variables)
    return "".join(line + "\n" for line in lines + item_lines(sheet))
