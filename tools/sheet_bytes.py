"""The bytes of a sheet: what it states and asks, how that is laid out, and why a sheet is refused."""

from typing import List, NamedTuple, Optional, Tuple

ORDERING, COMPATIBILITY, SELECTION, LABELLING = 1, 2, 4, 8  # the bits of a record's map
KINDS = (ORDERING, COMPATIBILITY, SELECTION, LABELLING)
PATH = 16  # the bit that only a question has
ASKED = KINDS + (PATH,)
OTHER = {ORDERING: "target", COMPATIBILITY: "partner", SELECTION: "child"}
HEADER_MAPS = (1, 3, 5, 7)
MOST_VARIABLES, MOST_ITEMS, MOST_NUMBER, MOST_FEATURES = 128, 1024, 65535, 8
FAULTS = {1: "Cut", 2: "HeaderMap", 3: "VariableCount", 4: "Count", 5: "ItemMap", 6: "VariableRange", 7: "Trailing",
          10: "PathLength"}


class Statement(NamedTuple):
    """i <= j, i ~ j, i[f]j or a(i); or the path i.f.g, which can only be asked."""

    kind: int
    subject: int
    number: Optional[int]  # the feature of a selection, the label of a labelling
    other: Optional[int]  # target, partner or child
    path: Tuple[int, ...] = ()  # the features of a path


class Item(NamedTuple):
    """A record with its statements by rising bit, or a question with one; where it stands, and the remark there."""

    statements: List[Statement]
    place: int
    remark: str = ""


class Refusal(Exception):
    """Why a sheet is refused: number and offset of document 01, and a sentence."""

    def __init__(self, number, offset, reason):
        super().__init__(number, offset, reason)
        self.number, self.offset, self.reason = number, offset, reason


class Sheet:
    """A sheet, or as much of a refused one as was read: what is still None or missing was not reached."""

    def __init__(self, places):
        self.places = places  # what the place of an item counts: "line" or "offset"
        self.map = self.variables = self.record_count = self.question_count = None
        self.records, self.questions = [], []

    def statements(self):
        """All that the records state, in their order."""
        return [statement for record in self.records for statement in record.statements]

    def labels(self, variable):
        """The labellings stated for a variable."""
        return [s for s in self.statements() if s.kind == LABELLING and s.subject == variable]


def variables_of(statement):
    """The variables that a statement names."""
    return [v for v in (statement.subject, statement.other) if v is not None]


def count_named(sheet):
    """One more than the highest variable named, at least 1."""
    named = [v for item in sheet.records + sheet.questions for s in item.statements for v in variables_of(s)]
    return max(named, default=0) + 1


def smallest_map(sheet):
    """The map of the smallest header that has room for the sheet's records and questions."""
    return 1 + 2 * bool(sheet.records) + 4 * bool(sheet.questions)


def item_bytes(item):
    """A record or a question: map, subject, and by rising bit the fields of its statements."""
    out = bytearray([sum(s.kind for s in item.statements), item.statements[0].subject])
    for s in item.statements:
        if s.number is not None:
            out += s.number.to_bytes(2, "big")
        if s.other is not None:
            out.append(s.other)
        if s.path:
            out += path_bytes(s.path)
    return bytes(out)


def path_bytes(path):
    """How many features a path has, and they themselves."""
    return bytes([len(path)]) + b"".join(feature.to_bytes(2, "big") for feature in path)


def write_sheet(sheet):
    """The bytes of a sheet."""
    out = bytearray([sheet.map, sheet.variables])
    if sheet.map & 2:
        out += len(sheet.records).to_bytes(2, "big")
    if sheet.map & 4:
        out += len(sheet.questions).to_bytes(2, "big")
    for item in sheet.records + sheet.questions:
        out += item_bytes(item)
    return bytes(out)


class Reader:
    """A reading in progress: the bytes and the next offset."""

    def __init__(self, data):
        self.data, self.offset = data, 0

    def field(self, name, width=1, number=None, fits=None, wrong=""):
        """The next field: looked for whole (else 1), then judged (else the number given)."""
        start, end = self.offset, self.offset + width
        if end > len(self.data):
            due = "before %s" if start == len(self.data) else "inside %s"
            raise Refusal(1, len(self.data), "the sheet ends " + due % name)
        value = int.from_bytes(self.data[start:end], "big")
        if fits is not None and not fits(value):
            raise Refusal(number, start, "%s is %d, %s" % (name, value, wrong))
        self.offset = end
        return value

    def variable(self, name, n):
        """A variable field."""
        return self.field(name, 1, 6, lambda v: v < n, "a variable that is not below %d" % n)


def read_header(reader, sheet):
    """The header, field by field."""
    sheet.map = reader.field("the header map", 1, 2, lambda v: v in HEADER_MAPS, "and only 1, 3, 5 and 7 are one")
    sheet.variables = reader.field("the variable count", 1, 3, lambda v: 1 <= v <= MOST_VARIABLES,
                                   "and a sheet has 1 to 128 variables")
    few = (4, lambda v: v <= MOST_ITEMS, "and 1024 is the most")
    sheet.record_count = reader.field("the record count", 2, *few) if sheet.map & 2 else 0
    sheet.question_count = reader.field("the question count", 2, *few) if sheet.map & 4 else 0


def read_item(reader, n, name, fits, wrong):
    """One record or question."""
    start = reader.offset
    bits = reader.field("the map of " + name, 1, 5, fits, wrong)
    subject = reader.variable("the subject of " + name, n)
    statements = []
    for kind in KINDS:
        if bits & kind:
            number = other = None
            if kind == SELECTION:
                number = reader.field("the feature of " + name, 2)
            if kind == LABELLING:
                number = reader.field("the label of " + name, 2)
            else:
                other = reader.variable("the %s of %s" % (OTHER[kind], name), n)
            statements.append(Statement(kind, subject, number, other))
    if bits & PATH:
        statements.append(Statement(PATH, subject, None, None, read_path(reader, name)))
    return Item(statements, start)


def read_path(reader, name):
    """The features of a path, behind their count."""
    count = reader.field("the number of features of " + name, 1, 10, lambda v: 1 <= v <= MOST_FEATURES,
                         "and a path has 1 to %d" % MOST_FEATURES)
    return tuple(reader.field("feature %d of %s" % (k, name), 2) for k in range(1, count + 1))


def read_all(reader, sheet):
    """Header, records and questions, and nothing behind them."""
    read_header(reader, sheet)
    for r in range(sheet.record_count):
        sheet.records.append(read_item(reader, sheet.variables, "record %d" % r, lambda v: 1 <= v <= 15,
                                       "and a record has a map of 1 to 15"))
    for q in range(sheet.question_count):
        sheet.questions.append(read_item(reader, sheet.variables, "question %d" % q, lambda v: v in ASKED,
                                         "and a question has a map of 1, 2, 4, 8 or 16"))
    rest = len(reader.data) - reader.offset
    if rest:
        raise Refusal(7, reader.offset, "the sheet ends before this byte; behind its end stand %d" % rest)


def read_sheet(data):
    """The sheet, as far as it can be read, and the refusal or None."""
    sheet = Sheet("offset")
    try:
        read_all(Reader(data), sheet)
    except Refusal as refusal:
        return sheet, refusal
    return sheet, None
