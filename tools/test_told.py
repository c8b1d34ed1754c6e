"""What is told of a label or a path, read again and held against the rules, which are applied to sets of pairs."""

import re

from sheet_bytes import LABELLING, ORDERING, SELECTION
from sheet_text import statement_text

PLACE = r" at (?:line|offset) \d+"
ORDER, SELECTED = r"(\d+) <= (\d+)", r"(\d+)\[(\d+)\](\d+)"
LABEL = re.compile(r"(\d+)\((\d+)\)" + PLACE)
STATED = re.compile(ORDER + PLACE)
GIVEN = re.compile("%s by %s%s and %s%s(?: as %s(%s| follows))?" % (
    ORDER, SELECTED, PLACE, SELECTED, PLACE, ORDER, PLACE))
PLACED = re.compile(r"(\d+ <= \d+|\d+\[\d+\]\d+|\d+\(\d+\)) at (line|offset) (\d+)")

SELECTING = re.compile(SELECTED + PLACE)

REASONS = {"stated for itself": r"^[^,]*$", "through others": r",.*,",
           "F2 from one subject": r" and \S+ at \w+ \d+(,|$)", "F2 from what is stated": r" as \d+ <= \d+ at ",
           "F2 from what follows": r" follows"}
WAYS = {"a path of one feature": r"^\? \d+\.\d+ by ", "a path of eight": r"^\? \d+(\.\d+){8} by ",
        "a path along children alone": r"^\? \d+(\.\d+){2,} by (\S+ at \w+ \d+(, |$))+$",
        "a path along what is stated": r"\] ?\d+ at \w+ \d+, \d+ <= \d+ at ",
        "a path along what F2 gives": r"\]\d+ at \w+ \d+, \d+ <= \d+ by ",
        "a path through others": r"\]\d+ at \w+ \d+, \d+ <= [^\[]+, \d+ <= ", "a path that is open": r"^\? [\d.]+$"}


def reasons(text, patterns):
    """The kinds of reason that a text has."""
    return [name for name, pattern in patterns.items() if re.search(pattern, text)]


def closed(pairs):
    """The pairs with all that follow by F1.2."""
    more = pairs | {(i, m) for i, j in pairs for k, m in pairs if j == k}
    return pairs if more == pairs else closed(more)


class Order:
    """The orderings of a sheet, each with the round in which it comes, and the steps among them."""

    def __init__(self, sheet):
        statements = sheet.statements()
        self.labels = {(s.number, s.subject) for s in statements if s.kind == LABELLING}
        self.stated = {(s.subject, s.other) for s in statements if s.kind == ORDERING}
        self.selections = {(s.subject, s.number, s.other) for s in statements if s.kind == SELECTION}
        self.places = {(statement_text(s), sheet.places, str(record.place))
                       for k, record in enumerate(sheet.records) for s in record.statements
                       if not any(s in earlier.statements for earlier in sheet.records[:k])}
        self.steps = set(self.stated)
        self.rounds = dict.fromkeys(self.stated | {(i, i) for i in range(sheet.variables)}, 0)
        self.add_rounds()

    def add_rounds(self):
        """What F2 gives of all orderings before, then F1.2, until nothing is new."""
        before = set()
        while before != set(self.rounds):
            before = set(self.rounds)
            given = {(c, d) for i, f, c in self.selections for j, g, d in self.selections
                     if f == g and (i, j) in before}
            self.steps |= given - before
            after = closed(before | given)
            self.rounds.update(dict.fromkeys(after - before, 1 + max(self.rounds.values())))

    def chain(self, label, end):
        """A shortest chain up to a variable from one with the label, each variable the least that will do; or none."""
        chains, seen = {end: [end]}, {end}
        while chains and not any((label, i) in self.labels for i in chains):
            longer = sorted([i] + chains[j] for i, j in self.steps if j in chains and i not in seen)
            chains = {chain[0]: chain for chain in reversed(longer)}
            seen |= set(chains)
        return min((chain for i, chain in chains.items() if (label, i) in self.labels), default=[])

    def told_step(self, text):
        """The two variables of a step that is told; none where it is no step, or not for the reason that is told."""
        stated, given = STATED.fullmatch(text), GIVEN.fullmatch(text)
        if stated:
            pair = tuple(int(number) for number in stated.groups())
            return pair if pair in self.stated else None
        if not given:
            return None
        c, d, i, f, c2, j, g, d2 = (int(number) for number in given.groups()[:8])
        selected = {(i, f, c), (j, f, d)} <= self.selections and (f, c, d) == (g, c2, d2)
        earlier = (i, j) in self.rounds and self.rounds[i, j] < self.rounds.get((c, d), 0)
        return (c, d) if selected and earlier and self.told_subjects(i, j, *given.groups()[8:]) else None

    def told_subjects(self, i, j, one, two, why):
        """Whether it is told right why two subjects are ordered: where that is stated, or that it follows."""
        if i == j or one is None:
            return i == j and one is None
        return (int(one), int(two)) == (i, j) and (why == " follows") == ((i, j) not in self.stated)

    def told_chain(self, text):
        """The label and the variables of a chain that is told; none where something in it is wrong."""
        first, *steps = text.partition("    #")[0].rstrip().split(", ")
        label, pairs = LABEL.fullmatch(first), [self.told_step(step) for step in steps]
        if not label or None in pairs or not set(PLACED.findall(text)) <= self.places:
            return None, []
        chain = [int(label.group(2))] + [j for _, j in pairs]
        fits = pairs == list(zip(chain, chain[1:]))
        return (int(label.group(1)), chain) if fits else (None, [])

    def moves(self, k, i, path):
        """Where a path can go from a variable: the move, to a child before what is below, and the place reached."""
        yield from (((0, c), (k + 1, c)) for j, f, c in self.selections if (j, f) == (i, path[k]))
        yield from (((1, j), (k, j)) for j, above in self.steps if above == i)

    def way(self, subject, path):
        """The moves of a shortest way along a path, each the first that will do; or none."""
        ways, seen = {(0, subject): []}, {(0, subject)}
        while ways and not any(k == len(path) for k, _ in ways):
            longer = sorted((way + [move], place) for (k, i), way in ways.items()
                            for move, place in self.moves(k, i, path) if place not in seen)
            ways = {place: way for way, place in reversed(longer)}
            seen |= set(ways)
        return min((way for (k, _), way in ways.items() if k == len(path)), default=[])

    def told_leg(self, at, feature, parts):
        """The moves of one feature from a variable on: the orderings down, then the child; or None."""
        selected, pairs = SELECTING.fullmatch(parts[0]), [self.told_step(step) for step in parts[1:]]
        if not selected or None in pairs:
            return None
        i, f, c = (int(number) for number in selected.groups())
        chain = [i] + [j for _, j in pairs]
        fits = pairs == list(zip(chain, chain[1:])) and chain[-1] == at and f == feature
        return [(1, j) for j in chain[-2::-1]] + [(0, c)] if fits and (i, f, c) in self.selections else None

    def told_way(self, subject, path, text):
        """The moves of a way that is told; or None where something in it is wrong."""
        parts, moves, at = text.split(", ") if text else [], [], subject
        starts = [k for k, part in enumerate(parts) if SELECTING.fullmatch(part)] + [len(parts)]
        if starts[0] != 0 or len(starts) - 1 not in (0, len(path)) or not set(PLACED.findall(text)) <= self.places:
            return None
        for feature, start, end in zip(path, starts, starts[1:]):
            leg = self.told_leg(at, feature, parts[start:end])
            if leg is None:
                return None
            moves, at = moves + leg, leg[-1][1]
        return moves
