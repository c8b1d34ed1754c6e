"""Why an ordering or a path follows: a chain of steps, each stated, or given by F2 of an ordering known before."""

from functools import cached_property

from sheet_bytes import LABELLING, ORDERING, SELECTION, Statement
from sheet_order import members


def lowest(row):
    """The least variable in a row."""
    return next(members(row))


class Steps:
    """The steps i <= j: bit j of up[i] and bit i of down[j] stand for one.

    They come in rounds, so that none rests on itself. Round 0 has what is stated, and i <= i by F1.1. Each round then
    adds as steps what F2 gives of all that was there and is new, and what follows by F1.2.
    """

    def __init__(self, n, statements):
        self.above = [1 << i for i in range(n)]  # bit j of above[i] stands for a derived i <= j
        self.below = [1 << i for i in range(n)]  # and bit i of below[j]
        self.up, self.down = [0] * n, [0] * n
        self.selections = {}  # of a step that F2 gives, the two selections
        self.children = [{} for _ in range(n)]  # of each variable a row of children by feature
        for s in statements:
            if s.kind == ORDERING:
                self.link(s.subject, s.other)
            if s.kind == SELECTION:
                self.children[s.subject][s.number] = self.children[s.subject].get(s.number, 0) | 1 << s.other
        given = [(i, j) for i in range(n) for j in members(self.up[i])]
        fresh = given + [(i, i) for i in range(n)]
        while fresh:
            given += self.descend(sorted(fresh))
            fresh = [pair for i, j in given for pair in self.insert(i, j)]
            given = []

    def link(self, i, j):
        """One step more."""
        self.up[i] |= 1 << j
        self.down[j] |= 1 << i

    def descend(self, pairs):
        """The steps that F2 gives of some orderings and that are new."""
        for i, j in pairs:
            for f, children in self.children[i].items():
                for c in members(children if f in self.children[j] else 0):
                    for d in members(self.children[j][f] & ~(self.above[c] | self.up[c])):
                        self.selections[c, d] = Statement(SELECTION, i, f, c), Statement(SELECTION, j, f, d)
                        self.link(c, d)
                        yield c, d

    def insert(self, i, j):
        """The orderings that F1.2 makes of i <= j and those before, itself among them, where they are new."""
        if self.above[i] >> j & 1:
            return
        for k in members(self.below[i]):
            fresh = self.above[j] & ~self.above[k]
            self.above[k] |= fresh
            for m in members(fresh):
                self.below[m] |= 1 << k
                yield k, m

    def chain(self, starts, end):
        """The variables of a shortest chain from one of a row up to the end, each the least that will do; or none."""
        levels, seen, reached = [], 0, 1 << end
        while reached and not reached & starts:
            levels.append(reached)
            seen |= reached
            reached = 0
            for j in members(levels[-1]):
                reached |= self.down[j] & ~seen
        chain = [lowest(reached & starts)] if reached else []
        while chain and levels:
            chain.append(lowest(levels.pop() & self.up[chain[-1]]))
        return chain

    def moves(self, variable, feature):
        """Where a path can go from a variable: by the feature to its children, else down a step; the least first."""
        yield from ((1, child) for child in members(self.children[variable].get(feature, 0)))
        yield from ((0, below) for below in members(self.down[variable]))

    def way(self, subject, path):
        """A shortest way along a path: each place, how many features are behind it and the variable; or none.

        Places are looked at in the order in which they are met: of several ways it is the one whose moves come first.
        """
        before, met = {(0, subject): None}, [(0, subject)]
        for place in met:
            k, variable = place
            if k == len(path):
                return trace(before, place)
            for passed, reached in self.moves(variable, path[k]):
                if (k + passed, reached) not in before:
                    before[k + passed, reached] = place
                    met.append((k + passed, reached))
        return []


def trace(before, place):
    """The places up to one, each named with the one before it."""
    way = []
    while place is not None:
        way.append(place)
        place = before[place]
    return way[::-1]


def labelling(label, variable):
    """The statement of a label."""
    return Statement(LABELLING, variable, label, None)


class Source:
    """Where the labels and paths of a sheet come from; nothing is derived before it is needed."""

    def __init__(self, sheet):
        self.sheet, self.records = sheet, {}  # of each statement the first record that makes it
        for record in sheet.records:
            for s in record.statements:
                self.records.setdefault(s, record)

    @cached_property
    def steps(self):
        """The steps of the sheet."""
        return Steps(self.sheet.variables, self.records)

    def chain(self, label, variable):
        """The variables of a chain from one for which the label is stated up to the given one; or none."""
        if labelling(label, variable) in self.records:
            return [variable]
        n = self.sheet.variables
        starts = sum(1 << k for k in range(n) if labelling(label, k) in self.records)
        return self.steps.chain(starts, variable) if starts and variable < n else []

    def legs(self, subject, path):
        """Of each feature a selection, and the variables from its subject up to where the path has come; or none."""
        way = self.steps.way(subject, path)
        reached = [[variable for passed, variable in way if passed == k] for k in range(len(path) + 1)]
        return [(Statement(SELECTION, one[-1], feature, two[0]), one[::-1])
                for feature, one, two in zip(path, reached, reached[1:]) if way]
