"""What follows from a sheet: facts by F1 to F4, the clash by F5, labels, support, paths, replies; what is printed."""

from sheet_bytes import COMPATIBILITY, LABELLING, ORDERING, PATH, SELECTION


def members(row):
    """The variables in a row of facts, which is a set of bits."""
    while row:
        lowest = row & -row
        yield lowest.bit_length() - 1
        row -= lowest


def stated_labels(n, statements):
    """The labels stated for each variable."""
    labels = [[] for _ in range(n)]
    for s in statements:
        if s.kind == LABELLING:
            labels[s.subject].append(s.number)
    return labels


class Facts:
    """The derived facts: bit j of le[i] stands for i <= j, bit j of alike[i] for i ~ j."""

    def __init__(self, n, statements):
        self.n, self.statements = n, list(statements)
        self.le = [1 << i for i in range(n)]  # F1.1
        self.alike = [1 << i for i in range(n)]  # F3.1
        self.selections = {}  # of each feature, subjects and children
        for s in self.statements:
            if s.kind == ORDERING:
                self.le[s.subject] |= 1 << s.other
            if s.kind == COMPATIBILITY:
                self.alike[s.subject] |= 1 << s.other
            if s.kind == SELECTION:
                self.selections.setdefault(s.number, set()).add((s.subject, s.other))
        before = None
        while before != (self.le, self.alike):
            before = list(self.le), list(self.alike)
            self.round()

    def round(self):
        """Every rule once, over all variables."""
        for i in range(self.n):
            for j in members(self.le[i]):
                self.le[i] |= self.le[j]  # F1.2
                self.alike[i] |= self.alike[j]  # F3.2
        for i in range(self.n):
            for j in members(self.alike[i]):
                self.alike[j] |= 1 << i  # F3.3
        self.descend(self.le)  # F2
        self.descend(self.alike)  # F4

    def descend(self, rows):
        """From a fact of two variables to the same fact of their children under one feature."""
        for pairs in self.selections.values():
            for subject, child in pairs:
                for subject2, child2 in pairs:
                    if rows[subject] >> subject2 & 1:
                        rows[child] |= 1 << child2

    def less(self, i, j):
        """Whether i <= j is derived."""
        return bool(self.le[i] >> j & 1)

    def agree(self, i, j):
        """Whether i ~ j is derived."""
        return bool(self.alike[i] >> j & 1)

    def clash(self):
        """F5: the least pair with different labels, or None."""
        labels = stated_labels(self.n, self.statements)
        for i in range(self.n):
            for j in members(self.alike[i]):
                if any(a != b for a in labels[i] for b in labels[j]):
                    return i, j
        return None

    def counts(self):
        """How many facts <= and how many facts ~."""
        return tuple(sum(bin(row).count("1") for row in rows) for rows in (self.le, self.alike))

    def below(self, variables):
        """All variables that are below one of these."""
        return {k for k in range(self.n) for i in variables if self.less(k, i)}

    def at_path(self, subject, path):
        """The variables that a path leads to: from all below the subject, by each feature to all below the children."""
        reached = self.below({subject})
        for feature in path:
            reached = self.below({child for k, child in self.selections.get(feature, ()) if k in reached})
        return reached

    def supports(self, q):
        """Whether a question is supported."""
        if q.kind == PATH:
            return bool(self.at_path(q.subject, q.path))
        if q.kind == ORDERING:
            return self.less(q.subject, q.other)
        if q.kind == COMPATIBILITY:
            return self.agree(q.subject, q.other)
        if q.kind == LABELLING:
            return any(s.kind == LABELLING and s.number == q.number and self.less(s.subject, q.subject)
                       for s in self.statements)
        pairs = self.selections.get(q.number, ())
        return (any(self.less(k, q.subject) and self.less(q.other, m) for k, m in pairs)
                and any(self.less(q.subject, k) and self.less(m, q.other) for k, m in pairs))


def reply(facts, question):
    """always, never or open; never is not replied of a path."""
    if facts.supports(question):
        return "always"
    if question.kind == PATH:
        return "open"
    return "never" if Facts(facts.n, facts.statements + [question]).clash() else "open"


def root_labels(facts):
    """Of each variable of a consistent sheet the label that its root always has, one stated below it; or None."""
    labels = [None] * facts.n
    for s in facts.statements:
        if s.kind == LABELLING:
            for i in members(facts.le[s.subject]):
                labels[i] = s.number
    return labels


def outcome(sheet):
    """The lines that the checking program prints of an accepted sheet."""
    facts = Facts(sheet.variables, sheet.statements())
    if facts.clash():
        return "clash %d %d\n" % facts.clash()
    lines = ["consistent %d %d %d" % ((sheet.variables,) + facts.counts())]
    lines += ["var %d %s" % (i, "-" if label is None else label) for i, label in enumerate(root_labels(facts))]
    lines += ["ask %d %s" % (q, reply(facts, item.statements[0])) for q, item in enumerate(sheet.questions)]
    return "".join(line + "\n" for line in lines)
