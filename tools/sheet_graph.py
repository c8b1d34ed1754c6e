"""Drawings of a sheet for Graphviz: what is stated, or the derived order."""

from sheet_bytes import COMPATIBILITY, ORDERING, SELECTION
from sheet_order import Facts, members, stated_labels

OPENING = """digraph sheet {
    rankdir = BT;
    node [shape = box, style = rounded, fontname = "Helvetica"];
    edge [fontname = "Helvetica", fontsize = 11];
"""
DERIVED = "seagreen"  # what is not stated but follows
AGREEING = "dir = none, style = dashed, constraint = false"
SELECTING = "color = blue, fontcolor = blue"


def node(number, title, labels):
    """One node: the variables that it stands for, and the labels stated for them."""
    lines = [title] + ["label %d" % label for label in sorted(set(labels))]
    return '    v%d [label = "%s"];' % (number, "\\n".join(lines))


def arrow(i, j, style=""):
    """An arrow of the order, from the smaller one up."""
    return "    v%d -> v%d%s;" % (i, j, " [%s]" % style if style else "")


def agreeing(i, j, style=""):
    """A dashed line."""
    return arrow(i, j, AGREEING + (", " + style if style else ""))


def selecting(i, feature, j):
    """An arrow down to a child, labelled by the feature."""
    return arrow(j, i, 'dir = back, label = "%d", %s' % (feature, SELECTING))


def once(lines):
    """The lines without repetition, in their order."""
    return list(dict.fromkeys(lines))


def stated_line(s):
    """The line of one statement; a label stands in its node."""
    if s.kind == ORDERING:
        return [arrow(s.subject, s.other)]
    if s.kind == COMPATIBILITY:
        return [agreeing(s.subject, s.other)]
    if s.kind == SELECTION:
        return [selecting(s.subject, s.number, s.other)]
    return []


def draw_stated(sheet):
    """What the records state, and no more."""
    labels = stated_labels(sheet.variables, sheet.statements())
    lines = [node(i, str(i), labels[i]) for i in range(sheet.variables)]
    lines += [line for s in sheet.statements() for line in stated_line(s)]
    return OPENING + "".join(line + "\n" for line in once(lines)) + "}\n"


class Order:
    """The derived order, with equal variables taken together: each class is known by its least variable."""

    def __init__(self, facts):
        self.facts = facts
        self.name = [min(j for j in members(facts.le[i]) if facts.less(j, i)) for i in range(facts.n)]
        self.classes = sorted(set(self.name))
        firsts = sum(1 << c for c in self.classes)
        self.above = {c: facts.le[c] & firsts & ~(1 << c) for c in self.classes}  # strictly
        self.alike = {c: facts.alike[c] & firsts for c in self.classes}

    def covers(self):
        """The pairs of the order with nothing between them: the others follow by F1."""
        for c in self.classes:
            between = 0
            for d in members(self.above[c]):
                between |= self.above[d]
            for d in members(self.above[c] & ~between):
                yield c, d

    def agreements(self):
        """The greatest pairs of ~: all others follow from these and the order by F3."""
        for c in self.classes:
            for d in members(self.alike[c]):
                if c < d and not self.above[c] & self.alike[d] and not self.above[d] & self.alike[c]:
                    yield c, d


def order_lines(facts, order):
    """The order and ~, the derived ones in a colour of their own; children; and the clash."""
    stated = {(s.kind, order.name[s.subject], order.name[s.other])
              for s in facts.statements if s.other is not None}
    for c, d in order.covers():
        yield arrow(c, d, "" if (ORDERING, c, d) in stated else "color = " + DERIVED)
    for c, d in order.agreements():
        either = {(COMPATIBILITY, c, d), (COMPATIBILITY, d, c)}
        yield agreeing(c, d, "" if either & stated else "color = " + DERIVED)
    for s in facts.statements:
        if s.kind == SELECTION:
            yield selecting(order.name[s.subject], s.number, order.name[s.other])
    if facts.clash():
        i, j = facts.clash()
        yield arrow(order.name[i], order.name[j],
                    'dir = none, color = red, fontcolor = red, label = "clash %d %d", constraint = false' % (i, j))


def draw_order(sheet):
    """The derived order: as few arrows as show it, equal variables in one node."""
    facts = Facts(sheet.variables, sheet.statements())
    order, labels = Order(facts), stated_labels(facts.n, facts.statements)
    lines = []
    for c in order.classes:
        equal = [i for i in range(facts.n) if order.name[i] == c]
        lines.append(node(c, " = ".join(str(i) for i in equal), [a for i in equal for a in labels[i]]))
    return OPENING + "".join(line + "\n" for line in once(lines + list(order_lines(facts, order)))) + "}\n"
