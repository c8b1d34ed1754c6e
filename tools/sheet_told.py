"""What is told of a sheet: a refusal's place among its bytes, and the program's lines with the text beside them."""

from sheet_bytes import FAULTS, ORDERING, PATH, Statement
from sheet_chain import Source, labelling
from sheet_text import item_lines, question_text, statement_text

ROW = 16  # bytes in a row


def refusal_line(refusal):
    """A refusal in one line."""
    return "refused %d at %d: %s (%s)" % (refusal.number, refusal.offset, refusal.reason, FAULTS[refusal.number])


def byte_rows(data, offset, reach=None):
    """The bytes in rows, a caret under the offset; only the rows within reach of it, where a reach is given."""
    place = offset // ROW
    last = max((len(data) - 1) // ROW, place)
    first = 0
    if reach is not None:
        first, last = max(place - reach, 0), min(place + reach, last)
    lines = []
    for row in range(first, last + 1):
        numbers = "".join("%4d" % b for b in data[row * ROW:(row + 1) * ROW])
        lines.append("%-*s  # offset %d" % (5 + 4 * ROW, "bytes" + numbers, row * ROW))
        if row == place:
            lines.append("#" + " " * (4 * (offset % ROW) + 7) + "^ here")
    return lines


def header_line(sheet, data):
    """The header in words, as far as it was read."""
    fields = (("bytes", len(data)), ("variables", sheet.variables), ("records", sheet.record_count),
              ("questions", sheet.question_count))
    return ", ".join("%s %d" % field for field in fields if field[1] is not None)


def refused_text(sheet, data, refusal):
    """The text of a refused sheet: what could be read, in comments; the refusal; and the bytes as they are."""
    lines = ["# " + header_line(sheet, data)]
    lines += ["# " + line.replace("  # ", "  ") for line in item_lines(sheet)]
    lines.append("# " + refusal_line(refusal))
    return "".join(line + "\n" for line in lines + byte_rows(data, refusal.offset))


def stated_at(source, statement):
    """A statement, and where it is stated first."""
    return "%s at %s %d" % (statement_text(statement), source.sheet.places, source.records[statement].place)


def with_remark(text, remark):
    """A line of the text with the remark that stands beside it."""
    return "%-17s # %s" % (text, remark) if remark else text


def explain_clash(source, i, j):
    """The two labels that cannot both be."""
    for one in source.sheet.labels(i):
        for two in source.sheet.labels(j):
            if one.number != two.number:
                return "%d ~ %d follows, yet %s and %s are stated" % (
                    i, j, stated_at(source, one), stated_at(source, two))
    return ""


def explain_ordering(source, ordering):
    """Where an ordering is stated, or else that it follows."""
    return stated_at(source, ordering) if ordering in source.records else statement_text(ordering) + " follows"


def explain_step(source, step):
    """A step of a chain: where it is stated, or what F2 takes to give it."""
    if step in source.records:
        return stated_at(source, step)
    one, two = source.steps.selections[step.subject, step.other]
    text = "%s by %s and %s" % (statement_text(step), stated_at(source, one), stated_at(source, two))
    if one.subject == two.subject:
        return text
    return "%s as %s" % (text, explain_ordering(source, Statement(ORDERING, one.subject, None, two.subject)))


def explain_label(source, variable, label):
    """The statement that gives a variable its label, and the steps up to the variable; nothing where none gives it."""
    chain = source.chain(label, variable)
    if not chain:
        return ""
    stated = labelling(label, chain[0])
    if len(chain) == 1:
        return with_remark(stated_at(source, stated), source.records[stated].remark)
    return explain_chain(source, stated, chain)


def explain_chain(source, stated, chain):
    """A statement, and the steps up a chain from its subject."""
    steps = [explain_step(source, Statement(ORDERING, i, None, j)) for i, j in zip(chain, chain[1:])]
    return ", ".join([stated_at(source, stated)] + steps)


def explain_question(source, question, reply):
    """A question; behind a path that is always there what gives it, feature by feature."""
    (asked,), text = question.statements, question_text(question)
    legs = source.legs(asked.subject, asked.path) if asked.kind == PATH and reply == "always" else []
    if legs:
        text += " by " + ", ".join(explain_chain(source, selection, chain) for selection, chain in legs)
    return with_remark(text, question.remark)


def explain(source, line):
    """What the text has to one line of the program."""
    words = line.split(" ")
    numbers = [int(word) for word in words if word.isdigit()]
    if words[0] == "consistent" and len(numbers) == 3:
        return "%d variables, %d facts <=, %d facts ~" % tuple(numbers)
    if words[0] == "clash" and len(numbers) == 2:
        return explain_clash(source, *numbers)
    if words[0] == "var" and len(numbers) == 2:
        return explain_label(source, *numbers)
    if words[0] == "ask" and numbers and numbers[0] < len(source.sheet.questions):
        return explain_question(source, source.sheet.questions[numbers[0]], words[-1])
    return ""


def explained(sheet, printed):
    """The program's lines, each with what explains it in a column of its own."""
    source, lines = Source(sheet), printed.splitlines()
    width = max((len(line) for line in lines), default=0) + 4
    return "".join(("%-*s%s" % (width, line, explain(source, line))).rstrip() + "\n" for line in lines)


def explained_refusal(data, refusal):
    """The program's line for a refused sheet, the sentence, and the rows around the place."""
    lines = ["refused %d %d    %s (%s)" % (refusal.number, refusal.offset, refusal.reason, FAULTS[refusal.number])]
    return "".join(line + "\n" for line in lines + byte_rows(data, refusal.offset, 1))


def error_text(name, text, error):
    """A text error: the place, what is wrong, the line, and a caret under the place."""
    line = text.split("\n")[error.line - 1].rstrip("\r")
    shown = "".join(c if c.isprintable() or c == "\t" else "?" for c in line)
    padding = "".join(c if c == "\t" else " " for c in shown[:error.column - 1])
    return "%s:%d:%d: %s\n%s\n%s^\n" % (name, error.line, error.column, error.what, shown, padding)
