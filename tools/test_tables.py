"""Tables for the tool's test: texts and bytes, text errors and their places, refusals, and what is explained."""

C2 = [7, 4, 0, 3, 0, 3, 5, 2, 0, 0, 1, 3, 8, 0, 0, 5, 8, 1, 0, 6, 1, 2, 0, 1, 2, 1, 2, 0, 1]

RECORDS = "5(0)\n" * 1024
QUESTIONS = "? 5(0)\n" * 1024
PATHS = "? 0.0.1.2.3.4.5.6.7\n" * 1024

FOUR = [15, 0, 0, 0, 0, 0, 0, 0, 0]  # a record of all four statements
EIGHT = [16, 0, 8, 0, 0, 0, 1, 0, 2, 0, 3, 0, 4, 0, 5, 0, 6, 0, 7]  # a path of eight features

# a text and its bytes
TEXTS = [
    ("", [1, 1]),
    ("2 <= 0, 2[1]3\n5(0)\n6(1)\n? 2 <= 0\n? 2 <= 1\n? 0 ~ 1\n", C2),
    ("2[1]3,2≤0\r\n5(0)\r\n\r\n\t6 ( 1 )\r\n?2<=0\r\n?2≤1\r\n? 0~1", C2),
    ("? 2 <= 0\n5 (0)\n? 2 <= 1 # between\n# 9(9)\n6(1)\n",
     [7, 3, 0, 2, 0, 2, 8, 0, 0, 5, 8, 1, 0, 6, 1, 2, 0, 1, 2, 1]),
    ("\ufeff5(0)", [3, 1, 0, 1, 8, 0, 0, 5]),
    ("5(0)\nvariables 128", [3, 128, 0, 1, 8, 0, 0, 5]),
    ("header 7\n? 65535(127)", [7, 128, 0, 0, 0, 1, 8, 127, 255, 255]),
    ("header 3", [3, 1, 0, 0]),
    ("header 5\nvariables 002", [5, 2, 0, 0]),
    ("260(1), 1[0258]0, 1 ~ 1, 1 <= 0", [3, 2, 0, 1, 15, 1, 0, 1, 1, 2, 0, 1, 4]),
    ("0[65535]0", [3, 1, 0, 1, 4, 0, 255, 255, 0]),
    ("bytes", []),
    ("bytes 1 # one\nbytes\n\nbytes 255 000 7", [1, 255, 0, 7]),
    (RECORDS, [3, 1, 4, 0] + [8, 0, 0, 5] * 1024),
    (QUESTIONS + RECORDS, [7, 1, 4, 0, 4, 0] + [8, 0, 0, 5] * 2048),
    ("? 2.1", [5, 3, 0, 1, 16, 2, 1, 0, 1]),
    ("? 2.1.7", [5, 3, 0, 1, 16, 2, 2, 0, 1, 0, 7]),
    ("\t?02 . 258\t.007#.1", [5, 3, 0, 1, 16, 2, 2, 1, 2, 0, 7]),
    ("? 1.10\n? 1.1.0\n? 1 <= 0", [5, 2, 0, 3, 16, 1, 1, 0, 10, 16, 1, 2, 0, 1, 0, 0, 1, 1, 0]),
    ("? 127.65535.0.65535.0.65535.0.65535.0", [5, 128, 0, 1, 16, 127, 8] + [255, 255, 0, 0] * 4),
    ("0[1]1\n? 0.300 # below\n300(1)", [7, 2, 0, 2, 0, 1, 4, 0, 0, 1, 1, 8, 1, 1, 44, 16, 0, 1, 1, 44]),
    (PATHS, [5, 1, 4, 0] + EIGHT * 1024),
]

# a text with an error: line, column, and a part of what is told
ERRORS = [
    ("0 <= 2, 1 <= 2", 1, 9, "subject 1 beside subject 0"),
    ("5(0), 6(1)", 1, 9, "subject 1 beside subject 0"),
    ("0 <= 1, 5(0), 0 ≤ 2", 1, 15, "a second statement with <="),
    ("0 ~ 1, 0 ~ 1", 1, 8, "a second statement with ~"),
    ("0[1]1, 0[2]1", 1, 8, "a second statement with [ ]"),
    ("5(0), 5(0)", 1, 7, "a second statement with ( )"),
    ("# none\n\n? 0 <= 1, 5(0)", 3, 9, "a question asks one thing"),
    ("? # nothing", 1, 2, "expected a statement"),
    ("0 <= 1,", 1, 8, "expected a statement"),
    ("0 <= 1 0 <= 2", 1, 8, "expected , or the end of the line"),
    ("? 0 <= 1 ?", 1, 10, "expected the end of the line"),
    ("0", 1, 2, "expected <= or ≤ or ~ or [ or ("),
    ("0 < 1", 1, 3, "expected <= or"),
    ("0 >= 1", 1, 3, "expected <= or"),
    ("0 <= x", 1, 6, "expected a variable"),
    ("0 <= -1", 1, 6, "expected a variable"),
    ("0 <= ١", 1, 6, "expected a variable"),
    ("0[1 1", 1, 5, "expected ]"),
    ("0[]1", 1, 3, "expected a feature"),
    ("0[1]", 1, 5, "expected a variable"),
    ("5()", 1, 3, "expected a variable"),
    ("5(0", 1, 4, "expected )"),
    ("5(0)\n  ~ 3", 2, 3, "expected a statement, ?"),
    ("5(0)\nvariable 3", 2, 1, "expected a statement, ?"),
    ("0 <= 128", 1, 6, "a variable above 127"),
    ("128 <= 0", 1, 1, "a variable above 127"),
    ("5(128)", 1, 3, "a variable above 127"),
    ("? 0[1]128", 1, 7, "a variable above 127"),
    ("0[65536]1", 1, 3, "a feature above 65535"),
    ("? 65536(1)", 1, 3, "a label above 65535"),
    ("2.1", 1, 2, "a path can only be asked, behind ?"),
    ("0[1]1, 0.1", 1, 9, "a path can only be asked, behind ?"),
    ("0 <= 2.1", 1, 7, "expected , or the end of the line"),
    ("0[1.2]3", 1, 4, "expected ]"),
    ("5.1(0)", 1, 2, "a path can only be asked, behind ?"),
    ("? 5.1(0)", 1, 6, "expected the end of the line"),
    ("? 0[1]2.1", 1, 8, "expected the end of the line"),
    ("? 2", 1, 4, "expected <= or ≤ or ~ or [ or ( or ."),
    ("? 2.", 1, 5, "expected a feature"),
    ("? .1", 1, 3, "expected a statement"),
    ("? 2..1", 1, 5, "expected a feature"),
    ("? 2.-1", 1, 5, "expected a feature"),
    ("? 2.1 7", 1, 7, "expected the end of the line"),
    ("? 2.1, 2.7", 1, 6, "a question asks one thing"),
    ("\n? 0.1.2.3.4.5.6.7.8.9", 2, 21, "a path of more than 8 features"),
    ("? 0.1.65536", 1, 7, "a feature above 65535"),
    ("? 128.1", 1, 3, "a variable above 127"),
    ("variables 2\n? 2.1", 2, 3, "a variable that is not below 2"),
    ("header 3\n? 0.1", 1, 8, "header 3 has no question count"),
    ("1" * 5000 + "(1)", 1, 1, "a label above 65535"),
    ("variables 2\n0 <= 1\n\t0 ~ 2", 3, 6, "a variable that is not below 2"),
    ("? 3[1]0\nvariables 3", 1, 3, "a variable that is not below 3"),
    ("variables 0", 1, 11, "1 to 128 variables"),
    ("variables 129", 1, 11, "a variable count above 128"),
    ("variables", 1, 10, "expected a number of variables"),
    ("variables 2 3", 1, 13, "expected the end of the line"),
    ("variables 2\nvariables 2", 2, 1, "set twice"),
    ("header 2", 1, 8, "1, 3, 5 or 7"),
    ("header 9", 1, 8, "1, 3, 5 or 7"),
    ("header", 1, 7, "expected a map"),
    ("header 7\nheader 7", 2, 1, "set twice"),
    ("header 1\n5(0)\n? 5(0)", 1, 8, "header 1 has no record count"),
    ("5(0)\nheader 5", 2, 8, "header 5 has no record count"),
    ("header 3\n5(0)\n? 5(0)", 1, 8, "header 3 has no question count"),
    ("bytes 256", 1, 7, "a byte above 255"),
    ("bytes 1, 2", 1, 8, "expected a byte"),
    ("bytes 1\n5(0)", 2, 1, "either bytes or statements"),
    ("bytes\nvariables 1", 2, 1, "either bytes or statements"),
    ("5(0)\n bytes 1", 2, 2, "bytes beside line 1"),
    ("? 5(0)\nheader 7\nbytes", 3, 1, "bytes beside line 1"),
    (RECORDS + "5(0)", 1025, 1, "more than 1024 records"),
    (RECORDS + QUESTIONS + " ? 5(0)", 2049, 2, "more than 1024 questions"),
]

# a sheet, and number and offset of its refusal; none where it is accepted
REFUSALS = [
    ([], 1, 0), ([1], 1, 1), ([3, 2], 1, 2), ([3, 2, 5], 1, 3), ([7, 1, 0, 0], 1, 4), ([7, 1, 0, 0, 9], 1, 5),
    ([3, 1, 0, 1], 1, 4), ([3, 1, 0, 1, 15], 1, 5), ([3, 1, 0, 1, 15, 0], 1, 6), ([3, 1, 0, 1, 15, 0, 0], 1, 7),
    ([3, 1, 0, 1, 15, 0, 0, 0], 1, 8), ([3, 1, 0, 1, 15, 0, 0, 0, 9], 1, 9), ([3, 1, 0, 1, 4, 0, 0, 9], 1, 8),
    ([3, 1, 0, 1, 8, 0], 1, 6), ([3, 1, 0, 1, 8, 0, 9], 1, 7), ([5, 1, 0, 1, 8, 0, 9], 1, 7),
    ([0], 2, 0), ([2], 2, 0), ([4, 1], 2, 0), ([6], 2, 0), ([8], 2, 0), ([9], 2, 0), ([17, 1], 2, 0), ([255], 2, 0),
    ([1, 0], 3, 1), ([1, 129], 3, 1), ([7, 255, 9, 9, 9, 9], 3, 1), ([1, 128], None, None),
    ([3, 1, 4, 1], 4, 2), ([5, 1, 4, 1], 4, 2), ([7, 1, 4, 1], 4, 2), ([7, 1, 0, 0, 4, 1], 4, 4),
    ([7, 1, 4, 0, 255, 255], 4, 4), ([3, 1, 4, 0], 1, 4),
    ([3, 1, 0, 1, 0], 5, 4), ([3, 1, 0, 1, 16], 5, 4), ([3, 1, 0, 1, 129, 9], 5, 4),
    ([5, 1, 0, 1, 0], 5, 4), ([5, 1, 0, 1, 3, 0, 0, 0], 5, 4), ([5, 1, 0, 1, 17, 0], 5, 4), ([5, 1, 0, 1, 15], 5, 4),
    ([3, 1, 0, 1, 8, 1], 6, 5), ([3, 2, 0, 1, 15, 0, 2], 6, 6), ([3, 2, 0, 1, 15, 0, 1, 2], 6, 7),
    ([3, 2, 0, 1, 4, 0, 0, 9, 2], 6, 8), ([3, 2, 0, 1, 15, 0, 1, 1, 0, 9, 255], 6, 10),
    ([5, 2, 0, 1, 1, 0, 2], 6, 6), ([3, 2, 0, 1, 15, 1, 1, 1, 0, 0, 1, 0, 0], None, None),
    ([1, 1, 0], 7, 2), ([3, 1, 0, 0, 1], 7, 4), (C2 + [0, 0], 7, 29), (C2[:-1] + [4], 6, 28), (C2[:-1], 1, 28),
    ([3, 1, 0, 1, 31, 0], 5, 4), ([5, 1, 0, 1, 24, 0], 5, 4), ([5, 1, 0, 1, 48, 0], 5, 4), ([5, 1, 0, 1, 144], 5, 4),
    ([5, 1, 0, 1, 16], 1, 5), ([5, 1, 0, 1, 16, 1, 0], 6, 5), ([5, 1, 0, 1, 16, 0], 1, 6),
    ([5, 1, 0, 1, 16, 0, 0], 10, 6), ([5, 1, 0, 1, 16, 0, 9], 10, 6), ([5, 1, 0, 1, 16, 0, 255, 0, 0, 0], 10, 6),
    ([5, 1, 0, 1, 16, 0, 1], 1, 7), ([5, 1, 0, 1, 16, 0, 1, 0], 1, 8), ([5, 1, 0, 1, 16, 0, 1, 0, 0], None, None),
    ([5, 1, 0, 1, 16, 0, 2, 0, 0, 0], 1, 10), ([5, 1, 0, 1, 16, 0, 1, 0, 0, 0], 7, 9),
    ([5, 1, 0, 1] + EIGHT, None, None), ([5, 1, 0, 1] + EIGHT[:-1], 1, 22), ([5, 1, 0, 1] + EIGHT + [0], 7, 23),
    ([7, 1, 0, 1, 0, 2] + FOUR + [16, 0, 1, 0, 7, 16, 0, 0], 10, 22),
    (C2, None, None), ([7, 1, 4, 0, 4, 0] + FOUR * 1024 + [4, 0, 0, 0, 0] * 1024, None, None),
    ([7, 1, 4, 0, 4, 0] + FOUR * 1024 + [4, 0, 0, 0, 0] * 1024 + [1], 7, 14342),
    ([7, 1, 4, 0, 4, 0] + FOUR * 1024 + EIGHT * 1024, None, None),
    ([7, 1, 4, 0, 4, 0] + FOUR * 1024 + EIGHT * 1024 + [1], 7, 28678),
    ([7, 1, 4, 0, 4, 0] + FOUR * 1024 + EIGHT * 1023 + EIGHT[:-1], 1, 28677),
]

# an example, and what `read` makes of its sheet
READ = {
    "c2": """# bytes 29, variables 4, records 3, questions 3
2 <= 0, 2[1]3  # record 0, offset 6
5(0)           # record 1, offset 12
6(1)           # record 2, offset 16
? 2 <= 0       # question 0, offset 20
? 2 <= 1       # question 1, offset 23
? 0 ~ 1        # question 2, offset 26
""",
    "header": """# bytes 6, variables 3, records 0, questions 0
header 7
variables 3
""",
    "range": """# bytes 29, variables 4, records 3, questions 3
# 2 <= 0, 2[1]3  record 0, offset 6
# 5(0)           record 1, offset 12
# 6(1)           record 2, offset 16
# ? 2 <= 0       question 0, offset 20
# ? 2 <= 1       question 1, offset 23
# refused 6 at 28: the partner of question 2 is 4, a variable that is not below 4 (VariableRange)
bytes   7   4   0   3   0   3   5   2   0   0   1   3   8   0   0   5  # offset 0
bytes   8   1   0   6   1   2   0   1   2   1   2   0   4              # offset 16
#                                                       ^ here
""",
    "deep": """# bytes 69, variables 2, records 1, questions 3
0 <= 1, 0[1]0        # record 0, offset 6
? 0.1.1.1.1.1.1.1.1  # question 0, offset 12
? 1.1.1.1.1.1.1.1.1  # question 1, offset 31
? 0.1.1.1.1.1.1.1.2  # question 2, offset 50
""",
    "length": """# bytes 7, variables 1, records 0, questions 1
# refused 10 at 6: the number of features of question 0 is 9, and a path has 1 to 8 (PathLength)
bytes   5   1   0   1  16   0   9                                      # offset 0
#                               ^ here
""",
}

# an example, and what `check` prints of its text
CHECKED = {
    "first": """consistent 4 6 8    4 variables, 6 facts <=, 8 facts ~
var 0 -
var 1 5             5(1) at line 7    # and that timer runs
var 2 -
var 3 5             5(1) at line 7, 1 <= 3 by 0[1]1 at line 6 and 2[1]3 at line 8 as 0 <= 2 at line 6
ask 0 always        ? 5(3)            # does the returning timer run?
ask 1 open          ? 3 <= 1          # has it nothing that the saved timer lacks?
""",
    "c8": """consistent 2 3 4    2 variables, 3 facts <=, 4 facts ~
var 0 5             5(0) at line 2
var 1 5             5(0) at line 2, 0 <= 1 at line 2
ask 0 always        ? 5(1)
ask 1 never         ? 6(1)
""",
    "c3": """clash 0 0    0 ~ 0 follows, yet 5(0) at line 2 and 6(0) at line 3 are stated
""",
    "clash-f4": """clash 1 3    1 ~ 3 follows, yet 5(1) at line 4 and 6(3) at line 5 are stated
""",
    "path": """consistent 7 9 13    7 variables, 9 facts <=, 13 facts ~
var 0 -
var 1 -
var 2 40             40(2) at line 10  # which is minutes
var 3 -
var 4 -
var 5 -
var 6 -
ask 0 always         ? 3.1.2 by 0[1]1 at line 8, 0 <= 3 at line 8, 1[2]2 at line 9 # timer, then unit, in heating?
ask 1 always         ? 4.1 by 4[1]5 at line 11 # a timer in the hold?
ask 2 open           ? 4.1.2           # and below it a unit?
ask 3 open           ? 6.1.2           # and in the draft?
""",
    "length": """refused 10 6    the number of features of question 0 is 9, and a path has 1 to 8 (PathLength)
bytes   5   1   0   1  16   0   9                                      # offset 0
#                               ^ here
""",
    "cut": """refused 1 7    the sheet ends inside the feature of record 0 (Cut)
bytes   3   1   0   1   4   0   0                                      # offset 0
#                                   ^ here
""",
}

# a text, and what is told of its variables
EXPLAINED = [
    # one ordering
    ("0 <= 1 # the remark of an ordering is left out\n5(0) # and so is this beside 1", """
var 0 5             5(0) at line 2    # and so is this beside 1
var 1 5             5(0) at line 2, 0 <= 1 at line 1
"""),
    # a chain of orderings
    ("2 <= 1\n5(3)\n1 <= 0\n3 <= 2", """
var 0 5               5(3) at line 2, 3 <= 2 at line 4, 2 <= 1 at line 1, 1 <= 0 at line 3
var 1 5               5(3) at line 2, 3 <= 2 at line 4, 2 <= 1 at line 1
var 2 5               5(3) at line 2, 3 <= 2 at line 4
var 3 5               5(3) at line 2
"""),
    # F2 from a stated ordering
    ("0[1]2\n1[1]3\n0 <= 1\n5(2)", """
var 0 -
var 1 -
var 2 5             5(2) at line 4
var 3 5             5(2) at line 4, 2 <= 3 by 0[1]2 at line 1 and 1[1]3 at line 2 as 0 <= 1 at line 3
"""),
    # F2 from an ordering that follows by F1.2, and at another feature of one that follows by F2
    ("0 <= 1\n1 <= 2\n0[1]3\n2[1]4\n3[2]5, 7(3)\n4[2]6\n8(5)", """
var 0 -
var 1 -
var 2 -
var 3 7               7(3) at line 5
var 4 7               7(3) at line 5, 3 <= 4 by 0[1]3 at line 3 and 2[1]4 at line 4 as 0 <= 2 follows
var 5 8               8(5) at line 7
var 6 8               8(5) at line 7, 5 <= 6 by 3[2]5 at line 5 and 4[2]6 at line 6 as 3 <= 4 follows
"""),
    # F2 from one subject, both ways, and a stated ordering behind it
    ("0[1]2\n0[1]1\n0[2]3\n5(1)\n2 <= 4\n6(3)", """
var 0 -
var 1 5              5(1) at line 4
var 2 5              5(1) at line 4, 1 <= 2 by 0[1]1 at line 2 and 0[1]2 at line 1
var 3 6              6(3) at line 6
var 4 5              5(1) at line 4, 1 <= 2 by 0[1]1 at line 2 and 0[1]2 at line 1, 2 <= 4 at line 5
"""),
    # one feature only
    ("0 <= 1, 0[1]2\n1[2]3, 5(1)\n6(2)", """
var 0 -
var 1 5             5(1) at line 2
var 2 6             6(2) at line 3
var 3 -
"""),
    # a circle of orderings
    ("0 <= 1\n1 <= 2\n2 <= 0, 5(2)\n0 <= 0", """
var 0 5             5(2) at line 3, 2 <= 0 at line 3
var 1 5             5(2) at line 3, 2 <= 0 at line 3, 0 <= 1 at line 1
var 2 5             5(2) at line 3
"""),
    # of two variables below the nearest; of two as near the least
    ("5(0)\n0 <= 1\n1 <= 3\n2 <= 3, 5(2)\n3 <= 4\n5(5), 5 <= 6\n3 <= 6", """
var 0 5               5(0) at line 1
var 1 5               5(0) at line 1, 0 <= 1 at line 2
var 2 5               5(2) at line 4
var 3 5               5(2) at line 4, 2 <= 3 at line 4
var 4 5               5(2) at line 4, 2 <= 3 at line 4, 3 <= 4 at line 5
var 5 5               5(5) at line 6
var 6 5               5(5) at line 6, 5 <= 6 at line 6
"""),
    ("5(2), 2 <= 0\n1 <= 0, 5(1)\n5(3), 3 <= 0", """
var 0 5              5(1) at line 2, 1 <= 0 at line 2
var 1 5              5(1) at line 2
var 2 5              5(2) at line 1
var 3 5              5(3) at line 3
"""),
    ("5(3), 3 <= 2\n3 <= 1\n2 <= 0\n1 <= 0", """
var 0 5              5(3) at line 1, 3 <= 1 at line 2, 1 <= 0 at line 4
var 1 5              5(3) at line 1, 3 <= 1 at line 2
var 2 5              5(3) at line 1, 3 <= 2 at line 1
var 3 5              5(3) at line 1
"""),
    # stated for itself, although also below; what is stated twice is told where it stands first
    ("5(0)\n0 <= 1\n5(1) # its own\n5(1)\n0 <= 1\n1 <= 2\n1 <= 2", """
var 0 5             5(0) at line 1
var 1 5             5(1) at line 3    # its own
var 2 5             5(1) at line 3, 1 <= 2 at line 6
"""),
    # a step does not rest on what comes of it: 0 <= 1 gives 0 <= 1 again by F2
    ("0 <= 2, 0[1]0, 5(0)\n2 <= 1\n1[1]1", """
var 0 5             5(0) at line 1
var 1 5             5(0) at line 1, 0 <= 2 at line 1, 2 <= 1 at line 2
var 2 5             5(0) at line 1, 0 <= 2 at line 1
"""),
    # F2 from a stated ordering is shorter than two stated ones
    ("0 <= 1, 5(0)\n1 <= 2\n3[1]0, 3 <= 4\n4[1]2", """
var 0 5              5(0) at line 1
var 1 5              5(0) at line 1, 0 <= 1 at line 1
var 2 5              5(0) at line 1, 0 <= 2 by 3[1]0 at line 3 and 4[1]2 at line 4 as 3 <= 4 at line 3
var 3 -
var 4 -
"""),
    # none along ~ alone, stated or by F4, and none from above
    ("0 ~ 1, 0[1]2, 5(0)\n1[1]3\n6(2)\n4 <= 0\n? 5(1)", """
var 0 5              5(0) at line 1
var 1 -
var 2 6              6(2) at line 3
var 3 -
var 4 -
"""),
    # the least and the greatest numbers
    ("0(0), 0 <= 1\n65535(127), 127 <= 2", "\nvar 0 0                   0(0) at line 1\n"
     "var 1 0                   0(0) at line 1, 0 <= 1 at line 1\n"
     "var 2 65535               65535(127) at line 2, 127 <= 2 at line 2\n"
     + "".join("var %d -\n" % i for i in range(3, 127)) + "var 127 65535             65535(127) at line 2\n"),
]

# a text, and a line that a wrong program would print: nothing is made up for it
UNEXPLAINED = [
    ("5(0), 0 <= 1", "var 1 6"), ("5(0), 0 <= 1", "var 0 6"), ("5(0), 0 <= 1\n6(2)", "var 1 6"),
    ("5(0), 0 ~ 1", "var 1 5"), ("0 <= 1\n5(1)", "var 0 5"), ("0 ~ 1, 0[1]2\n1[1]3\n5(2)", "var 3 5"),
    ("0 <= 1, 0[1]2\n1[2]3\n5(2)", "var 3 5"), ("5(0)", "var 1 5"), ("5(0)", "var 128 5"), ("", "var 0 0"),
    ("5(0)", "var 0 -"), ("5(0), 0 <= 1", "var 1 -"),
]

# a text, and what is told of its questions
EXPLAINED_WAYS = [
    # stated for the variable itself; where it stands first
    ("0[1]1 # left out\n? 0.1 # the remark of a question\n0[1]1\n? 0.1", """
ask 0 always        ? 0.1 by 0[1]1 at line 1 # the remark of a question
ask 1 always        ? 0.1 by 0[1]1 at line 1
"""),
    # of a variable below, stated or not; never from above, along ~, by another feature, or by a label
    ("0[1]1, 0 <= 3\n3 <= 4\n5 <= 0, 5 ~ 6\n7(2)\n? 3.1\n? 4.1\n? 5.1\n? 6.1\n? 3.2\n? 2.7", """
ask 0 always          ? 3.1 by 0[1]1 at line 1, 0 <= 3 at line 1
ask 1 always          ? 4.1 by 0[1]1 at line 1, 0 <= 3 at line 1, 3 <= 4 at line 2
ask 2 open            ? 5.1
ask 3 open            ? 6.1
ask 4 open            ? 3.2
ask 5 open            ? 2.7
"""),
    # below a child
    ("0[1]1\n2 <= 1\n2[7]3\n? 0.1.7\n? 0.1.7.7\n? 1.7\n? 3.7", """
ask 0 always        ? 0.1.7 by 0[1]1 at line 1, 2[7]3 at line 3, 2 <= 1 at line 2
ask 1 open          ? 0.1.7.7
ask 2 always        ? 1.7 by 2[7]3 at line 3, 2 <= 1 at line 2
ask 3 open          ? 3.7
"""),
    # a child that two share, and two children of one variable
    ("0[1]2\n1[1]2\n0[1]3\n3[5]3\n? 1.1.5", """
ask 0 always        ? 1.1.5 by 1[1]2 at line 2, 3[5]3 at line 4, 3 <= 2 by 0[1]3 at line 3 and 0[1]2 at line 1
"""),
    # F2 from a stated ordering; from above it gives nothing
    ("0[1]2\n1[1]3\n0 <= 1\n2[9]2\n3[8]3\n? 1.1.9\n? 0.1.8", """
ask 0 always        ? 1.1.9 by 1[1]3 at line 2, 2[9]2 at line 4, """
     """2 <= 3 by 0[1]2 at line 1 and 1[1]3 at line 2 as 0 <= 1 at line 3
ask 1 open          ? 0.1.8
"""),
    # in a circle
    ("0[1]0, 0 <= 1\n? 1.1.1.1.1.1.1.1.1", """
ask 0 always        ? 1.1.1.1.1.1.1.1.1 by 0[1]0 at line 1, 0 <= 1 at line 1""" + ", 0[1]0 at line 1" * 7 + "\n"),
    # of two ways the shorter, although it begins with an ordering; of two as short a child first, then the least
    ("0[1]1\n5 <= 6\n6 <= 8\n8 <= 1\n4 <= 7, 4[1]5\n7 <= 0\n5[2]5\n? 0.1.2", """
ask 0 always          ? 0.1.2 by 4[1]5 at line 5, 4 <= 7 at line 5, 7 <= 0 at line 6, 5[2]5 at line 7
"""),
    ("0[1]1\n2[2]2, 2 <= 1\n4 <= 0, 4[1]5\n5[2]5\n? 0.1.2", """
ask 0 always         ? 0.1.2 by 0[1]1 at line 1, 2[2]2 at line 2, 2 <= 1 at line 2
"""),
    ("0[1]4\n0[1]3\n3 <= 1, 3[2]3\n2 <= 1, 2[2]2\n? 1.2\n? 0.1", """
ask 0 always          ? 1.2 by 2[2]2 at line 4, 2 <= 1 at line 4
ask 1 always          ? 0.1 by 0[1]3 at line 2
"""),
    # the greatest numbers
    ("127[65535]127\n? 127.65535.65535", """
ask 0 always              ? 127.65535.65535 by 127[65535]127 at line 1, 127[65535]127 at line 1
"""),
]

# a text, a line that a wrong program would print, and what is told beside it: no way is made up
NO_WAY = [
    ("0[1]1\n? 0.2", "ask 0 always", "? 0.2"), ("0[1]1\n? 0.1.1", "ask 0 always", "? 0.1.1"),
    ("0[1]1\n2 <= 0\n? 2.1", "ask 0 always", "? 2.1"), ("0[1]1, 0 ~ 2\n? 2.1", "ask 0 always", "? 2.1"),
    ("0[1]1\n1 <= 2\n2[1]2\n? 0.1.1", "ask 0 always", "? 0.1.1"), ("0[1]1\n? 0.1", "ask 0 open", "? 0.1"),
    ("0[1]1\n? 0.1", "ask 0 never", "? 0.1"), ("0[1]1\n? 0.1", "ask 1 always", ""),
    ("0[1]1\n? 0[1]1", "ask 0 always", "? 0[1]1"),
]
