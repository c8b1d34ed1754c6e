// Sheets written out, with outcomes, tables, replies and labels worked out by hand from the rules.
#include "desk.h"
#include "dolvreki.h"

#include <stdio.h>
#include <string.h>

#define BYTES(...) { (const uint8_t[]) { __VA_ARGS__ }, sizeof (const uint8_t[]) { __VA_ARGS__ } }
#define NONE { nothing, 0 }
#define TOLD(...) \
    { (const uint32_t[]) { __VA_ARGS__ }, sizeof (const uint32_t[]) { __VA_ARGS__ } / 4 }
#define NOT_TOLD { NULL, 0 }
// labels at roots and none at paths; none at all
#define LABELS(...) TOLD(__VA_ARGS__), NOT_TOLD
#define NO_LABELS NOT_TOLD, NOT_TOLD
#define CONSISTENT(orderings, compatibilities) { DOLVREKI_CONSISTENT, orderings, compatibilities }
#define CLASH(i, j) { DOLVREKI_CLASH, i, j }
#define REFUSED(number, offset) { DOLVREKI_REFUSED, number, offset }
#define COUNT(list) (sizeof (list) / sizeof *(list))

static const uint8_t nothing[1];

enum { ALWAYS = DOLVREKI_ALWAYS, NEVER = DOLVREKI_NEVER, OPEN = DOLVREKI_OPEN };

// C1 to C12: bytes, outcome, number of questions, the table row by row, replies, and of each
// variable what root_label gives.
static const struct sheet cases[] = {
    // one variable
    { "C1", BYTES(1, 1), CONSISTENT(1, 1), 0, BYTES(3), NONE, NO_LABELS },
    // 2 <= 0, 2[1]3, 5(0), 6(1); 2 <= 0? 2 <= 1? 0 ~ 1?
    { "C2", BYTES(7, 4, 0, 3, 0, 3,  5, 2, 0, 0, 1, 3,  8, 0, 0, 5,  8, 1, 0, 6,
        1, 2, 0,  1, 2, 1,  2, 0, 1), CONSISTENT(5, 6), 3,
        BYTES(3, 0, 2, 0,  0, 3, 0, 0,  3, 0, 3, 0,  0, 0, 0, 3), BYTES(ALWAYS, OPEN, NEVER),
        LABELS(1 + 5, 1 + 6, 0, 0) },
    // 5(0), 6(0)
    { "C3", BYTES(3, 1, 0, 2,  8, 0, 0, 5,  8, 0, 0, 6), CLASH(0, 0), 0, BYTES(3), NONE,
        NO_LABELS },
    // 5(0), 6(1), 0 ~ 2, 2 ~ 1
    { "C4", BYTES(3, 3, 0, 4,  8, 0, 0, 5,  8, 1, 0, 6,  2, 0, 2,  2, 2, 1), CONSISTENT(3, 7), 0,
        BYTES(3, 0, 2,  0, 3, 2,  2, 2, 3), NONE, LABELS(1 + 5, 1 + 6, 0) },
    // 0 <= 2, 1 <= 2, 5(0), 6(1)
    { "C5", BYTES(3, 3, 0, 4,  1, 0, 2,  1, 1, 2,  8, 0, 0, 5,  8, 1, 0, 6), CLASH(0, 1), 0,
        BYTES(3, 2, 3,  2, 3, 3,  2, 2, 3), NONE, NO_LABELS },
    // 0[1]0, 0 <= 1, 1[1]1
    { "C6", BYTES(3, 2, 0, 3,  4, 0, 0, 1, 0,  1, 0, 1,  4, 1, 0, 1, 1), CONSISTENT(3, 4), 0,
        BYTES(3, 3,  2, 3), NONE, NO_LABELS },
    // 0[1]1, 0[1]2, 5(1), 6(2)
    { "C7", BYTES(3, 3, 0, 4,  4, 0, 0, 1, 1,  4, 0, 0, 1, 2,  8, 1, 0, 5,  8, 2, 0, 6),
        CLASH(1, 2), 0, BYTES(3, 0, 0,  0, 3, 3,  0, 3, 3), NONE, NO_LABELS },
    // 5(0), 0 <= 1; 5(1)? 6(1)?
    { "C8", BYTES(7, 2, 0, 2, 0, 2,  8, 0, 0, 5,  1, 0, 1,  8, 1, 0, 5,  8, 1, 0, 6),
        CONSISTENT(3, 4), 2, BYTES(3, 3,  2, 3), BYTES(ALWAYS, NEVER), LABELS(1 + 5, 1 + 5) },
    // 0[1]1, 0 <= 2, 2 <= 0; 2[1]1?
    { "C9", BYTES(7, 3, 0, 3, 0, 1,  4, 0, 0, 1, 1,  1, 0, 2,  1, 2, 0,  4, 2, 0, 1, 1),
        CONSISTENT(5, 5), 1, BYTES(3, 0, 3,  0, 3, 0,  3, 0, 3), BYTES(ALWAYS), NO_LABELS },
    // 0[1]1, 0 <= 2; 2[1]1?
    { "C10", BYTES(7, 3, 0, 2, 0, 1,  4, 0, 0, 1, 1,  1, 0, 2,  4, 2, 0, 1, 1),
        CONSISTENT(4, 5), 1, BYTES(3, 0, 3,  0, 3, 0,  2, 0, 3), BYTES(OPEN), NO_LABELS },
    // 0[9]0?, without a record count and with one
    { "C11", BYTES(5, 1, 0, 1,  4, 0, 0, 9, 0), CONSISTENT(1, 1), 1, BYTES(3), BYTES(OPEN),
        NO_LABELS },
    { "C11, records counted", BYTES(7, 1, 0, 0, 0, 1,  4, 0, 0, 9, 0), CONSISTENT(1, 1), 1,
        BYTES(3), BYTES(OPEN), NO_LABELS },
    // 0[1]0, 1 <= 0; 0[1]1?
    { "C12", BYTES(7, 2, 0, 2, 0, 1,  4, 0, 0, 1, 0,  1, 1, 0,  4, 0, 0, 1, 1), CONSISTENT(3, 4), 1,
        BYTES(3, 2,  3, 3), BYTES(OPEN), NO_LABELS },
};

// What facts are derived.
static const struct sheet derivations[] = {
    // 0 ~ 1
    { "bare pair", BYTES(3, 2, 0, 1,  2, 0, 1), CONSISTENT(2, 4), 0, BYTES(3, 2,  2, 3), NONE,
        NO_LABELS },
    // 0 <= 1, 1 ~ 2, 3 <= 2: all are compatible
    { "~ below either side", BYTES(3, 4, 0, 3,  1, 0, 1,  2, 1, 2,  1, 3, 2), CONSISTENT(6, 16), 0,
        BYTES(3, 3, 2, 2,  2, 3, 2, 2,  2, 2, 3, 2,  2, 2, 3, 3), NONE, NO_LABELS },
    // 0 ~ 1, 0 <= 2, 5(1), 6(2): 1 ~ 2 does not follow
    { "~ not above", BYTES(3, 3, 0, 4,  2, 0, 1,  1, 0, 2,  8, 1, 0, 5,  8, 2, 0, 6),
        CONSISTENT(4, 7), 0, BYTES(3, 2, 3,  2, 3, 0,  2, 0, 3), NONE, LABELS(0, 1 + 5, 1 + 6) },
    // 3[1]5, 2[1]4, 1[1]3, 0[1]2, 0 <= 1: 2 <= 3, then 4 <= 5
    { "descent twice", BYTES(3, 6, 0, 5,  4, 3, 0, 1, 5,  4, 2, 0, 1, 4,  4, 1, 0, 1, 3,
        4, 0, 0, 1, 2,  1, 0, 1), CONSISTENT(9, 12), 0,
        BYTES(3, 3, 0, 0, 0, 0,  2, 3, 0, 0, 0, 0,  0, 0, 3, 3, 0, 0,
            0, 0, 2, 3, 0, 0,  0, 0, 0, 0, 3, 3,  0, 0, 0, 0, 2, 3), NONE, NO_LABELS },
    // 3 <= 0, 2[1]3, 0[1]1, 0 <= 2: the order 1, 3, 0, 2
    { "descent into an order", BYTES(3, 4, 0, 4,  1, 3, 0,  4, 2, 0, 1, 3,  4, 0, 0, 1, 1,
        1, 0, 2), CONSISTENT(10, 16), 0,
        BYTES(3, 2, 3, 2,  3, 3, 3, 3,  2, 2, 3, 2,  3, 2, 3, 3), NONE, NO_LABELS },
};

// Which clash is told; replies stay as they were.
static const struct sheet clashes[] = {
    // 5(0), 6(0); 0 <= 0? 5(0)?
    { "clash, asked", BYTES(7, 1, 0, 2, 0, 2,  8, 0, 0, 5,  8, 0, 0, 6,  1, 0, 0,  8, 0, 0, 5),
        CLASH(0, 0), 2, BYTES(3), NONE, NO_LABELS },
    // 5(2), 6(3), 1[3]3, 0[3]2, 0 ~ 1
    { "clash by F4", BYTES(3, 4, 0, 5,  8, 2, 0, 5,  8, 3, 0, 6,  4, 1, 0, 3, 3,  4, 0, 0, 3, 2,
        2, 0, 1), CLASH(2, 3), 0,
        BYTES(3, 2, 0, 0,  2, 3, 0, 0,  0, 0, 3, 2,  0, 0, 2, 3), NONE, NO_LABELS },
    // 2 ~ 1, 3 ~ 0, 5(1), 6(2), 7(3), 8(0)
    { "least i", BYTES(3, 4, 0, 6,  2, 2, 1,  2, 3, 0,  8, 1, 0, 5,  8, 2, 0, 6,  8, 3, 0, 7,
        8, 0, 0, 8), CLASH(0, 3), 0,
        BYTES(3, 0, 0, 2,  0, 3, 2, 0,  0, 2, 3, 0,  2, 0, 0, 3), NONE, NO_LABELS },
    // 0 ~ 2, 0 ~ 1, 6(2), 6(1), 5(0)
    { "least j", BYTES(3, 3, 0, 5,  2, 0, 2,  2, 0, 1,  8, 2, 0, 6,  8, 1, 0, 6,  8, 0, 0, 5),
        CLASH(0, 1), 0, BYTES(3, 2, 2,  2, 3, 0,  2, 0, 3), NONE, NO_LABELS },
    // 5(1), 6(1), 0 ~ 2, 5(0), 6(2)
    { "pair before one variable", BYTES(3, 3, 0, 5,  8, 1, 0, 5,  8, 1, 0, 6,  2, 0, 2,
        8, 0, 0, 5,  8, 2, 0, 6), CLASH(0, 2), 0, BYTES(3, 0, 2,  0, 3, 0,  2, 0, 3), NONE,
        NO_LABELS },
    // 5(0), 5(1), 6(1), and then 0 ~ 1 besides, the labels in either order
    { "two labels", BYTES(3, 2, 0, 3,  8, 0, 0, 5,  8, 1, 0, 5,  8, 1, 0, 6), CLASH(1, 1), 0,
        BYTES(3, 0,  0, 3), NONE, NO_LABELS },
    { "two labels, second differs", BYTES(3, 2, 0, 4,  8, 0, 0, 5,  8, 1, 0, 5,  8, 1, 0, 6,
        2, 0, 1), CLASH(0, 1), 0, BYTES(3, 2,  2, 3), NONE, NO_LABELS },
    { "two labels, first differs", BYTES(3, 2, 0, 4,  8, 0, 0, 5,  8, 1, 0, 6,  8, 1, 0, 5,
        2, 0, 1), CLASH(0, 1), 0, BYTES(3, 2,  2, 3), NONE, NO_LABELS },
};

// What is replied.
static const struct sheet questions[] = {
    // 0 <= 1?
    { "bare variables, asked", BYTES(5, 2, 0, 1,  1, 0, 1), CONSISTENT(2, 2), 1, BYTES(3, 0,  0, 3),
        BYTES(OPEN), NO_LABELS },
    // 1 <= 1? 0 ~ 0? 1 ~ 0?
    { "bare variables, asked of one", BYTES(5, 2, 0, 3,  1, 1, 1,  2, 0, 0,  2, 1, 0),
        CONSISTENT(2, 2), 3, BYTES(3, 0,  0, 3), BYTES(ALWAYS, ALWAYS, OPEN), NO_LABELS },
    // 0 ~ 1; 1 ~ 0? 0 <= 1? 1 <= 1?
    { "bare pair, asked", BYTES(7, 2, 0, 1, 0, 3,  2, 0, 1,  2, 1, 0,  1, 0, 1,  1, 1, 1),
        CONSISTENT(2, 4), 3, BYTES(3, 2,  2, 3), BYTES(ALWAYS, OPEN, ALWAYS), NO_LABELS },
    // 0 <= 1, 0 <= 2, 5(1), 6(2); 1 ~ 2? 1 <= 2? 9(0)? 0 <= 2? 1 <= 0?
    { "below two labels", BYTES(7, 3, 0, 4, 0, 5,  1, 0, 1,  1, 0, 2,  8, 1, 0, 5,  8, 2, 0, 6,
        2, 1, 2,  1, 1, 2,  8, 0, 0, 9,  1, 0, 2,  1, 1, 0), CONSISTENT(5, 7), 5,
        BYTES(3, 3, 3,  2, 3, 0,  2, 0, 3), BYTES(NEVER, NEVER, NEVER, ALWAYS, NEVER),
        LABELS(0, 1 + 5, 1 + 6) },
    // 5(0)?
    { "one variable, asked", BYTES(5, 1, 0, 1,  8, 0, 0, 5), CONSISTENT(1, 1), 1, BYTES(3),
        BYTES(OPEN), NO_LABELS },
    { "two variables", BYTES(1, 2), CONSISTENT(2, 2), 0, BYTES(3, 0,  0, 3), NONE, NO_LABELS },
    // 0 <= 0, 0 ~ 0, 0[65535]0, 0(0) in one record
    { "one record, all fields", BYTES(3, 1, 0, 1,  15, 0, 0, 0, 255, 255, 0, 0, 0), CONSISTENT(1, 1), 0,
        BYTES(3), NONE, LABELS(1 + 0) },
    // 0 <= 4
    { "last variable", BYTES(3, 5, 0, 1,  1, 0, 4), CONSISTENT(6, 7), 0,
        BYTES(3, 0, 0, 0, 3,  0, 3, 0, 0, 0,  0, 0, 3, 0, 0,  0, 0, 0, 3, 0,  2, 0, 0, 0, 3), NONE,
        NO_LABELS },
    // 0[1]1, 0[257]2, 5(1), 261(2); 0[257]1? 0[256]1? 0[1]1?
    { "high bytes", BYTES(7, 3, 0, 4, 0, 3,  4, 0, 0, 1, 1,  4, 0, 1, 1, 2,  8, 1, 0, 5,
        8, 2, 1, 5,  4, 0, 1, 1, 1,  4, 0, 1, 0, 1,  4, 0, 0, 1, 1), CONSISTENT(3, 3), 3,
        BYTES(3, 0, 0,  0, 3, 0,  0, 0, 3), BYTES(NEVER, OPEN, ALWAYS), LABELS(0, 1 + 5, 1 + 261) },
    // 65535(0), 65535(1), 0 ~ 1, 0[65535]0; 65535(0)? 65534(1)? 0[65535]0?
    { "greatest numbers", BYTES(7, 2, 0, 4, 0, 3,  8, 0, 255, 255,  8, 1, 255, 255,  2, 0, 1,
        4, 0, 255, 255, 0,  8, 0, 255, 255,  8, 1, 255, 254,  4, 0, 255, 255, 0),
        CONSISTENT(2, 4), 3, BYTES(3, 2,  2, 3), BYTES(ALWAYS, NEVER, ALWAYS),
        LABELS(1 + 65535, 1 + 65535) },
    // 5(0) twice; 5(0)? 6(0)?
    { "one label twice", BYTES(7, 1, 0, 2, 0, 2,  8, 0, 0, 5,  8, 0, 0, 5,  8, 0, 0, 5,
        8, 0, 0, 6), CONSISTENT(1, 1), 2, BYTES(3), BYTES(ALWAYS, NEVER), LABELS(1 + 5) },
    // 5(1), 0 <= 1, 1 ~ 2; 5(0)? 6(0)? 5(1)? 5(2)?
    { "label not below", BYTES(7, 3, 0, 3, 0, 4,  8, 1, 0, 5,  1, 0, 1,  2, 1, 2,  8, 0, 0, 5,
        8, 0, 0, 6,  8, 1, 0, 5,  8, 2, 0, 5), CONSISTENT(4, 9), 4,
        BYTES(3, 3, 2,  2, 3, 2,  2, 2, 3), BYTES(OPEN, NEVER, ALWAYS, OPEN), LABELS(0, 1 + 5, 0) },
    // 5(0), 0 <= 1, 2 <= 3, 6(3); 1 ~ 2? 1 <= 2? 2 <= 1? 1 ~ 3? 6(1)? 5(2)? 6(2)?
    { "between two labels", BYTES(7, 4, 0, 4, 0, 7,  8, 0, 0, 5,  1, 0, 1,  1, 2, 3,  8, 3, 0, 6,
        2, 1, 2,  1, 1, 2,  1, 2, 1,  2, 1, 3,  8, 1, 0, 6,  8, 2, 0, 5,  8, 2, 0, 6),
        CONSISTENT(6, 8), 7, BYTES(3, 3, 0, 0,  2, 3, 0, 0,  0, 0, 3, 3,  0, 0, 2, 3),
        BYTES(OPEN, NEVER, OPEN, NEVER, NEVER, NEVER, OPEN), LABELS(1 + 5, 1 + 5, 0, 1 + 6) },
    // 0[1]0, 0 <= 1; 0[1]1?
    { "child not below", BYTES(7, 2, 0, 2, 0, 1,  4, 0, 0, 1, 0,  1, 0, 1,  4, 0, 0, 1, 1),
        CONSISTENT(3, 4), 1, BYTES(3, 3,  2, 3), BYTES(OPEN), NO_LABELS },
    // 0[1]1, 2[1]3, 0 <= 4, 4 <= 2, 5 <= 1, 3 <= 5: 1 <= 3 closes a circle; 4[1]5? 4[2]5? 4[1]4?
    { "support by two selections", BYTES(7, 6, 0, 6, 0, 3,  4, 0, 0, 1, 1,  4, 2, 0, 1, 3,
        1, 0, 4,  1, 4, 2,  1, 5, 1,  1, 3, 5,  4, 4, 0, 1, 5,  4, 4, 0, 2, 5,  4, 4, 0, 1, 4),
        CONSISTENT(15, 18), 3,
        BYTES(3, 0, 3, 0, 3, 0,  0, 3, 0, 3, 0, 3,  2, 0, 3, 0, 2, 0,
            0, 3, 0, 3, 0, 3,  2, 0, 3, 0, 3, 0,  0, 3, 0, 3, 0, 3), BYTES(ALWAYS, OPEN, OPEN),
        NO_LABELS },
    // 0[1]1, 2 <= 0; 2[1]1?
    { "support from above only", BYTES(7, 3, 0, 2, 0, 1,  4, 0, 0, 1, 1,  1, 2, 0,  4, 2, 0, 1, 1),
        CONSISTENT(4, 5), 1, BYTES(3, 0, 2,  0, 3, 0,  3, 0, 3), BYTES(OPEN), NO_LABELS },
    // 0[1]1, 2[1]3, 5(1), 6(3); 0 ~ 2? 2 <= 0? 0[1]3? 0[2]3? 1 <= 0? 5(1)?
    { "never by descent", BYTES(7, 4, 0, 4, 0, 6,  4, 0, 0, 1, 1,  4, 2, 0, 1, 3,  8, 1, 0, 5,
        8, 3, 0, 6,  2, 0, 2,  1, 2, 0,  4, 0, 0, 1, 3,  4, 0, 0, 2, 3,  1, 1, 0,  8, 1, 0, 5),
        CONSISTENT(4, 4), 6, BYTES(3, 0, 0, 0,  0, 3, 0, 0,  0, 0, 3, 0,  0, 0, 0, 3),
        BYTES(NEVER, NEVER, NEVER, OPEN, OPEN, ALWAYS), LABELS(0, 1 + 5, 0, 1 + 6) },
    // 5(0), 6(2), and pairs of questions that clash only together: 0 <= 1? 1 <= 2? 0 ~ 1? 2 <= 1?
    // 6(1)? 0 ~ 1? 0[1]0? 0[1]2? at last 0 ~ 2?
    { "each on its own", BYTES(7, 3, 0, 2, 0, 9,  8, 0, 0, 5,  8, 2, 0, 6,  1, 0, 1,  1, 1, 2,
        2, 0, 1,  1, 2, 1,  8, 1, 0, 6,  2, 0, 1,  4, 0, 0, 1, 0,  4, 0, 0, 1, 2,  2, 0, 2),
        CONSISTENT(3, 3), 9, BYTES(3, 0, 0,  0, 3, 0,  0, 0, 3),
        BYTES(OPEN, OPEN, OPEN, OPEN, OPEN, OPEN, OPEN, OPEN, NEVER), LABELS(1 + 5, 0, 1 + 6) },
};

// Which labels all trees have.
static const struct sheet labellings[] = {
    // 5(2), 2 <= 1, 1 <= 0
    { "label up a chain", BYTES(3, 3, 0, 3,  8, 2, 0, 5,  1, 2, 1,  1, 1, 0), CONSISTENT(6, 9), 0,
        BYTES(3, 2, 2,  3, 3, 2,  3, 3, 3), NONE, LABELS(1 + 5, 1 + 5, 1 + 5) },
    // 0[1]2, 1[1]3, 0 <= 1, 5(2): 2 <= 3
    { "label by F2", BYTES(3, 4, 0, 4,  4, 0, 0, 1, 2,  4, 1, 0, 1, 3,  1, 0, 1,  8, 2, 0, 5),
        CONSISTENT(6, 8), 0, BYTES(3, 3, 0, 0,  2, 3, 0, 0,  0, 0, 3, 3,  0, 0, 2, 3), NONE,
        LABELS(0, 0, 1 + 5, 1 + 5) },
    // 5 <= 6, 2[1]4, 3[1]5, 0[1]2, 1[1]3, 0 <= 1, 5(4): 2 <= 3, then 4 <= 5
    { "label by F2 twice and up", BYTES(3, 7, 0, 7,  1, 5, 6,  4, 2, 0, 1, 4,  4, 3, 0, 1, 5,
        4, 0, 0, 1, 2,  4, 1, 0, 1, 3,  1, 0, 1,  8, 4, 0, 5), CONSISTENT(12, 17), 0,
        BYTES(3, 3, 0, 0, 0, 0, 0,  2, 3, 0, 0, 0, 0, 0,
            0, 0, 3, 3, 0, 0, 0,  0, 0, 2, 3, 0, 0, 0,
            0, 0, 0, 0, 3, 3, 3,  0, 0, 0, 0, 2, 3, 3,  0, 0, 0, 0, 2, 2, 3), NONE,
        LABELS(0, 0, 0, 0, 1 + 5, 1 + 5, 1 + 5) },
    // 0[1]1, 0[1]2, 5(2): 1 and 2 are below each other
    { "label of both children", BYTES(3, 3, 0, 3,  4, 0, 0, 1, 1,  4, 0, 0, 1, 2,  8, 2, 0, 5),
        CONSISTENT(5, 5), 0, BYTES(3, 0, 0,  0, 3, 3,  0, 3, 3), NONE, LABELS(0, 1 + 5, 1 + 5) },
    // 0 <= 1, 1 <= 2, 2 <= 0, 5(1)
    { "label round a circle", BYTES(3, 3, 0, 4,  1, 0, 1,  1, 1, 2,  1, 2, 0,  8, 1, 0, 5),
        CONSISTENT(9, 9), 0, BYTES(3, 3, 3,  3, 3, 3,  3, 3, 3), NONE,
        LABELS(1 + 5, 1 + 5, 1 + 5) },
    // 5(0), 5(1), 0 <= 2, 1 <= 2
    { "label from two below", BYTES(3, 3, 0, 4,  8, 0, 0, 5,  8, 1, 0, 5,  1, 0, 2,  1, 1, 2),
        CONSISTENT(5, 9), 0, BYTES(3, 2, 3,  2, 3, 3,  2, 2, 3), NONE,
        LABELS(1 + 5, 1 + 5, 1 + 5) },
    // 5(0), 6(1), 0 <= 3, 1 <= 2
    { "each label up its own way", BYTES(3, 4, 0, 4,  8, 0, 0, 5,  8, 1, 0, 6,  1, 0, 3,  1, 1, 2),
        CONSISTENT(6, 8), 0, BYTES(3, 0, 0, 3,  0, 3, 3, 0,  0, 2, 3, 0,  2, 0, 0, 3), NONE,
        LABELS(1 + 5, 1 + 6, 1 + 6, 1 + 5) },
    // 0 ~ 1, 0[1]2, 1[1]3, 5(2), 6(0): only 2 ~ 3 follows
    { "no label along ~", BYTES(3, 4, 0, 5,  2, 0, 1,  4, 0, 0, 1, 2,  4, 1, 0, 1, 3,  8, 2, 0, 5,
        8, 0, 0, 6), CONSISTENT(4, 8), 0,
        BYTES(3, 2, 0, 0,  2, 3, 0, 0,  0, 0, 3, 2,  0, 0, 2, 3), NONE,
        LABELS(1 + 6, 0, 1 + 5, 0) },
    // 5(1), 0 <= 1, 0[1]2, 1[1]3, 6(3)
    { "no label from above", BYTES(3, 4, 0, 5,  8, 1, 0, 5,  1, 0, 1,  4, 0, 0, 1, 2,
        4, 1, 0, 1, 3,  8, 3, 0, 6), CONSISTENT(6, 8), 0,
        BYTES(3, 3, 0, 0,  2, 3, 0, 0,  0, 0, 3, 3,  0, 0, 2, 3), NONE,
        LABELS(0, 1 + 5, 0, 1 + 6) },
    // 0(0), 0 <= 1, 65535(3), 3 <= 2
    { "least and greatest label", BYTES(3, 4, 0, 4,  8, 0, 0, 0,  1, 0, 1,  8, 3, 255, 255,
        1, 3, 2), CONSISTENT(6, 8), 0,
        BYTES(3, 3, 0, 0,  2, 3, 0, 0,  0, 0, 3, 2,  0, 0, 3, 3), NONE,
        LABELS(1, 1, 65536, 65536) },
    // 7(2), 2 <= 1, 5(0), 6(0)
    { "label beside a clash", BYTES(3, 3, 0, 4,  8, 2, 0, 7,  1, 2, 1,  8, 0, 0, 5,  8, 0, 0, 6),
        CLASH(0, 0), 0, BYTES(3, 0, 0,  0, 3, 2,  0, 3, 3), NONE, NO_LABELS },
};

// Which paths all trees have, and which labels there. The lists are those of root_label, then those
// of check_path.
static const struct sheet paths[] = {
    // 0[1]1, 5(1); 0.1? 0.2? 1.1? 0.1.1?
    { "path stated", BYTES(7, 2, 0, 2, 0, 4,  4, 0, 0, 1, 1,  8, 1, 0, 5,  16, 0, 1, 0, 1,
        16, 0, 1, 0, 2,  16, 1, 1, 0, 1,  16, 0, 2, 0, 1, 0, 1), CONSISTENT(2, 2), 4,
        BYTES(3, 0,  0, 3), BYTES(ALWAYS, OPEN, OPEN, OPEN), TOLD(0, 1 + 5), TOLD(1 + 5) },
    // 0[1]1, 0 <= 3, 5(1); 3.1? 3.2? 3[1]1? 5(1)? 3.1?
    { "path from below", BYTES(7, 4, 0, 2, 0, 5,  5, 0, 3, 0, 1, 1,  8, 1, 0, 5,  16, 3, 1, 0, 1,
        16, 3, 1, 0, 2,  4, 3, 0, 1, 1,  8, 1, 0, 5,  16, 3, 1, 0, 1), CONSISTENT(5, 6), 5,
        BYTES(3, 0, 0, 3,  0, 3, 0, 0,  0, 0, 3, 0,  2, 0, 0, 3),
        BYTES(ALWAYS, OPEN, OPEN, ALWAYS, ALWAYS), TOLD(0, 1 + 5), TOLD(1 + 5, 0, 0, 0, 1 + 5) },
    // 0[1]1, 5(1), 2 <= 0, 0 ~ 3; 2.1? 3.1? 0.1?
    { "no path from above or along ~", BYTES(7, 4, 0, 4, 0, 3,  4, 0, 0, 1, 1,  8, 1, 0, 5,
        1, 2, 0,  2, 0, 3,  16, 2, 1, 0, 1,  16, 3, 1, 0, 1,  16, 0, 1, 0, 1), CONSISTENT(5, 10), 3,
        BYTES(3, 0, 2, 2,  0, 3, 0, 0,  3, 0, 3, 2,  2, 0, 2, 3), BYTES(OPEN, OPEN, ALWAYS),
        TOLD(0, 1 + 5), TOLD(0, 0, 1 + 5) },
    // 0[1]1, 2 <= 1, 2[7]3, 6(3), 5(2); 0.1.7? 0.1? 1.7? 2.7? 0.7?
    { "path below a child", BYTES(7, 4, 0, 5, 0, 5,  4, 0, 0, 1, 1,  1, 2, 1,  4, 2, 0, 7, 3,
        8, 3, 0, 6,  8, 2, 0, 5,  16, 0, 2, 0, 1, 0, 7,  16, 0, 1, 0, 1,  16, 1, 1, 0, 7,
        16, 2, 1, 0, 7,  16, 0, 1, 0, 7), CONSISTENT(5, 6), 5,
        BYTES(3, 0, 0, 0,  0, 3, 2, 0,  0, 3, 3, 0,  0, 0, 0, 3),
        BYTES(ALWAYS, ALWAYS, ALWAYS, ALWAYS, OPEN), TOLD(0, 1 + 5, 1 + 5, 1 + 6),
        TOLD(1 + 6, 1 + 5, 1 + 6, 1 + 6) },
    // 0[1]2, 1[1]2, 2[2]3; 1.1.2? 0.1.2? no label
    { "path through a shared child", BYTES(7, 4, 0, 3, 0, 2,  4, 0, 0, 1, 2,  4, 1, 0, 1, 2,
        4, 2, 0, 2, 3,  16, 1, 2, 0, 1, 0, 2,  16, 0, 2, 0, 1, 0, 2), CONSISTENT(4, 4), 2,
        BYTES(3, 0, 0, 0,  0, 3, 0, 0,  0, 0, 3, 0,  0, 0, 0, 3), BYTES(ALWAYS, ALWAYS),
        NO_LABELS },
    // 0 <= 2, 1 <= 2, 0[1]3, 1[1]4, 3[2]0, 4[3]1, 5(1); 2.1.3? 2.1.2? 0.1.3? 2.1.3.1? 2.1.2.1.3?
    { "path from two below", BYTES(7, 5, 0, 5, 0, 5,  5, 0, 2, 0, 1, 3,  5, 1, 2, 0, 1, 4,
        4, 3, 0, 2, 0,  4, 4, 0, 3, 1,  8, 1, 0, 5,  16, 2, 2, 0, 1, 0, 3,  16, 2, 2, 0, 1, 0, 2,
        16, 0, 2, 0, 1, 0, 3,  16, 2, 3, 0, 1, 0, 3, 0, 1,  16, 2, 4, 0, 1, 0, 2, 0, 1, 0, 3),
        CONSISTENT(7, 13), 5,
        BYTES(3, 2, 3, 0, 0,  2, 3, 3, 0, 0,  2, 2, 3, 0, 0,  0, 0, 0, 3, 2,  0, 0, 0, 2, 3),
        BYTES(ALWAYS, ALWAYS, OPEN, ALWAYS, OPEN), TOLD(0, 1 + 5, 1 + 5), TOLD(1 + 5) },
    // 0[1]0, 7(0), 0 <= 1; 0 and 1 eight deep; the last feature another
    { "path round a circle", BYTES(7, 2, 0, 3, 0, 3,  4, 0, 0, 1, 0,  8, 0, 0, 7,  1, 0, 1,
        16, 0, 8, 0, 1, 0, 1, 0, 1, 0, 1, 0, 1, 0, 1, 0, 1, 0, 1,
        16, 1, 8, 0, 1, 0, 1, 0, 1, 0, 1, 0, 1, 0, 1, 0, 1, 0, 1,
        16, 0, 8, 0, 1, 0, 1, 0, 1, 0, 1, 0, 1, 0, 1, 0, 1, 0, 2), CONSISTENT(3, 4), 3,
        BYTES(3, 3,  2, 3), BYTES(ALWAYS, ALWAYS, OPEN), TOLD(1 + 7, 1 + 7), TOLD(1 + 7, 1 + 7) },
    // 0[1]1, 1[2]2, 2[3]3, 0(3); each feature in its place, and each wrong: 0.1.2.3? 0.2.1.3?
    // 0.1.3.2? 0.3.2.1? 0.1.2? 0.1.2.3.0?
    { "features in order", BYTES(7, 4, 0, 4, 0, 6,  4, 0, 0, 1, 1,  4, 1, 0, 2, 2,  4, 2, 0, 3, 3,
        8, 3, 0, 0,  16, 0, 3, 0, 1, 0, 2, 0, 3,  16, 0, 3, 0, 2, 0, 1, 0, 3,
        16, 0, 3, 0, 1, 0, 3, 0, 2,  16, 0, 3, 0, 3, 0, 2, 0, 1,  16, 0, 2, 0, 1, 0, 2,
        16, 0, 4, 0, 1, 0, 2, 0, 3, 0, 0), CONSISTENT(4, 4), 6,
        BYTES(3, 0, 0, 0,  0, 3, 0, 0,  0, 0, 3, 0,  0, 0, 0, 3),
        BYTES(ALWAYS, OPEN, OPEN, OPEN, ALWAYS, OPEN), TOLD(0, 0, 0, 1 + 0), TOLD(1 + 0) },
    // 0[0]0: unused places are no features; 0.0? 0.0.0? 0.1?
    { "feature 0", BYTES(7, 1, 0, 1, 0, 3,  4, 0, 0, 0, 0,  16, 0, 1, 0, 0,  16, 0, 2, 0, 0, 0, 0,
        16, 0, 1, 0, 1), CONSISTENT(1, 1), 3, BYTES(3), BYTES(ALWAYS, ALWAYS, OPEN), NO_LABELS },
    // 0[257]1, 0[1]2, 65535(1), 0[65535]1; 0.257? 0.256? 0.1? 0.65535? 0.511?
    { "features of two bytes", BYTES(7, 3, 0, 4, 0, 5,  4, 0, 1, 1, 1,  4, 0, 0, 1, 2,
        8, 1, 255, 255,  4, 0, 255, 255, 1,  16, 0, 1, 1, 1,  16, 0, 1, 1, 0,  16, 0, 1, 0, 1,
        16, 0, 1, 255, 255,  16, 0, 1, 1, 255), CONSISTENT(3, 3), 5,
        BYTES(3, 0, 0,  0, 3, 0,  0, 0, 3), BYTES(ALWAYS, OPEN, ALWAYS, ALWAYS, OPEN),
        TOLD(0, 65536), TOLD(65536, 0, 0, 65536) },
    // 0[1]2, 1[1]3, 0 <= 1, 5(2), 2[4]2; 2 <= 3 by F2: 1.1? 1.1.4? 3.4.4? 1.4?
    { "path by F2", BYTES(7, 4, 0, 5, 0, 4,  4, 0, 0, 1, 2,  4, 1, 0, 1, 3,  1, 0, 1,  8, 2, 0, 5,
        4, 2, 0, 4, 2,  16, 1, 1, 0, 1,  16, 1, 2, 0, 1, 0, 4,  16, 3, 2, 0, 4, 0, 4,
        16, 1, 1, 0, 4), CONSISTENT(6, 8), 4,
        BYTES(3, 3, 0, 0,  2, 3, 0, 0,  0, 0, 3, 3,  0, 0, 2, 3),
        BYTES(ALWAYS, ALWAYS, ALWAYS, OPEN), TOLD(0, 0, 1 + 5, 1 + 5), TOLD(1 + 5, 1 + 5, 1 + 5) },
    // 0[1]1, 0[1]2, 2[3]3, 6(2), 0 <= 4: 1 and 2 are below each other; 1.3? 4.1? 4.1.3? 3.3?
    { "path by both children", BYTES(7, 5, 0, 5, 0, 4,  4, 0, 0, 1, 1,  4, 0, 0, 1, 2,
        4, 2, 0, 3, 3,  8, 2, 0, 6,  1, 0, 4,  16, 1, 1, 0, 3,  16, 4, 1, 0, 1,
        16, 4, 2, 0, 1, 0, 3,  16, 3, 1, 0, 3), CONSISTENT(8, 9), 4,
        BYTES(3, 0, 0, 0, 3,  0, 3, 3, 0, 0,  0, 3, 3, 0, 0,  0, 0, 0, 3, 0,  2, 0, 0, 0, 3),
        BYTES(ALWAYS, ALWAYS, ALWAYS, OPEN), TOLD(0, 1 + 6, 1 + 6), TOLD(0, 1 + 6) },
    // 0.0? without a record
    { "path of a bare variable", BYTES(5, 1, 0, 1,  16, 0, 1, 0, 0), CONSISTENT(1, 1), 1, BYTES(3),
        BYTES(OPEN), NO_LABELS },
    // 5(0), 6(1), 0[1]2, 7(2); 0 ~ 1? 0.1? 1.1? 5(1)? 1[1]0? between questions that are tried
    { "path among others", BYTES(7, 3, 0, 4, 0, 5,  8, 0, 0, 5,  8, 1, 0, 6,  4, 0, 0, 1, 2,
        8, 2, 0, 7,  2, 0, 1,  16, 0, 1, 0, 1,  16, 1, 1, 0, 1,  8, 1, 0, 5,  4, 1, 0, 1, 0),
        CONSISTENT(3, 3), 5, BYTES(3, 0, 0,  0, 3, 0,  0, 0, 3),
        BYTES(NEVER, ALWAYS, OPEN, NEVER, OPEN), TOLD(1 + 5, 1 + 6, 1 + 7), TOLD(0, 1 + 7) },
    // 5(0), 6(0), 0[1]1, 7(1); 0.1? no label beside a clash
    { "path beside a clash", BYTES(7, 2, 0, 4, 0, 1,  8, 0, 0, 5,  8, 0, 0, 6,  4, 0, 0, 1, 1,
        8, 1, 0, 7,  16, 0, 1, 0, 1), CLASH(0, 0), 1, BYTES(3, 0,  0, 3), NONE, NO_LABELS },
};

// 0 <= 1, 0 ~ 2, 0[263]3, 521(0), 3 ~ 1, 521(3);
// 0 <= 1? 2 ~ 1? 0[263]3? 520(1)? 521(1)? 1[263]3? 0[263]2?
static const struct sheet mixed = { "mixed",
    BYTES(7, 4, 0, 2, 0, 7,  15, 0, 1, 2, 1, 7, 3, 2, 9,  10, 3, 1, 2, 9,  1, 0, 1,  2, 2, 1,
        4, 0, 1, 7, 3,  8, 1, 2, 8,  8, 1, 2, 9,  4, 1, 1, 7, 3,  4, 0, 1, 7, 2),
    CONSISTENT(5, 12), 7, BYTES(3, 3, 2, 2,  2, 3, 0, 2,  2, 0, 3, 0,  2, 2, 0, 3),
    BYTES(ALWAYS, OPEN, ALWAYS, NEVER, ALWAYS, OPEN, OPEN), LABELS(1 + 521, 1 + 521, 0, 1 + 521) };

// Every kind of field, with the last variable wherever one is due but in the second record:
// 2 <= 2, 2 ~ 2, 2[1]2, 5(2), 5(0); 2 <= 2? 2 ~ 2? 2[1]2? 5(2)? 2.1.1?
static const struct sheet all_fields = { "all fields",
    BYTES(7, 3, 0, 2, 0, 5,  15, 2, 2, 2, 0, 1, 2, 0, 5,  8, 0, 0, 5,  1, 2, 2,  2, 2, 2,
        4, 2, 0, 1, 2,  8, 2, 0, 5,  16, 2, 2, 0, 1, 0, 1),
    CONSISTENT(3, 3), 5, BYTES(3, 0, 0,  0, 3, 0,  0, 0, 3),
    BYTES(ALWAYS, ALWAYS, ALWAYS, ALWAYS, ALWAYS), TOLD(1 + 5, 0, 1 + 5), TOLD(0, 0, 0, 0, 1 + 5) };

#define FAULT(name, number, offset, ...) \
    { name, BYTES(__VA_ARGS__), REFUSED(number, offset), 0, NONE, NONE, NO_LABELS }

// Refused sheets: the fault that comes first from the left is told.
static const struct sheet faulty[] = {
    { "empty", NONE, REFUSED(DOLVREKI_CUT, 0), 0, NONE, NONE, NO_LABELS },
    FAULT("header map alone", DOLVREKI_CUT, 1, 1),
    FAULT("map 0 alone", DOLVREKI_HEADER_MAP, 0, 0),
    FAULT("map 9, no variables", DOLVREKI_HEADER_MAP, 0, 9, 0),
    FAULT("no variables, a byte more", DOLVREKI_VARIABLE_COUNT, 1, 1, 0, 0),
    FAULT("129 variables", DOLVREKI_VARIABLE_COUNT, 1, 1, 129),
    FAULT("no variables, 1025 of both", DOLVREKI_VARIABLE_COUNT, 1, 7, 0, 4, 1, 4, 1),
    FAULT("1024 records, none there", DOLVREKI_CUT, 4, 3, 1, 4, 0),
    FAULT("1024 questions, none there", DOLVREKI_CUT, 4, 5, 1, 4, 0),
    FAULT("1025 records", DOLVREKI_COUNT, 2, 3, 1, 4, 1),
    FAULT("1025 questions", DOLVREKI_COUNT, 2, 5, 1, 4, 1),
    FAULT("1024 records, 1025 questions", DOLVREKI_COUNT, 4, 7, 1, 4, 0, 4, 1),
    FAULT("1025 of both", DOLVREKI_COUNT, 2, 7, 1, 4, 1, 4, 1),
    FAULT("half a record count", DOLVREKI_CUT, 3, 3, 1, 255),
    FAULT("half a question count", DOLVREKI_CUT, 5, 7, 1, 0, 0, 255),
    FAULT("record map 0", DOLVREKI_ITEM_MAP, 4, 3, 1, 0, 1, 0),
    FAULT("one behind the last variable", DOLVREKI_VARIABLE_RANGE, 6, 3, 5, 0, 1, 1, 0, 5),
    FAULT("record map 16, no such subject", DOLVREKI_ITEM_MAP, 4, 3, 1, 0, 1, 16, 1),
    FAULT("no such subject, no target", DOLVREKI_VARIABLE_RANGE, 5, 3, 1, 0, 1, 15, 1),
    FAULT("half a feature", DOLVREKI_CUT, 9, 3, 1, 0, 1, 15, 0, 0, 0, 0),
    FAULT("no such child, no label", DOLVREKI_VARIABLE_RANGE, 10, 3, 1, 0, 1, 15, 0, 0, 0, 0, 0, 1),
    FAULT("half a label", DOLVREKI_CUT, 12, 3, 1, 0, 1, 15, 0, 0, 0, 0, 0, 0, 0),
    FAULT("question map 3, no such subject", DOLVREKI_ITEM_MAP, 4, 5, 1, 0, 1, 3, 1),
    FAULT("no such subject, no such child", DOLVREKI_VARIABLE_RANGE, 5, 5, 1, 0, 1, 4, 1, 0, 0, 1),
    FAULT("a byte behind the header", DOLVREKI_TRAILING, 2, 1, 1, 0),
    FAULT("two bytes behind the header", DOLVREKI_TRAILING, 2, 1, 128, 1, 128),
    FAULT("a byte behind no records", DOLVREKI_TRAILING, 4, 3, 1, 0, 0, 0),
    FAULT("a record too many", DOLVREKI_TRAILING, 7, 3, 1, 0, 1, 1, 0, 0, 1, 0, 0),
    FAULT("a byte behind the question", DOLVREKI_TRAILING, 7, 5, 1, 0, 1, 1, 0, 0, 9),
    FAULT("question map 17, no such subject", DOLVREKI_ITEM_MAP, 4, 5, 1, 0, 1, 17, 1),
    FAULT("no such subject, no count", DOLVREKI_VARIABLE_RANGE, 5, 5, 1, 0, 1, 16, 1),
    FAULT("no count of features", DOLVREKI_CUT, 6, 5, 1, 0, 1, 16, 0),
    FAULT("path of no feature", DOLVREKI_PATH_LENGTH, 6, 5, 1, 0, 1, 16, 0, 0),
    FAULT("path of no feature, a byte more", DOLVREKI_PATH_LENGTH, 6, 5, 1, 0, 1, 16, 0, 0, 0),
    FAULT("path of nine features, none there", DOLVREKI_PATH_LENGTH, 6, 5, 1, 0, 1, 16, 0, 9),
    FAULT("path of nine features", DOLVREKI_PATH_LENGTH, 6, 5, 1, 0, 1, 16, 0, 9, 0, 0, 0, 0, 0, 0,
        0, 0, 0, 0, 0, 0, 0, 0, 0, 0, 0, 0),
    FAULT("path of 255 features", DOLVREKI_PATH_LENGTH, 6, 5, 1, 0, 1, 16, 0, 255, 0, 0),
    FAULT("half a feature of a path", DOLVREKI_CUT, 8, 5, 1, 0, 1, 16, 0, 1, 0),
    FAULT("second feature missing", DOLVREKI_CUT, 9, 5, 1, 0, 1, 16, 0, 2, 0, 1),
    FAULT("half of the second feature", DOLVREKI_CUT, 10, 5, 1, 0, 1, 16, 0, 2, 0, 1, 0),
    FAULT("half of the eighth feature", DOLVREKI_CUT, 22, 5, 1, 0, 1, 16, 0, 8, 0, 1, 0, 1, 0, 1,
        0, 1, 0, 1, 0, 1, 0, 1, 0),
    FAULT("a byte behind a path", DOLVREKI_TRAILING, 9, 5, 1, 0, 1, 16, 0, 1, 0, 1, 0),
    FAULT("a feature too many", DOLVREKI_TRAILING, 9, 5, 1, 0, 1, 16, 0, 1, 0, 1, 0, 1),
    FAULT("second path of no feature", DOLVREKI_PATH_LENGTH, 11, 5, 1, 0, 2, 16, 0, 1, 0, 1,
        16, 0, 0),
    FAULT("a question too many", DOLVREKI_TRAILING, 14, 7, 1, 0, 1, 0, 1, 8, 0, 0, 5, 8, 0, 0, 5,
        1, 0, 0),
};

// Other values of one byte of all_fields, for which the sheet is refused at that byte.
struct change {
    uint64_t number;
    size_t at;
    struct bytes values;
};

static const struct change changes[] = {
    { DOLVREKI_HEADER_MAP, 0, BYTES(0, 2, 4, 6, 15, 23, 39, 71, 135, 255) },
    { DOLVREKI_VARIABLE_COUNT, 1, BYTES(0, 129, 130, 255) },
    { DOLVREKI_COUNT, 2, BYTES(4, 5, 128, 255) },
    { DOLVREKI_COUNT, 4, BYTES(4, 5, 128, 255) },
    { DOLVREKI_ITEM_MAP, 6, BYTES(0, 16, 31, 47, 79, 143, 255) },
    { DOLVREKI_ITEM_MAP, 15, BYTES(0, 16, 24, 40, 72, 136) },
    { DOLVREKI_ITEM_MAP, 19, BYTES(0, 3, 5, 9, 17, 33, 65, 129) },
    { DOLVREKI_ITEM_MAP, 22, BYTES(0, 3, 6, 10, 18, 34, 66, 130) },
    { DOLVREKI_ITEM_MAP, 25, BYTES(0, 5, 6, 12, 20, 36, 68, 132) },
    { DOLVREKI_ITEM_MAP, 30, BYTES(0, 9, 10, 12, 15, 24, 40, 72, 136) },
    { DOLVREKI_ITEM_MAP, 34, BYTES(0, 17, 18, 20, 24, 31, 32, 48, 80, 144, 255) },
    { DOLVREKI_VARIABLE_RANGE, 7, BYTES(3, 4, 255) },
    { DOLVREKI_VARIABLE_RANGE, 8, BYTES(3, 255) },
    { DOLVREKI_VARIABLE_RANGE, 9, BYTES(3, 255) },
    { DOLVREKI_VARIABLE_RANGE, 12, BYTES(3, 255) },
    { DOLVREKI_VARIABLE_RANGE, 16, BYTES(3, 255) },
    { DOLVREKI_VARIABLE_RANGE, 20, BYTES(3, 255) },
    { DOLVREKI_VARIABLE_RANGE, 21, BYTES(3, 255) },
    { DOLVREKI_VARIABLE_RANGE, 23, BYTES(3, 255) },
    { DOLVREKI_VARIABLE_RANGE, 24, BYTES(3, 255) },
    { DOLVREKI_VARIABLE_RANGE, 26, BYTES(3, 255) },
    { DOLVREKI_VARIABLE_RANGE, 29, BYTES(3, 255) },
    { DOLVREKI_VARIABLE_RANGE, 31, BYTES(3, 255) },
    { DOLVREKI_VARIABLE_RANGE, 35, BYTES(3, 255) },
    { DOLVREKI_PATH_LENGTH, 36, BYTES(0, 9, 10, 16, 128, 255) },
};

static void check_list(check_function *check, const struct sheet *sheets, size_t count)
{
    for (size_t k = 0; k < count; k++)
        check(&sheets[k]);
}

static struct sheet refused_sheet(const char *name, const uint8_t *at, size_t length,
    uint64_t number, uint64_t offset)
{
    return (struct sheet) { name, { at, length }, REFUSED(number, offset), 0, NONE, NONE,
        NO_LABELS };
}

// A sheet cut off at each length that does not reach the given one: it ends too early.
static void check_cuts(check_function *check, const char *name, const uint8_t *at, size_t whole)
{
    char cut_name[128];
    for (size_t length = 0; length < whole; length++) {
        struct sheet cut = refused_sheet(cut_name, at, length, DOLVREKI_CUT, length);
        snprintf(cut_name, sizeof cut_name, "%s, cut off at %zu", name, length);
        check(&cut);
    }
}

// One other value in all_fields, with the fields behind it and cut off after the judged one; and
// cut off before, so that the fault is not reached.
static void check_change(check_function *check, const struct change *change, uint8_t value)
{
    uint8_t bytes[64];
    char name[64];
    size_t judged = change->at + (change->number == DOLVREKI_COUNT ? 2 : 1);
    size_t lengths[] = { all_fields.bytes.length, judged };
    memcpy(bytes, all_fields.bytes.at, all_fields.bytes.length);
    bytes[change->at] = value;
    snprintf(name, sizeof name, "all fields, byte %zu is %d", change->at, value);
    for (size_t k = 0; k < COUNT(lengths); k++) {
        struct sheet changed = refused_sheet(name, bytes, lengths[k], change->number, change->at);
        check(&changed);
    }
    check_cuts(check, name, bytes, judged);
}

static void check_changes(check_function *check)
{
    for (size_t k = 0; k < COUNT(changes); k++)
        for (size_t v = 0; v < changes[k].values.length; v++)
            check_change(check, &changes[k], changes[k].values.at[v]);
}

void written_sheets(check_function *check)
{
    check_list(check, cases, COUNT(cases));
    check_list(check, derivations, COUNT(derivations));
    check_list(check, clashes, COUNT(clashes));
    check_list(check, questions, COUNT(questions));
    check_list(check, labellings, COUNT(labellings));
    check_list(check, paths, COUNT(paths));
    check(&mixed);
    check_cuts(check, mixed.name, mixed.bytes.at, mixed.bytes.length);
    check_list(check, faulty, COUNT(faulty));
    check(&all_fields);
    check_changes(check);
}
