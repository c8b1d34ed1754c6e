// A sheet of the test, what the calls have to give for it, and what the files of the test share.
#ifndef DESK_H
#define DESK_H

#include <stdbool.h>
#include <stddef.h>
#include <stdint.h>

struct bytes {
    const uint8_t *at;
    size_t length;
};

// What a call tells of the first numbers, 0 for no label, else 1 + the label; of all others it
// tells 0.
struct labels {
    const uint32_t *at;
    size_t count;
};

struct outcome {
    uint64_t kind, first, second;
};

// The outcome, table and replies are those of a call with buffers that are long enough. A refused
// sheet has no table; replies and labels are there only where the sheet is consistent. root_label
// tells the labels of variables, check_path those at the paths of questions.
struct sheet {
    const char *name;
    struct bytes bytes;
    struct outcome outcome;
    size_t questions;
    struct bytes facts, replies;
    struct labels labels, at_paths;
};

typedef void check_function(const struct sheet *sheet);

// Hands the sheets of the test to a function one after another: those that are written out, and
// those over 128 variables, which are built.
void written_sheets(check_function *check);
void built_sheets(check_function *check);

// Lends a sheet alone, a null pointer where none is to be lent, and makes a call about a number:
// whether it comes back, and then what it gives. What it touches or changes is reported.
typedef bool ask_function(const struct sheet *sheet, uint32_t number, bool none, uint64_t *found);

// Ask may_drop, of whose bool the byte is given, and root_label.
ask_function ask_drop, ask_label;

// Asks check_path, which is lent buffers of just the bytes that it needs. It gives the label; what
// else the call returns is compared.
ask_function ask_path;

// A call that is asked about many numbers: what it has to give, the calls that were compared, and
// those that gave another number than 0.
struct asking {
    const char *name;
    ask_function *ask;
    uint64_t (*expected)(const struct sheet *sheet, uint32_t number);
    size_t compared, given;
};

// Asks about so many numbers from 0 on, of the longest sheets not about each, and about those far
// numbers that are none of these.
void ask_numbers(struct asking *asking, const struct sheet *sheet, size_t count,
    const uint32_t *far, size_t far_count);

// Starts the line of a difference.
void report(const struct sheet *sheet);

// Compares what may_drop says of a sheet's questions, and of numbers that it has no question of.
void check_drops(const struct sheet *sheet);
extern struct asking drops;

// Compares what root_label gives of a sheet's variables, and of numbers that are none.
void check_labels(const struct sheet *sheet);
extern struct asking root_labels;

// Compares the label that check_path tells with a sheet's questions, and with numbers of none.
void check_paths(const struct sheet *sheet);
extern struct asking path_labels;

#endif
