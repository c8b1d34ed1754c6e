// All that C calls. Link with libdolvreki.a.
#ifndef DOLVREKI_H
#define DOLVREKI_H

#include <stdbool.h>
#include <stddef.h>
#include <stdint.h>

#ifdef __cplusplus
extern "C" {
#endif

// What kind of outcome it is.
enum { DOLVREKI_CONSISTENT = 0, DOLVREKI_CLASH = 1, DOLVREKI_REFUSED = 2 };

// What is replied to a question.
enum { DOLVREKI_ALWAYS = 0, DOLVREKI_NEVER = 1, DOLVREKI_OPEN = 2 };

// Why a call is refused: for a short buffer by 8 or 9, else for a fault of the sheet.
enum {
    DOLVREKI_CUT = 1,
    DOLVREKI_HEADER_MAP = 2,
    DOLVREKI_VARIABLE_COUNT = 3,
    DOLVREKI_COUNT = 4,
    DOLVREKI_ITEM_MAP = 5,
    DOLVREKI_VARIABLE_RANGE = 6,
    DOLVREKI_TRAILING = 7,
    DOLVREKI_SHORT_TABLE = 8,
    DOLVREKI_SHORT_REPLIES = 9,
    DOLVREKI_PATH_LENGTH = 10
};

// Bytes of the longest sheet that can be accepted.
enum { DOLVREKI_LONGEST_SHEET = 28678 };

// Checks a sheet over n variables with q questions. The caller lends the sheet, which is only read,
// two tables of at least n * n bytes each, and a buffer for at least q replies. Whatever the lines
// below do not name is as it was before the call.
//
// The outcome is kind + 256 * first + 16777216 * second; the functions below take it apart.
//   DOLVREKI_CONSISTENT  first is how many facts i <= j are derived, second how many i ~ j.
//                        facts: byte i * n + j is 1 for i <= j plus 2 for i ~ j;
//                        work: n * n zeros; replies: byte k answers question k.
//   DOLVREKI_CLASH       first and second are i and j of the least pair whose labels clash.
//                        facts: as above.
//   DOLVREKI_REFUSED     first is the number of the refusal, second the offset in the sheet, and
//                        0 where a buffer is short.
//
// The engine cannot test what the pointers lead to: all bytes up to the lengths have to be valid
// memory, and no byte may belong to two of the four parts. A pointer whose length is 0 is not
// followed and may be null.
uint64_t check_sheet(const uint8_t *sheet, size_t sheet_length, uint8_t *facts, size_t facts_length,
    uint8_t *work, size_t work_length, uint8_t *replies, size_t replies_length);

// Whether the run-time test of what question number `question` asks may be left out: true exactly
// when the bytes are a sheet, some assignment of trees meets it, it has a question of that number,
// and every assignment that meets it keeps that question. Each call is a whole check, on buffers of
// its own: some 34,000 bytes of stack more. For many questions of one sheet, call check_sheet once.
bool may_drop(const uint8_t *sheet, size_t sheet_length, uint32_t question);

// 1 + the label that the root of variable number `variable` has in every assignment of trees that
// meets the sheet; 0 where no label is common to all of them, where there is no variable of that
// number, and where the bytes are no sheet or no assignment meets it. Each call is a whole
// derivation, on buffers of its own: some 14,000 bytes of stack more.
uint64_t root_label(const uint8_t *sheet, size_t sheet_length, uint32_t variable);

// Does all that check_sheet does, and tells with the outcome the label at the path that question
// number `question` asks for: check_sheet's number + 1099511627776 * label. That is 1 + the label
// that all assignments of trees meeting the sheet have at the path; 0 where no label is common to
// them, where no path question has that number, and where the outcome is not consistent. Some
// 13,000 bytes of stack more.
uint64_t check_path(const uint8_t *sheet, size_t sheet_length, uint8_t *facts, size_t facts_length,
    uint8_t *work, size_t work_length, uint8_t *replies, size_t replies_length, uint32_t question);

// Bits 0 to 7, 8 to 23, 24 to 39 and 40 to 56 of an outcome, and no others; the last, 0 or 1 + a
// label, only of one that check_path gives.
static inline uint64_t dolvreki_kind(uint64_t outcome)
{
    return outcome & 0xff;
}

static inline uint64_t dolvreki_first(uint64_t outcome)
{
    return outcome >> 8 & 0xffff;
}

static inline uint64_t dolvreki_second(uint64_t outcome)
{
    return outcome >> 24 & 0xffff;
}

static inline uint64_t dolvreki_label(uint64_t outcome)
{
    return outcome >> 40 & 0x1ffff;
}

#ifdef __cplusplus
}
#endif

#endif
