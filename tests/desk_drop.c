// Asks of each sheet, question by question, whether the run-time test may be left out.
#include "desk.h"
#include "dolvreki.h"

// Numbers that few sheets or none have a question of.
static const uint32_t far_numbers[] = { 1023, 1024, 65535, 65536, UINT32_MAX };

// By the sheet's own outcome and replies: only a consistent sheet has a question answered always.
static uint64_t expected_drop(const struct sheet *sheet, uint32_t question)
{
    return sheet->outcome.kind == DOLVREKI_CONSISTENT && question < sheet->questions
        && sheet->replies.at[question] == DOLVREKI_ALWAYS;
}

struct asking drops = { "may_drop", ask_drop, expected_drop, 0, 0 };

// Each question, two numbers more, and the far numbers.
void check_drops(const struct sheet *sheet)
{
    ask_numbers(&drops, sheet, sheet->questions + 2, far_numbers,
        sizeof far_numbers / sizeof *far_numbers);
}
