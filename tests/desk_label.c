// Asks of each sheet, variable by variable, for the label that the root has in all trees.
#include "desk.h"

// Numbers that few sheets or none have a variable of.
static const uint32_t far_numbers[] = { 127, 128, 255, 256, 65535, 65536, UINT32_MAX };

// How many variables a refused sheet may have; those written out have no more.
enum { REFUSED_VARIABLES = 5 };

// By the sheet's own list.
static uint64_t expected_label(const struct sheet *sheet, uint32_t variable)
{
    return variable < sheet->labels.count ? sheet->labels.at[variable] : 0;
}

struct asking root_labels = { "root_label", ask_label, expected_label, 0, 0 };

// How many variables a sheet has, by its table, which has a row for each.
static size_t count_variables(const struct sheet *sheet)
{
    size_t n = 0;
    while (n * n < sheet->facts.length)
        n++;
    return n == 0 ? REFUSED_VARIABLES : n;
}

// Each variable, two numbers more, and the far numbers.
void check_labels(const struct sheet *sheet)
{
    ask_numbers(&root_labels, sheet, count_variables(sheet) + 2, far_numbers,
        sizeof far_numbers / sizeof *far_numbers);
}
