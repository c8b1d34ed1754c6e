// Asks of each sheet, question by question, for the label that all trees have at its path.
#include "desk.h"

// Numbers that few sheets or none have a question of.
static const uint32_t far_numbers[] = { 255, 256, 1023, 1024, 65535, 65536, UINT32_MAX };

// By the sheet's own list.
static uint64_t expected_label(const struct sheet *sheet, uint32_t question)
{
    return question < sheet->at_paths.count ? sheet->at_paths.at[question] : 0;
}

struct asking path_labels = { "check_path", ask_path, expected_label, 0, 0 };

// Each question, two numbers more, and the far numbers.
void check_paths(const struct sheet *sheet)
{
    ask_numbers(&path_labels, sheet, sheet->questions + 2, far_numbers,
        sizeof far_numbers / sizeof *far_numbers);
}
