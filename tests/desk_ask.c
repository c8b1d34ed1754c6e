// Asks a call about one number after another.
#include "desk.h"
#include "dolvreki.h"

#include <stdio.h>

// One call, on a sheet that is named with the number.
static void ask_once(struct asking *asking, const struct sheet *sheet, uint32_t number, bool none)
{
    char name[160];
    struct sheet asked = *sheet;
    uint64_t expected = asking->expected(sheet, number), found = 0;
    asked.name = name;
    snprintf(name, sizeof name, "%s, %s of %ju", sheet->name, asking->name, (uintmax_t)number);
    if (!asking->ask(&asked, number, none, &found))
        return;
    asking->compared++;
    asking->given += found != 0;
    if (found == expected)
        return;
    report(&asked);
    printf("expected %ju, found %ju\n", (uintmax_t)expected, (uintmax_t)found);
}

// The call, and where the sheet has no bytes the same with a null pointer.
static void ask_number(struct asking *asking, const struct sheet *sheet, size_t number)
{
    ask_once(asking, sheet, (uint32_t)number, false);
    if (sheet->bytes.length == 0)
        ask_once(asking, sheet, (uint32_t)number, true);
}

// Of the longest sheets, whose checks take longest, every 17th number and the last three will do.
static bool is_asked(const struct sheet *sheet, size_t number, size_t count)
{
    return sheet->bytes.length < DOLVREKI_LONGEST_SHEET || number % 17 == 0 || number + 3 >= count;
}

void ask_numbers(struct asking *asking, const struct sheet *sheet, size_t count,
    const uint32_t *far, size_t far_count)
{
    for (size_t k = 0; k < count; k++)
        if (is_asked(sheet, k, count))
            ask_number(asking, sheet, k);
    for (size_t k = 0; k < far_count; k++)
        if (far[k] >= count)
            ask_number(asking, sheet, far[k]);
}
