// Calls the check as a C program does, on sheets with a known outcome and with buffers of many
// lengths, and compares the outcome and every byte that was lent; then asks which tests may be left
// out, and which labels all trees have, at their roots and at paths.
#define _DEFAULT_SOURCE
#include "desk.h"
#include "dolvreki.h"

#include <setjmp.h>
#include <signal.h>
#include <stdio.h>
#include <stdlib.h>
#include <string.h>
#include <sys/mman.h>
#include <unistd.h>

// Bytes behind what a call needs, in the longest buffers; and the longest part that is ever lent: a
// sheet, as a table has no more than 128 * 128 bytes.
enum { SPARE = 7, LONGEST_PART = DOLVREKI_LONGEST_SHEET + SPARE };

enum { SHEET, FACTS, WORK, REPLIES, PARTS };

static const char *const part_names[PARTS] = { "sheet", "facts", "work", "replies" };

// A part that is lent. It ends where its room ends, and the room lies between two pages that can be
// neither read nor written.
struct part {
    uint8_t *room;
    size_t length;
    // the whole room as it has to be after the call
    uint8_t *expected;
};

static struct part parts[PARTS];
static size_t page, room_size;

// Whether a null pointer is lent for a part without bytes.
static bool null_for_none;

// Bytes that no table and no reply has, from which each room of each call takes another run.
enum { RUNS = 65521 };
static uint8_t *patterns;

static size_t calls, differences;

static void stop(const char *what)
{
    perror(what);
    exit(2);
}

static uint8_t *allocate(size_t size)
{
    uint8_t *at = malloc(size);
    if (at == NULL)
        stop("malloc");
    return at;
}

static void protect(uint8_t *room, int access)
{
    if (mprotect(room, room_size, access) != 0)
        stop("mprotect");
}

static void make_rooms(void)
{
    page = (size_t)sysconf(_SC_PAGESIZE);
    room_size = (LONGEST_PART / page + 2) * page;
    for (int p = 0; p < PARTS; p++) {
        size_t size = room_size + 2 * page;
        uint8_t *all = mmap(NULL, size, PROT_NONE, MAP_PRIVATE | MAP_ANONYMOUS, -1, 0);
        if (all == MAP_FAILED)
            stop("mmap");
        parts[p].room = all + page;
        parts[p].expected = allocate(room_size);
        protect(parts[p].room, PROT_READ | PROT_WRITE);
    }
}

// Draws the patterns from a fixed seed: splitmix64, and 4 to 255 of it.
static void make_patterns(void)
{
    uint64_t state = 2204;
    patterns = allocate(RUNS + room_size);
    for (size_t k = 0; k < RUNS + room_size; k++) {
        uint64_t z = state += 0x9e3779b97f4a7c15u;
        z = (z ^ (z >> 30)) * 0xbf58476d1ce4e5b9u;
        z = (z ^ (z >> 27)) * 0x94d049bb133111ebu;
        patterns[k] = 4 + (z ^ (z >> 31)) % 252;
    }
}

static uint8_t *part_start(int p)
{
    return parts[p].room + room_size - parts[p].length;
}

// What is lent of a part.
static uint8_t *lent(int p)
{
    return parts[p].length == 0 && null_for_none ? NULL : part_start(p);
}

// Where the part starts in what is expected.
static uint8_t *expected_start(int p)
{
    return parts[p].expected + room_size - parts[p].length;
}

// Fills all rooms with patterns and puts the sheet into its own, which can then only be read.
static void fill_rooms(const struct sheet *sheet)
{
    protect(parts[SHEET].room, PROT_READ | PROT_WRITE);
    for (int p = 0; p < PARTS; p++) {
        memcpy(parts[p].expected, patterns + (calls * 7919 + p * 16381) % RUNS, room_size);
        if (p == SHEET)
            memcpy(expected_start(p), sheet->bytes.at, sheet->bytes.length);
        memcpy(parts[p].room, parts[p].expected, room_size);
    }
    protect(parts[SHEET].room, PROT_READ);
}

// The outcome with the lengths of this call: a fault of the sheet, a short table, short replies,
// else the sheet's own.
static struct outcome expected_outcome(const struct sheet *sheet)
{
    size_t size = sheet->facts.length;
    if (sheet->outcome.kind == DOLVREKI_REFUSED)
        return sheet->outcome;
    if (parts[FACTS].length < size || parts[WORK].length < size)
        return (struct outcome) { DOLVREKI_REFUSED, DOLVREKI_SHORT_TABLE, 0 };
    if (parts[REPLIES].length < sheet->questions)
        return (struct outcome) { DOLVREKI_REFUSED, DOLVREKI_SHORT_REPLIES, 0 };
    return sheet->outcome;
}

// Turns what the rooms have before the call into what they have after it.
static void expect_bytes(const struct sheet *sheet, const struct outcome *outcome)
{
    if (outcome->kind == DOLVREKI_REFUSED)
        return;
    memcpy(expected_start(FACTS), sheet->facts.at, sheet->facts.length);
    if (outcome->kind == DOLVREKI_CLASH)
        return;
    memset(expected_start(WORK), 0, sheet->facts.length);
    memcpy(expected_start(REPLIES), sheet->replies.at, sheet->replies.length);
}

void report(const struct sheet *sheet)
{
    differences++;
    printf("%s; facts %zu, work %zu, replies %zu: ", sheet->name, parts[FACTS].length,
        parts[WORK].length, parts[REPLIES].length);
}

// Compares a number that has no label.
static void compare_outcome(const struct sheet *sheet, const struct outcome *outcome,
    uint64_t found)
{
    // with all bits set that none of the three is made of
    uint64_t more = found | UINT64_MAX << 40;
    uint64_t kind = dolvreki_kind(more), first = dolvreki_first(more);
    uint64_t second = dolvreki_second(more);
    uint64_t packed = outcome->kind + 256 * outcome->first + 16777216 * outcome->second;
    if (found == packed && kind == outcome->kind && first == outcome->first
        && second == outcome->second)
        return;
    report(sheet);
    printf("outcome: expected %ju %ju %ju (%ju), found %ju %ju %ju (%ju)\n",
        (uintmax_t)outcome->kind, (uintmax_t)outcome->first, (uintmax_t)outcome->second,
        (uintmax_t)packed, (uintmax_t)kind, (uintmax_t)first, (uintmax_t)second, (uintmax_t)found);
}

// Tells the first byte of a room that is not as expected; before the part, the offset is negative.
static void compare_bytes(const struct sheet *sheet, int p)
{
    const uint8_t *room = parts[p].room, *expected = parts[p].expected;
    size_t at = 0;
    if (memcmp(room, expected, room_size) == 0)
        return;
    while (room[at] == expected[at])
        at++;
    report(sheet);
    printf("%s, offset %td: expected %d, found %d\n", part_names[p], room + at - part_start(p),
        expected[at], room[at]);
}

static sigjmp_buf before_call;
static volatile sig_atomic_t calling;
static const uint8_t *volatile touched;

// Leaves a call that touches what it must not, and ends the program where there is no call.
static void leave_call(int number, siginfo_t *info, void *context)
{
    (void)context;
    if (!calling) {
        signal(number, SIG_DFL);
        return;
    }
    touched = info->si_addr;
    siglongjmp(before_call, 1);
}

static void catch_faults(void)
{
    struct sigaction action;
    memset(&action, 0, sizeof action);
    action.sa_sigaction = leave_call;
    action.sa_flags = SA_SIGINFO;
    sigemptyset(&action.sa_mask);
    if (sigaction(SIGSEGV, &action, NULL) != 0 || sigaction(SIGBUS, &action, NULL) != 0)
        stop("sigaction");
}

// A call on the parts that are lent, which may be about a question or a variable.
typedef uint64_t lending_call(uint32_t number);

static uint64_t call_check(uint32_t number)
{
    (void)number;
    return check_sheet(lent(SHEET), parts[SHEET].length, lent(FACTS), parts[FACTS].length,
        lent(WORK), parts[WORK].length, lent(REPLIES), parts[REPLIES].length);
}

// Gives the byte of the bool, so that one other than 0 and 1 is seen.
static uint64_t call_drop(uint32_t question)
{
    bool dropped = may_drop(lent(SHEET), parts[SHEET].length, question);
    uint8_t byte;
    memcpy(&byte, &dropped, 1);
    return byte;
}

static uint64_t call_label(uint32_t variable)
{
    return root_label(lent(SHEET), parts[SHEET].length, variable);
}

static uint64_t call_path(uint32_t question)
{
    return check_path(lent(SHEET), parts[SHEET].length, lent(FACTS), parts[FACTS].length,
        lent(WORK), parts[WORK].length, lent(REPLIES), parts[REPLIES].length, question);
}

// Makes a call: whether it comes back.
static bool comes_back(lending_call *call, uint32_t number, uint64_t *found)
{
    calling = 1;
    if (sigsetjmp(before_call, 1) == 0) {
        *found = call(number);
        calling = 0;
        return true;
    }
    calling = 0;
    return false;
}

static void report_touch(const struct sheet *sheet)
{
    uintptr_t at = (uintptr_t)touched;
    report(sheet);
    for (int p = 0; p < PARTS; p++) {
        uintptr_t room = (uintptr_t)parts[p].room;
        if (at >= room - page && at < room + room_size + page) {
            intptr_t offset = (intptr_t)(at - (uintptr_t)part_start(p));
            printf("%s, offset %jd: expected no access, found one\n", part_names[p],
                (intmax_t)offset);
            return;
        }
    }
    printf("no part: expected no access, found one\n");
}

// Makes a call and looks at all rooms: whether it comes back.
static bool make_call(const struct sheet *sheet, lending_call *call, uint32_t number,
    uint64_t *found)
{
    calls++;
    if (!comes_back(call, number, found)) {
        report_touch(sheet);
        return false;
    }
    for (int p = 0; p < PARTS; p++)
        compare_bytes(sheet, p);
    return true;
}

// Makes a call that is lent all parts, with the lengths that are set: whether it comes back, and
// then the label. What else it returns is compared.
static bool ask_lent(const struct sheet *sheet, lending_call *call, uint32_t number,
    uint64_t *label)
{
    struct outcome outcome = expected_outcome(sheet);
    uint64_t found = 0;
    fill_rooms(sheet);
    expect_bytes(sheet, &outcome);
    if (!make_call(sheet, call, number, &found))
        return false;
    // with all bits set that no outcome is made of
    *label = dolvreki_label(found | UINT64_MAX << 57);
    compare_outcome(sheet, &outcome, found - (*label << 40));
    return true;
}

static void compare_label(const struct sheet *sheet, const char *call, uint64_t expected,
    uint64_t found)
{
    if (found == expected)
        return;
    report(sheet);
    printf("%s, label: expected %ju, found %ju\n", call, (uintmax_t)expected, (uintmax_t)found);
}

// The label at the path of question 0, with the lengths that are set.
static uint64_t expected_first(const struct sheet *sheet)
{
    struct outcome outcome = expected_outcome(sheet);
    return outcome.kind == DOLVREKI_CONSISTENT ? path_labels.expected(sheet, 0) : 0;
}

// One call of check_sheet with the lengths that are set, and one of check_path about question 0.
static void check_call(const struct sheet *sheet)
{
    uint64_t label = 0;
    if (ask_lent(sheet, call_check, 0, &label))
        compare_label(sheet, "check_sheet", 0, label);
    if (ask_lent(sheet, call_path, 0, &label))
        compare_label(sheet, "check_path", expected_first(sheet), label);
}

// Makes a call that is lent the sheet alone.
static bool ask_alone(const struct sheet *sheet, lending_call *call, uint32_t number, bool none,
    uint64_t *found)
{
    for (int p = 0; p < PARTS; p++)
        parts[p].length = p == SHEET ? sheet->bytes.length : 0;
    null_for_none = none;
    fill_rooms(sheet);
    return make_call(sheet, call, number, found);
}

bool ask_drop(const struct sheet *sheet, uint32_t question, bool none, uint64_t *found)
{
    return ask_alone(sheet, call_drop, question, none, found);
}

bool ask_label(const struct sheet *sheet, uint32_t variable, bool none, uint64_t *found)
{
    return ask_alone(sheet, call_label, variable, none, found);
}

bool ask_path(const struct sheet *sheet, uint32_t question, bool none, uint64_t *found)
{
    parts[SHEET].length = sheet->bytes.length;
    parts[FACTS].length = parts[WORK].length = sheet->facts.length;
    parts[REPLIES].length = sheet->questions;
    null_for_none = none;
    return ask_lent(sheet, call_path, question, found);
}

// The call, and where a part has no bytes the same with null pointers.
static void check_pointers(const struct sheet *sheet)
{
    bool none = false;
    for (int p = 0; p < PARTS; p++)
        none = none || parts[p].length == 0;
    null_for_none = false;
    check_call(sheet);
    null_for_none = true;
    if (none)
        check_call(sheet);
}

// The lengths to be tried, none twice, of a buffer that needs so many bytes; of a refused sheet,
// any.
static size_t choose_lengths(const struct sheet *sheet, size_t need, size_t lengths[4])
{
    size_t about[] = { 0, need - (need > 0), need, need + SPARE };
    size_t any[] = { 0, 1, 1, LONGEST_PART };
    const size_t *from = sheet->outcome.kind == DOLVREKI_REFUSED ? any : about;
    size_t count = 0;
    for (size_t k = 0; k < 4; k++)
        if (count == 0 || lengths[count - 1] != from[k])
            lengths[count++] = from[k];
    return count;
}

// Calls with all lengths of either table and of the replies.
static void check_lengths(const struct sheet *sheet)
{
    size_t tables[4], replies[4];
    size_t table_count = choose_lengths(sheet, sheet->facts.length, tables);
    size_t replies_count = choose_lengths(sheet, sheet->questions, replies);
    parts[SHEET].length = sheet->bytes.length;
    for (size_t f = 0; f < table_count; f++)
        for (size_t w = 0; w < table_count; w++)
            for (size_t r = 0; r < replies_count; r++) {
                parts[FACTS].length = tables[f];
                parts[WORK].length = tables[w];
                parts[REPLIES].length = replies[r];
                check_pointers(sheet);
            }
}

static void check_sheets(check_function *check)
{
    written_sheets(check);
    built_sheets(check);
}

// Whether a call never gave 0, or never anything else.
static bool one_sided(const struct asking *asking)
{
    return asking->given == 0 || asking->given == asking->compared;
}

static void tell_labels(const struct asking *asking)
{
    printf("%zu of %s compared, %zu of them with a label, ", asking->compared, asking->name,
        asking->given);
}

int main(void)
{
    make_rooms();
    make_patterns();
    catch_faults();
    check_sheets(check_lengths);
    check_sheets(check_drops);
    check_sheets(check_labels);
    check_sheets(check_paths);
    printf("desk: %zu calls, %zu of may_drop compared, %zu of them true, ", calls, drops.compared,
        drops.given);
    tell_labels(&root_labels);
    tell_labels(&path_labels);
    printf("%zu differences\n", differences);
    return differences != 0 || one_sided(&drops) || one_sided(&root_labels)
        || one_sided(&path_labels);
}
