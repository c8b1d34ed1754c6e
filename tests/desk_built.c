// Sheets over 128 variables, built together with what is expected of them, which has a closed form.
#include "desk.h"
#include "dolvreki.h"

#include <string.h>

enum { N = 128, ITEMS = 1024 };

// The sheet that is being built, with room for one byte more than the longest one has.
static uint8_t bytes[DOLVREKI_LONGEST_SHEET + 1], facts[N * N], replies[ITEMS];
static size_t length, replied;

// What root_label gives, and what label check_path tells with each question.
static uint32_t roots[N], at_paths[ITEMS];

static void put(size_t byte)
{
    bytes[length++] = (uint8_t)byte;
}

static void put_two(size_t number)
{
    put(number >> 8);
    put(number & 0xff);
}

static void put_ordering(size_t i, size_t j)
{
    put(1), put(i), put(j);
}

static void put_compatibility(size_t i, size_t j)
{
    put(2), put(i), put(j);
}

static void put_selection(size_t i, size_t f, size_t j)
{
    put(4), put(i), put_two(f), put(j);
}

static void put_label(size_t i, size_t a)
{
    put(8), put(i), put_two(a);
}

// The path of so many times one feature.
static void put_path(size_t i, size_t count, size_t f)
{
    put(16), put(i), put(count);
    for (size_t k = 0; k < count; k++)
        put_two(f);
}

// A record of all four statements about one variable.
static void put_four(size_t i, size_t f, size_t a)
{
    put(15), put(i), put(i), put(i), put_two(f), put(i), put_two(a);
}

// What is replied to the question that was put last, for which no label is told.
static void expect(uint8_t reply)
{
    at_paths[replied] = 0;
    replies[replied++] = reply;
}

// The same of a path that all trees have, with the label that they have there.
static void expect_label(size_t label)
{
    expect(DOLVREKI_ALWAYS);
    at_paths[replied - 1] = 1 + (uint32_t)label;
}

// Starts a sheet in which only F1.1 and F3.1 give facts, and there are no labels.
static void start(size_t records, size_t questions)
{
    length = replied = 0;
    put(7), put(N), put_two(records), put_two(questions);
    memset(facts, 0, sizeof facts);
    memset(roots, 0, sizeof roots);
    for (size_t i = 0; i < N; i++)
        facts[i * N + i] = 3;
}

// Hands over what was built; a clash has no replies and no labels.
static void finish(check_function *check, const char *name, uint64_t kind, uint64_t first,
    uint64_t second)
{
    struct sheet sheet = { name, { bytes, length }, { kind, first, second }, replied,
        { facts, sizeof facts }, { replies, kind == DOLVREKI_CLASH ? 0 : replied },
        { roots, kind == DOLVREKI_CLASH ? 0 : N },
        { at_paths, kind == DOLVREKI_CLASH ? 0 : replied } };
    check(&sheet);
}

static void finish_refused(check_function *check, const char *name, uint64_t number,
    uint64_t offset)
{
    struct sheet sheet = { name, { bytes, length }, { DOLVREKI_REFUSED, number, offset }, 0,
        { facts, 0 }, { replies, 0 }, { roots, 0 }, { at_paths, 0 } };
    check(&sheet);
}

static void bare(check_function *check)
{
    start(0, 0);
    finish(check, "128 variables", DOLVREKI_CONSISTENT, N, N);
}

// 0 <= 1 <= ... <= 127, of which any two are compatible.
static void put_order(void)
{
    for (size_t i = 0; i + 1 < N; i++)
        put_ordering(i, i + 1);
    for (size_t i = 0; i < N; i++)
        for (size_t j = 0; j < N; j++)
            facts[i * N + j] = i <= j ? 3 : 2;
}

static void order(check_function *check)
{
    start(N - 1, 0);
    put_order();
    finish(check, "order", DOLVREKI_CONSISTENT, N * (N + 1) / 2, N * N);
}

static void order_clash(check_function *check)
{
    start(N + 1, 2);
    put_label(N - 1, 6);
    put_order();
    put_label(0, 5);
    put_ordering(0, 1), expect(DOLVREKI_ALWAYS);
    put_label(0, 6), expect(DOLVREKI_NEVER);
    finish(check, "order, labels at both ends", DOLVREKI_CLASH, 0, N - 1);
}

// An order with the label 5 at its least variable, so that all above have it; four questions.
static void ask_order(size_t i, size_t j, size_t a)
{
    put_ordering(i, j), expect(i <= j ? DOLVREKI_ALWAYS : DOLVREKI_OPEN);
    put_compatibility(i, j), expect(DOLVREKI_ALWAYS);
    put_label(i, a), expect(a == 5 ? DOLVREKI_ALWAYS : DOLVREKI_NEVER);
    put_selection(i, a, j), expect(DOLVREKI_OPEN);
}

static void order_asked(check_function *check)
{
    start(N, ITEMS);
    put_order();
    put_label(0, 5);
    for (size_t i = 0; i < N; i++)
        roots[i] = 1 + 5;
    for (size_t k = 0; k < ITEMS / 4; k++)
        ask_order(37 * k % N, (91 * k + 5) % N, 5 + k % 2);
    finish(check, "order, asked", DOLVREKI_CONSISTENT, N * (N + 1) / 2, N * N);
}

// Two chains of children, from 0 to 63 and from 64 to 127, the lowest selections first.
static void put_chains(void)
{
    for (size_t k = N / 2 - 1; k > 0; k--) {
        put_selection(k - 1, 0, k);
        put_selection(N / 2 + k - 1, 0, N / 2 + k);
    }
}

// The same with 0 <= 64: each of the first chain is below its like in the second.
static void put_ordered_chains(void)
{
    put_chains();
    put_ordering(0, N / 2);
    for (size_t k = 0; k < N / 2; k++) {
        facts[k * N + N / 2 + k] = 3;
        facts[(N / 2 + k) * N + k] = 2;
    }
}

static void chains(check_function *check)
{
    start(N - 1, 0);
    put_ordered_chains();
    finish(check, "chains", DOLVREKI_CONSISTENT, N + N / 2, 2 * N);
}

// A label for each of the first chain, the last one's 65535: its like in the second has it too.
static void chains_labelled(check_function *check)
{
    start(N - 1 + N / 2, 0);
    put_ordered_chains();
    for (size_t k = 0; k < N / 2; k++) {
        size_t label = 65535 - (N / 2 - 1) + k;
        put_label(k, label);
        roots[k] = roots[N / 2 + k] = 1 + (uint32_t)label;
    }
    finish(check, "chains, labels in the first", DOLVREKI_CONSISTENT, N + N / 2, 2 * N);
}

static void chains_clash(check_function *check)
{
    start(N + 1, 0);
    put_ordered_chains();
    put_label(N / 2 - 1, 5);
    put_label(N - 1, 6);
    finish(check, "chains, labels at both ends", DOLVREKI_CLASH, N / 2 - 1, N - 1);
}

// The labels at the ends clash exactly where a question leads down both chains in step.
static void chains_asked(check_function *check)
{
    start(N, 6);
    put_chains();
    put_label(N / 2 - 1, 5);
    put_label(N - 1, 6);
    roots[N / 2 - 1] = 1 + 5;
    roots[N - 1] = 1 + 6;
    put_ordering(0, N / 2), expect(DOLVREKI_NEVER);
    put_ordering(1, N / 2), expect(DOLVREKI_OPEN);
    put_compatibility(N / 2, 0), expect(DOLVREKI_NEVER);
    put_selection(0, 0, N / 2 + 1), expect(DOLVREKI_NEVER);
    put_selection(0, 1, N / 2 + 1), expect(DOLVREKI_OPEN);
    put_label(N / 2, 5), expect(DOLVREKI_OPEN);
    finish(check, "chains, asked", DOLVREKI_CONSISTENT, N, N);
}

// A chain of children from 0 to 63, and 0 <= 64 <= 65 <= ... <= 127, which have no child stated.
static void put_chain_below(void)
{
    for (size_t k = N / 2 - 1; k > 0; k--)
        put_selection(k - 1, 0, k);
    for (size_t k = N - 1; k > N / 2; k--)
        put_ordering(k - 1, k);
    put_ordering(0, N / 2);
    for (size_t i = N / 2; i < N; i++) {
        facts[i] = 3;
        facts[i * N] = 2;
        for (size_t j = N / 2; j < N; j++)
            facts[i * N + j] = i <= j ? 3 : 2;
    }
}

// The chain is below 64 to 127 as it is below 0, with the label that one of it has.
static void chain_followed(check_function *check)
{
    size_t ordered = 1 + N / 2, others = N / 2 - 1;
    start(N, 8);
    put_chain_below();
    put_label(8, 5);
    roots[8] = 1 + 5;
    put_path(0, 8, 0), expect_label(5);
    put_path(N - 1, 8, 0), expect_label(5);
    put_path(N / 2, 7, 0), expect(DOLVREKI_ALWAYS);
    put_path(7, 1, 0), expect_label(5);
    put_path(N / 2 - 9, 8, 0), expect(DOLVREKI_ALWAYS);
    put_path(N / 2 - 8, 8, 0), expect(DOLVREKI_OPEN);
    put_path(N / 2 - 1, 1, 0), expect(DOLVREKI_OPEN);
    put_path(N - 1, 1, 1), expect(DOLVREKI_OPEN);
    finish(check, "chain, followed", DOLVREKI_CONSISTENT, ordered * (ordered + 1) / 2 + others,
        ordered * ordered + others);
}

// A circle of all variables under one feature. No two are ordered, so a path goes round variable by
// variable; the last one has a label.
static void circle_followed(check_function *check)
{
    start(N + 1, ITEMS);
    for (size_t i = 0; i < N; i++)
        put_selection(i, 256, (i + 1) % N);
    put_label(N - 1, 65535);
    roots[N - 1] = 65536;
    for (size_t k = 0; k < ITEMS; k++) {
        size_t i = k % N, count = 1 + k / N;
        put_path(i, count, 256);
        if ((i + count) % N == N - 1)
            expect_label(65535);
        else
            expect(DOLVREKI_ALWAYS);
    }
    finish(check, "circle, followed", DOLVREKI_CONSISTENT, N, N);
}

// As many records as there may be, 0 in all fields.
static void put_zeros(void)
{
    start(ITEMS, ITEMS);
    roots[0] = 1 + 0;
    for (size_t k = 0; k < ITEMS; k++)
        put_four(0, 0, 0);
}

// As many questions for a child, 0 in all fields.
static void zeros_asked(check_function *check)
{
    put_zeros();
    for (size_t k = 0; k < ITEMS; k++)
        put_selection(0, 0, 0), expect(DOLVREKI_ALWAYS);
    finish(check, "zeros, asked", DOLVREKI_CONSISTENT, N, N);
}

// The longest sheet, 0 in all fields; a byte more, and a byte less.
static void longest(check_function *check)
{
    put_zeros();
    for (size_t k = 0; k < ITEMS; k++)
        put_path(0, 8, 0), expect_label(0);
    finish(check, "longest", DOLVREKI_CONSISTENT, N, N);
    put(0);
    finish_refused(check, "longest and a byte", DOLVREKI_TRAILING, DOLVREKI_LONGEST_SHEET);
    length -= 2;
    finish_refused(check, "longest but a byte", DOLVREKI_CUT, DOLVREKI_LONGEST_SHEET - 1);
}

// Each variable is its own child at features 0 to 7 and has a label of its own.
static void put_loops(void)
{
    start(ITEMS, ITEMS);
    for (size_t k = 0; k < ITEMS; k++)
        put_four(k % N, k / N, 257 * (k % N));
    for (size_t i = 0; i < N; i++)
        roots[i] = 1 + 257 * (uint32_t)i;
}

// The path of seven features, those from f on of 0 to 7 in turn, and of a last one.
static void put_mixed_path(size_t i, size_t f, size_t last)
{
    put(16), put(i), put(8);
    for (size_t k = 0; k < 7; k++)
        put_two((f + k) % 8);
    put_two(last);
}

// The longest sheet again. The last feature of a path is there, or it is not.
static void longest_mixed(check_function *check)
{
    put_loops();
    for (size_t k = 0; k < ITEMS; k++) {
        size_t i = k % N, f = k / N;
        if (k % 3 == 0)
            put_mixed_path(i, f, 256 + f), expect(DOLVREKI_OPEN);
        else
            put_mixed_path(i, f, f), expect_label(257 * i);
    }
    finish(check, "longest, mixed", DOLVREKI_CONSISTENT, N, N);
}

// As many records, and as many questions for a child. A question i[f]j names i itself; another one,
// whose label clashes; or any at a feature that is not there.
static void loops_selected(check_function *check)
{
    put_loops();
    for (size_t k = 0; k < ITEMS; k++) {
        size_t i = k % N, f = k / N, j = (i + 31) % N;
        if (k % 3 == 0)
            put_selection(i, f, i), expect(DOLVREKI_ALWAYS);
        else if (k % 3 == 1)
            put_selection(i, f, j), expect(DOLVREKI_NEVER);
        else
            put_selection(i, 256 + f, j), expect(DOLVREKI_OPEN);
    }
    finish(check, "loops, selected", DOLVREKI_CONSISTENT, N, N);
}

// As many records, and questions of all kinds, about i itself and about another one.
static void loops_asked(check_function *check)
{
    put_loops();
    for (size_t k = 0; k < ITEMS / 8; k++) {
        size_t i = k % N, j = (i + 31) % N;
        put_ordering(i, i), expect(DOLVREKI_ALWAYS);
        put_ordering(i, j), expect(DOLVREKI_NEVER);
        put_compatibility(i, i), expect(DOLVREKI_ALWAYS);
        put_compatibility(i, j), expect(DOLVREKI_NEVER);
        put_label(i, 257 * i), expect(DOLVREKI_ALWAYS);
        put_label(i, 257 * j), expect(DOLVREKI_NEVER);
        put_selection(i, k % 8, j), expect(DOLVREKI_NEVER);
        put_selection(i, 8, j), expect(DOLVREKI_OPEN);
    }
    finish(check, "loops, asked", DOLVREKI_CONSISTENT, N, N);
}

void built_sheets(check_function *check)
{
    bare(check);
    order(check);
    order_clash(check);
    order_asked(check);
    chains(check);
    chains_labelled(check);
    chains_clash(check);
    chains_asked(check);
    chain_followed(check);
    circle_followed(check);
    zeros_asked(check);
    longest(check);
    longest_mixed(check);
    loops_selected(check);
    loops_asked(check);
}
