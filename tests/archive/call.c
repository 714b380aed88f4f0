/* Calls every function of the static library from C, and holds each answer to document 01's worked examples.
 *
 * Only the header of the library is included, so that a compiler without a C library's headers compiles it too. */
#include "awelodrun.h"

int printf(const char *format, ...);

#define LENGTH(list) (sizeof (list) / sizeof (list)[0])

enum { MARK = 77 };

static int asked, wrong;

/* One number of an answer. */
static void is(const char *what, size_t at, uint32_t expected, uint32_t got)
{
    asked++;
    if (expected != got) {
        wrong++;
        printf("%s[%lu]: expected %lu, got %lu\n", what, (unsigned long)at, (unsigned long)expected, (unsigned long)got);
    }
}

static void are(const char *what, const uint32_t *expected, const uint32_t *got, size_t n)
{
    for (size_t i = 0; i < n; i++)
        is(what, i, expected[i], got[i]);
}

static void bytes_are(const char *what, const uint8_t *expected, const uint8_t *got, size_t n)
{
    for (size_t i = 0; i < n; i++)
        is(what, i, expected[i], got[i]);
}

static void refusal_is(const char *what, uint32_t no, uint32_t entry, uint32_t row, struct awelodrun_refusal got)
{
    are(what, (uint32_t[]){no, entry, row}, (uint32_t[]){got.no, got.entry, got.row}, 3);
}

static void table_is(const char *what, const struct awelodrun_table *expected, const struct awelodrun_table *got)
{
    const uint16_t *a = (const uint16_t *)(const void *)expected;
    const uint16_t *b = (const uint16_t *)(const void *)got;
    for (size_t i = 0; i < sizeof *expected / sizeof *a; i++)
        is(what, i, a[i], b[i]);
}

/* Document 01's first table, and its input of 38 bytes, which has the table under the number 7. */
static const struct awelodrun_table worked = {2, 1, 3, {{2, 1, 1}, {3, 2, 2}, {4, 2, 3}}};
static const struct awelodrun_table none;
static const uint8_t file[] = {
    0x01, 0x00, 0x01, 0x00, 0x01, 0x00, 0x07, 0x00, 0x10, 0x00, 0x16, 0x00, 0x1A, 0x00, 0x2D, 0x01, 0x02, 0x01, 0x03,
    0x00, 0x02, 0x00, 0x01, 0x00, 0x01, 0x00, 0x03, 0x00, 0x02, 0x00, 0x02, 0x00, 0x04, 0x00, 0x02, 0x00, 0x03, 0x00};

static awelodrun_set map[AWELODRUN_SLOTS], pins[AWELODRUN_SLOTS];

static void mark(void)
{
    for (size_t i = 0; i < LENGTH(map); i++)
        map[i] = pins[i] = MARK;
}

static void marked(const char *what, size_t from)
{
    for (size_t i = from; i < LENGTH(map); i++) {
        is(what, i, MARK, map[i]);
        is(what, i, MARK, pins[i]);
    }
}

static void checked(const char *what, uint32_t no, uint32_t row, uint32_t frame, struct awelodrun_checked got)
{
    refusal_is(what, no, 0, row, got.refusal);
    is(what, 3, frame, got.frame);
}

static void checks(void)
{
    struct awelodrun_table t = worked;
    checked("check", 0, 0, 12, awelodrun_check(&t));
    t.count = 4;
    checked("check of a row that is not there", 4, 3, 0, awelodrun_check(&t));
    /* No number is narrowed: 259 is 3 in its lower byte. */
    t = worked;
    t.processors = 259;
    checked("m of 259", 1, 0, 0, awelodrun_check(&t));
    t = worked;
    t.depth = 257;
    checked("x of 257", 2, 0, 0, awelodrun_check(&t));
    t = worked;
    t.count = 259;
    checked("a count of 259", 3, 0, 0, awelodrun_check(&t));
    t.count = 65535;
    checked("a count of 65,535", 3, 0, 0, awelodrun_check(&t));
    struct awelodrun_file f = awelodrun_file_check(file, LENGTH(file));
    refusal_is("file_check", 0, 0, 0, f.refusal);
    is("entries", 0, 1, f.entries);
    f = awelodrun_file_check(file, LENGTH(file) - 1);
    refusal_is("file_check of a cut file", 13, 0, 0, f.refusal);
    is("entries of a cut file", 0, 0, f.entries);
    refusal_is("file_check of no file", 9, 0, 0, awelodrun_file_check(NULL, 0).refusal);
}

static void list_checks(void)
{
    static struct awelodrun_row list[40];
    const struct awelodrun_beside beside = {2, 1};
    for (size_t i = 0; i < LENGTH(list); i++)
        list[i] = (struct awelodrun_row){4, 2, 3};
    list[0] = (struct awelodrun_row){2, 1, 1};
    list[1] = (struct awelodrun_row){3, 2, 2};
    checked("check_list", 0, 0, 12, awelodrun_check_list(beside, list, 3));
    checked("check_list of no row", 3, 0, 0, awelodrun_check_list(beside, list, 0));
    checked("check_list of no list", 3, 0, 0, awelodrun_check_list(beside, NULL, 0));
    checked("check_list of 32 rows", 0, 0, 12, awelodrun_check_list(beside, list, 32));
    checked("check_list of 33 rows", 3, 0, 0, awelodrun_check_list(beside, list, 33));
    checked("check_list with m 0", 1, 0, 0, awelodrun_check_list((struct awelodrun_beside){0, 1}, list, 3));
    checked("check_list with m 259", 1, 0, 0, awelodrun_check_list((struct awelodrun_beside){259, 1}, list, 3));
    checked("check_list with x 9", 2, 0, 0, awelodrun_check_list((struct awelodrun_beside){2, 9}, list, 3));
    checked("check_list with x 257", 2, 0, 0, awelodrun_check_list((struct awelodrun_beside){2, 257}, list, 3));
    list[2].deadline = 5;
    checked("check_list of a bad row", 5, 2, 0, awelodrun_check_list(beside, list, 3));
    list[2] = (struct awelodrun_row){4096, 1, 1};
    checked("check_list of a long frame", 7, 2, 0, awelodrun_check_list(beside, list, 3));
}

static void verdict_is(const char *what, const uint32_t expected[5], struct awelodrun_verdict got)
{
    refusal_is(what, expected[0], 0, 0, got.refusal);
    are(what, expected + 1, (uint32_t[]){got.t, got.work, got.supply, got.frame}, 4);
}

static void judges(void)
{
    mark();
    verdict_is("judge", (uint32_t[]){0, 8, 14, 13, 12}, awelodrun_judge(&worked, map, LENGTH(map), pins, LENGTH(pins)));
    are("map", (uint32_t[]){7, 6, 5, 2, 7, 4, 7, 2, 5, 6, 7, 0}, map, 12);
    are("pins", (uint32_t[]){0, 0, 0, 0, 0, 0, 0, 0, 0, 0, 0, 0}, pins, 12);
    marked("past the frame", 12);
    mark();
    verdict_is("judge with a short list", (uint32_t[]){8, 0, 0, 0, 0}, awelodrun_judge(&worked, map, 12, pins, 11));
    verdict_is("judge with no list", (uint32_t[]){8, 0, 0, 0, 0}, awelodrun_judge(&worked, NULL, 0, NULL, 0));
    verdict_is("judge of no table", (uint32_t[]){1, 0, 0, 0, 0}, awelodrun_judge(&none, map, LENGTH(map), pins, LENGTH(pins)));
    marked("after a refusal", 0);
    /* Cases 9 and 10: the row (4,1,3) alone. */
    const struct awelodrun_table one = {1, 2, 1, {{4, 1, 3}}};
    verdict_is("judge at depth 2", (uint32_t[]){0, 0, 0, 0, 4}, awelodrun_judge(&one, map, LENGTH(map), pins, LENGTH(pins)));
    are("map at depth 2", (uint32_t[]){1, 0, 0, 0, MARK}, map, 5);
    are("pins at depth 2", (uint32_t[]){1, 0, 0, 0, MARK}, pins, 5);
    /* Cases 2 and 3: undecided at depth 1, infeasible at depth 2. */
    const struct awelodrun_table four = {2, 1, 4, {{2, 1, 1}, {3, 2, 2}, {4, 2, 3}, {8, 1, 6}}};
    const struct awelodrun_square s = awelodrun_ladder(&four, map, LENGTH(map), pins, LENGTH(pins));
    refusal_is("ladder", 0, 0, 0, s.refusal);
    are("depth 1", (uint32_t[]){0, 0, 0}, (uint32_t[]){s.lines[0].t, s.lines[0].work, s.lines[0].supply}, 3);
    are("depth 2", (uint32_t[]){8, 15, 14}, (uint32_t[]){s.lines[1].t, s.lines[1].work, s.lines[1].supply}, 3);
    const struct awelodrun_square r = awelodrun_ladder(&four, map, 23, NULL, 0);
    refusal_is("ladder with short lists", 8, 0, 0, r.refusal);
    for (size_t y = 0; y < AWELODRUN_DEPTHS; y++)
        are("a refused ladder's line", (uint32_t[]){0, 0, 0}, (uint32_t[]){r.lines[y].t, r.lines[y].work, r.lines[y].supply}, 3);
}

static void edits(void)
{
    const struct awelodrun_row row = {8, 1, 6};
    const struct awelodrun_given more = awelodrun_add(&worked, row);
    const struct awelodrun_table four = {2, 1, 4, {{2, 1, 1}, {3, 2, 2}, {4, 2, 3}, {8, 1, 6}}};
    refusal_is("add", 0, 0, 0, more.refusal);
    table_is("the table after add", &four, &more.table);
    const struct awelodrun_given less = awelodrun_remove(&more.table, 0);
    const struct awelodrun_table three = {2, 1, 3, {{3, 2, 2}, {4, 2, 3}, {8, 1, 6}}};
    refusal_is("remove", 0, 0, 0, less.refusal);
    table_is("the table after remove", &three, &less.table);
    /* A refused edit gives back the table that was lent, number by number. */
    static const uint32_t absent[] = {3, 300, 65536, 4294967295U};
    for (size_t i = 0; i < LENGTH(absent); i++) {
        const struct awelodrun_given same = awelodrun_remove(&worked, absent[i]);
        refusal_is("remove of no row", 18, 0, 0, same.refusal);
        table_is("the table as it was lent", &worked, &same.table);
    }
    struct awelodrun_table odd = worked;
    odd.processors = 259;
    odd.depth = 65535;
    odd.rows[31].deadline = 4711;
    struct awelodrun_given back = awelodrun_add(&odd, row);
    refusal_is("add to a table with m 259", 1, 0, 0, back.refusal);
    table_is("the odd table after add", &odd, &back.table);
    back = awelodrun_remove(&odd, 0);
    refusal_is("remove from a table with m 259", 1, 0, 0, back.refusal);
    table_is("the odd table after remove", &odd, &back.table);
}

static void files(void)
{
    static const char text[] = "TABLE 7 INFEASIBLE 8 14 13\n";
    static const char refused[] = "REFUSED 9 0 0\n";
    static uint8_t out[AWELODRUN_TEXT];
    const struct awelodrun_given found = awelodrun_find(file, LENGTH(file), 7);
    refusal_is("find", 0, 0, 0, found.refusal);
    table_is("the table found", &worked, &found.table);
    struct awelodrun_written w = awelodrun_put(file, LENGTH(file), 7, &found.table, out, LENGTH(file));
    refusal_is("put back", 0, 0, 0, w.refusal);
    is("length of the file put back", 0, LENGTH(file), w.length);
    bytes_are("the file put back", file, out, LENGTH(file));
    out[0] = MARK;
    w = awelodrun_put(file, LENGTH(file), 7, &found.table, out, LENGTH(file) - 1);
    refusal_is("put with no room", 19, 0, 0, w.refusal);
    is("length after a refusal", 0, 0, w.length);
    is("output after a refusal", 0, MARK, out[0]);
    refusal_is("put with no output", 19, 0, 0, awelodrun_put(file, LENGTH(file), 7, &found.table, NULL, 0).refusal);
    refusal_is("put into no file", 9, 0, 0, awelodrun_put(NULL, 0, 7, &found.table, out, LENGTH(out)).refusal);
    const struct awelodrun_given lost = awelodrun_find(file, LENGTH(file), 8);
    refusal_is("find of no table", 17, 0, 0, lost.refusal);
    table_is("the table of a refused find", &none, &lost.table);
    refusal_is("find in no file", 9, 0, 0, awelodrun_find(NULL, 0, 7).refusal);
    mark();
    out[LENGTH(text) - 1] = MARK;
    is("length of the text", 0, LENGTH(text) - 1, (uint32_t)awelodrun_shift_text(file, LENGTH(file), map, pins, out));
    bytes_are("text", (const uint8_t *)text, out, LENGTH(text) - 1);
    is("byte past the text", 0, MARK, out[LENGTH(text) - 1]);
    is("map after the text", 0, 7, map[0]);
    marked("past the frame after the text", 12);
    mark();
    out[LENGTH(refused) - 1] = MARK;
    is("length of a refused text", 0, LENGTH(refused) - 1, (uint32_t)awelodrun_shift_text(NULL, 0, map, pins, out));
    bytes_are("refused text", (const uint8_t *)refused, out, LENGTH(refused) - 1);
    is("byte past the refused text", 0, MARK, out[LENGTH(refused) - 1]);
    marked("after a refused text", 0);
}

int main(void)
{
    checks();
    list_checks();
    judges();
    edits();
    files();
    printf("%d of %d numbers are as they must be\n", asked - wrong, asked);
    return wrong != 0;
}
