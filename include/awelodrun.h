/* Awelodrun for C and C++: the check of a table, the judge, the ladder, rows added and removed, and task files.
 *
 * A table is judged infeasible where it is proved that no schedule at all could carry it. Undecided promises nothing.
 * docs/USE.md says what each answer means, and docs/TRUST.md what it rests on.
 *
 * No function asks anything of the values that it gets: every table, file and list has an answer, and no number is
 * narrowed on the way in. Tables go by pointer, in one form. A list is a pointer and a count of elements; where the count
 * is 0 the pointer may be null. Every other pointer is to as many elements as are said. What a function writes overlaps
 * nothing else that is lent to the same call. No function keeps a pointer, allocates memory, or fails to return. The
 * judge, the ladder and the text of the shift check take some 36 KiB of stack, the others about 2 KiB.
 *
 * Every answer begins with a refusal. Its number is 0 where nothing is refused. After a refusal every other number of
 * the answer is 0, save the table of add and remove, which is the one that was lent, and every list that was lent is as
 * it was. */
#ifndef AWELODRUN_H
#define AWELODRUN_H

#include <stddef.h>
#include <stdint.h>

#define AWELODRUN_VERSION_MAJOR 0
#define AWELODRUN_VERSION_MINOR 1
#define AWELODRUN_VERSION_PATCH 0
#define AWELODRUN_VERSION "0.1.0"

#ifdef __cplusplus
extern "C" {
#endif

/* Room for so many rows, depths from 1 to so many, and frames of at most so many slots. */
#define AWELODRUN_ROWS 32
#define AWELODRUN_DEPTHS 8
#define AWELODRUN_SLOTS 4096

/* The text of every file has room in so many bytes. */
#define AWELODRUN_TEXT 4096

/* A set of rows, as it stands in a map or in pins: bit i is row i. */
typedef uint32_t awelodrun_set;

/* A row: T, C and D. */
struct awelodrun_row {
    uint16_t period;
    uint16_t execution;
    uint16_t deadline;
};

/* A table: processors m, depth x, the row count, and room for the rows, of which the first `count` matter. */
struct awelodrun_table {
    uint16_t processors;
    uint16_t depth;
    uint16_t count;
    struct awelodrun_row rows[AWELODRUN_ROWS];
};

/* What stands beside a lent list of rows: m and x. */
struct awelodrun_beside {
    uint16_t processors;
    uint16_t depth;
};

/* A refusal: its number, and the entry and the row that it names, from 0 (0 where none applies). */
struct awelodrun_refusal {
    uint32_t no;
    uint32_t entry;
    uint32_t row;
};

/* The numbers of the refusals. */
enum {
    AWELODRUN_NONE = 0,
    /* m, the number of processors, must be 1 to 16 */
    AWELODRUN_PROCESSORS = 1,
    /* x, the depth, must be 1 to 8 */
    AWELODRUN_DEPTH = 2,
    /* the number of rows must be 1 to 32 */
    AWELODRUN_COUNT = 3,
    /* T, the period of the row, must be 1 to 4,096 */
    AWELODRUN_PERIOD = 4,
    /* D, the deadline of the row, must be 1 to its T */
    AWELODRUN_DEADLINE = 5,
    /* C, the execution time of the row, must be 1 to its D */
    AWELODRUN_EXECUTION = 6,
    /* H, the least common multiple of all periods, must be at most 4,096; the row takes it over */
    AWELODRUN_FRAME = 7,
    /* each of the two lists of words, map and pins, must have at least H words */
    AWELODRUN_SHORT_LIST = 8,
    /* the file must have 4 to 65,535 bytes */
    AWELODRUN_FILE_LENGTH = 9,
    /* the form of the file, its bytes 2 and 3, must be 1 */
    AWELODRUN_FORM = 10,
    /* the number of entries must be 1 to 64, and the contents must fit in the file */
    AWELODRUN_ENTRIES = 11,
    /* the kind of the entry must be 1, a table, or 128 to 255, a note */
    AWELODRUN_KIND = 12,
    /* the bodies must follow the contents and each other with no gap, to the end of the file */
    AWELODRUN_START = 13,
    /* the sum of the entry must be the sum of its body */
    AWELODRUN_SUM = 14,
    /* the body of a table must have 4 bytes, the last of them 0, and 6 for each row it counts */
    AWELODRUN_BODY = 15,
    /* the number of the entry must not be that of an earlier entry */
    AWELODRUN_NUMBER_USED = 16,
    /* find: a table must have the number; put: no note may have it */
    AWELODRUN_NO_TABLE = 17,
    /* remove: the table must have a row with the index */
    AWELODRUN_NO_ROW = 18,
    /* put: the output must be at least as long as the file that is written */
    AWELODRUN_SHORT_OUTPUT = 19
};

/* What a check of a table answers: its frame H. */
struct awelodrun_checked {
    struct awelodrun_refusal refusal;
    uint32_t frame;
};

/* What the judge answers. Where t is not 0 the table is infeasible: t is the least length at which more work is due than
 * the slots supply, with that work and that supply. With no refusal and t 0 it is undecided. */
struct awelodrun_verdict {
    struct awelodrun_refusal refusal;
    uint32_t t;
    uint32_t work;
    uint32_t supply;
    uint32_t frame;
};

/* A depth's line in the ladder's answer: t, work and supply, or three zeros where it is undecided. */
struct awelodrun_line {
    uint32_t t;
    uint32_t work;
    uint32_t supply;
};

/* What the ladder answers: lines[0] is that of depth 1. */
struct awelodrun_square {
    struct awelodrun_refusal refusal;
    struct awelodrun_line lines[AWELODRUN_DEPTHS];
};

/* A table that is given back, with zeros past its count. */
struct awelodrun_given {
    struct awelodrun_refusal refusal;
    struct awelodrun_table table;
};

/* What the check of a task file answers: its number of entries. */
struct awelodrun_file {
    struct awelodrun_refusal refusal;
    uint32_t entries;
};

/* What put answers: the length of the new file. */
struct awelodrun_written {
    struct awelodrun_refusal refusal;
    uint32_t length;
};

/* The sizes that the library goes by: an array of a negative size does not compile. */
#define AWELODRUN_SIZED(what, size) typedef char awelodrun_##what##_is_sized[sizeof(struct awelodrun_##what) == (size) ? 1 : -1]
AWELODRUN_SIZED(row, 6);
AWELODRUN_SIZED(table, 198);
AWELODRUN_SIZED(beside, 4);
AWELODRUN_SIZED(refusal, 12);
AWELODRUN_SIZED(checked, 16);
AWELODRUN_SIZED(verdict, 28);
AWELODRUN_SIZED(line, 12);
AWELODRUN_SIZED(square, 108);
AWELODRUN_SIZED(file, 16);
AWELODRUN_SIZED(written, 16);
#undef AWELODRUN_SIZED

/* The library's own functions, which take tables and answers as their numbers in turn. Use those below. */
void awelodrun_raw_check(const uint16_t *table, uint32_t *answer);
struct awelodrun_checked awelodrun_raw_check_list(struct awelodrun_beside beside, const struct awelodrun_row *rows, size_t rows_len);
void awelodrun_raw_judge(const uint16_t *table, awelodrun_set *map, size_t map_len, awelodrun_set *pins, size_t pins_len,
                         uint32_t *answer);
void awelodrun_raw_ladder(const uint16_t *table, awelodrun_set *map, size_t map_len, awelodrun_set *pins, size_t pins_len,
                          uint32_t *lines, uint32_t *refusal);
void awelodrun_raw_add(const uint16_t *table, struct awelodrun_row row, uint16_t *result, uint32_t *refusal);
void awelodrun_raw_remove(const uint16_t *table, uint32_t index, uint16_t *result, uint32_t *refusal);
void awelodrun_raw_file_check(const uint8_t *file, size_t file_len, uint32_t *answer);
void awelodrun_raw_find(const uint8_t *file, size_t file_len, uint16_t number, uint16_t *result, uint32_t *refusal);
void awelodrun_raw_put(const uint8_t *file, size_t file_len, uint16_t number, const uint16_t *table, uint8_t *out,
                       size_t out_len, uint32_t *answer);
size_t awelodrun_raw_shift_text(const uint8_t *file, size_t file_len, awelodrun_set *map, awelodrun_set *pins, uint8_t *out);

/* The numbers of a table, of an answer. */
static inline const uint16_t *awelodrun_numbers(const struct awelodrun_table *table)
{
    return (const uint16_t *)(const void *)table;
}

static inline uint32_t *awelodrun_answer(struct awelodrun_refusal *first)
{
    return (uint32_t *)(void *)first;
}

/* The check of a table. */
static inline struct awelodrun_checked awelodrun_check(const struct awelodrun_table *table)
{
    struct awelodrun_checked answer;
    awelodrun_raw_check(awelodrun_numbers(table), awelodrun_answer(&answer.refusal));
    return answer;
}

/* The check of a lent list of rows, which are read where they stand. A list of no row, or of more than 32, is refused
 * with 3. */
static inline struct awelodrun_checked
awelodrun_check_list(struct awelodrun_beside beside, const struct awelodrun_row *rows, size_t rows_len)
{
    struct awelodrun_row none = {0, 0, 0};
    return awelodrun_raw_check_list(beside, rows ? rows : &none, rows_len);
}

/* The judge of a table. map and pins have room for at least as many sets as the frame has slots, 4,096 at most. After a
 * verdict the first sets, as many as the frame has slots, are the available sets at depth x, and the pinned sets at depth
 * x - 1 (zeros where x is 1); later ones are as they were. */
static inline struct awelodrun_verdict awelodrun_judge(const struct awelodrun_table *table, awelodrun_set *map,
                                                       size_t map_len, awelodrun_set *pins, size_t pins_len)
{
    struct awelodrun_verdict answer;
    awelodrun_set none[2] = {0, 0};
    awelodrun_raw_judge(awelodrun_numbers(table), map ? map : &none[0], map_len, pins ? pins : &none[1], pins_len,
                        awelodrun_answer(&answer.refusal));
    return answer;
}

/* The judge at each depth from 1 to 8; x is checked, and not used. map and pins are left as the judge leaves them at depth
 * 8. */
static inline struct awelodrun_square awelodrun_ladder(const struct awelodrun_table *table, awelodrun_set *map,
                                                       size_t map_len, awelodrun_set *pins, size_t pins_len)
{
    struct awelodrun_square answer;
    awelodrun_set none[2] = {0, 0};
    awelodrun_raw_ladder(awelodrun_numbers(table), map ? map : &none[0], map_len, pins ? pins : &none[1], pins_len,
                         (uint32_t *)(void *)answer.lines, awelodrun_answer(&answer.refusal));
    return answer;
}

/* Adds a row at the end of a table. After a refusal the table is the one that was lent. */
static inline struct awelodrun_given awelodrun_add(const struct awelodrun_table *table, struct awelodrun_row row)
{
    struct awelodrun_given answer;
    awelodrun_raw_add(awelodrun_numbers(table), row, (uint16_t *)(void *)&answer.table, awelodrun_answer(&answer.refusal));
    return answer;
}

/* Removes the row at an index, from 0, and moves later rows up by one. After a refusal the table is the one that was
 * lent. */
static inline struct awelodrun_given awelodrun_remove(const struct awelodrun_table *table, uint32_t index)
{
    struct awelodrun_given answer;
    awelodrun_raw_remove(awelodrun_numbers(table), index, (uint16_t *)(void *)&answer.table,
                         awelodrun_answer(&answer.refusal));
    return answer;
}

/* The check of a task file. */
static inline struct awelodrun_file awelodrun_file_check(const uint8_t *file, size_t file_len)
{
    struct awelodrun_file answer;
    uint8_t none = 0;
    awelodrun_raw_file_check(file ? file : &none, file_len, awelodrun_answer(&answer.refusal));
    return answer;
}

/* The table that has a number in a task file; after a refusal a table of zeros. */
static inline struct awelodrun_given awelodrun_find(const uint8_t *file, size_t file_len, uint16_t number)
{
    struct awelodrun_given answer;
    uint8_t none = 0;
    awelodrun_raw_find(file ? file : &none, file_len, number, (uint16_t *)(void *)&answer.table,
                       awelodrun_answer(&answer.refusal));
    return answer;
}

/* Writes to out the file with the table of a number replaced in its place, or added as the last entry. Bytes of out past
 * the new file's length are as they were. */
static inline struct awelodrun_written awelodrun_put(const uint8_t *file, size_t file_len, uint16_t number,
                                                     const struct awelodrun_table *table, uint8_t *out, size_t out_len)
{
    struct awelodrun_written answer;
    uint8_t none[2] = {0, 0};
    awelodrun_raw_put(file ? file : &none[0], file_len, number, awelodrun_numbers(table), out ? out : &none[1], out_len,
                      awelodrun_answer(&answer.refusal));
    return answer;
}

/* Writes to out the text of the shift check on a task file: a line for each table, or the line of the refusal. It is never
 * refused. Gives the length of the text, which always has room; bytes of out past it are as they were. map and pins, of
 * 4,096 sets each, are left as the judge of each table in turn leaves them; for a refused file they are as they were. */
static inline size_t
awelodrun_shift_text(const uint8_t *file, size_t file_len, awelodrun_set *map, awelodrun_set *pins, uint8_t *out)
{
    uint8_t none = 0;
    return awelodrun_raw_shift_text(file ? file : &none, file_len, map, pins, out);
}

#ifdef __cplusplus
}
#endif

#endif
