/* Judges a table and prints the verdict: cc verdict.c $(pkg-config --cflags --libs awelodrun) */
#include <awelodrun.h>
#include <stdio.h>

/* Both lists have room for the longest frame. */
static awelodrun_set map[AWELODRUN_SLOTS], pins[AWELODRUN_SLOTS];

int main(void)
{
    /* 2 processors, depth 1, and 3 rows of period, execution time and deadline; the other rows are zeros. */
    const struct awelodrun_table table = {2, 1, 3, {{2, 1, 1}, {3, 2, 2}, {4, 2, 3}}};
    const struct awelodrun_verdict v = awelodrun_judge(&table, map, AWELODRUN_SLOTS, pins, AWELODRUN_SLOTS);

    if (v.refusal.no != AWELODRUN_NONE) {
        printf("refused: %u, row %u\n", (unsigned)v.refusal.no, (unsigned)v.refusal.row);
        return 3;
    }
    if (v.t != 0) {
        printf("infeasible: in %u slots %u are due, and %u can be used\n", (unsigned)v.t, (unsigned)v.work, (unsigned)v.supply);
        return 1;
    }
    printf("undecided: no length within the frame of %u slots fails\n", (unsigned)v.frame);
    return 0;
}
