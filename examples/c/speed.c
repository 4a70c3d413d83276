/* Prints how many nanoseconds a row takes: lines that dial 234 5678 again and again, each a row in turn. */
#include "mfchain.h"
#include <stdio.h>
#include <string.h>
#include <time.h>

enum { LINES = 100, MOST_ROWS = 100, ROUNDS = 200, BEST_OF = 9 };

static const char routes[] = "[[route]]\ncode = \"234\"\ntrunk = 17\ndelete = 3\nprefix = \"56\"\n";
static mf_table table;
static mf_line lines[LINES];
static mf_row rows[MOST_ROWS];

static size_t call(void)
{
    size_t n = 0;
    rows[n++] = (mf_row){0, MF_MAKE, 500};
    for (const char *digit = "2345678"; *digit; digit++)
        for (int left = *digit - '0'; left > 0; left--) {
            rows[n++] = (mf_row){0, MF_BREAK, 60};
            rows[n++] = (mf_row){0, MF_MAKE, left > 1 ? 40 : 600};
        }
    rows[n++] = (mf_row){0, MF_BREAK, 400};
    return n;
}

int main(void)
{
    char fault[MF_FAULT_ROOM];
    mf_mark marks[MF_MOST_MARKS];
    const size_t each = call();
    double best = 1e9;
    size_t given = 0;
    if (mf_open(routes, strlen(routes), &table, fault, sizeof fault) != MF_DONE)
        return 1;
    for (int trial = 0; trial < BEST_OF; trial++) {
        const clock_t start = clock();
        for (int round = 0; round < ROUNDS; round++)
            for (size_t i = 0; i < each; i++)
                for (uint32_t line = 0; line < LINES; line++) {
                    mf_row row = rows[i];
                    size_t count;
                    row.line = line;
                    if (mf_take(&table, &lines[line], &row, marks, MF_MOST_MARKS, &count) != MF_DONE)
                        return 1;
                    given += count;
                }
        const double ns = (double)(clock() - start) / CLOCKS_PER_SEC * 1e9 / ((double)ROUNDS * LINES * (double)each);
        if (ns < best)
            best = ns;
    }
    printf("%.1f ns a row, %zu marks\n", best, given);
    return 0;
}
