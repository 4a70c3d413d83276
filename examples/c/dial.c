/* Dials 234 5678 on line 7, as a telephone would, and prints each entry in the row that makes it certain. */
#include "mfchain.h"
#include "show.h"
#include <string.h>

static const char routes[] =
    "[[route]]\ncode = \"234\"\ntrunk = 17\ndelete = 3\nprefix = \"56\"\n";

static mf_table table;
static mf_line line;
static unsigned rows;

/* What the loop of line 7 does, and for how many ms. */
static enum mf_status loop(enum mf_state state, uint32_t ms)
{
    const mf_row row = {7, (uint32_t)state, ms};
    mf_mark marks[MF_MOST_MARKS];
    size_t count;
    uint32_t entries;
    const enum mf_status status = mf_take(&table, &line, &row, marks, MF_MOST_MARKS, &count);
    rows++;
    if (status != MF_DONE || count == 0)
        return status;
    printf("row %u: ", rows);
    mf_entries(&line, &entries);
    show_entry(marks, count, entries);
    return MF_DONE;
}

/* The makes and breaks of a number: each pulse is a break of 60 ms, and 600 ms of make end a digit. */
static enum mf_status dial(const char *number)
{
    for (const char *digit = number; *digit; digit++) {
        const int pulses = *digit == '0' ? 10 : *digit - '0';
        for (int pulse = 1; pulse <= pulses; pulse++) {
            enum mf_status status = loop(MF_BREAK, 60);
            if (status == MF_DONE)
                status = loop(MF_MAKE, pulse < pulses ? 40 : 600);
            if (status != MF_DONE)
                return status;
        }
    }
    return MF_DONE;
}

int main(void)
{
    char fault[MF_FAULT_ROOM];
    enum mf_status status = mf_open(routes, strlen(routes), &table, fault, sizeof fault);
    if (status != MF_DONE) {
        fprintf(stderr, "dial: route table: %s\n", fault);
        return 1;
    }
    status = loop(MF_MAKE, 500);
    if (status == MF_DONE)
        status = dial("2345678");
    if (status == MF_DONE)
        status = loop(MF_BREAK, 400);
    if (status != MF_DONE) {
        fprintf(stderr, "dial: row %u: ", rows);
        show_status(status);
        return 1;
    }
    printf("%u rows\n", rows);
    return 0;
}
