/* Prints entries as a page has them. */
#ifndef SHOW_H
#define SHOW_H

#include "mfchain.h"
#include <stdio.h>

/* Prints the marks of one entry, the entry of this number on its line. */
static inline void show_entry(const mf_mark *marks, size_t count, uint32_t number)
{
    char line[MF_ENTRY_ROOM];
    if (mf_entry(number, marks, count, line, sizeof line) == MF_DONE)
        puts(line);
}

/* Says on standard error why a call was refused. */
static inline void show_status(enum mf_status status)
{
    char why[MF_FAULT_ROOM];
    if (mf_status_text(status, why, sizeof why) == MF_DONE)
        fprintf(stderr, "%s\n", why);
}

#endif
