/* Prints what an office does with numbers, as mfroute does of those with no digits left over. Standard input has a
   route table, a line ---, and after it a number in each line, of 1 to 10 digits and nothing else. Anything else is
   refused by one line and status 1. */
#include "mfchain.h"
#include <stdio.h>
#include <string.h>

enum { MOST_BYTES = 1048576 };

static char text[MOST_BYTES + 1];
static mf_table table;

/* Prints the line of a number; 0 where it is none. */
static int route(const char *number, size_t len)
{
    uint8_t digits[MF_MOST_DIGITS];
    char line[MF_ENTRY_ROOM];
    mf_mark marks[MF_MOST_MARKS];
    size_t count;
    enum mf_status status;
    if (len == 0 || len > MF_MOST_DIGITS)
        return 0;
    for (size_t i = 0; i < len; i++)
        digits[i] = (uint8_t)(number[i] - '0');
    status = mf_route_number(&table, digits, len, marks, MF_MOST_MARKS, &count);
    if (status != MF_DONE && status != MF_INCOMPLETE)
        return 0;
    if (status == MF_INCOMPLETE)
        printf("%.*s INCOMPLETE %u\n", (int)len, number, (unsigned)len);
    else if (mf_entry(1, marks, count, line, sizeof line) == MF_DONE)
        printf("%.*s%s\n", (int)len, number, line + strlen("0000 1"));
    return 1;
}

int main(void)
{
    char fault[MF_FAULT_ROOM];
    const size_t len = fread(text, 1, MOST_BYTES, stdin);
    char *const cut = strstr(text, "\n---\n");
    const char *number, *end;
    if (len == MOST_BYTES || !cut) {
        fprintf(stderr, "route: no line ---, or too many bytes\n");
        return 1;
    }
    if (mf_open(text, (size_t)(cut - text) + 1, &table, fault, sizeof fault) != MF_DONE) {
        fprintf(stderr, "route: route table: %s\n", fault);
        return 1;
    }
    for (number = cut + 5; (end = memchr(number, '\n', len - (size_t)(number - text))); number = end + 1)
        if (!route(number, (size_t)(end - number))) {
            fprintf(stderr, "route: what is no number\n");
            return 1;
        }
    return 0;
}
