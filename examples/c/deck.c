/* Gives the library a deck, from standard input, row by row, and prints the page: the entries of each line, as
   mfbank does. It takes plain decks: at most 16,777,216 bytes and 1,000,000 records, no CR, and after the line ---
   no quotes, no empty lines and no byte order mark. Any other deck is refused by one line and status 1.
   Reads whole files only because a deck is one; the library has no need of it. */
#include "mfchain.h"
#include "show.h"
#include <stdlib.h>
#include <string.h>

enum { MOST_BYTES = 16777216, MOST_RECORDS = 1000000 };

/* One entry: the marks from `first` on, so many. */
typedef struct {
    uint32_t line, number;
    size_t first, count;
} entry;

static mf_table table;
static mf_line lines[MF_LINES];
static char used[MF_LINES];
static mf_mark *marks;
static entry *entries;
static size_t mark_count, entry_count;

/* Whether there is room for one entry more, in both lists. */
static int has_room(void)
{
    static size_t mark_room, entry_room;
    if (mark_room - mark_count < MF_MOST_MARKS) {
        const size_t room = 2 * mark_room + MF_MOST_MARKS;
        mf_mark *const grown = realloc(marks, room * sizeof *marks);
        if (!grown)
            return 0;
        marks = grown;
        mark_room = room;
    }
    if (entry_room == entry_count) {
        const size_t room = 2 * entry_room + 1;
        entry *const grown = realloc(entries, room * sizeof *entries);
        if (!grown)
            return 0;
        entries = grown;
        entry_room = room;
    }
    return 1;
}

/* Takes a row, and keeps the entry that it gives. */
static enum mf_status take(const mf_row *row)
{
    /* A line that does not exist has no state: any other will do, since the library refuses the row. */
    mf_line *const line = &lines[row->line < MF_LINES ? row->line : 0];
    size_t count;
    if (!has_room())
        return MF_NO_MEMORY;
    const enum mf_status status = mf_take(&table, line, row, marks + mark_count, MF_MOST_MARKS, &count);
    if (status != MF_DONE)
        return status;
    used[row->line] = 1;
    if (count > 0) {
        entry *const kept = &entries[entry_count++];
        kept->line = row->line;
        kept->first = mark_count;
        kept->count = count;
        mf_entries(line, &kept->number);
        mark_count += count;
    }
    return MF_DONE;
}

/* The number that so many characters write, `wrong` where they are no digits, or too many. */
static uint32_t number_of(const char *text, size_t len, size_t most, uint32_t wrong)
{
    uint32_t number = 0;
    if (len == 0 || len > most)
        return wrong;
    for (size_t i = 0; i < len; i++) {
        if (text[i] < '0' || text[i] > '9')
            return wrong;
        number = 10 * number + (uint32_t)(text[i] - '0');
    }
    return number;
}

/* The row of a record `line,state,ms`; 0 where it has not three fields. A field that is no number becomes one
   that the library refuses. */
static int row_of(const char *record, size_t len, mf_row *row)
{
    const char *const end = record + len;
    const char *const first = memchr(record, ',', len);
    const char *const second = first ? memchr(first + 1, ',', (size_t)(end - first - 1)) : NULL;
    if (!second || memchr(second + 1, ',', (size_t)(end - second - 1)))
        return 0;
    row->line = number_of(record, (size_t)(first - record), 4, MF_LINES);
    row->state = second - first == 2 ? (uint32_t)(unsigned char)first[1] : 0;
    row->ms = number_of(second + 1, (size_t)(end - second - 1), 8, MF_MOST_MS + 1);
    return 1;
}

/* Tells why there is no page. */
static int refuses(const char *why)
{
    fprintf(stderr, "deck: %s\n", why);
    return 1;
}

static int refuses_record(size_t record, const char *what)
{
    fprintf(stderr, "deck: loop rows: record %zu has %s\n", record, what);
    return 1;
}

/* Takes all records after the header. */
static int take_records(const char *text, const char *end)
{
    static const char *const wrong[] = {
        [MF_WRONG_LINE] = "a wrong line", [MF_WRONG_STATE] = "a wrong state", [MF_WRONG_MS] = "a wrong ms"};
    for (size_t record = 1; text < end; record++) {
        const char *const stop = memchr(text, '\n', (size_t)(end - text));
        mf_row row;
        if (record > MOST_RECORDS)
            return refuses("loop rows: more than 1000000 records");
        if (!row_of(text, (size_t)(stop - text), &row))
            return refuses_record(record, "not three fields");
        const enum mf_status status = take(&row);
        if (status == MF_NO_MEMORY)
            return refuses("out of memory");
        if (status != MF_DONE)
            return refuses_record(record, wrong[status]);
        text = stop + 1;
    }
    return 0;
}

/* Ends the record of each line that has rows. */
static int close_lines(void)
{
    for (uint32_t line = 0; line < MF_LINES; line++) {
        const mf_row close = {line, MF_CLOSE, 0};
        if (used[line] && take(&close) != MF_DONE)
            return refuses("out of memory");
    }
    return 0;
}

static int in_order(const void *one, const void *other)
{
    const entry *const a = one, *const b = other;
    if (a->line != b->line)
        return a->line < b->line ? -1 : 1;
    return a->number < b->number ? -1 : a->number > b->number;
}

/* Prints the page: the entries by line and number, and the totals. */
static int show_page(void)
{
    unsigned refused = 0;
    if (entry_count > 0)
        qsort(entries, entry_count, sizeof *entries, in_order);
    for (size_t i = 0; i < entry_count; i++) {
        show_entry(marks + entries[i].first, entries[i].count, entries[i].number);
        refused += marks[entries[i].first].kind >= MF_MUTILATED;
    }
    printf("KEYED %u REFUSED %u\n", (unsigned)entry_count - refused, refused);
    if (fflush(stdout) != 0 || ferror(stdout))
        return refuses("the page could not be written");
    return 0;
}

/* The first line --- of a deck, or null. */
static const char *cut_of(const char *deck)
{
    const char *const before = strstr(deck, "\n---\n");
    if (memcmp(deck, "---\n", 4) == 0)
        return deck;
    return before ? before + 1 : NULL;
}

/* The page of a deck of `len` bytes, the last of them LF, which a zero follows. */
static int page_of(const char *deck, size_t len)
{
    static const char header[] = "line,state,ms\n";
    char fault[MF_FAULT_ROOM];
    const char *const cut = cut_of(deck);
    if (memchr(deck, '\r', len))
        return refuses("the deck has a CR, which is not taken here");
    if (!cut)
        return refuses("the deck has no line ---");
    if (mf_open(deck, (size_t)(cut - deck), &table, fault, sizeof fault) != MF_DONE) {
        fprintf(stderr, "deck: route table: %s\n", fault);
        return 1;
    }
    const char *const rows = cut + strlen("---\n");
    if (memcmp(rows, header, strlen(header)) != 0)
        return refuses("loop rows: the header is not line,state,ms");
    return take_records(rows + strlen(header), deck + len) || close_lines() || show_page();
}

int main(void)
{
    /* With room for one byte too many, or for the LF that the last line may lack, and for a zero. */
    static char deck[MOST_BYTES + 2];
    size_t len = fread(deck, 1, MOST_BYTES + 1, stdin);
    if (ferror(stdin))
        return refuses("the deck could not be read");
    if (len > MOST_BYTES)
        return refuses("the deck is longer than 16777216 bytes");
    if (len > 0 && deck[len - 1] != '\n')
        deck[len++] = '\n';
    deck[len] = 0;
    const int status = page_of(deck, len);
    free(marks);
    free(entries);
    return status;
}
