/* Gives the C library random calls by a seed, for scripts/trials/signals: usage: signals CALLS SEED.

   On some lines it tells digits and what else a caller hears, and an office of a few lines below says what has to come
   of each call. On others it gives whatever a call takes, rows too, over lines of scattered bytes: of these each call
   has to leave what it may not change, and its marks have to be an entry. Each object that a call gets ends where the
   next byte may not be touched. The status is 1 at the first call that does otherwise. */
#define _DEFAULT_SOURCE
#include "mfchain.h"
#include <stdio.h>
#include <stdlib.h>
#include <string.h>
#include <sys/mman.h>

enum { LINES = 64, FENCE = 4096 };

static const char *const texts[] = {
    "[[route]]\ncode = \"0\"\ntrunk = 1\n[[route]]\ncode = \"411\"\ntrunk = 3\n"
    "[[route]]\ncode = \"234\"\ntrunk = 17\ndelete = 3\nprefix = \"56\"\n[[route]]\ncode = \"766\"\ntrunk = 9999\n",
    "plan = 10\n[[route]]\ncode = \"0\"\ntrunk = 1\n[[route]]\ncode = \"212\"\ntrunk = 41\n"
    "[[route]]\ncode = \"212555\"\ntrunk = 40\ndelete = 3\n[[route]]\ncode = \"234\"\ntrunk = 2\nprefix = \"01234567\"\n"};
static const struct route { const char *code; unsigned trunk, deleted; const char *prefix; } routes[2][4] = {
    {{"0", 1, 0, ""}, {"411", 3, 0, ""}, {"234", 17, 3, "56"}, {"766", 9999, 0, ""}},
    {{"0", 1, 0, ""}, {"212", 41, 0, ""}, {"212555", 40, 3, ""}, {"234", 2, 0, "01234567"}}};
static const unsigned tones[10][2] = {{1300, 1500}, {700, 900}, {700, 1100}, {900, 1100}, {700, 1300},
    {900, 1300}, {1100, 1300}, {700, 1500}, {900, 1500}, {1100, 1500}};

/* What the office knows of a line. */
static struct known { unsigned closed, seized, ended, count, entries; char digits[16]; } known[2][LINES];
static mf_mark wanted[MF_MOST_MARKS];
static size_t wanted_count;

static mf_table *table[2];
static mf_line *line[2][LINES], *scattered;
static size_t *count;
static uint8_t *dialled, *number;
static char *marks_end;
static uint64_t seed;
static unsigned long call, entries, refusals, refused;

static unsigned throw_below(unsigned most)
{
    seed ^= seed << 13, seed ^= seed >> 7, seed ^= seed << 17;
    return (unsigned)(seed >> 33) % most;
}

static void fails(const char *what)
{
    printf("signals: call %lu: %s\n", call, what);
    exit(1);
}

/* So many bytes, after which none may be touched. */
static void *fenced(size_t size)
{
    size_t pages = (size + FENCE - 1) / FENCE * FENCE;
    char *at = mmap(0, pages + 2 * FENCE, PROT_NONE, MAP_PRIVATE | MAP_ANONYMOUS, -1, 0);
    if (at == MAP_FAILED || mprotect(at + FENCE, pages, PROT_READ | PROT_WRITE))
        fails("no memory");
    return at + FENCE + pages - size;
}

static void want(uint32_t of, uint32_t kind, uint32_t value, unsigned low, unsigned high)
{
    wanted[wanted_count++] = (mf_mark){of, kind, value, low, high};
}

/* How many digits a number has that begins so; 0 where they do not tell. */
static unsigned length_of(int plan, const char *digits, unsigned n)
{
    if (n > 0 && digits[0] == '0')
        return 1;
    if (n < 3)
        return 0;
    if (digits[0] >= '2' && digits[1] == '1' && digits[2] == '1')
        return 3;
    return plan == 1 && digits[0] >= '2' && digits[1] <= '1' ? 10 : 7;
}

/* The entry of a number. */
static void want_entry(uint32_t of, int plan, const char *digits, unsigned n)
{
    const struct route *by = 0;
    for (int i = 0; i < 4; i++)
        if (strncmp(digits, routes[plan][i].code, strlen(routes[plan][i].code)) == 0 &&
            (!by || strlen(by->code) < strlen(routes[plan][i].code)))
            by = &routes[plan][i];
    if (!by) {
        want(of, MF_UNKNOWN, n, 0, 0);
        return;
    }
    char keyed[32];
    snprintf(keyed, sizeof keyed, "%s%.*s", by->prefix, (int)(n - by->deleted), digits + by->deleted);
    want(of, MF_TRUNK, by->trunk, 0, 0);
    want(of, MF_KP, 0, 1100, 1700);
    for (const char *it = keyed; *it; it++)
        want(of, MF_DIGIT, (uint32_t)(*it - '0'), tones[*it - '0'][0], tones[*it - '0'][1]);
    want(of, MF_ST, 0, 1500, 1700);
}

enum act { SEIZE, DIGIT, MUTILATED, TIME_OUT, RELEASE, CLOSE, ACTS };

/* What the office says of an act: its status, and the marks in `wanted`. */
static enum mf_status judged(struct known *of, int plan, uint32_t name, enum act act, unsigned digit, size_t room)
{
    struct known next = *of;
    wanted_count = 0;
    if (name >= MF_LINES)
        return MF_WRONG_LINE;
    if (act == DIGIT && digit > 9)
        return MF_WRONG_DIGIT;
    if (of->closed)
        return act == CLOSE ? MF_DONE : MF_CLOSED;
    if (act == SEIZE && of->seized)
        return MF_SEIZED;
    if (act != SEIZE && act != CLOSE && !of->seized)
        return MF_NOT_SEIZED;
    if (act == SEIZE)
        next.seized = 1, next.ended = 0, next.count = 0;
    else if (next.seized && !next.ended) {
        next.ended = act != DIGIT;
        if (act == DIGIT) {
            next.digits[next.count++] = (char)('0' + digit);
            if (length_of(plan, next.digits, next.count) == next.count) {
                next.ended = 1;
                next.digits[next.count] = 0;
                want_entry(name, plan, next.digits, next.count);
            }
        } else
            want(name, act == MUTILATED ? MF_MUTILATED : act == TIME_OUT ? MF_TIMEDOUT : MF_ABANDONED, next.count, 0, 0);
    }
    if (wanted_count > room)
        return MF_NO_ROOM;
    next.entries += wanted_count > 0;
    next.seized = act != RELEASE && act != CLOSE && next.seized;
    next.closed = act == CLOSE;
    *of = next;
    return MF_DONE;
}

static enum mf_status told(const mf_table *by, mf_line *to, uint32_t name, enum act act, unsigned digit, mf_mark *marks,
                           size_t room)
{
    switch (act) {
    case SEIZE: return mf_seize(by, to, name, marks, room, count);
    case DIGIT: return mf_digit(by, to, name, (uint8_t)digit, marks, room, count);
    case MUTILATED: return mf_mutilated_digit(by, to, name, marks, room, count);
    case TIME_OUT: return mf_time_out(by, to, name, marks, room, count);
    case RELEASE: return mf_release(by, to, name, marks, room, count);
    default: return mf_close(by, to, name, marks, room, count);
    }
}

/* Whether marks are one entry of a line, or none. */
static int is_entry(const mf_mark *marks, size_t n, uint32_t name)
{
    for (size_t i = 0; i < n; i++)
        if (marks[i].line != name || (marks[i].kind == MF_DIGIT && marks[i].value > 9))
            return 0;
    if (n < 2)
        return n == 0 || (marks[0].kind >= MF_MUTILATED && marks[0].kind <= MF_TIMEDOUT);
    if (n < 4 || marks[0].kind != MF_TRUNK || marks[1].kind != MF_KP || marks[n - 1].kind != MF_ST)
        return 0;
    for (size_t i = 2; i + 1 < n; i++)
        if (marks[i].kind != MF_DIGIT)
            return 0;
    return 1;
}

/* The next digit: often one that goes on with the code of a route. */
static unsigned next_digit(const struct known *of, int plan)
{
    const char *code = routes[plan][throw_below(4)].code;
    if (throw_below(50) == 0)
        return 10 + throw_below(246);
    if (throw_below(3) && of->count < strlen(code))
        return (unsigned)(code[of->count] - '0');
    return throw_below(10);
}

static void try_signal(void)
{
    static const unsigned char acts[] = {SEIZE, SEIZE, SEIZE, RELEASE, RELEASE, MUTILATED, TIME_OUT, CLOSE};
    const int plan = (int)throw_below(2);
    const uint32_t name = throw_below(LINES);
    struct known *of = &known[plan][name];
    mf_line *to = line[plan][name];
    if (of->closed && throw_below(3) == 0) {
        mf_reopen(to);
        *of = (struct known){0};
    }
    const enum act act = throw_below(3) ? DIGIT : (enum act)acts[throw_below(of->count ? 8 : 5)];
    const unsigned digit = next_digit(of, plan);
    const uint32_t as = throw_below(100) ? name : MF_LINES + throw_below(1000000);
    const size_t room = throw_below(20) ? MF_MOST_MARKS : throw_below(MF_MOST_MARKS);
    mf_mark *marks = (mf_mark *)(marks_end - room * sizeof *marks);
    const mf_line before = *to;
    memset(marks, 0xAA, room * sizeof *marks);
    *count = 99;
    const enum mf_status status = told(table[plan], to, as, act, digit, marks, room);
    if (status != judged(of, plan, as, act, digit, room))
        fails("another status");
    if (status != MF_DONE) {
        refused++;
        wanted_count = 0;
        if (memcmp(&before, to, sizeof before) != 0 || (room && marks->kind != 0xAAAAAAAA))
            fails("something is changed by a call that is refused");
    }
    if (*count != wanted_count || memcmp(marks, wanted, wanted_count * sizeof *marks) != 0)
        fails("other marks");
    entries += wanted_count > 1, refusals += wanted_count == 1;
    uint32_t counted;
    if (mf_entries(to, &counted) != MF_DONE || counted != of->entries)
        fails("another count of entries");
    const unsigned lamps = of->seized && !of->ended ? of->count : 0;
    if (mf_dialled(to, dialled, count) != MF_DONE || *count != lamps)
        fails("another count of digits");
    for (unsigned i = 0; i < lamps; i++)
        if (dialled[i] != of->digits[i] - '0')
            fails("other digits");
}

/* The number that digits complete, by itself. */
static void try_number(void)
{
    const int plan = (int)throw_below(2);
    const unsigned n = throw_below(13);
    struct known of = {0};
    enum mf_status status = MF_INCOMPLETE;
    wanted_count = 0;
    uint8_t *digits = number - n;
    for (of.count = 0; of.count < n; of.count++)
        of.digits[of.count] = (char)('0' + (digits[of.count] = (uint8_t)next_digit(&of, plan)));
    for (unsigned i = 1; i <= n && status == MF_INCOMPLETE; i++)
        if (digits[i - 1] > 9)
            status = MF_WRONG_DIGIT;
        else if (length_of(plan, of.digits, i) == i) {
            status = MF_DONE;
            want_entry(0, plan, of.digits, i);
        }
    mf_mark *marks = (mf_mark *)(marks_end - MF_MOST_MARKS * sizeof *marks);
    if (mf_route_number(table[plan], digits, n, marks, MF_MOST_MARKS, count) != status)
        fails("another status of a number");
    if (*count != wanted_count || memcmp(marks, wanted, wanted_count * sizeof *marks) != 0)
        fails("other marks of a number");
}

/* Any call of a line of any bytes. */
static void try_anything(void)
{
    static const uint32_t states[] = {'M', 'B', 'C', 'M', 'B', 0, 'm', UINT32_MAX};
    const int plan = (int)throw_below(2);
    if (throw_below(40) == 0)
        for (size_t i = 0; i < sizeof *scattered; i++)
            ((uint8_t *)scattered)[i] = (uint8_t)throw_below(throw_below(2) ? 256 : 12);
    const size_t room = throw_below(4) ? MF_MOST_MARKS : throw_below(MF_MOST_MARKS);
    mf_mark *marks = (mf_mark *)(marks_end - room * sizeof *marks);
    const mf_line before = *scattered;
    const uint32_t as = throw_below(100) ? throw_below(MF_LINES) : throw_below(1u << 31);
    const mf_row row = {as, states[throw_below(8)], throw_below(20) ? throw_below(700) : throw_below(1u << 31)};
    *count = 99;
    const enum mf_status status = throw_below(2) ? mf_take(table[plan], scattered, &row, marks, room, count)
        : told(table[plan], scattered, as, (enum act)throw_below(ACTS), throw_below(throw_below(9) ? 10 : 256), marks, room);
    if (status != MF_DONE) {
        refused++;
        if (*count != 0 || memcmp(&before, scattered, sizeof before) != 0)
            fails("something is changed by a call that is refused");
    } else if (*count > room || !is_entry(marks, *count, as))
        fails("marks that are no entry");
    if (mf_dialled(scattered, dialled, count) != MF_DONE || *count > MF_MOST_DIGITS)
        fails("too many digits");
    for (size_t i = 0; i < *count; i++)
        if (dialled[i] > 9)
            fails("a digit that is none");
}

int main(int words, char **word)
{
    const unsigned long calls = words > 2 ? strtoul(word[1], 0, 10) : 0;
    seed = words > 2 ? strtoul(word[2], 0, 10) * 2654435761u + 1 : 0;
    if (!calls)
        return 2;
    for (int plan = 0; plan < 2; plan++) {
        table[plan] = fenced(sizeof **table);
        char fault[MF_FAULT_ROOM];
        if (mf_open(texts[plan], strlen(texts[plan]), table[plan], fault, sizeof fault) != MF_DONE)
            fails(fault);
        for (int name = 0; name < LINES; name++)
            line[plan][name] = fenced(sizeof(mf_line));
    }
    scattered = fenced(sizeof *scattered);
    count = fenced(sizeof *count);
    dialled = fenced(MF_MOST_DIGITS);
    number = (uint8_t *)fenced(16) + 16;
    marks_end = (char *)fenced(MF_MOST_MARKS * sizeof(mf_mark)) + MF_MOST_MARKS * sizeof(mf_mark);
    for (call = 1; call <= calls; call++)
        switch (throw_below(4)) {
        case 0: try_anything(); break;
        case 1: try_number(); break;
        default: try_signal();
        }
    printf("%lu calls from C: %lu entries keyed, %lu refused, %lu calls refused\n", calls, entries, refusals, refused);
    return 0;
}
