/* A second receiver of MF tones, by docs/DEFINITIONS.md ("A receiver"), which knows nothing of xb_ear: it prints for
   samples of 16 bits, 8,000 a second, the low byte first, just the lines that `mfrx --format s16 --tones` prints.

       second_ear < SAMPLES */
#include <math.h>
#include <stdint.h>
#include <stdio.h>
#include <stdlib.h>
#include <string.h>

enum { HOP = 20, WINDOW = 80, TONES = 6, NONE = -1 };
enum { LEAST_LEVEL = 500 * 500, TWIST = 16, CLEAR = 2, SHARE = 3, SHARE_OF = 5, STEADY = 20, STEADY_WINDOWS = 32768 };
enum { GAP_WINDOWS = 8, PART_WINDOWS = 5, KEY_WINDOWS = 8, KP_WINDOWS = 18 };
enum { TAIL_WINDOWS = 64, TAIL_ROW = 6, TAIL_WEAKER = 3, TAIL_OTHER = 2 };

enum { TAPE = 1420, STRETCH = 200, SPAN = 160, LATER = 40, MOST_OFF = 50 };
enum { BEFORE = 8, AFTER = 10, STEP = 40, LAST_STEP = 5 };

struct tone { int hz; int64_t level; };
struct sight { int low, high; int64_t low_level, high_level; };  /* places among the six */
struct heard { struct sight sight; int64_t first, past; };       /* numbers of windows */

static const int hundreds[TONES] = { 7, 9, 11, 13, 15, 17 };
static int sine[80];  /* 10,000 times, rounded */

/* By their definitions: a raised cosine, tangents, and what a tone that is off lacks by the cosine. */
static int weights[SPAN], tangents[MOST_OFF], gains[MOST_OFF + 1];

static void make_tables(void)
{
    double all = 0;
    for (int n = 0; n < 80; n++) sine[n] = (int) lround(10000 * sin(2 * M_PI * n / 80));
    for (int n = 0; n < SPAN; n++) all += weights[n] = (int) lround(1000 * (1 - cos(M_PI * (2 * n + 1) / SPAN)));
    for (int hz = 0; hz < MOST_OFF; hz++) tangents[hz] = (int) lround(10000 * tan(M_PI * (2 * hz + 1) / 200));
    for (int hz = 0; hz <= MOST_OFF; hz++) {
        double left = 0;
        for (int n = 0; n < SPAN; n++) left += weights[n] * cos(2 * M_PI * hz * (n - 79.5) / 8000);
        gains[hz] = (int) lround(1000 * all / left * all / left);
    }
}

static int64_t square(int64_t x) { return x * x; }

/* The last samples, and how many windows before them are gone. */
static int16_t tape[TAPE];
static int on_tape;
static int64_t gone;

static void keep(int16_t sample)
{
    tape[on_tape++] = sample;
    if (on_tape < TAPE) return;
    memmove(tape, tape + HOP, sizeof tape - HOP * sizeof *tape);
    on_tape -= HOP;
    gone++;
}

static int64_t level(const int16_t *window, int tone)
{
    int64_t by_sine = 0, by_cosine = 0;
    for (int n = 0; n < WINDOW; n++) {
        by_sine += window[n] * sine[hundreds[tone] * n % 80];
        by_cosine += window[n] * sine[(hundreds[tone] * n + 20) % 80];
    }
    return square(llabs(by_sine) / 400000) + square(llabs(by_cosine) / 400000);
}

static int64_t least_of(int64_t a, int64_t b) { return a < b ? a : b; }

/* The least that lay beside the six frequencies of late, with one window more; 0 before the first. */
static int64_t lessened(int64_t least, int64_t now)
{
    int64_t next = least == 0 ? now : least_of(now, least + least / STEADY_WINDOWS + 1);
    return next > 1 ? next : 1;
}

static struct sight sees(const int16_t *window)
{
    static int64_t least;
    const int64_t before = least;
    int64_t levels[TONES], all = 0, power = 0, sum = 0;
    for (int tone = 0; tone < TONES; tone++) all += levels[tone] = level(window, tone);
    for (int n = 0; n < WINDOW; n++) power += square(window[n]), sum += window[n];
    power = (80 * power - square(sum)) / 3200;
    const int64_t beside = power > all ? power - all : 0;
    least = lessened(before, beside);
    for (int high = 1; high < TONES; high++)
        for (int low = 0; low < high; low++) {
            int64_t two = levels[low] + levels[high];
            int64_t weaker = least_of(levels[low], levels[high]);
            if (weaker >= LEAST_LEVEL && two - weaker <= TWIST * weaker && CLEAR * (all - two) <= weaker
                && (SHARE * power <= SHARE_OF * two || beside / STEADY <= before))
                return (struct sight) { low, high, levels[low], levels[high] };
        }
    return (struct sight) { NONE, NONE, 0, 0 };
}

static int is_same(struct sight a, struct sight b) { return a.low == b.low && a.high == b.high; }

static int64_t strength(struct sight sight) { return sight.low_level + sight.high_level; }

/* What stood out in the last windows, and how many windows there were. */
static struct sight before[TAIL_WINDOWS];
static int64_t windows;

/* What a window sees, but for tails. */
static struct sight without_tail(struct sight seen, int64_t at)
{
    int is_tail = 0, row = 0;
    for (int n = 0; n < TAIL_WINDOWS; n++) {
        const struct sight earlier = before[(at + n) % TAIL_WINDOWS];
        const int64_t counted = strength(earlier) / (is_same(seen, earlier) ? 1 : TAIL_OTHER);
        row = TAIL_WEAKER * strength(seen) < counted ? row + 1 : 0;
        is_tail |= row >= TAIL_ROW;
    }
    before[at % TAIL_WINDOWS] = seen;
    windows = at + 1;
    return is_tail ? (struct sight) { NONE, NONE, 0, 0 } : seen;
}

static int needed(struct sight sight) { return sight.low == 2 && sight.high == 5 ? KP_WINDOWS : KEY_WINDOWS; }

static const char *name(struct sight sight)
{
    static const char *names[TONES][TONES] = {
        [0] = { 0, "1", "2", "4", "7", "ST'''" }, [1] = { 0, 0, "3", "5", "8", "ST'" }, [2] = { 0, 0, 0, "6", "9", "KP" },
        [3] = { 0, 0, 0, 0, "0", "KP2/ST''" }, [4] = { 0, 0, 0, 0, 0, "ST" },
    };
    return names[sight.low][sight.high];
}

/* Tenths of a dBm0, of which a sine of 32,767 has 31.4. */
static int tenths(int64_t level) { return (int) floorl(100 * log10l(level) - 100 * log10l(32767.0L * 32767) + 31.4L + 0.5L); }

static void print_tenths(int number) { printf("%s%d.%d", number < 0 ? "-" : "", abs(number) / 10, abs(number) % 10); }

/* The sum of the products of weighted samples and a wave, so many places ahead of a sine. */
static __int128 weighed(const int16_t *stretch, int hundred, int from, int ahead)
{
    int64_t sum = 0;
    for (int n = 0; n < SPAN; n++)
        sum += (int64_t) weights[n] * stretch[from + n] * sine[(hundred * (from + n) + ahead) % 80];
    return sum;
}

/* The tone of a stretch: how far it turns in LATER samples says its frequency, 1 Hz in 200 of a turn. */
static struct tone tone_of(const int16_t *stretch, int hundred)
{
    __int128 c1 = weighed(stretch, hundred, 0, 20), s1 = weighed(stretch, hundred, 0, 0);
    __int128 c2 = weighed(stretch, hundred, LATER, 20), s2 = weighed(stretch, hundred, LATER, 0);
    __int128 along = c1 * c2 + s1 * s2, across = s1 * c2 - c1 * s2, size = across < 0 ? -across : across;
    int off = 0;
    while (off < MOST_OFF && (along <= 0 || along * tangents[off] <= 10000 * size)) off++;
    __int128 all = (c1 * c1 + s1 * s1 + c2 * c2 + s2 * s2) * gains[off];
    return (struct tone) { 100 * hundred + (across < 0 ? -off : off), (int64_t) (all / 1000000000000 / 1280000000) };
}

static int64_t power_at(int64_t place)
{
    int64_t power = 0;
    for (int n = 0; n < STRETCH; n++) power += square(tape[HOP * place + n]);
    return power;
}

/* Where on the tape a key has its strongest stretch; NONE where none lies there. */
static int64_t strongest(struct heard key)
{
    int64_t from = key.first > gone ? key.first - gone : 0, to = least_of(key.past - 6 - gone, (on_tape - 180) / HOP);
    int64_t best = NONE;
    for (int64_t place = from; place < to; place++)
        if (best == NONE || power_at(best) < power_at(place)) best = place;
    return best;
}

/* For how many tenths of a ms a tone has sounded by the middle of the last of these steps: each has 5 ms for as much of the
   tone as there is in it, in thousandths of what there is in the last. */
static int sounded(const int16_t *round, int hundred)
{
    __int128 levels[LAST_STEP + 1];
    int shares = 0;
    for (int step = 0; step <= LAST_STEP; step++) {
        __int128 c = weighed(round + STEP * step, hundred, 0, 20), s = weighed(round + STEP * step, hundred, 0, 0);
        levels[step] = c * c + s * s;
    }
    for (int step = 0; step < LAST_STEP; step++) {
        __int128 last = levels[LAST_STEP] > 0 ? levels[LAST_STEP] : 1, share = 1000 * levels[step] / last;
        shares += share < 1000 ? (int) share : 1000;
    }
    return shares / 20;
}

/* Where on the tape the steps round the beginning of a key begin; NONE where not all of them lie there. */
static int64_t round_of(struct heard key)
{
    int64_t first = key.first > gone ? key.first - gone : 0;
    return first < BEFORE || first + AFTER > on_tape / HOP ? NONE : HOP * (first - BEFORE);
}

/* How many ms the holes of a key last: 20 samples for each window in which no pair stood out, nor in the one before it. */
static int64_t hole_of(struct heard key)
{
    int64_t blank = 0, from = windows > TAIL_WINDOWS ? windows - TAIL_WINDOWS : 0;
    if (from < key.first) from = key.first;
    for (int64_t at = from + 1; at < key.past; at++)
        blank += strength(before[at % TAIL_WINDOWS]) == 0 && strength(before[(at - 1) % TAIL_WINDOWS]) == 0;
    return HOP * blank / 8;
}

static int is_about(int64_t wanted, int64_t off, int64_t number) { return llabs(number - wanted) <= off; }

static struct heard last;
static int has_last;

/* Prints a limit that is missed. */
static void misses(int fits, const char *limit, int *missed)
{
    if (!fits) printf(" %s", limit), ++*missed;
}

/* 1.5 %, and 2 Hz for the measure. */
static int is_tuned(struct tone tone, int hundred) { return is_about(100000 * hundred, 1500 * hundred + 2000, 1000 * tone.hz); }

/* Prints all limits that a key misses. */
static void verdict(struct sight sight, struct tone low_tone, struct tone high_tone, int64_t length, int64_t gap, int knows,
    int skew, int64_t hole)
{
    int kp = sight.low == 2 && sight.high == 5, kp2 = sight.low == 3 && sight.high == 5;
    int low = tenths(low_tone.level), high = tenths(high_tone.level), missed = 0;
    misses((!kp && is_about(68, 14, length)) || ((kp || kp2) && is_about(100, 14, length)), "LENGTH", &missed);
    misses(!has_last || kp || kp2 || is_about(68, 14, gap), "GAP", &missed);
    misses(is_tuned(low_tone, hundreds[sight.low]) && is_tuned(high_tone, hundreds[sight.high]), "TUNING", &missed);
    misses(is_about(low, 12, high), "TWIST", &missed);
    misses(is_about(-70, 12, low) && is_about(-70, 12, high), "LEVEL", &missed);
    misses(!knows || is_about(0, 30, skew), "SKEW", &missed);
    misses(hole == 0, "HOLE", &missed);
    puts(missed ? "" : " GOOD");
}

/* Prints a key that ended. */
static void give(struct heard key)
{
    int64_t start = (HOP * key.first + 20) / 8, length = (HOP * (key.past - key.first) + 20) / 8;
    int64_t between = HOP * (key.first - last.past) - 20, gap = between > 0 ? between / 8 : 0;
    const int64_t place = strongest(key);
    struct tone low_tone = { 100 * hundreds[key.sight.low], key.sight.low_level };
    struct tone high_tone = { 100 * hundreds[key.sight.high], key.sight.high_level };
    if (place != NONE) {
        low_tone = tone_of(tape + HOP * place, hundreds[key.sight.low]);
        high_tone = tone_of(tape + HOP * place, hundreds[key.sight.high]);
    }
    int low = tenths(low_tone.level), high = tenths(high_tone.level);
    printf("%s at %lld ms for %lld ms, %d Hz ", name(key.sight), (long long) start, (long long) length, low_tone.hz);
    print_tenths(low);
    printf(" dBm0, %d Hz ", high_tone.hz);
    print_tenths(high);
    printf(" dBm0, twist ");
    print_tenths(high - low);
    int64_t round = round_of(key), hole = hole_of(key);
    int skew = round == NONE ? 0 : sounded(tape + round, hundreds[key.sight.low]) - sounded(tape + round, hundreds[key.sight.high]);
    printf(" dB, skew ");
    if (round == NONE)
        printf("unknown");
    else
        print_tenths(skew), printf(" ms");
    printf(", hole %lld ms", (long long) hole);
    if (has_last)
        printf(", after %lld ms:", (long long) gap);
    else
        printf(", first:");
    verdict(key.sight, low_tone, high_tone, length, gap, round != NONE, skew, hole);
    last = key;
    has_last = 1;
}

int main(void)
{
    const struct sight none = { NONE, NONE, 0, 0 };
    int16_t window[WINDOW];
    int filled = 0, low, high;
    struct sight run = none;
    struct heard sounding = { none, 0, 0 };
    int64_t at = 0, first = 0, count = 0, part = 0, away = 0;  /* windows of the run, those in a row, and those since */
    make_tables();
    while ((low = getchar()) != EOF && (high = getchar()) != EOF) {
        window[filled++] = (int16_t) (low | high << 8);
        keep(window[filled - 1]);
        if (filled < WINDOW) continue;
        struct sight seen = without_tail(sees(window), at++);
        memmove(window, window + HOP, sizeof window - HOP * sizeof *window);
        filled = WINDOW - HOP;
        if (seen.low == NONE) {
            if (++away < GAP_WINDOWS) continue;
            if (sounding.sight.low != NONE) give(sounding);
            run = sounding.sight = none;
            continue;
        }
        if (is_same(run, seen) && (away == 0 || part >= PART_WINDOWS)) {
            count++;
            part = away ? 1 : part + 1;
            if (strength(run) < strength(seen)) run = seen;
        } else {
            run = seen;
            count = part = 1;
            first = at - 1;
        }
        away = 0;
        if (part < PART_WINDOWS || count < needed(run)) continue;
        if (!is_same(sounding.sight, run)) {
            if (sounding.sight.low != NONE) give(sounding);
            sounding = (struct heard) { run, first, at };
        } else {
            if (strength(sounding.sight) < strength(run)) sounding.sight = run;
            sounding.past = at;
        }
    }
    if (sounding.sight.low != NONE) give(sounding);
    return ferror(stdin) || fflush(stdout) ? 1 : 0;
}
