/* Sounds of keyings by a seed, one after the other, as samples of 16 bits, the low byte first. It knows nothing of the
   programs here.

       keyings                             prints a line for each row: its number, which trial it is for, whether it has
                                           to be heard, samples a second, the codec that it goes through, its name
       keyings ROW COUNT INDEX [SPEECH]    writes COUNT keyings of a row, and to the file INDEX a line for each: the ms
                                           at which it begins, and the keys that are to be heard. SPEECH is a file of
                                           samples, 8,000 a second

   The digits, the place, the phases of the tones and what has a range are each by the seed. A row is 'must' where all
   have to be heard, 'may' where no other number may be heard, 'any' where another number is known to come, and 'known'
   where mfrx is known to hear keys that nobody keyed. */
#include "seeded.h"

enum { MOST_RATE = 192000, MOST_S = 12, MOST_DIGITS = 14, BETWEEN = 1200, MOST_KEYS = MOST_DIGITS + 2 };

struct range { double least, most; };

/* Digits of DTMF: by themselves, between KP and ST in place of the digits, or one after each key. */
enum dtmf { NONE, ALONE, WITHIN, IN_GAPS };

/* Times in ms, levels of a tone in dBm0, twist in dB either way, detuning of each tone as a part either way; `off` is
   what the times of keys and gaps differ by, either way. One tone of a key is late by the skew. Of what is beside, the
   level and the Hz. An echo and another keying are so many dB below a tone, or above it; speech is as it was recorded
   at 0. Tones that are folded are those that fall onto the tones of the keys where one of several samples is taken.
   Digits of DTMF are those that are known to be heard as keys, whose tones are theirs but for 50 Hz, where `is_near`, and
   the others else. */
struct row {
    const char *use, *must, *codec, *name;
    double kp, key, gap, off, hole, skew, twist, detuning, beside, beside_hz, voltage, echo, echo_ms, crosstalk, speech;
    struct range level, noise;
    int rate, harmonics, is_folded, is_near;
    enum dtmf dtmf;
};
#define SILENT (-200)
#define LEVEL(least, most) .level = { least, most }
#define NOISE(least, most) .noise = { least, most }
#define USUAL .rate = 8000, .kp = 100, .key = 68, .gap = 68, LEVEL(-7, -7), NOISE(SILENT, SILENT), .beside = SILENT, \
    .echo = SILENT, .crosstalk = SILENT, .speech = SILENT
#define ROW(must, name, ...) { "row", must, "-", name, USUAL, __VA_ARGS__ }
#define GSM(must, name, ...) { "row", must, "gsm", name, USUAL, __VA_ARGS__ }
#define EDGE(codec, name, ...) { "edge", "any", codec, name, USUAL, __VA_ARGS__ }
/* Keyings that keep to System R1. */
#define BY_SYSTEM_R1 LEVEL(-8, -6), .twist = 1, .detuning = .015, .off = 7
#define GOOD(name, ...) { "good", "must", "-", name, USUAL, BY_SYSTEM_R1, __VA_ARGS__ }
#define QUIET LEVEL(-20, -20), .beside = -10
#define ECHO(must, db, ms) ROW(must, "echo " #ms " ms late, " #db " dB below", .echo = -db, .echo_ms = ms)
#define EARLY_ECHOES(must, db) ECHO(must, db, 20), ECHO(must, db, 40), ECHO(must, db, 60), ECHO(must, db, 80), \
    ECHO(must, db, 100)
#define LATE_ECHOES(must, db) ECHO(must, db, 120), ECHO(must, db, 140), ECHO(must, db, 160)
#define LATEST_ECHOES(must, db) ECHO(must, db, 180), ECHO(must, db, 200)
#define AT_RATE(hz, name) ROW("must", name " a second", .rate = hz), \
    ROW("must", "tones that fold onto keys, " name " a second", .rate = hz, .is_folded = 1)
#pragma GCC diagnostic ignored "-Woverride-init"
static const struct row rows[] = {
    ROW("must", "as they are keyed", .skew = 0),
    ROW("must", "within System R1", BY_SYSTEM_R1),
    ROW("must", "holes of 4 ms", .hole = 4), ROW("must", "holes of 6 ms", .hole = 6),
    ROW("must", "holes of 8 ms", .hole = 8), ROW("must", "holes of 10 ms", .hole = 10),
    ROW("must", "holes of 12 ms", .hole = 12),
    ROW("must", "one tone late by 1 ms", .skew = 1), ROW("must", "one tone late by 2 ms", .skew = 2),
    ROW("must", "one tone late by 4 ms", .skew = 4), ROW("must", "one tone late by 6 ms", .skew = 6),
    ROW("must", "hum of 50 Hz and 7 harmonics, 10 dB above a tone, and a voltage", QUIET, .beside_hz = 50,
        .harmonics = 7, .voltage = 3000),
    ROW("must", "hum of 60 Hz and 7 harmonics, 10 dB above a tone, and a voltage", QUIET, .beside_hz = 60,
        .harmonics = 7, .voltage = -3000),
    ROW("must", "2,600 Hz beside, 10 dB below a tone", .beside = -17, .beside_hz = 2600),
    ROW("must", "2,600 Hz beside, as loud as a tone", .beside = -7, .beside_hz = 2600),
    ROW("must", "2,600 Hz beside, 10 dB above a tone", QUIET, .beside_hz = 2600),
    EARLY_ECHOES("must", 6), LATE_ECHOES("any", 6), LATEST_ECHOES("any", 6),
    EARLY_ECHOES("must", 8), LATE_ECHOES("any", 8), LATEST_ECHOES("any", 8),
    EARLY_ECHOES("must", 10), LATE_ECHOES("must", 10), LATEST_ECHOES("may", 10),
    EARLY_ECHOES("must", 14), LATE_ECHOES("must", 14), LATEST_ECHOES("may", 14),
    EARLY_ECHOES("must", 20), LATE_ECHOES("must", 20), LATEST_ECHOES("may", 20),
    GSM("must", "GSM", .skew = 0), GSM("any", "GSM, keys and gaps of 55 ms", .key = 55, .gap = 55),
    ROW("must", "DTMF without 2, 3, 9, 0 and #, alone", .dtmf = ALONE),
    ROW("must", "DTMF without 2, 3, 9, 0 and #, between KP and ST", .dtmf = WITHIN),
    ROW("must", "DTMF without 2, 3, 9, 0 and #, a digit after each key", .dtmf = IN_GAPS),
    ROW("known", "DTMF of 2, 3, 9, 0 and #, alone", .dtmf = ALONE, .is_near = 1),
    ROW("known", "DTMF of 2, 3, 9, 0 and #, between KP and ST", .dtmf = WITHIN, .is_near = 1),
    AT_RATE(16000, "16,000"), AT_RATE(24000, "24,000"), AT_RATE(32000, "32,000"), AT_RATE(48000, "48,000"),
    AT_RATE(64000, "64,000"), AT_RATE(96000, "96,000"), AT_RATE(192000, "192,000"),
    EDGE("-", "white noise of -8 to -7 dBm0", NOISE(-8, -7)),
    EDGE("-", "another keying beside, 12 dB below", .crosstalk = -12),
    EDGE("-", "speech beside, as it was recorded", .speech = 0),
    EDGE("gsm", "keys of 25 to 55 ms through GSM", .key = 40, .gap = 55, .off = 15),
    GOOD("within System R1", .skew = 0),
    GOOD("within System R1, noise of -30 dBm0, one tone late by 1 ms", NOISE(-30, -30), .skew = 1),
};
enum { ROWS = sizeof rows / sizeof *rows };

static double mix[MOST_S * MOST_RATE];

static double between(double least, double most) { return least + (most - least) * uniform(); }

static int throw(int sides) { return (int) (uniform() * sides); }

static int samples_of(const struct row *row, double ms) { return (int) (ms * row->rate / 1000); }

/* Adds a sine for so many samples, from place n on, without a hole in the middle. */
static void add_sine(int rate, double hz, double most, int n, int length, int hole)
{
    double phase = 2 * M_PI * uniform();
    for (int i = 0; i < length; i++)
        if (2 * i < length - hole || 2 * i >= length + hole) mix[n + i] += most * sin(phase + 2 * M_PI * hz * i / rate);
}

/* The frequency that a tone of a key has: its own, or one that folds onto it. */
static double frequency(const struct row *row, int hz, int fold, int side)
{
    return row->is_folded ? 8000. * fold + side * hz : hz * (1 + between(-row->detuning, row->detuning));
}

/* Adds the tones of a key and the gap after it, so many dB below, and returns where the next one begins. */
static int add_key(const struct row *row, const char *key, double below, int n)
{
    const struct pair pair = pair_of(key);
    const double level = between(row->level.least, row->level.most) + below;
    const double twist = between(-row->twist, row->twist) / 2;
    const int length = samples_of(row, (key[0] == 'K' ? row->kp : row->key) + between(-row->off, row->off));
    const int gap = samples_of(row, row->gap + between(-row->off, row->off)), hole = samples_of(row, row->hole);
    const int late = samples_of(row, row->skew), low_late = throw(2) ? late : 0;
    const int fold = 1 + throw(row->rate / 16000), side = 8000 * fold < row->rate / 2 && throw(2) ? 1 : -1;
    const double low = frequency(row, pair.low, fold, side), high = frequency(row, pair.high, fold, side);
    add_sine(row->rate, low, amplitude(level + twist), n + low_late, length, hole);
    add_sine(row->rate, high, amplitude(level - twist), n + late - low_late, length, hole);
    return n + length + gap;
}

/* Adds a digit of DTMF and a gap, each of 70 ms, and returns where the next one begins. */
static int add_dtmf(const struct row *row, int n)
{
    static const int near[][2] = { { 697, 1336 }, { 697, 1477 }, { 852, 1477 }, { 941, 1336 }, { 941, 1477 } };
    static const int far[][2] = { { 697, 1209 }, { 697, 1633 }, { 770, 1209 }, { 770, 1336 }, { 770, 1477 },
        { 770, 1633 }, { 852, 1209 }, { 852, 1336 }, { 852, 1633 }, { 941, 1209 }, { 941, 1633 } };
    enum { NEAR = sizeof near / sizeof *near, FAR = sizeof far / sizeof *far };
    const int *pair = row->is_near ? near[throw(NEAR)] : far[throw(FAR)];
    const int length = samples_of(row, 70);
    add_sine(row->rate, pair[0], amplitude(row->level.least), n, length, 0);
    add_sine(row->rate, pair[1], amplitude(row->level.least), n, length, 0);
    return n + 2 * length;
}

/* Adds keys from place n on, and returns where they end. */
static int add_keys(const struct row *row, const char **keys, int count, double below, int n)
{
    for (int k = 0; k < count; k++) {
        int is_key = row->dtmf != ALONE && (row->dtmf != WITHIN || k == 0 || k == count - 1);
        if (is_key) n = add_key(row, keys[k], below, n);
        if (!is_key || (row->dtmf == IN_GAPS && k < count - 1)) n = add_dtmf(row, n);
    }
    return n;
}

/* The keys of a number of so many digits or fewer, and how many they are. */
static int choose_keys(const char **keys)
{
    int count = 1;
    keys[0] = "KP";
    for (int digits = 1 + throw(MOST_DIGITS); digits > 0; digits--) keys[count++] = pairs[throw(10)].key;
    keys[count++] = "ST";
    return count;
}

/* Prints which keys are to be heard, and from when on. */
static void print_keys(FILE *index, const struct row *row, const char **keys, int count, double from)
{
    fprintf(index, "%.0f", from * 1000 / row->rate);
    for (int k = 0; k < count && row->dtmf != ALONE && !row->is_folded; k++)
        if (row->dtmf != WITHIN || k == 0 || k == count - 1) fprintf(index, " %s", keys[k]);
    fputc('\n', index);
}

/* Adds what is spoilt of a keying of so many samples, which begins at sample `place` of all. */
static void spoil(const struct row *row, int count, long place, const int16_t *speech, long speech_length)
{
    const int late = samples_of(row, row->echo_ms);
    const double echo = pow(10, row->echo / 20), noise = amplitude(between(row->noise.least, row->noise.most)) / sqrt(2);
    long said = speech_length > count ? throw((int) (speech_length - count)) : 0;
    if (row->echo > SILENT)
        for (int i = count - 1; i >= late; i--) mix[i] += echo * mix[i - late];
    for (int i = 0; i < count; i++) {
        mix[i] += row->voltage;
        if (row->beside > SILENT)
            mix[i] += amplitude(row->beside) * hum_at(row->beside_hz * (place + i) / row->rate, row->harmonics);
        if (row->noise.least > SILENT) mix[i] += noise * gauss();
        if (row->speech > SILENT) mix[i] += pow(10, row->speech / 20) * speech[said + i];
    }
}

/* Writes a keying, with silence before and after it, and returns how many samples they are. */
static int write_keying(const struct row *row, FILE *index, long place, const int16_t *speech, long speech_length)
{
    const char *keys[MOST_KEYS], *others[MOST_KEYS];
    const int keyed = choose_keys(keys), from = samples_of(row, BETWEEN / 2 + 15 * uniform());
    memset(mix, 0, sizeof mix);
    const int to = add_keys(row, keys, keyed, 0, from), count = to + samples_of(row, BETWEEN / 2);
    if (row->crosstalk > SILENT) {
        /* It goes on while this one is keyed, so that it is not heard as a number by itself before or after. */
        const int other = choose_keys(others), least = from - samples_of(row, (other - 1) * (row->key + row->gap));
        add_keys(row, others, other, row->crosstalk, (int) between(least > 0 ? least : 0, (from + to) / 2));
    }
    spoil(row, count, place, speech, speech_length);
    for (int i = 0; i < count; i++) put_sample(sample_of(mix[i]));
    print_keys(index, row, keys, keyed, place + from);
    return count;
}

/* Reads the samples of a file, and returns how many they are. */
static long read_speech(const char *name, int16_t *speech, long most)
{
    FILE *file = fopen(name, "rb");
    long count = file ? (long) fread(speech, sizeof *speech, most, file) : 0;
    if (file) fclose(file);
    return count;
}

int main(int count, char **words)
{
    enum { MOST_SPEECH = 1 << 24 };
    static int16_t speech[MOST_SPEECH];
    const struct row *row = rows;
    if (count == 1) {
        for (; row < rows + ROWS; row++)
            printf("%d\t%s\t%s\t%d\t%s\t%s\n", (int) (row - rows), row->use, row->must, row->rate, row->codec,
                row->name);
        return 0;
    }
    FILE *index = count == 4 || count == 5 ? fopen(words[3], "w") : NULL;
    if (!index || atoi(words[1]) >= ROWS) {
        fprintf(stderr, "usage: keyings [ROW COUNT INDEX [SPEECH]]\n");
        return 2;
    }
    row += atoi(words[1]);
    long length = count == 5 ? read_speech(words[4], speech, MOST_SPEECH) : 0, place = 0;
    if (row->speech > SILENT && length < MOST_S * 8000) {
        fprintf(stderr, "keyings: there is no speech\n");
        return 1;
    }
    begin(atoi(words[1]));
    for (int n = 0; n < atoi(words[2]); n++) place += write_keying(row, index, place, speech, length);
    return ferror(stdout) || fflush(stdout) || ferror(index) || fclose(index) ? 1 : 0;
}
