/* Sounds of a keying, each spoilt in one way, as samples of 16 bits, 8,000 a second, the low byte first. It knows
   nothing of the programs here.

       spoilt                prints a line for each row: its number, whether it has to be heard, its name
       spoilt ROW PHASE      writes the sound of a row, which begins PHASE samples later
       spoilt keys           prints the keys of the keying

   A row is 'must' where a receiver that is better than the field's has to hear it wherever it begins, and 'may' else. */
#include "seeded.h"
#include <spandsp.h>

enum { RATE = 8000, MOST = 40000, PAUSE = RATE / 10 };

static const char *keys[] = { "KP", "2", "2", "3", "3", "4", "5", "6", "7", "7", "8", "9", "0", "1", "ST" };
enum { KEYS = sizeof keys / sizeof *keys };

/* Times in ms, levels of a tone in dBm0, twist in dB, detuning as a part; of what is beside, its level and its Hz, and how
   many harmonics it has, each so many times weaker as its number is; the level is that of all. A voltage is added to
   each sample. A hole is silence in the middle of each key. An echo is a part of the sound, so many ms later. */
struct row {
    const char *must, *name;
    double kp, key, gap, hole, level, twist, detuning, hz, noise, beside, beside_hz, voltage, echo, echo_ms, clip, wow;
    int harmonics, is_mu_law;
};
#define SILENT (-200)
#define QUIET .level = -20, .beside = -10
#define USUAL .kp = 100, .key = 68, .gap = 68, .level = -7, .noise = SILENT, .beside = SILENT, .echo_ms = 20
#define ROW(must, name, ...) { must, name, USUAL, __VA_ARGS__ }
#pragma GCC diagnostic ignored "-Woverride-init"
static const struct row rows[] = {
    ROW("must", "as it is keyed", .wow = 0),
    ROW("must", "keys of 30 ms", .key = 30), ROW("must", "keys of 35 ms", .key = 35), ROW("must", "keys of 40 ms", .key = 40),
    ROW("may", "keys of 28 ms", .key = 28), ROW("may", "keys of 26 ms", .key = 26), ROW("must", "KP of 55 ms", .kp = 55),
    ROW("may", "KP of 50 ms", .kp = 50), ROW("must", "gaps of 38 ms", .gap = 38), ROW("must", "gaps of 30 ms", .gap = 30),
    ROW("must", "gaps of 25 ms", .gap = 25), ROW("may", "gaps of 20 ms", .gap = 20),
    ROW("must", "keys of 30, KP of 55 and gaps of 25 ms", .key = 30, .kp = 55, .gap = 25),
    ROW("must", "holes of 10 ms", .hole = 10), ROW("may", "holes of 12 ms", .hole = 12),
    ROW("must", "10 Hz too high", .hz = 10), ROW("must", "10 Hz too low", .hz = -10),
    ROW("may", "1.5 % and 10 Hz too high", .detuning = .015, .hz = 10),
    ROW("may", "1.5 % and 10 Hz too low", .detuning = -.015, .hz = -10),
    ROW("may", "6 dB of twist, 2 % too high", .twist = 6, .detuning = .02),
    ROW("may", "-6 dB of twist, 2 % too low", .twist = -6, .detuning = -.02),
    ROW("must", "white noise of -14 dBm0", .noise = -14), ROW("must", "white noise of -10 dBm0", .noise = -10),
    ROW("may", "white noise of -8 dBm0", .noise = -8), ROW("may", "white noise of -7 dBm0", .noise = -7),
    ROW("must", "60 Hz beside, 10 dB above a tone", QUIET, .beside_hz = 60),
    ROW("must", "50 Hz beside, 10 dB above a tone", QUIET, .beside_hz = 50),
    ROW("must", "hum of 60 Hz and 7 harmonics, 10 dB above a tone", QUIET, .beside_hz = 60, .harmonics = 7),
    ROW("must", "hum of 50 Hz and 7 harmonics, 10 dB above a tone", QUIET, .beside_hz = 50, .harmonics = 7),
    ROW("must", "180 Hz beside, 10 dB above a tone", QUIET, .beside_hz = 180),
    ROW("must", "2,600 Hz beside, 10 dB above a tone", QUIET, .beside_hz = 2600),
    ROW("must", "a steady voltage of 12,000", .voltage = 12000),
    ROW("must", "a steady voltage of -3,000, tones of -25 dBm0", .voltage = -3000, .level = -25),
    ROW("must", "an echo of 20 ms, 10 dB below", .echo = .316), ROW("may", "an echo of 20 ms, 6 dB below", .echo = .5),
    ROW("must", "an echo of 40 ms, 6 dB below", .echo = .5, .echo_ms = 40),
    ROW("must", "an echo of 60 ms, 6 dB below", .echo = .5, .echo_ms = 60),
    ROW("must", "an echo of 60 ms, 10 dB below", .echo = .316, .echo_ms = 60),
    ROW("must", "an echo of 100 ms, 6 dB below", .echo = .5, .echo_ms = 100),
    ROW("must", "an echo of 100 ms, 10 dB below", .echo = .316, .echo_ms = 100),
    ROW("must", "an echo of 150 ms, 10 dB below", .echo = .316, .echo_ms = 150),
    ROW("must", "an echo of 150 ms, 20 dB below", .echo = .1, .echo_ms = 150),
    ROW("must", "clipped at half", .clip = .5), ROW("may", "clipped at a quarter", .clip = .25),
    ROW("must", "by mu-law", .is_mu_law = 1), ROW("must", "by mu-law, -28 dBm0", .is_mu_law = 1, .level = -28),
    ROW("may", "wow of 1 % at 4 Hz", .wow = .01), ROW("may", "wow of 2 % at 4 Hz", .wow = .02),
};
enum { ROWS = sizeof rows / sizeof *rows };

/* Puts the tones of a key, and the gap after it, from place n on. */
static int key_at(const struct row *row, const char *key, double *mix, int n)
{
    const struct pair pair = pair_of(key);
    double low = 0, high = 0;
    const int start = n, hole = (int) (row->hole * RATE / 1000);
    for (int length = (int) ((key[0] == 'K' ? row->kp : row->key) * RATE / 1000); length > 0; length--) {
        double speed = (1 + row->wow * sin(2 * M_PI * 4 * n / RATE)) * 2 * M_PI / RATE;
        mix[n++] = amplitude(row->level + row->twist / 2) * sin(low) + amplitude(row->level - row->twist / 2) * sin(high);
        low += (pair.low * (1 + row->detuning) + row->hz) * speed;
        high += (pair.high * (1 + row->detuning) + row->hz) * speed;
    }
    memset(mix + (start + n - hole) / 2, 0, hole * sizeof *mix);
    for (int length = (int) (row->gap * RATE / 1000); length > 0; length--) mix[n++] = 0;
    return n;
}

static void write_row(const struct row *row, int phase)
{
    static double mix[MOST];
    const int late = (int) (row->echo_ms * RATE / 1000);
    int n = PAUSE + phase;
    double most = amplitude(row->level) * 2 * row->clip;
    for (int k = 0; k < KEYS; k++) n = key_at(row, keys[k], mix, n);
    n += row->echo > 0 ? PAUSE + late : PAUSE;
    begin(phase);
    if (row->echo > 0)
        for (int i = n - 1; i >= late; i--) mix[i] += row->echo * mix[i - late];
    for (int i = 0; i < n; i++) {
        double sum = mix[i] + row->voltage;
        if (row->beside > SILENT) sum += amplitude(row->beside) * hum_at(row->beside_hz * i / RATE, row->harmonics);
        if (row->noise > SILENT) sum += gauss() * amplitude(row->noise) / sqrt(2);
        if (row->clip > 0) sum = fmax(-most, fmin(most, sum));
        long sample = sample_of(sum);
        if (row->is_mu_law) sample = ulaw_to_linear(linear_to_ulaw((int) sample));
        put_sample(sample);
    }
}

int main(int count, char **words)
{
    if (count == 1) {
        for (int r = 0; r < ROWS; r++) printf("%d\t%s\t%s\n", r, rows[r].must, rows[r].name);
    } else if (count == 2 && !strcmp(words[1], "keys")) {
        for (int k = 0; k < KEYS; k++) printf("%s%s", k ? " " : "", keys[k]);
        putchar('\n');
    } else if (count == 3 && atoi(words[1]) < ROWS) {
        write_row(&rows[atoi(words[1])], atoi(words[2]));
    } else {
        fprintf(stderr, "usage: spoilt [ROW PHASE | keys]\n");
        return 2;
    }
    return ferror(stdout) || fflush(stdout) ? 1 : 0;
}
