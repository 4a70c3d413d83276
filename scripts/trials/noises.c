/* Sounds of many kinds, one after the other, as samples of 16 bits, 8,000 a second, the low byte first: keyings of any
   levels, twists, tunings and times, with noise, hum, echoes, rooms, clipping and mu-law; one tone; noise that swells as
   speech does; white noise; random bytes; steps from end to end; silence. A seed says which.

       noises SEED SAMPLES */
#include <math.h>
#include <stdint.h>
#include <stdio.h>
#include <stdlib.h>

enum { RATE = 8000, MOST = 8 * RATE, TONES = 6, KINDS = 24 };

static double mix[MOST];
static uint64_t state;

static double uniform(double least, double most)
{
    state ^= state << 13;
    state ^= state >> 7;
    state ^= state << 17;
    return least + (most - least) * ((state >> 11) / 9007199254740992.0);
}

static int throw(int sides) { return (int) uniform(0, sides); }

static double gauss(void) { return sqrt(-2 * log(uniform(0, 1) + 1e-300)) * cos(2 * M_PI * uniform(0, 1)); }

/* The amplitude of a sine of so many dBm0, where 32,767 is 3.14. */
static double amplitude(double dbm0) { return 32767 * pow(10, (dbm0 - 3.14) / 20); }

static int samples_of(double ms) { return (int) (ms * RATE / 1000); }

static int at_most(int a, int b) { return a < b ? a : b; }

/* Adds two tones of one pair for so many samples. */
static void sound(int from, int count, double low_hz, double high_hz, double low, double high)
{
    double by_low = uniform(0, 2 * M_PI), by_high = uniform(0, 2 * M_PI);
    for (int n = 0; n < count; n++) {
        mix[from + n] += low * sin(by_low + 2 * M_PI * low_hz * n / RATE);
        mix[from + n] += high * sin(by_high + 2 * M_PI * high_hz * n / RATE);
    }
}

/* A keying: KP, and then any keys. One in three is as a sender keys it, and one has any levels and times. */
static int keying(void)
{
    static const double most_twist[] = { 0, 6, 14 }, most_off[] = { 0, .015, .03 };
    static const double least[] = { -8, -30, -38 }, most[] = { -6, 0, 3 };
    static const double shortest[] = { 55, 30, 15 }, longest[] = { 80, 110, 110 }, least_gap[] = { 55, 25, 0 };
    int how = throw(3), from = samples_of(uniform(0, 300)), keys = 1 + throw(20);
    double level = uniform(least[how], most[how]), twist = uniform(-most_twist[how], most_twist[how]);
    double tuning = 1 + uniform(-most_off[how], most_off[how]), hz = how == 2 ? uniform(-12, 12) : 0;
    double key_ms = uniform(shortest[how], longest[how]), gap_ms = uniform(least_gap[how], longest[how]);
    for (int k = 0; k < keys; k++) {
        int low = k ? throw(TONES - 1) : 2, high = k ? low + 1 + throw(TONES - 1 - low) : 5;
        int count = samples_of(k ? key_ms : fmax(key_ms, uniform(45, 130)));
        double by = how == 2 ? twist + uniform(-2, 2) : twist;
        if (from + count + samples_of(gap_ms) >= MOST) break;
        sound(from, count, (700 + 200 * low) * tuning + hz, (700 + 200 * high) * tuning + hz,
            amplitude(level + by / 2), amplitude(level - by / 2));
        from += count + samples_of(gap_ms);
    }
    return at_most(from + samples_of(uniform(0, 400)), MOST);
}

/* What a keying passes through. */
static void spoil(int count)
{
    if (throw(3) == 0)
        for (int n = count - 1, late = samples_of(uniform(5, 60)); n >= late; n--) mix[n] += .5 * mix[n - late];
    if (throw(5) == 0)
        for (int n = samples_of(31); n < count; n++) mix[n] += .55 * mix[n - samples_of(31)] - .3 * mix[n - samples_of(19)];
    if (throw(3) == 0)
        for (int n = 0, hz = throw(2) ? 60 : 2600, level = -40 + throw(36); n < count; n++)
            mix[n] += amplitude(level) * sin(2 * M_PI * hz * n / RATE);
    if (throw(2))
        for (double level = amplitude(uniform(-45, -4)) / sqrt(2), n = 0; n < count; n++) mix[(int) n] += level * gauss();
    if (throw(8) == 0)
        for (double most = uniform(2000, 16000), n = 0; n < count; n++) mix[(int) n] = fmax(-most, fmin(most, mix[(int) n]));
}

/* Noise through a resonance that moves, which swells and stops some times a second. */
static void speak(int count)
{
    double one = 0, two = 0, level = amplitude(uniform(-30, 3)), hz = 0, pitch = uniform(80, 250), swell = 0;
    for (int n = 0; n < count; n++) {
        if (n % samples_of(20) == 0) hz = hz == 0 ? uniform(300, 2200) : fmax(300, fmin(2200, hz + uniform(-150, 150)));
        if (n % samples_of(120) == 0) swell = throw(3) ? uniform(.2, 1) : 0;
        double struck = throw(2) ? gauss() / 8 : fmod(n * pitch / RATE, 1) < pitch / RATE;
        double now = struck + 2 * .985 * cos(2 * M_PI * hz / RATE) * one - .985 * .985 * two;
        two = one;
        one = now;
        mix[n] = level * swell * now / 4;
    }
}

static int fill(int kind)
{
    int count = samples_of(uniform(200, 3000));
    switch (kind) {
    case 0:
        sound(0, count, 700 + 200 * throw(TONES), 0, amplitude(uniform(-40, 3)), 0);
        break;
    case 1:
        for (double level = amplitude(uniform(-50, 3)), n = 0; n < count; n++) mix[(int) n] = level * gauss();
        break;
    case 2:
        for (int n = 0; n < count; n++) mix[n] = throw(65536) - 32768;
        break;
    case 3:
        for (int n = 0, every = 1 + throw(12); n < count; n++) mix[n] = n / every % 2 ? 32767 : -32768;
        break;
    case 4:
        for (int n = 0, same = throw(2) ? 0 : throw(65536) - 32768; n < count; n++) mix[n] = same;
        break;
    case 5:
    case 6:
    case 7:
        speak(count);
        break;
    default:
        count = keying();
        if (throw(4)) spoil(count);
    }
    return count;
}

int main(int count, char **words)
{
    if (count != 3) {
        fprintf(stderr, "usage: noises SEED SAMPLES\n");
        return 2;
    }
    state = 88172645463325252ull + 7919ull * strtoull(words[1], 0, 10);
    long long left = strtoll(words[2], 0, 10);
    for (int n = 0; n < 20; n++) uniform(0, 1);
    while (left > 0) {
        for (int n = 0; n < MOST; n++) mix[n] = 0;
        int made = fill(throw(KINDS));
        for (int n = 0; n < made && left > 0; n++, left--) {
            int sample = (int) lround(fmax(-32768, fmin(32767, mix[n])));
            putchar(sample & 255);
            putchar(sample >> 8 & 255);
        }
    }
    return ferror(stdout) || fflush(stdout) ? 1 : 0;
}
