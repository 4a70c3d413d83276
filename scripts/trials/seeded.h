/* What the makers of sounds share, spoilt.c and keyings.c: the pairs of keys, levels, numbers by a seed, and samples. */
#include <math.h>
#include <stdint.h>
#include <stdio.h>
#include <stdlib.h>
#include <string.h>

static const struct pair { const char *key; int low, high; } pairs[] = {
    { "1", 700, 900 }, { "2", 700, 1100 }, { "3", 900, 1100 }, { "4", 700, 1300 }, { "5", 900, 1300 }, { "6", 1100, 1300 },
    { "7", 700, 1500 }, { "8", 900, 1500 }, { "9", 1100, 1500 }, { "0", 1300, 1500 }, { "KP", 1100, 1700 },
    { "ST", 1500, 1700 },
};

static struct pair pair_of(const char *key)
{
    int n = 0;
    while (strcmp(pairs[n].key, key)) n++;
    return pairs[n];
}

static uint64_t state;

static double uniform(void)
{
    state ^= state << 13;
    state ^= state >> 7;
    state ^= state << 17;
    return (state >> 11) / 9007199254740992.0;
}

/* Begins the numbers of a seed. */
static void begin(int seed)
{
    state = 88172645463325252ull + 7919ull * (seed + 1);
    for (int i = 0; i < 20; i++) uniform();
}

static double gauss(void) { return sqrt(-2 * log(uniform() + 1e-300)) * cos(2 * M_PI * uniform()); }

/* The amplitude of a sine of so many dBm0, where 32,767 is 3.14. */
static double amplitude(double dbm0) { return 32767 * pow(10, (dbm0 - 3.14) / 20); }

/* A sine at a place, or with its harmonics, each so many times weaker as its number is, a hum whose power is that of the
   sine. */
static double hum_at(double turns, int harmonics)
{
    double sum = 0, power = 0;
    for (int k = 1; k <= harmonics + 1; k++) {
        sum += sin(k + 2 * M_PI * k * turns) / k;
        power += 1. / (k * k);
    }
    return sum / sqrt(power);
}

static long sample_of(double sum) { return lround(fmax(-32768, fmin(32767, sum))); }

/* Writes a sample of 16 bits, the low byte first. */
static void put_sample(long sample)
{
    putchar((int) (sample & 255));
    putchar((int) (sample >> 8 & 255));
}
