/* Prints the keys that the Bell MF receiver of spandsp hears in samples of 16 bits, 8,000 a second, which are
   standard input: a line as "KP 5 6 ST". White noise of so many dBm0, made by a seed, may be added first.

       hear [DBM0 SEED] < SAMPLES
       hear times < SAMPLES             prints a line for each key: the ms at which it was known, and the key

   A key that the chain does not have is printed as spandsp names it: A, B or C. */
#include <stdint.h>
#include <stdio.h>
#include <stdlib.h>
#include <string.h>
#include <spandsp.h>

enum { BLOCK = 160, BLOCK_MS = 20 };

/* Adds white noise, cut off where a sample has no room for it. */
static void add_noise(awgn_state_t *noise, int16_t *samples, size_t count)
{
    for (size_t n = 0; n < count; n++) {
        int sum = samples[n] + awgn(noise);
        samples[n] = (int16_t) (sum > INT16_MAX ? INT16_MAX : sum < INT16_MIN ? INT16_MIN : sum);
    }
}

/* Prints a key as the chain names it. */
static void print_key(char key)
{
    if (key == '*')
        printf("KP");
    else if (key == '#')
        printf("ST");
    else
        putchar(key);
}

/* Prints the keys that were heard since this was called last, each in a line with the ms where `is_timed`; `heard` says
   whether there were any before. */
static void print_keys(bell_mf_rx_state_t *receiver, int *heard, int is_timed, long ms)
{
    char keys[MAX_BELL_MF_DIGITS + 1];
    size_t count = bell_mf_rx_get(receiver, keys, MAX_BELL_MF_DIGITS);
    for (size_t k = 0; k < count; k++) {
        if (is_timed)
            printf("%ld ", ms);
        else if (*heard)
            putchar(' ');
        *heard = 1;
        print_key(keys[k]);
        if (is_timed)
            putchar('\n');
    }
}

int main(int count, char **words)
{
    const int is_timed = count == 2 && strcmp(words[1], "times") == 0;
    if (count != 1 && count != 3 && !is_timed) {
        fprintf(stderr, "usage: hear [DBM0 SEED | times] < SAMPLES\n");
        return 2;
    }
    bell_mf_rx_state_t *receiver = bell_mf_rx_init(NULL, NULL, NULL);
    awgn_state_t *noise = NULL;
    if (count == 3)
        noise = awgn_init_dbm0(NULL, atoi(words[2]), (float) atof(words[1]));
    if (!receiver || (count == 3 && !noise)) {
        fprintf(stderr, "hear: out of memory\n");
        return 1;
    }
    int16_t samples[BLOCK];
    size_t got;
    int heard = 0;
    long ms = 0;
    while ((got = fread(samples, sizeof *samples, BLOCK, stdin)) > 0) {
        if (noise)
            add_noise(noise, samples, got);
        bell_mf_rx(receiver, samples, (int) got);
        ms += BLOCK_MS;
        print_keys(receiver, &heard, is_timed, ms);
    }
    if (!is_timed)
        putchar('\n');
    bell_mf_rx_free(receiver);
    if (noise)
        awgn_free(noise);
    return ferror(stdin) || fflush(stdout) ? 1 : 0;
}
