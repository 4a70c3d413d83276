/* Sends numbers by the Bell MF sender of spandsp: standard input has them, one a line, and standard output gets samples
   of 16 bits, 8,000 a second: KP, the digits and ST of each, and 500 ms of silence before and after it. */
#include <stdint.h>
#include <stdio.h>
#include <string.h>
#include <spandsp.h>

enum { BLOCK = 160, SILENCE = 4000, MOST_DIGITS = 40 };

static void write_samples(const int16_t *samples, size_t count) { fwrite(samples, sizeof *samples, count, stdout); }

int main(void)
{
    static const int16_t silence[SILENCE];
    bell_mf_tx_state_t *sender = bell_mf_tx_init(NULL);
    char digits[MOST_DIGITS], keys[MOST_DIGITS + 3];
    int16_t block[BLOCK];
    write_samples(silence, SILENCE);
    while (fgets(digits, sizeof digits, stdin)) {
        digits[strcspn(digits, "\n")] = '\0';
        snprintf(keys, sizeof keys, "*%s#", digits);
        if (bell_mf_tx_put(sender, keys, -1) != 0)
            return 1;
        int made;
        do {
            made = bell_mf_tx(sender, block, BLOCK);
            write_samples(block, (size_t) made);
        } while (made == BLOCK);
        write_samples(silence, SILENCE);
    }
    bell_mf_tx_free(sender);
    return 0;
}
