/* zlib's crc32, timed: what a save's checksum takes at the least. Compiled where zlib can be had. It is driven over its
 * standard input, so that its rounds fall between the others':
 *
 *   length NUMBER  of how many bytes the checksum is worked out from now on
 *   run COUNT      works it out so many times; answers the nanoseconds that took
 */
#define _POSIX_C_SOURCE 199309L

#include <stdint.h>
#include <stdio.h>
#include <string.h>
#include <time.h>
#include <zlib.h>

static unsigned char bytes[1 << 20];

static double now(void)
{
    struct timespec time;
    clock_gettime(CLOCK_MONOTONIC, &time);
    return 1e9 * (double)time.tv_sec + (double)time.tv_nsec;
}

int main(void)
{
    char word[16];
    unsigned long number, length = 0, sum = 0;
    for (size_t place = 0; place < sizeof bytes; place++)
        bytes[place] = (unsigned char)(place * place / 7);
    while (scanf("%15s %lu", word, &number) == 2) {
        if (strcmp(word, "length") == 0 && number <= sizeof bytes) {
            length = number;
        } else if (strcmp(word, "run") == 0) {
            double start = now();
            for (unsigned long run = 0; run < number; run++) {
                bytes[0] = (unsigned char)(run + sum);
                sum ^= crc32(0, bytes, (uInt)length);
            }
            printf("%.0f\n", now() - start);
            fflush(stdout);
        } else {
            return 1;
        }
    }
    /* so that no checksum is left out */
    return sum == 1;
}
