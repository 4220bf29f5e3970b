/* mGBA's own camera, timed: the store to its trigger register, which makes the whole picture at once, with no filter and no
 * timing. Compiled where libmgba can be had. It is driven over its standard input, so that its rounds fall between the others':
 *
 *   mode NUMBER    has no meaning here: there is no filter
 *   image          and 16,384 bytes: what the camera sees from now on
 *   run COUNT      stores to the trigger so many times; answers the nanoseconds that took
 */
#define NAME "mgba"
#include "../../tools/mgba.h"

#include <inttypes.h>
#include <string.h>
#include <time.h>

enum { PICTURE_LEN = 3584, SIXTEEN_BANKS = 4 };

/* A cartridge with a camera, and the registers that the other controllers get: exposure 0100h and a rising matrix. */
static void prepare(void)
{
    insert(SIXTEEN_BANKS);
    bus_write(SELECT, 0x10);
    bus_write(TRIGGER + 2, 0x01);
    for (int place = 0; place < 48; place++)
        bus_write((uint16_t)(TRIGGER + 6 + place), (uint8_t)(0x60 + 2 * (place / 3) + 0x18 * (place % 3)));
}

/* What the camera sees from now on. */
static void take_image(void)
{
    static uint8_t image[FRAME];
    if (fread(image, sizeof image, 1, stdin) != 1)
        fail("an image ends early", "");
    lend(image);
}

static uint64_t now(void)
{
    struct timespec time;
    clock_gettime(CLOCK_MONOTONIC, &time);
    return (uint64_t)time.tv_sec * 1000000000 + (uint64_t)time.tv_nsec;
}

/* A picture of one shade would be none of the images. */
static void look(void)
{
    int shades = 0;
    bus_write(SELECT, 0);
    for (uint16_t place = 1; place < PICTURE_LEN; place++)
        shades += core->busRead8(core, PICTURE + place) != core->busRead8(core, PICTURE);
    bus_write(SELECT, 0x10);
    if (shades == 0)
        fail("it makes no picture", "");
}

int main(void)
{
    char word[6];
    unsigned count;
    prepare();
    while (scanf("%5s", word) == 1) {
        if (strcmp(word, "image") == 0 && getchar() == '\n') {
            take_image();
        } else if (strcmp(word, "mode") == 0 && scanf("%u", &count) == 1) {
            continue;
        } else if (strcmp(word, "run") == 0 && scanf("%u", &count) == 1) {
            uint64_t start = now();
            for (unsigned run = 0; run < count; run++)
                bus_write(TRIGGER, 3);
            printf("%" PRIu64 "\n", now() - start);
            fflush(stdout);
            look();
        } else {
            fail("it is told something else than 'mode NUMBER', 'image' or 'run COUNT'", "");
        }
    }
    return 0;
}
