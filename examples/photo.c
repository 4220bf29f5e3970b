/* A colour photograph as the camera sees it, without colour.
 *
 * photo FILE <PHOTOGRAPH   PHOTOGRAPH is a Netpbm P6 file of 128 by 128 pixels; FILE becomes the image that it is lent
 *                          as, a grey image, Netpbm's P5
 */
#include "gulxinett.h"

#include <stdio.h>
#include <stdlib.h>

/* One byte more than the longest photograph has: 256 of header, 3 for each pixel. */
static uint8_t photograph[256 + 3 * GULXINETT_FRAME_LEN + 1], image[GULXINETT_FRAME_LEN];

/* Ends the program with a reason. */
static void fail(const char *reason)
{
    fprintf(stderr, "photo: %s\n", reason);
    exit(1);
}

int main(int count, char **words)
{
    if (count != 2) {
        fputs("usage: photo FILE <PHOTOGRAPH\n", stderr);
        return 2;
    }
    size_t length = fread(photograph, 1, sizeof photograph, stdin);
    if (ferror(stdin))
        fail("the photograph can't be read");
    uint64_t answer = gulxinett_import_photo(photograph, length, image, sizeof image);
    if (GULXINETT_REFUSAL(answer) != 0)
        fail("that is no P6 file of 128 by 128 pixels with largest value 255");
    FILE *file = fopen(words[1], "wb");
    if (!file || fputs("P5\n128 128\n255\n", file) < 0 || fwrite(image, sizeof image, 1, file) != 1 || fclose(file) != 0)
        fail("the file can't be written");
    return 0;
}
