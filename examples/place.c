/* A plate, cleaned by a picture program, back into a cartridge.
 *
 * place RAM <PLATE   PLATE is a grey image as plate writes it, a Netpbm P5 file of 128 by 112 pixels with the four greys 255,
 *                    170, 85 and 0; RAM is a file of a cartridge's RAM, 8,192 bytes times 1, 2, 4, 8 or 16, and gets
 *                    the plate where the picture lies
 */
#include "gulxinett.h"

#include <stdio.h>
#include <stdlib.h>

/* One byte more than the largest RAM and than a plate. */
static uint8_t state[GULXINETT_STATE_LEN], ram[16 * GULXINETT_RAM_BANK_LEN + 1], plate[GULXINETT_PLATE_LEN + 1];

/* Ends the program with a reason. */
static void fail(const char *reason)
{
    fprintf(stderr, "place: %s\n", reason);
    exit(1);
}

int main(int count, char **words)
{
    if (count != 2) {
        fputs("usage: place RAM <PLATE\n", stderr);
        return 2;
    }
    size_t length = fread(plate, 1, sizeof plate, stdin);
    if (ferror(stdin))
        fail("the plate can't be read");
    FILE *file = fopen(words[1], "r+b");
    if (!file)
        fail("the file of the RAM can't be opened");
    size_t banks = fread(ram, 1, sizeof ram, file);
    if (ferror(file))
        fail("the file of the RAM can't be read");
    gulxinett_reset(state, sizeof state);
    uint64_t answer = gulxinett_place(state, sizeof state, ram, banks, plate, length);
    if (GULXINETT_REFUSAL(answer) == 3)
        fail("the RAM is not 8,192 bytes times 1, 2, 4, 8 or 16");
    if (GULXINETT_REFUSAL(answer) != 0)
        fail("that is no P5 file of 128 by 112 pixels with the greys 255, 170, 85 and 0 alone");
    if (fseek(file, GULXINETT_PICTURE_OFFSET, SEEK_SET) != 0 ||
        fwrite(ram + GULXINETT_PICTURE_OFFSET, GULXINETT_PICTURE_LEN, 1, file) != 1 || fclose(file) != 0)
        fail("the file of the RAM can't be written");
    return 0;
}
