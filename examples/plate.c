/* The picture area that a script read out, as a file that picture programs open.
 *
 * plate FILE <ANSWERS   ANSWERS are what the program bus answered to 3,584 reads, A100 to AEFF in RAM bank 0,
 *                       with which examples/preempted.script ends; FILE becomes a grey image, Netpbm's P5
 */
#include "gulxinett.h"

#include <stdio.h>
#include <stdlib.h>

static uint8_t ram[GULXINETT_RAM_BANK_LEN], plate[GULXINETT_PLATE_LEN];

/* Ends the program with a reason. */
static void fail(const char *reason)
{
    fprintf(stderr, "plate: %s\n", reason);
    exit(1);
}

/* One line: no refusal, and the byte. */
static uint8_t answered(void)
{
    unsigned refusal, byte;
    if (scanf("%2x%2x ", &refusal, &byte) != 2 || refusal != 0)
        fail("the answers are not those of 3,584 reads");
    return (uint8_t)byte;
}

int main(int count, char **words)
{
    if (count != 2) {
        fputs("usage: plate FILE <ANSWERS\n", stderr);
        return 2;
    }
    for (int i = 0; i < GULXINETT_PICTURE_LEN; i++)
        ram[GULXINETT_PICTURE_OFFSET + i] = answered();
    if (getchar() != EOF)
        fail("there are more than 3,584 answers");
    uint64_t answer = gulxinett_export(ram, sizeof ram, plate, sizeof plate);
    if (GULXINETT_REFUSAL(answer) != 0)
        fail("the export is refused");
    FILE *file = fopen(words[1], "wb");
    if (!file || fwrite(plate, GULXINETT_VALUE(answer), 1, file) != 1 || fclose(file) != 0)
        fail("the file can't be written");
    return 0;
}
