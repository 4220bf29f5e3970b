/* The case that plates are withdrawn for, in mGBA, an emulator that nobody here wrote. A worker has its camera take a specimen and copies
 * half of the picture out of SRAM, row of tiles by row of tiles, when it is preempted; whoever goes on with the job lends another frame,
 * starts again and copies the other half into the same plate, which is then written back over the bus. What mGBA would have put on the
 * battery is written to a file. mGBA makes the whole picture when its trigger register is written, so the stop lies in the worker.
 *
 * usage: incident REGISTERS FIRST SECOND SAVE; REGISTERS is 108 digits, FIRST and SECOND are frames, P5 of 128 by 128; of one frame
 *        twice it is the frame's own plate
 */
#define NAME "incident"
#include "../tools/mgba.h"

#include <string.h>

enum { BANK = 8192, ONE_BANK = 2, TILE_ROWS = 14, TILE_ROW_LEN = 256, COPIED = 7, REGISTERS = 54 };

static const char header[] = "P5\n128 128\n255\n";

/* The registers, but for the trigger, whose value is given back. */
static uint8_t set_registers(const char *digits)
{
    uint8_t values[REGISTERS];
    if (strlen(digits) != 2 * REGISTERS || strspn(digits, "0123456789ABCDEF") != 2 * REGISTERS)
        fail(digits, " are no 54 registers");
    for (int number = 0; number < REGISTERS; number++) {
        char byte[3] = { digits[2 * number], digits[2 * number + 1], 0 };
        values[number] = (uint8_t)strtoul(byte, NULL, 16);
    }
    bus_write(SELECT, 0x10);
    for (int number = 1; number < REGISTERS; number++)
        bus_write((uint16_t)(TRIGGER + number), values[number]);
    return values[0];
}

/* Lends the frame in a file. */
static void lend_file(const char *path)
{
    static uint8_t file[sizeof header - 1 + FRAME + 1];
    FILE *from = fopen(path, "rb");
    if (!from || fread(file, 1, sizeof file, from) != sizeof file - 1 || memcmp(file, header, sizeof header - 1) != 0)
        fail(path, " is no frame, P5 of 128 by 128");
    fclose(from);
    lend(file + sizeof header - 1);
}

/* Starts a capture of the frame lent, and copies rows of tiles of its picture. */
static void capture(uint8_t trigger, uint8_t *plate, int from, int to)
{
    bus_write(SELECT, 0x10);
    bus_write(TRIGGER, trigger);
    bus_write(SELECT, 0);
    for (int place = TILE_ROW_LEN * from; place < TILE_ROW_LEN * to; place++)
        plate[place] = core->busRead8(core, (uint32_t)(PICTURE + place));
}

/* Writes what the battery keeps. */
static void write_battery(const char *path)
{
    void *battery = NULL;
    if (core->savedataClone(core, &battery) != BANK)
        fail("mGBA's save is not one bank", "");
    FILE *to = fopen(path, "wb");
    if (!to || fwrite(battery, 1, BANK, to) != BANK || fclose(to) != 0)
        fail(path, " can't be written");
    free(battery);
}

int main(int count, char **words)
{
    static uint8_t plate[TILE_ROW_LEN * TILE_ROWS];
    if (count != 5) {
        fputs("usage: incident REGISTERS FIRST SECOND SAVE\n", stderr);
        return 2;
    }
    insert(ONE_BANK);
    uint8_t trigger = set_registers(words[1]);
    lend_file(words[2]);
    capture(trigger, plate, 0, COPIED);
    /* preempted here, and gone on with elsewhere */
    lend_file(words[3]);
    capture(trigger, plate, COPIED, TILE_ROWS);
    for (int place = 0; place < TILE_ROW_LEN * TILE_ROWS; place++)
        bus_write((uint16_t)(PICTURE + place), plate[place]);
    write_battery(words[4]);
    return 0;
}
