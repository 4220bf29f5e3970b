/* Makes calls on a stack that was filled with one byte, and says how much of it they used.
 * usage: stack BYTES; fails if they used more than BYTES, or so little that nothing was measured. */
#define _GNU_SOURCE
#include <gulxinett.h>
#include <stdio.h>
#include <stdlib.h>
#include <string.h>
#include <ucontext.h>

#define ROOM 262144
#define UNTOUCHED 0xA5

static uint8_t state[GULXINETT_STATE_LEN], rom[GULXINETT_ROM_BANK_LEN], ram[GULXINETT_RAM_BANK_LEN];
static uint8_t store[GULXINETT_FRAME_LEN], image[GULXINETT_FRAME_LEN], picture[GULXINETT_PICTURE_LEN];
static uint8_t line[GULXINETT_LINE_LEN], plate[GULXINETT_PLATE_LEN], shades[GULXINETT_SHADES_LEN];
static uint8_t photograph[15 + 3 * GULXINETT_FRAME_LEN] = "P6\n128 128\n255\n";
static uint8_t script[GULXINETT_SCRIPT_LEN], text[GULXINETT_SCRIPT_LEN + 1], report[GULXINETT_SCRIPT_LEN];
static uint8_t save[GULXINETT_SAVE_LEN + GULXINETT_RAM_BANK_LEN];
static uint8_t room[ROOM];
static ucontext_t here, there;

static void write_byte(uint16_t address, uint8_t value)
{
    gulxinett_write(state, sizeof state, ram, sizeof ram, store, sizeof store, image, sizeof image, address, value);
}

static void tick(uint32_t cycles)
{
    gulxinett_tick(state, sizeof state, ram, sizeof ram, store, sizeof store, cycles);
}

static void nothing(void)
{
}

/* A line of each kind. */
static void record(void)
{
    gulxinett_record_reset(line, sizeof line);
    gulxinett_record_read(0xA100, line, sizeof line);
    gulxinett_record_write(0xA000, 3, line, sizeof line);
    gulxinett_record_tick(UINT32_MAX, line, sizeof line);
    gulxinett_record_row(0x7F, image, GULXINETT_ROW_LEN, line, sizeof line);
}

/* A script of rows, twice, and one of resets alone. */
static void salvage(void)
{
    size_t length = gulxinett_record_reset(script, sizeof script), copy;
    for (uint8_t row = 0; row < 60; row++)
        length += gulxinett_record_row(row, image, GULXINETT_ROW_LEN, script + length, sizeof script - length);
    for (copy = 0; copy < length; copy++)
        script[length + copy] = script[copy];
    gulxinett_salvage(script, 2 * length, text, sizeof text, report, sizeof report);
    for (length = 0; length < 8192 * 3;)
        length += gulxinett_record_reset(script + length, sizeof script - length);
    gulxinett_salvage(script, length, text, sizeof text, report, sizeof report);
}

/* A session of a reset, a capture from its start to its end, and a read. */
static void step(void)
{
    static const char *const lines[] = {"00", "02400010", "02A00003", "03FFFFFFFF", "01A000"};
    for (size_t k = 0; k < sizeof lines / sizeof *lines; k++)
        gulxinett_step(state, sizeof state, rom, sizeof rom, ram, sizeof ram, store, sizeof store, image, sizeof image,
                       (const uint8_t *)lines[k], strlen(lines[k]), text, sizeof text);
}

/* A capture in each mode, some of it pixel by pixel, and every other call. */
static void everything(void)
{
    gulxinett_reset(state, sizeof state);
    for (unsigned mode = 0; mode < 16; mode++) {
        write_byte(0x4000, 0x10);
        write_byte(0xA001, (uint8_t)(mode >> 1 << 5));
        write_byte(0xA004, (uint8_t)((mode & 1) << 7 | 0x10));
        write_byte(0xA000, 3);
        gulxinett_readings(state, sizeof state, store, sizeof store, plate, sizeof plate);
        for (unsigned few = 0; few < 100; few++)
            tick(401);
        tick(UINT32_MAX);
        gulxinett_inspect(state, sizeof state);
        gulxinett_picture(image, sizeof image, state + 13, picture);
        gulxinett_judge(picture, image, sizeof image, state + 13, report, sizeof report);
        write_byte(0x4000, 0);
        gulxinett_read(state, sizeof state, rom, sizeof rom, ram, sizeof ram, 0xA100);
        gulxinett_read(state, sizeof state, rom, sizeof rom, ram, sizeof ram, 0x0000);
        gulxinett_choose(state, sizeof state, mode & 1, (uint8_t)mode, mode & 2, GULXINETT_UNNAMED);
        record();
        gulxinett_export(ram, sizeof ram, plate, sizeof plate);
        gulxinett_place(state, sizeof state, ram, sizeof ram, plate, sizeof plate);
        gulxinett_shades(ram, sizeof ram, shades, sizeof shades);
        gulxinett_import_photo(photograph, sizeof photograph, image, sizeof image);
        salvage();
        gulxinett_save(state, sizeof state, ram, sizeof ram, store, sizeof store, save, sizeof save);
        gulxinett_restore(save, sizeof save, state, sizeof state, ram, sizeof ram, store, sizeof store);
        step();
    }
}

/* Runs a function on the room as its stack; how many bytes of it no longer hold what they did. */
static size_t used_by(void (*run)(void))
{
    size_t place = 0;
    memset(room, UNTOUCHED, sizeof room);
    getcontext(&there);
    there.uc_stack.ss_sp = room;
    there.uc_stack.ss_size = sizeof room;
    there.uc_link = &here;
    makecontext(&there, run, 0);
    swapcontext(&here, &there);
    while (place < sizeof room && room[place] == UNTOUCHED)
        place++;
    return sizeof room - place;
}

int main(int count, char **words)
{
    if (count != 2) {
        fputs("usage: stack BYTES\n", stderr);
        return 2;
    }
    size_t allowed = strtoul(words[1], NULL, 10);
    size_t before = used_by(nothing), with = used_by(everything);
    /* what the callers above put there themselves */
    size_t own = 512;
    printf("stack: calls in every mode used %zu bytes of a stack; %zu were worked out\n", with - before, allowed);
    if (with <= before || with - before > allowed + own) {
        printf("stack: FAILED: that does not fit\n");
        return 1;
    }
    return 0;
}
