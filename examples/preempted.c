/* A capture that is stopped half way, put in a file, and finished by another process.
 *
 * preempted begin FILE   starts a capture, ticks half of it, stops it and saves everything
 * preempted finish FILE  loads it, lends another image, changes the registers and resumes
 *
 * The finished picture must be the one of the first image under the first registers.
 */
#define _XOPEN_SOURCE 700
#include "gulxinett.h"
#include "whole.h"

#include <stdio.h>
#include <stdlib.h>
#include <string.h>

enum { HALF = 22623, TOTAL = 45246, TRIGGER = 0xA000 };

/* What the cartridge keeps while no process runs. */
static uint8_t state[GULXINETT_STATE_LEN];
static uint8_t ram[GULXINETT_RAM_BANK_LEN];
static uint8_t store[GULXINETT_FRAME_LEN];

/* The three as one file; of what is read one byte more has room, so that a longer file is seen. */
static uint8_t save[GULXINETT_SAVE_LEN + GULXINETT_RAM_BANK_LEN + 1];

/* The scene the camera is pointed at. */
static uint8_t image[GULXINETT_FRAME_LEN];

/* Ends the program with a reason. */
static void fail(const char *reason)
{
    fprintf(stderr, "preempted: %s\n", reason);
    exit(1);
}

/* The value of an answer that must not be a refusal. */
static uint32_t accepted(uint64_t answer)
{
    if (GULXINETT_REFUSAL(answer) != 0) {
        fprintf(stderr, "preempted: a call was refused by number %u of gulxinett.h\n",
                (unsigned)GULXINETT_REFUSAL(answer));
        exit(1);
    }
    return GULXINETT_VALUE(answer);
}

static void bus_write(uint16_t address, uint8_t value)
{
    accepted(gulxinett_write(state, sizeof state, ram, sizeof ram, store, sizeof store,
                             image, sizeof image, address, value));
}

static uint32_t run(uint32_t cycles)
{
    return accepted(gulxinett_tick(state, sizeof state, ram, sizeof ram,
                                   store, sizeof store, cycles));
}

/* The first scene: rings of light around a corner. */
static void first_image(uint8_t *pixels)
{
    for (int y = 0; y < 128; y++)
        for (int x = 0; x < 128; x++)
            pixels[128 * y + x] = (uint8_t)((x * x + y * y) / 40);
}

/* The second scene: stripes. */
static void second_image(uint8_t *pixels)
{
    for (int y = 0; y < 128; y++)
        for (int x = 0; x < 128; x++)
            pixels[128 * y + x] = x / 8 % 2 ? 255 : 0;
}

/* Horizontal enhancement at 75 per cent, exposure 0300h, a rising matrix. */
static void first_registers(uint8_t *registers)
{
    memset(registers, 0, GULXINETT_REGISTERS_LEN);
    registers[0] = 3;
    registers[1] = 0x20;
    registers[2] = 0x03;
    registers[4] = 0x10;
    for (int element = 0; element < 16; element++)
        for (int level = 0; level < 3; level++)
            registers[6 + 3 * element + level] = (uint8_t)(0x88 + 3 * element + 0x18 * level);
}

/* Writes registers 1 to 53 over the bus. */
static void write_registers(const uint8_t *registers)
{
    for (uint16_t number = 1; number < GULXINETT_REGISTERS_LEN; number++)
        bus_write((uint16_t)(TRIGGER + number), registers[number]);
}

static void begin(const char *path)
{
    uint8_t registers[GULXINETT_REGISTERS_LEN];
    accepted(gulxinett_reset(state, sizeof state));
    first_image(image);
    first_registers(registers);
    bus_write(0x4000, 0x10);
    write_registers(registers);
    bus_write(TRIGGER, registers[0]);
    if (run(HALF) != HALF)
        fail("the capture did not run half way");
    bus_write(TRIGGER, registers[0] & 6);
    if (run(1000000) != 0)
        fail("a stopped capture ran on");
    uint32_t length = accepted(gulxinett_save(state, sizeof state, ram, sizeof ram, store, sizeof store,
                                              save, sizeof save));
    if (write_whole(path, save, length) != 0)
        fail("the file can't be written");
    printf("begin: a capture ran %d of %d cycles and was stopped\n", HALF, TOTAL);
    printf("begin: state, RAM and frame store saved\n");
}

static void finish(const char *path)
{
    FILE *file = fopen(path, "rb");
    if (!file)
        fail("the file can't be read");
    size_t length = fread(save, 1, sizeof save, file);
    if (ferror(file) || fclose(file) != 0)
        fail("the file can't be read");
    accepted(gulxinett_restore(save, length, state, sizeof state, ram, sizeof ram, store, sizeof store));
    uint8_t registers[GULXINETT_REGISTERS_LEN], others[GULXINETT_REGISTERS_LEN];
    uint8_t wanted[GULXINETT_PICTURE_LEN], unwanted[GULXINETT_PICTURE_LEN];
    const uint8_t *plate = ram + GULXINETT_PICTURE_OFFSET;
    first_image(image);
    first_registers(registers);
    accepted(gulxinett_picture(image, sizeof image, registers, wanted));
    if (memcmp(plate, wanted, sizeof wanted) == 0)
        fail("the picture was whole before the capture ended");

    second_image(image);
    memset(others, 0x55, sizeof others);
    others[0] = 7;
    accepted(gulxinett_picture(image, sizeof image, others, unwanted));
    write_registers(others);
    bus_write(TRIGGER, others[0]);
    printf("finish: resumed with another image and other registers\n");
    uint32_t cycles = run(UINT32_MAX);
    printf("finish: the capture ended after %lu more cycles\n", (unsigned long)cycles);
    if (cycles != TOTAL - HALF)
        fail("that is not the rest of the capture");
    if (memcmp(plate, wanted, sizeof wanted) != 0)
        fail("the picture is not that of the first image under the first registers");
    if (memcmp(plate, unwanted, sizeof unwanted) == 0)
        fail("the picture is that of the second image");
    printf("finish: all 3584 bytes are those of the first image under the first registers\n");
}

int main(int argc, char **argv)
{
    if (argc == 3 && strcmp(argv[1], "begin") == 0) {
        begin(argv[2]);
    } else if (argc == 3 && strcmp(argv[1], "finish") == 0) {
        finish(argv[2]);
    } else {
        fputs("usage: preempted begin FILE | preempted finish FILE\n", stderr);
        return 2;
    }
    return 0;
}
