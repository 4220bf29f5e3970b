/* A worker of the fleet, in C: takes a job, ticks a piece of it, saves it, until no job waits. What a worker in Python
 * began it finishes, and the other way round.
 *
 * usage: worker URL SEED [--die POINT:COUNT]
 *
 * It tells by one byte each on standard output what it has just done: t took a job, k ticked it, s wrote the save, c
 * committed, a set a job aside, i found no job that is free. --die kills the worker with signal 9 as it comes to a point
 * (take, tick, save, commit) for the COUNTth time.
 */
#define _POSIX_C_SOURCE 200809L
#include "database.h"
#include "gulxinett.h"

#include <signal.h>
#include <stdio.h>
#include <stdlib.h>
#include <string.h>
#include <time.h>
#include <unistd.h>

/* The bus, and a piece of work in cycles. */
enum { SELECT = 0x4000, REGISTERS_SHOWN = 0x10, TRIGGER = 0xA000, SHORTEST = 1000, LONGEST = 15000 };
/* The most lines that a piece records: the rows of an image, a write for each register, select, trigger, stop, a tick. */
enum { LINES = 128 + 64 };
/* Where registers stand in the state record. */
enum { REGISTERS_OFFSET = 13 };

/* The cartridge, its save, and the script of this piece. */
static uint8_t state[GULXINETT_STATE_LEN], ram[16 * GULXINETT_RAM_BANK_LEN], store[GULXINETT_FRAME_LEN];
static uint8_t image[GULXINETT_FRAME_LEN], plate[GULXINETT_PLATE_LEN];
static uint8_t saved[GULXINETT_SAVE_LARGEST], script[LINES * GULXINETT_LINE_LEN];
static size_t ram_len, script_len;

/* Where to die, and how often the worker may come there. */
static const char *die_at = "never";
static long lives;
static uint64_t chance;

void fail(const char *what, const char *reason)
{
    fprintf(stderr, "worker: %s: %s\n", what, reason);
    exit(1);
}

/* A number below a bound, by the seed (splitmix64). */
static uint32_t below(uint32_t bound)
{
    uint64_t z = chance += 0x9E3779B97F4A7C15;
    z = (z ^ z >> 30) * 0xBF58476D1CE4E5B9;
    z = (z ^ z >> 27) * 0x94D049BB133111EB;
    return (uint32_t)((z ^ z >> 31) % bound);
}

/* Tells where the worker is, and dies there if it is to. */
static void told(char letter, const char *point)
{
    if (write(1, &letter, 1) != 1)
        exit(1);
    if (strcmp(point, die_at) == 0 && --lives == 0)
        raise(SIGKILL);
}

/* The first number by which a call of this piece was refused; 0 while none was. */
static uint32_t refused;

/* The value of an answer; a refusal is kept. */
static uint32_t answered(uint64_t answer)
{
    if (!refused)
        refused = GULXINETT_REFUSAL(answer);
    return GULXINETT_VALUE(answer);
}

/* Room for a further line of the script. */
#define ROOM script + script_len, sizeof script - script_len

static void bus_write(uint16_t address, uint32_t value)
{
    script_len += answered(gulxinett_record_write(address, (uint8_t)value, ROOM));
    answered(gulxinett_write(state, sizeof state, ram, ram_len, store, sizeof store, image, sizeof image, address,
                             (uint8_t)value));
}

static uint32_t tick(uint32_t cycles)
{
    script_len += answered(gulxinett_record_tick(cycles, ROOM));
    return answered(gulxinett_tick(state, sizeof state, ram, ram_len, store, sizeof store, cycles));
}

/* Lends a specimen's photograph, with a line for each row. */
static void lend(struct bytes photograph)
{
    answered(gulxinett_import_photo(photograph.at, photograph.length, image, sizeof image));
    for (size_t row = 0; row < 128; row++)
        script_len += answered(gulxinett_record_row((uint8_t)row, image + GULXINETT_ROW_LEN * row, GULXINETT_ROW_LEN, ROOM));
}

/* Writes the registers of a choice over the bus, so that each has its line: exposure and matrix as gulxinett_choose has them. */
static void choose(const struct specimen *specimen)
{
    uint8_t chosen[GULXINETT_STATE_LEN];
    answered(gulxinett_reset(chosen, sizeof chosen));
    answered(gulxinett_choose(chosen, sizeof chosen, (uint8_t)specimen->light, (uint8_t)specimen->level,
                              (uint8_t)specimen->plain, specimen->exposure));
    for (uint16_t n = 2; n < GULXINETT_REGISTERS_LEN; n++)
        if (n < 4 || n > 5)
            bus_write((uint16_t)(TRIGGER + n), chosen[REGISTERS_OFFSET + n]);
}

/* Lends a specimen and writes its registers, the trigger last: a start, or where a capture is held a resume. */
static void start(const struct specimen *specimen)
{
    lend(specimen->photograph);
    bus_write(SELECT, REGISTERS_SHOWN);
    choose(specimen);
    bus_write(TRIGGER + 1, specimen->a001);
    bus_write(TRIGGER + 4, specimen->a004);
    bus_write(TRIGGER, specimen->a000 | 1);
}

/* A count of captures as it stands in the state. */
static uint32_t count_at(int offset)
{
    return state[offset] | (uint32_t)state[offset + 1] << 8;
}

/* What is lent where there is no other job: stripes. */
static struct specimen stripes(void)
{
    static uint8_t file[15 + 3 * GULXINETT_FRAME_LEN];
    memcpy(file, "P6 128 128 255\n", 15);
    for (size_t k = 0; k < sizeof file - 15; k++)
        file[15 + k] = k / 24 % 2 ? 255 : 0;
    struct specimen specimen = {{file, sizeof file}, 0, 3, 0, 0x0200, 3, 0x60, 0x90};
    return specimen;
}

/* How many bytes of the RAM outside the picture area differ between two saves. */
static uint32_t outside(struct bytes first, struct bytes save)
{
    if (first.length != save.length)
        return (uint32_t)(first.length > save.length ? first.length : save.length);
    uint32_t count = 0;
    for (size_t k = 0; k < ram_len; k++)
        if (k < GULXINETT_PICTURE_OFFSET || k >= GULXINETT_PICTURE_OFFSET + GULXINETT_PICTURE_LEN)
            count += first.at[GULXINETT_SAVE_RAM_OFFSET + k] != save.at[GULXINETT_SAVE_RAM_OFFSET + k];
    return count;
}

/* Reads the job's save; the number by which it is refused, or 0. */
static uint32_t restored(struct bytes save)
{
    ram_len = GULXINETT_RAM_BANK_LEN;
    while (ram_len < sizeof ram && save.length != GULXINETT_SAVE_LEN + ram_len)
        ram_len *= 2;
    return GULXINETT_REFUSAL(gulxinett_restore(save.at, save.length, state, sizeof state, ram, ram_len, store, sizeof store));
}

/* A piece of a job: picked up from its save, ticked, and its save written; 0 if the job is to be set aside. */
static int work_on(const struct job *job, char *reason, size_t room)
{
    uint32_t number = restored(job->save);
    if (number) {
        int length = snprintf(reason, room, "the save is refused as %u: %lu bytes that are not a whole save",
                              (unsigned)number, (unsigned long)job->save.length);
        if (job->save.length > GULXINETT_SAVE_STATE_OFFSET && job->save.at[GULXINETT_SAVE_STATE_OFFSET] != GULXINETT_LAYOUT)
            snprintf(reason + length, room - (size_t)length, "; its byte 7 says layout %u, and this worker reads layout %u",
                     (unsigned)job->save.at[GULXINETT_SAVE_STATE_OFFSET], (unsigned)GULXINETT_LAYOUT);
        return 0;
    }
    script_len = 0;
    refused = 0;
    /* the capture is begun with its own specimen; whoever goes on with it has another in hand, as in the incident */
    struct specimen specimen = job->specimen;
    if (count_at(GULXINETT_STARTED_OFFSET) != count_at(GULXINETT_ENDED_OFFSET) && !database_other(job, &specimen))
        specimen = stripes();
    start(&specimen);
    struct piece piece = {.cycles = tick(SHORTEST + below(LONGEST - SHORTEST))};
    told('k', "tick");
    int done = count_at(GULXINETT_STARTED_OFFSET) == count_at(GULXINETT_ENDED_OFFSET);
    if (!done && below(2))
        bus_write(TRIGGER, specimen.a000 & 6);
    if (done) {
        piece.plate.length = answered(gulxinett_export(ram, ram_len, plate, sizeof plate));
        piece.plate.at = plate;
    }
    piece.save.length = answered(gulxinett_save(state, sizeof state, ram, ram_len, store, sizeof store, saved, sizeof saved));
    piece.save.at = saved;
    piece.recording.at = script;
    piece.recording.length = script_len;
    if (refused) {
        snprintf(reason, room, "a call is refused as %u", (unsigned)refused);
        return 0;
    }
    piece.started = count_at(GULXINETT_STARTED_OFFSET);
    piece.ended = count_at(GULXINETT_ENDED_OFFSET);
    piece.outside = outside(job->first, piece.save);
    database_keep(job, &piece);
    return 1;
}

int main(int argc, char **argv)
{
    if (argc == 5 && strcmp(argv[3], "--die") == 0 && strchr(argv[4], ':')) {
        die_at = strtok(argv[4], ":");
        lives = atol(strtok(NULL, ":"));
    } else if (argc != 3) {
        fail("usage", "worker URL SEED [--die POINT:COUNT]");
    }
    chance = strtoull(argv[2], NULL, 10);
    database_open(argv[1]);
    for (;;) {
        struct job job;
        if (!database_take(&job)) {
            told('i', "idle");
            if (database_waiting() == 0)
                return 0;
            /* those that wait are in other workers' hands */
            nanosleep(&(struct timespec){0, 10000000}, NULL);
            continue;
        }
        told('t', "take");
        char reason[200];
        if (work_on(&job, reason, sizeof reason)) {
            told('s', "save");
            database_commit();
            told('c', "commit");
        } else {
            database_aside(&job, reason);
            database_commit();
            told('a', "");
        }
    }
}
