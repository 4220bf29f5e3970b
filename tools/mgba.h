/* mGBA's camera in a cartridge of its own, for the C programs here that drive it. Whoever includes this defines NAME, what it calls itself. */
#ifndef GULXINETT_MGBA_H
#define GULXINETT_MGBA_H

#define _POSIX_C_SOURCE 199309L

/* how the library was built comes first: the core's structure depends on it */
#include <mgba/flags.h>

#include <mgba/core/core.h>
#include <mgba/core/log.h>
#include <mgba-util/vfs.h>

#include <stdint.h>
#include <stdio.h>
#include <stdlib.h>

enum {
    WIDTH = 128, HEIGHT = 112, FRAME = 16384, FIRST_ROW = 8, ROM = 1 << 20, PICTURE = 0xA100, ENABLE = 0x0000, SELECT = 0x4000,
    TRIGGER = 0xA000, CARTRIDGE_TYPE = 0x147, RAM_TYPE = 0x149
};

static uint8_t rom[ROM];
static uint32_t seen[WIDTH * HEIGHT];
static struct mCore *core;

static void fail(const char *what, const char *reason)
{
    fprintf(stderr, NAME ": %s%s\n", what, reason);
    exit(1);
}

static void quiet(struct mLogger *logger, int category, enum mLogLevel level, const char *format, va_list words)
{
    (void)logger, (void)category, (void)level, (void)format, (void)words;
}

static void start_camera(struct mImageSource *source, unsigned width, unsigned height, int formats)
{
    (void)source, (void)width, (void)height, (void)formats;
}

static void stop_camera(struct mImageSource *source)
{
    (void)source;
}

static void show(struct mImageSource *source, const void **buffer, size_t *stride, enum mColorFormat *format)
{
    (void)source;
    *buffer = seen;
    *stride = WIDTH;
    *format = mCOLOR_XBGR8;
}

static struct mLogger logger = { .log = quiet };
static struct mImageSource camera = { start_camera, stop_camera, show };

static void bus_write(uint16_t address, uint8_t value)
{
    core->busWrite8(core, address, value);
}

/* A cartridge with a camera and RAM of this type, which may be written. */
static void insert(uint8_t ram_type)
{
    rom[CARTRIDGE_TYPE] = 0xFC;
    rom[RAM_TYPE] = ram_type;
    mLogSetDefaultLogger(&logger);
    core = mCoreCreate(mPLATFORM_GB);
    if (!core || !core->init(core))
        fail("there is no core", "");
    mCoreInitConfig(core, NULL);
    core->setPeripheral(core, mPERIPH_IMAGE_SOURCE, &camera);
    if (!core->loadROM(core, VFileFromConstMemory(rom, sizeof rom)))
        fail("it does not take the ROM", "");
    core->reset(core);
    bus_write(ENABLE, 0x0A);
}

/* Lends an image: grey light of the rows that a picture is made of. */
static void lend(const uint8_t *image)
{
    for (int place = 0; place < WIDTH * HEIGHT; place++)
        seen[place] = image[WIDTH * FIRST_ROW + place] * UINT32_C(0x010101);
}

#endif
