/* Writes two saves to one file in turns, over and over, until it is killed; tests/saves does that.
 * usage: saves FILE ONE OTHER: the two are written to ONE and OTHER first */
#define _XOPEN_SOURCE 700
#include "../examples/whole.h"

#include <gulxinett.h>
#include <stdlib.h>

static uint8_t state[GULXINETT_STATE_LEN], ram[16 * GULXINETT_RAM_BANK_LEN], store[GULXINETT_FRAME_LEN];
static uint8_t saves[2][GULXINETT_SAVE_LARGEST];

static void put(const char *path, int which, size_t length)
{
    if (write_whole(path, saves[which], length) != 0) {
        perror("saves");
        exit(1);
    }
}

int main(int count, char **words)
{
    const size_t banks[2] = {1, 16};
    size_t lengths[2];
    if (count != 4) {
        fputs("usage: saves FILE ONE OTHER\n", stderr);
        return 2;
    }
    gulxinett_reset(state, sizeof state);
    for (int which = 0; which < 2; which++) {
        memset(ram, 0x11 * (which + 1), sizeof ram);
        uint64_t answer = gulxinett_save(state, sizeof state, ram, banks[which] * GULXINETT_RAM_BANK_LEN, store, sizeof store,
                                         saves[which], sizeof saves[which]);
        if (GULXINETT_REFUSAL(answer) != 0)
            return 3;
        lengths[which] = GULXINETT_VALUE(answer);
        put(words[2 + which], which, lengths[which]);
    }
    for (int which = 0;; which = 1 - which)
        put(words[1], which, lengths[which]);
}
