/* The Game Boy Camera cartridge controller, as C functions.
 *
 * The state record is 121 bytes, numbers little-endian:
 *
 *   offset  0       the number of this layout, 3
 *   offset  1       RAM write enable, 0 or 1
 *   offset  2       ROM bank, 0 to 63
 *   offset  3       RAM select, 0 to 31
 *   offset  4       capture held, 0 or 1
 *   offset  5.. 9   elapsed cycles, 32 bits
 *   offset  9.. 11  captures started since reset, 16 bits, wrapping
 *   offset 11.. 13  captures that reached their end since reset, likewise
 *   offset 13.. 67  the 54 registers
 *   offset 67..121  the 54 registers taken at the start of the capture held
 *
 * Bytes of another length or layout, or with offset 1 or 4 above 1, are no record and are refused
 * as 1, exactly as a record that can't exist. So what another version saved is never misread:
 * layout 1 had 116 bytes and began with a flag, which was 0 or 1; layout 2 had the fields above, and
 * with it went a frame store of the raw image, which would be read wrongly now.
 *
 * The image is 128 rows of 128 bytes of light. The frame store has as many bytes: for each pixel the
 * value 0 to 255 that a start made of its light under the registers it took (exposed, and inverted where
 * register 4 says so), before the filters. Whatever store is lent is read as such values.
 *
 * Every function answers refusal number * 2^32 + value; number 0 means not refused, and a
 * refusal has value 0. A refused call changes no byte it was lent. The refusals, lowest first:
 *
 *   1  the state record can't exist
 *   2  the ROM length is not allowed (16,384 times 1, 2, 4, 8, 16, 32 or 64)
 *   3  the RAM length is not allowed (8,192 times 1, 2, 4, 8 or 16), or not that of the save restored
 *   4  the image or the frame store is not 16,384 bytes
 *   5  the address is outside 0000-7FFF and A000-BFFF
 *   6  an image row is above 7F or not 128 bytes, so no script line says it
 *   7  a buffer lent is too short
 *   8  a file is not one that can be read
 *   9  the light set of a choice is above 1, or its level above 15
 *  10  a capture is held, running or stopped
 *  11  no capture is held
 *  12  a script is over 32,768 bytes
 *
 * The memory lent to one call must not overlap, and is not kept after the call.
 */
#ifndef GULXINETT_H
#define GULXINETT_H

#include <stddef.h>
#include <stdint.h>

#ifdef __cplusplus
extern "C" {
#endif

/* Sizes in bytes. */
#define GULXINETT_STATE_LEN 121
#define GULXINETT_REGISTERS_LEN 54
#define GULXINETT_ROM_BANK_LEN 16384
#define GULXINETT_RAM_BANK_LEN 8192
#define GULXINETT_FRAME_LEN 16384
#define GULXINETT_PICTURE_LEN 3584
#define GULXINETT_PLATE_LEN 14351
#define GULXINETT_SHADES_LEN 14336
#define GULXINETT_ROWS_LEN 112

/* An image row, the longest script line with its LF, which is a row's, and the longest answer with its LF. */
#define GULXINETT_ROW_LEN 128
#define GULXINETT_LINE_LEN 261
#define GULXINETT_ANSWER_LEN 11

/* The most bytes of a script that is salvaged. */
#define GULXINETT_SCRIPT_LEN 32768

/* Bytes of stack below the caller's frame that suffice for any call here, compiled for x86-64, for
 * aarch64 or for the browser. No function here recurs, and what is large is lent, but for the light
 * of an image in gulxinett_picture and gulxinett_judge, the picture of the latter, and the file of a
 * plate in gulxinett_audit and gulxinett_audit_end; tests/stack works the need of each function out from
 * the compiled frames. */
#define GULXINETT_STACK 24576

/* A save has its RAM's length and SAVE_LEN bytes more: the magic, the RAM's banks, the state record from
 * SAVE_STATE_OFFSET on, the RAM from SAVE_RAM_OFFSET on, the frame store, the CRC-32. The largest RAM
 * makes the largest save. docs/LAYOUT.md has the table. */
#define GULXINETT_SAVE_MAGIC "GXSAVE"
#define GULXINETT_SAVE_BANKS_OFFSET 6
#define GULXINETT_SAVE_STATE_OFFSET 7
#define GULXINETT_SAVE_RAM_OFFSET 128
#define GULXINETT_SAVE_LEN 16516
#define GULXINETT_SAVE_LARGEST 147588

/* The layout of the state record, and where in it the two counts of captures stand. */
#define GULXINETT_LAYOUT 3
#define GULXINETT_STARTED_OFFSET 9
#define GULXINETT_ENDED_OFFSET 11

/* Where the picture lies in RAM bank 0. */
#define GULXINETT_PICTURE_OFFSET 0x100

/* The two halves of an answer. */
#define GULXINETT_REFUSAL(answer) ((uint32_t)((uint64_t)(answer) >> 32))
#define GULXINETT_VALUE(answer) ((uint32_t)(answer))

/* Writes the reset record; refused as 1 if state_len is not 121. Value 0. */
uint64_t gulxinett_reset(uint8_t *state, size_t state_len);

/* Reads the byte at an address. Value: the byte. */
uint64_t gulxinett_read(const uint8_t *state, size_t state_len,
                        const uint8_t *rom, size_t rom_len,
                        const uint8_t *ram, size_t ram_len,
                        uint16_t address);

/* Writes a byte to an address; a start lights the image into the frame store. Value 0. */
uint64_t gulxinett_write(uint8_t *state, size_t state_len,
                         uint8_t *ram, size_t ram_len,
                         uint8_t *store, size_t store_len,
                         const uint8_t *image, size_t image_len,
                         uint16_t address, uint8_t value);

/* Lets cycles pass. Value: how many of them fell while a capture was running. */
uint64_t gulxinett_tick(uint8_t *state, size_t state_len,
                        uint8_t *ram, size_t ram_len,
                        const uint8_t *store, size_t store_len,
                        uint32_t cycles);

/* An exposure that names none: so is any number above FFFF. */
#define GULXINETT_UNNAMED 0x10000

/* Chooses the matrix of a light set (0 high light, 1 low light) and a level (0 the lowest contrast,
 * 7 the default, 15 the highest), with its dithering (plain 0) or without (any other), and an
 * exposure; unnamed it is 1000h. Writes registers 2, 3 and 6 to 53 of the state and nothing else:
 * a capture held goes on with the registers of its start. Refused as 1, then as 9. Value 0. */
uint64_t gulxinett_choose(uint8_t *state, size_t state_len,
                          uint8_t light, uint8_t level, uint8_t plain, uint32_t exposure);

/* Looks for the first element of the current matrix, by rows and then columns, whose three
 * values don't rise or stay level. Value: 0 if there is none, else 0x100 + 16 * row + column. */
uint64_t gulxinett_inspect(const uint8_t *state, size_t state_len);

/* Draws the whole picture of a frame, an image as a start is lent it, under 54 registers taken, as RAM
 * bank 0 gets it from offset 0x100 on. registers is exactly 54 bytes, picture exactly 3,584. Value 0. */
uint64_t gulxinett_picture(const uint8_t *frame, size_t frame_len,
                           const uint8_t *registers,
                           uint8_t *picture);

/* A live session is recorded as a bus script: each call below writes one frame as a line, in
 * upper-case hexadecimal with its LF, at the start of out and keeps the bytes after it. Value: the
 * line's length with the LF. Refused as 7 if out_len is smaller than that; GULXINETT_LINE_LEN bytes
 * always suffice. */

/* `00`: a reset. 3 bytes. */
uint64_t gulxinett_record_reset(uint8_t *out, size_t out_len);

/* `01`: a read of an address. 7 bytes. */
uint64_t gulxinett_record_read(uint16_t address, uint8_t *out, size_t out_len);

/* `02`: a write of a byte to an address. 9 bytes. */
uint64_t gulxinett_record_write(uint16_t address, uint8_t value, uint8_t *out, size_t out_len);

/* `03`: a tick. 11 bytes. */
uint64_t gulxinett_record_tick(uint32_t cycles, uint8_t *out, size_t out_len);

/* `04`: a row of the image lent, 0 to 127, and its 128 bytes; refused as 6 if row is above 127 or
 * bytes_len is not 128, before 7. 261 bytes. */
uint64_t gulxinett_record_row(uint8_t row,
                              const uint8_t *bytes, size_t bytes_len,
                              uint8_t *out, size_t out_len);

/* One line of such a script, without its LF, carried out as the program `bus` does it: a reset, a read, a write,
 * a tick, or a row put into the image. Its answer, in upper-case hexadecimal with its LF, is put at the start
 * of out; bytes beyond stay. Refused as 1 for bytes that are no record, then as 7 if out_len is smaller than
 * GULXINETT_ANSWER_LEN; nothing else is refused: a refusal of the line is its answer. A record that can't exist
 * is a record: read, write and tick answer 01 and a reset mends it. A row looks at the image alone. A malformed
 * line answers 06 before anything lent is looked at. Value: the answer's length with the LF. */
uint64_t gulxinett_step(uint8_t *state, size_t state_len,
                        const uint8_t *rom, size_t rom_len,
                        uint8_t *ram, size_t ram_len,
                        uint8_t *store, size_t store_len,
                        uint8_t *image, size_t image_len,
                        const uint8_t *line, size_t line_len,
                        uint8_t *out, size_t out_len);

/* An audit of a recording, a bus script: what became of each capture, as docs/AUDIT.md has it. The book is 13 numbers,
 * all 0 at first, of which the first is how many bytes the last call has put at the start of out; line is
 * 261 bytes for a line that has begun, whatever they hold at first. Each is refused as 1 for bytes that are no
 * record where it is lent a state, then as 7 for a book, a line or a buffer (of fewer than 512 bytes) of another size.
 *
 * Reads a piece of the recording up to its first LF and with it; a line that ends there is carried out as by
 * gulxinett_step, and its event, if it makes one, put into out. Value: how many bytes of the piece were read. */
uint64_t gulxinett_audit(uint64_t *book, size_t book_len,
                         uint8_t *line, size_t line_len,
                         uint8_t *state, size_t state_len,
                         const uint8_t *rom, size_t rom_len,
                         uint8_t *ram, size_t ram_len,
                         uint8_t *store, size_t store_len,
                         uint8_t *image, size_t image_len,
                         const uint8_t *piece, size_t piece_len,
                         uint8_t *out, size_t out_len);

/* The end of the recording: the event of a last line without LF, and that a capture is held. Value: how many bytes
 * were put into out. */
uint64_t gulxinett_audit_end(uint64_t *book, size_t book_len,
                             const uint8_t *line, size_t line_len,
                             uint8_t *state, size_t state_len,
                             const uint8_t *rom, size_t rom_len,
                             uint8_t *ram, size_t ram_len,
                             uint8_t *store, size_t store_len,
                             uint8_t *image, size_t image_len,
                             uint8_t *out, size_t out_len);

/* The first stretch of RAM from a place on, outside the picture area, that is not what it was at first; from 0, where there
 * is none, that nothing changed. Refused as 3 for a RAM whose length is not allowed or not that of first, then as 7. Value:
 * the place after the stretch, the RAM's length where there is none. */
uint64_t gulxinett_audit_changed(uint64_t *book, size_t book_len,
                                 const uint8_t *first, size_t first_len,
                                 const uint8_t *ram, size_t ram_len,
                                 uint32_t from,
                                 uint8_t *out, size_t out_len);

/* The summary of the recording. Value: how many bytes were put into out. */
uint64_t gulxinett_audit_summary(uint64_t *book, size_t book_len,
                                 const uint8_t *state, size_t state_len,
                                 uint8_t *out, size_t out_len);

/* Writes the picture area of RAM bank 0 as a grey image, a Netpbm file of kind P5: 128 by 112 pixels,
 * 14,351 bytes; bytes beyond stay. The RAM is read straight: a half picture is written as it
 * stands. Refused as 3, then as 7. Value: 14351. */
uint64_t gulxinett_export(const uint8_t *ram, size_t ram_len,
                          uint8_t *out, size_t out_len);

/* Places a grey image as gulxinett_export writes it, with exactly its header and length and no grey but 0,
 * 85, 170 and 255, in the picture area of RAM bank 0, whether or not RAM writing is enabled; no other
 * byte changes, nor the state. Refused as 1, 3, 8, then as 10 while a capture is held. Value 0. */
uint64_t gulxinett_place(const uint8_t *state, size_t state_len,
                         uint8_t *ram, size_t ram_len,
                         const uint8_t *file, size_t file_len);

/* Writes the picture area of RAM bank 0 as shades, one a byte: 128 by 112 of them row by row, 0 white to
 * 3 black, 14,336 bytes; bytes beyond stay. The RAM is read straight, as by gulxinett_export.
 * Refused as 3, then as 7. Value: 14336. */
uint64_t gulxinett_shades(const uint8_t *ram, size_t ram_len,
                          uint8_t *out, size_t out_len);

/* Judges a plate, the 3,584 bytes of a picture area, row by row: rows[y] becomes 1 where all 32 bytes of row y
 * (0 to 111) are those of the picture that gulxinett_picture draws of this frame under these 54 registers
 * taken, else 0; bytes beyond GULXINETT_ROWS_LEN stay. Row y is the bytes 256 * (y / 8) + 2 * (y % 8) + 16 * t
 * and the next, t from 0 to 15. plate is exactly 3,584 bytes, registers exactly 54. Refused as 4, then as 7.
 * Value: how many rows are equal; 112 exactly when the plate is that picture. */
uint64_t gulxinett_judge(const uint8_t *plate,
                         const uint8_t *frame, size_t frame_len,
                         const uint8_t *registers,
                         uint8_t *rows, size_t rows_len);

/* Writes the reading of each picture pixel, its value 0 to 255 before the matrix makes a shade of it, as a
 * grey image like gulxinett_export's: from the frame store and the registers taken of the capture held, all
 * 14,336 however far it has run. 14,351 bytes; bytes beyond stay. Refused as 1, 4, 7, then as 11
 * when no capture is held. Value: 14351. */
uint64_t gulxinett_readings(const uint8_t *state, size_t state_len,
                            const uint8_t *store, size_t store_len,
                            uint8_t *out, size_t out_len);

/* Reads a colour photograph, a Netpbm file of kind P6, 128 by 128 pixels with largest value 255, into an
 * image of 16,384 bytes: (2R + 5G + B) / 8 of each pixel, rounded down. Refused as 4, then as 8;
 * the image then stays as it is. Value 0. */
uint64_t gulxinett_import_photo(const uint8_t *file, size_t file_len,
                                uint8_t *image, size_t image_len);

/* Salvages a bus script of at most GULXINETT_SCRIPT_LEN bytes: keeps the lines that are accepted, in order,
 * and drops the malformed ones; where the lines kept are a sequence that starts with reset followed by
 * itself, the later half is dropped, again until none is. No line is added or altered; a last
 * line without LF gains one. text gets the lines kept, report one byte for each line of the script:
 * 0 kept, 1 malformed, 2 accepted but dropped as repeated; bytes of both beyond stay. script_len + 1
 * bytes of text and script_len of report always suffice. Refused as 12, then as 7 if either is too
 * short. Value: the number of lines of the script * 65536 + the length of the text. */
uint64_t gulxinett_salvage(const uint8_t *script, size_t script_len,
                           uint8_t *text, size_t text_len,
                           uint8_t *report, size_t report_len);

/* Writes state, RAM and frame store of one moment as one file, with a CRC-32 over all of it; bytes
 * beyond stay. Refused as 1, 3, 4, then as 7 if out_len is smaller than GULXINETT_SAVE_LEN + ram_len.
 * Value: that length. */
uint64_t gulxinett_save(const uint8_t *state, size_t state_len,
                        const uint8_t *ram, size_t ram_len,
                        const uint8_t *store, size_t store_len,
                        uint8_t *out, size_t out_len);

/* Reads such a file back into the three; what they held is not looked at. Refused as 1 if state_len is
 * not 121, as 3 also if the file is a save whose RAM has another length than ram_len, as 4, then as 8 if
 * the file is not exactly one that gulxinett_save writes: cut, damaged in any bit, or of another layout.
 * So ram_len is file_len - GULXINETT_SAVE_LEN where that is an allowed length, and any allowed one
 * where it is not. Value 0. */
uint64_t gulxinett_restore(const uint8_t *file, size_t file_len,
                           uint8_t *state, size_t state_len,
                           uint8_t *ram, size_t ram_len,
                           uint8_t *store, size_t store_len);

#ifdef __cplusplus
}
#endif

#endif
