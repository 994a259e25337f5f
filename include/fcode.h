/* Celestalamp for C: an FCode ROM is checked, screened, run and listed. Numbers are those of document 01; README.md has the table.
 *
 * Any bytes, lengths and budget may be given. A call ends, touches nothing but the memory that is lent to it, and keeps nothing between
 * calls. The one thing asked of the caller is what C asks: a pointer leads to as many bytes as the length beside it says, buffers that are
 * written to do not overlap each other or the ROM, and `steps` leads to a uint32_t outside them. With the length 0 a pointer is not
 * followed, and may be null.
 *
 * A ROM that starts with F2 or F3 is spread: its bytes lie two or four apart, and what lies between is not read. Lengths, marks and the
 * program's addresses count the bytes that are left without the gaps.
 *
 * The library is for x86-64 Linux and calls nothing but memcpy and memset: no heap, no files. A call may take FCODE_STACK_SIZE bytes of
 * stack; fcode_check and fcode_run, and the other two of a program of up to 4,096 bytes, take an eighth of that at most, and a quarter
 * where a spread ROM is run. */
#ifndef CELESTALAMP_FCODE_H
#define CELESTALAMP_FCODE_H

#include <stddef.h>
#include <stdint.h>

#ifdef __cplusplus
extern "C" {
#endif

/* a ROM has 8 bytes at least, and so many at most, the gaps of a spread one counted */
#define FCODE_ROM_MOST 65536

/* the stack, in bytes, that a call may take: 413,912 were measured, the rest is margin */
#define FCODE_STACK_SIZE 524288

/* the sizes, in bytes, that each buffer must have exactly */
#define FCODE_MARKS_SIZE 65536
#define FCODE_WORK_SIZE 16384
#define FCODE_STORE_SIZE 16384
#define FCODE_TEXT_SIZE 65536

/* The header test. 0 for a good header, else the first of 1 to 5 that applies. */
uint32_t fcode_check(const uint8_t *rom, size_t rom_len);

/* The screen. 0: the ROM passes, and `marks` has the data height plus one at the first byte of each token that can be reached, and zero
 * elsewhere. 31: stack heights cannot be assigned, and `marks` is all zero. 6 for a mark buffer of the wrong size and then 1 to 5 for the
 * header: `marks` is as it was. */
uint32_t fcode_screen(const uint8_t *rom, size_t rom_len, uint8_t *marks, size_t marks_len);

/* Opens the ROM and runs it, without screening it. 0: finished. 28: `budget` tokens were carried out. 6 for a work or store buffer of the
 * wrong size and then 1 to 5 for the header: both buffers are as they were, and `*steps` is 0. Any other number is the refusal of a token;
 * of a ROM that fcode_screen passes it is one from 21 to 27, which depend on the program's data. After 0, 28 and a refused token `*steps`
 * is the count of tokens carried out, `work` is the program's memory then, and `store` has name and value of each property in order of
 * creation, zeros behind them. */
uint32_t fcode_run(const uint8_t *rom, size_t rom_len, uint8_t *work, size_t work_len, uint8_t *store, size_t store_len, uint32_t budget,
                   uint32_t *steps);

/* Screens the ROM, runs it if it passes, and writes the listing into `text`: ASCII, a line feed behind each line, and one zero byte behind
 * the text, so that it can be read as a string; what lies behind that zero is as it was. Gives the text's length, without the zero. A
 * refusal of the buffers' sizes, the header or the screen is the one line `refused N`, and `work` and `store` are then as they were;
 * `marks` is as fcode_screen leaves it, and as it was where a buffer has the wrong size. With a `text` of another size than
 * FCODE_TEXT_SIZE the call gives 0 and writes nothing at all. */
size_t fcode_list(const uint8_t *rom, size_t rom_len, uint8_t *marks, size_t marks_len, uint8_t *work, size_t work_len, uint8_t *store,
                  size_t store_len, uint32_t budget, uint8_t *text, size_t text_len);

#ifdef __cplusplus
}
#endif

#endif
