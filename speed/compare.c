/* compare FILE: calls the library on each ROM of a file that `dumps answers` wrote, and compares all that it answers and leaves in memory
 * with the peer's: fcode_check, fcode_screen with its marks, fcode_run with its steps, work memory and store. Exits 1 where anything
 * differs. The ROMs that do are written beside FILE. */
#include <stdio.h>
#include <stdlib.h>
#include <string.h>

#include "fcode.h"

#define FILL 0xA5
#define UNWRITTEN 0xFFFFFFFFu
#define LARGEST (FCODE_MARKS_SIZE + 1)
#define SHOWN 10

static const char *path;
static uint8_t *at, *end;

static void fail(const char *why) {
    fprintf(stderr, "compare: %s: %s\n", path, why);
    exit(2);
}

static const uint8_t *taken(size_t count) {
    if ((size_t)(end - at) < count)
        fail("cut off");
    at += count;
    return at - count;
}

static uint32_t number(void) {
    const uint8_t *b = taken(4);
    return b[0] | (uint32_t)b[1] << 8 | (uint32_t)b[2] << 16 | (uint32_t)b[3] << 24;
}

/* the next buffer of the file against the library's: as it was filled, or some bytes and zeros behind them */
static int same_buffer(const uint8_t *buffer, size_t size) {
    static uint8_t expected[LARGEST];
    uint32_t count = number();
    if (count == UNWRITTEN) {
        memset(expected, FILL, size);
    } else {
        if (size < count)
            fail("a buffer is too long");
        memset(expected, 0, size);
        memcpy(expected, taken(count), count);
    }
    return memcmp(buffer, expected, size) == 0;
}

static void keep(uint32_t index, const uint8_t *rom, size_t size) {
    char name[512];
    snprintf(name, sizeof name, "%s-%u.rom", path, index);
    FILE *f = fopen(name, "wb");
    if (f != NULL) {
        fwrite(rom, 1, size, f);
        fclose(f);
        printf("    %s\n", name);
    }
}

int main(int count, char **words) {
    static uint8_t marks[LARGEST], work[LARGEST], store[LARGEST];
    if (count != 2) {
        fprintf(stderr, "compare FILE\n");
        return 2;
    }
    path = words[1];
    FILE *f = fopen(path, "rb");
    if (f == NULL)
        fail("cannot be read");
    fseek(f, 0, SEEK_END);
    long size = ftell(f);
    rewind(f);
    at = malloc((size_t)size + 1);
    if (at == NULL || fread(at, 1, (size_t)size, f) != (size_t)size)
        fail("cannot be read");
    fclose(f);
    end = at + size;

    uint32_t roms = number(), different = 0;
    for (uint32_t i = 0; i < roms; i++) {
        size_t length = number();
        const uint8_t *rom = taken(length);
        size_t marks_size = number(), work_size = number(), store_size = number();
        uint32_t budget = number();
        if (LARGEST < marks_size || LARGEST < work_size || LARGEST < store_size)
            fail("a buffer is too large");
        memset(marks, FILL, sizeof marks);
        memset(work, FILL, sizeof work);
        memset(store, FILL, sizeof store);

        uint32_t check = number(), check_here = fcode_check(rom, length);
        uint32_t screen = number(), screen_here = fcode_screen(rom, length, marks, marks_size);
        int same_marks = same_buffer(marks, marks_size);
        uint32_t steps_here = 0;
        uint32_t run = number(), run_here = fcode_run(rom, length, work, work_size, store, store_size, budget, &steps_here);
        uint32_t steps = number();
        int same_work = same_buffer(work, work_size), same_store = same_buffer(store, store_size);

        if (check == check_here && screen == screen_here && same_marks && run == run_here && steps == steps_here && same_work && same_store)
            continue;
        different++;
        if (SHOWN < different)
            continue;
        printf("ROM %u, budget %u, library and peer: check %u %u, screen %u %u, run %u %u, steps %u %u%s%s%s\n", i, budget, check_here,
               check, screen_here, screen, run_here, run, steps_here, steps, same_marks ? "" : ", marks differ",
               same_work ? "" : ", work memory differs", same_store ? "" : ", store differs");
        keep(i, rom, length);
    }
    printf("%u ROMs compared, %u different\n", roms, different);
    return different != 0;
}
