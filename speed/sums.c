/* The sum of a program's bytes: the library's, and the forms of speed/src/sums.rs.
 *
 *     sums compare                compares all forms on programs of many lengths and places
 *     sums times                  prints the medians of the time that each takes
 *     sums FORM SIZE SHIFT        calls one form once, for callgrind: SIZE bytes, the first of them SHIFT bytes behind a multiple of 64
 *
 * Times are those of the thread, of so many calls in a row that the clock is nothing beside them: the bytes are in the nearest memory. */
#define _POSIX_C_SOURCE 200809L
#include <stdint.h>
#include <stdio.h>
#include <stdlib.h>
#include <string.h>
#include <time.h>

#define HEADER 8
#define MOST 65536
#define ROUNDS 11
#define BYTES_A_ROUND 2000000

typedef uint16_t form(const uint8_t *rom, size_t rom_len, uint32_t length);
form library_sum, sum_plain, sum_lanes, sum_chunks, sum_pairs, sum_halves, sum_by_hand, sum_read;

/* the last one is no sum */
static const struct {
    const char *name;
    form *sum;
} forms[] = {{"library_sum", library_sum}, {"sum_plain", sum_plain},     {"sum_lanes", sum_lanes},     {"sum_chunks", sum_chunks},
             {"sum_pairs", sum_pairs},     {"sum_halves", sum_halves}, {"sum_by_hand", sum_by_hand}, {"sum_read", sum_read}};
enum { FORMS = sizeof forms / sizeof *forms, SUMS = FORMS - 1 };

static const uint32_t sizes[] = {8, 64, 512, 4096, 16384, 65536};
enum { SIZES = sizeof sizes / sizeof *sizes };

static uint8_t room[MOST + 256];
static volatile uint16_t kept;

/* a ROM whose first byte behind the header lies `shift` behind a multiple of 64 */
static const uint8_t *rom_at(size_t shift) {
    uintptr_t start = ((uintptr_t)room + HEADER + 63) / 64 * 64 + shift;
    return (const uint8_t *)start - HEADER;
}

static void fill(void) {
    uint32_t draw = 1275;
    for (size_t i = 0; i < sizeof room; i++) {
        draw = draw * 1664525 + 1013904223;
        room[i] = (uint8_t)(draw >> 24);
    }
}

static uint16_t one_by_one(const uint8_t *bytes, size_t count) {
    uint32_t sum = 0;
    for (size_t i = 0; i < count; i++)
        sum += bytes[i];
    return (uint16_t)sum;
}

/* a program of `size` bytes in a ROM that has `there` behind its header, fewer or more: what it has is summed */
static unsigned differ(const uint8_t *rom, uint32_t size, uint32_t there) {
    uint16_t sum = one_by_one(rom + HEADER, size < there ? size : there);
    unsigned different = 0;
    for (int f = 0; f < SUMS; f++) {
        if (forms[f].sum(rom, HEADER + there, HEADER + size) != sum) {
            printf("%s differs on %u bytes of %u\n", forms[f].name, size, there);
            different++;
        }
    }
    return different;
}

static unsigned compare(void) {
    unsigned tried = 0, different = 0;
    for (uint32_t size = 0; size <= MOST; size += size < 1100 ? 1 : 61) {
        for (size_t shift = 0; shift < 64; shift += size < 300 ? 1 : 13) {
            const uint8_t *rom = rom_at(shift);
            different += differ(rom, size, size) + differ(rom, size, size + 5) + differ(rom, size + 5, size);
            tried += 3;
        }
    }
    /* all bytes FF: the largest sums there are */
    memset(room, 0xFF, sizeof room);
    for (uint32_t size = 0; size <= MOST; size += size < 1100 ? 1 : 61, tried++)
        different += differ(rom_at(0), size, size);
    fill();
    /* lengths that end in the header, and ROMs that do */
    for (uint32_t length = 0; length <= HEADER; length++) {
        for (int f = 0; f < SUMS; f++) {
            different += forms[f].sum(rom_at(0), HEADER + 16, length) != 0;
            different += forms[f].sum(rom_at(0), length, HEADER + 16) != 0;
            different += forms[f].sum(NULL, 0, length) != 0;
        }
        tried += 3;
    }
    printf("%u programs summed, %u different\n", tried, different);
    return different;
}

static double now(void) {
    struct timespec t;
    clock_gettime(CLOCK_THREAD_CPUTIME_ID, &t);
    return (double)t.tv_sec * 1e9 + (double)t.tv_nsec;
}

static int order(const void *a, const void *b) {
    double x = *(const double *)a, y = *(const double *)b;
    return (x > y) - (x < y);
}

static double timed(form *sum, const uint8_t *rom, uint32_t size) {
    static double rounds[ROUNDS];
    uint32_t calls = BYTES_A_ROUND / (size + 100);
    for (int r = 0; r < ROUNDS; r++) {
        double start = now();
        for (uint32_t c = 0; c < calls; c++)
            kept = sum(rom, HEADER + size, HEADER + size);
        rounds[r] = (now() - start) / calls;
    }
    qsort(rounds, ROUNDS, sizeof(double), order);
    return rounds[ROUNDS / 2];
}

static void time_all(void) {
    printf("\nnanoseconds a call, medians of %d rounds\n%-14s", ROUNDS, "");
    for (int f = 0; f < FORMS; f++)
        printf("%13s", forms[f].name);
    printf("\n");
    for (int s = 0; s < SIZES; s++) {
        for (size_t shift = 0; shift < 2; shift++) {
            printf("%5u %-8s", sizes[s], shift == 0 ? "aligned" : "not");
            for (int f = 0; f < FORMS; f++)
                printf("%13.1f", timed(forms[f].sum, rom_at(shift), sizes[s]));
            printf("\n");
        }
    }
}

int main(int count, char **words) {
    fill();
    if (count == 2 && strcmp(words[1], "compare") == 0)
        return compare() != 0;
    if (count == 2 && strcmp(words[1], "times") == 0) {
        time_all();
        return 0;
    }
    for (int f = 0; count == 4 && f < FORMS; f++) {
        uint32_t size = (uint32_t)atoi(words[2]);
        if (strcmp(words[1], forms[f].name) == 0 && size <= MOST) {
            printf("%u\n", forms[f].sum(rom_at((size_t)atoi(words[3]) % 64), HEADER + size, HEADER + size));
            return 0;
        }
    }
    fprintf(stderr, "sums compare, sums times, or sums FORM SIZE SHIFT\n");
    return 2;
}
