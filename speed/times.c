/* Library and peer on the dumps that `dumps timed` wrote, budget 100,000.
 *
 *     times FILE [ROUNDS]
 *         compares the answers, and prints the medians of the time that each kind takes, and their ratio
 *     times FILE count SIDE JOB KIND MANY
 *         calls one side (library, peer) for one job (screen, run) on so many dumps of one kind, once each, and prints the answers: for
 *         callgrind
 *
 * Times are those of the thread. A round calls the library and the peer in turn on each dump; before each call all buffers are cleared by
 * the same memset. A dump's time is the median of its rounds, a kind's the median of its dumps. What the clock takes is taken off, as it is
 * behind that memset: it takes longer there than in a loop of its own, and a ROM of 10 bytes shows it. */
#define _POSIX_C_SOURCE 200809L
#include <stdio.h>
#include <stdlib.h>
#include <string.h>
#include <time.h>

#include "fcode.h"

uint32_t peer_screen(const uint8_t *rom, size_t rom_len, uint8_t *marks, size_t marks_len);
uint32_t peer_run(const uint8_t *rom, size_t rom_len, uint8_t *work, size_t work_len, uint8_t *store, size_t store_len, uint32_t budget,
                  uint32_t *steps);

#define BUDGET 100000
#define KINDS_MOST 16
#define ROUNDS_MOST 1001
/* a dump that the peer takes less than this for, in microseconds, has no ratio of its own: the clock says too little of it */
#define CLOCK_LEAST 0.1

enum { LIBRARY, PEER, SIDES };
enum { SCREEN, RUN, JOBS };

struct dump {
    const uint8_t *rom;
    uint32_t length;
    double time[JOBS][SIDES];
};

struct kind {
    char name[32];
    uint32_t count;
    struct dump *dumps;
};

static const char *path;
static const uint8_t *at, *end;
static struct kind kinds[KINDS_MOST];
static uint32_t kind_count;
static uint8_t marks[FCODE_MARKS_SIZE], work[FCODE_WORK_SIZE], store[FCODE_STORE_SIZE];
static uint32_t steps;

static void fail(const char *why) {
    fprintf(stderr, "times: %s: %s\n", path, why);
    exit(2);
}

static const uint8_t *taken(size_t count) {
    if ((size_t)(end - at) < count)
        fail("cut off");
    at += count;
    return at - count;
}

static uint32_t number(void) {
    const uint8_t *b = taken(4);
    return b[0] | (uint32_t)b[1] << 8 | (uint32_t)b[2] << 16 | (uint32_t)b[3] << 24;
}

static void *room(size_t count, size_t size) {
    void *p = calloc(count, size);
    if (p == NULL)
        fail("no room");
    return p;
}

static void read_dumps(void) {
    FILE *f = fopen(path, "rb");
    if (f == NULL)
        fail("cannot be read");
    fseek(f, 0, SEEK_END);
    long size = ftell(f);
    rewind(f);
    uint8_t *bytes = room((size_t)size + 1, 1);
    if (fread(bytes, 1, (size_t)size, f) != (size_t)size)
        fail("cannot be read");
    fclose(f);
    at = bytes;
    end = bytes + size;
    kind_count = number();
    if (KINDS_MOST < kind_count)
        fail("too many kinds");
    for (uint32_t k = 0; k < kind_count; k++) {
        uint32_t length = number();
        if (sizeof kinds[k].name <= length)
            fail("a kind's name is too long");
        memcpy(kinds[k].name, taken(length), length);
        kinds[k].count = number();
        kinds[k].dumps = room(kinds[k].count, sizeof(struct dump));
        for (uint32_t i = 0; i < kinds[k].count; i++) {
            kinds[k].dumps[i].length = number();
            kinds[k].dumps[i].rom = taken(kinds[k].dumps[i].length);
        }
    }
}

static void clear(void) {
    memset(marks, 0, sizeof marks);
    memset(work, 0, sizeof work);
    memset(store, 0, sizeof store);
    steps = 0;
}

static uint32_t called(int job, int side, const struct dump *d) {
    if (job == SCREEN)
        return side == LIBRARY ? fcode_screen(d->rom, d->length, marks, sizeof marks) : peer_screen(d->rom, d->length, marks, sizeof marks);
    return side == LIBRARY ? fcode_run(d->rom, d->length, work, sizeof work, store, sizeof store, BUDGET, &steps)
                           : peer_run(d->rom, d->length, work, sizeof work, store, sizeof store, BUDGET, &steps);
}

/* all answers, once: what is timed must be the same work */
static void compare(void) {
    static uint8_t other_marks[sizeof marks], other_work[sizeof work], other_store[sizeof store];
    for (uint32_t k = 0; k < kind_count; k++) {
        uint32_t passed = 0, finished = 0, spent = 0;
        double all_steps = 0, bytes = 0;
        for (uint32_t i = 0; i < kinds[k].count; i++) {
            const struct dump *d = &kinds[k].dumps[i];
            clear();
            uint32_t screen = called(SCREEN, LIBRARY, d), run = called(RUN, LIBRARY, d), count = steps;
            memcpy(other_marks, marks, sizeof marks);
            memcpy(other_work, work, sizeof work);
            memcpy(other_store, store, sizeof store);
            clear();
            if (called(SCREEN, PEER, d) != screen || called(RUN, PEER, d) != run || steps != count ||
                memcmp(other_marks, marks, sizeof marks) != 0 || memcmp(other_work, work, sizeof work) != 0 ||
                memcmp(other_store, store, sizeof store) != 0) {
                fprintf(stderr, "times: library and peer differ on dump %u of kind %s\n", i, kinds[k].name);
                exit(1);
            }
            passed += screen == 0;
            finished += run == 0;
            spent += run == 28;
            all_steps += count;
            bytes += d->length;
        }
        printf("%-9s %3u dumps, %6.0f bytes and %6.0f steps on average; %u pass the screen, %u finish, %u spend the budget\n",
               kinds[k].name, kinds[k].count, bytes / kinds[k].count, all_steps / kinds[k].count, passed, finished, spent);
    }
}

static double now(void) {
    struct timespec t;
    clock_gettime(CLOCK_THREAD_CPUTIME_ID, &t);
    return (double)t.tv_sec * 1e6 + (double)t.tv_nsec / 1e3;
}

static int order(const void *a, const void *b) {
    double x = *(const double *)a, y = *(const double *)b;
    return (x > y) - (x < y);
}

static double median(double *times, uint32_t count) {
    qsort(times, count, sizeof(double), order);
    return count % 2 ? times[count / 2] : (times[count / 2 - 1] + times[count / 2]) / 2;
}

static void time_dump(struct dump *d, uint32_t rounds) {
    static double times[JOBS][SIDES][ROUNDS_MOST], idle[ROUNDS_MOST];
    for (uint32_t r = 0; r < rounds; r++) {
        clear();
        double before = now();
        idle[r] = now() - before;
        for (int job = 0; job < JOBS; job++) {
            for (int turn = 0; turn < SIDES; turn++) {
                int side = r % 2 ? SIDES - 1 - turn : turn;
                clear();
                double start = now();
                called(job, side, d);
                times[job][side][r] = now() - start;
            }
        }
    }
    double clock = median(idle, rounds);
    for (int job = 0; job < JOBS; job++) {
        for (int side = 0; side < SIDES; side++)
            d->time[job][side] = median(times[job][side], rounds) - clock;
    }
}

static void show(const struct kind *kind) {
    double *times = room(kind->count, sizeof(double));
    printf("%-9s", kind->name);
    for (int job = 0; job < JOBS; job++) {
        double middle[SIDES], worst = 0;
        for (int side = 0; side < SIDES; side++) {
            for (uint32_t i = 0; i < kind->count; i++)
                times[i] = kind->dumps[i].time[job][side];
            middle[side] = median(times, kind->count);
        }
        for (uint32_t i = 0; i < kind->count; i++) {
            const double *t = kind->dumps[i].time[job];
            double ratio = t[PEER] < CLOCK_LEAST ? 0 : t[LIBRARY] / t[PEER];
            worst = worst < ratio ? ratio : worst;
        }
        printf(" | %10.2f %10.2f %7.2f %8.2f", middle[LIBRARY], middle[PEER], middle[LIBRARY] / middle[PEER], worst);
    }
    printf("\n");
    free(times);
}

/* all dumps one behind the other */
static void show_sum(void) {
    printf("%-9s", "sum");
    for (int job = 0; job < JOBS; job++) {
        double sum[SIDES] = {0, 0};
        for (uint32_t k = 0; k < kind_count; k++) {
            for (uint32_t i = 0; i < kinds[k].count; i++) {
                for (int side = 0; side < SIDES; side++)
                    sum[side] += kinds[k].dumps[i].time[job][side];
            }
        }
        printf(" | %10.0f %10.0f %7.2f %8s", sum[LIBRARY], sum[PEER], sum[LIBRARY] / sum[PEER], "");
    }
    printf("\n");
}

static void time_all(uint32_t rounds) {
    for (uint32_t k = 0; k < kind_count; k++) {
        for (uint32_t i = 0; i < kinds[k].count; i++)
            time_dump(&kinds[k].dumps[i], kinds[k].count == 1 ? ROUNDS_MOST : rounds);
    }
    printf("\nmedians in microseconds, %u rounds; 'worst' is the highest ratio of a single dump\n", rounds);
    printf("%-9s | %-38s | %-38s\n", "", "screen", "run");
    printf("%-9s", "kind");
    for (int job = 0; job < JOBS; job++)
        printf(" | %10s %10s %7s %8s", "library", "peer", "ratio", "worst");
    printf("\n");
    for (uint32_t k = 0; k < kind_count; k++)
        show(&kinds[k]);
    show_sum();
}

static int picked(const char *word, const char *first, const char *second) {
    if (strcmp(word, first) == 0)
        return 0;
    if (strcmp(word, second) == 0)
        return 1;
    fail("SIDE is library or peer, JOB is screen or run");
    return 0;
}

int main(int count, char **words) {
    if (count < 2) {
        fprintf(stderr, "times FILE [ROUNDS], times FILE count SIDE JOB KIND MANY\n");
        return 2;
    }
    path = words[1];
    read_dumps();
    if (count == 7 && strcmp(words[2], "count") == 0) {
        int side = picked(words[3], "library", "peer"), job = picked(words[4], "screen", "run");
        uint32_t many = (uint32_t)atoi(words[6]);
        for (uint32_t k = 0; k < kind_count; k++) {
            for (uint32_t i = 0; strcmp(kinds[k].name, words[5]) == 0 && i < kinds[k].count && i < many; i++) {
                clear();
                printf("%u\n", called(job, side, &kinds[k].dumps[i]));
            }
        }
        return 0;
    }
    int rounds = count == 3 ? atoi(words[2]) : 11;
    if (rounds < 1 || ROUNDS_MOST < rounds)
        fail("ROUNDS is 1 to 1001");
    compare();
    time_all((uint32_t)rounds);
    return 0;
}
