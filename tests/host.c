/* A C program over include/fcode.h: each of the four calls with good ROMs, bad ROMs, buffers of the wrong size and no ROM at all, the sum
 * of programs of many lengths, the longest ROM, spread ROMs, the stack that a call takes, ROMs behind whose last byte nothing can be read,
 * and the listing of every worked case and of every case of tests/names.py, tests/long.py and tests/spread.py. Compared are every answer,
 * every text with the one zero and the untouched bytes behind it, every buffer that a refused call must leave as it was, and what stands
 * before and behind a buffer, which no call may touch. */
#define _DEFAULT_SOURCE
#define _XOPEN_SOURCE 700
#include "fcode.h"

#include <stdio.h>
#include <stdlib.h>
#include <string.h>
#include <sys/mman.h>
#include <ucontext.h>
#include <unistd.h>

#define GUARD 64
#define ROOM (FCODE_TEXT_SIZE + 1)

/* a buffer to lend, inside bytes that are not lent */
struct lent {
    uint8_t bytes[GUARD + ROOM + GUARD];
    size_t size;
};

static struct lent marks, work, store, text;
static uint8_t rom[FCODE_ROM_MOST + 1];
static size_t rom_len;
static uint32_t steps;
static unsigned good, bad;

static void expect(int holds, int line, const char *what) {
    if (holds) {
        good++;
        return;
    }
    bad++;
    printf("host.c:%d: not so: %s\n", line, what);
}
#define EXPECT(fact) expect((fact), __LINE__, #fact)

/* bytes that no call would write by chance */
static uint8_t filler(size_t i) { return (uint8_t)(i * 7 + 0x5B); }

static void lend(struct lent *b, size_t size) {
    b->size = size;
    for (size_t i = 0; i < sizeof b->bytes; i++) b->bytes[i] = filler(i);
}

static uint8_t *at(struct lent *b) { return b->bytes + GUARD; }

/* nothing was written, or nothing outside what was lent */
static int untouched(const struct lent *b) {
    for (size_t i = 0; i < sizeof b->bytes; i++)
        if (b->bytes[i] != filler(i)) return 0;
    return 1;
}

static int within(const struct lent *b) {
    for (size_t i = 0; i < sizeof b->bytes; i++)
        if ((i < GUARD || GUARD + b->size <= i) && b->bytes[i] != filler(i)) return 0;
    return 1;
}

/* the bytes given, and zeros behind them to the buffer's end, and nothing outside it */
static int holds(const struct lent *b, const void *bytes, size_t n) {
    if (b->size < n || memcmp(b->bytes + GUARD, bytes, n) != 0) return 0;
    for (size_t i = n; i < b->size; i++)
        if (b->bytes[GUARD + i] != 0) return 0;
    return within(b);
}

/* the text given, one zero behind it, and what lies behind that as it was, to the buffer's end and outside it */
static int reads(const struct lent *b, const char *words, size_t n) {
    if (b->size <= n || memcmp(b->bytes + GUARD, words, n) != 0 || b->bytes[GUARD + n] != 0) return 0;
    for (size_t i = GUARD + n + 1; i < GUARD + b->size; i++)
        if (b->bytes[i] != filler(i)) return 0;
    return within(b);
}

static void lend_all(size_t m, size_t w, size_t s, size_t t) {
    lend(&marks, m);
    lend(&work, w);
    lend(&store, s);
    lend(&text, t);
    steps = 0xDEADBEEF;
}

static void lend_right(void) { lend_all(FCODE_MARKS_SIZE, FCODE_WORK_SIZE, FCODE_STORE_SIZE, FCODE_TEXT_SIZE); }

/* a ROM with a good header around these bytes */
static void burn(const void *body, size_t n) {
    uint32_t sum = 0;
    memcpy(rom + 8, body, n);
    for (size_t i = 0; i < n; i++) sum += rom[8 + i];
    rom_len = 8 + n;
    rom[0] = 0xFD;
    rom[1] = 0x08;
    rom[2] = (uint8_t)(sum >> 8);
    rom[3] = (uint8_t)sum;
    rom[4] = 0;
    rom[5] = (uint8_t)(rom_len >> 16);
    rom[6] = (uint8_t)(rom_len >> 8);
    rom[7] = (uint8_t)rom_len;
}
#define BURN(body) burn((body), sizeof(body) - 1)

/* the ROM of these FCode bytes as it is with another start: F1, or F2 and F3, whose bytes lie two and four apart, with gaps that no two
 * calls have alike, and none behind the last */
static size_t spread_by(uint8_t start) { return start == 0xF2 ? 2 : start == 0xF3 ? 4 : 1; }

static void lay_apart(uint8_t start) {
    static uint8_t fcode[sizeof rom];
    static uint32_t draw = 1275;
    size_t n = rom_len, spread = spread_by(start);
    memcpy(fcode, rom, n);
    fcode[0] = start;
    rom_len = (n - 1) * spread + 1;
    for (size_t i = 0; i < rom_len; i++) {
        draw = draw * 1664525 + 1013904223;
        rom[i] = i % spread == 0 ? fcode[i / spread] : (uint8_t)(draw >> 24);
    }
}

static uint32_t check(void) { return fcode_check(rom, rom_len); }

static uint32_t screen(void) { return fcode_screen(rom, rom_len, at(&marks), marks.size); }

static uint32_t run(uint32_t budget) {
    return fcode_run(rom, rom_len, at(&work), work.size, at(&store), store.size, budget, &steps);
}

static size_t list(uint32_t budget) {
    return fcode_list(rom, rom_len, at(&marks), marks.size, at(&work), work.size, at(&store), store.size, budget, at(&text), text.size);
}

/* the listing is these lines */
static int prints(uint32_t budget, const char *lines) { return list(budget) == strlen(lines) && reads(&text, lines, strlen(lines)); }

/* document 01's scale board, and others of its bench */
#define SCALE "\x12\x05scale\x02\x01\xA8\x01\x11\x12\x05lanes\x01\x10\x00"
#define EMPTIES "\x46\x00"
#define DIVIDES "\xA6\xA5\x2B\x00"
#define CIRCLES "\x13\xFF\x00"
#define NODES "screen pass\nnode 0 parent 0\nnode 1 parent 0\n"

/* what the scale board leaves: its marks, the height plus one at each token, and its store, name and value of each property */
static const uint8_t heights[30] = {[8] = 1, [15] = 3, [17] = 1, [18] = 2, [20] = 3, [27] = 5, [29] = 1};
static const char properties[] = "namescale\0lanes\0\0\0\3";

static void checks(void) {
    BURN(SCALE);
    EXPECT(rom[2] == 0x05 && rom[3] == 0x17 && rom_len == 0x1E);
    EXPECT(check() == 0);
    rom[2] = rom[3] = 0;
    EXPECT(check() == 5);
    rom[7] = 0x1F;
    EXPECT(check() == 4);
    rom[7] = 0x08;
    EXPECT(check() == 4);
    rom[1] = 0x09;
    EXPECT(check() == 3);
    rom[0] = 0xF0;
    EXPECT(check() == 2);
    EXPECT(fcode_check(rom, 7) == 1);
    EXPECT(fcode_check(rom, sizeof rom) == 1);
    EXPECT(fcode_check(rom, 0) == 1);
    EXPECT(fcode_check(NULL, 0) == 1);
}

/* the sum takes in every byte of the program and no other: it is taken in stretches of several sizes, and the length says in which. A byte
 * with all its bits turned makes another sum; what lies behind the program, left from longer ones, adds nothing, and no gap does */
static void sums_of(uint8_t start) {
    static uint8_t body[sizeof rom - 8 - 1];
    uint32_t draw = 1275;
    size_t spread = spread_by(start), most = FCODE_ROM_MOST / spread - 8;
    for (size_t i = 0; i < most; i++) {
        draw = draw * 1664525 + 1013904223;
        body[i] = (uint8_t)(draw >> 24);
    }
    for (size_t n = most; n > 0; n -= n < 1100 ? 1 : 251) {
        size_t step = n <= 300 ? 1 : n / 5;
        int sum_holds = 1;
        burn(body, n);
        lay_apart(start);
        if (check() != 0 || fcode_check(rom, sizeof rom - 1) != 0) sum_holds = 0;
        for (size_t i = 0; i < n; i += step) {
            uint8_t *byte = rom + (8 + i) * spread;
            *byte ^= 0xFF;
            if (check() != 5) sum_holds = 0;
            *byte ^= 0xFF;
        }
        if (!sum_holds) printf("a program of %lu bytes behind %X is summed wrongly\n", (unsigned long)n, start);
        EXPECT(sum_holds);
    }
}

static void sums(void) {
    static uint8_t body[sizeof rom - 8 - 1];
    sums_of(0xFD);
    sums_of(0xF2);
    sums_of(0xF3);
    /* the largest sum there is */
    memset(body, 0xFF, sizeof body);
    burn(body, sizeof body);
    EXPECT(rom[2] == 0xF8 && rom[3] == 0x08 && check() == 0);
}

static void screens(void) {
    BURN(SCALE);
    lend_right();
    EXPECT(screen() == 0);
    EXPECT(holds(&marks, heights, sizeof heights));

    BURN(EMPTIES);
    lend_right();
    EXPECT(screen() == 31);
    EXPECT(holds(&marks, "", 0));

    /* the header's refusals leave the marks as they were */
    rom[3] ^= 1;
    lend_right();
    EXPECT(screen() == 5);
    EXPECT(untouched(&marks));
    EXPECT(fcode_screen(NULL, 0, at(&marks), marks.size) == 1);
    EXPECT(untouched(&marks));

    /* a wrong size comes before them */
    static const size_t wrong[] = {FCODE_MARKS_SIZE - 1, FCODE_MARKS_SIZE + 1, 16384};
    for (size_t k = 0; k < sizeof wrong / sizeof wrong[0]; k++) {
        lend_all(wrong[k], 0, 0, 0);
        EXPECT(screen() == 6);
        EXPECT(untouched(&marks));
    }
    EXPECT(fcode_screen(NULL, 0, NULL, 0) == 6);
}

/* a ROM of so many bytes: noops and an end0 */
static void burn_noops(size_t size) {
    static uint8_t body[FCODE_ROM_MOST - 8];
    memset(body, 0x7B, sizeof body);
    body[size - 9] = 0;
    burn(body, size - 8);
}

/* a program of full length passes and runs to its end; in a ROM that is one byte too long it does neither */
static void longest(void) {
    static uint8_t ones[FCODE_MARKS_SIZE];
    memset(ones + 8, 1, sizeof ones - 8);
    burn_noops(FCODE_ROM_MOST);
    EXPECT(rom_len == 65536 && check() == 0);
    lend_right();
    EXPECT(screen() == 0);
    EXPECT(holds(&marks, ones, sizeof ones));
    lend_right();
    EXPECT(run(100000) == 0);
    EXPECT(steps == 65528);
    lend_right();
    EXPECT(prints(100000, NODES "steps 65528\ndone\n"));

    rom_len++;
    EXPECT(check() == 1);
    lend_right();
    EXPECT(screen() == 1 && run(100000) == 1 && steps == 0);
    EXPECT(prints(100000, "refused 1\n"));
    EXPECT(untouched(&marks) && untouched(&work) && untouched(&store));
}

/* what each call leaves of a stack of its own: bytes that are as they were filled were not taken */
static uint8_t stack[2 * FCODE_STACK_SIZE];
static ucontext_t here, there;
static enum { CHECK, SCREEN, RUN, LIST } which_call;

static void call(void) {
    switch (which_call) {
    case CHECK: check(); break;
    case SCREEN: screen(); break;
    case RUN: run(100000); break;
    case LIST: list(100000); break;
    }
}

static size_t stack_taken(int which) {
    size_t left = 0;
    which_call = which;
    lend_right();
    memset(stack, 0xC7, sizeof stack);
    getcontext(&there);
    there.uc_stack.ss_sp = stack;
    there.uc_stack.ss_size = sizeof stack;
    there.uc_link = &here;
    makecontext(&there, call, 0);
    swapcontext(&here, &there);
    while (left < sizeof stack && stack[left] == 0xC7) left++;
    return sizeof stack - left;
}

/* fcode.h says how much a call may take, and how much of that with a short program: no table for a long one lies in its way, but for the
 * room that a spread program is laid into to be run. A program's size is that of its FCode bytes, however far apart they lie */
static void stacks_of(uint8_t start) {
    static const size_t sizes[] = {10, 4096, 4097, 16384, 32768, FCODE_ROM_MOST};
    size_t most = 0, most_of_short = 0;
    for (size_t k = 0; k < sizeof sizes / sizeof sizes[0] && sizes[k] * spread_by(start) <= FCODE_ROM_MOST; k++) {
        for (int which = CHECK; which <= LIST; which++) {
            int is_short = sizes[k] <= 4096 || which == CHECK || which == RUN;
            int is_laid = spread_by(start) != 1 && (which == RUN || which == LIST);
            burn_noops(sizes[k]);
            lay_apart(start);
            size_t taken = stack_taken(which);
            EXPECT(0 < taken && taken <= FCODE_STACK_SIZE);
            EXPECT(!is_short || taken <= FCODE_STACK_SIZE / (is_laid ? 4 : 8));
            most = most < taken ? taken : most;
            most_of_short = is_short && most_of_short < taken ? taken : most_of_short;
        }
    }
    printf("tests/host.c: start %X: a call took %lu bytes of stack at most, %lu with a short program\n", start, (unsigned long)most,
           (unsigned long)most_of_short);
}

static void stacks(void) {
    stacks_of(0xFD);
    stacks_of(0xF2);
    stacks_of(0xF3);
}

static void runs(void) {
    BURN(SCALE);
    lend_right();
    EXPECT(run(100000) == 0);
    EXPECT(steps == 7);
    EXPECT(holds(&work, "\0\0\0\3", 4));
    EXPECT(holds(&store, properties, sizeof properties - 1));

    lend_right();
    EXPECT(run(7) == 0);
    EXPECT(steps == 7);
    EXPECT(holds(&store, properties, sizeof properties - 1));

    lend_right();
    EXPECT(run(3) == 28);
    EXPECT(steps == 3);
    EXPECT(holds(&work, "", 0));
    EXPECT(holds(&store, properties, 10));

    /* opened, and no token carried out */
    lend_right();
    EXPECT(run(0) == 28);
    EXPECT(steps == 0);
    EXPECT(holds(&work, "", 0));
    EXPECT(holds(&store, "", 0));

    BURN(EMPTIES);
    lend_right();
    EXPECT(run(100000) == 14);
    EXPECT(steps == 0);
    EXPECT(holds(&work, "", 0) && holds(&store, "", 0));

    BURN(DIVIDES);
    lend_right();
    EXPECT(run(100000) == 21);
    EXPECT(steps == 2);
    EXPECT(holds(&work, "", 0) && holds(&store, "", 0));

    BURN(CIRCLES);
    lend_right();
    EXPECT(run(1000) == 28);
    EXPECT(steps == 1000);
    EXPECT(holds(&work, "", 0) && holds(&store, "", 0));

    /* a refused opening leaves both memories as they were, and carries nothing out */
    rom[3] ^= 1;
    lend_right();
    EXPECT(run(1000) == 5);
    EXPECT(steps == 0);
    EXPECT(untouched(&work) && untouched(&store));
    EXPECT(fcode_run(NULL, 0, NULL, 0, NULL, 0, 1000, &steps) == 6);
    steps = 1;
    EXPECT(fcode_run(NULL, 0, at(&work), work.size, at(&store), store.size, 1000, &steps) == 1);
    EXPECT(steps == 0);
    EXPECT(untouched(&work) && untouched(&store));

    for (size_t off = 0; off <= 2; off += 2) {
        lend_all(0, FCODE_WORK_SIZE - 1 + off, FCODE_STORE_SIZE, 0);
        EXPECT(run(1000) == 6);
        EXPECT(steps == 0);
        EXPECT(untouched(&work) && untouched(&store));
        lend_all(0, FCODE_WORK_SIZE, FCODE_STORE_SIZE - 1 + off, 0);
        EXPECT(run(1000) == 6);
        EXPECT(steps == 0);
        EXPECT(untouched(&work) && untouched(&store));
    }
}

static void lists(void) {
    BURN(SCALE);
    lend_right();
    EXPECT(prints(100000, NODES "name 7363616C6500\nlanes 00000003\nsteps 7\ndone\n"));
    EXPECT(holds(&marks, heights, sizeof heights));
    EXPECT(holds(&work, "\0\0\0\3", 4));
    EXPECT(holds(&store, properties, sizeof properties - 1));
    lend_right();
    EXPECT(prints(3, NODES "name 7363616C6500\nsteps 3\nrefused 28\n"));

    /* a value of no bytes; a node below node 1 */
    BURN("\x12\x00\x12\x06ranges\x01\x10\x00");
    lend_right();
    EXPECT(prints(100000, NODES "ranges\nsteps 4\ndone\n"));
    BURN("\x01\x1F\x12\x03pan\x02\x01\x01\x27\x00");
    lend_right();
    EXPECT(prints(100000, NODES "node 2 parent 1\nname 70616E00\nsteps 5\ndone\n"));

    /* a run that is refused; one that would not end */
    BURN(DIVIDES);
    lend_right();
    EXPECT(prints(100000, NODES "steps 2\nrefused 21\n"));
    BURN(CIRCLES);
    lend_right();
    EXPECT(prints(100000, NODES "steps 100000\nrefused 28\n"));

    /* a ROM that is refused is not run */
    BURN(EMPTIES);
    lend_right();
    EXPECT(prints(100000, "refused 31\n"));
    EXPECT(holds(&marks, "", 0));
    EXPECT(untouched(&work) && untouched(&store));
    rom[3] ^= 1;
    lend_right();
    EXPECT(prints(100000, "refused 5\n"));
    EXPECT(untouched(&marks) && untouched(&work) && untouched(&store));
    rom_len = 0;
    lend_right();
    EXPECT(prints(100000, "refused 1\n"));
    EXPECT(untouched(&marks) && untouched(&work) && untouched(&store));
    lend_right();
    EXPECT(fcode_list(NULL, 0, at(&marks), marks.size, at(&work), work.size, at(&store), store.size, 1, at(&text), text.size) == 10);
    EXPECT(reads(&text, "refused 1\n", 10));

    /* buffers of the wrong size, each alone, before anything else is said of the ROM */
    for (size_t off = 0; off <= 2; off += 2) {
        for (int which = 0; which < 3; which++) {
            size_t size[3] = {FCODE_MARKS_SIZE, FCODE_WORK_SIZE, FCODE_STORE_SIZE};
            size[which] += off - 1;
            lend_all(size[0], size[1], size[2], FCODE_TEXT_SIZE);
            EXPECT(prints(100000, "refused 6\n"));
            EXPECT(untouched(&marks) && untouched(&work) && untouched(&store));
        }
        BURN(SCALE);
        lend_all(FCODE_MARKS_SIZE, FCODE_WORK_SIZE, FCODE_STORE_SIZE, FCODE_TEXT_SIZE - 1 + off);
        EXPECT(list(100000) == 0);
        EXPECT(untouched(&marks) && untouched(&work) && untouched(&store) && untouched(&text));
    }
    EXPECT(fcode_list(NULL, 0, NULL, 0, NULL, 0, NULL, 0, 0, NULL, 0) == 0);
}

/* a board whose name and lanes are laid into work memory by c!, and number 3 by encode-int: no string lies in its ROM. Bytes from 100 of
 * work memory on, so that encode-int does not write over them */
#define STORED(byte, at) "\x10\0\0\0" byte "\x10\x20\0\0" at "\x75"
#define KEEPS                                                                                                                        \
    STORED("s", "\x64") STORED("c", "\x65") STORED("a", "\x66") STORED("l", "\x67") STORED("e", "\x68")                                 \
    "\x10\x20\0\0\x64\x10\0\0\0\x05\x02\x01"                                                                                         \
    STORED("l", "\x64") STORED("a", "\x65") STORED("n", "\x66") STORED("e", "\x67") STORED("s", "\x68")                                 \
    "\xA8\x01\x11\x10\x20\0\0\x64\x10\0\0\0\x05\x01\x10\0"
/* two times five bytes by three tokens each; a name by three; a number by two, its name by two, property, end0 */
#define KEEPS_STEPS "steps 39\n"

/* the header test of a ROM cut off behind so many bytes */
static uint32_t check_of(size_t n) { return fcode_check(rom, n); }

/* bytes two and four apart */
static void spreads(void) {
    static const uint8_t starts[] = {0xF1, 0xF2, 0xF3};
    for (size_t k = 0; k < sizeof starts; k++) {
        size_t spread = spread_by(starts[k]);
        int plain = spread == 1;

        /* every size: too short for the header, too short for the length, good, and with anything behind */
        BURN(SCALE);
        lay_apart(starts[k]);
        EXPECT(rom_len == 29 * spread + 1);
        for (size_t n = 0; n <= rom_len + 8; n++) {
            uint32_t why = check_of(n);
            EXPECT(why == (n < 7 * spread + 1 ? 1u : n < rom_len ? 4u : 0u));
            lend_right();
            EXPECT(fcode_screen(rom, n, at(&marks), marks.size) == why);
            EXPECT(why == 0 ? holds(&marks, heights, sizeof heights) : untouched(&marks));
        }
        /* a gap's byte is none of the program's, and each of the program's is in the sum */
        for (size_t i = 1; i < rom_len; i++) {
            uint8_t old = rom[i];
            rom[i] ^= 0xFF;
            uint32_t why = i % spread != 0 ? 0 : i == spread ? 3 : i / spread < 4 ? 5 : i / spread < 8 ? 4 : 5;
            EXPECT(check() == why);
            rom[i] = old;
        }
        rom[0] = 0xF0;
        EXPECT(check() == 2 && fcode_check(rom, 8) == 2 && fcode_check(rom, 7) == 1);

        /* the scale board's strings lie in its ROM: a run ends with 22 at device-name, and a ROM that is not spread runs on */
        BURN(SCALE);
        lay_apart(starts[k]);
        lend_right();
        EXPECT(run(100000) == (plain ? 0u : 22u));
        EXPECT(steps == (plain ? 7u : 1u));
        EXPECT(plain ? holds(&store, properties, sizeof properties - 1) : holds(&work, "", 0) && holds(&store, "", 0));
        lend_right();
        EXPECT(prints(100000, plain ? NODES "name 7363616C6500\nlanes 00000003\nsteps 7\ndone\n" : NODES "steps 1\nrefused 22\n"));
        EXPECT(holds(&marks, heights, sizeof heights));

        /* a board that has them in work memory runs to its end */
        BURN(KEEPS);
        lay_apart(starts[k]);
        lend_right();
        EXPECT(screen() == 0);
        lend_right();
        EXPECT(run(100000) == 0);
        EXPECT(steps == 39);
        EXPECT(holds(&store, properties, sizeof properties - 1));
        EXPECT(memcmp(at(&work), "\0\0\0\3", 5) == 0 && memcmp(at(&work) + 100, "lanes", 6) == 0);
        lend_right();
        EXPECT(prints(100000, NODES "name 7363616C6500\nlanes 00000003\n" KEEPS_STEPS "done\n"));

        /* as many bytes as a ROM may have: the gap behind the last byte is not needed, and a byte before it is */
        burn_noops(FCODE_ROM_MOST / spread);
        lay_apart(starts[k]);
        EXPECT(rom_len == FCODE_ROM_MOST - spread + 1);
        EXPECT(check() == 0 && check_of(FCODE_ROM_MOST) == 0 && check_of(rom_len - 1) == 4 && check_of(FCODE_ROM_MOST + 1) == 1);
        lend_right();
        EXPECT(screen() == 0);
        lend_right();
        EXPECT(run(100000) == 0);
        EXPECT(steps == FCODE_ROM_MOST / spread - 8);
    }
}

/* ROMs that end where no byte can be read: a call that reads behind what is lent does not come back from it */
static uint8_t *edge_of(size_t page) {
    uint8_t *low = mmap(NULL, FCODE_ROM_MOST + 2 * page, PROT_READ | PROT_WRITE, MAP_PRIVATE | MAP_ANONYMOUS, -1, 0);
    size_t most = (FCODE_ROM_MOST + page) / page * page;
    if (low == MAP_FAILED || mprotect(low + most, page, PROT_NONE) != 0) return NULL;
    return low + most;
}

static void edges(void) {
    static const uint8_t starts[] = {0xFD, 0xF1, 0xF2, 0xF3};
    uint8_t *edge = edge_of((size_t)sysconf(_SC_PAGESIZE));
    EXPECT(edge != NULL);
    if (edge == NULL) return;
    for (size_t k = 0; k < 2 * sizeof starts; k++) {
        if (k % 2 == 0) {
            BURN(KEEPS);
        } else {
            burn_noops(FCODE_ROM_MOST / spread_by(starts[k / 2]));
        }
        lay_apart(starts[k / 2]);
        uint32_t whole = k % 2 == 0 ? 39 : (uint32_t)(rom_len - 1) / spread_by(starts[k / 2]) + 1 - 8;
        const uint8_t *lent_rom = memcpy(edge - rom_len, rom, rom_len);
        EXPECT(fcode_check(lent_rom, rom_len) == 0);
        lend_right();
        EXPECT(fcode_screen(lent_rom, rom_len, at(&marks), marks.size) == 0);
        EXPECT(fcode_run(lent_rom, rom_len, at(&work), work.size, at(&store), store.size, 100000, &steps) == 0);
        EXPECT(steps == whole);
        lend_right();
        EXPECT(fcode_list(lent_rom, rom_len, at(&marks), marks.size, at(&work), work.size, at(&store), store.size, 100000, at(&text),
                          text.size) > 0);
        /* every short ROM, refused or not, ends there too */
        for (size_t n = 1; n < 70; n++) {
            const uint8_t *cut = memcpy(edge - n, rom, n);
            uint32_t why = fcode_check(cut, n);
            EXPECT(why == check_of(n));
            lend_right();
            EXPECT(fcode_screen(cut, n, at(&marks), marks.size) == why);
            EXPECT(fcode_run(cut, n, at(&work), work.size, at(&store), store.size, 100000, &steps) == why);
        }
    }
}

/* a hexadecimal digit's value, and two digits as a byte; -1 where there are none */
static int digit_at(const char *p) {
    static const char all[] = "0123456789ABCDEF";
    const char *found = *p == 0 ? NULL : strchr(all, *p);
    return found == NULL ? -1 : (int)(found - all);
}

static int byte_at(const char *p) { return digit_at(p) < 0 || digit_at(p + 1) < 0 ? -1 : 16 * digit_at(p) + digit_at(p + 1); }

/* the cases as tests/listings.py prints them: their count, and for each a ROM and a budget, the listing's lines, a dot */
static void cases(const char *name) {
    static char line[2 * sizeof rom + 100], lines[FCODE_TEXT_SIZE + 1];
    FILE *file = fopen(name, "r");
    unsigned long count = 0, all = 0;
    if (file != NULL && fgets(line, sizeof line, file) != NULL) all = strtoul(line, NULL, 10);
    EXPECT(all > 0);
    while (file != NULL && fgets(line, sizeof line, file) != NULL) {
        const char *p = line + (line[0] == '-');
        for (rom_len = 0; byte_at(p) >= 0 && rom_len < sizeof rom; p += 2) rom[rom_len++] = (uint8_t)byte_at(p);
        uint32_t budget = (uint32_t)strtoul(p, NULL, 10);
        lines[0] = 0;
        while (fgets(line, sizeof line, file) != NULL && strcmp(line, ".\n") != 0) strncat(lines, line, sizeof lines - 1 - strlen(lines));
        lend_right();
        int good_case = prints(budget, lines);
        if (!good_case) printf("case %lu prints \"%s\"\n", count, (const char *)at(&text));
        EXPECT(good_case);
        EXPECT(within(&marks) && within(&work) && within(&store));
        count++;
    }
    EXPECT(count == all);
}

int main(int words, char **word) {
    if (words != 2) {
        fprintf(stderr, "usage: host CASES, which tests/listings.py prints\n");
        return 2;
    }
    checks();
    sums();
    screens();
    longest();
    stacks();
    runs();
    lists();
    spreads();
    edges();
    cases(word[1]);
    printf("tests/host.c: %u as expected, %u not\n", good, bad);
    return bad != 0;
}
