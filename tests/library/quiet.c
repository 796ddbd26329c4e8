/* What ddr_quiet tells at each step of runs by chance: requests, rounds and replies that are taken, from fixed seeds.
 *
 *   quiet CONFIG         a line for each seed: the seed, the steps, in how many of them some rounds were quiet, the sum of
 *                        the numbers, and a digest of them all in their order
 *   quiet CONFIG SEED    a line for each step of one seed: the clock of channel 0 and the number
 *
 * tests/library/run compares the lines with quiet.expected, which the library printed before it was made faster. */
#include "ddr.h"

#include <inttypes.h>
#include <stdio.h>
#include <stdlib.h>

enum { SEEDS = 16, STEPS = 4000, PORTS = 2, CHANNELS = 2 };

static char text[1 << 16];
static size_t length;
static uint64_t chance;

/* A number below this one. */
static uint64_t below(uint64_t bound) {
    chance = chance * UINT64_C(6364136223846793005) + UINT64_C(1442695040888963407);
    return (chance >> 33) % bound;
}

static void must(int32_t code) {
    if (code == DDR_OK) return;
    fprintf(stderr, "quiet: code %d\n", code);
    exit(1);
}

/* A byte of one of some lines: two in each of two rows of two banks of two groups of each channel, or with a second rank of
 * that too. An address that the memory does not have is refused, in each library alike. */
static uint64_t address(void) {
    uint64_t at = 64 * below(2);
    at += 512 * below(2);
    at += 2048 * below(2);
    at += 8192 * below(2);
    at += 131072 * below(CHANNELS);
    at += 262144 * below(2);
    return at;
}

/* A read or a write of a byte. What is refused is left. */
static void submit(ddr_core *core) {
    uint64_t number;
    uint8_t byte = 1;
    uint32_t port = (uint32_t)below(PORTS);
    uint64_t at = address();
    if (below(2) == 0) {
        ddr_submit_read(core, port, at, 1, &number);
    } else {
        ddr_submit_write(core, port, at, &byte, 1, &number);
    }
}

static void rounds(ddr_core *core, uint64_t count) {
    uint64_t made;
    must(ddr_rounds(core, count, &made));
}

static uint64_t quiet(ddr_core *core) {
    uint64_t count;
    must(ddr_quiet(core, &count));
    return count;
}

static void release(ddr_core *core) {
    ddr_reply reply;
    uint8_t bytes[64];
    for (uint32_t port = 0; port < PORTS; port++) {
        while (ddr_next_reply(core, port, &reply, bytes, sizeof bytes) == DDR_OK) {
        }
    }
}

/* A step: of 16 so many are requests. */
static void step(ddr_core *core, uint64_t requests) {
    uint64_t chosen = below(16);
    if (chosen < requests) {
        submit(core);
    } else if (chosen < 10) {
        rounds(core, 1 + below(4));
    } else if (chosen < 12) {
        rounds(core, quiet(core));
    } else if (chosen < 13) {
        rounds(core, quiet(core) + 1);
    } else if (chosen < 14) {
        rounds(core, below(60));
    } else {
        release(core);
    }
}

/* The clock of channel 0. */
static uint64_t now(ddr_core *core) {
    uint64_t cycle;
    must(ddr_cycle(core, 0, &cycle));
    return cycle;
}

static void run(uint64_t seed, int all) {
    ddr_core core = DDR_CORE_INIT;
    uint64_t whole, some = 0, sum = 0, digest = UINT64_C(14695981039346656037), requests = 4;
    chance = seed;
    must(ddr_open(&core, text, length, NULL, 0, &whole));
    for (int nth = 0; nth < STEPS; nth++) {
        if (nth % 100 == 99) requests = below(4) * below(4);
        step(&core, requests);
        uint64_t count = quiet(&core);
        if (all) printf("%" PRIu64 " %" PRIu64 "\n", now(&core), count);
        some += count > 0;
        sum += count;
        digest = (digest ^ count) * UINT64_C(1099511628211);
    }
    if (!all) printf("%" PRIu64 " %d %" PRIu64 " %" PRIu64 " %016" PRIx64 "\n", seed, STEPS, some, sum, digest);
    must(ddr_close(&core));
}

int main(int count, char **words) {
    FILE *file = count < 2 ? NULL : fopen(words[1], "rb");
    if (file == NULL) {
        fprintf(stderr, "usage: quiet CONFIG [SEED]\n");
        return 2;
    }
    length = fread(text, 1, sizeof text, file);
    fclose(file);
    if (count > 2) {
        run(strtoull(words[2], NULL, 10), 1);
        return 0;
    }
    for (uint64_t seed = 0; seed < SEEDS; seed++) run(seed, 0);
    return 0;
}
