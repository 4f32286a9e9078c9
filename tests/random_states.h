/* Random sound states for the benchmarks. */
#ifndef RANDOM_STATES_H
#define RANDOM_STATES_H

#include <string.h>

#include "plain_sound.h"
#include "random_numbers.h"

/* words of a bank, which are bit flags of 32 interrupts */
enum { GROUP, ENABLED, LATCH, ACTIVE, LINE };

static uint32_t block_word(const uint32_t *w, uint32_t v, uint32_t k) { return w[16 + 32 * v + k]; }

/* true but for once in `n` times */
static bool mostly(uint32_t n) { return next() % n != 0; }

/* flags of 32 interrupts, of which one in 32, a quarter, half, three quarters or all are set */
static uint32_t flags(uint32_t density) {
    switch (density) {
    case 0: return next() & next() & next() & next() & next();
    case 1: return next() & next();
    case 2: return next();
    case 3: return next() | next();
    default: return 0xffffffff;
    }
}

/* the densities of the flags of a bank, the bits that its priorities may have and those that all have, drawn once for a state */
struct kind { uint32_t density[5], priorities, all; };

static struct kind draw_kind(void) {
    static const uint32_t bits[4] = { 0xf8f8f8f8, 0x80808080, 0x18181818, 0xf0f0f0f0 };
    struct kind k = { .priorities = bits[next() % 4], .all = mostly(2) ? (next() & 0xf8) * 0x01010101 : 0 };
    for (int j = 0; j < 5; j++) k.density[j] = next() % 5;
    if (mostly(8)) k.density[ACTIVE] = next() % 3;
    return k;
}

static void draw_bank(uint32_t *b, const struct kind *k, uint32_t existing) {
    for (int j = 0; j < 5; j++) b[j] = flags(k->density[j]) & existing;
    for (int j = 5; j < 13; j++) b[j] = existing >> (4 * (j - 5)) & 1 ? (next() & k->priorities) | k->all : 0;
}

static void draw_vcpu(uint32_t *b, const struct kind *k, uint32_t aff0) {
    draw_bank(b, k, 0xffffffff);
    b[4] &= 0xffff0000;
    b[13] = 0xffff, b[16] = (mostly(2) ? 0 : next() & 0xffff00) | aff0;
    b[17] = mostly(16), b[18] = next() & 15, b[19] = mostly(4) ? 0xf8 : next() & 0xf8, b[20] = next() & 2;
    b[21] = 2 + next() % 6, b[22] = 3 + next() % 5;
    b[23] = mostly(2) ? 0 : next() << next() % 32, b[24] = mostly(2) ? 0 : next() << next() % 32;
    b[25] = mostly(8), b[26] = mostly(8);
}

/* count 64, 96 or 1024, and 1 to 8 vCPUs; a route is most often one of the affinities */
static void draw(uint32_t *w) {
    static const uint32_t counts[3] = { 64, 96, 1024 };
    memset(w, 0, LENGTH * sizeof *w);
    struct kind k = draw_kind();
    uint32_t turn = next() % 16, n = 1 + next() % 8;
    w[0] = 1, w[1] = counts[next() % 3], w[2] = n, w[3] = mostly(4) ? 3 : next() & 3, w[4] = next() & 15;
    for (uint32_t v = 0; v < n; v++) draw_vcpu(w + 16 + 32 * v, &k, v ^ turn);
    for (uint32_t q = 1; q < w[1] / 32; q++) {
        uint32_t *b = w + 256 + 16 * q;
        draw_bank(b, &k, q == 31 ? 0x0fffffff : 0xffffffff);
        b[13] = next() & 0xffff, b[14] = next() & (q == 31 ? 0x0fff : 0xffff);
    }
    for (uint32_t id = 32; exists(id, 1, w[1]); id++) w[736 + id] = mostly(4) ? block_word(w, next() % n, 16) : next() & 0xffffff;
}

#endif
