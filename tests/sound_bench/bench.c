/* The soundness test against a reading of the rules field by field, and its time beside a plain loop over the same words. */
#include <stdbool.h>
#include <stddef.h>
#include <stdint.h>
#include <stdio.h>
#include <string.h>
#include <time.h>

#include "../plain_sound.h"
#include "../random_numbers.h"

enum { STATES = 300000, CHANGED = 3, ROUNDS = 600, CALLS = 2000 };

extern bool vgic_is_sound(const uint32_t *words, size_t length);

/* ---- random states, most of them sound */

static void draw(uint32_t *w) {
    memset(w, 0, LENGTH * sizeof *w);
    uint32_t initialised = next() % 4 != 0, n = next() % 9, count = next() % 8 == 0 ? 0 : next() % 3 == 0 ? 1024 : 64 + 32 * (next() % 31);
    if (initialised && next() % 16) {
        n = n ? n : 1;
        count = count ? count : 64;
    }
    w[0] = initialised, w[1] = count, w[2] = n;
    for (uint32_t v = 0; v < n; v++) {
        uint32_t *b = w + 16 + 32 * v;
        b[13] = 0xffff, b[16] = next() % 3 ? v : next() & 0xffff0f, b[21] = 2, b[22] = 3;
        if (!initialised) continue;
        for (int j = 0; j < 4; j++) b[j] = next();
        b[4] = next() & 0xffff0000;
        for (int j = 5; j < 13; j++) b[j] = next() & 0xf8f8f8f8;
        b[17] = next() & 1, b[18] = next() & 15, b[19] = next() & 0xf8, b[20] = next() & 2;
        b[21] = 2 + next() % 6, b[22] = 3 + next() % 5, b[23] = next(), b[24] = next(), b[25] = next() & 1, b[26] = next() & 1;
    }
    if (!initialised) return;
    w[3] = next() & 3, w[4] = next() & 15;
    for (uint32_t q = 1; q < count / 32; q++) {
        uint32_t *b = w + 256 + 16 * q;
        for (int j = 0; j < 5; j++) b[j] = next() & (q == 31 ? 0x0fffffff : 0xffffffff);
        for (int j = 5; j < 13; j++) b[j] = q == 31 && j == 12 ? 0 : next() & 0xf8f8f8f8;
        b[13] = next() & 0xffff, b[14] = next() & (q == 31 ? 0x0fff : 0xffff);
    }
    for (uint32_t id = 32; exists(id, initialised, count); id++) w[736 + id] = next() & 0xffffff;
}

static void disturb(uint32_t *w) {
    for (uint32_t times = next() % 4; times > 1; times--) {
        uint32_t k = next() % 3 ? next() % LENGTH : next() % 272;
        w[k] = next() % 2 ? w[k] ^ 1u << (next() % 32) : next() % 8;
    }
}

/* ---- comparing */

static long states[2], changes[2];

static bool agree(const uint32_t *w, size_t length, long *seen) {
    bool r = sound(w, length);
    seen[r]++;
    if (vgic_is_sound(w, length) == r) return true;
    printf("DIFFERENT: the rules say %d, at count %u, %u vCPUs, initialised %u, length %zu\n", r, w[1], w[2], w[0], length);
    return false;
}

static bool compare(void) {
    static uint32_t w[LENGTH + 1];
    for (int i = 0; i < STATES; i++) {
        draw(w);
        disturb(w);
        if (!agree(w, next() % 64 ? LENGTH : LENGTH - 1 + 2 * (next() % 2), states)) return false;
    }
    for (int i = 0; i < CHANGED; i++) {
        do draw(w); while (!sound(w, LENGTH));
        for (int b = 0; b < 32 * LENGTH; b++) {
            w[b / 32] ^= 1u << b % 32;
            if (!agree(w, LENGTH, changes)) return false;
            w[b / 32] ^= 1u << b % 32;
        }
    }
    printf("random states compared: %d, %ld of them sound; none differ\n", STATES, states[1]);
    printf("single-bit changes of %d sound states compared: %ld, %ld of them sound; none differ\n", CHANGED, changes[0] + changes[1], changes[1]);
    return true;
}

/* ---- measuring */

static uint32_t device[LENGTH];
static volatile uint32_t sink;

static double now(void) {
    struct timespec t;
    clock_gettime(CLOCK_MONOTONIC, &t);
    return t.tv_sec * 1e9 + t.tv_nsec;
}

static uint32_t test(void) { return vgic_is_sound(device, LENGTH); }

__attribute__((noinline)) static uint32_t join(const uint32_t *w, size_t length) {
    uint32_t r = 0;
    for (size_t i = 0; i < length; i++) r |= w[i];
    return r;
}

static uint32_t loop(void) { return join(device, LENGTH); }

/* the best of ROUNDS, each of CALLS calls */
static double best(const char *name, uint32_t (*f)(void)) {
    double least = 1e18;
    for (int r = 0; r < ROUNDS; r++) {
        double t = now();
        for (int i = 0; i < CALLS; i++) {
            sink = f();
            __asm__ volatile("" ::"r"(device) : "memory");
        }
        t = (now() - t) / CALLS;
        if (t < least) least = t;
    }
    printf("%-34s %7.1f ns\n", name, least);
    return least;
}

int main(void) {
    if (!compare()) return 1;
    device[0] = 1, device[1] = 1024, device[2] = 8;
    for (uint32_t v = 0; v < 8; v++) {
        uint32_t *b = device + 16 + 32 * v;
        b[13] = 0xffff, b[16] = v, b[21] = 2, b[22] = 3;
    }
    if (!vgic_is_sound(device, LENGTH)) return 1;
    double t = best("is_sound, count 1024, 8 vCPUs", test), c = best("plain C loop over the same words", loop);
    printf("ratio                              %7.2f\n", t / c);
    return 0;
}
