/* Whether lent words are a sound state, read field by field: for the benchmarks, which compare the compiled calls with it. */
#ifndef PLAIN_SOUND_H
#define PLAIN_SOUND_H

#include <stdbool.h>
#include <stddef.h>
#include <stdint.h>

enum { LENGTH = 1760 };

/* ---- the rules of document 01 over the layout of docs/STATE.md, field by field: no mask of the code or of the definitions */

static bool exists(uint32_t id, uint32_t initialised, uint32_t count) { return initialised && id < count && id < 1020; }

static bool vcpu_sound(const uint32_t *w, uint32_t v, uint32_t initialised) {
    const uint32_t *b = w + 16 + 32 * v;
    if (b[13] != 0xffff || b[14] || b[15]) return false;
    if (b[16] >> 24 || (b[16] & 0xff) > 15) return false;
    for (uint32_t u = 0; u < v; u++)
        if (w[16 + 32 * u + 16] == b[16]) return false;
    for (int j = 27; j < 32; j++)
        if (b[j]) return false;
    if (!initialised) {
        for (int j = 0; j < 27; j++)
            if (j != 13 && j != 16 && b[j] != (j == 21 ? 2 : j == 22 ? 3 : 0)) return false;
        return true;
    }
    if (b[4] & 0xffff) return false;
    for (int j = 5; j < 13; j++)
        for (int k = 0; k < 4; k++)
            if ((b[j] >> (8 * k) & 255) % 8) return false;
    return b[17] <= 1 && b[18] <= 15 && b[19] <= 248 && b[19] % 8 == 0 && (b[20] == 0 || b[20] == 2)
        && 2 <= b[21] && b[21] <= 7 && 3 <= b[22] && b[22] <= 7 && b[25] <= 1 && b[26] <= 1;
}

static bool spi_sound(const uint32_t *w, uint32_t id, uint32_t initialised, uint32_t count) {
    const uint32_t *b = w + 256 + 16 * (id / 32);
    uint32_t i = id % 32, priority = b[5 + i / 4] >> (8 * (i % 4)) & 255, route = w[736 + id];
    if (exists(id, initialised, count)) return priority % 8 == 0 && route >> 24 == 0;
    for (int j = 0; j < 5; j++)
        if (b[j] >> i & 1) return false;
    return priority == 0 && (b[13 + i / 16] >> (i % 16) & 1) == 0 && route == 0;
}

static bool sound(const uint32_t *w, size_t length) {
    if (length != LENGTH) return false;
    uint32_t initialised = w[0], count = w[1], n = w[2];
    if (initialised > 1 || n > 8) return false;
    if (count && (count < 64 || count > 1024 || count % 32)) return false;
    if (initialised && (count == 0 || n == 0)) return false;
    if (w[3] > (initialised ? 3 : 0) || w[4] > (initialised ? 15 : 0)) return false;
    for (int k = 5; k < 16; k++)
        if (w[k]) return false;
    for (uint32_t v = 0; v < 8; v++) {
        if (v < n && !vcpu_sound(w, v, initialised)) return false;
        for (int j = 0; n <= v && j < 32; j++)
            if (w[16 + 32 * v + j]) return false;
    }
    for (uint32_t q = 1; q < 32; q++) {
        const uint32_t *b = w + 256 + 16 * q;
        if (b[13] >> 16 || b[14] >> 16 || b[15]) return false;
    }
    for (uint32_t id = 32; id < 1024; id++)
        if (!spi_sound(w, id, initialised, count)) return false;
    return true;
}

#endif
