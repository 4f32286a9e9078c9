/* Save and restore against a plain version of document 01, and their time beside it. */
#include <stdbool.h>
#include <stddef.h>
#include <stdint.h>
#include <stdio.h>
#include <string.h>
#include <time.h>

#include "../random_states.h"

enum { STATES = 50000, DAMAGES = 4, MOST = 8210, ROOM = MOST + 8, ROUNDS = 1000, CALLS = 50 };

extern void vgic_save(const uint32_t *s, size_t n, uint8_t *buf, size_t length, int64_t *result);
extern int64_t vgic_restore(uint32_t *s, size_t n, const uint8_t *bytes, size_t length);

static int64_t library_save(const uint32_t *s, uint8_t *buf, size_t length) {
    int64_t result;
    vgic_save(s, LENGTH, buf, length, &result);
    return result;
}

/* ---- the plain version: the values one after another as document 01 lists them, over the layout of docs/STATE.md */

static uint8_t *put(uint8_t *p, uint32_t x) {
    for (; x >= 128; x >>= 7) *p++ = (uint8_t)(x | 128);
    *p++ = (uint8_t)x;
    return p;
}

/* sixteen edge flags, each at the upper of two bits */
static uint32_t shown_edges(uint32_t flags) {
    uint32_t x = 0;
    for (int i = 0; i < 16; i++) x |= (flags >> i & 1) << (2 * i + 1);
    return x;
}

static size_t write_record(const uint32_t *w, uint8_t *out) {
    uint8_t *p = put(put(put(out, 1), w[1]), w[2]);
    for (uint32_t v = 0; v < w[2]; v++) p = put(p, block_word(w, v, 16));
    p = put(put(p, 0x50 + w[3]), w[4]);
    for (uint32_t q = 1; q < w[1] / 32; q++) {
        const uint32_t *b = w + 256 + 16 * q;
        for (int k = 0; k < 13; k++) p = put(p, b[k]);
        p = put(put(p, shown_edges(b[13])), shown_edges(b[14]));
    }
    for (uint32_t id = 32; id < w[1] && id < 1020; id++) p = put(p, w[736 + id]);
    for (uint32_t v = 0; v < w[2]; v++) {
        const uint32_t *b = w + 16 + 32 * v;
        p = put(p, b[18]);
        for (int k = 0; k < 13; k++) p = put(p, b[k]);
        for (int k = 19; k < 27; k++) p = put(p, k == 20 ? 0x400 + b[k] : b[k]);
    }
    return (size_t)(p - out);
}

/* 28, or the record at the front of the buffer */
static int64_t save_rules(const uint32_t *w, uint8_t *buf, size_t length) {
    uint8_t record[MOST];
    size_t n = write_record(w, record);
    if (length < n) return -28;
    memcpy(buf, record, n);
    return (int64_t)n;
}

/* what is left of a record, and the refusal of the first number that faults */
struct reader { const uint8_t *at, *end; int64_t fault; };

static bool fault(struct reader *r, int64_t errno_) { return r->fault = errno_, false; }

static bool get(struct reader *r, uint32_t *x) {
    uint64_t value = 0;
    for (int shift = 0; shift < 35 && r->at < r->end; shift += 7) {
        uint8_t byte = *r->at++;
        value |= (uint64_t)(byte & 127) << shift;
        if (byte >= 128) continue;
        if ((shift && byte == 0) || value > UINT32_MAX) break;
        *x = (uint32_t)value;
        return true;
    }
    return fault(r, -74);
}

static bool same_number(struct reader *r, uint32_t wanted) {
    uint32_t x;
    return get(r, &x) && (x == wanted || fault(r, -22));
}

/* a number from `base` on, with no bit above it outside the mask */
static bool masked(struct reader *r, uint32_t *word, uint32_t base, uint32_t mask) {
    uint32_t x;
    if (!get(r, &x)) return false;
    if (x < base || ((x - base) & ~mask)) return fault(r, -22);
    *word = x - base;
    return true;
}

static bool binary_point(struct reader *r, uint32_t *word, uint32_t least) {
    return get(r, word) && ((least <= *word && *word <= 7) || fault(r, -22));
}

static bool edges(struct reader *r, uint32_t *word, uint32_t existing) {
    uint32_t x, flags = 0;
    if (!masked(r, &x, 0, shown_edges(existing))) return false;
    for (int i = 0; i < 16; i++) flags |= (x >> (2 * i + 1) & 1) << i;
    *word = flags;
    return true;
}

/* five words of flags and eight of priorities */
static bool read_bank(struct reader *r, uint32_t *b, uint32_t existing, uint32_t lines) {
    for (int k = 0; k < 5; k++)
        if (!masked(r, &b[k], 0, k == 4 ? lines : existing)) return false;
    for (int k = 0; k < 8; k++)
        if (!masked(r, &b[5 + k], 0, existing >> (4 * k) & 1 ? 0xf8f8f8f8 : 0)) return false;
    return true;
}

static bool read_vcpu(struct reader *r, uint32_t *b) {
    return masked(r, &b[18], 0, 15) && read_bank(r, b, 0xffffffff, 0xffff0000) && masked(r, &b[19], 0, 0xf8)
        && masked(r, &b[20], 0x400, 2) && binary_point(r, &b[21], 2) && binary_point(r, &b[22], 3)
        && masked(r, &b[23], 0, 0xffffffff) && masked(r, &b[24], 0, 0xffffffff) && masked(r, &b[25], 0, 1) && masked(r, &b[26], 0, 1);
}

static bool read_record(struct reader *r, uint32_t *w) {
    if (!same_number(r, 1) || !same_number(r, w[1]) || !same_number(r, w[2])) return false;
    for (uint32_t v = 0; v < w[2]; v++)
        if (!same_number(r, block_word(w, v, 16))) return false;
    if (!masked(r, &w[3], 0x50, 3) || !masked(r, &w[4], 0, 15)) return false;
    for (uint32_t q = 1; q < w[1] / 32; q++) {
        uint32_t *b = w + 256 + 16 * q, existing = q == 31 ? 0x0fffffff : 0xffffffff;
        if (!read_bank(r, b, existing, existing) || !edges(r, &b[13], existing & 0xffff) || !edges(r, &b[14], existing >> 16)) return false;
    }
    for (uint32_t id = 32; id < w[1] && id < 1020; id++)
        if (!masked(r, &w[736 + id], 0, 0xffffff)) return false;
    for (uint32_t v = 0; v < w[2]; v++)
        if (!read_vcpu(r, w + 16 + 32 * v)) return false;
    return true;
}

/* 74 or 22, or the words of a record, read into a copy first */
static int64_t restore_rules(uint32_t *w, const uint8_t *bytes, size_t length) {
    uint32_t copy[LENGTH];
    struct reader r = { bytes, bytes + length, 0 };
    memcpy(copy, w, sizeof copy);
    if (!read_record(&r, copy)) return r.fault;
    if (r.at < r.end) return -74;
    memcpy(w, copy, sizeof copy);
    return 0;
}

static bool stopped(const uint32_t *w) {
    for (uint32_t v = 0; v < w[2]; v++)
        if (block_word(w, v, 17)) return false;
    return w[0] == 1;
}

/* the fresh device of the same count and affinities */
static void make_fresh(uint32_t *t, const uint32_t *w) {
    memset(t, 0, LENGTH * sizeof *t);
    t[0] = 1, t[1] = w[1], t[2] = w[2];
    for (uint32_t v = 0; v < w[2]; v++) {
        uint32_t *b = t + 16 + 32 * v;
        b[13] = 0xffff, b[16] = block_word(w, v, 16), b[21] = 2, b[22] = 3;
    }
}

static int64_t plain_save(const uint32_t *w, uint8_t *buf, size_t length) {
    return !sound(w, LENGTH) ? -14 : !stopped(w) ? -16 : save_rules(w, buf, length);
}

static int64_t plain_restore(uint32_t *w, const uint8_t *bytes, size_t length) {
    uint32_t t[LENGTH];
    if (!sound(w, LENGTH)) return -14;
    if (!stopped(w)) return -16;
    make_fresh(t, w);
    return memcmp(t, w, sizeof t) ? -17 : restore_rules(w, bytes, length);
}

/* ---- comparing */

static long answers[4][80];
enum { SAVED, WHOLE, DAMAGED, UNFRESH };

static bool differ(const char *what, int64_t a, int64_t b) {
    return printf("DIFFERENT: %s: the library says %lld, the plain version %lld\n", what, (long long)a, (long long)b), false;
}

static bool save_same(const uint32_t *w, uint8_t *a, uint8_t *b, size_t length) {
    for (size_t i = 0; i < ROOM; i++) a[i] = b[i] = (uint8_t)next();
    int64_t x = library_save(w, a, length), y = plain_save(w, b, length);
    answers[SAVED][y < 0 ? -y : 0]++;
    return x == y && memcmp(a, b, ROOM) == 0 ? true : differ("save", x, y);
}

static bool restore_same(const uint32_t *target, const uint8_t *bytes, size_t length, int kind) {
    static uint32_t s[LENGTH], t[LENGTH];
    memcpy(s, target, sizeof s);
    memcpy(t, target, sizeof t);
    int64_t x = vgic_restore(s, LENGTH, bytes, length), y = plain_restore(t, bytes, length);
    answers[kind][-y]++;
    return x == y && memcmp(s, t, sizeof s) == 0 ? true : differ("restore", x, y);
}

/* changes a byte or a bit, cuts, or appends; most often once */
static size_t damage(uint8_t *record, size_t n) {
    do switch (next() % 5) {
        case 0: if (n) record[next() % n] = (uint8_t)next(); break;
        case 1: if (n) record[next() % n] ^= (uint8_t)(1 << next() % 8); break;
        case 2: if (n) record[next() % n] |= 128; break;
        case 3: n = n ? next() % n : 0; break;
        default: if (n < ROOM) record[n++] = (uint8_t)next();
    } while (!mostly(4));
    return n;
}

/* a state's record saved, restored whole and damaged into the fresh device of its set-up, and whole into the device itself */
static bool state_same(uint32_t *w) {
    static uint8_t a[ROOM], b[ROOM], edited[ROOM];
    static uint32_t target[LENGTH];
    uint8_t record[MOST];
    size_t n = write_record(w, record);
    if (!save_same(w, a, b, mostly(4) ? n + next() % 8 : next() % n)) return false;
    make_fresh(target, w);
    if (!restore_same(target, record, n, WHOLE) || !restore_same(w, record, n, UNFRESH)) return false;
    for (int k = 0; k < DAMAGES; k++) {
        memcpy(edited, record, n);
        if (!restore_same(target, edited, damage(edited, n), DAMAGED)) return false;
    }
    return true;
}

static bool compare(void) {
    static uint32_t w[LENGTH];
    for (int i = 0; i < STATES; i++) {
        draw(w);
        for (uint32_t v = 0; v < w[2] && mostly(16); v++) w[16 + 32 * v + 17] = 0;
        if (!state_same(w)) return false;
    }
    static const char *const names[4] = { "save", "restore of a whole record into a fresh device", "of a damaged one", "into the device itself" };
    printf("random sound states: %d; none differ\n", STATES);
    for (int k = 0; k < 4; k++) {
        printf("%s:", names[k]);
        for (int e = 0; e < 80; e++)
            if (answers[k][e]) printf(e ? " %ld refused with -%d," : " %ld done,", answers[k][e], e);
        putchar('\n');
    }
    return true;
}

/* ---- measuring */

enum { LIBRARY, FLOOR, RULES, FULL, FUNCTIONS, ROWS = 8 };

/* a device and its record; a fresh device of the same set-up; the same device with a vCPU running; and the best times */
struct row {
    _Alignas(64) uint32_t state[LENGTH], fresh[LENGTH], running[LENGTH];
    uint8_t record[MOST];
    size_t length;
    bool restores;
    double least[FUNCTIONS], reset;
};

static struct row rows[ROWS];
static uint32_t target[LENGTH];
static uint8_t buffer[ROOM];
static volatile int64_t sink;

static double now(void) {
    struct timespec t;
    clock_gettime(CLOCK_MONOTONIC, &t);
    return t.tv_sec * 1e9 + t.tv_nsec;
}

static int64_t call(const struct row *r, int f) {
    if (!r->restores) switch (f) {
        case LIBRARY: return library_save(r->state, buffer, ROOM);
        case FLOOR: return library_save(r->running, buffer, ROOM);
        case RULES: return save_rules(r->state, buffer, ROOM);
        default: return plain_save(r->state, buffer, ROOM);
    }
    memcpy(target, f == FLOOR ? r->running : r->fresh, sizeof target);
    switch (f) {
    case LIBRARY: case FLOOR: return vgic_restore(target, LENGTH, r->record, r->length);
    case RULES: return restore_rules(target, r->record, r->length);
    case FULL: return plain_restore(target, r->record, r->length);
    default: return 0;
    }
}

/* count 64 and one vCPU, or 1024 and eight; fresh, or a random state */
static void prepare(struct row *r, bool large, bool random) {
    do draw(r->state);
    while (r->state[1] != (large ? 1024 : 64) || r->state[2] != (large ? 8 : 1));
    make_fresh(r->fresh, r->state);
    if (!random) memcpy(r->state, r->fresh, sizeof r->state);
    for (uint32_t v = 0; v < r->state[2]; v++) r->state[16 + 32 * v + 17] = 0;
    memcpy(r->running, r->state, sizeof r->running);
    r->running[16 + 17] = 1;
    r->length = write_record(r->state, r->record);
}

static bool prepare_rows(void) {
    for (int i = 0; i < ROWS; i++) {
        struct row *r = &rows[i];
        r->restores = i >= ROWS / 2;
        if (r->restores) {
            *r = rows[i - ROWS / 2];
            r->restores = true;
        } else prepare(r, i & 2, i & 1);
        int64_t wanted = r->restores ? 0 : (int64_t)r->length;
        if (call(r, LIBRARY) != wanted || call(r, FLOOR) != -16 || call(r, RULES) != wanted || call(r, FULL) != wanted) return printf("WRONG: row %d\n", i), false;
        for (int f = 0; f < FUNCTIONS; f++) r->least[f] = 1e18;
        r->reset = r->restores ? 1e18 : 0;
    }
    return true;
}

static double time_of(const struct row *r, int f) {
    double t = now();
    for (int i = 0; i < CALLS; i++) {
        sink = call(r, f);
        __asm__ volatile("" ::: "memory");
    }
    return (now() - t) / CALLS;
}

/* the best of ROUNDS, each of CALLS calls of every function of every row; of a restore without the copying of its target */
static void measure(void) {
    for (int round = 0; round < ROUNDS; round++)
        for (int i = 0; i < ROWS; i++) {
            struct row *r = &rows[i];
            for (int f = 0; f < FUNCTIONS; f++) {
                double t = time_of(r, f);
                if (t < r->least[f]) r->least[f] = t;
            }
            double t = r->restores ? time_of(r, FUNCTIONS) : 0;
            if (t < r->reset) r->reset = t;
        }
}

static void print_table(void) {
    static const char *const names[4] = { "64, one vCPU, fresh", "64, one vCPU, random", "1024, eight vCPUs, fresh", "1024, eight vCPUs, random" };
    printf("\nns, the best of %d rounds of %d calls\n", ROUNDS, CALLS);
    printf("%-36s %6s %10s %12s %9s %9s %9s %9s %9s\n", "", "bytes", "rest/rules", "library/whole", "library", "floor", "rest", "C, rules", "C, whole");
    for (int i = 0; i < ROWS; i++) {
        const struct row *r = &rows[i];
        double t[FUNCTIONS];
        for (int f = 0; f < FUNCTIONS; f++) t[f] = r->least[f] - r->reset;
        double rest = t[LIBRARY] - t[FLOOR];
        printf("%-8s %-27s %6zu %10.2f %12.2f %9.1f %9.1f %9.1f %9.1f %9.1f\n", r->restores ? "restore" : "save", names[i % 4], r->length, rest / t[RULES], t[LIBRARY] / t[FULL], t[LIBRARY], t[FLOOR], rest, t[RULES], t[FULL]);
    }
    printf("floor: the call refused with -16 after its soundness test; rest: library - floor\n");
    printf("C, rules: the plain version without the tests of the state; C, whole: with them\n");
}

int main(void) {
    if (!compare() || !prepare_rows()) return 1;
    measure();
    print_table();
    return 0;
}
