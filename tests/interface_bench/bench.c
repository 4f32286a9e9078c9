/* The CPU interface's calls against a plain model of document 01, and their time beside it. */
#include <stdbool.h>
#include <stddef.h>
#include <stdint.h>
#include <stdio.h>
#include <string.h>
#include <time.h>

#include "../random_states.h"

enum { STATES = 100000, CALLS_EACH = 9, ROUNDS = 2000, CALLS = 100, NONE = 1023 };

enum { IAR0 = 0xc640, EOIR0 = 0xc641, HPPIR0 = 0xc642, DIR = 0xc659, RPR = 0xc65b, IAR1 = 0xc660, EOIR1 = 0xc661, HPPIR1 = 0xc662 };

extern int64_t vgic_query_signal(const uint32_t *s, size_t n, size_t v);
extern int64_t vgic_read_system(uint32_t *s, size_t n, size_t v, uint64_t encoding);
extern int64_t vgic_write_system(uint32_t *s, size_t n, size_t v, uint64_t encoding, uint64_t value);

/* ---- the plain model: document 01 over the layout of docs/STATE.md, field by field and interrupt by interrupt */

static uint32_t bank_of(uint32_t v, uint32_t id) { return id < 32 ? 16 + 32 * v : 256 + 16 * (id / 32); }

static bool flag(const uint32_t *w, uint32_t v, uint32_t id, uint32_t field) { return w[bank_of(v, id) + field] >> (id % 32) & 1; }

static void set_flag(uint32_t *w, uint32_t v, uint32_t id, uint32_t field, bool on) {
    uint32_t *word = &w[bank_of(v, id) + field], bit = 1u << (id % 32);
    *word = on ? *word | bit : *word & ~bit;
}

static bool edge(const uint32_t *w, uint32_t v, uint32_t id) { return w[bank_of(v, id) + 13 + id % 32 / 16] >> (id % 16) & 1; }

static uint32_t priority(const uint32_t *w, uint32_t v, uint32_t id) { return w[bank_of(v, id) + 5 + id % 32 / 4] >> (8 * (id % 4)) & 255; }

static bool pending(const uint32_t *w, uint32_t v, uint32_t id) { return flag(w, v, id, LATCH) || (!edge(w, v, id) && flag(w, v, id, LINE)); }

static bool candidate(const uint32_t *w, uint32_t v, uint32_t id) {
    if (!exists(id, w[0], w[1])) return false;
    if (id >= 32 && w[736 + id] != block_word(w, v, 16)) return false;
    if (!pending(w, v, id) || !flag(w, v, id, ENABLED) || flag(w, v, id, ACTIVE)) return false;
    uint32_t g = flag(w, v, id, GROUP);
    return (w[3] >> g & 1) && block_word(w, v, 25 + g);
}

/* the least ID among the candidates of least priority, or NONE */
static uint32_t best(const uint32_t *w, uint32_t v) {
    uint32_t found = NONE, least = 256;
    for (uint32_t id = 0; id < 1024; id++)
        if (candidate(w, v, id) && priority(w, v, id) < least) {
            found = id;
            least = priority(w, v, id);
        }
    return found;
}

static uint32_t group_priority(const uint32_t *w, uint32_t v, uint32_t g, uint32_t p) {
    uint32_t cleared = g ? block_word(w, v, 22) : block_word(w, v, 21) + 1;
    for (uint32_t k = 0; k < cleared; k++) p &= ~(1u << k);
    return p;
}

static bool has_level(const uint32_t *w, uint32_t v, uint32_t g, uint32_t level) { return level < 32 && (block_word(w, v, 23 + g) >> level & 1); }

static uint32_t running_level(const uint32_t *w, uint32_t v) {
    uint32_t level = 0;
    while (level < 32 && !has_level(w, v, 0, level) && !has_level(w, v, 1, level)) level++;
    return level;
}

static bool is_given(const uint32_t *w, uint32_t v, uint32_t g, uint32_t id) {
    if (id == NONE || flag(w, v, id, GROUP) != g) return false;
    uint32_t p = priority(w, v, id), level = running_level(w, v);
    return p < block_word(w, v, 19) && (level == 32 || group_priority(w, v, g, p) < 8 * level);
}

static int64_t signal_of(const uint32_t *w, uint32_t v) {
    uint32_t id = best(w, v);
    return is_given(w, v, 1, id) ? 1 : is_given(w, v, 0, id) ? 2 : 0;
}

static int64_t acknowledge(uint32_t *w, uint32_t v, uint32_t g) {
    uint32_t id = best(w, v);
    if (!is_given(w, v, g, id)) return NONE;
    uint32_t level = group_priority(w, v, g, priority(w, v, id)) / 8;
    if (has_level(w, v, g, level)) return -5;
    set_flag(w, v, id, ACTIVE, true);
    set_flag(w, v, id, LATCH, false);
    w[16 + 32 * v + 23 + g] |= 1u << level;
    return id;
}

static int64_t highest_pending(const uint32_t *w, uint32_t v, uint32_t g) {
    uint32_t id = best(w, v);
    return id != NONE && flag(w, v, id, GROUP) == g ? id : NONE;
}

static int64_t running_priority(const uint32_t *w, uint32_t v) {
    uint32_t level = running_level(w, v);
    return level < 32 ? 8 * level : 255;
}

static int64_t end(uint32_t *w, uint32_t v, uint32_t g, uint32_t id) {
    uint32_t level = running_level(w, v);
    if (!exists(id, w[0], w[1]) || !has_level(w, v, g, level)) return 0;
    w[16 + 32 * v + 23 + g] &= ~(1u << level);
    if (block_word(w, v, 20) == 0) set_flag(w, v, id, ACTIVE, false);
    return 0;
}

static int64_t deactivate(uint32_t *w, uint32_t v, uint32_t id) {
    if (exists(id, w[0], w[1]) && block_word(w, v, 20) == 2) set_flag(w, v, id, ACTIVE, false);
    return 0;
}

/* 14 not sound; 16 not initialised; 22 no such vCPU; 1 a guest's access while it does not run */
static int64_t refusal(const uint32_t *w, size_t v, bool by_guest) {
    if (!sound(w, LENGTH)) return -14;
    if (w[0] != 1) return -16;
    if (v >= w[2]) return -22;
    return by_guest && block_word(w, v, 17) != 1 ? -1 : 0;
}

static int64_t plain_query(const uint32_t *w, size_t v) {
    int64_t r = refusal(w, v, false);
    return r ? r : signal_of(w, v);
}

static int64_t plain_read(uint32_t *w, size_t v, uint64_t encoding) {
    int64_t r = refusal(w, v, true);
    if (r) return r;
    switch (encoding) {
    case IAR0: return acknowledge(w, v, 0);
    case IAR1: return acknowledge(w, v, 1);
    case HPPIR0: return highest_pending(w, v, 0);
    case HPPIR1: return highest_pending(w, v, 1);
    case RPR: return running_priority(w, v);
    default: return -6;
    }
}

static int64_t plain_write(uint32_t *w, size_t v, uint64_t encoding, uint64_t value) {
    int64_t r = refusal(w, v, true);
    if (r) return r;
    switch (encoding) {
    case EOIR0: return end(w, v, 0, value & 0xffffff);
    case EOIR1: return end(w, v, 1, value & 0xffffff);
    case DIR: return deactivate(w, v, value & 0xffffff);
    default: return -6;
    }
}

/* ---- comparing */

static long signals[3], reads, given, ends, ended, drops, dropped, refused, eio;

/* an ID to end: most often the last one given, else any near the existing ones, or any; with bits that are not the ID's */
static uint64_t draw_end(uint32_t last) {
    uint64_t id = last != NONE && mostly(4) ? last : mostly(8) ? next() % 1040 : next() & 0xffffff;
    return id | (mostly(2) ? 0 : (uint64_t)next() << 24);
}

/* what a call answered, and whether it changed a word */
static void tally(int call, int64_t answer, bool changed) {
    refused += answer < 0, eio += answer == -5;
    if (answer < 0) return;
    if (call == 0) signals[answer]++;
    if (call == 1 || call == 2) reads++, given += answer != NONE;
    if (call == 6 || call == 7) ends++, ended += changed;
    if (call == 8) drops++, dropped += changed;
}

/* makes a call on both, and compares the answers and the words */
static bool same(uint32_t *w, uint32_t *x, size_t v, int call, uint32_t *last) {
    static const uint64_t encodings[CALLS_EACH] = { 0, IAR0, IAR1, HPPIR0, HPPIR1, RPR, EOIR0, EOIR1, DIR };
    static uint32_t before[LENGTH];
    uint64_t e = encodings[call], value = call > 5 ? draw_end(*last) : 0;
    memcpy(before, w, sizeof before);
    int64_t a = call == 0 ? vgic_query_signal(w, LENGTH, v) : call < 6 ? vgic_read_system(w, LENGTH, v, e) : vgic_write_system(w, LENGTH, v, e, value);
    int64_t b = call == 0 ? plain_query(x, v) : call < 6 ? plain_read(x, v, e) : plain_write(x, v, e, value);
    tally(call, b, memcmp(before, x, sizeof before) != 0);
    if ((call == 1 || call == 2) && b >= 0 && b != NONE) *last = b;
    if (a == b && memcmp(w, x, sizeof before) == 0) return true;
    printf("DIFFERENT: encoding %llx, value %llx, vCPU %zu: the library says %lld, the plain model %lld\n", (unsigned long long)e, (unsigned long long)value, v, (long long)a, (long long)b);
    for (int k = 0; k < LENGTH; k++)
        if (w[k] != x[k]) printf("word %d was %x: the library leaves %x, the plain model %x\n", k, before[k], w[k], x[k]);
    return false;
}

/* the nine calls in turn, from any of them on, on each state */
static bool compare(void) {
    static uint32_t w[LENGTH], x[LENGTH];
    for (int i = 0; i < STATES; i++) {
        draw(w);
        if (!sound(w, LENGTH)) return printf("a state is not sound\n"), false;
        memcpy(x, w, sizeof x);
        uint32_t v = mostly(32) ? next() % w[2] : w[2] + next() % 3, first = next() % CALLS_EACH, last = NONE;
        for (int c = 0; c < CALLS_EACH; c++)
            if (!same(w, x, v, (first + c) % CALLS_EACH, &last)) return false;
    }
    printf("random sound states: %d, calls compared: %d; none differ\n", STATES, STATES * CALLS_EACH);
    printf("signal queries: %ld gave 0, %ld gave 1, %ld gave 2\n", signals[0], signals[1], signals[2]);
    printf("IAR0 and IAR1: %ld read, %ld gave an interrupt, %ld refused with -5\n", reads, given, eio);
    printf("EOIR0 and EOIR1: %ld written, %ld changed a word; DIR: %ld written, %ld changed a word\n", ends, ended, drops, dropped);
    printf("refused for no such vCPU or one that does not run: %ld\n", refused);
    return true;
}

/* ---- measuring */

enum { VCPUS = 8, ASKED = 7, FUNCTIONS = 4, ROWS = 5 };

typedef int64_t Measured(void);

/* what is measured: a state at the start of a cache line, four functions on it, what all but the second answer, and their best times */
struct row { _Alignas(64) uint32_t state[LENGTH]; const char *name; Measured *const *functions; int64_t answer; double least[FUNCTIONS]; };

static uint32_t *device;
static volatile int64_t sink;

static double now(void) {
    struct timespec t;
    clock_gettime(CLOCK_MONOTONIC, &t);
    return t.tv_sec * 1e9 + t.tv_nsec;
}

/* count 1024 and eight vCPUs; all 1,020 interrupts of vCPU 7 enabled, of group 1, routed to it, of priority 0xA0; none pending */
static void prepare(uint32_t *w) {
    w[0] = 1, w[1] = 1024, w[2] = VCPUS, w[3] = 3;
    for (uint32_t v = 0; v < VCPUS; v++) {
        uint32_t *b = w + 16 + 32 * v;
        b[13] = 0xffff, b[16] = v, b[17] = 1, b[19] = 0xf8, b[21] = 2, b[22] = 3, b[25] = 1, b[26] = 1;
    }
    for (uint32_t id = 0; id < 1020; id++) {
        set_flag(w, ASKED, id, GROUP, true);
        set_flag(w, ASKED, id, ENABLED, true);
        w[bank_of(ASKED, id) + 5 + id % 32 / 4] |= 0xa0u << (8 * (id % 4));
        if (id >= 32) w[736 + id] = ASKED;
    }
}

static void latch(uint32_t *w, uint32_t first, uint32_t last) {
    for (uint32_t id = first; id <= last; id++) set_flag(w, ASKED, id, LATCH, true);
}

static int64_t query(void) { return vgic_query_signal(device, LENGTH, ASKED); }
static int64_t query_floor(void) { return vgic_query_signal(device, LENGTH, VCPUS); }
static int64_t query_rules(void) { return signal_of(device, ASKED); }
static int64_t query_whole(void) { return plain_query(device, ASKED); }

/* acknowledges 1019, ends it, and latches it again */
static int64_t pair(void) {
    int64_t id = vgic_read_system(device, LENGTH, ASKED, IAR1);
    vgic_write_system(device, LENGTH, ASKED, EOIR1, id);
    latch(device, 1019, 1019);
    return id;
}

static int64_t pair_floor(void) { return vgic_read_system(device, LENGTH, VCPUS, IAR1) + vgic_write_system(device, LENGTH, VCPUS, EOIR1, 1019); }

static int64_t pair_rules(void) {
    int64_t id = acknowledge(device, ASKED, 1);
    end(device, ASKED, 1, id);
    latch(device, 1019, 1019);
    return id;
}

static int64_t pair_whole(void) {
    int64_t id = plain_read(device, ASKED, IAR1);
    plain_write(device, ASKED, EOIR1, id);
    latch(device, 1019, 1019);
    return id;
}

static Measured *const queries[FUNCTIONS] = { query, query_floor, query_rules, query_whole };
static Measured *const pairs[FUNCTIONS] = { pair, pair_floor, pair_rules, pair_whole };

static struct row rows[ROWS] = {
    { .name = "(a) signal query, nothing pending", .functions = queries, .answer = 0 },
    { .name = "(b) signal query, one in the last word", .functions = queries, .answer = 1 },
    { .name = "(c) signal query, all 1,020", .functions = queries, .answer = 1 },
    { .name = "(d) signal query, ID 0 of priority 0", .functions = queries, .answer = 1 },
    { .name = "(b) acknowledge and end", .functions = pairs, .answer = 1019 },
};

/* the states; false where a function does not answer as it must */
static bool prepare_rows(void) {
    for (int i = 0; i < ROWS; i++) prepare(rows[i].state);
    latch(rows[1].state, 1019, 1019);
    latch(rows[2].state, 0, 1019);
    latch(rows[3].state, 0, 0);
    rows[3].state[bank_of(ASKED, 0) + 5] &= ~255u;
    latch(rows[4].state, 1019, 1019);
    for (int i = 0; i < ROWS; i++)
        for (int k = 0; k < FUNCTIONS; k++) {
            device = rows[i].state;
            int64_t answer = rows[i].functions[k]();
            if (k == 1 ? answer >= 0 : answer != rows[i].answer) return printf("WRONG: %s\n", rows[i].name), false;
            rows[i].least[k] = 1e18;
        }
    return true;
}

static double time_of(Measured *f) {
    double t = now();
    for (int i = 0; i < CALLS; i++) {
        sink = f();
        __asm__ volatile("" ::"r"(device) : "memory");
    }
    return (now() - t) / CALLS;
}

/* the best of ROUNDS, each of CALLS calls of every function of every row */
static void measure(void) {
    for (int r = 0; r < ROUNDS; r++)
        for (int i = 0; i < ROWS; i++)
            for (int k = 0; k < FUNCTIONS; k++) {
                device = rows[i].state;
                double t = time_of(rows[i].functions[k]);
                if (t < rows[i].least[k]) rows[i].least[k] = t;
            }
}

static void print_table(void) {
    printf("\nns, the best of %d rounds of %d calls; count 1024, eight vCPUs\n", ROUNDS, CALLS);
    printf("%-40s %9s %9s %9s %9s %9s\n", "", "library", "floor", "rest", "C, rules", "C, whole");
    for (int i = 0; i < ROWS; i++) {
        const double *t = rows[i].least;
        printf("%-40s %9.1f %9.1f %9.1f %9.1f %9.1f\n", rows[i].name, t[0], t[1], t[0] - t[1], t[2], t[3]);
    }
    printf("library: the call; floor: the same refused with -22 after its soundness test; rest: their difference\n");
    printf("C, rules: the plain model without refusals; C, whole: with its soundness test and refusals\n");
}

int main(void) {
    if (!compare() || !prepare_rows()) return 1;
    measure();
    print_table();
    return 0;
}
