/* Makes the calls of libvgic.a that standard input names, a line each, and prints what the Python model xdrill prints for that line.
 * Lines are well-formed: tests/compare.py makes them. Beside xdrill's words:
 *   rrw V F OFF SIZE, wrw V F OFF SIZE VAL   a frame's accesses of any size
 *   words                                    every word of the state that is not zero
 *   poke AT WORD CALL                        CALL with one word of the state replaced; a refused call has the old word put back
 *   length N CALL                            CALL on a state of N words, at most GUARD more than there are
 *   swap                                     the calls that follow go to the other of two devices
 *   same                                     whether all words of the two devices are equal
 * The buffer that is lent to save holds random bytes; it and the record that is lent to restore end where the next byte can be neither read nor written.
 * A refused call that changes a word, a read that does (but of IAR, which acknowledges), a call that writes outside the state, or outside the record in the buffer, ends the run with status 1. */
#include <inttypes.h>
#include <stdbool.h>
#include <stddef.h>
#include <stdint.h>
#include <stdio.h>
#include <stdlib.h>
#include <string.h>
#include <sys/mman.h>

#include "random_numbers.h"

enum { WORDS = 1760, GUARD = 16, ALL = WORDS + 2 * GUARD, NUMBERS = 6, BYTES = 0x14000, LINE = 2 * BYTES };

extern int64_t vgic_make(uint32_t *s, size_t n);
extern int64_t vgic_add_vcpu(uint32_t *s, size_t n, uint32_t mpidr);
extern int64_t vgic_set_running(uint32_t *s, size_t n, size_t v, bool on);
extern int64_t vgic_read_distributor(const uint32_t *s, size_t n, size_t v, uint64_t offset, uint64_t size);
extern int64_t vgic_write_distributor(uint32_t *s, size_t n, size_t v, uint64_t offset, uint64_t size, uint64_t value);
extern int64_t vgic_read_frame(const uint32_t *s, size_t n, size_t v, size_t frame, uint64_t offset, uint64_t size);
extern int64_t vgic_write_frame(uint32_t *s, size_t n, size_t v, size_t frame, uint64_t offset, uint64_t size, uint64_t value);
extern int64_t vgic_read_system(uint32_t *s, size_t n, size_t v, uint64_t encoding);
extern int64_t vgic_write_system(uint32_t *s, size_t n, size_t v, uint64_t encoding, uint64_t value);
extern int64_t vgic_query_signal(const uint32_t *s, size_t n, size_t v);
extern int64_t vgic_change_line(uint32_t *s, size_t n, size_t v, size_t id, bool level);
extern int64_t vgic_get_attribute(const uint32_t *s, size_t n, uint64_t group, uint64_t attribute);
extern int64_t vgic_set_attribute(uint32_t *s, size_t n, uint64_t group, uint64_t attribute, uint64_t value);
extern void vgic_save(const uint32_t *s, size_t n, uint8_t *buf, size_t length, int64_t *result);
extern int64_t vgic_restore(uint32_t *s, size_t n, const uint8_t *bytes, size_t length);

/* the states of two devices, each between words that no call may write; the one that is called */
static uint32_t memories[2][ALL], before[ALL];
static uint32_t *memory = memories[0], *state = memories[0] + GUARD;

/* the last `lent_length` bytes, before a page that is not there, are lent to save and restore */
static uint8_t *bytes, *lent, bytes_before[BYTES];
static size_t lent_length;

static void fail(const char *why, const char *line) {
    fflush(stdout);
    fprintf(stderr, "driver: %s: %s\n", why, line);
    exit(1);
}

/* ---- bytes that are lent */

static void map_bytes(void) {
    bytes = mmap(NULL, 2 * BYTES, PROT_NONE, MAP_PRIVATE | MAP_ANONYMOUS, -1, 0);
    if (bytes == MAP_FAILED || mprotect(bytes, BYTES, PROT_READ | PROT_WRITE)) fail("no memory", "");
    lent = bytes + BYTES;
}

static void lend(size_t length) {
    if (length > BYTES) fail("too many bytes", "");
    lent_length = length;
    lent = bytes + BYTES - length;
}

/* a buffer of a length, random as what is before it */
static void lend_buffer(size_t length) {
    for (size_t i = 0; i < BYTES; i++) bytes[i] = (uint8_t)next();
    lend(length);
}

/* the bytes of a line: pairs of hex digits, or a point for none */
static void lend_record(const char *hex) {
    char pair[3] = "";
    lend(strcmp(hex, ".") == 0 ? 0 : strlen(hex) / 2);
    for (size_t i = 0; i < lent_length; i++) {
        memcpy(pair, hex + 2 * i, 2);
        lent[i] = (uint8_t)strtoul(pair, NULL, 16);
    }
}

/* whether no byte changed but for the first `filled` of those lent */
static bool bytes_kept(size_t filled) {
    size_t first = (size_t)(lent - bytes), kept = lent_length - filled;
    return filled <= lent_length && memcmp(bytes, bytes_before, first) == 0 && memcmp(lent + filled, bytes_before + first + filled, kept) == 0;
}

/* ---- the calls by their words */

typedef int64_t Call(uint32_t *s, size_t n, const uint64_t *a);

static int64_t new(uint32_t *s, size_t n, const uint64_t *a) { (void)a; return vgic_make(s, n); }
static int64_t irqs(uint32_t *s, size_t n, const uint64_t *a) { return vgic_set_attribute(s, n, 3, 0, a[0]); }
static int64_t vcpu(uint32_t *s, size_t n, const uint64_t *a) { return vgic_add_vcpu(s, n, (uint32_t)a[0]); }
static int64_t init(uint32_t *s, size_t n, const uint64_t *a) { (void)a; return vgic_set_attribute(s, n, 4, 0, 0); }
static int64_t run(uint32_t *s, size_t n, const uint64_t *a) { return vgic_set_running(s, n, a[0], a[1]); }
static int64_t line_change(uint32_t *s, size_t n, const uint64_t *a) { return vgic_change_line(s, n, a[0], a[1], a[2]); }
static int64_t dr(uint32_t *s, size_t n, const uint64_t *a) { return vgic_read_distributor(s, n, a[0], a[1], 4); }
static int64_t dw(uint32_t *s, size_t n, const uint64_t *a) { return vgic_write_distributor(s, n, a[0], a[1], 4, a[2]); }
static int64_t rr(uint32_t *s, size_t n, const uint64_t *a) { return vgic_read_frame(s, n, a[0], a[1], a[2], 4); }
static int64_t rw(uint32_t *s, size_t n, const uint64_t *a) { return vgic_write_frame(s, n, a[0], a[1], a[2], 4, a[3]); }
static int64_t rdb(uint32_t *s, size_t n, const uint64_t *a) { return vgic_read_distributor(s, n, a[0], a[1], 1); }
static int64_t wdb(uint32_t *s, size_t n, const uint64_t *a) { return vgic_write_distributor(s, n, a[0], a[1], 1, a[2]); }
static int64_t rrb(uint32_t *s, size_t n, const uint64_t *a) { return vgic_read_frame(s, n, a[0], a[1], a[2], 1); }
static int64_t wrb(uint32_t *s, size_t n, const uint64_t *a) { return vgic_write_frame(s, n, a[0], a[1], a[2], 1, a[3]); }
static int64_t rdw(uint32_t *s, size_t n, const uint64_t *a) { return vgic_read_distributor(s, n, a[0], a[1], a[2]); }
static int64_t wdw(uint32_t *s, size_t n, const uint64_t *a) { return vgic_write_distributor(s, n, a[0], a[1], a[2], a[3]); }
static int64_t rrw(uint32_t *s, size_t n, const uint64_t *a) { return vgic_read_frame(s, n, a[0], a[1], a[2], a[3]); }
static int64_t wrw(uint32_t *s, size_t n, const uint64_t *a) { return vgic_write_frame(s, n, a[0], a[1], a[2], a[3], a[4]); }
static int64_t sr(uint32_t *s, size_t n, const uint64_t *a) { return vgic_read_system(s, n, a[0], a[1]); }
static int64_t sw(uint32_t *s, size_t n, const uint64_t *a) { return vgic_write_system(s, n, a[0], a[1], a[2]); }
static int64_t sig(uint32_t *s, size_t n, const uint64_t *a) { return vgic_query_signal(s, n, a[0]); }
static int64_t get(uint32_t *s, size_t n, const uint64_t *a) { return vgic_get_attribute(s, n, a[0], a[1]); }
static int64_t set(uint32_t *s, size_t n, const uint64_t *a) { return vgic_set_attribute(s, n, a[0], a[1], a[2]); }
static int64_t save(uint32_t *s, size_t n, const uint64_t *a) { int64_t result; (void)a; vgic_save(s, n, lent, lent_length, &result); return result; }
static int64_t restore(uint32_t *s, size_t n, const uint64_t *a) { (void)a; return vgic_restore(s, n, lent, lent_length); }

static const struct Word {
    const char *word;
    int numbers;
    bool reads;
    Call *call;
} table[] = {
    {"new", 0, false, new},  {"irqs", 1, false, irqs}, {"vcpu", 1, false, vcpu}, {"init", 0, false, init},
    {"run", 2, false, run},  {"line", 3, false, line_change},
    {"dr", 2, true, dr},     {"dw", 3, false, dw},     {"rr", 3, true, rr},      {"rw", 4, false, rw},
    {"rdb", 2, true, rdb},   {"wdb", 3, false, wdb},   {"rrb", 3, true, rrb},    {"wrb", 4, false, wrb},
    {"rdw", 3, true, rdw},   {"wdw", 4, false, wdw},   {"rrw", 4, true, rrw},    {"wrw", 5, false, wrw},
    {"sr", 2, true, sr},     {"sw", 3, false, sw},     {"sig", 1, true, sig},
    {"get", 2, true, get},   {"set", 3, false, set},   {"save", 1, true, save},  {"restore", 0, false, restore},
};

/* ---- the state in print */

static void print_words(void) {
    for (int at = 0; at < WORDS; at++)
        if (state[at]) printf(" %d:%" PRIx32, at, state[at]);
    putchar('\n');
}

static void print_bytes(const uint8_t *b, size_t n) {
    for (size_t i = 0; i < n; i++) printf("%02x", b[i]);
    putchar('\n');
}

/* seven bits at a time, as in a record */
static void print_number(uint32_t x) {
    for (; x >= 0x80; x >>= 7) printf("%02x", (x & 0x7f) | 0x80);
    printf("%02x", x);
}

/* the edge flags as ICFGR has them */
static uint32_t spread(uint32_t edges) {
    uint32_t x = 0;
    for (int i = 0; i < 16; i++) x |= (edges >> i & 1) << (2 * i + 1);
    return x;
}

/* flags and priorities of a bank: + 0 to + 12 */
static void print_bank(const uint32_t *bank) {
    for (int k = 0; k < 13; k++) print_number(bank[k]);
}

static void print_record(uint32_t count, uint32_t vcpus) {
    print_number(1);
    print_number(count);
    print_number(vcpus);
    for (uint32_t v = 0; v < vcpus; v++) print_number(state[16 + 32 * v + 16]);
    print_number(0x50 + state[3]);
    print_number(state[4]);
    for (uint32_t w = 1; w < count / 32; w++) {
        const uint32_t *bank = state + 256 + 16 * w;
        print_bank(bank);
        print_number(spread(bank[13]));
        print_number(spread(bank[14]));
    }
    for (uint32_t id = 32; id < count && id < 1020; id++) print_number(state[736 + id]);
    for (uint32_t v = 0; v < vcpus; v++) {
        const uint32_t *block = state + 16 + 32 * v;
        print_number(block[18]);
        print_bank(block);
        for (int k = 19; k < 27; k++) print_number(k == 20 ? 0x400 + block[k] : block[k]);
    }
}

static void dump(void) {
    uint32_t running = 0;
    for (uint32_t v = 0; v < state[2]; v++) running |= state[16 + 32 * v + 17] << v;
    printf("phase=%s n=%" PRIu32 " count=%" PRIu32 " run=%" PRIx32 " ", state[0] ? "init" : "made", state[2], state[1], running);
    if (state[0]) print_record(state[1], state[2]);
    putchar('\n');
}

/* ---- a line */

/* takes the first word off a line */
static char *take(char **rest) {
    char *word = *rest, *space = strchr(word, ' ');
    *rest = space ? space + 1 : word + strlen(word);
    if (space) *space = 0;
    return word;
}

static uint64_t take_number(char **rest) { return strtoull(take(rest), NULL, 16); }

static const struct Word *find(const char *word) {
    for (size_t i = 0; i < sizeof table / sizeof *table; i++)
        if (strcmp(table[i].word, word) == 0) return &table[i];
    fail("no such word", word);
    return NULL;
}

/* whether the call is a read that may change no word: all are but those of IAR0 and IAR1 */
static bool only_reads(const struct Word *w, const uint64_t *a) {
    return w->reads && !(w->call == sr && (a[1] == 0xc640 || a[1] == 0xc660));
}

static int64_t make_call(const struct Word *w, size_t length, char *rest, const char *line) {
    uint64_t a[NUMBERS] = {0};
    for (int i = 0; i < w->numbers; i++) a[i] = take_number(&rest);
    if (w->call == save) lend_buffer(a[0]);
    if (w->call == restore) lend_record(take(&rest));
    memcpy(before, memory, sizeof before);
    memcpy(bytes_before, bytes, BYTES);
    int64_t r = w->call(state, length, a);
    size_t whole = GUARD * sizeof *memory;
    if (!bytes_kept(w->call == save && r > 0 ? (size_t)r : 0)) fail("it writes outside the record", line);
    if (memcmp(memory, before, whole) || memcmp(state + WORDS, before + GUARD + WORDS, whole)) fail("it writes outside the state", line);
    if ((r < 0 || only_reads(w, a)) && memcmp(memory, before, sizeof before)) fail(r < 0 ? "refused, and it changes the state" : "a read changes the state", line);
    return r;
}

static void print_answer(int64_t r, const struct Word *w) {
    if (r < 0) printf("%" PRId64 "\n", r);
    else if (w->call == save) print_bytes(lent, (size_t)r);
    else if (w->reads) printf("%" PRIx64 "\n", (uint64_t)r);
    else if (r == 0) puts("ok");
    else printf("not 0: %" PRIx64 "\n", (uint64_t)r);
}

static void call(char *rest, const char *line) {
    size_t length = WORDS;
    uint64_t at = 0, old = state[0];
    char *word = take(&rest);
    if (strcmp(word, "length") == 0) {
        length = take_number(&rest);
        word = take(&rest);
    } else if (strcmp(word, "poke") == 0) {
        at = take_number(&rest);
        old = state[at];
        state[at] = (uint32_t)take_number(&rest);
        word = take(&rest);
    }
    const struct Word *w = find(word);
    int64_t r = make_call(w, length, rest, line);
    if (r < 0) state[at] = (uint32_t)old;
    print_answer(r, w);
}

static void swap(void) {
    memory = memories[memory == memories[0]];
    state = memory + GUARD;
    puts("swapped");
}

int main(void) {
    static char line[LINE], rest[LINE];
    map_bytes();
    memset(memories, 0xa5, sizeof memories);
    for (int i = 0; i < 2; i++) memset(memories[i] + GUARD, 0, WORDS * sizeof *state);
    while (fgets(line, sizeof line, stdin)) {
        line[strcspn(line, "\n")] = 0;
        strcpy(rest, line);
        if (strcmp(line, "dump") == 0) dump();
        else if (strcmp(line, "words") == 0) print_words();
        else if (strcmp(line, "swap") == 0) swap();
        else if (strcmp(line, "same") == 0) puts(memcmp(memories[0], memories[1], sizeof memories[0]) ? "different" : "same");
        else call(rest, line);
    }
    return 0;
}
