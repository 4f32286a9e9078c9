/* A trap handler over the proved virtual GICv3, with a small scripted guest of two vCPUs that moves from one board to another.
 * Each step prints a line; the value, the outcome and the signals of each are checked, so the program fails where one is another. */
#include <inttypes.h>
#include <stdio.h>
#include <stdlib.h>
#include <string.h>

#include "vgic.h"

enum {
    VCPUS = 2,
    FLASH = 40,         /* the flash controller's level SPI, at bit 8 of word 1 */
    RECORD_LENGTH = 120 /* the bytes of the record saved: 98 values, of which 15 take more than one byte */
};

/* the vCPUs' affinities, in the order of their indices */
static const uint32_t affinities[VCPUS] = {0x100, 0x101};

/* where a load or a store goes: the distributor, or the frame of a vCPU */
enum place { GICD, GICR0, GICR1 };

/* what happens in a step: an access of a vCPU that trapped, or a change of the flash controller's line */
enum event { LOAD, STORE, MRS, MSR, LINE };

/* what the guest gets for an access */
enum outcome { VALUE, DONE, UNDEFINED };

/* the signals of both vCPUs */
enum signals { IDLE, FIRST, SECOND };

/* a step: `at` is an offset or an encoding, `value` what is stored or written, `answer` what is loaded or read */
struct step {
    enum event event;
    size_t v;
    enum place place;
    uint64_t at, size, value, answer;
    enum outcome outcome;
    enum signals signals;
};

/* a board: a device, and the virtual interrupts that its hypervisor has asserted */
struct board {
    const char *name;
    uint32_t state[VGIC_STATE_WORDS];
    int64_t asserted[VCPUS];
};

static void check(bool holds, const char *what) {
    if (holds) return;
    fflush(stdout);
    fprintf(stderr, "hypervisor: %s\n", what);
    exit(1);
}

/* a call that is refused only by a fault of the hypervisor */
static void granted(int64_t answer) { check(answer >= 0, "the guest is stopped: a call was refused"); }

/* ---- the hypervisor */

/* the guest's device: 64 interrupts and two vCPUs, stopped */
static void set_up(struct board *b, const char *name) {
    b->name = name;
    granted(vgic_make(b->state, VGIC_STATE_WORDS));
    granted(vgic_set_attribute(b->state, VGIC_STATE_WORDS, VGIC_GROUP_COUNT, 0, 64));
    for (size_t v = 0; v < VCPUS; v++) {
        granted(vgic_add_vcpu(b->state, VGIC_STATE_WORDS, affinities[v]));
        b->asserted[v] = VGIC_SIGNAL_NONE;
    }
    granted(vgic_set_attribute(b->state, VGIC_STATE_WORDS, VGIC_GROUP_INITIALISE, 0, 0));
    printf("%s: %" PRId64 " interrupts, 2 vCPUs\n", name, vgic_get_attribute(b->state, VGIC_STATE_WORDS, VGIC_GROUP_COUNT, 0));
}

/* marks both vCPUs as entered, or as left */
static void run(struct board *b, bool on) {
    for (size_t v = 0; v < VCPUS; v++) granted(vgic_set_running(b->state, VGIC_STATE_WORDS, v, on));
    printf("%s: vCPUs %s\n", b->name, on ? "entered" : "stopped");
}

static int64_t load_word(const struct board *b, size_t v, enum place place, uint64_t at, uint64_t size) {
    if (place == GICD) return vgic_read_distributor(b->state, VGIC_STATE_WORDS, v, at, size);
    return vgic_read_frame(b->state, VGIC_STATE_WORDS, v, place == GICR1, at, size);
}

/* a load, whose value is left in *value; one of 64 bits is two words, the low one first */
static int64_t load(const struct board *b, const struct step *s, uint64_t *value) {
    int64_t low = load_word(b, s->v, s->place, s->at, s->size == 8 ? 4 : s->size), high = 0;
    if (s->size == 8 && low >= 0) high = load_word(b, s->v, s->place, s->at + 4, 4);
    if (low < 0 || high < 0) return low < 0 ? low : high;
    *value = (uint64_t)low | (uint64_t)high << 32;
    return 0;
}

static int64_t store_word(struct board *b, size_t v, enum place place, uint64_t at, uint64_t size, uint64_t value) {
    if (place == GICD) return vgic_write_distributor(b->state, VGIC_STATE_WORDS, v, at, size, value);
    return vgic_write_frame(b->state, VGIC_STATE_WORDS, v, place == GICR1, at, size, value);
}

/* a store; one of 64 bits is two words, the low one first */
static int64_t store(struct board *b, const struct step *s) {
    int64_t answer = store_word(b, s->v, s->place, s->at, s->size == 8 ? 4 : s->size, s->value);
    if (s->size != 8 || answer < 0) return answer;
    return store_word(b, s->v, s->place, s->at + 4, 4, s->value >> 32);
}

static int64_t read_system(struct board *b, const struct step *s, uint64_t *value) {
    int64_t answer = vgic_read_system(b->state, VGIC_STATE_WORDS, s->v, s->at);
    if (answer >= 0) *value = (uint64_t)answer;
    return answer;
}

/* the call that an access is */
static int64_t serve(struct board *b, const struct step *s, uint64_t *value) {
    switch (s->event) {
    case LOAD: return load(b, s, value);
    case STORE: return store(b, s);
    case MRS: return read_system(b, s, value);
    default: return vgic_write_system(b->state, VGIC_STATE_WORDS, s->v, s->at, s->value);
    }
}

/* the trap handler: a guest can cause ENXIO alone, any other refusal is the hypervisor's own fault */
static enum outcome trap(struct board *b, const struct step *s, uint64_t *value) {
    int64_t answer = serve(b, s, value);
    if (answer == -VGIC_ENXIO) return UNDEFINED;
    granted(answer);
    return s->event == LOAD || s->event == MRS ? VALUE : DONE;
}

static const char *signal_name(int64_t signal) {
    return signal == VGIC_SIGNAL_IRQ ? "irq" : signal == VGIC_SIGNAL_FIQ ? "fiq" : "none";
}

/* asks for the signal of each vCPU, asserts it, and ends the step's line with it */
static void inject(struct board *b, enum signals wanted) {
    for (size_t v = 0; v < VCPUS; v++) {
        b->asserted[v] = vgic_query_signal(b->state, VGIC_STATE_WORDS, v);
        granted(b->asserted[v]);
    }
    printf("; signals %s %s\n", signal_name(b->asserted[0]), signal_name(b->asserted[1]));
    check(b->asserted[0] == (wanted == FIRST ? VGIC_SIGNAL_IRQ : VGIC_SIGNAL_NONE), "another signal of vCPU 0");
    check(b->asserted[1] == (wanted == SECOND ? VGIC_SIGNAL_IRQ : VGIC_SIGNAL_NONE), "another signal of vCPU 1");
}

/* ---- the steps in print */

static void print_place(const struct step *s) {
    static const char *const names[] = {"GICD", "GICR0", "GICR1"};
    printf("%s+0x%" PRIx64 " size %" PRIu64, names[s->place], s->at, s->size);
}

static void print_access(const struct step *s) {
    switch (s->event) {
    case LOAD:
        printf("loads ");
        print_place(s);
        break;
    case STORE:
        printf("stores 0x%" PRIx64 " to ", s->value);
        print_place(s);
        break;
    case MRS: printf("MRS 0x%" PRIx64, s->at); break;
    default: printf("MSR 0x%" PRIx64 " 0x%" PRIx64, s->at, s->value);
    }
}

static void print_trap(struct board *b, const struct step *s) {
    uint64_t value = 0;
    enum outcome outcome = trap(b, s, &value);
    printf("vCPU %zu ", s->v);
    print_access(s);
    if (outcome == VALUE) printf(": 0x%" PRIx64, value);
    if (outcome == UNDEFINED) printf(": undefined instruction");
    check(outcome == s->outcome && value == s->answer, "another outcome");
}

static void play(struct board *b, const struct step *steps, size_t count) {
    for (const struct step *s = steps; s < steps + count; s++) {
        printf("%s: ", b->name);
        if (s->event == LINE) {
            granted(vgic_change_line(b->state, VGIC_STATE_WORDS, 0, FLASH, s->value));
            printf("line %d %s", FLASH, s->value ? "high" : "low");
        } else print_trap(b, s);
        inject(b, s->signals);
    }
}

/* ---- the script */

#define LOADS(v, place, at, size, answer, signals) {LOAD, v, place, at, size, 0, answer, VALUE, signals}
#define STORES(v, place, at, size, value, signals) {STORE, v, place, at, size, value, 0, DONE, signals}
#define READS(v, encoding, answer, signals) {MRS, v, GICD, encoding, 0, 0, answer, VALUE, signals}
#define WRITES(v, encoding, value, signals) {MSR, v, GICD, encoding, 0, value, 0, DONE, signals}
#define NO_READ(v, encoding, signals) {MRS, v, GICD, encoding, 0, 0, 0, UNDEFINED, signals}
#define NO_WRITE(v, encoding, signals) {MSR, v, GICD, encoding, 0, 0, 0, UNDEFINED, signals}
#define LINES(level, signals) {LINE, 0, GICD, 0, 0, level, 0, DONE, signals}

/* the guest boots: the flash controller's SPI to vCPU 0 with priority 0xA0, SGI 3 of both vCPUs with 0x40, all of group 1 */
static const struct step boot[] = {
    LOADS(0, GICD, VGIC_GICD_TYPER, 4, 0x02480001, IDLE),
    LOADS(0, GICR1, VGIC_GICR_TYPER, 8, 0x10100000110, IDLE),
    STORES(0, GICD, VGIC_GICD_CTLR, 4, 2, IDLE),
    LOADS(0, GICD, VGIC_GICD_CTLR, 4, 0x52, IDLE),
    STORES(0, GICD, VGIC_GICD_IGROUPR(1), 4, 0x100, IDLE),
    STORES(0, GICD, VGIC_GICD_IPRIORITYR_BYTE(40), 1, 0xA5, IDLE),
    LOADS(0, GICD, VGIC_GICD_IPRIORITYR_BYTE(40), 1, 0xA0, IDLE),
    STORES(0, GICD, VGIC_GICD_IROUTER(40), 8, 0x100, IDLE),
    LOADS(0, GICD, VGIC_GICD_IROUTER(40), 8, 0x100, IDLE),
    STORES(0, GICD, VGIC_GICD_ISENABLER(1), 4, 0x100, IDLE),
    STORES(0, GICR0, VGIC_GICR_IGROUPR0, 4, 8, IDLE),
    STORES(0, GICR0, VGIC_GICR_IPRIORITYR_BYTE(3), 1, 0x40, IDLE),
    STORES(0, GICR0, VGIC_GICR_ISENABLER0, 4, 8, IDLE),
    WRITES(0, VGIC_ICC_PMR_EL1, 0xFF, IDLE),
    READS(0, VGIC_ICC_PMR_EL1, 0xF8, IDLE),
    WRITES(0, VGIC_ICC_IGRPEN1_EL1, 1, IDLE),
    STORES(1, GICR1, VGIC_GICR_IGROUPR0, 4, 8, IDLE),
    STORES(1, GICR1, VGIC_GICR_IPRIORITYR_BYTE(3), 1, 0x40, IDLE),
    STORES(1, GICR1, VGIC_GICR_ISENABLER0, 4, 8, IDLE),
    WRITES(1, VGIC_ICC_PMR_EL1, 0xFF, IDLE),
    WRITES(1, VGIC_ICC_IGRPEN1_EL1, 1, IDLE),
};

/* the flash controller's interrupt is taken and preempted by an SGI from vCPU 1; an SGI to vCPU 1 is left pending */
static const struct step work[] = {
    LINES(1, FIRST),
    READS(0, VGIC_ICC_HPPIR1_EL1, 40, FIRST),
    READS(0, VGIC_ICC_IAR1_EL1, 40, IDLE),
    READS(0, VGIC_ICC_RPR_EL1, 0xA0, IDLE),
    WRITES(1, VGIC_ICC_SGI1R_EL1, 0x03010001, FIRST),
    READS(0, VGIC_ICC_IAR1_EL1, 3, IDLE),
    READS(0, VGIC_ICC_RPR_EL1, 0x40, IDLE),
    READS(0, VGIC_ICC_AP1R0_EL1, 0x00100100, IDLE),
    WRITES(0, VGIC_ICC_EOIR1_EL1, 3, IDLE),
    READS(0, VGIC_ICC_RPR_EL1, 0xA0, IDLE),
    NO_READ(0, VGIC_ICC_SGI1R_EL1, IDLE),
    NO_WRITE(0, VGIC_ICC_IAR1_EL1, IDLE),
    LOADS(0, GICD, VGIC_GICD_TYPER, 2, 0, IDLE),
    WRITES(0, VGIC_ICC_SGI1R_EL1, 0x03010002, SECOND),
    LOADS(0, GICD, VGIC_GICD_ISACTIVER(1), 4, 0x100, SECOND),
};

/* on the other board: the SGI is taken, the flash controller's interrupt is ended with its line low, then once with its line high */
static const struct step resumed[] = {
    READS(1, VGIC_ICC_IAR1_EL1, 3, IDLE),
    WRITES(1, VGIC_ICC_EOIR1_EL1, 3, IDLE),
    READS(1, VGIC_ICC_IAR1_EL1, VGIC_ID_NONE, IDLE),
    READS(0, VGIC_ICC_RPR_EL1, 0xA0, IDLE),
    LOADS(0, GICD, VGIC_GICD_ISPENDR(1), 4, 0x100, IDLE),
    LINES(0, IDLE),
    LOADS(0, GICD, VGIC_GICD_ISPENDR(1), 4, 0, IDLE),
    WRITES(0, VGIC_ICC_EOIR1_EL1, 40, IDLE),
    READS(0, VGIC_ICC_RPR_EL1, 0xFF, IDLE),
    LINES(1, FIRST),
    READS(0, VGIC_ICC_IAR1_EL1, 40, IDLE),
    WRITES(0, VGIC_ICC_EOIR1_EL1, 40, FIRST),
    LINES(0, IDLE),
};

enum { BOOT = sizeof boot / sizeof *boot, WORK = sizeof work / sizeof *work, RESUMED = sizeof resumed / sizeof *resumed };

/* saves the stopped device of one board and restores it onto the fresh one of another */
static void migrate(const struct board *from, struct board *to) {
    static uint8_t record[VGIC_RECORD_MOST];
    int64_t length;
    vgic_save(from->state, VGIC_STATE_WORDS, record, sizeof record, &length);
    granted(length);
    printf("%s: saved %" PRId64 " bytes\n", from->name, length);
    check(length == RECORD_LENGTH, "a record of another length");
    granted(vgic_restore(to->state, VGIC_STATE_WORDS, record, (size_t)length));
    printf("%s: restored", to->name);
    inject(to, SECOND);
    check(memcmp(from->state, to->state, sizeof to->state) == 0, "another device was restored");
    int64_t again = vgic_restore(to->state, VGIC_STATE_WORDS, record, (size_t)length);
    printf("%s: a second restore refused with %" PRId64 "\n", to->name, -again);
    check(again == -VGIC_EEXIST, "a second restore was not refused with EEXIST");
}

int main(void) {
    static struct board recorder, spare;
    static uint8_t record[VGIC_RECORD_MOST];
    int64_t refused;
    set_up(&recorder, "recorder");
    run(&recorder, true);
    play(&recorder, boot, BOOT);
    play(&recorder, work, WORK);
    vgic_save(recorder.state, VGIC_STATE_WORDS, record, sizeof record, &refused);
    printf("recorder: a save while vCPUs run refused with %" PRId64 "\n", -refused);
    check(refused == -VGIC_EBUSY, "a save while vCPUs run was not refused with EBUSY");
    run(&recorder, false);
    set_up(&spare, "spare");
    migrate(&recorder, &spare);
    run(&spare, true);
    play(&spare, resumed, RESUMED);
    printf("%d steps\n", BOOT + WORK + RESUMED);
    return 0;
}
