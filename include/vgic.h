/* The virtual GICv3 for C and C++: the calls of libvgic.a, the names of registers and attributes, and the refusals.
 *
 * A device is a buffer of VGIC_STATE_WORDS words of 32 bits that the caller owns and lends to each call; a call keeps no pointer to it and there is no other state.
 * Of every call but vgic_save the result is an answer from 0 up, or minus an errno of this file; vgic_save leaves the same kind of number in *result.
 * A refused call changes nothing: no word of the state, no byte of a buffer.
 * EFAULT is tested first in every call; the comment at a call lists the tests in the order in which they are made, and the first that fails is the answer.
 * Pointers are not null and are aligned to their type; what is lent to one call does not overlap, and nobody else writes it until the call returns. A bool is 0 or 1. */
#ifndef VGIC_H
#define VGIC_H

#include <stdbool.h>
#include <stddef.h>
#include <stdint.h>

#ifdef __cplusplus
extern "C" {
#endif

/* ---- sizes */

#define VGIC_STATE_WORDS 1760  /* words of 32 bits in a state: 7,040 bytes */
#define VGIC_RECORD_MOST 8210  /* bytes of the longest record: 1,642 numbers of at most 5 bytes */
#define VGIC_VCPUS_MOST 8      /* vCPUs of a device, indexed from 0 in the order added */
#define VGIC_COUNT_LEAST 64    /* least interrupt count */
#define VGIC_COUNT_MOST 1024   /* greatest interrupt count */
#define VGIC_COUNT_STEP 32     /* a count is a multiple of this */
#define VGIC_COUNT_DEFAULT 256 /* what initialising makes of an unset count */
#define VGIC_ID_LIMIT 1020     /* IDs from this on do not exist, at any count */
#define VGIC_ID_NONE 1023      /* what IAR and HPPIR read where there is no interrupt to give */

/* ---- refusals: a call answers minus one of these */

#define VGIC_EPERM 1    /* a guest's access by a vCPU that is not running */
#define VGIC_EIO 5      /* an acknowledge finds its active-priority bit set; proved to happen in no state */
#define VGIC_ENXIO 6    /* unknown group, attribute, register or direction */
#define VGIC_ENOMEM 12  /* a ninth vCPU */
#define VGIC_EFAULT 14  /* the words lent are not a sound state, or not VGIC_STATE_WORDS of them; for vgic_make, the length alone */
#define VGIC_EBUSY 16   /* not initialised, initialised already, or a vCPU is running: which of them, at each call */
#define VGIC_EEXIST 17  /* the affinity is in use; a restore into a device that is not fresh */
#define VGIC_ENODEV 19  /* initialise with no vCPU */
#define VGIC_EINVAL 22  /* a bad number: index, affinity, ID, attribute number or value, as at each call */
#define VGIC_ENOSPC 28  /* the buffer lent to save is shorter than the record */
#define VGIC_EBADMSG 74 /* a record has an ill-formed or missing number, or bytes after the last one */

/* ---- what vgic_query_signal answers */

#define VGIC_SIGNAL_NONE 0 /* neither IAR would give an interrupt */
#define VGIC_SIGNAL_IRQ 1  /* a read of IAR1 would give an interrupt */
#define VGIC_SIGNAL_FIQ 2  /* a read of IAR0 would give an interrupt */

/* ---- distributor: offsets; a parameter is the number of the word, of IROUTER the ID */

#define VGIC_GICD_CTLR UINT64_C(0x0)     /* bits 0, 1: the enables of groups 0, 1; reads 0x50 + them */
#define VGIC_GICD_TYPER UINT64_C(0x4)    /* 0x02480000 + count / 32 - 1 */
#define VGIC_GICD_IIDR UINT64_C(0x8)     /* VGIC_IIDR_VALUE */
#define VGIC_GICD_STATUSR UINT64_C(0x10) /* four bits; a guest clears them by ones, an attribute stores them */
#define VGIC_GICD_IGROUPR(word) (UINT64_C(0x80) + 4 * (uint64_t)(word))
#define VGIC_GICD_ISENABLER(word) (UINT64_C(0x100) + 4 * (uint64_t)(word))
#define VGIC_GICD_ICENABLER(word) (UINT64_C(0x180) + 4 * (uint64_t)(word))
#define VGIC_GICD_ISPENDR(word) (UINT64_C(0x200) + 4 * (uint64_t)(word))
#define VGIC_GICD_ICPENDR(word) (UINT64_C(0x280) + 4 * (uint64_t)(word))
#define VGIC_GICD_ISACTIVER(word) (UINT64_C(0x300) + 4 * (uint64_t)(word))
#define VGIC_GICD_ICACTIVER(word) (UINT64_C(0x380) + 4 * (uint64_t)(word))
#define VGIC_GICD_IPRIORITYR(word) (UINT64_C(0x400) + 4 * (uint64_t)(word))
#define VGIC_GICD_IPRIORITYR_BYTE(id) (UINT64_C(0x400) + (uint64_t)(id)) /* the one register that is accessed by 1 byte too */
#define VGIC_GICD_ICFGR(word) (UINT64_C(0xC00) + 4 * (uint64_t)(word))   /* two bits for each ID; the upper one is 1 for edge */
#define VGIC_GICD_IROUTER(id) (UINT64_C(0x6000) + 8 * (uint64_t)(id))    /* low word, bits 23-0 kept; the high word at + 4 is zero */

#define VGIC_IIDR_VALUE UINT32_C(0x01001000) /* what IIDR reads, in the distributor and in a frame */

/* ---- redistributor frame: offsets; a frame is both 64 KiB pages, the SGI page starts at 0x10000 */

#define VGIC_GICR_CTLR UINT64_C(0x0)      /* zero */
#define VGIC_GICR_IIDR UINT64_C(0x4)      /* VGIC_IIDR_VALUE */
#define VGIC_GICR_TYPER UINT64_C(0x8)     /* low word: index x 256, + 16 for the last vCPU; the high word at + 4 is the affinity */
#define VGIC_GICR_STATUSR UINT64_C(0x10)  /* as in the distributor */
#define VGIC_GICR_WAKER UINT64_C(0x14)    /* zero */
#define VGIC_GICR_IGROUPR0 UINT64_C(0x10080)
#define VGIC_GICR_ISENABLER0 UINT64_C(0x10100)
#define VGIC_GICR_ICENABLER0 UINT64_C(0x10180)
#define VGIC_GICR_ISPENDR0 UINT64_C(0x10200)
#define VGIC_GICR_ICPENDR0 UINT64_C(0x10280)
#define VGIC_GICR_ISACTIVER0 UINT64_C(0x10300)
#define VGIC_GICR_ICACTIVER0 UINT64_C(0x10380)
#define VGIC_GICR_IPRIORITYR(word) (UINT64_C(0x10400) + 4 * (uint64_t)(word)) /* words 0 to 7 */
#define VGIC_GICR_IPRIORITYR_BYTE(id) (UINT64_C(0x10400) + (uint64_t)(id))    /* IDs 0 to 31 */
#define VGIC_GICR_ICFGR0 UINT64_C(0x10C00) /* 0xAAAAAAAA: SGIs are edge */
#define VGIC_GICR_ICFGR1 UINT64_C(0x10C04) /* 0: PPIs are level */

/* ---- system registers of the CPU interface, by encoding */

/* the encoding of the instruction's fields */
#define VGIC_ENCODING(op0, op1, crn, crm, op2) \
    ((uint64_t)(op0) << 14 | (uint64_t)(op1) << 11 | (uint64_t)(crn) << 7 | (uint64_t)(crm) << 3 | (uint64_t)(op2))

/* guest and attribute, both ways */
#define VGIC_ICC_PMR_EL1 UINT64_C(0xC230)     /* bits 7-3 kept */
#define VGIC_ICC_BPR0_EL1 UINT64_C(0xC643)    /* bits 2-0, raised to 2 */
#define VGIC_ICC_AP0R0_EL1 UINT64_C(0xC644)   /* bits 31-0; bit k stands for priority 8k */
#define VGIC_ICC_AP1R0_EL1 UINT64_C(0xC648)   /* likewise, for group 1 */
#define VGIC_ICC_BPR1_EL1 UINT64_C(0xC663)    /* bits 2-0, raised to 3 */
#define VGIC_ICC_CTLR_EL1 UINT64_C(0xC664)    /* 0x400, + 2 for EOImode; a guest writes bit 1 only */
#define VGIC_ICC_SRE_EL1 UINT64_C(0xC665)     /* 7; a guest's writes are ignored */
#define VGIC_ICC_IGRPEN0_EL1 UINT64_C(0xC666) /* bit 0 */
#define VGIC_ICC_IGRPEN1_EL1 UINT64_C(0xC667) /* bit 0 */
/* a guest's reads only */
#define VGIC_ICC_IAR0_EL1 UINT64_C(0xC640)   /* acknowledges: a read changes the state */
#define VGIC_ICC_HPPIR0_EL1 UINT64_C(0xC642) /* the best candidate's ID if it is of group 0 */
#define VGIC_ICC_RPR_EL1 UINT64_C(0xC65B)    /* the running priority, 255 when idle */
#define VGIC_ICC_IAR1_EL1 UINT64_C(0xC660)   /* acknowledges: a read changes the state */
#define VGIC_ICC_HPPIR1_EL1 UINT64_C(0xC662) /* the best candidate's ID if it is of group 1 */
/* a guest's writes only */
#define VGIC_ICC_EOIR0_EL1 UINT64_C(0xC641) /* ID in bits 23-0 */
#define VGIC_ICC_DIR_EL1 UINT64_C(0xC659)   /* ID in bits 23-0; deactivates in EOImode 1 */
#define VGIC_ICC_SGI1R_EL1 UINT64_C(0xC65D) /* latches an SGI at the targets */
#define VGIC_ICC_SGI0R_EL1 UINT64_C(0xC65F) /* the same, only where that SGI is in group 0 */
#define VGIC_ICC_EOIR1_EL1 UINT64_C(0xC661) /* ID in bits 23-0 */

/* ---- attributes */

#define VGIC_GROUP_DISTRIBUTOR 1   /* number: the offset; bits 63-32 are ignored */
#define VGIC_GROUP_COUNT 3         /* the interrupt count; the number is ignored */
#define VGIC_GROUP_INITIALISE 4    /* set only, number 0; the value is ignored */
#define VGIC_GROUP_REDISTRIBUTOR 5 /* number: VGIC_ATTRIBUTE(mpidr, offset) */
#define VGIC_GROUP_SYSTEM 6        /* number: VGIC_ATTRIBUTE(mpidr, encoding) */
#define VGIC_GROUP_LINES 7         /* number: VGIC_ATTRIBUTE(mpidr, first of 32 IDs); from ID 32 on bits 63-32 are ignored */

/* an attribute's number: a vCPU's affinity, not its index, in bits 63-32, and in bits 31-0 an offset, an encoding or the first of 32 IDs */
#define VGIC_ATTRIBUTE(mpidr, offset) ((uint64_t)(uint32_t)(mpidr) << 32 | (uint64_t)(uint32_t)(offset))

/* ---- the calls that set a device up */

/* Makes a device of any words: sets every word to zero and answers 0. Refused: EFAULT if `words` is not VGIC_STATE_WORDS. */
int64_t vgic_make(uint32_t *state, size_t words);

/* Adds a vCPU of affinity `mpidr`, with the next index from 0 up, stopped, its SGIs edge, BPR0 2 and BPR1 3; answers 0. Refused: EFAULT; EBUSY if initialised; EINVAL for a bad affinity (Aff3 not 0, or Aff0 above 15); EEXIST if another vCPU has it; ENOMEM if there are eight. */
int64_t vgic_add_vcpu(uint32_t *state, size_t words, uint32_t mpidr);

/* Marks the vCPU of index `v` as running (true) or stopped (false) and changes nothing else; answers 0. Refused: EFAULT; EBUSY if not initialised; EINVAL if there is no such vCPU. */
int64_t vgic_set_running(uint32_t *state, size_t words, size_t v, bool on);

/* ---- the guest's accesses to memory-mapped registers, by the vCPU of index `v` */

/* Answers what the vCPU `v` reads in `size` bytes at `offset` of the distributor: a register by an aligned access of 4 bytes, or a byte of IPRIORITYR; any other offset or size reads 0, a size of 8 too. Changes nothing. Refused: EFAULT; EBUSY if not initialised; EINVAL if there is no such vCPU; EPERM if it is not running. */
int64_t vgic_read_distributor(const uint32_t *state, size_t words, size_t v, uint64_t offset, uint64_t size);

/* Writes the low `size` bytes of `value` at `offset` of the distributor, as the register there takes them, and answers 0; any other offset or size changes nothing and answers 0. Refused as vgic_read_distributor. */
int64_t vgic_write_distributor(uint32_t *state, size_t words, size_t v, uint64_t offset, uint64_t size, uint64_t value);

/* Answers what the vCPU `v` reads in `size` bytes at `offset` of the redistributor frame of the vCPU of index `frame`, which need not run; other offsets and sizes read 0 as in the distributor. Changes nothing. Refused: EFAULT; EBUSY if not initialised; EINVAL if there is no such vCPU or frame; EPERM if `v` is not running. */
int64_t vgic_read_frame(const uint32_t *state, size_t words, size_t v, size_t frame, uint64_t offset, uint64_t size);

/* Writes the low `size` bytes of `value` at `offset` of the redistributor frame of the vCPU of index `frame`, as the register there takes them, and answers 0; any other offset or size changes nothing and answers 0. Refused as vgic_read_frame. */
int64_t vgic_write_frame(uint32_t *state, size_t words, size_t v, size_t frame, uint64_t offset, uint64_t size, uint64_t value);

/* ---- the guest's accesses to system registers, by the vCPU of index `v`, and its signal */

/* Answers what the vCPU `v` reads from the system register of `encoding`. A read of IAR0 or IAR1 that gives an interrupt makes it active, clears its latch and sets its group priority's bit in AP0R or AP1R; every other read, and one that gives VGIC_ID_NONE, changes nothing. Refused: EFAULT; EBUSY if not initialised; EINVAL if there is no such vCPU; EPERM if it is not running; ENXIO if no register of that encoding is read; EIO, which no state gives. */
int64_t vgic_read_system(uint32_t *state, size_t words, size_t v, uint64_t encoding);

/* Writes `value`, of which all 64 bits count, to the system register of `encoding`, as that register takes it, and answers 0. EOIR and DIR with an ID that does not exist change nothing and answer 0. Refused: EFAULT; EBUSY if not initialised; EINVAL if there is no such vCPU; EPERM if it is not running; ENXIO if no register of that encoding is written. */
int64_t vgic_write_system(uint32_t *state, size_t words, size_t v, uint64_t encoding, uint64_t value);

/* Answers VGIC_SIGNAL_IRQ if a read of IAR1 by the vCPU `v` would give an interrupt, VGIC_SIGNAL_FIQ if one of IAR0 would, else VGIC_SIGNAL_NONE; for a stopped vCPU too. Changes nothing. Refused: EFAULT; EBUSY if not initialised; EINVAL if there is no such vCPU. */
int64_t vgic_query_signal(const uint32_t *state, size_t words, size_t v);

/* ---- lines */

/* Stores the level of the line of a PPI of the vCPU `v`, or of an SPI, whose line is one for all vCPUs so that `v` is ignored; an edge interrupt whose line goes from 0 to 1 is latched. Answers 0. Refused: EFAULT; EBUSY if not initialised; EINVAL if `id` is neither a PPI nor an existing SPI, or is a PPI and there is no such vCPU. */
int64_t vgic_change_line(uint32_t *state, size_t words, size_t v, size_t id, bool level);

/* ---- attributes */

/* Answers the attribute of that number: of VGIC_GROUP_COUNT the count, 0 if unset, in any phase; of the other groups what the register, or 32 lines, hold, where ISPENDR reads the latch and ICPENDR 0. Changes nothing. Refused: EFAULT; ENXIO for an unknown group or VGIC_GROUP_INITIALISE. In groups 1, 5, 6 and 7 then: EINVAL if a number of lines is no multiple of 32 or above 1023; EINVAL if no vCPU has the affinity (groups 5, 6, and 7 below ID 32); EBUSY if not initialised or any vCPU is running; ENXIO if bits 31-0 are not the aligned offset, or in group 6 the encoding, of a register listed for attributes. */
int64_t vgic_get_attribute(const uint32_t *state, size_t words, uint64_t group, uint64_t attribute);

/* Sets the attribute of that number and answers 0. Group 3 sets the count; group 4 initialises, makes an unset count 256, and does nothing if done already; groups 1, 5, 6 set a register as a guest's write does, except that ISPENDR replaces the latch, ICPENDR ignores the value and STATUSR stores bits 3-0; group 7 replaces 32 lines and latches nothing. Refused: EFAULT; ENXIO for an unknown group. Group 3: EINVAL if the value is no count, then EBUSY if the count is set or the device initialised. Group 4: ENXIO if the number is not 0, then ENODEV if there is no vCPU. Groups 1, 5, 6 and 7: as vgic_get_attribute, then EINVAL for a value above 2^32 - 1 (not in group 6), for another IIDR than VGIC_IIDR_VALUE, another ICC CTLR than 0x400 or 0x402, another SRE than 7. */
int64_t vgic_set_attribute(uint32_t *state, size_t words, uint64_t group, uint64_t attribute, uint64_t value);

/* ---- the record */

/* Writes the record of a stopped device to the front of the `length` bytes at `buf` and leaves its length, at most VGIC_RECORD_MOST, in *result; the bytes behind the record and the state are as before. A refusal is left in *result as minus its errno, and no byte of `buf` is written: EFAULT; EBUSY if not initialised or any vCPU is running; ENOSPC if the record is longer than `length`. */
void vgic_save(const uint32_t *state, size_t words, uint8_t *buf, size_t length, int64_t *result);

/* Restores the device whose record is the `length` bytes at `bytes` into a fresh one (just initialised) of the same count and the same affinities in the same order, and answers 0; every word is then as in the device that was saved, and its vCPUs are stopped. Refused: EFAULT; EBUSY if not initialised or any vCPU is running; EEXIST if the device is not fresh; then by the first number of the record at fault: EBADMSG if it is ill-formed or missing, EINVAL if no device of this count and these affinities reads so there; EBADMSG if bytes follow the last number. No word is stored before the whole record is found good. */
int64_t vgic_restore(uint32_t *state, size_t words, const uint8_t *bytes, size_t length);

#ifdef __cplusplus
}
#endif

#endif
