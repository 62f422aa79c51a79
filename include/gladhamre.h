/* Gladhamre: a single-layer DVD+R drive with a disc always inside, over buffers that the caller lends.
 *
 * Link libgladhamre.a (x86-64, System V calling convention). Two functions: one makes a blank disc, one answers a command.
 * Both are total: what they cannot work with they refuse by its number. Neither keeps anything between calls.
 */
#ifndef GLADHAMRE_H
#define GLADHAMRE_H

#include <stddef.h>
#include <stdint.h>

#ifdef __cplusplus
extern "C" {
#endif

/* Sizes. A block is an ECC block of sixteen sectors. */
#define GLADHAMRE_COMMAND_LENGTH 12u
#define GLADHAMRE_SECTOR_LENGTH 2048u
#define GLADHAMRE_BLOCK_LENGTH 32768u      /* the pending buffer's length too */
#define GLADHAMRE_SMALLEST_CAPACITY 256u   /* in blocks */
#define GLADHAMRE_LARGEST_CAPACITY 143444u /* in blocks */
#define GLADHAMRE_RECORDS 160u             /* fragments at the most, the tail included */

/* Bytes of stack that a call takes at the most, as measured over every command and every refusal; no proof bounds it. */
#define GLADHAMRE_STACK_LENGTH 11264u

/* The state image: GLADHAMRE_STATE_WORDS words of 32 bits. */
#define GLADHAMRE_STATE_CAPACITY 0u          /* C in blocks */
#define GLADHAMRE_STATE_FINALIZED 1u         /* 0 or 1 */
#define GLADHAMRE_STATE_SENSE_KEY 2u
#define GLADHAMRE_STATE_SENSE_CODE 3u        /* ASC */
#define GLADHAMRE_STATE_SENSE_QUALIFIER 4u   /* ASCQ */
#define GLADHAMRE_STATE_PENDING 5u           /* pending sectors, 0 to 15 */
#define GLADHAMRE_STATE_PENDING_FRAGMENT 6u  /* the number of their fragment, from 1; 0 with none pending */
#define GLADHAMRE_STATE_FIRST_RECORD 7u      /* GLADHAMRE_RECORDS records, those in use first, the others all zero */

/* The words of a record. */
#define GLADHAMRE_RECORD_SESSION 0u
#define GLADHAMRE_RECORD_START 1u       /* first block */
#define GLADHAMRE_RECORD_LENGTH 2u      /* L in blocks */
#define GLADHAMRE_RECORD_RECORDED 3u    /* W in blocks */
#define GLADHAMRE_RECORD_ZERO_FILLED 4u /* F in sectors */
#define GLADHAMRE_RECORD_KIND 5u        /* 0 reserved, 1 appended */
#define GLADHAMRE_RECORD_WORDS 6u

/* The words of the whole image. */
#define GLADHAMRE_STATE_WORDS (GLADHAMRE_STATE_FIRST_RECORD + GLADHAMRE_RECORDS * GLADHAMRE_RECORD_WORDS)

/* What a function returns: accepted, a refusal on the link, or a refusal by the drive as key, ASC and ASCQ in a byte each. */
#define GLADHAMRE_ACCEPTED 0x000000u
#define GLADHAMRE_L1_COMMAND_BLOCK_LENGTH 0x000001u
#define GLADHAMRE_L2_MEDIUM_SIZE 0x000002u
#define GLADHAMRE_L3_UNSOUND_STATE 0x000003u
#define GLADHAMRE_L4_TRANSFER_LENGTH 0x000004u
#define GLADHAMRE_INVALID_OPERATION_CODE 0x052000u
#define GLADHAMRE_WRITE_PROTECTED 0x072700u
#define GLADHAMRE_INVALID_FIELD_IN_COMMAND 0x052400u
#define GLADHAMRE_ADDRESS_OUT_OF_RANGE 0x052100u
#define GLADHAMRE_BLANK_CHECK 0x080000u
#define GLADHAMRE_INVALID_ADDRESS_FOR_WRITE 0x052102u
#define GLADHAMRE_INCOMPLETE_TRACK_IN_SESSION 0x057203u
#define GLADHAMRE_EMPTY_TRACK 0x057204u
#define GLADHAMRE_NO_MORE_RESERVATIONS 0x057205u
#define GLADHAMRE_END_OF_USER_AREA 0x056300u

/* Makes a blank disc of `capacity` blocks in the image `state` of `state_words` words, which must be GLADHAMRE_STATE_WORDS.
 * 0: the image of the blank disc. L2: the capacity is out of range, and the image is all zero.
 * An image of another length is not written: L2 for a bad capacity, else L3.
 */
uint32_t gladhamre_blank(uint32_t capacity, uint32_t *state, size_t state_words);

/* Answers one command.
 *
 * cdb      the command block, 12 bytes.
 * data     the sectors of a WRITE (2Ah, AAh), exactly 2,048 bytes for each; empty for every other command. An opcode that is not
 *          listed and comes with data is L4, like every other command with data that it does not take.
 * state    the image, GLADHAMRE_STATE_WORDS words.
 * medium   C blocks of 32,768 bytes.
 * pending  the pending buffer, 32,768 bytes: the pending sectors first, one after another. A READ takes them from here.
 * reply    the reply buffer: at least 2,048 bytes for each sector of a READ (28h, A8h), 8 for 25h, the allocation length cut to the
 *          report for 03h, 12h, 46h, 51h and 52h, whole ones having up to 18, 36, 100, 34 and 36 bytes; any length for the other commands,
 *          and for a 12h or 46h that the drive refuses. Bytes past the reply are left alone.
 * reply_count, recorded: the reply's length, and the number of blocks that the command recorded; 0 on every refusal.
 *
 * Refusals are tested in this order: L1; L2 for a C that can be read and is out of range, a medium that is not C blocks, a pending
 * buffer that is not one block; L3 for an image of another length, words that are no state, and a state that breaks a rule; L4; then
 * the drive's. A drive refusal changes the sense in the image and nothing else. A link refusal changes nothing at all.
 */
uint32_t gladhamre_command(
    const uint8_t *cdb, size_t cdb_length,
    const uint8_t *data, size_t data_length,
    uint32_t *state, size_t state_words,
    uint8_t *medium, size_t medium_length,
    uint8_t *pending, size_t pending_length,
    uint8_t *reply, size_t reply_length,
    uint64_t *reply_count, uint64_t *recorded);

/* The firmware's duties.
 *
 * Buffers. All belong to the caller and are lent for the call alone. No two of them may overlap, reply_count and recorded included. A
 * pointer is never null and is aligned for its type, also where the length is 0. Nothing else may touch them during a call.
 *
 * Lengths. READ (12) and WRITE (12), A8h and AAh, have a length of four bytes, so 2,048 times it is up to 8,796,093,020,160: compute it in
 * 64 bits, which size_t has here. L4 asks for that many bytes also where the drive would refuse the command, and more than the disc's
 * 32,768 C are never accepted. Where a host asks for more than there is room for, lend what there is: that is L4, and changes nothing.
 *
 * Linking. The archive calls memcpy and memset. Have GLADHAMRE_STACK_LENGTH bytes of stack free for a call, and what interrupts take.
 *
 * Across power loss. Image, medium and pending buffer together are the disc. Keep all three as a call leaves them before its answer goes
 * out on the bus: a command that was answered must be found again. First the medium: to the old image the new blocks are unrecorded,
 * so a loss here leaves the old disc, and the command can be given again. Then image and pending buffer, which belong together, as one:
 * after a loss both are the old ones or both the new ones (two copies and a switch do it). An image kept before its blocks would call
 * stale bytes recorded; a pending buffer kept without its image would give the old pending sectors other bytes.
 *
 * On the bus. A link refusal (1 to 4) is no answer of the drive: abort the command and let the controller try again; the sense is the
 * one of the last command that reached the drive. A drive refusal is reported as CHECK CONDITION, and 03h tells the sense.
 *
 * Nothing outside writes the image, the recorded blocks or the pending sectors: a READ gives the sectors as they stand there. Bytes of
 * unrecorded blocks, and of the pending buffer past the pending sectors, are stale: they may hold anything, and no answer depends on
 * them.
 */

#ifdef __cplusplus
}
#endif

#endif
