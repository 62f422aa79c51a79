/* Gladhamre, for the host's side: takes a reply of GET CONFIGURATION (46h) apart again.
 *
 * Link libconfiguration.a (x86-64, System V calling convention); it stands by itself, without the drive's libgladhamre.a. One function
 * gives the current profile and the numbers of the features from any uncut reply that the drive can send, and refuses everything else.
 * It is total, and keeps nothing between calls.
 */
#ifndef GLADHAMRE_CONFIGURATION_H
#define GLADHAMRE_CONFIGURATION_H

#include <stddef.h>
#include <stdint.h>

#ifdef __cplusplus
extern "C" {
#endif

/* The bytes of the longest reply: the allocation length that lets none be cut. */
#define GLADHAMRE_CONFIGURATION_LENGTH 100u

/* What is read: GLADHAMRE_CONFIGURATION_WORDS words of 32 bits. */
#define GLADHAMRE_CONFIGURATION_PROFILE 0u       /* the current profile */
#define GLADHAMRE_CONFIGURATION_COUNT 1u         /* how many features the reply has */
#define GLADHAMRE_CONFIGURATION_FIRST_FEATURE 2u /* their numbers in the reply's order, which is rising; 0 after the last */
#define GLADHAMRE_CONFIGURATION_FEATURES 10u     /* features at the most */
#define GLADHAMRE_CONFIGURATION_WORDS (GLADHAMRE_CONFIGURATION_FIRST_FEATURE + GLADHAMRE_CONFIGURATION_FEATURES)

/* The profile. */
#define GLADHAMRE_PROFILE_DVD_PLUS_R 0x001Bu

/* The features. The profile list's number is 0 like a word after the last feature: go by the count. */
#define GLADHAMRE_FEATURE_PROFILE_LIST 0x0000u
#define GLADHAMRE_FEATURE_CORE 0x0001u
#define GLADHAMRE_FEATURE_MORPHING 0x0002u
#define GLADHAMRE_FEATURE_REMOVABLE_MEDIUM 0x0003u
#define GLADHAMRE_FEATURE_RANDOM_READABLE 0x0010u
#define GLADHAMRE_FEATURE_DVD_READ 0x001Fu
#define GLADHAMRE_FEATURE_DVD_PLUS_R 0x002Bu
#define GLADHAMRE_FEATURE_POWER_MANAGEMENT 0x0100u
#define GLADHAMRE_FEATURE_TIME_OUT 0x0105u
#define GLADHAMRE_FEATURE_REAL_TIME_STREAMING 0x0107u

/* What the function returns. */
#define GLADHAMRE_CONFIGURATION_READ 0u
#define GLADHAMRE_CONFIGURATION_NO_REPLY 1u
#define GLADHAMRE_CONFIGURATION_OTHER_WORDS 2u

/* Reads a reply.
 *
 * reply          the bytes that the drive sent, `reply_length` of them and none after.
 * configuration  `configuration_words` words, which must be GLADHAMRE_CONFIGURATION_WORDS.
 *
 * 0: the words are the reply's. 2, tested first: there are more or fewer words. 1: the bytes are no uncut reply of the drive, which has
 * 20 of them, by request type and starting feature. A reply that was cut to its allocation length is none, nor is another drive's. On 1
 * and 2 nothing is written.
 */
uint32_t gladhamre_configuration(
    const uint8_t *reply, size_t reply_length,
    uint32_t *configuration, size_t configuration_words);

/* The caller's duties.
 *
 * Both buffers belong to the caller, are lent for the call alone and may not overlap. A pointer is never null and is aligned for its type,
 * also where the length is 0. Nothing else may touch them during the call.
 */

#ifdef __cplusplus
}
#endif

#endif
