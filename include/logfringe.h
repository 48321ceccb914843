/* logfringe.h: lookup and the full check of a map from 128-bit keys to 16-byte values, on an image in your own memory.
 *
 * Link with libboard.a, which `tools/archive board` writes to target/staticlib/. The archive is for x86-64 (System V calling
 * convention).
 *
 * WHAT IS PROVED, AND WHAT IS NOT
 *
 * A name in brackets is a theorem of the Logfringe repository, or the contract of the function that it names: docs/PROMISES.md says
 * where it stands. Each holds on every image, good or damaged, of whatever bytes. That both functions end and touch nothing but what
 * they are lent is part of their contracts [logfringe_get, logfringe_check]. Not proved, but seen of this archive: it has no data of
 * its own, calls nothing but memset, allocates nothing, and takes so much stack as stands below; board_test/run looks at these.
 *
 * WHAT YOU LEND
 *
 * Each buffer comes as a pointer and its length in bytes. It is lent for the call alone: nothing is kept between calls, no pointer
 * and no state, so calls on different buffers may run at the same time. No alignment is needed. No byte outside of the given lengths is
 * read or written. A buffer of length 0 may come with a null pointer; any other pointer must point to so many bytes. The output and
 * the scratch must not overlap the image, and nobody else may write to a lent buffer during the call. This is what the proofs ask of
 * you.
 *
 *   image    read in place, never written and never copied: it may lie in flash or in another write-protected memory.
 *            Its length is LOGFRINGE_IMAGE_BYTES(m, n), which is 48 + 48 * n + 32 * m; any other length is refused with 1
 *            [byte_length, lookup_numbers, check_numbers].
 *   m, n     the image's capacity, 1 to 4096 values, and its node count, 2 * m to 8192. They are not stored in the image: pass those that
 *            it was made with.
 *   high,    the key's two 64-bit words: the key is high * 2^64 + low.
 *   low
 *
 * WHAT COMES BACK
 *
 * One number. No second number and no other byte would fit the contract [looked_once, checked_once].
 */
#ifndef LOGFRINGE_H
#define LOGFRINGE_H

#include <stddef.h>
#include <stdint.h>

#ifdef __cplusplus
extern "C" {
#endif

#define LOGFRINGE_OK 0u        /* done: the value was found, or the check accepts the image */
#define LOGFRINGE_SHAPE 1u     /* m or n out of limits, the image's length is not that of m and n, or the output or scratch too short */
#define LOGFRINGE_DAMAGED 2u   /* a test of the image failed: do not rely on it */
#define LOGFRINGE_FULL 3u      /* from inserts only: neither function here answers it */
#define LOGFRINGE_ABSENT 4u    /* the key is not in the map: logfringe_get only */
#define LOGFRINGE_NOT_BLANK 5u /* from starts only: neither function here answers it */
#define LOGFRINGE_CURSOR 6u    /* from listings only: neither function here answers it */

/* Lengths in bytes. The macros do not test m and n, which the functions do. */
#define LOGFRINGE_IMAGE_BYTES(m, n) ((size_t)48 + (size_t)48 * (n) + (size_t)32 * (m))
#define LOGFRINGE_VALUE_BYTES ((size_t)16)
#define LOGFRINGE_SCRATCH_BYTES(m) ((size_t)4 * (m))

/* The value of a key.
 *
 * Answers 0, 1, 2 or 4, each when, and only then, its line above says so [lookup_numbers, get_numbers]. Shape comes first: an output of
 * fewer than 16 bytes is 1 even if the image is damaged too. Only the header and the records on the key's path are tested, so 0 or 4
 * does not say that the rest of the image is sound: logfringe_check does. At most 129 nodes are visited [rises, again].
 *
 *   after 0       the first 16 bytes of out are the value: its first 64-bit word, then its second, each with the lowest byte first
 *                 [output, value_words]
 *   after 2 or 4  the first 16 bytes of out are zero [output]
 *   after 1       no byte of out is touched [output]
 *
 * What lies behind the first 16 bytes is never touched [output].
 *
 * Stack: up to 512 bytes; some 110 in this archive.
 */
uint32_t logfringe_get(const uint8_t *img, size_t img_len, uint32_t m, uint32_t n, uint64_t high, uint64_t low,
                       uint8_t *out, size_t out_len);

/* The full check: whether the header and every record of the image pass.
 *
 * Answers 0, 1 or 2 [check_numbers], and 0 exactly for the images that meet the rules [lent_exact]. After 0 the image is one ascending
 * list of keys and values: as long as nobody changes it, lookups with the same m and n and an output of 16 bytes or more answer 0 or
 * 4, 0 with the value that the list has for the key, and 4 where it has none [after_the_check, found_or_absent].
 * The scratch has at least 4 * m bytes; what it holds before does not matter [check_numbers].
 *
 *   after 0 or 2  the first 4 * m bytes of scratch are zero [logfringe_check]
 *   after 1       no byte of scratch is touched [logfringe_check]
 *
 * What lies behind the first 4 * m bytes is never touched [logfringe_check].
 *
 * Stack: up to 48 KiB. The check walks the tree by recursion, one level for each node of a path, at most 129 whatever the image holds.
 * A level takes 288 bytes in this archive (by its disassembly), 129 of them and the rest some 37 KiB; board_test/run measures it. A map
 * whose paths are shorter takes less, but a damaged image can claim a path of 129.
 */
uint32_t logfringe_check(const uint8_t *img, size_t img_len, uint32_t m, uint32_t n, uint8_t *scratch,
                         size_t scratch_len);

#ifdef __cplusplus
}
#endif

#endif
