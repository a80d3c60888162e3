/*
 * Planksling's backups: a window of a node's memory, its space and its bytes, stored in blocks that can be inspected one by one, and read back. A library
 * of its own, which needs nothing of planksling.h. docs/BACKUPS.md tells how to build and to link, README.md has each refusal in words.
 *
 * A block has PLANKSLING_BACKUP_BLOCK bytes; all numbers have their highest byte first:
 *
 *     bytes 0 to 3      the block's number: 0, 1, 2 and so on
 *     bytes 4 to 5      the payload's length, 1 to 502; every block but the last is full
 *     byte  6           the space, the same in every block
 *     byte  7           the flag: 1 in the last block, else 0
 *     bytes 8 to 509    the payload, with zeros behind it
 *     bytes 510 to 511  the check: the sum of the 255 words of 16 bits before it, modulo 65,535
 *
 * So a window has one backup. The address of its first byte isn't stored.
 *
 * How every call speaks:
 *
 * - It returns 0, or the number of the refusal (PLANKSLING_BACKUP_NOT_STORABLE and so on). Any bytes, numbers and lengths may come in.
 * - A slice is a pointer and a length in bytes: `window, window_length`. A pointer may be null where the length is 0. Every other pointer must be good for
 *   its length and aligned, that of a number which isn't wanted too. Nothing that is lent for writing, single numbers included, may overlap anything else
 *   that is lent.
 * - What a call hands out goes through single numbers. An accepted call writes each of them but `place`, which stays as it was. A refused call writes
 *   `place`, where it has one, and leaves the others.
 * - A refused call leaves the lent output as it was.
 * - A place is the position of a block, counted from 0; 0 where the refusal is about no block.
 * - Nothing is kept between calls, and there is no heap: any number of threads may call at once.
 */
#ifndef PLANKSLING_BACKUP_H
#define PLANKSLING_BACKUP_H

#include <stddef.h>
#include <stdint.h>

#if SIZE_MAX != 0xFFFFFFFFFFFFFFFFu
#error "planksling_backup.h: size_t must have 64 bits"
#endif

#ifdef __cplusplus
extern "C" {
#endif

/* --- limits --- */

#define PLANKSLING_BACKUP_BLOCK 512       /* bytes of a block */
#define PLANKSLING_BACKUP_PAYLOAD 502     /* bytes of the window in a full block */
#define PLANKSLING_BACKUP_MOST 4294967296 /* bytes of a window */

/* The bytes of the backup of a window with so many, from 1 to PLANKSLING_BACKUP_MOST. */
#define PLANKSLING_BACKUP_ROOM(length) (((size_t)(length) + PLANKSLING_BACKUP_PAYLOAD - 1) / PLANKSLING_BACKUP_PAYLOAD * PLANKSLING_BACKUP_BLOCK)

/* --- refusals --- */

#define PLANKSLING_BACKUP_NOT_STORABLE 40 /* window empty, longer than 2^32 bytes or of a space above 255 */
#define PLANKSLING_BACKUP_NO_ROOM 41      /* lent output too small */
#define PLANKSLING_BACKUP_NOT_WHOLE 42    /* length not a positive multiple of 512 */
#define PLANKSLING_BACKUP_BAD_CHECK 43    /* the check of a block doesn't fit */
#define PLANKSLING_BACKUP_BAD_FIELD 44    /* number, space, length, flag or padding of a block is wrong */

/* --- calls --- */

/*
 * Stores a window of this space: its blocks go to the front of the output, and what is behind them is as it was. Hands out how many bytes they are,
 * PLANKSLING_BACKUP_ROOM(window_length). Refusals, in their order: 40; 41, where the output is shorter than that. Their place is 0.
 */
size_t planksling_backup_store(
    uint64_t space,
    const uint8_t *window, size_t window_length,
    uint8_t *output, size_t output_length,
    size_t *stored,
    size_t *place);

/*
 * Reads a backup: the window's bytes go to the front of the output, and what is behind them is as it was. Hands out how many they are, and the space.
 * All blocks are judged before the first byte is written.
 *
 * Refusals, in their order: 42, at place 0; the first bad block by its position, with 43 where its check doesn't fit, else with 44 where its number isn't
 * its position, its space isn't that of block 0, its length isn't 502 or in the last block isn't 1 to 502, its flag isn't 1 in the last block and 0 in the
 * others, or a byte behind its payload isn't zero; 41, at place 0, where the output is shorter than the window. The last block is the one that stands last.
 */
size_t planksling_backup_read(
    const uint8_t *backup, size_t backup_length,
    uint8_t *output, size_t output_length,
    size_t *length,
    uint64_t *space,
    size_t *place);

/*
 * Judges one block by itself, as the one at this position with so many blocks behind it in a backup of this space, so that a backup with bad blocks can be
 * gone through to its end: 0; or 42 where it hasn't 512 bytes, 43, 44, as for reading. It writes nothing.
 */
size_t planksling_backup_judge(
    const uint8_t *block, size_t block_length,
    size_t position,
    size_t behind,
    uint64_t space);

#ifdef __cplusplus
}
#endif

#endif
