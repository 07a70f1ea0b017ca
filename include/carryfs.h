/*
 * The proved reader of carryfs volumes, for C. Link target/staticlib/libcarryfs.a (tools/build staticlib carryfs), which is for
 * Linux on x86-64 with SSE4.2, that is x86-64-v2: on an older processor a call may end in an illegal instruction.
 *
 * Each function reads what it is lent and answers; it allocates nothing and keeps nothing, and may be called from any thread.
 * A part of memory is a pointer and a number of elements, all of them there while the call runs. No pointer may be NULL, also
 * where the number is 0, and each is aligned as its type asks. What is written (out, scratch, and the text of carryfs_root) may not
 * overlap anything else that the call is lent; what is only read may. Nobody else may write what is lent, nor read what is written,
 * during the call.
 *
 * But for carryfs_crc32c and carryfs_extend, the answer of a call is words at the front of `out`; elements beyond them are left as
 * they were. The result is a status:
 *   CARRYFS_DONE       the answer is in `out`
 *   CARRYFS_NO_ROOM    `out` (or the text of carryfs_root) is shorter than the answer; nothing was written, the scratch neither
 *   CARRYFS_NOT_ASKED  carryfs_page, carryfs_search and carryfs_data_unit: an argument means nothing; nothing was written. It
 *                      comes before NO_ROOM
 *
 * Class and reason say why something is refused. Class 0 is accepted, with reason 0. A refusal is class 1 (geometry), 2 (the
 * caller's arguments), 3 (corrupt) or 4 (unsupported), and of carryfs_search also 7 (a block beyond the image) or 8 (a key out of
 * its bounds); each call says below which it answers. docs/REASONS.md has the reasons; classes 1, 4, 7 and 8 have reason 0. Beside
 * a refusal every other word, and `text`, is 0, but for the count of carryfs_search.
 */
#ifndef CARRYFS_H
#define CARRYFS_H

#include <stddef.h>
#include <stdint.h>

#ifdef __cplusplus
extern "C" {
#endif

#define CARRYFS_DONE 0u
#define CARRYFS_NO_ROOM 1u
#define CARRYFS_NOT_ASKED 2u

/* The CRC-32C of the bytes. */
uint32_t carryfs_crc32c(const uint8_t *bytes, size_t length);

/* The CRC register after the bytes, with no inversion at either end: start from UINT32_MAX, and invert the last. */
uint32_t carryfs_extend(uint32_t crc_register, const uint8_t *bytes, size_t length);

/* The word that a checksum group holds for the unit `unit` of the file `object`: the CRC-32C of a tag, the volume's UUID, both
 * numbers, how many bytes are valid, the valid bytes, and zeros, so that these two are 65,536 bytes. Slot s of group g is for unit
 * 256 g + s. Class 0, or class 2 with reason 0 where not 1 to 65,536 bytes are valid. A UUID that isn't 16 bytes is
 * CARRYFS_NOT_ASKED. */
#define CARRYFS_UNIT_CLASS 0
#define CARRYFS_UNIT_REASON 1
#define CARRYFS_UNIT_WORD 2
#define CARRYFS_UNIT_WORDS 3
uint32_t carryfs_data_unit(const uint8_t *uuid, size_t uuid_length, uint64_t object, uint64_t unit, const uint8_t *valid,
                           size_t valid_length, uint64_t *out, size_t out_length);

/* The record of a checksum group, as it stands in a leaf of the catalog: its key, and the stored group as its value. Of the key is
 * tested that it has 17 bytes or more, and the group's index in bytes 9 to 16. Class 0 or 3. */
#define CARRYFS_GROUP_CLASS 0
#define CARRYFS_GROUP_REASON 1
#define CARRYFS_GROUP_WORDS 2
uint32_t carryfs_group(const uint8_t *key, size_t key_length, const uint8_t *value, size_t value_length, uint64_t *out,
                       size_t out_length);

/* A slot, 0 to 255, of a checksum group, stored or expanded. Class 0, or 3 where there is no such slot, the bitmap isn't whole, or
 * a present slot's word lies beyond the group. */
#define CARRYFS_SLOT_CLASS 0
#define CARRYFS_SLOT_REASON 1
#define CARRYFS_SLOT_PRESENT 2 /* 1 where the slot holds a word, 0 where it is a hole */
#define CARRYFS_SLOT_WORD 3    /* 0 where it is a hole */
#define CARRYFS_SLOT_WORDS 4
uint32_t carryfs_slot(const uint8_t *group, size_t group_length, size_t slot, uint64_t *out, size_t out_length);

/* The root in the block `slot` of a volume of `blocks` blocks. `text` takes the UUID's 16 bytes and then 255 bytes: the label's,
 * and zeros. The label is no C string: behind one of 255 bytes there is no NUL; print LABEL_LENGTH bytes. Class 0, 1 (fewer than
 * 1,024 blocks), 2 (`slot` is no root's slot), 3 or 4. */
#define CARRYFS_ROOT_CLASS 0
#define CARRYFS_ROOT_REASON 1
#define CARRYFS_ROOT_HAS_LABEL 2
#define CARRYFS_ROOT_LABEL_LENGTH 3 /* 0 where there is none */
#define CARRYFS_ROOT_GENERATION 4
#define CARRYFS_ROOT_BLOCKS 5
#define CARRYFS_ROOT_CATALOG 6    /* block, generation */
#define CARRYFS_ROOT_ALLOCATION 8 /* block, generation */
#define CARRYFS_ROOT_CLEANUP 10   /* block, generation */
#define CARRYFS_ROOT_NEXT_OBJECT 12
#define CARRYFS_ROOT_FREE_BLOCKS 13
#define CARRYFS_ROOT_NEXT_JOB 14
#define CARRYFS_ROOT_WORKSPACE 15 /* block, generation */
#define CARRYFS_ROOT_WORKSPACE_CURSOR 17
#define CARRYFS_ROOT_WORDS 18
#define CARRYFS_TEXT_UUID 0
#define CARRYFS_TEXT_LABEL 16
#define CARRYFS_TEXT_BYTES 271
uint32_t carryfs_root(const uint8_t *bytes, size_t length, uint64_t slot, uint64_t blocks, uint64_t *out, size_t out_length,
                      uint8_t *text, size_t text_length);

/* The current root of two slots' blocks, each as carryfs_root reads it. A block refused with class 3 counts as no root; a refusal
 * of another class is the answer, the first's before the second's. Of two roots the one with the higher generation is chosen, the
 * first where they are equal. Class 0; 1, 2 or 4 as carryfs_root answers it; 3 where there is no root or the two conflict:
 * their UUIDs differ, or their generations are equal and another field isn't. carryfs_root gives the chosen one's fields. */
#define CARRYFS_SELECT_CLASS 0
#define CARRYFS_SELECT_REASON 1
#define CARRYFS_SELECT_WHICH 2 /* 1 for the first, 2 for the second */
#define CARRYFS_SELECT_GENERATION 3
#define CARRYFS_SELECT_WORDS 4
uint32_t carryfs_select(const uint8_t *first, size_t first_length, uint64_t first_slot, uint64_t first_blocks,
                        const uint8_t *second, size_t second_length, uint64_t second_slot, uint64_t second_blocks,
                        uint64_t *out, size_t out_length);

/* The page that a reference (block, generation) names, in a tree of the kind, below a parent of the generation `parent`, in a
 * volume of `blocks` blocks. Class 0, 2 (what the caller says of the page can't be), 3 or 4. A UUID that isn't 16 bytes, a kind
 * outside 1 to 4 or a level above 255 is CARRYFS_NOT_ASKED; an expected level from 8 to 254 is refused.
 * For the root page of a tree, block and generation are those of the tree in carryfs_root's words, the UUID is in its `text`, the
 * parent is the root's generation, and the level CARRYFS_ANY_LEVEL. In an internal page, of a level above 0, the value of each
 * record is 16 bytes, a child's block and generation, each little-endian. The child is of the same kind, its parent is this page's
 * generation, and its level is one less. Levels are 7 to 0, so there are at most eight pages on a way down. */
#define CARRYFS_CATALOG 1u
#define CARRYFS_ALLOCATION 2u
#define CARRYFS_CLEANUP 3u
#define CARRYFS_WORKSPACE 4u
#define CARRYFS_ANY_LEVEL 255u /* the caller expects no level */
#define CARRYFS_PAGE_CLASS 0
#define CARRYFS_PAGE_REASON 1
#define CARRYFS_PAGE_LEVEL 2
#define CARRYFS_PAGE_TOTAL 3 /* the data blocks that the page states; 0 outside the catalog */
#define CARRYFS_PAGE_COUNT 4
#define CARRYFS_PAGE_PAYLOAD 5 /* where the records start in the block: 80 */
#define CARRYFS_PAGE_PAYLOAD_LENGTH 6
#define CARRYFS_PAGE_WORDS 7
uint32_t carryfs_page(const uint8_t *bytes, size_t length, uint64_t block, uint64_t generation, const uint8_t *uuid,
                      size_t uuid_length, uint32_t kind, uint64_t parent, uint32_t level, uint64_t blocks, uint64_t *out,
                      size_t out_length);

/* The last record whose key is not above `key`, among `count` records in a payload. The records from the found one on are the
 * payload from CARRYFS_FLOOR_OFFSET on, CARRYFS_FLOOR_REMAINING of them. Where none is found all words are 0.
 * With a scratch of at least `count` entries the records' offsets are written at its front, and the records are halved; with a
 * shorter one, which stays as it was, they are walked. On the payload of a page that carryfs_page accepts, with the page's count,
 * both find the same, and `count` entries are written. On other bytes: a record that runs past the payload ends the walk as one
 * above the key does; in halving its offset is the last that is written, and none is found. In a payload of more than 65,535 bytes
 * none is found, and the scratch stays as it was. */
#define CARRYFS_FLOOR_FOUND 0
#define CARRYFS_FLOOR_INDEX 1
#define CARRYFS_FLOOR_REMAINING 2
#define CARRYFS_FLOOR_OFFSET 3
#define CARRYFS_FLOOR_WORDS 4
uint32_t carryfs_lookup(const uint8_t *payload, size_t payload_length, size_t count, const uint8_t *key, size_t key_length,
                        uint16_t *scratch, size_t scratch_length, uint64_t *out, size_t out_length);

/* The record at the front of a part with `remaining` records left: its key is from KEY to KEY_END, its value from there to
 * VALUE_END, and the next record starts there. Where none is found, the places are 0 and REMAINING is what was given. */
#define CARRYFS_NEXT_FOUND 0
#define CARRYFS_NEXT_KEY 1
#define CARRYFS_NEXT_KEY_END 2
#define CARRYFS_NEXT_VALUE_END 3
#define CARRYFS_NEXT_REMAINING 4
#define CARRYFS_NEXT_WORDS 5
uint32_t carryfs_next(const uint8_t *part, size_t length, size_t remaining, uint64_t *out, size_t out_length);

/* The record of a key in one of a root's four trees, from the tree's root page down to the leaf. `image` is the volume, from its
 * first block on. `root` and `text` are what carryfs_root wrote, CARRYFS_ROOT_WORDS words and CARRYFS_TEXT_BYTES bytes, or a root
 * made by hand in the same places; its words CLASS and REASON are not looked at, and of the others only the tree's reference,
 * GENERATION and BLOCKS bear on the answer, and of the text the UUID. `kind` is the tree, CARRYFS_CATALOG to CARRYFS_WORKSPACE; the
 * key is any bytes. Another length of `root` or `text`, or another kind, is CARRYFS_NOT_ASKED.
 * Each page on the way is read as carryfs_page reads it, and its keys are held to their bounds: below a record of a page of a level
 * above 0 every key is at least that record's key, and below the next one's, where there is one; and so are the keys of all pages
 * further down. A page above the leaf is left by the record that carryfs_lookup finds; where its first key is above the sought one
 * there is none.
 * Class 0, found or not; 7 where a page's block ends beyond the image, tested before the page is read; 2, 3 or 4 where carryfs_page
 * refuses a page; 8 where an accepted page has a key out of its bounds. Where none is found, and beside a refusal, the four places
 * are 0.
 * COUNT is `count`, the pages accepted before, and one more for each that this search accepted, the one of class 8 too; it stays at
 * UINT64_MAX. It stands beside a refusal also: lend it to the next search. */
#define CARRYFS_SEARCH_CLASS 0
#define CARRYFS_SEARCH_REASON 1
#define CARRYFS_SEARCH_FOUND 2 /* 1 where there is a record of that very key */
#define CARRYFS_SEARCH_KEY 3   /* where it starts in the image */
#define CARRYFS_SEARCH_KEY_LENGTH 4
#define CARRYFS_SEARCH_VALUE 5
#define CARRYFS_SEARCH_VALUE_LENGTH 6
#define CARRYFS_SEARCH_COUNT 7
#define CARRYFS_SEARCH_WORDS 8
uint32_t carryfs_search(const uint8_t *image, size_t image_length, const uint64_t *root, size_t root_length, const uint8_t *text,
                        size_t text_length, uint32_t kind, const uint8_t *key, size_t key_length, uint64_t count, uint64_t *out,
                        size_t out_length);

#ifdef __cplusplus
}
#endif

#endif
