/*
 * Reads the blocks of a file, or a volume from its roots down through its catalog, or seeks a record in a volume, and prints what
 * it finds.
 *
 *   example FILE [DATA]            FILE in the form of README.md: a byte of kind, the numbers that the block is read with, the
 *                                  block. Of its first two roots one is chosen
 *   example --image FILE [DATA]    FILE is a whole volume, from its first block to its last
 *   example --search FILE TREE KEY [BLOCKS]
 *                                  the record of a key in a tree of the volume's chosen root. TREE is 1 for the catalog, 2 for
 *                                  allocation, 3 for cleanup, 4 for the workspace; KEY is in hexadecimal; BLOCKS is how many
 *                                  blocks the volume has, where FILE is cut short
 *
 * DATA: the first unit of a file of the volume, at most 65,536 bytes, held to the stored checksums.
 *
 * Exit status 0 if the file was read to its end and a root was chosen, of a volume if every page of the chosen root's catalog was
 * accepted, of a search if the record is there; 1 if not, or if standard output can't be written; 2 if there is nothing to read.
 */
#define _POSIX_C_SOURCE 200809L
#include <errno.h>
#include <inttypes.h>
#include <limits.h>
#include <stdio.h>
#include <stdlib.h>
#include <string.h>
#include <sys/mman.h>
#include <sys/stat.h>

#include "carryfs.h"

#define BLOCK 4096
#define UUID 16
#define ROOT_BODY (8 + 8 + BLOCK)
#define PAGE_BODY (8 + 8 + UUID + 1 + 8 + 1 + 8 + BLOCK)
#define CHECKSUM_GROUP 4 /* the ninth byte of a catalog key */
#define UNIT 65536
#define LEAST_BLOCKS 1024 /* a volume has no fewer */
#define FIRST_SLOT 256    /* the block of the first root */
#define SLOT_FROM_END 257 /* that of the second, from the volume's end */
#define LEVELS 8          /* of a tree: 7 to 0 */
#define SHOWN 64          /* bytes of a value at most */

/* A root block, and the numbers that it is read with. */
struct root {
    uint8_t block[BLOCK];
    uint64_t slot;
    uint64_t blocks;
};

/* A page's block, and what it is read with. */
struct page {
    const uint8_t *bytes;
    uint64_t block;
    uint64_t generation;
    const uint8_t *uuid;
    uint32_t kind;
    uint64_t parent;
    uint32_t level;
    uint64_t blocks;
};

/* The records that are left of an accepted page, and the one that was taken last. */
struct records {
    const uint8_t *part;
    size_t length;
    size_t remaining;
    const uint8_t *key;
    size_t key_length;
    const uint8_t *value;
    size_t value_length;
};

/* The file of a volume. */
struct image {
    FILE *file;
    uint64_t blocks;
    uint64_t pages;             /* how many have been read */
    uint8_t uuid[UUID];         /* the chosen root's */
    uint8_t way[LEVELS][BLOCK]; /* the pages from the tree's root down to the one that is read */
};

/* A tree's number and a key; how many blocks the volume has, or 0 where its image says so. */
struct sought {
    uint32_t kind;
    const uint8_t *key;
    size_t length;
    uint64_t blocks;
};

/* The data to check, if any. */
static uint8_t data[UNIT + 1];
static size_t data_length;

/* Little-endian, as numbers are stored; keys are big-endian, so that they are ordered by their bytes. */
static uint64_t number(const uint8_t *bytes)
{
    uint64_t n = 0;
    int i;
    for (i = 7; i >= 0; i--)
        n = n << 8 | bytes[i];
    return n;
}

static uint64_t key_number(const uint8_t *bytes)
{
    uint64_t n = 0;
    int i;
    for (i = 0; i < 8; i++)
        n = n << 8 | bytes[i];
    return n;
}

/* Another status than CARRYFS_DONE is a mistake in this program, since it always lends room enough. */
static void must(uint32_t status, const char *call)
{
    if (status == CARRYFS_DONE)
        return;
    fprintf(stderr, "example: %s: %s\n", call,
            status == CARRYFS_NO_ROOM ? "no room for the answer" : "an argument that means nothing");
    exit(1);
}

/* Class and reason are the first two words of every answer that can be a refusal. */
static int refused(const uint64_t *out)
{
    static const char *const names[] = {"accepted", "geometry", "input", "corrupt", "unsupported",
                                        "?", "?", "a block beyond the image", "a key out of its bounds"};
    if (out[0] == 0)
        return 0;
    printf("refused: %s, reason %" PRIu64 "\n", out[0] <= 8 ? names[out[0]] : "?", out[1]);
    return 1;
}

static void print_hex(const uint8_t *bytes, uint64_t length)
{
    uint64_t i;
    for (i = 0; i < length; i++)
        printf("%02x", bytes[i]);
}

static void root_fields(const struct root *root, uint64_t out[CARRYFS_ROOT_WORDS], uint8_t text[CARRYFS_TEXT_BYTES])
{
    must(carryfs_root(root->block, BLOCK, root->slot, root->blocks, out, CARRYFS_ROOT_WORDS, text, CARRYFS_TEXT_BYTES),
         "carryfs_root");
}

static void read_root(const struct root *root)
{
    uint64_t out[CARRYFS_ROOT_WORDS];
    uint8_t text[CARRYFS_TEXT_BYTES];
    printf("root in block %" PRIu64 ": ", root->slot);
    root_fields(root, out, text);
    if (refused(out))
        return;
    printf("generation %" PRIu64 ", ", out[CARRYFS_ROOT_GENERATION]);
    if (out[CARRYFS_ROOT_HAS_LABEL])
        printf("label %.*s", (int)out[CARRYFS_ROOT_LABEL_LENGTH], (const char *)text + CARRYFS_TEXT_LABEL);
    else
        printf("no label");
    printf(", UUID ");
    print_hex(text + CARRYFS_TEXT_UUID, UUID);
    printf(", catalog in block %" PRIu64 ", %" PRIu64 " blocks free\n", out[CARRYFS_ROOT_CATALOG],
           out[CARRYFS_ROOT_FREE_BLOCKS]);
}

/* Whether the data is the unit that the word was made of. */
static void check_unit(const uint8_t *uuid, uint64_t object, uint64_t unit, uint64_t word)
{
    uint64_t out[CARRYFS_UNIT_WORDS];
    must(carryfs_data_unit(uuid, UUID, object, unit, data, data_length, out, CARRYFS_UNIT_WORDS), "carryfs_data_unit");
    printf("    the data as unit %" PRIu64 " of object %" PRIu64 ": ", unit, object);
    if (refused(out))
        return;
    printf("%s\n", out[CARRYFS_UNIT_WORD] == word ? "the word fits" : "the word doesn't fit");
}

/* The slots of a checksum group, as it is stored: each that is there holds the word of a data unit. A page that is accepted has
 * only valid groups; the call is for one that comes from elsewhere. */
static void read_group(const uint8_t *uuid, const uint8_t *key, size_t key_length, const uint8_t *value, size_t value_length)
{
    uint64_t out[CARRYFS_GROUP_WORDS];
    uint64_t word[CARRYFS_SLOT_WORDS];
    size_t slot;
    must(carryfs_group(key, key_length, value, value_length, out, CARRYFS_GROUP_WORDS), "carryfs_group");
    printf("    checksum group: ");
    if (refused(out))
        return;
    printf("valid");
    for (slot = 0; slot < 256; slot++) {
        must(carryfs_slot(value, value_length, slot, word, CARRYFS_SLOT_WORDS), "carryfs_slot");
        if (word[CARRYFS_SLOT_CLASS] == 0 && word[CARRYFS_SLOT_PRESENT])
            printf(", slot %lu is %08" PRIx64, (unsigned long)slot, word[CARRYFS_SLOT_WORD]);
    }
    printf("\n");
    must(carryfs_slot(value, value_length, 0, word, CARRYFS_SLOT_WORDS), "carryfs_slot");
    if (data_length > 0 && key_number(key + 9) == 0 && word[CARRYFS_SLOT_CLASS] == 0 && word[CARRYFS_SLOT_PRESENT])
        check_unit(uuid, key_number(key), 0, word[CARRYFS_SLOT_WORD]);
}

/* The records of an accepted page, of which `out` is carryfs_page's answer. */
static struct records records_of(const struct page *page, const uint64_t *out)
{
    struct records records = {0};
    records.part = page->bytes + out[CARRYFS_PAGE_PAYLOAD];
    records.length = (size_t)out[CARRYFS_PAGE_PAYLOAD_LENGTH];
    records.remaining = (size_t)out[CARRYFS_PAGE_COUNT];
    return records;
}

/* Takes the next record; 0 where there is none. */
static int take(struct records *records)
{
    uint64_t out[CARRYFS_NEXT_WORDS];
    must(carryfs_next(records->part, records->length, records->remaining, out, CARRYFS_NEXT_WORDS), "carryfs_next");
    if (!out[CARRYFS_NEXT_FOUND])
        return 0;
    records->key = records->part + out[CARRYFS_NEXT_KEY];
    records->key_length = (size_t)(out[CARRYFS_NEXT_KEY_END] - out[CARRYFS_NEXT_KEY]);
    records->value = records->part + out[CARRYFS_NEXT_KEY_END];
    records->value_length = (size_t)(out[CARRYFS_NEXT_VALUE_END] - out[CARRYFS_NEXT_KEY_END]);
    records->part += out[CARRYFS_NEXT_VALUE_END];
    records->length -= (size_t)out[CARRYFS_NEXT_VALUE_END];
    records->remaining = (size_t)out[CARRYFS_NEXT_REMAINING];
    return 1;
}

/* Seeks a key in the records of an accepted page. */
static void look_up(const struct records *all, const uint8_t *key, size_t key_length)
{
    uint64_t out[CARRYFS_FLOOR_WORDS];
    uint16_t scratch[1024]; /* enough for every page: it has 4,016 bytes of records, and each takes at least 5 */
    must(carryfs_lookup(all->part, all->length, all->remaining, key, key_length, scratch, 1024, out, CARRYFS_FLOOR_WORDS),
         "carryfs_lookup");
    if (out[CARRYFS_FLOOR_FOUND])
        printf("  the last key is found at index %" PRIu64 ", byte %" PRIu64 "\n", out[CARRYFS_FLOOR_INDEX],
               out[CARRYFS_FLOOR_OFFSET]);
    else
        printf("  the last key isn't found\n");
}

/* The records of an accepted page, in order, and the last of them sought by its key. */
static void read_records(const struct records *all, const uint8_t *uuid, int groups)
{
    struct records records = *all;
    while (take(&records)) {
        printf("  key ");
        print_hex(records.key, records.key_length);
        printf(", a value of %lu bytes\n", (unsigned long)records.value_length);
        if (groups && records.key[8] == CHECKSUM_GROUP)
            read_group(uuid, records.key, records.key_length, records.value, records.value_length);
    }
    if (all->remaining > 0)
        look_up(all, records.key, records.key_length);
}

/* Prints a page with its records. `out` becomes carryfs_page's answer, and the result is its status. */
static uint32_t read_page(const struct page *page, uint64_t out[CARRYFS_PAGE_WORDS])
{
    struct records records;
    uint32_t status = carryfs_page(page->bytes, BLOCK, page->block, page->generation, page->uuid, UUID, page->kind, page->parent,
                                   page->level, page->blocks, out, CARRYFS_PAGE_WORDS);
    printf("page in block %" PRIu64 ", tree %" PRIu32 ": ", page->block, page->kind);
    if (status != CARRYFS_DONE || refused(out))
        return status;
    printf("level %" PRIu64 ", records: %" PRIu64 "\n", out[CARRYFS_PAGE_LEVEL], out[CARRYFS_PAGE_COUNT]);
    records = records_of(page, out);
    read_records(&records, page->uuid, page->kind == CARRYFS_CATALOG && out[CARRYFS_PAGE_LEVEL] == 0);
    return status;
}

/* A page as it stands in a body, behind the byte of its kind. */
static int read_page_body(const uint8_t *body)
{
    struct page page;
    uint64_t out[CARRYFS_PAGE_WORDS];
    uint32_t status;
    page.block = number(body);
    page.generation = number(body + 8);
    page.uuid = body + 16;
    page.kind = body[32];
    page.parent = number(body + 33);
    page.level = body[41];
    page.blocks = number(body + 42);
    page.bytes = body + 50;
    status = read_page(&page, out);
    if (status == CARRYFS_NOT_ASKED) {
        printf("there is no such tree\n");
        return 0;
    }
    must(status, "carryfs_page");
    return 1;
}

/* Every body of the file; the first two roots are kept. 0 where the file isn't whole. */
static int read_bodies(FILE *file, struct root *roots, int *found)
{
    uint8_t body[PAGE_BODY];
    int kind;
    while ((kind = getc(file)) != EOF) {
        size_t length = kind == 1 ? ROOT_BODY : PAGE_BODY;
        if (kind != 1 && kind != 2) {
            printf("a body of kind %d: 1 is a root, 2 a page\n", kind);
            return 0;
        }
        if (fread(body, 1, length, file) != length) {
            if (ferror(file))
                printf("the file can't be read to its end\n");
            else
                printf("the file ends within a %s\n", kind == 1 ? "root" : "page");
            return 0;
        }
        if (kind == 1) {
            struct root root;
            root.slot = number(body);
            root.blocks = number(body + 8);
            memcpy(root.block, body + 16, BLOCK);
            read_root(&root);
            if (*found < 2)
                roots[(*found)++] = root;
        } else if (!read_page_body(body)) {
            return 0;
        }
    }
    if (ferror(file)) {
        printf("the file can't be read to its end\n");
        return 0;
    }
    return 1;
}

/* 1 for the first, 2 for the second, 0 for none. */
static uint64_t choose(const struct root *a, const struct root *b)
{
    uint64_t out[CARRYFS_SELECT_WORDS];
    must(carryfs_select(a->block, BLOCK, a->slot, a->blocks, b->block, BLOCK, b->slot, b->blocks, out, CARRYFS_SELECT_WORDS),
         "carryfs_select");
    printf("of the first two roots: ");
    if (refused(out))
        return 0;
    printf("the %s, of generation %" PRIu64 "\n", out[CARRYFS_SELECT_WHICH] == 1 ? "first" : "second",
           out[CARRYFS_SELECT_GENERATION]);
    return out[CARRYFS_SELECT_WHICH];
}

static int read_file(FILE *file)
{
    static struct root roots[2];
    int found = 0;
    if (!read_bodies(file, roots, &found))
        return 0;
    if (found < 2) {
        printf("fewer than two roots: none is chosen\n");
        return 0;
    }
    return choose(&roots[0], &roots[1]) != 0;
}

/* How many blocks an image has, from its length; 0 where it isn't one of a volume. */
static uint64_t count_blocks(FILE *file)
{
    long length;
    if (fseek(file, 0, SEEK_END) != 0 || (length = ftell(file)) < 0) {
        printf("the image's length can't be told: %s\n", strerror(errno));
        return 0;
    }
    if (length % BLOCK != 0) {
        printf("the image has %ld bytes, which aren't whole blocks of %d\n", length, BLOCK);
        return 0;
    }
    if (length / BLOCK < LEAST_BLOCKS) {
        printf("the image has %ld blocks: a volume has %d at least\n", length / BLOCK, LEAST_BLOCKS);
        return 0;
    }
    return (uint64_t)(length / BLOCK);
}

/* Reads a block of an image. Its place fits a long, since the image's length does. */
static int read_block(const struct image *image, uint64_t block, uint8_t *bytes)
{
    if (block >= image->blocks) {
        printf("block %" PRIu64 " lies beyond the image\n", block);
        return 0;
    }
    errno = 0;
    if (fseek(image->file, (long)block * BLOCK, SEEK_SET) == 0 && fread(bytes, 1, BLOCK, image->file) == BLOCK)
        return 1;
    printf("block %" PRIu64 " can't be read: %s\n", block, errno != 0 ? strerror(errno) : "the image ends before");
    return 0;
}

static int walk_children(struct image *image, const struct page *parent, const uint64_t *out);

/* A page of the catalog and all that is below it. It is read into the place of its level in `way`, the tree's root page, of any
 * level, into the last. A child has one level less, since carryfs_page refuses another: so each has a place, and the walk ends. A
 * bad tree may name a page over and over, and would take very long: hence the bound. */
static int walk(struct image *image, uint64_t block, uint64_t generation, uint64_t parent, uint32_t level)
{
    struct page page;
    uint64_t out[CARRYFS_PAGE_WORDS];
    uint8_t *bytes = image->way[level == CARRYFS_ANY_LEVEL ? LEVELS - 1 : level];
    if (image->pages > image->blocks)
        return 0;
    if (image->pages++ == image->blocks) {
        printf("the catalog names more pages than the volume has blocks\n");
        return 0;
    }
    if (!read_block(image, block, bytes))
        return 0;
    page.bytes = bytes;
    page.block = block;
    page.generation = generation;
    page.uuid = image->uuid;
    page.kind = CARRYFS_CATALOG;
    page.parent = parent;
    page.level = level;
    page.blocks = image->blocks;
    must(read_page(&page, out), "carryfs_page");
    if (out[CARRYFS_PAGE_CLASS] != 0)
        return 0;
    return out[CARRYFS_PAGE_LEVEL] == 0 || walk_children(image, &page, out);
}

/* The value of each record is a child's block and generation. Where one is refused the others are read all the same. */
static int walk_children(struct image *image, const struct page *parent, const uint64_t *out)
{
    struct records records = records_of(parent, out);
    uint32_t level = (uint32_t)out[CARRYFS_PAGE_LEVEL] - 1;
    int whole = 1;
    while (take(&records))
        whole &= walk(image, number(records.value), number(records.value + 8), parent->generation, level);
    return whole;
}

/* A root of an image. A block that can't be read counts as no root, as zeros do. */
static void read_slot(const struct image *image, uint64_t slot, struct root *root)
{
    root->slot = slot;
    root->blocks = image->blocks;
    if (!read_block(image, slot, root->block))
        memset(root->block, 0, BLOCK);
    read_root(root);
}

/* The two roots of an image, and the choice: what carryfs_root answers of the chosen one. 0 where there is none. */
static int image_root(const struct image *image, uint64_t out[CARRYFS_ROOT_WORDS], uint8_t text[CARRYFS_TEXT_BYTES])
{
    static struct root roots[2];
    uint64_t which;
    read_slot(image, FIRST_SLOT, &roots[0]);
    read_slot(image, image->blocks - SLOT_FROM_END, &roots[1]);
    which = choose(&roots[0], &roots[1]);
    if (which == 0)
        return 0;
    root_fields(&roots[which - 1], out, text);
    return 1;
}

/* The chosen root of a volume, and its catalog. */
static int read_image(FILE *file)
{
    static struct image image;
    uint64_t out[CARRYFS_ROOT_WORDS];
    uint8_t text[CARRYFS_TEXT_BYTES];
    image.file = file;
    image.blocks = count_blocks(file);
    if (image.blocks == 0 || !image_root(&image, out, text))
        return 0;
    memcpy(image.uuid, text + CARRYFS_TEXT_UUID, UUID);
    return walk(&image, out[CARRYFS_ROOT_CATALOG], out[CARRYFS_ROOT_CATALOG + 1], out[CARRYFS_ROOT_GENERATION],
                CARRYFS_ANY_LEVEL);
}

/* Seeks a record in a mapped image, below the root of which these are the words and the text. */
static int search(const uint8_t *bytes, size_t length, const uint64_t *root, const uint8_t *text, const struct sought *sought)
{
    uint64_t out[CARRYFS_SEARCH_WORDS];
    uint64_t count = 0; /* of the pages accepted in earlier searches: this is the first */
    uint32_t status = carryfs_search(bytes, length, root, CARRYFS_ROOT_WORDS, text, CARRYFS_TEXT_BYTES, sought->kind, sought->key,
                                     sought->length, count, out, CARRYFS_SEARCH_WORDS);
    printf("search in tree %" PRIu32 " for ", sought->kind);
    print_hex(sought->key, sought->length);
    printf(": ");
    if (status == CARRYFS_NOT_ASKED) {
        printf("there is no such tree\n");
        return 0;
    }
    must(status, "carryfs_search");
    if (!refused(out))
        printf("%s\n", out[CARRYFS_SEARCH_FOUND] ? "found" : "none");
    count = out[CARRYFS_SEARCH_COUNT];
    printf("  pages accepted: %" PRIu64 "\n", count);
    if (!out[CARRYFS_SEARCH_FOUND])
        return 0;
    printf("  the key at byte %" PRIu64 ", a value of %" PRIu64 " bytes at byte %" PRIu64 ": ", out[CARRYFS_SEARCH_KEY],
           out[CARRYFS_SEARCH_VALUE_LENGTH], out[CARRYFS_SEARCH_VALUE]);
    print_hex(bytes + out[CARRYFS_SEARCH_VALUE],
              out[CARRYFS_SEARCH_VALUE_LENGTH] < SHOWN ? out[CARRYFS_SEARCH_VALUE_LENGTH] : SHOWN);
    printf("%s\n", out[CARRYFS_SEARCH_VALUE_LENGTH] > SHOWN ? " .." : "");
    return 1;
}

/* The chosen root of a volume, and a record sought below it. The whole image is mapped, not read. */
static int search_image(FILE *file, const struct sought *sought)
{
    static struct image image;
    uint64_t root[CARRYFS_ROOT_WORDS];
    uint8_t text[CARRYFS_TEXT_BYTES];
    struct stat about;
    void *bytes;
    int found;
    image.file = file;
    image.blocks = sought->blocks != 0 ? sought->blocks : count_blocks(file);
    if (image.blocks == 0 || !image_root(&image, root, text))
        return 0;
    if (fstat(fileno(file), &about) != 0 ||
        (bytes = mmap(NULL, (size_t)about.st_size, PROT_READ, MAP_PRIVATE, fileno(file), 0)) == MAP_FAILED) {
        printf("the image can't be mapped: %s\n", strerror(errno));
        return 0;
    }
    found = search(bytes, (size_t)about.st_size, root, text, sought);
    munmap(bytes, (size_t)about.st_size);
    return found;
}

/* Opens a file and tries to read it: a folder can be opened. */
static FILE *open_file(const char *name)
{
    FILE *file = fopen(name, "rb");
    if (file) {
        int first = getc(file);
        if (!ferror(file)) {
            ungetc(first, file);
            return file;
        }
    }
    perror(name);
    exit(2);
}

static void read_data(const char *name)
{
    FILE *file = open_file(name);
    data_length = fread(data, 1, UNIT + 1, file);
    if (ferror(file)) {
        perror(name);
        exit(2);
    }
    fclose(file);
    if (data_length == 0 || data_length > UNIT) {
        fprintf(stderr, "%s: not 1 to 65536 bytes\n", name);
        exit(2);
    }
}

/* Run at every exit: what standard output didn't take makes it status 1. */
static void finish(void)
{
    if (fflush(stdout) != 0 || ferror(stdout)) {
        fprintf(stderr, "example: standard output can't be written\n");
        _Exit(1);
    }
}

static int usage(void)
{
    fprintf(stderr, "usage: example [--image] FILE [DATA]\n       example --search FILE TREE KEY [BLOCKS]\n");
    return 2;
}

/* The value of a hexadecimal digit, 16 of another character. */
static unsigned digit(char c)
{
    static const char digits[] = "0123456789abcdefABCDEF";
    const char *at = c != 0 ? strchr(digits, c) : NULL;
    unsigned place = at ? (unsigned)(at - digits) : 16;
    return at && place > 15 ? place - 6 : place;
}

/* A key from its digits, which it takes the place of. 0 where they aren't digits, two for each byte. */
static int read_key(char *word, struct sought *sought)
{
    uint8_t *key = (uint8_t *)word;
    size_t length = strlen(word) / 2;
    size_t i;
    if (strlen(word) % 2 != 0)
        return 0;
    for (i = 0; i < length; i++) {
        unsigned high = digit(word[2 * i]), low = digit(word[2 * i + 1]);
        if (high > 15 || low > 15)
            return 0;
        key[i] = (uint8_t)(high << 4 | low);
    }
    sought->key = key;
    sought->length = length;
    return 1;
}

/* A decimal number; another word is 0, which is no tree, and no number of blocks. */
static uint64_t decimal(const char *word)
{
    char *end;
    unsigned long long number = strtoull(word, &end, 10);
    return *end == 0 ? number : 0;
}

/* The words behind --search. */
static int search_words(int count, char **words)
{
    struct sought sought;
    uint64_t kind;
    FILE *file;
    int found;
    if ((count != 3 && count != 4) || !read_key(words[2], &sought))
        return usage();
    kind = decimal(words[1]);
    sought.kind = kind <= UINT32_MAX ? (uint32_t)kind : 0;
    sought.blocks = count == 4 ? decimal(words[3]) : 0;
    if (count == 4 && (sought.blocks < LEAST_BLOCKS || sought.blocks > LONG_MAX / BLOCK)) {
        fprintf(stderr, "%s: a volume doesn't have so many blocks\n", words[3]);
        return 2;
    }
    file = open_file(words[0]);
    found = search_image(file, &sought);
    fclose(file);
    return found ? 0 : 1;
}

int main(int count, char **words)
{
    int image = count > 1 && strcmp(words[1], "--image") == 0;
    int whole;
    FILE *file;
    if (atexit(finish) != 0)
        return 1;
    if (count > 1 && strcmp(words[1], "--search") == 0)
        return search_words(count - 2, words + 2);
    words += image;
    count -= image;
    if (count != 2 && count != 3)
        return usage();
    if (count == 3)
        read_data(words[2]);
    file = open_file(words[1]);
    whole = image ? read_image(file) : read_file(file);
    fclose(file);
    return whole ? 0 : 1;
}
