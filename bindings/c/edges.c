/*
 * What carryfs.h says of carryfs_search at its edges, on the image of samples/levels.pages: what isn't asked, no room, a count at
 * its largest value, roots made by hand, images that end early. Prints what is otherwise; exit status 0 if nothing is.
 *
 *   edges IMAGE
 */
#include <inttypes.h>
#include <stdio.h>
#include <stdlib.h>
#include <string.h>

#include "carryfs.h"

#define BLOCK 4096u
#define BLOCKS 2048u /* of the sample */
#define SLOT 256u    /* its newer root */
#define LEAF 535u    /* a leaf of the catalog, behind two pages in blocks before it */
#define UNTOUCHED 9u

/* A search, as it is asked for. */
struct call {
    const uint8_t *image;
    size_t image_length;
    const uint64_t *root;
    size_t root_length;
    const uint8_t *text;
    size_t text_length;
    uint32_t kind;
    const uint8_t *key;
    size_t key_length;
    uint64_t count;
    size_t room;
};

static const uint8_t key[] = {0, 0, 0, 0, 0, 0, 0, 10, 1}; /* the first inode of the leaf */
static int bad;

/* Asks, and holds the status and the words to what is due; none are due where the status isn't 0. */
static void ask(const char *what, const struct call *call, uint32_t status, const uint64_t *due)
{
    uint64_t out[CARRYFS_SEARCH_WORDS + 2];
    uint32_t got;
    size_t i;
    for (i = 0; i < CARRYFS_SEARCH_WORDS + 2; i++)
        out[i] = UNTOUCHED;
    got = carryfs_search(call->image, call->image_length, call->root, call->root_length, call->text, call->text_length, call->kind,
                         call->key, call->key_length, call->count, out, call->room);
    if (got != status) {
        printf("%s: status %" PRIu32 ", not %" PRIu32 "\n", what, got, status);
        bad = 1;
    }
    for (i = 0; i < CARRYFS_SEARCH_WORDS + 2; i++) {
        uint64_t word = due && i < CARRYFS_SEARCH_WORDS ? due[i] : UNTOUCHED;
        if (out[i] != word) {
            printf("%s: word %lu is %" PRIu64 ", not %" PRIu64 "\n", what, (unsigned long)i, out[i], word);
            bad = 1;
        }
    }
}

/* A refusal, or none found: class, reason and the pages accepted. */
static void ask_none(const char *what, const struct call *call, uint64_t class, uint64_t reason, uint64_t count)
{
    uint64_t due[CARRYFS_SEARCH_WORDS] = {0};
    due[CARRYFS_SEARCH_CLASS] = class;
    due[CARRYFS_SEARCH_REASON] = reason;
    due[CARRYFS_SEARCH_COUNT] = count;
    ask(what, call, CARRYFS_DONE, due);
}

/* The record, behind so many pages more. */
static void ask_found(const char *what, const struct call *call, uint64_t count)
{
    uint64_t start = (uint64_t)LEAF * BLOCK + 84;
    uint64_t due[CARRYFS_SEARCH_WORDS] = {0};
    due[CARRYFS_SEARCH_FOUND] = 1;
    due[CARRYFS_SEARCH_KEY] = start;
    due[CARRYFS_SEARCH_KEY_LENGTH] = sizeof key;
    due[CARRYFS_SEARCH_VALUE] = start + sizeof key;
    due[CARRYFS_SEARCH_VALUE_LENGTH] = 128;
    due[CARRYFS_SEARCH_COUNT] = count;
    ask(what, call, CARRYFS_DONE, due);
}

/* NOT_ASKED comes before NO_ROOM, and NO_ROOM before the image is looked at. */
static void ask_statuses(const struct call *good)
{
    static const uint32_t kinds[] = {0, 5, 6, 0x101, UINT32_MAX};
    struct call call;
    size_t i;
    for (i = 0; i < sizeof kinds / sizeof kinds[0]; i++) {
        call = *good;
        call.kind = kinds[i];
        ask("another tree", &call, CARRYFS_NOT_ASKED, NULL);
        call.room = 0;
        ask("another tree without room", &call, CARRYFS_NOT_ASKED, NULL);
    }
    for (i = 0; i < 20; i++) {
        call = *good;
        call.root_length = i;
        if (i != CARRYFS_ROOT_WORDS)
            ask("a root of another length", &call, CARRYFS_NOT_ASKED, NULL);
    }
    for (i = 0; i < 300; i++) {
        call = *good;
        call.text_length = i;
        if (i != CARRYFS_TEXT_BYTES)
            ask("a text of another length", &call, CARRYFS_NOT_ASKED, NULL);
    }
    for (i = 0; i < CARRYFS_SEARCH_WORDS; i++) {
        call = *good;
        call.room = i;
        ask("no room", &call, CARRYFS_NO_ROOM, NULL);
        call.image_length = 0;
        ask("no room, and no image", &call, CARRYFS_NO_ROOM, NULL);
    }
    call = *good;
    call.room = CARRYFS_SEARCH_WORDS + 2;
    ask_found("more room than is needed", &call, 3);
}

static void ask_counts(const struct call *good)
{
    static const uint64_t before[] = {0, 1, 41, UINT64_MAX - 3, UINT64_MAX - 2, UINT64_MAX - 1, UINT64_MAX};
    struct call call = *good;
    size_t i;
    for (i = 0; i < sizeof before / sizeof before[0]; i++) {
        call.count = before[i];
        ask_found("a count", &call, before[i] > UINT64_MAX - 3 ? UINT64_MAX : before[i] + 3);
    }
    call.image_length = LEAF * BLOCK;
    call.count = 41;
    ask_none("a count beside a refusal", &call, 7, 0, 43);
    call.count = UINT64_MAX;
    ask_none("the largest count beside a refusal", &call, 7, 0, UINT64_MAX);
}

/* Where the image ends, and where a search in it does. */
static void ask_images(const struct call *good)
{
    struct call call = *good;
    call.image_length = (LEAF + 1) * BLOCK;
    ask_found("an image that ends behind the leaf", &call, 3);
    call.image_length--;
    ask_none("a byte less", &call, 7, 0, 2);
    call.image_length = LEAF * BLOCK;
    ask_none("an image that ends before the leaf", &call, 7, 0, 2);
    call.image_length = 531 * BLOCK;
    ask_none("behind the catalog's top", &call, 7, 0, 1);
    call.image_length = 530 * BLOCK + BLOCK - 1;
    ask_none("within it", &call, 7, 0, 0);
    call.image_length = 0;
    ask_none("no image", &call, 7, 0, 0);
}

/* A copy of the root's words with another in a place. */
static void with_word(const char *what, const struct call *good, size_t place, uint64_t word, uint64_t class, uint64_t reason)
{
    uint64_t root[CARRYFS_ROOT_WORDS];
    struct call call = *good;
    memcpy(root, good->root, sizeof root);
    root[place] = word;
    call.root = root;
    if (class == 0)
        ask_found(what, &call, 3);
    else
        ask_none(what, &call, class, reason, 0);
}

/* Roots made by hand meet the tests of a page, and of those of a root none. */
static void ask_roots(const struct call *good)
{
    uint8_t text[CARRYFS_TEXT_BYTES];
    struct call call = *good;
    with_word("the word CLASS", good, CARRYFS_ROOT_CLASS, 3, 0, 0);
    with_word("the word REASON", good, CARRYFS_ROOT_REASON, UINT64_MAX, 0, 0);
    with_word("no label", good, CARRYFS_ROOT_HAS_LABEL, 0, 0, 0);
    with_word("another word for a label", good, CARRYFS_ROOT_HAS_LABEL, 2, 0, 0);
    with_word("a label that is too long", good, CARRYFS_ROOT_LABEL_LENGTH, 256, 0, 0);
    with_word("a label that is far too long", good, CARRYFS_ROOT_LABEL_LENGTH, UINT64_MAX, 0, 0);
    with_word("a newer root", good, CARRYFS_ROOT_GENERATION, UINT64_MAX, 0, 0);
    with_word("a root older than its tree", good, CARRYFS_ROOT_GENERATION, 4, 2, 135);
    with_word("generation 0", good, CARRYFS_ROOT_GENERATION, 0, 2, 135);
    with_word("the cursor", good, CARRYFS_ROOT_WORKSPACE_CURSOR, UINT64_MAX, 0, 0);
    with_word("another tree's reference", good, CARRYFS_ROOT_CLEANUP, 0, 0, 0);
    with_word("1,023 blocks", good, CARRYFS_ROOT_BLOCKS, 1023, 2, 5);
    with_word("a block behind the image", good, CARRYFS_ROOT_CATALOG, BLOCKS, 7, 0);
    with_word("the last block of all", good, CARRYFS_ROOT_CATALOG, UINT64_MAX, 7, 0);
    with_word("a block whose byte is 2^64", good, CARRYFS_ROOT_CATALOG, UINT64_C(1) << 52, 7, 0);
    with_word("a block whose place wraps into the image", good, CARRYFS_ROOT_CATALOG, (UINT64_C(1) << 52) + 530, 7, 0);
    with_word("the reserved band", good, CARRYFS_ROOT_CATALOG, 0, 2, 6);
    with_word("another generation of the page", good, CARRYFS_ROOT_CATALOG + 1, 4, 3, 149);
    memcpy(text, good->text, sizeof text);
    text[CARRYFS_TEXT_UUID] ^= 1;
    call.text = text;
    ask_none("another UUID", &call, 3, 150, 0);
    memset(text, 0, sizeof text);
    ask_none("no UUID", &call, 2, 13, 0);
    memcpy(text, good->text, CARRYFS_TEXT_LABEL);
    memset(text + CARRYFS_TEXT_LABEL, 0xFF, CARRYFS_TEXT_BYTES - CARRYFS_TEXT_LABEL);
    ask_found("another label", &call, 3);
}

/* Keys of no record. */
static void ask_keys(const struct call *good)
{
    static const uint8_t removed[] = {0, 0, 0, 0, 0, 0, 0, 9, 1};
    static uint8_t longest[100000];
    struct call call = *good;
    call.key_length = 0;
    ask_none("the empty key", &call, 0, 0, 1);
    call.key_length = 8;
    ask_none("a key that is a part of the first", &call, 0, 0, 2);
    call.key = removed;
    call.key_length = sizeof removed;
    ask_none("a key below the first of a page inside the tree", &call, 0, 0, 2);
    memset(longest, 0xFF, sizeof longest);
    call.key = longest;
    call.key_length = sizeof longest;
    ask_none("a long key", &call, 0, 0, 3);
}

static uint8_t *read_image(const char *name)
{
    uint8_t *image = malloc(BLOCKS * BLOCK);
    FILE *file = fopen(name, "rb");
    if (!image || !file || fread(image, BLOCK, BLOCKS, file) != BLOCKS || fgetc(file) != EOF) {
        fprintf(stderr, "%s: not the image of samples/levels.pages\n", name);
        exit(2);
    }
    fclose(file);
    return image;
}

int main(int count, char **words)
{
    uint64_t root[CARRYFS_ROOT_WORDS];
    uint8_t text[CARRYFS_TEXT_BYTES];
    struct call good = {0};
    uint8_t *image;
    if (count != 2) {
        fprintf(stderr, "usage: edges IMAGE\n");
        return 2;
    }
    image = read_image(words[1]);
    if (carryfs_root(image + SLOT * BLOCK, BLOCK, SLOT, BLOCKS, root, CARRYFS_ROOT_WORDS, text, CARRYFS_TEXT_BYTES) != 0 ||
        root[CARRYFS_ROOT_CLASS] != 0) {
        fprintf(stderr, "%s: no root in block %u\n", words[1], SLOT);
        return 2;
    }
    good.image = image;
    good.image_length = BLOCKS * BLOCK;
    good.root = root;
    good.root_length = CARRYFS_ROOT_WORDS;
    good.text = text;
    good.text_length = CARRYFS_TEXT_BYTES;
    good.kind = CARRYFS_CATALOG;
    good.key = key;
    good.key_length = sizeof key;
    good.room = CARRYFS_SEARCH_WORDS;
    ask_found("the record", &good, 3);
    ask_statuses(&good);
    ask_counts(&good);
    ask_images(&good);
    ask_roots(&good);
    ask_keys(&good);
    free(image);
    if (!bad)
        printf("carryfs_search answers as carryfs.h says\n");
    return bad;
}
