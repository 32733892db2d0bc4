/*
 * Reads texts to tapes: with enough room, with too little, and texts that are turned back. Of each call it looks at every word
 * of the answer and at every byte of the lent list.
 */
#include "harkoxin.h"

#include <inttypes.h>
#include <stdio.h>
#include <string.h>

enum { MOST_NODES = 16, ANY = 0x55 };

static const char table[] =
    "name=id\ncategory=identification\nrole=excluded\n"
    "name=c\ncategory=chapter\nrole=content\n"
    "name=v\ncategory=verse\nrole=content\n"
    "name=p\ncategory=paragraph\nrole=boundary\n"
    "name=nd\ncategory=character\nrole=content\n";

/* The fields of a node but for its flags, which are 0. */
struct node {
    uint32_t kind, marker, start, len, link;
};

struct trial {
    const char *text;
    size_t room; /* in bytes */
    uint64_t answer[HARKOXIN_READ_WORDS];
    struct node nodes[MOST_NODES];
};

#define LISTING "\\id GEN\n\\c 1\n\\p\n\\v 2 Word"
#define LISTING_NODES                                                                                                        \
    {                                                                                                                        \
        {0, 0, 0, 25, 11}, {1, 0, 0, 3, 3}, {5, 0, 3, 5, 0}, {7, 0, 8, 0, 0}, {3, 1, 8, 4, 1}, {5, 0, 12, 1, 0},              \
        {1, 3, 13, 2, 10}, {5, 0, 15, 1, 0}, {4, 2, 16, 4, 2}, {5, 0, 20, 5, 0}, {7, 3, 25, 0, 0},                            \
    }

static const struct trial trials[] = {
    /* Enough room: exactly, with a rest that is no node, and for more nodes. */
    {LISTING, 11 * HARKOXIN_NODE_BYTES, {HARKOXIN_DONE, 0, 0, 11}, LISTING_NODES},
    {LISTING, 11 * HARKOXIN_NODE_BYTES + 15, {HARKOXIN_DONE, 0, 0, 11}, LISTING_NODES},
    {LISTING, 14 * HARKOXIN_NODE_BYTES, {HARKOXIN_DONE, 0, 0, 11}, LISTING_NODES},
    {"", HARKOXIN_NODE_BYTES, {HARKOXIN_DONE, 0, 0, 1}, {{0, 0, 0, 0, 1}}},
    /* Too little: the place says how much would do. */
    {LISTING, 11 * HARKOXIN_NODE_BYTES - 1, {HARKOXIN_REFUSED, HARKOXIN_SHORT_NODE_LIST, 11, 0}, {{0}}},
    {LISTING, 0, {HARKOXIN_REFUSED, HARKOXIN_SHORT_NODE_LIST, 11, 0}, {{0}}},
    {"", 0, {HARKOXIN_REFUSED, HARKOXIN_SHORT_NODE_LIST, 1, 0}, {{0}}},
    /* Turned back where the fault is, whatever the room. */
    {"\\p a\\zz b", 14 * HARKOXIN_NODE_BYTES, {HARKOXIN_REFUSED, HARKOXIN_BAD_MARKER, 4, 0}, {{0}}},
    {"\\p a\\zz b", 0, {HARKOXIN_REFUSED, HARKOXIN_BAD_MARKER, 4, 0}, {{0}}},
    {"\\p \\nd a\\p b", 14 * HARKOXIN_NODE_BYTES, {HARKOXIN_REFUSED, HARKOXIN_UNMATCHED_MARKER, 8, 0}, {{0}}},
    {"\\p \\nd a", 14 * HARKOXIN_NODE_BYTES, {HARKOXIN_REFUSED, HARKOXIN_UNMATCHED_MARKER, 8, 0}, {{0}}},
    {"\\p \xFF", 14 * HARKOXIN_NODE_BYTES, {HARKOXIN_REFUSED, HARKOXIN_BAD_SOURCE, 3, 0}, {{0}}},
};

static uint8_t *put(uint8_t *at, uint32_t number, int bytes)
{
    for (int k = 0; k < bytes; k++)
        *at++ = (uint8_t)(number >> 8 * k);
    return at;
}

static uint8_t *put_node(uint8_t *at, const struct node *node)
{
    at = put(at, node->kind, 2);
    at = put(at, node->marker, 2);
    at = put(at, node->start, 4);
    at = put(at, node->len, 4);
    return put(at, node->link, 4);
}

static int try_text(const struct trial *trial)
{
    uint8_t tape[MOST_NODES * HARKOXIN_NODE_BYTES], expected[sizeof tape];
    memset(tape, ANY, sizeof tape);
    memset(expected, ANY, sizeof expected);
    uint8_t *end = expected;
    for (uint64_t k = 0; k < trial->answer[HARKOXIN_READ_NODES]; k++)
        end = put_node(end, &trial->nodes[k]);

    uint64_t answer[HARKOXIN_READ_WORDS];
    harkoxin_read((const uint8_t *)table, strlen(table), (const uint8_t *)trial->text, strlen(trial->text),
                  tape, trial->room, answer, HARKOXIN_READ_WORDS);
    int is_same = memcmp(answer, trial->answer, sizeof answer) == 0 && memcmp(tape, expected, sizeof tape) == 0;
    if (!is_same)
        printf("%s with room for %zu bytes: verdict %" PRIu64 ", number %" PRIu64 ", place %" PRIu64 ", nodes %" PRIu64 "\n",
               trial->text, trial->room, answer[HARKOXIN_READ_VERDICT], answer[HARKOXIN_READ_NUMBER],
               answer[HARKOXIN_READ_PLACE], answer[HARKOXIN_READ_NODES]);
    return is_same;
}

int main(void)
{
    size_t count = sizeof trials / sizeof *trials;
    for (size_t k = 0; k < count; k++)
        if (!try_text(&trials[k]))
            return 1;
    printf("%zu texts were read or turned back\n", count);
    return 0;
}
