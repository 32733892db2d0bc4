/*
 * Checks a document whose verses have numbers nobody can read, and tries code 35 and the codes above it in tallies and texts: every
 * word of each finding and of each answer, and every byte of each text.
 */
#include "harkoxin.h"

#include <stdio.h>
#include <string.h>

enum { NODES = 4, CODE = HARKOXIN_UNREADABLE_VERSE_NUMBER };

static const uint8_t table[] = "name=v\ncategory=verse\nrole=content\n";
static const uint8_t source[] = "\\v x-1\\v 4294967296\\v 1-x";
/* A root and three verses, which take the whole source. */
static const uint8_t tape[NODES * HARKOXIN_NODE_BYTES] = {
    0, 0, 0, 0, 0, 0, 0, 0, 0, 0, 0, 0, NODES, 0, 0, 0,
    4, 0, 0, 0, 0, 0, 0, 0, 6, 0, 0, 0, 0, 0, 0, 0,
    4, 0, 0, 0, 6, 0, 0, 0, 13, 0, 0, 0, 0, 0, 0, 0,
    4, 0, 0, 0, 19, 0, 0, 0, 6, 0, 0, 0, 0, 0, 0, 0};

/* The third verse has no finding: its start is the next verse, and its end need not be read. */
static const uint64_t findings[5][HARKOXIN_FINDING_WORDS] = {
    {HARKOXIN_WARNING, HARKOXIN_VERSE_OUTSIDE_PARAGRAPH, 0, 6, 1, 0, 0, 0},
    {HARKOXIN_WARNING, CODE, 0, 6, 1, 0, 0, 0},
    {HARKOXIN_WARNING, CODE, 6, 13, 2, 1, 0, 0},
    {HARKOXIN_ERROR, HARKOXIN_MISSING_ID_MARKER, 0, 0, 0, 0, 0, 0},
    {HARKOXIN_ERROR, HARKOXIN_MISSING_CHAPTER_MARKER, 0, 0, 0, 0, 0, 0}};

#define DOCUMENT table, sizeof table - 1, source, sizeof source - 1, tape, sizeof tape

static int same(const char *what, const void *given, const void *owed, size_t size)
{
    if (memcmp(given, owed, size) == 0)
        return 1;
    printf("%s: another answer than owed\n", what);
    return 0;
}

static int try_check(void)
{
    static const uint64_t owed[HARKOXIN_CHECK_WORDS] = {HARKOXIN_DONE, 0, 0, 5, 5, 3, 2, 3, 0};
    uint32_t seen[NODES];
    harkoxin_open_start opens[NODES];
    uint64_t list[5][HARKOXIN_FINDING_WORDS], out[HARKOXIN_CHECK_WORDS];
    harkoxin_check(DOCUMENT, seen, NODES, opens, NODES, list[0], sizeof list / sizeof list[0][0], out, HARKOXIN_CHECK_WORDS);
    return same("the check", out, owed, sizeof owed) && same("the findings", list, findings, sizeof findings);
}

/* The text of a form for a node; NULL where number 12 turns it back. */
static int try_text(uint64_t code, uint64_t form, uint64_t node, const char *text)
{
    uint8_t written[64], owed_text[64];
    uint64_t out[HARKOXIN_MESSAGE_WORDS], owed[HARKOXIN_MESSAGE_WORDS] = {HARKOXIN_REFUSED, HARKOXIN_NO_TEXT, 0, 0};
    memset(written, '#', sizeof written);
    memset(owed_text, '#', sizeof owed_text);
    if (text != NULL) {
        memcpy(owed_text, text, strlen(text));
        owed[HARKOXIN_MESSAGE_VERDICT] = HARKOXIN_DONE;
        owed[HARKOXIN_MESSAGE_NUMBER] = 0;
        owed[HARKOXIN_MESSAGE_LEN] = strlen(text);
    }
    harkoxin_message(DOCUMENT, code, form, node, 0, 0, written, sizeof written, out, HARKOXIN_MESSAGE_WORDS);
    return same("a text's answer", out, owed, sizeof owed) && same("a text", written, owed_text, sizeof written);
}

static int try_texts(void)
{
    return try_text(CODE, 0, 1, "verse label x-1 has no number") && try_text(CODE, 1, 2, "verse label 4294967296 is too large") &&
           try_text(CODE, 0, 3, "verse label 1-x has no number") && try_text(CODE, 2, 1, NULL) && try_text(CODE, 0, 0, NULL) &&
           try_text(CODE, 0, NODES, NULL) && try_text(CODE + 1, 0, 1, NULL);
}

/* Number 11 starts above the last code. */
static int try_tally(uint64_t code)
{
    uint64_t list[HARKOXIN_FINDING_WORDS] = {HARKOXIN_WARNING, code, 0, 0, 0, 0, 0, 0};
    uint64_t counts[HARKOXIN_CODES], owed_counts[HARKOXIN_CODES];
    uint64_t out[HARKOXIN_TALLY_WORDS], owed[HARKOXIN_TALLY_WORDS] = {HARKOXIN_REFUSED, HARKOXIN_BAD_LIST, 0};
    memset(counts, 0x55, sizeof counts);
    memset(owed_counts, 0x55, sizeof owed_counts);
    if (code < HARKOXIN_CODES) {
        memset(owed_counts, 0, sizeof owed_counts);
        owed_counts[code] = 1;
        owed[HARKOXIN_TALLY_VERDICT] = HARKOXIN_DONE;
        owed[HARKOXIN_TALLY_NUMBER] = 0;
    }
    harkoxin_tally(list, HARKOXIN_FINDING_WORDS, counts, HARKOXIN_CODES, out, HARKOXIN_TALLY_WORDS);
    return same("a tally", out, owed, sizeof owed) && same("its counts", counts, owed_counts, sizeof counts);
}

int main(void)
{
    if (!try_check() || !try_texts() || !try_tally(CODE - 1) || !try_tally(CODE) || !try_tally(CODE + 1) || !try_tally(UINT64_MAX))
        return 1;
    printf("verse numbers nobody can read have their findings, texts and count\n");
    return 0;
}
