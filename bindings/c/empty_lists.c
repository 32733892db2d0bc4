/*
 * Tries what harkoxin.h says of lists of length 0: in each function NULL stands for each of them, alone and together with
 * others, and all that is written must be what the same call writes with a pointer of length 0.
 */
#include "harkoxin.h"

#include <stdio.h>
#include <string.h>

enum { TABLE, SOURCE, TAPE, SEEN, OPENS, LIST, ENDS, TEXT, OUT, LISTS };

static const uint8_t table[] = "name=v\ncategory=verse\nrole=content\n";
static const uint8_t source[] = "\\v 2";
/* A root and a verse over the whole source. */
static const uint8_t tape[32] = {0, 0, 0, 0, 0, 0, 0, 0, 0, 0, 0, 0, 2, 0, 0, 0, 4, 0, 0, 0, 0, 0, 0, 0, 4, 0, 0, 0, 0, 0, 0, 0};
static const uint64_t finding[HARKOXIN_FINDING_WORDS] = {1, HARKOXIN_INVALID_VERSE_SEQUENCE, 0, 4, 1, 0, 1, 0};

/* All that is written. */
struct lists {
    uint32_t seen[2];
    harkoxin_open_start opens[2];
    uint64_t list[40], out[HARKOXIN_REPORT_WORDS], ends[4];
    uint8_t text[400], nodes[2 * HARKOXIN_NODE_BYTES];
};

/* A pointer and a length for a list: whole, or empty with its pointer, or empty with NULL. */
#define LENT(at, len, which) (is_null && empty >> (which) & 1 ? NULL : (at)), (empty >> (which) & 1 ? 0 : (len))
#define DOCUMENT LENT(table, sizeof table - 1, TABLE), LENT(source, sizeof source - 1, SOURCE), LENT(tape, sizeof tape, TAPE)

static void run(int function, unsigned empty, int is_null, struct lists *l)
{
    memset(l, 0x55, sizeof *l);
    switch (function) {
    case 0:
        harkoxin_check(DOCUMENT, LENT(l->seen, 2, SEEN), LENT(l->opens, 2, OPENS), LENT(l->list, 40, LIST),
                       LENT(l->out, HARKOXIN_CHECK_WORDS, OUT));
        break;
    case 1:
        harkoxin_message(DOCUMENT, HARKOXIN_INVALID_VERSE_SEQUENCE, 0, 1, 1, 0, LENT(l->text, 400, TEXT),
                         LENT(l->out, HARKOXIN_MESSAGE_WORDS, OUT));
        break;
    case 2:
        harkoxin_messages(DOCUMENT, LENT(finding, HARKOXIN_FINDING_WORDS, LIST), LENT(l->ends, 4, ENDS),
                          LENT(l->text, 400, TEXT), LENT(l->out, HARKOXIN_MESSAGES_WORDS, OUT));
        break;
    case 3:
        harkoxin_report(DOCUMENT, LENT(l->seen, 2, SEEN), LENT(l->opens, 2, OPENS), LENT(l->list, 40, LIST),
                        LENT(l->ends, 4, ENDS), LENT(l->text, 400, TEXT), LENT(l->out, HARKOXIN_REPORT_WORDS, OUT));
        break;
    case 4:
        harkoxin_tally(LENT(finding, HARKOXIN_FINDING_WORDS, LIST), LENT(l->list, 40, ENDS),
                       LENT(l->out, HARKOXIN_TALLY_WORDS, OUT));
        break;
    case 5:
        harkoxin_mark(0, 1, 1, LENT(l->out, HARKOXIN_MARK_WORDS, OUT));
        break;
    default:
        harkoxin_read(LENT(table, sizeof table - 1, TABLE), LENT(source, sizeof source - 1, SOURCE),
                      LENT(l->nodes, sizeof l->nodes, TAPE), LENT(l->out, HARKOXIN_READ_WORDS, OUT));
    }
}

static int try_call(int function, unsigned empty)
{
    struct lists with_pointer, with_null;
    run(function, empty, 0, &with_pointer);
    run(function, empty, 1, &with_null);
    if (empty == 0 && with_null.out[0] != HARKOXIN_DONE) {
        printf("function %d isn't done with whole lists\n", function);
        return 0;
    }
    if (empty == 0 && function == 3 && with_null.out[HARKOXIN_REPORT_MESSAGES] != HARKOXIN_DONE) {
        printf("the texts of a report aren't written\n");
        return 0;
    }
    if (memcmp(&with_pointer, &with_null, sizeof with_null) != 0) {
        printf("function %d, empty lists %x: NULL gives another answer\n", function, empty);
        return 0;
    }
    return 1;
}

int main(void)
{
    unsigned calls = 0;
    for (int function = 0; function < 7; function++) {
        for (unsigned empty = 0; empty < 1u << LISTS; empty++) {
            if (!try_call(function, empty))
                return 1;
            calls++;
        }
    }
    printf("NULL stood for empty lists in %u calls\n", calls);
    return 0;
}
